#!/usr/bin/env python3
"""Faults put into the second program, to see whether the inputs tell them.

A fault is an edit of one file.  The second program is loaded once more with
that edit, and the inputs of the gate are given to it until one answer differs
from the unfaulted second program's.  Each program that a fault names has to
tell it by its own inputs; of `calls` the records of one kind have to.  No proved
program is run.

    second/faults.py            all of them; the last line is the sum
    second/faults.py --list     their names

second/tests.py runs all of them.
"""

import os
import random
import sys
import types
from collections import namedtuple

sys.dont_write_bytecode = True

import inputs  # noqa: E402
import programs  # noqa: E402

HERE = os.path.dirname(os.path.abspath(__file__))

# In the order in which they can be loaded: each imports only those before it.
MODULES = ("refusal", "signals", "text", "station", "passages", "broadcast", "reasons",
           "programs")

# about: what is wrong.  tellers: the programs whose inputs have to tell it, and
# of `calls` the kind of record, as in "calls R".  Then the module, a piece of
# its source that stands in it once, and what takes its place; where that is not
# enough, more pairs of these two.
Fault = namedtuple("Fault", "about tellers module old new more", defaults=((),))

FAULTS = []


def fault(about, tellers, module, old, new, *more):
    FAULTS.append(Fault(about, tellers.split(", "), module, old, new, more))


# --- The code ---

fault("bit 7 is not looked at", "calls M, calls R, receive", "signals",
      "return word < 128 and bin(word).count(\"1\") == 4",
      "return bin(word & 127).count(\"1\") == 4")
fault("five ones are intact too", "calls M, calls R, receive", "signals",
      "bin(word).count(\"1\") == 4", "bin(word).count(\"1\") in (4, 5)")
fault("the numbers of beta and RQ are changed round", "calls M", "signals",
      "        table[word_of(SERVICE_ROWS[number - 33])] = number",
      "        table[word_of(SERVICE_ROWS[number - 33])] = (33, 35, 34)[number - 33]")
fault("the units of X and V are changed round", "calls M, encode, print, hear",
      "signals",
      """    ("V", "=", "YYBBBBY"),
    ("W", "2", "BBBYYBY"),
    ("X", "/", "YBYBBBY"),""",
      """    ("V", "=", "YBYBBBY"),
    ("W", "2", "BBBYYBY"),
    ("X", "/", "YYBBBBY"),""")
fault("the figure of S is a comma", "encode, print, calls E, calls P", "signals",
      "(\"S\", \"'\",", "(\"S\", \",\",")

# --- Text ---

fault("encoding 4,096 characters is refused", "encode, calls E", "text",
      "if len(characters) > MOST_CHARACTERS:", "if len(characters) >= MOST_CHARACTERS:")
fault("encoding refuses 1 before 5", "encode, calls E", "text",
      "if len(characters) > MOST_CHARACTERS:",
      "if len(characters) > MOST_CHARACTERS and all(\n"
      "            raised(character) in SIGNAL_OF for character in characters):")
fault("encoding: room as long as needed is refused", "calls E", "text",
      "if len(signals) > len(room):", "if len(signals) >= len(room) > 0:")
fault("encoding: refusal 2 writes what fits", "calls E", "text",
      "        return Refused(2, len(signals))",
      "        room[:] = bytes(signals[:len(room)])\n"
      "        return Refused(2, len(signals))")
fault("encoding: refusal 2 tells one more than is needed", "calls E", "text",
      "return Refused(2, len(signals))", "return Refused(2, len(signals) + 1)")
fault("encoding: the room behind what is written is cleared", "calls E", "text",
      "    room[:len(signals)] = bytes(signals)",
      "    room[:] = bytes(signals) + bytes(len(room) - len(signals))")
fault("encoding starts in letters, whatever case is given", "calls E", "text",
      "    signals = []\n", "    signals = []\n    case = \"letters\"\n")
fault("encoding: space needs letters case", "encode, calls E", "text",
      "            table[ord(letter)] = (None, word)",
      "            table[ord(letter)] = (\"letters\" if letter == \" \" else None, word)")
fault("F, G, H in figures print nothing", "print, calls P, hear", "text",
      "return 35, \"figures\"", "return None, \"figures\"")
fault("the error mark leads back to letters", "print, calls P", "text",
      "return 42, \"figures\"", "return 42, \"letters\"")
fault("a shift to the case in force toggles", "print, calls P, hear", "text",
      "    if word == FIGURES:\n        return None, \"figures\"",
      "    if word in (FIGURES, LETTERS):\n        return None, \"figures\"")
fault("printing 8,192 signals is refused", "print, calls P", "text",
      "if len(signals) > MOST_SIGNALS:", "if len(signals) >= MOST_SIGNALS:")
fault("printing refuses 3 before 7", "print, calls P", "text",
      "if len(signals) > MOST_SIGNALS:",
      "if len(signals) > MOST_SIGNALS and all(\n"
      "            is_traffic(word) or word == ERROR_MARK for word in signals):")
fault("the error mark may not be printed", "print, calls P", "text",
      "if not is_traffic(word) and word != ERROR_MARK:",
      "if not is_traffic(word):")
fault("printing: the room needed is counted in signals", "calls P", "text",
      "if len(printed) > len(room):", "if len(signals) > len(room):")
fault("printing: refusal 2 before 3", "calls P", "text",
      "    for index, word in enumerate(signals):\n"
      "        if not is_traffic(word)",
      "    if not room and len(signals) > 0:\n"
      "        return Refused(2, len(signals))\n"
      "    for index, word in enumerate(signals):\n"
      "        if not is_traffic(word)")
fault("printing answers the case it started in", "calls P", "text",
      "    printed = []\n    for word in signals:\n"
      "        byte, case = RULE[case](word)",
      "    printed = []\n    now = case\n    for word in signals:\n"
      "        byte, now = RULE[now](word)")

# --- Text: small letters (02, T-01) ---

# Of `raised`: the test for a small letter, and what becomes of any other byte.
IS_SMALL = "    if ord(\"a\") <= character <= ord(\"z\"):\n"
AS_IT_IS = "    return character\n"

fault("encoding: small letters are refused", "encode, calls E", "text",
      IS_SMALL, "    if False:\n")
fault("encoding: a is refused", "encode, calls E", "text",
      IS_SMALL, "    if ord(\"a\") < character <= ord(\"z\"):\n")
fault("encoding: z is refused", "encode, calls E", "text",
      IS_SMALL, "    if ord(\"a\") <= character < ord(\"z\"):\n")
fault("encoding: small letters are refused where it starts in figures", "calls E",
      "text", "if raised(character) not in SIGNAL_OF:",
      "if (raised(character) if case == \"letters\" else character) not in SIGNAL_OF:")
fault("encoding: a small letter behind a figure is refused",
      "encode, calls E", "text",
      "if raised(character) not in SIGNAL_OF:",
      "if raised(character) not in SIGNAL_OF or raised(character) != character and (\n"
      "                index > 0 and 48 <= characters[index - 1] <= 57):")
fault("encoding: a small letter at the end of 4,096 characters is refused",
      "encode, calls E", "text", "if raised(character) not in SIGNAL_OF:",
      "if (raised(character) if index < MOST_CHARACTERS - 1 else character\n"
      "                ) not in SIGNAL_OF:")
fault("encoding: a small letter is the capital behind its own",
      "encode, calls E", "text",
      "return character - ord(\"a\") + ord(\"A\")",
      "return (character - ord(\"a\") + 1) % 26 + ord(\"A\")")
# 96 and 123 less 32 have no signal either: a bound that is one too wide changes
# nothing by itself.
fault("encoding: 96 is taken, as an apostrophe", "encode, calls E", "text",
      IS_SMALL, "    if character == 96:\n        return 39\n" + IS_SMALL)
fault("encoding: 123 is taken, as the signal behind that of Z",
      "encode, calls E", "text",
      IS_SMALL, "    if character == 123:\n        return 13\n" + IS_SMALL)
fault("encoding: 91 is taken, as the signal behind that of Z",
      "encode, calls E", "text",
      IS_SMALL, "    if character == 91:\n        return 13\n" + IS_SMALL)
fault("encoding: 64 is taken, as A", "encode, calls E", "text",
      IS_SMALL, "    if character == 64:\n        return 65\n" + IS_SMALL)
fault("encoding: bytes over 127 are taken by their low seven bits",
      "encode, calls E", "text",
      AS_IT_IS,
      "    return raised(character - 128) if character > 127 else character\n")
fault("encoding: bit 7 of a small letter is not looked at", "encode, calls E", "text",
      IS_SMALL, "    if ord(\"a\") <= character - 128 <= ord(\"z\"):\n"
      "        character = character - 128\n" + IS_SMALL)
fault("encoding: bit 7 of a capital is not looked at", "encode, calls E", "text",
      AS_IT_IS, "    if ord(\"A\") <= character - 128 <= ord(\"Z\"):\n"
      "        return character - 128\n" + AS_IT_IS)
fault("encoding: 64 is taken off a byte over 127", "encode, calls E", "text",
      AS_IT_IS, "    return raised(character - 64) if character > 127 else character\n")
fault("encoding: 32 is taken off a byte over 127", "encode, calls E", "text",
      AS_IT_IS, "    return raised(character - 32) if character > 127 else character\n")
fault("encoding: 1 to 26 are taken as letters", "encode, calls E", "text",
      AS_IT_IS, "    if 0 < character < 27 and character not in SIGNAL_OF:\n"
      "        return character + 64\n" + AS_IT_IS)
fault("encoding: bit 5 of every byte is cleared", "encode, calls E", "text",
      IS_SMALL, "    character = character & 223\n" + IS_SMALL)
fault("encoding: 246 is taken, as O", "encode, calls E", "text",
      AS_IT_IS, "    return ord(\"O\") if character == 246 else character\n")
fault("encoding: 195 and 182 are taken, as O and a space", "encode, calls E", "text",
      AS_IT_IS, "    return {195: ord(\"O\"), 182: 32}.get(character, character)\n")
fault("encoding: the index of refusal 1 leaves out small letters",
      "encode, calls E", "text",
      "return Refused(1, index)",
      "return Refused(1, sum(raised(one) == one for one in characters[:index]))")
fault("encoding: the index of refusal 1 counts small letters alone",
      "encode, calls E", "text",
      "return Refused(1, index)",
      "return Refused(1, sum(raised(one) != one for one in characters[:index]))")
fault("encoding: the limit counts no small letters", "encode, calls E", "text",
      "if len(characters) > MOST_CHARACTERS:",
      "if sum(raised(one) == one for one in characters) > MOST_CHARACTERS:")
fault("encoding: small letters over the limit are refused 1",
      "encode, calls E", "text",
      "if len(characters) > MOST_CHARACTERS:",
      "for index, character in enumerate(characters[:MOST_CHARACTERS + 1]):\n"
      "        if len(characters) > MOST_CHARACTERS and raised(character) != character:\n"
      "            return Refused(1, index)\n"
      "    if len(characters) > MOST_CHARACTERS:")

RAISED_SIGNAL = "        needed, word = SIGNAL_OF[raised(character)]\n"
IF_IT_WAS_SMALL = RAISED_SIGNAL + "        if raised(character) != character:\n"

fault("encoding: a small letter needs no shift", "encode, calls E", "text",
      RAISED_SIGNAL, IF_IT_WAS_SMALL + "            needed = None\n")
fault("encoding: a small letter leads to letters without a shift",
      "encode, calls E", "text",
      RAISED_SIGNAL, IF_IT_WAS_SMALL + "            case = needed\n")
fault("encoding: a small letter is sent as its figure", "encode, calls E", "text",
      RAISED_SIGNAL, IF_IT_WAS_SMALL + "            needed = \"figures\"\n")
fault("encoding: each small letter has a shift", "encode, calls E", "text",
      RAISED_SIGNAL, IF_IT_WAS_SMALL + "            case = None\n")
fault("encoding: the shift before a small letter does not last",
      "encode, calls E", "text",
      "            case = needed\n        signals.append(word)",
      "            case = needed if raised(character) == character else case\n"
      "        signals.append(word)")
fault("encoding: refusal 2 tells a room without the small letters", "calls E", "text",
      "return Refused(2, len(signals))",
      "return Refused(2, len(signals) - sum(\n"
      "            raised(one) != one for one in characters))")
fault("encoding: the room for small letters is not asked for", "calls E", "text",
      "if len(signals) > len(room):",
      "if len(signals) - sum(raised(one) != one for one in characters) > len(room):")
fault("letters are printed small", "print, calls P, hear", "text",
      "return ord(letter), \"letters\"", "return ord(letter.lower()), \"letters\"")

# --- Text: several characters at a time ---

# Where a byte without a signal is refused.
FIRST_REFUSED = "            return Refused(1, index)\n"


def not_judged(which):
    """`which` tells, of the index, the characters that are not judged.  Where
    one of them has no signal it is skipped."""
    return ("            if not (%s):\n"
            "                return Refused(1, index)\n"
            "    characters = [one for one in characters"
            " if raised(one) in SIGNAL_OF]\n" % which)


fault("encoding: the characters behind the last whole four are not judged",
      "encode, calls E", "text",
      FIRST_REFUSED, not_judged("index >= len(characters) // 4 * 4"))
# What is left behind the last whole four is judged here.
fault("encoding: the second of each whole four is not judged",
      "encode, calls E", "text", FIRST_REFUSED,
      not_judged("index % 4 == 1 and index < len(characters) // 4 * 4"))
fault("encoding: refusal 1 tells the index of the first of its four",
      "encode, calls E", "text",
      FIRST_REFUSED, "            return Refused(1, index // 4 * 4)\n")
fault("encoding: the last character of a text of odd length is lost",
      "encode, calls E", "text",
      "    signals = []\n    for character in characters:\n",
      "    signals = []\n"
      "    for character in characters[:len(characters) // 2 * 2]:\n")

# --- The station: refusals ---

fault("station: refusal 4 gone for the count", "steps", "station",
      "    if station.count > MOST_COUNT:", "    if False:")
fault("station: refusal 4 from a count of 33 on", "steps", "station",
      "    if station.count > MOST_COUNT:", "    if station.count > MOST_COUNT + 1:")
fault("station: the count is judged only where there is a time-out", "steps",
      "station", "    if station.count > MOST_COUNT:",
      "    if station.count > MOST_COUNT and station.place in COUNTING:")
fault("station: refusal 4 gone for the total", "steps", "station",
      "    if station.place == ENDING and not 1 <= station.total <= MOST_ENDS:",
      "    if False:")
fault("station: a total of 0 passes", "steps", "station",
      "not 1 <= station.total", "not 0 <= station.total")
fault("station: refusal 4 gone for the held words", "steps", "station",
      "    if station.place == SENDING:\n", "    if False:\n")
fault("station: only the first two held words are judged", "steps", "station",
      "for word in station.held:", "for word in station.held[:2]:")
fault("station: refusal 3 before 4", "steps", "station",
      "    # \"Order: ... mode A step 4, 3\"\n",
      "    if offer.kind == \"text\":\n"
      "        for index, word in enumerate(offer.words):\n"
      "            if not may_stand_in_block(word):\n"
      "                return Refused(3, index)\n")
fault("station: no refusal 3 at Stand-by and Lost", "steps", "station",
      "    if offer.kind == \"text\":\n        for index",
      "    if offer.kind == \"text\" and station.place in COUNTING + (ENDING,):\n"
      "        for index")
fault("station: beta is refused in a text offer", "steps", "station",
      "            if not may_stand_in_block(word):\n"
      "                return Refused(3, index)",
      "            if not is_traffic(word):\n"
      "                return Refused(3, index)")
fault("station: refusal 3 tells the last such word", "steps", "station",
      "for index, word in enumerate(offer.words):",
      "for index, word in reversed(list(enumerate(offer.words))):")
fault("station: RQ may stand in a block", "steps, hear", "station",
      "return is_traffic(word) or word == BETA",
      "return is_traffic(word) or word in (BETA, RQ)")

# --- The station: count and time-out ---

fault("Lost one step late", "steps, hear", "station",
      "if count == MOST_COUNT + 1:", "if count == MOST_COUNT + 2:")
fault("Lost one step early", "steps, hear", "station",
      "if count == MOST_COUNT + 1:", "if count == MOST_COUNT:")
fault("Lost forgets that a + was heard", "steps", "station",
      "lost_now = at(station, LOST)._replace(count=0)",
      "lost_now = at(station, LOST)._replace(count=0, plus=False)")
fault("Lost keeps its count", "steps", "station",
      "lost_now = at(station, LOST)._replace(count=0)",
      "lost_now = at(station, LOST)")
fault("the 32nd still sends its burst", "steps, hear", "station",
      "return Answer(lost_now, SILENCE, (), False)",
      "return Answer(lost_now, answer.burst, (), False)")
fault("confirming and accepting count as repetitions", "steps, hear", "station",
      "                  and not confirmed_or_accepted)", "                  )")
fault("the count is kept after other steps", "steps, hear", "station",
      "        return answer._replace(station=answer.station._replace(count=0))",
      "        return answer")
fault("Ending counts too", "steps", "station",
      "COUNTING = (SENDING, TURNING,", "COUNTING = (SENDING, ENDING, TURNING,")
fault("Asking has no time-out", "steps, hear", "station",
      "COUNTING = (SENDING, TURNING, OPENING, RECEIVING, ASKING, ",
      "COUNTING = (SENDING, TURNING, OPENING, RECEIVING, ")

# --- The station: rows ---

fault("Sending reads all three words", "steps, hear", "station",
      "    if first == CONTROL[station.number]:",
      "    if burst[1:] != (0, 0):\n        first = 0\n"
      "    if first == CONTROL[station.number]:")
fault("Sending asked for its own number sends RQ", "steps, hear", "station",
      "return Row(Answer(station, station.held, (), False), False)",
      "return Row(Answer(station, THREE_RQ, (), False), False)")
fault("nothing does not count as taken", "steps", "station",
      "                  offer.kind not in CALLS)",
      "                  offer.kind not in CALLS + (\"nothing\",))")
fault("nothing sends the block of an over", "steps", "station",
      "        block = BETAS", "        block = OVER")
fault("CS3 at Sending takes the offer", "steps", "station",
      "return Row(Answer(turning_now, TURN, (), False), True)",
      "return Row(Answer(turning_now, TURN, (), True), True)")
fault("CS3 at Sending is no confirmation: the number stays asked for",
      "steps, hear", "station",
      "        turning_now = at(station, TURNING, station.number)",
      "        turning_now = at(station, TURNING, other(station.number))")
fault("a master at Turning is content with one RQ", "steps", "station",
      "asked = burst == THREE_RQ", "asked = burst[0] == RQ")
fault("a slave at Turning wants three RQ", "steps, hear", "station",
      "asked = burst[0] == RQ", "asked = burst == THREE_RQ")
# A slave comes to Turning only through Opening, and either step cancels the +:
# `hear` can tell the next two only together.
fault("+ kept from Turning to Receiving", "steps", "station",
      "at(station, RECEIVING, awaited)._replace(plus=False)",
      "at(station, RECEIVING, awaited)")
fault("+ kept from Asking to Opening", "steps", "station",
      "at(station, OPENING)._replace(plus=False)", "at(station, OPENING)")
fault("the case goes back to letters at a turn", "steps, hear", "station",
      "at(station, RECEIVING, awaited)._replace(plus=False)",
      "at(station, RECEIVING, awaited)._replace(plus=False, case=\"letters\")")
fault("CS3 at Turning gets RQ", "steps, hear", "station",
      "return Row(Answer(station, TURN, (), False), False)",
      "return Row(Answer(station, THREE_RQ, (), False), False)")
fault("a slave at Opening sends one RQ", "steps, hear", "station",
      "    if station.master:\n        return single(RQ)\n    return THREE_RQ",
      "    return single(RQ)")
fault("Opening takes the offer under number 1 always", "steps, hear", "station",
      "return Row(take(station, offer, 2), False)",
      "return Row(take(station, offer, 1), False)")
fault("CS3 at Opening is any other word", "steps, hear", "station",
      "        return Row(Answer(at(station, STANDBY), SILENCE, (), False), False)\n"
      "    # \"All else: one RQ",
      "        return Row(Answer(station, request(station), (), False), False)\n"
      "    # \"All else: one RQ")
fault("ending five times", "steps", "station",
      "if station.total == MOST_ENDS:", "if station.total == MOST_ENDS + 1:")
fault("ending three times", "steps", "station",
      "if station.total == MOST_ENDS:", "if station.total >= MOST_ENDS - 1:")
fault("Ending is left by the control signal of its own number", "steps", "station",
      "    if burst[0] == CONTROL[other(station.number)]:\n"
      "        # \"The other number's",
      "    if burst[0] == CONTROL[station.number]:\n"
      "        # \"The other number's")
fault("a fresh slave awaits 2", "hear", "station",
      "return Station(False, RECEIVING, 1,", "return Station(False, RECEIVING, 2,")
fault("beta is printed", "steps", "station",
      "printed = tuple(word for word in burst if is_traffic(word))",
      "printed = tuple(burst)")
fault("an over offered at Receiving is not taken", "steps", "station",
      "                              offer.kind == \"over\"), True)",
      "                              False), True)")
fault("any offer is taken where an over is heard", "steps", "station",
      "                              offer.kind == \"over\"), True)",
      "                              True), True)")
# At Receiving.
HEARS_END = "    if burst == ALPHAS:\n        # \"ask for the other number"

fault("an over offered is taken at a bad block", "steps", "station",
      HEARS_END,
      "    if offer.kind == \"over\" and burst != ALPHAS:\n"
      "        return Row(Answer(at(station, ASKING), single(CS3), (), True), True)\n"
      + HEARS_END)
fault("alphas at Receiving: asks for its own number", "steps, hear", "station",
      "Answer(at(station, STANDBY), single(CONTROL[next_number]),",
      "Answer(at(station, STANDBY), single(CONTROL[awaited]),")
fault("alphas are heard by the first word", "steps, hear", "station",
      HEARS_END, HEARS_END.replace("burst == ALPHAS", "burst[0] == ALPHA"))
fault("beta alpha beta is heard by two words", "steps, hear", "station",
      "    if burst == TURN:", "    if burst[:2] == TURN[:2]:")
fault("a block heard again is told by its content", "steps, hear", "station",
      "        heard = station._replace(case=case, plus=plus)",
      "        if burst[0] == burst[1] == burst[2] != BETA:\n"
      "            printed = ()\n"
      "        heard = station._replace(case=case, plus=plus)")
fault("L inside a block is CS1", "steps, hear", "station",
      "    awaited = station.number\n",
      "    awaited = station.number\n"
      "    if burst[0] == CS1:\n        burst = SILENCE\n")

# --- The station: the over ---

# From a fresh station no + is heard in letters: `hear` can tell these two only
# together.
fault("over heard in letters", "steps", "station",
      "elif case == \"figures\" and word == QUERY:", "elif word == QUERY:")
fault("+ heard in letters", "steps", "station",
      "elif case == \"figures\" and word == PLUS:", "elif word == PLUS:")
fault("+ and over heard in letters", "steps, hear", "station",
      "elif case == \"figures\" and word == PLUS:\n            plus = True\n"
      "        elif case == \"figures\" and word == QUERY:",
      "elif word == PLUS:\n            plus = True\n        elif word == QUERY:")
fault("beta cancels the over", "steps, hear", "station",
      "        if word == BETA:\n            continue",
      "        if word == BETA:\n            plus = False\n            continue")
fault("+ behind + cancels", "steps, hear", "station",
      "            plus = True\n", "            plus = not plus\n")
fault("a shift to figures in figures leaves the +", "steps, hear", "station",
      "            case = \"figures\"\n            plus = False",
      "            plus = plus and case == \"figures\"\n            case = \"figures\"")
fault("other signals do not cancel the +", "steps, hear", "station",
      "        else:\n            plus = False\n    return case, plus, over, asked",
      "    return case, plus, over, asked")
fault("the over is heard only at the end of a block", "steps, hear", "station",
      "            over = over or plus\n", "            over = over or plus\n"
      "            over = over and word is block[2]\n")
fault("the over does not reach across blocks", "steps, hear", "station",
      "    over = False\n", "    over = False\n    plus = False\n")

# --- The station: calls (02, T-02) ---

# Where a word is looked up in table 3a, and of the step the refusal.
IN_TABLE_3A = "IDENTITY_LETTERS = \"ABCDEFIKMOPQRSTUVXYZ\""
REFUSES_8 = """    if offer.kind == "call":
        index = first_outside(offer.words)
        if index is not None:
            return Refused(8, index)
"""
COUNT_JUDGED = "    if station.count > MOST_COUNT:\n        return Refused(4, 0)\n"

fault("table 3a: R is outside", "steps, calls I", "signals",
      IN_TABLE_3A, "IDENTITY_LETTERS = \"ABCDEFIKMOPQSTUVXYZ\"")
fault("table 3a: W stands in the place of X", "steps, calls I", "signals",
      IN_TABLE_3A, "IDENTITY_LETTERS = \"ABCDEFIKMOPQRSTUVWYZ\"")
fault("table 3a: J is within", "steps, calls I", "signals",
      IN_TABLE_3A, "IDENTITY_LETTERS = \"ABCDEFIJKMOPQRSTUVXYZ\"")
fault("table 3a: all letters are within", "steps, calls I", "signals",
      IN_TABLE_3A, "IDENTITY_LETTERS = \"ABCDEFGHIJKLMNOPQRSTUVWXYZ\"")
fault("table 3a: space is within", "steps, calls I", "signals",
      IN_TABLE_3A, "IDENTITY_LETTERS = \"ABCDEFIKMOPQRSTUVXYZ \"")
fault("table 3a: bit 7 is not looked at", "steps, calls I", "signals",
      "return word in IDENTITY_SIGNALS", "return word % 128 in IDENTITY_SIGNALS")
fault("table 3a: a zero is within", "steps, calls I", "signals",
      "return word in IDENTITY_SIGNALS",
      "return word == 0 or word in IDENTITY_SIGNALS")
fault("table 3a: RQ is within", "steps, calls I", "signals",
      "return word in IDENTITY_SIGNALS",
      "return word == RQ or word in IDENTITY_SIGNALS")
fault("an identity: the last word is not judged", "steps, calls I", "station",
      "for index, word in enumerate(identity):",
      "for index, word in enumerate(identity[:3]):")
fault("an identity: refusal 8 tells the last such word", "steps, calls I", "station",
      "for index, word in enumerate(identity):",
      "for index, word in reversed(list(enumerate(identity))):")
fault("an identity: refusal 8 tells a place from 1", "steps, calls I", "station",
      "            return index\n    return None", "            return index + 1\n    return None")
fault("standing by refuses 3 for 8", "calls I", "station",
      "    index = first_outside(identity)\n    if index is not None:\n"
      "        return Refused(8, index)",
      "    index = first_outside(identity)\n    if index is not None:\n"
      "        return Refused(3, index)")
fault("station: refusal 8 gone", "steps", "station", REFUSES_8, "")
fault("station: refusal 8 behind 4", "steps", "station",
      REFUSES_8, "", (COUNT_JUDGED, COUNT_JUDGED + REFUSES_8))
fault("station: refusal 8 behind 4 of the held words", "steps", "station",
      REFUSES_8, "    if station.place != SENDING or all(\n"
      "            may_stand_in_block(word) for word in station.held):\n"
      + "".join("    " + line + "\n" for line in REFUSES_8.splitlines()))
fault("station: refusal 8 behind 4 of the total", "steps", "station",
      REFUSES_8, "    if station.place != ENDING or 1 <= station.total <= 4:\n"
      + "".join("    " + line + "\n" for line in REFUSES_8.splitlines()))
fault("station: refusal 8 at Stand-by alone", "steps", "station",
      "    if offer.kind == \"call\":\n        index",
      "    if offer.kind == \"call\" and station.place == STANDBY:\n        index")
fault("station: refusal 8 only where no step is left to wait", "steps", "station",
      "    if offer.kind == \"call\":\n        index",
      "    if offer.kind == \"call\" and not (\n"
      "            station.place == STANDBY and station.cycles):\n        index")
fault("station: no refusal 8 at Lost", "steps", "station",
      "    if offer.kind == \"call\":\n        index",
      "    if offer.kind == \"call\" and station.place != LOST:\n        index")
fault("station: refusal 8 is judged on the own identity too", "steps", "station",
      "        index = first_outside(offer.words)\n",
      "        index = first_outside(tuple(offer.words) + station.own)\n")
fault("station: the identity called is judged at Calling", "steps", "station",
      COUNT_JUDGED, COUNT_JUDGED + "    if station.place == CALLING and "
      "first_outside(station.called) is not None:\n        return Refused(4, 0)\n")
fault("station: over 128 call bursts are refused 4", "steps", "station",
      COUNT_JUDGED, COUNT_JUDGED + "    if station.place == CALLING and "
      "station.cycles > 128:\n        return Refused(4, 0)\n")
fault("station: a wait over 128 is refused 4", "steps", "station",
      COUNT_JUDGED, COUNT_JUDGED + "    if station.place == STANDBY and "
      "station.cycles > 128:\n        return Refused(4, 0)\n")

fault("call block 1 is that of two signals and RQ", "steps", "station",
      "        return (identity[0], RQ, identity[1])\n    return (",
      "        return (identity[0], identity[1], RQ)\n    return (")
fault("call block 2 is that of a three-block call", "steps", "station",
      "return (identity[2], identity[3], RQ)", "return (RQ, identity[2], identity[3])")
fault("call block 2 has its signals changed round", "steps", "station",
      "return (identity[2], identity[3], RQ)", "return (identity[3], identity[2], RQ)")

HEARS_CALL = "    if heard != 0 and station.last == other(heard):\n"
OWN_BLOCK = "            if burst == call_block(station.own, number):\n"

fault("one call block is enough", "steps", "station",
      HEARS_CALL, "    if heard != 0:\n")
fault("the second call block alone is enough", "steps", "station",
      HEARS_CALL, "    if heard == 2:\n")
fault("a call is heard in the order 1, 2 alone", "steps", "station",
      HEARS_CALL, "    if heard == 2 and station.last == 1:\n")
fault("a call is heard in the order 2, 1 alone", "steps", "station",
      HEARS_CALL, "    if heard == 1 and station.last == 2:\n")
fault("the same call block twice is heard as both", "steps", "station",
      HEARS_CALL, "    if heard != 0 and station.last != 0:\n")
fault("call blocks of an identity outside table 3a are heard", "steps, hear",
      "station",
      "    if first_outside(station.own) is None:\n", "    if True:\n")
fault("call blocks of an own identity of zeros alone are not heard", "steps",
      "station", "    if first_outside(station.own) is None:\n",
      "    if station.own != NO_IDENTITY:\n")
fault("of the own identity the first word alone is judged", "steps", "station",
      "    if first_outside(station.own) is None:\n",
      "    if first_outside(station.own[:1]) is None:\n")
fault("a call block is heard by its first two words", "steps", "station",
      OWN_BLOCK, "            if burst[:2] == call_block(station.own, number)[:2]:\n")
fault("a call block is heard by its last two words", "steps", "station",
      OWN_BLOCK, "            if burst[1:] == call_block(station.own, number)[1:]:\n")
fault("a call block is heard with bit 7 set", "steps", "station",
      OWN_BLOCK, "            if tuple(word % 128 for word in burst) == (\n"
      "                    call_block(station.own, number)):\n")
fault("a call block is heard with its signals in any order", "steps", "station",
      OWN_BLOCK, "            if sorted(burst) == sorted("
      "call_block(station.own, number)):\n")

ANSWERS_CALL = "begin_call(at(station, RECEIVING, 1)._replace(master=False))"
ANSWERED = "return Row(Answer(answering, single(CS1), (), False), False)"
SILENT_THERE = """    return Row(Answer(station._replace(cycles=left, last=heard, blocks=blocks),
                      SILENCE, (), False), False)
"""
PLACES_CALL = "    if offer.kind == \"call\" and station.cycles == 0:\n"
BEGUN = ("    return station._replace(case=\"letters\", plus=False, other_end=None, "
         "owed=None)\n")

fault("a call answered: the role is not changed", "steps", "station",
      ANSWERS_CALL, "begin_call(at(station, RECEIVING, 1))")
fault("a call answered: it awaits 2", "steps", "station",
      ANSWERS_CALL, "begin_call(at(station, RECEIVING, 2)._replace(master=False))")
fault("a call answered: it is silent at first", "steps", "station",
      ANSWERED, "return Row(Answer(answering, SILENCE, (), False), False)")
fault("a call answered by CS2", "steps", "station",
      ANSWERED, "return Row(Answer(answering, single(CS2), (), False), False)")
fault("a call answered takes the offer", "steps", "station",
      ANSWERED, "return Row(Answer(answering, single(CS1), (), True), False)")
fault("a call answered: the own identity is at the other end", "steps", "station",
      ANSWERED, "return Row(Answer(answering._replace(other_end=station.own),\n"
      "                          single(CS1), (), False), False)")
fault("no call is answered during the wait", "steps", "station",
      HEARS_CALL, "    if heard != 0 and station.last == other(heard) and (\n"
      "            station.cycles == 0):\n")
fault("no call is answered where one is offered", "steps", "station",
      HEARS_CALL, "    if heard != 0 and station.last == other(heard) and not (\n"
      "            offer.kind == \"call\" and station.cycles == 0):\n")
fault("a call begun: the case stays", "steps", "station",
      BEGUN, BEGUN.replace("case=\"letters\", ", ""))
fault("a call begun: a + stays heard", "steps", "station",
      BEGUN, BEGUN.replace("plus=False, ", ""))
fault("a call begun: who was at the other end stays", "steps", "station",
      BEGUN, BEGUN.replace("other_end=None, ", ""))

fault("Stand-by is silent for good", "steps", "station",
      "    STANDBY: standby,\n", "    STANDBY: lost,\n")
fault("Stand-by places no call", "steps", "station",
      PLACES_CALL, "    if False:\n")
fault("a call is placed during the wait", "steps", "station",
      PLACES_CALL, "    if offer.kind == \"call\":\n")
fault("a call is placed one step early", "steps", "station",
      PLACES_CALL, "    if offer.kind == \"call\" and station.cycles <= 1:\n")
fault("a call is not placed where a call block is heard", "steps", "station",
      PLACES_CALL,
      "    if offer.kind == \"call\" and station.cycles == 0 and heard == 0:\n")
fault("a station without an identity places no call", "steps", "station",
      PLACES_CALL, "    if offer.kind == \"call\" and station.cycles == 0 and (\n"
      "            station.own != NO_IDENTITY):\n")
fault("a call placed is not reported as taken", "steps", "station",
      "call_block(identity, 1), (), True)", "call_block(identity, 1), (), False)")
fault("a call placed: block 2 goes out first", "steps", "station",
      "call_block(identity, 1), (), True)", "call_block(identity, 2), (), True)")
fault("a call placed: the role is not changed", "steps", "station",
      "                                 ._replace(master=True))\n"
      "        return Row(Answer(calling_now, call_block(",
      "                                 )\n"
      "        return Row(Answer(calling_now, call_block(")
fault("a call placed: the first burst is not counted", "steps", "station",
      "at(station, CALLING, cycles=1, called=identity)",
      "at(station, CALLING, cycles=0, called=identity)")
fault("a call placed: the control signal heard meanwhile counts", "steps", "station",
      "at(station, CALLING, cycles=1, called=identity)",
      "at(station, CALLING, cycles=1, called=identity,\n"
      "                                    last={CS1: 1, CS2: 2}.get(burst[0], 0))")
fault("a call placed: the identity called is at the other end at once", "steps",
      "station", "call_block(identity, 1), (), True)",
      "call_block(identity, 1), (), True)._replace(\n"
      "            station=calling_now._replace(other_end=identity))")
fault("the wait does not run down", "steps", "station",
      "left = max(station.cycles - 1, 0)", "left = station.cycles")
fault("the wait is over after a step", "steps", "station",
      "left = max(station.cycles - 1, 0)", "left = 0")
fault("a wait over 128 is cut to it", "steps", "station",
      "left = max(station.cycles - 1, 0)", "left = max(min(station.cycles, 128) - 1, 0)")
fault("a wait of none runs on from 255", "steps", "station",
      "left = max(station.cycles - 1, 0)", "left = (station.cycles - 1) % 256")
fault("the wait runs down only in silence", "steps", "station",
      "left = max(station.cycles - 1, 0)",
      "left = max(station.cycles - (burst == SILENCE), 0)")
fault("a call block is kept over a burst between", "steps", "station",
      SILENT_THERE, SILENT_THERE.replace("last=heard", "last=heard or station.last"))
fault("a call block is kept over a damaged burst", "steps", "station",
      SILENT_THERE, "    if any(bin(word).count(\"1\") != 4 for word in burst):\n"
      "        heard = station.last\n" + SILENT_THERE)
fault("the same call block again is forgotten", "steps", "station",
      SILENT_THERE, "    if heard == station.last:\n        heard = 0\n"
      + SILENT_THERE)
fault("Stand-by keeps no call block", "steps", "station",
      SILENT_THERE, SILENT_THERE.replace("last=heard", "last=0"))
fault("Stand-by that stays sets nobody at the other end", "steps", "station",
      SILENT_THERE, SILENT_THERE.replace("last=heard", "last=heard, other_end=None"))
fault("Stand-by that stays sets letters case", "steps", "station",
      SILENT_THERE, SILENT_THERE.replace("last=heard",
                                         "last=heard, case=\"letters\""))
# Of `at`: who is at the other end.
FORGETS = "        else:\n            other_end = None\n"
STILL_THERE = "    other_end = station.other_end\n    if place == STANDBY:\n"

fault("entering Stand-by: who was at the other end stays", "steps", "station",
      FORGETS, "")
fault("becoming Lost: nobody is at the other end", "steps", "station",
      STILL_THERE, STILL_THERE.replace(
          "station.other_end", "None if place == LOST else station.other_end"))
fault("a turn: nobody is at the other end", "steps", "station",
      STILL_THERE, STILL_THERE.replace(
          "station.other_end", "None if place == TURNING else station.other_end"))
fault("every way into Stand-by has a wait", "steps", "station",
      STILL_THERE, STILL_THERE + "        cycles = CYCLES_TO_WAIT\n")
fault("Lost hears and places calls", "steps", "station",
      "    LOST: lost,\n", "    LOST: standby,\n")

HEARS_TWO = "    if heard != 0 and station.last == heard:\n"
# With what stands behind it, for Calling with three blocks gives up alike.
GIVES_UP = ("    if first == CS3 or station.cycles >= MOST_CALL_BURSTS:\n"
            "        # \"on CS3 waits")
GOES_ON = "    again = at(station, CALLING, cycles=sent, last=heard, called=station.called)\n"

fault("one control signal completes a call", "steps", "station",
      HEARS_TWO, "    if heard != 0:\n")
fault("CS1 and then CS2 complete a call", "steps", "station",
      HEARS_TWO, "    if heard != 0 and station.last != 0:\n")
fault("CS1 alone completes a call", "steps", "station",
      HEARS_TWO, "    if heard == 1 and station.last == heard:\n")
fault("two words that are no control signal complete a call", "steps", "station",
      HEARS_TWO, "    if station.last == heard:\n        heard = heard or 1\n")
fault("the answer to the 128th call burst is not heard", "steps", "station",
      HEARS_TWO, "    if heard != 0 and station.last == heard and (\n"
      "            station.cycles < MOST_CALL_BURSTS):\n")
fault("Calling reads all three words", "steps", "station",
      HEARS_TWO, "    if burst[1:] != (0, 0):\n        heard = 0\n" + HEARS_TWO)
fault("a call completed under number 1 always", "steps", "station",
      "return Row(take(reached, offer, heard), False)",
      "return Row(take(reached, offer, 1), False)")
fault("a call completed: the offer is not taken", "steps", "station",
      "return Row(take(reached, offer, heard), False)",
      "return Row(take(reached, NOTHING, heard)._replace(\n"
      "            taken=offer.kind == \"nothing\"), False)")
fault("a call completed: nobody is at the other end", "steps", "station",
      "reached = station._replace(other_end=station.called)", "reached = station")
fault("a call completed: the own identity is at the other end", "steps", "station",
      "reached = station._replace(other_end=station.called)",
      "reached = station._replace(other_end=station.own)")
fault("a call completed leads to Opening", "steps", "station",
      "return Row(take(reached, offer, heard), False)",
      "return Row(Answer(at(reached, OPENING), request(station), (), False), False)")
fault("CS3 at Calling is any other word", "steps", "station",
      GIVES_UP, GIVES_UP.replace("first == CS3 or ", ""))
fault("CS3 at Calling twice is wanted", "steps", "station",
      GIVES_UP, GIVES_UP.replace("first == CS3 or",
                                 "first == CS3 and station.last == 0 or"))
fault("127 call bursts", "steps", "station",
      "MOST_CALL_BURSTS = 128", "MOST_CALL_BURSTS = 127")
fault("129 call bursts", "steps", "station",
      "MOST_CALL_BURSTS = 128", "MOST_CALL_BURSTS = 129")
fault("calls without end", "steps", "station",
      GIVES_UP, GIVES_UP.replace(" or station.cycles >= MOST_CALL_BURSTS", ""))
fault("exactly 128 call bursts end a call, more do not", "steps", "station",
      GIVES_UP, GIVES_UP.replace(">=", "=="))
fault("a wait of 127", "steps", "station",
      "CYCLES_TO_WAIT = 128", "CYCLES_TO_WAIT = 127")
fault("a wait of 129", "steps", "station",
      "CYCLES_TO_WAIT = 128", "CYCLES_TO_WAIT = 129")
fault("no wait where the call bursts have run out", "steps", "station",
      "        waiting = at(station, STANDBY, cycles=CYCLES_TO_WAIT)\n",
      "        waiting = at(station, STANDBY,\n"
      "                     cycles=CYCLES_TO_WAIT if first == CS3 else 0)\n")
fault("no wait after CS3", "steps", "station",
      "        waiting = at(station, STANDBY, cycles=CYCLES_TO_WAIT)\n",
      "        waiting = at(station, STANDBY,\n"
      "                     cycles=0 if first == CS3 else CYCLES_TO_WAIT)\n")
fault("Calling that gives up is Lost", "steps", "station",
      "        waiting = at(station, STANDBY, cycles=CYCLES_TO_WAIT)\n",
      "        waiting = at(station, LOST)\n")
fault("Calling that gives up is a slave", "steps", "station",
      "        waiting = at(station, STANDBY, cycles=CYCLES_TO_WAIT)\n",
      "        waiting = at(station, STANDBY, cycles=CYCLES_TO_WAIT)._replace(\n"
      "            master=False)\n")
fault("Calling that gives up sets letters case", "steps", "station",
      "        waiting = at(station, STANDBY, cycles=CYCLES_TO_WAIT)\n",
      "        waiting = at(station, STANDBY, cycles=CYCLES_TO_WAIT)._replace(\n"
      "            case=\"letters\")\n")
fault("Calling sends block 1 again and again", "steps", "station",
      "1 if sent % 2 == 1 else 2)", "1)")
fault("Calling sends its blocks the other way round", "steps", "station",
      "1 if sent % 2 == 1 else 2)", "1 if sent % 2 == 0 else 2)")
fault("Calling sends each block twice", "steps", "station",
      "1 if sent % 2 == 1 else 2)", "1 if sent % 4 in (1, 2) else 2)")
fault("a control signal is kept over what is none", "steps", "station",
      GOES_ON, GOES_ON.replace("last=heard", "last=heard or station.last"))
fault("the first control signal is kept, not the last", "steps", "station",
      GOES_ON, GOES_ON.replace("last=heard", "last=heard and (station.last or heard)"))
fault("Calling keeps no control signal", "steps", "station",
      GOES_ON, GOES_ON.replace("last=heard", "last=0"))
fault("Calling has a time-out", "steps", "station",
      "COUNTING = (SENDING, TURNING,", "COUNTING = (CALLING, SENDING, TURNING,")
fault("Stand-by has a time-out", "steps", "station",
      "COUNTING = (SENDING, TURNING,", "COUNTING = (STANDBY, SENDING, TURNING,")
fault("a call offered is reported as taken where a row takes", "steps", "station",
      "                  offer.kind not in CALLS)",
      "                  offer.kind != \"call of seven\")")
fault("a call offered at Sending holds the block back", "steps", "station",
      "        return Row(take(station, offer, other(station.number)), True)",
      "        if offer.kind == \"call\":\n"
      "            return Row(Answer(station, station.held, (), False), False)\n"
      "        return Row(take(station, offer, other(station.number)), True)")
fault("a call offered ends the circuit", "steps", "station",
      "    if offer.kind == \"end\":\n", "    if offer.kind in (\"end\", \"call\"):\n")
fault("a call offered at Receiving turns the direction", "steps", "station",
      "        if over or offer.kind == \"over\":\n",
      "        if over or offer.kind in (\"over\", \"call\"):\n")

# --- The station: three-block calls and identification (02, T-05) ---

# Of check-sums: the three words, their numbers, the letter.
ADDED = "    added = sum(NUMBER_OF_WORD.get(word, 0) for word in identity[first:first + 3])\n"
SUMMED = "    return CHECK_SUM_SIGNALS[added % 20]\n"
IN_TABLE_3B = "CHECK_SUM_LETTERS = \"VXQKMPCYFSTBUEOIRZDA\""
IS_CHECK_SUM = "    return word in CHECK_SUM_SIGNALS\n"

fault("check-sums are of two letters", "steps", "signals",
      ADDED, ADDED.replace("first + 3", "first + 2"))
fault("check-sums are of four letters", "steps", "signals",
      ADDED, ADDED.replace("first + 3", "first + 4"))
fault("check-sums have no letter in common", "steps", "signals",
      "    first = 2 * (number - 1)\n", "    first = 3 * (number - 1)\n")
fault("check-sums begin one letter apart", "steps", "signals",
      "    first = 2 * (number - 1)\n", "    first = number - 1\n")
fault("check-sums are taken modulo 19", "steps", "signals",
      SUMMED, SUMMED.replace("% 20", "% 19"))
fault("check-sums over 19 less 20 once", "steps", "signals",
      SUMMED, "    return CHECK_SUM_SIGNALS[min(added - 20 * (added > 19), 19)]\n")
fault("check-sums over 19 are 19", "steps", "signals",
      SUMMED, "    return CHECK_SUM_SIGNALS[min(added, 19)]\n")
fault("check-sums count the letters from 1", "steps", "signals",
      ADDED, ADDED.replace(".get(word, 0)", ".get(word, -1) + 1"))
fault("check-sums: a word outside table 3a counts 1", "steps", "signals",
      ADDED, ADDED.replace(".get(word, 0)", ".get(word, 1)"))
fault("check-sums: bit 7 is not looked at", "steps", "signals",
      ADDED, ADDED.replace("(word, 0)", "(word % 128, 0)"))
fault("table 3a: the numbers of K and M are changed round", "steps", "signals",
      "\"K\": 3, \"M\": 4", "\"K\": 4, \"M\": 3")
fault("table 3a: the numbers of Q and R are changed round", "steps", "signals",
      "\"Q\": 2, \"R\": 16", "\"Q\": 16, \"R\": 2")
fault("table 3a: the number of V is 20 and that of X is 0", "steps", "signals",
      "\"V\": 0, \"X\": 1,", "\"V\": 20, \"X\": 0,")
fault("table 3b in the order of the alphabet", "steps", "signals",
      IN_TABLE_3B, "CHECK_SUM_LETTERS = IDENTITY_LETTERS")
fault("table 3b: O and P are changed round", "steps", "signals",
      IN_TABLE_3B, "CHECK_SUM_LETTERS = \"VXQKMOCYFSTBUEPIRZDA\"")
fault("table 3b: its end is turned round", "steps", "signals",
      IN_TABLE_3B, "CHECK_SUM_LETTERS = \"VXQKMPCYFSTBUEOIRZAD\"")
fault("a wrong check-sum is any traffic signal", "steps", "signals",
      IS_CHECK_SUM, "    return is_traffic(word)\n")
fault("a wrong check-sum is counted where it is damaged", "steps", "signals",
      IS_CHECK_SUM, "    return True\n")
fault("a wrong check-sum may have bit 7 set", "steps", "signals",
      IS_CHECK_SUM, "    return word % 128 in CHECK_SUM_SIGNALS\n")
fault("V is no wrong check-sum", "steps", "signals",
      IS_CHECK_SUM, "    return word in CHECK_SUM_SIGNALS[1:]\n")
fault("CS4 and CS5 are changed round", "steps", "signals",
      "CS4 = traffic_word(7)\nCS5 = traffic_word(8)\n",
      "CS4 = traffic_word(8)\nCS5 = traffic_word(7)\n")

# The call blocks and the identification blocks.
BLOCK_1_OF_7 = ("        return (identity[0], RQ, identity[1])\n"
                "    if number == 2:\n")
BLOCK_2_OF_7 = "        return (RQ, identity[2], identity[3])\n"
BLOCK_3_OF_7 = BLOCK_2_OF_7 + "    return (identity[4], identity[5], identity[6])\n"
ID_BLOCK_1 = "        return (identity[0], ALPHA, identity[1])\n"
ID_BLOCK_2 = "        return (ALPHA, identity[2], identity[3])\n"
ID_BLOCK_3 = "        return (identity[4], identity[5], identity[6])\n    return THREE_RQ\n"

fault("three-block calls: call block 1 has alpha", "steps", "station",
      BLOCK_1_OF_7, BLOCK_1_OF_7.replace("RQ", "ALPHA"))
fault("three-block calls: call block 2 is that of a two-block call", "steps", "station",
      BLOCK_2_OF_7, "        return (identity[2], identity[3], RQ)\n")
fault("three-block calls: call block 2 has its signals changed round", "steps",
      "station", BLOCK_2_OF_7, "        return (RQ, identity[3], identity[2])\n")
fault("three-block calls: call block 3 is signals 4 to 6", "steps", "station",
      BLOCK_3_OF_7, BLOCK_2_OF_7 + "    return (identity[3], identity[4], identity[5])\n")
fault("three-block calls: call block 3 is turned round", "steps", "station",
      BLOCK_3_OF_7, BLOCK_2_OF_7 + "    return (identity[6], identity[5], identity[4])\n")
fault("identification block 1 is call block 1", "steps", "station",
      ID_BLOCK_1, ID_BLOCK_1.replace("ALPHA", "RQ"))
fault("identification block 1 is alpha and two letters", "steps", "station",
      ID_BLOCK_1, "        return (ALPHA, identity[0], identity[1])\n")
fault("identification block 2 has alpha between", "steps", "station",
      ID_BLOCK_2, "        return (identity[2], ALPHA, identity[3])\n")
fault("identification block 2 has alpha last", "steps", "station",
      ID_BLOCK_2, "        return (identity[2], identity[3], ALPHA)\n")
fault("identification block 3 is turned round", "steps", "station",
      ID_BLOCK_3, ID_BLOCK_3.replace("[4]", "[x]").replace("[6]", "[4]").replace(
          "[x]", "[6]"))
fault("identification is ended by one RQ", "steps", "station",
      ID_BLOCK_3, ID_BLOCK_3.replace("THREE_RQ", "single(RQ)"))
fault("identification is ended by alpha alpha alpha", "steps", "station",
      ID_BLOCK_3, ID_BLOCK_3.replace("THREE_RQ", "ALPHAS"))

# Refusal 8, and a station with both identities.
BOTH_JUDGED = "    index = first_outside(tuple(identity) + tuple(seven))\n"
SEVEN_JUDGED = "        index = first_outside(tuple(offer.words) + station.own_seven)\n"
REFUSES_8_OF_7 = """    if offer.kind == "call of seven":
""" + SEVEN_JUDGED + """        if index is not None:
            return Refused(8, index)
"""
OFFERS_SEVEN = "    if offer.kind == \"call of seven\":\n        index"

fault("standing by, both: the seven are not judged", "calls J", "station",
      BOTH_JUDGED, "    index = first_outside(identity)\n")
fault("standing by, both: the four are not judged", "calls J", "station",
      BOTH_JUDGED, "    index = first_outside(seven)\n")
fault("standing by, both: the seven come first", "calls J", "station",
      BOTH_JUDGED, "    index = first_outside(tuple(seven) + tuple(identity))\n")
fault("standing by, both: the index is that in either list", "calls J", "station",
      BOTH_JUDGED, BOTH_JUDGED + "    if index is not None and index > 3:\n"
      "        index = index - 4\n")
fault("standing by, both: the last word is not judged", "calls J", "station",
      BOTH_JUDGED, "    index = first_outside(tuple(identity) + tuple(seven[:6]))\n")
fault("standing by, both: refuses 3 for 8", "calls J", "station",
      BOTH_JUDGED + "    if index is not None:\n        return Refused(8, index)\n",
      BOTH_JUDGED + "    if index is not None:\n        return Refused(3, index)\n")
fault("three-block calls: refusal 8 gone", "steps", "station", REFUSES_8_OF_7, "")
fault("three-block calls: the own identity is not judged", "steps", "station",
      SEVEN_JUDGED, "        index = first_outside(offer.words)\n")
fault("three-block calls: the identity called is not judged", "steps", "station",
      SEVEN_JUDGED, "        index = first_outside(station.own_seven)\n")
fault("three-block calls: of the identity called four words are judged", "steps",
      "station", SEVEN_JUDGED, "        index = first_outside(\n"
      "            tuple(offer.words[:4]) + (71,) * 3 + station.own_seven)\n")
fault("three-block calls: the own identity is judged first", "steps", "station",
      SEVEN_JUDGED,
      "        index = first_outside(station.own_seven + tuple(offer.words))\n")
fault("three-block calls: the index is that in either list", "steps", "station",
      SEVEN_JUDGED, SEVEN_JUDGED + "        if index is not None:\n"
      "            index = index % 7\n")
fault("three-block calls: the own identity of four is judged", "steps", "station",
      SEVEN_JUDGED, "        index = first_outside(tuple(offer.words) + station.own)\n")
fault("two-block calls: the own identity of seven is judged", "steps", "station",
      "        index = first_outside(offer.words)\n",
      "        index = first_outside(tuple(offer.words) + station.own_seven)\n")
fault("three-block calls: refusal 8 behind 4", "steps", "station",
      REFUSES_8_OF_7, "", (COUNT_JUDGED, COUNT_JUDGED + REFUSES_8_OF_7))
fault("three-block calls: refusal 8 behind 4 of the held words", "steps", "station",
      OFFERS_SEVEN, "    if offer.kind == \"call of seven\" and (\n"
      "            station.place != SENDING or all(\n"
      "                may_stand_in_block(word) for word in station.held)):\n        index")
fault("three-block calls: refusal 8 behind 4 of the total", "steps", "station",
      OFFERS_SEVEN, "    if offer.kind == \"call of seven\" and (\n"
      "            station.place != ENDING or 1 <= station.total <= 4):\n        index")
fault("three-block calls: refusal 8 at Stand-by alone", "steps", "station",
      OFFERS_SEVEN, "    if offer.kind == \"call of seven\" and (\n"
      "            station.place == STANDBY):\n        index")
fault("three-block calls: refusal 8 only where the call would be placed", "steps",
      "station", OFFERS_SEVEN, "    if offer.kind == \"call of seven\" and not (\n"
      "            station.place == STANDBY and station.cycles):\n        index")
fault("three-block calls: no refusal 8 at Lost", "steps", "station",
      OFFERS_SEVEN, "    if offer.kind == \"call of seven\" and (\n"
      "            station.place != LOST):\n        index")
fault("the own identity of seven is judged at every step", "steps", "station",
      COUNT_JUDGED, COUNT_JUDGED + "    if station.place == STANDBY and "
      "first_outside(station.own_seven) is not None:\n        return Refused(4, 0)\n")
fault("three-block calls: the identity called is judged at Calling", "steps", "station",
      COUNT_JUDGED, COUNT_JUDGED + "    if station.place == CALLING_3 and "
      "first_outside(station.seven) is not None:\n        return Refused(4, 0)\n")
fault("the identity called is judged at Identifying", "steps", "station",
      COUNT_JUDGED, COUNT_JUDGED + "    if station.place == IDENTIFYING and "
      "first_outside(station.seven) is not None:\n        return Refused(4, 0)\n")
fault("three-block calls: over 128 call bursts are refused 4", "steps", "station",
      COUNT_JUDGED, COUNT_JUDGED + "    if station.place == CALLING_3 and "
      "station.cycles > 128:\n        return Refused(4, 0)\n")
fault("over four wrong check-sums are refused 4", "steps", "station",
      COUNT_JUDGED, COUNT_JUDGED + "    if station.wrong > 4:\n"
      "        return Refused(4, 0)\n")

# The call blocks heard in succession.
ORDERS = "WHOLE_CALLS = ((1, 2, 3), (2, 3, 1))\n"
RUNS = "RUNS_OF_BLOCKS = ((), (1,), (1, 2), (2,), (2, 3))\n"
SUCCESSION = "    heard = station.blocks + (own_call_block_of_seven(station, burst),)\n"
OWN_BLOCK_OF_7 = ("            if burst == call_block_of_seven(station.own_seven, "
                  "number):\n")
HAS_SEVEN_OF_ITS_OWN = "    if first_outside(station.own_seven) is None:\n"
HEARS_THREE = "    if blocks in WHOLE_CALLS:\n"

fault("a three-block call is heard in the order 1, 2, 3 alone", "steps", "station",
      ORDERS, "WHOLE_CALLS = ((1, 2, 3),)\n")
fault("a three-block call is heard in the order 2, 3, 1 alone", "steps", "station",
      ORDERS, "WHOLE_CALLS = ((2, 3, 1),)\n")
fault("a three-block call is heard in the order 3, 1, 2 too", "steps", "station",
      ORDERS, "WHOLE_CALLS = ((1, 2, 3), (2, 3, 1), (3, 1, 2))\n",
      (RUNS, "RUNS_OF_BLOCKS = ((), (1,), (1, 2), (2,), (2, 3), (3,), (3, 1))\n"))
fault("a three-block call is heard in the order 1, 2, 1 too", "steps", "station",
      ORDERS, "WHOLE_CALLS = ((1, 2, 3), (2, 3, 1), (1, 2, 1))\n")
fault("a three-block call is heard in the order 2, 3, 2 too", "steps", "station",
      ORDERS, "WHOLE_CALLS = ((1, 2, 3), (2, 3, 1), (2, 3, 2))\n")
fault("a three-block call: blocks 1 and 2 are enough", "steps", "station",
      HEARS_THREE, "    if blocks in WHOLE_CALLS + ((1, 2),):\n")
fault("a three-block call: blocks 2 and 3 are enough", "steps", "station",
      HEARS_THREE, "    if blocks in WHOLE_CALLS + ((2, 3),):\n")
fault("a three-block call: block 3 alone is enough", "steps", "station",
      HEARS_THREE, "    if blocks in WHOLE_CALLS or (\n"
      "            own_call_block_of_seven(station, burst) == 3):\n")
fault("a three-block call: three of its blocks in any order", "steps", "station",
      HEARS_THREE, "    if blocks in WHOLE_CALLS or len(station.blocks) == 2 and (\n"
      "            own_call_block_of_seven(station, burst) > 0):\n")
fault("a three-block call: block 1 and then block 3 leave a run", "steps", "station",
      SUCCESSION, SUCCESSION + "    if heard == (1, 3):\n        return (2, 3)\n")
fault("a three-block call: block 2 behind itself is forgotten", "steps", "station",
      SUCCESSION, SUCCESSION + "    if heard == (2, 2):\n        return ()\n")
fault("a three-block call: block 1 behind itself is forgotten", "steps", "station",
      SUCCESSION, SUCCESSION + "    if heard == (1, 1):\n        return ()\n")
fault("a three-block call: block 2 behind 1 and 2 is forgotten", "steps", "station",
      SUCCESSION, SUCCESSION + "    if heard == (1, 2, 2):\n        return ()\n")
fault("a three-block call: block 2 behind 1 and 2 leaves both", "steps", "station",
      SUCCESSION, SUCCESSION + "    if heard == (1, 2, 2):\n        return (1, 2)\n")
fault("a three-block call: block 2 behind 2 and 3 is forgotten", "steps", "station",
      SUCCESSION, SUCCESSION + "    if heard == (2, 3, 2):\n        return ()\n")
fault("a three-block call: block 1 behind 1 and 2 is forgotten", "steps", "station",
      SUCCESSION, SUCCESSION + "    if heard == (1, 2, 1):\n        return ()\n")
fault("a three-block call: block 1 behind block 2 is forgotten", "steps", "station",
      SUCCESSION, SUCCESSION + "    if heard == (2, 1):\n        return ()\n")
fault("a three-block call: block 3 behind 2 and 3 leaves both", "steps", "station",
      SUCCESSION, SUCCESSION + "    if heard == (2, 3, 3):\n        return (2, 3)\n")
fault("a three-block call: another burst between does not matter", "steps", "station",
      SUCCESSION, SUCCESSION + "    if heard[-1] == 0:\n        return station.blocks\n")
fault("a three-block call: a damaged burst between does not matter", "steps", "station",
      SUCCESSION, SUCCESSION + "    if any(bin(word).count(\"1\") != 4 for word in burst"
      "):\n        return station.blocks\n")
fault("call blocks of seven signals outside table 3a are heard", "steps", "station",
      HAS_SEVEN_OF_ITS_OWN, "    if True:\n")
fault("of the own seven signals the first four alone are judged", "steps", "station",
      HAS_SEVEN_OF_ITS_OWN, "    if first_outside(station.own_seven[:4]) is None:\n")
fault("of the own seven signals the last three alone are judged", "steps", "station",
      HAS_SEVEN_OF_ITS_OWN, "    if first_outside(station.own_seven[4:]) is None:\n")
fault("without four signals of its own no call of seven is heard", "steps", "station",
      HAS_SEVEN_OF_ITS_OWN,
      "    if first_outside(station.own + station.own_seven) is None:\n")
fault("a call block of seven signals is heard by its first two words", "steps",
      "station", OWN_BLOCK_OF_7,
      "            if burst[:2] == call_block_of_seven(station.own_seven, number)[:2]:\n")
fault("a call block of seven signals is heard by its last two words", "steps",
      "station", OWN_BLOCK_OF_7,
      "            if burst[1:] == call_block_of_seven(station.own_seven, number)[1:]:\n")
fault("a call block of seven signals is heard with bit 7 set", "steps", "station",
      OWN_BLOCK_OF_7, "            if tuple(word % 128 for word in burst) == (\n"
      "                    call_block_of_seven(station.own_seven, number)):\n")
fault("a call block of seven signals is heard with its signals in any order", "steps",
      "station", OWN_BLOCK_OF_7, "            if sorted(burst) == sorted(\n"
      "                    call_block_of_seven(station.own_seven, number)):\n")
fault("Stand-by keeps no call block of seven signals", "steps", "station",
      SILENT_THERE, SILENT_THERE.replace("blocks=blocks", "blocks=()"))
fault("a call block of four signals is kept only where it is none of seven", "steps",
      "station", SILENT_THERE, SILENT_THERE.replace(
          "last=heard", "last=0 if blocks else heard"))
fault("a call block of seven signals is kept only where it is none of four", "steps",
      "station", SILENT_THERE, SILENT_THERE.replace(
          "blocks=blocks", "blocks=() if heard else blocks"))

ANSWERS_THREE = """        answering_now = begin_call(at(station, ANSWERING, stage=1)
                                   ._replace(master=False))
"""
ANSWERED_THREE = "return Row(Answer(answering_now, single(CS4), (), False), False)"

fault("a three-block call answered: at Receiving with CS1", "steps", "station",
      ANSWERED_THREE, "return Row(Answer(begin_call(at(station, RECEIVING, 1)._replace(\n"
      "            master=False)), single(CS1), (), False), False)")
fault("a three-block call answered by CS5", "steps", "station",
      ANSWERED_THREE, ANSWERED_THREE.replace("CS4", "CS5"))
fault("a three-block call answered by CS1", "steps", "station",
      ANSWERED_THREE, ANSWERED_THREE.replace("CS4", "CS1"))
fault("a three-block call answered: silent at first", "steps", "station",
      ANSWERED_THREE, ANSWERED_THREE.replace("single(CS4)", "SILENCE"))
fault("a three-block call answered takes the offer", "steps", "station",
      ANSWERED_THREE, ANSWERED_THREE.replace("(), False)", "(), True)"))
fault("a three-block call answered: the role is not changed", "steps", "station",
      ANSWERS_THREE, "        answering_now = begin_call(at(station, ANSWERING, stage=1))\n")
fault("a three-block call answered: at stage 2", "steps", "station",
      ANSWERS_THREE, ANSWERS_THREE.replace("stage=1", "stage=2"))
fault("a three-block call answered: the own signals are gathered", "steps", "station",
      ANSWERS_THREE, ANSWERS_THREE.replace("stage=1", "stage=1, seven=station.own_seven"))
fault("a three-block call answered: case, + and the other end stay", "steps", "station",
      ANSWERS_THREE, ANSWERS_THREE.replace("begin_call(", "("))
fault("no three-block call is answered during the wait", "steps", "station",
      HEARS_THREE, "    if blocks in WHOLE_CALLS and station.cycles == 0:\n")
fault("no three-block call is answered where one is offered", "steps", "station",
      HEARS_THREE, "    if blocks in WHOLE_CALLS and offer.kind not in CALLS:\n")
fault("where both calls are heard the three-block call is answered", "steps", "station",
      HEARS_CALL, "    if heard != 0 and station.last == other(heard) and (\n"
      "            blocks_in_succession(station, burst) not in WHOLE_CALLS):\n")

# The call placed.
PLACES_THREE = ("        if station.cycles == 0 or station.other_end != "
                "Barred(identity):\n")
PLACED_THREE = """            return Row(Answer(calling_now, call_block_of_seven(identity, 1), (),
                              True), False)
"""
BEGINS_THREE = """            calling_now = begin_call(at(station, CALLING_3, cycles=1, seven=identity)
                                     ._replace(master=True))
"""

fault("three-block calls: every identity is barred during the wait", "steps", "station",
      PLACES_THREE, "        if station.cycles == 0:\n")
fault("three-block calls: the bar is forgotten", "steps", "station",
      PLACES_THREE, "        if True:\n")
fault("three-block calls: barred when the wait is over too", "steps", "station",
      PLACES_THREE, "        if station.other_end != Barred(identity):\n")
fault("three-block calls: placed one step early", "steps", "station",
      PLACES_THREE, PLACES_THREE.replace("station.cycles == 0", "station.cycles <= 1"))
fault("three-block calls: a bar of any identity", "steps", "station",
      PLACES_THREE, PLACES_THREE.replace("station.other_end != Barred(identity)",
                                         "not isinstance(station.other_end, Barred)"))
fault("three-block calls: the bar goes by the first four signals", "steps", "station",
      PLACES_THREE, PLACES_THREE.replace(
          "station.other_end != Barred(identity)",
          "not isinstance(station.other_end, Barred) or (\n"
          "                station.other_end.identity[:4] != identity[:4])"))
fault("three-block calls: the bar goes by the last three signals", "steps", "station",
      PLACES_THREE, PLACES_THREE.replace(
          "station.other_end != Barred(identity)",
          "not isinstance(station.other_end, Barred) or (\n"
          "                station.other_end.identity[4:] != identity[4:])"))
fault("three-block calls: seven signals at the other end are barred", "steps", "station",
      PLACES_THREE, PLACES_THREE.replace(
          "station.other_end != Barred(identity)",
          "station.other_end not in (Barred(identity), identity)"))
fault("two-block calls: not in the way of a bar", "steps", "station",
      PLACES_CALL, "    if offer.kind == \"call\" and (\n"
      "            station.cycles == 0 or isinstance(station.other_end, Barred)):\n")
fault("a three-block call placed is not reported as taken", "steps", "station",
      PLACED_THREE, PLACED_THREE.replace("True)", "False)"))
fault("a three-block call placed: block 2 goes out first", "steps", "station",
      PLACED_THREE, PLACED_THREE.replace("identity, 1", "identity, 2"))
fault("a three-block call placed: the first burst is not counted", "steps", "station",
      BEGINS_THREE, BEGINS_THREE.replace("cycles=1", "cycles=0"))
fault("a three-block call placed: the wait runs on as bursts sent", "steps", "station",
      BEGINS_THREE, BEGINS_THREE.replace("cycles=1", "cycles=station.cycles + 1"))
fault("a three-block call placed: the role is not changed", "steps", "station",
      BEGINS_THREE, BEGINS_THREE.replace("._replace(master=True))", ")"))
fault("a three-block call placed: the bar of another one stays", "steps", "station",
      BEGINS_THREE, BEGINS_THREE.replace("begin_call(", "("))
fault("a three-block call placed: its own signals are called", "steps", "station",
      BEGINS_THREE, BEGINS_THREE.replace("seven=identity", "seven=station.own_seven"))
fault("a three-block call placed: the identity is at the other end at once", "steps",
      "station", BEGINS_THREE, BEGINS_THREE
      + "            calling_now = calling_now._replace(other_end=identity)\n")
fault("a three-block call placed as a two-block call", "steps", "station",
      BEGINS_THREE, "            calling_now = begin_call(at(\n"
      "                station, CALLING, cycles=1, called=identity[:4])\n"
      "                ._replace(master=True))\n")

# Calling with three blocks.
HEARS_CS4 = "    if first == CS4:\n"
STARTS_IDENTIFYING = ("        identifying_now = at(station, IDENTIFYING, stage=1, "
                      "seven=station.seven)\n")
FIRST_ID_BLOCK = "                          identification_block(station.own_seven, 1),"
HEARS_CS5 = "    if first == CS5:\n"
ENDS_CALL = ("return Row(Answer(at(barred, ENDING, 2, total=1), ALPHAS, (), False), "
             "False)")
GIVES_UP_THREE = ("    if first == CS3 or station.cycles >= MOST_CALL_BURSTS:\n"
                  "        # 001, 3.5.7 and 3.5.4.\n")
GAVE_UP_THREE = "return Row(Answer(at(barred, STANDBY), SILENCE, (), False), False)"
BARS = "    barred = station._replace(other_end=Barred(station.seven))\n"
THREE_IN_TURN = "station.cycles % 3 + 1)\n"

fault("CS4 is wanted twice", "steps", "station",
      HEARS_CS4, "    if first == CS4 and station.last == 4:\n",
      ("cycles=station.cycles + 1, seven=station.seven)",
       "cycles=station.cycles + 1, seven=station.seven,\n"
       "               last=4 if first == CS4 else 0)"))
fault("CS4 is heard with bit 7 set", "steps", "station",
      HEARS_CS4, "    if first % 128 == CS4:\n")
fault("three-block calls: CS1 is taken for CS4", "steps", "station",
      HEARS_CS4, "    if first in (CS1, CS4):\n")
fault("three-block calls: CS2 is taken for CS4", "steps", "station",
      HEARS_CS4, "    if first in (CS2, CS4):\n")
fault("three-block calls: CS5 is taken for CS4", "steps", "station",
      HEARS_CS4, "    if first in (CS4, CS5):\n")
fault("three-block calls: CS1 leads to traffic", "steps", "station",
      HEARS_CS4, "    if first == CS1:\n        return Row(take(station, offer, 1), False)\n"
      + HEARS_CS4)
fault("three-block calls: the answer to the 128th burst is not heard", "steps",
      "station", HEARS_CS4, "    if first == CS4 and station.cycles < MOST_CALL_BURSTS:\n")
fault("three-block calls: all three words are read", "steps", "station",
      HEARS_CS4, "    if burst[1:] != (0, 0):\n        first = 0\n" + HEARS_CS4)
fault("CS4 leads to stage 2", "steps", "station",
      STARTS_IDENTIFYING, STARTS_IDENTIFYING.replace("stage=1", "stage=2"))
fault("CS4: the identity called is forgotten", "steps", "station",
      STARTS_IDENTIFYING, STARTS_IDENTIFYING.replace(", seven=station.seven", ""))
fault("CS4: the identity called is at the other end at once", "steps", "station",
      STARTS_IDENTIFYING, STARTS_IDENTIFYING
      + "        identifying_now = identifying_now._replace(other_end=station.seven)\n")
fault("CS4: a wrong check-sum is counted at once", "steps", "station",
      STARTS_IDENTIFYING, STARTS_IDENTIFYING.replace("stage=1", "stage=1, wrong=1"))
fault("CS4: the signals of the one called are sent", "steps", "station",
      FIRST_ID_BLOCK, FIRST_ID_BLOCK.replace("own_seven", "seven"))
fault("CS4: the own signals of the two-block call are sent", "steps", "station",
      FIRST_ID_BLOCK, FIRST_ID_BLOCK.replace("own_seven", "own"))
fault("CS5 is any other word", "steps", "station", HEARS_CS5, "    if False:\n")
fault("CS5 leads to Stand-by at once", "steps", "station",
      ENDS_CALL, "return Row(Answer(at(barred, STANDBY), ALPHAS, (), False), False)")
fault("CS5: the end is under number 1", "steps", "station",
      ENDS_CALL, ENDS_CALL.replace("ENDING, 2", "ENDING, 1"))
fault("CS5: the end counts as sent twice", "steps", "station",
      ENDS_CALL, ENDS_CALL.replace("total=1", "total=2"))
fault("CS5: the end is silent at first", "steps", "station",
      ENDS_CALL, ENDS_CALL.replace("ALPHAS", "SILENCE"))
fault("CS5 bars nobody", "steps", "station",
      ENDS_CALL, ENDS_CALL.replace("at(barred", "at(station"))
fault("three-block calls: CS3 is any other word", "steps", "station",
      GIVES_UP_THREE, GIVES_UP_THREE.replace("first == CS3 or ", ""))
fault("three-block calls: without end", "steps", "station",
      GIVES_UP_THREE, GIVES_UP_THREE.replace(
          " or station.cycles >= MOST_CALL_BURSTS", ""))
fault("three-block calls: 127 call bursts", "steps", "station",
      GIVES_UP_THREE, GIVES_UP_THREE.replace("BURSTS", "BURSTS - 1"))
fault("three-block calls: 129 call bursts", "steps", "station",
      GIVES_UP_THREE, GIVES_UP_THREE.replace("BURSTS", "BURSTS + 1"))
fault("three-block calls: exactly 128 call bursts end one, more do not", "steps",
      "station", GIVES_UP_THREE, GIVES_UP_THREE.replace(">=", "=="))
fault("three-block calls: one that is given up bars nobody", "steps", "station",
      GAVE_UP_THREE, GAVE_UP_THREE.replace("at(barred", "at(station"))
fault("three-block calls: one that is given up bars nobody, and waits", "steps",
      "station", GAVE_UP_THREE, GAVE_UP_THREE.replace(
          "at(barred, STANDBY)", "at(station, STANDBY, cycles=CYCLES_TO_WAIT)"))
fault("three-block calls: one that is given up is ended", "steps", "station",
      GAVE_UP_THREE, GAVE_UP_THREE.replace("STANDBY), SILENCE",
                                           "ENDING, 2, total=1), ALPHAS"))
fault("three-block calls: the own identity is barred", "steps", "station",
      BARS, BARS.replace("station.seven", "station.own_seven"))
fault("three-block calls: the identity called is at the other end, and not barred",
      "steps", "station", BARS, BARS.replace("Barred(station.seven)", "station.seven"))
fault("three-block calls: blocks 1 and 2 in turn", "steps", "station",
      THREE_IN_TURN, THREE_IN_TURN.replace("% 3", "% 2"))
fault("three-block calls: each block three times", "steps", "station",
      THREE_IN_TURN, THREE_IN_TURN.replace("% 3", "// 3 % 3"))
fault("three-block calls: the blocks from 3 down", "steps", "station",
      THREE_IN_TURN, "3 - station.cycles % 3)\n")
fault("three-block calls: block 1 again behind the first", "steps", "station",
      THREE_IN_TURN, "(station.cycles - 1) % 3 + 1)\n")
fault("three-block calls: Calling has a time-out", "steps", "station",
      "COUNTING = (SENDING, TURNING,", "COUNTING = (CALLING_3, SENDING, TURNING,")

# Entering Stand-by.
STAYS_BARRED = "        if isinstance(other_end, Barred):\n            cycles = CYCLES_TO_WAIT\n"

fault("entering Stand-by: a bar is forgotten", "steps", "station",
      STAYS_BARRED + FORGETS, "        other_end = None\n")
fault("entering Stand-by: a bar does not wait", "steps", "station",
      STAYS_BARRED, STAYS_BARRED.replace("cycles = CYCLES_TO_WAIT", "pass"))
fault("entering Stand-by: a bar waits for 127", "steps", "station",
      STAYS_BARRED, STAYS_BARRED.replace("CYCLES_TO_WAIT", "CYCLES_TO_WAIT - 1"))
fault("entering Stand-by: a bar waits for 129", "steps", "station",
      STAYS_BARRED, STAYS_BARRED.replace("CYCLES_TO_WAIT", "CYCLES_TO_WAIT + 1"))
fault("entering Stand-by: seven signals that were told are kept", "steps", "station",
      FORGETS, "        elif other_end is None or len(other_end) == 4:\n"
      "            other_end = None\n")
fault("entering Stand-by: four signals are kept", "steps", "station",
      FORGETS, "        elif other_end is None or len(other_end) == 7:\n"
      "            other_end = None\n")
fault("entering Stand-by: seven signals that were told are barred", "steps", "station",
      FORGETS, "        elif other_end is not None and len(other_end) == 7:\n"
      "            other_end = Barred(other_end)\n" + FORGETS)
fault("entering Stand-by: seven signals that were told have it wait", "steps", "station",
      FORGETS, "        elif other_end is not None and len(other_end) == 7:\n"
      "            other_end = None\n            cycles = CYCLES_TO_WAIT\n" + FORGETS)
fault("becoming Lost: a bar is forgotten", "steps", "station",
      STILL_THERE, STILL_THERE.replace(
          "station.other_end", "None if place == LOST and isinstance(\n"
          "        station.other_end, Barred) else station.other_end"))
fault("a turn: seven signals at the other end are forgotten", "steps",
      "station", STILL_THERE, STILL_THERE.replace(
          "station.other_end", "None if place == OPENING and isinstance(\n"
          "        station.other_end, tuple) and len(station.other_end) == 7 "
          "else station.other_end"))

# Identifying.
EXPECTS = "    elif first == check_sum(station.seven, stage):\n"
NEXT_STAGE = ("        following = at(station, IDENTIFYING, stage=stage + 1, "
              "seven=station.seven)\n")
NEXT_BLOCK = """                          identification_block(station.own_seven, stage + 1), (),
                          False), True)
"""
SAME_AGAIN = "        if station.wrong > 0 and first == station.last_wrong:\n"
ENDS_WRONG = """            return Row(Answer(at(station, ENDING, 2, total=1), ALPHAS, (), False),
                       False)
"""
TOO_MANY = "        if station.wrong >= MOST_WRONG:\n"
GIVEN_UP = "            return Row(Answer(at(station, STANDBY), SILENCE, (), False), False)\n"
COUNTS_WRONG = ("        again = station._replace(wrong=station.wrong + 1, "
                "last_wrong=first)\n")
WRONG_AGAIN = COUNTS_WRONG + "        return Row(Answer(again, block, (), False), False)\n"
BLOCK_AGAIN = "    return Row(Answer(station, block, (), False), False)\n"
ID_FIRST = """    first = burst[0]
    stage = station.stage
"""

fault("Identifying reads all three words", "steps", "station",
      ID_FIRST, ID_FIRST + "    if burst[1:] != (0, 0):\n        first = 0\n")
fault("Identifying expects the check-sums of its own identity", "steps", "station",
      EXPECTS, EXPECTS.replace("station.seven", "station.own_seven"))
fault("Identifying expects check-sum 1 at every stage", "steps", "station",
      EXPECTS, EXPECTS.replace(", stage", ", 1"))
fault("Identifying takes any of the three check-sums", "steps", "station",
      EXPECTS, "    elif first in [check_sum(station.seven, n) for n in (1, 2, 3)]:\n")
fault("Identifying takes a check-sum with bit 7 set", "steps", "station",
      EXPECTS, EXPECTS.replace("first ==", "first % 128 =="))
fault("Identifying takes every letter for the check-sum", "steps", "station",
      EXPECTS, "    elif is_check_sum_signal(first):\n")
fault("Identifying goes on two stages", "steps", "station",
      NEXT_STAGE, NEXT_STAGE.replace("stage + 1", "min(stage + 2, 4)"))
fault("the next stage keeps the wrong check-sums counted", "steps", "station",
      NEXT_STAGE, NEXT_STAGE.replace("stage + 1,", "stage + 1, wrong=station.wrong,"))
fault("the next stage keeps the last wrong check-sum", "steps", "station",
      NEXT_STAGE, NEXT_STAGE.replace("stage + 1,",
                                     "stage + 1, last_wrong=station.last_wrong,"))
fault("the next stage forgets the identity called", "steps", "station",
      NEXT_STAGE, NEXT_STAGE.replace(", seven=station.seven", ""))
fault("the next stage sends the block before it again", "steps", "station",
      NEXT_BLOCK, NEXT_BLOCK.replace("stage + 1", "stage"))
fault("the next stage counts as a repetition", "steps", "station",
      NEXT_BLOCK, NEXT_BLOCK.replace("True", "False"))
fault("the next stage sends the signals of the one called", "steps", "station",
      NEXT_BLOCK, NEXT_BLOCK.replace("own_seven", "seven"))
fault("wrong check-sums are not compared", "steps", "station",
      SAME_AGAIN, "        if False:\n")
fault("any second wrong check-sum ends the call", "steps", "station",
      SAME_AGAIN, "        if station.wrong > 0:\n")
fault("a wrong check-sum is compared where none was counted", "steps", "station",
      SAME_AGAIN, "        if first == station.last_wrong:\n")
fault("wrong check-sums are compared from the third on", "steps", "station",
      SAME_AGAIN, SAME_AGAIN.replace("> 0", "> 1"))
fault("wrong check-sums are compared once only", "steps", "station",
      SAME_AGAIN, SAME_AGAIN.replace("station.wrong > 0", "station.wrong == 1"))
fault("wrong check-sums are compared up to the fourth", "steps", "station",
      SAME_AGAIN, SAME_AGAIN.replace("station.wrong > 0", "0 < station.wrong < 4"))
fault("a wrong check-sum twice: the end is under number 1", "steps", "station",
      ENDS_WRONG, ENDS_WRONG.replace("ENDING, 2", "ENDING, 1"))
fault("a wrong check-sum twice leads to Stand-by", "steps", "station",
      ENDS_WRONG, GIVEN_UP)
fault("a wrong check-sum twice bars the identity called", "steps", "station",
      ENDS_WRONG, ENDS_WRONG.replace(
          "at(station,", "at(station._replace(\n                "
          "other_end=Barred(station.seven)),"))
fault("a wrong check-sum twice: the end takes the offer of an end", "steps", "station",
      ENDS_WRONG, ENDS_WRONG.replace("(), False)", "(), offer.kind == \"end\")"))
fault("a block goes out five times again for wrong check-sums", "steps", "station",
      "MOST_WRONG = 4\n", "MOST_WRONG = 5\n")
fault("a block goes out three times again for wrong check-sums", "steps", "station",
      "MOST_WRONG = 4\n", "MOST_WRONG = 3\n")
fault("wrong check-sums without end", "steps", "station",
      TOO_MANY, "        if False:\n")
fault("exactly four wrong check-sums, more do not", "steps", "station",
      TOO_MANY, TOO_MANY.replace(">=", "=="))
fault("the fifth wrong check-sum ends the call", "steps", "station",
      TOO_MANY + "            # \"after which", TOO_MANY
      + ENDS_WRONG + "            # \"after which")
fault("the fifth wrong check-sum makes it Lost", "steps", "station",
      GIVEN_UP, GIVEN_UP.replace("STANDBY", "LOST"))
fault("the fifth wrong check-sum has it wait", "steps", "station",
      GIVEN_UP, GIVEN_UP.replace("STANDBY", "STANDBY, cycles=CYCLES_TO_WAIT"))
fault("the fifth wrong check-sum bars the identity called", "steps", "station",
      GIVEN_UP, GIVEN_UP.replace("at(station,", "at(station._replace(\n                "
                                 "other_end=Barred(station.seven)),"))
fault("wrong check-sums are not counted", "steps", "station",
      COUNTS_WRONG, COUNTS_WRONG.replace("wrong=station.wrong + 1, ", ""))
fault("the last wrong check-sum is not kept", "steps", "station",
      COUNTS_WRONG, COUNTS_WRONG.replace(", last_wrong=first", ""))
fault("the first wrong check-sum is kept", "steps", "station",
      COUNTS_WRONG, COUNTS_WRONG.replace(
          "last_wrong=first", "last_wrong=station.last_wrong if station.wrong else first"))
fault("a wrong check-sum is no repetition", "steps", "station",
      WRONG_AGAIN, WRONG_AGAIN.replace("(), False), False)", "(), False), True)"))
fault("a wrong check-sum has RQ RQ RQ sent", "steps", "station",
      WRONG_AGAIN, WRONG_AGAIN.replace("again, block", "again, THREE_RQ"))
fault("a damaged check-sum forgets the last wrong one", "steps", "station",
      BLOCK_AGAIN, BLOCK_AGAIN.replace("station, block",
                                       "station._replace(last_wrong=0), block"))
fault("a damaged check-sum sets the wrong ones to none", "steps", "station",
      BLOCK_AGAIN, BLOCK_AGAIN.replace("station, block",
                                       "station._replace(wrong=0), block"))
fault("RQ counts as a wrong check-sum", "steps", "station",
      BLOCK_AGAIN, "    if first == RQ:\n"
      "        station = station._replace(wrong=min(station.wrong + 1, 255))\n"
      + BLOCK_AGAIN)
fault("over four wrong check-sums are cut to four", "steps", "station",
      BLOCK_AGAIN, BLOCK_AGAIN.replace(
          "station, block", "station._replace(wrong=min(station.wrong, 4)), block"))
fault("a damaged check-sum has RQ RQ RQ sent", "steps", "station",
      BLOCK_AGAIN, BLOCK_AGAIN.replace("station, block", "station, THREE_RQ"))
fault("CS4 at Identifying goes back to stage 1", "steps", "station",
      BLOCK_AGAIN, "    if first == CS4:\n        return Row(Answer(\n"
      "            station._replace(stage=1), identification_block(\n"
      "                station.own_seven, 1), (), False), False)\n" + BLOCK_AGAIN)
fault("CS5 at Identifying ends the call", "steps", "station",
      BLOCK_AGAIN, "    if first == CS5:\n        return Row(Answer(\n"
      "            at(station, ENDING, 2, total=1), ALPHAS, (), False), False)\n"
      + BLOCK_AGAIN)

ID_ENDS = """    if stage == 4:
        known = station._replace(other_end=station.seven)
        if first == CS1:
"""
ID_TAKES = "            return Row(take(known, offer, 1), False)\n"
ID_TURNS = "            return Row(Answer(at(known, TURNING, 2), TURN, (), False), False)\n"

fault("identification ends at stage 3 too", "steps", "station",
      ID_ENDS, ID_ENDS.replace("stage == 4", "stage == 4 or stage == 3 and first == CS1"))
fault("identification ends by CS2 too", "steps", "station",
      ID_ENDS, ID_ENDS.replace("first == CS1", "first in (CS1, CS2)"))
fault("identification ends by CS4", "steps", "station",
      ID_ENDS, ID_ENDS.replace("first == CS1", "first == CS4"))
fault("identification ended: nobody is at the other end", "steps", "station",
      ID_ENDS, ID_ENDS.replace("station._replace(other_end=station.seven)", "station"))
fault("identification ended: the own identity is at the other end", "steps", "station",
      ID_ENDS, ID_ENDS.replace("=station.seven)", "=station.own_seven)"))
fault("identification ended: four signals are at the other end", "steps", "station",
      ID_ENDS, ID_ENDS.replace("=station.seven)", "=station.seven[:4])"))
fault("identification ended: traffic under number 2", "steps", "station",
      ID_TAKES, ID_TAKES.replace("offer, 1", "offer, 2"))
fault("identification ended: the offer is not taken", "steps", "station",
      ID_TAKES, "            return Row(take(known, NOTHING, 1)._replace(\n"
      "                taken=offer.kind == \"nothing\"), False)\n")
fault("identification ended leads to Opening", "steps", "station",
      ID_TAKES, "            return Row(Answer(at(known, OPENING), request(station),\n"
      "                              (), False), False)\n")
fault("identification ended by CS3: the last block is 1", "steps", "station",
      ID_TURNS, ID_TURNS.replace("TURNING, 2", "TURNING, 1"))
fault("identification ended by CS3: the offer is taken", "steps", "station",
      ID_TURNS, ID_TURNS.replace("(), False)", "(), True)"))
fault("identification ended by CS3: nobody is at the other end", "steps", "station",
      ID_TURNS, ID_TURNS.replace("at(known,", "at(station,"))
fault("identification ended by CS3: RQ RQ RQ is sent", "steps", "station",
      ID_TURNS, ID_TURNS.replace("TURN, ()", "THREE_RQ, ()"))
fault("CS3 at the end of identification is any other word", "steps", "station",
      "        if first == CS3:\n            # 001, 3.6.11",
      "        if False:\n            # 001, 3.6.11")
fault("CS3 at the end of identification leads to Stand-by", "steps", "station",
      ID_TURNS, ID_TURNS.replace("at(known, TURNING, 2), TURN",
                                 "at(known, STANDBY), SILENCE"))
fault("a letter at stage 4 counts as a wrong check-sum", "steps", "station",
      "    elif is_check_sum_signal(first):\n", "    if is_check_sum_signal(first) and (\n"
      "            stage == 4 or first != check_sum(station.seven, stage)):\n")

# Answering.
ANSWERS_END = "    if burst == ALPHAS:\n        # 001, 3.6.17"
ANSWERED_END = "return Row(Answer(at(station, STANDBY), single(CS1), (), False), False)"
HEARS_LAST = "    if burst == THREE_RQ and stage == 4:\n"
KNOWS = """        known = station._replace(other_end=station.seven)
        if offer.kind == "over":
"""
ANSWERS_OVER = "            return Row(Answer(at(known, ASKING), single(CS3), (), True), False)\n"
BEGINS_TRAFFIC = ("        return Row(Answer(at(known, RECEIVING, 1), single(CS1), (), "
                  "False), False)\n")
OF_THE_STAGE = "    if number == stage:\n"
GATHERS = """        seven = gathered_with(station.seven, burst, number)
        return Row("""
ADVANCES = "at(station, ANSWERING, stage=stage + 1, seven=seven),\n"
FIRST_SUM = """                          single(check_sum(station.own_seven, number)), (), False),
                   True)
"""
OF_THE_LAST = "    if number != 0 and number == stage - 1:\n"
SAME_LETTERS = "        if seven == station.seven:\n"
SUM_AGAIN = "            word = check_sum(station.own_seven, number)\n"
LAST_AGAIN = """        return Row(Answer(station._replace(seven=seven), single(word), (), False),
                   False)
"""
ASKS_AGAIN = ("    return Row(Answer(station, single(CS4 if stage == 1 else RQ), (), "
              "False), False)\n")
IS_ID_BLOCK = "        if all(is_identity_signal(word) if place in places else word == ALPHA\n"
ID_PLACES = ("LETTERS_OF_BLOCK = {1: ((0, 2), (0, 1)), 2: ((1, 2), (2, 3)), "
             "3: ((0, 1, 2), (4, 5, 6))}\n")

fault("the end at Answering is any other burst", "steps", "station",
      ANSWERS_END, ANSWERS_END.replace("burst == ALPHAS", "False"))
fault("the end at Answering is heard by its first two words", "steps", "station",
      ANSWERS_END, ANSWERS_END.replace("burst == ALPHAS", "burst[:2] == ALPHAS[:2]"))
fault("the end at Answering is heard behind the first stage alone", "steps", "station",
      ANSWERS_END, ANSWERS_END.replace("burst == ALPHAS", "burst == ALPHAS and stage > 1"))
fault("the end at Answering is answered by CS2", "steps", "station",
      ANSWERED_END, ANSWERED_END.replace("CS1", "CS2"))
fault("the end at Answering is answered in silence", "steps", "station",
      ANSWERED_END, ANSWERED_END.replace("single(CS1)", "SILENCE"))
fault("the end at Answering makes it Lost", "steps", "station",
      ANSWERED_END, ANSWERED_END.replace("STANDBY", "LOST"))
fault("the end at Answering has it wait", "steps", "station",
      ANSWERED_END, ANSWERED_END.replace("STANDBY", "STANDBY, cycles=CYCLES_TO_WAIT"))
fault("RQ RQ RQ ends identification at stage 3 too", "steps", "station",
      HEARS_LAST, HEARS_LAST.replace("stage == 4", "stage >= 3"))
fault("RQ RQ RQ ends identification at every stage", "steps", "station",
      HEARS_LAST, "    if burst == THREE_RQ:\n")
fault("one RQ ends identification", "steps", "station",
      HEARS_LAST, "    if burst[0] == RQ and stage == 4:\n")
fault("two RQ end identification", "steps", "station",
      HEARS_LAST, "    if burst[:2] == (RQ, RQ) and stage == 4:\n")
fault("identification answered: nobody is at the other end", "steps", "station",
      KNOWS, KNOWS.replace("station._replace(other_end=station.seven)", "station"))
fault("identification answered: the own identity is at the other end", "steps",
      "station", KNOWS, KNOWS.replace("=station.seven)", "=station.own_seven)"))
fault("identification answered: an over offered is not looked at", "steps", "station",
      KNOWS, KNOWS.replace("offer.kind == \"over\"", "False"))
fault("identification answered: every offer but nothing begins the traffic", "steps",
      "station", KNOWS, KNOWS.replace("== \"over\"", "!= \"nothing\""))
fault("identification answered: an over offered is not taken", "steps", "station",
      ANSWERS_OVER, ANSWERS_OVER.replace("True", "False"))
fault("identification answered: an over offered is sent as a block", "steps", "station",
      ANSWERS_OVER, "            return Row(take(known, offer, 1), False)\n")
fault("identification answered: an over offered leads to Opening", "steps", "station",
      ANSWERS_OVER, ANSWERS_OVER.replace("ASKING", "OPENING"))
fault("identification answered: it awaits 2", "steps", "station",
      BEGINS_TRAFFIC, BEGINS_TRAFFIC.replace("RECEIVING, 1", "RECEIVING, 2"))
fault("identification answered by CS2", "steps", "station",
      BEGINS_TRAFFIC, BEGINS_TRAFFIC.replace("CS1", "CS2"))
fault("identification answered by CS4", "steps", "station",
      BEGINS_TRAFFIC, BEGINS_TRAFFIC.replace("CS1", "CS4"))
fault("identification answered: nothing offered counts as taken", "steps", "station",
      BEGINS_TRAFFIC, BEGINS_TRAFFIC.replace("False), False", "offer.kind == \"nothing\""
                                             "), False"))
fault("identification answered: the identity is printed", "steps", "station",
      BEGINS_TRAFFIC, BEGINS_TRAFFIC.replace("(), False", "station.seven[:3], False"))
fault("identification: Y5 Y6 Y7 before Y1 alpha Y2 is accepted", "steps", "station",
      OF_THE_STAGE, "    if number == stage or number == 3 and stage == 1:\n")
fault("identification: a block too far on is accepted", "steps", "station",
      OF_THE_STAGE, "    if number >= stage:\n")
fault("identification: a block of any number is accepted", "steps", "station",
      OF_THE_STAGE, "    if number != 0 and stage < 4:\n")
fault("identification: three plain letters begin it", "steps", "station",
      OF_THE_STAGE, "    if stage == 1 and number == 3:\n        number = 0\n"
      "        station = station._replace(seven=gathered_with(station.seven, burst, 3))\n"
      + OF_THE_STAGE)
fault("identification: nothing is gathered", "steps", "station",
      ADVANCES, ADVANCES.replace("seven=seven", "seven=station.seven"))
fault("identification: what was gathered before is dropped", "steps", "station",
      GATHERS, GATHERS.replace("station.seven", "NO_SEVEN"))
fault("identification: the stage is not gone on from", "steps", "station",
      ADVANCES, ADVANCES.replace("stage=stage + 1", "stage=stage"))
fault("identification: the check-sum of what was gathered is sent", "steps", "station",
      FIRST_SUM, FIRST_SUM.replace("station.own_seven", "seven"))
fault("identification: check-sum 1 is sent at every stage", "steps", "station",
      FIRST_SUM, FIRST_SUM.replace(", number", ", 1"))
fault("identification: CS4 is sent for a check-sum", "steps", "station",
      FIRST_SUM, FIRST_SUM.replace("check_sum(station.own_seven, number)", "CS4"))
fault("identification: a block accepted counts as a repetition", "steps", "station",
      FIRST_SUM, FIRST_SUM.replace("True", "False"))
fault("identification: three letters are printed", "steps", "station",
      FIRST_SUM, FIRST_SUM.replace("(), False", "burst if number == 3 else (), False"))
fault("identification: the letters of each block are printed", "steps", "station",
      FIRST_SUM, FIRST_SUM.replace(
          "(), False", "tuple(word for word in burst if word != ALPHA), False"))
fault("identification: an earlier block is any other burst", "steps", "station",
      OF_THE_LAST, "    if False:\n")
fault("identification: every earlier block has its check-sum", "steps", "station",
      OF_THE_LAST, "    if 0 < number < stage:\n")
fault("identification: the same letters are not compared", "steps", "station",
      SAME_LETTERS, "        if True:\n")
fault("identification: the same letters have RQ sent too", "steps", "station",
      SAME_LETTERS, "        if False:\n")
fault("identification: only the first of the letters is compared", "steps", "station",
      SAME_LETTERS, "        first = LETTERS_OF_BLOCK[number][1][0]\n"
      "        if seven[first] == station.seven[first]:\n")
fault("identification: other letters do not take the place of the first ones", "steps",
      "station", LAST_AGAIN, LAST_AGAIN.replace("._replace(seven=seven)", ""))
fault("identification: other letters are answered by CS4", "steps", "station",
      "        word = RQ\n", "        word = CS4\n")
fault("identification: other letters are answered by RQ RQ RQ", "steps", "station",
      LAST_AGAIN, LAST_AGAIN.replace("single(word)",
                                     "THREE_RQ if word == RQ else single(word)"))
fault("identification: the check-sum again is the next one", "steps", "station",
      SUM_AGAIN, SUM_AGAIN.replace("number", "min(number + 1, 3)"))
fault("identification: a block heard again is no repetition", "steps", "station",
      LAST_AGAIN, LAST_AGAIN.replace("                   False)", "                   True)"))
fault("identification: other letters go back to the stage before", "steps", "station",
      LAST_AGAIN, LAST_AGAIN.replace(
          "station._replace(seven=seven)",
          "station._replace(seven=seven, stage=stage - (word == RQ))"))
fault("identification: CS4 is asked with at every stage", "steps", "station",
      ASKS_AGAIN, ASKS_AGAIN.replace("CS4 if stage == 1 else RQ", "CS4"))
fault("identification: RQ is asked with at stage 1 too", "steps", "station",
      ASKS_AGAIN, ASKS_AGAIN.replace("CS4 if stage == 1 else RQ", "RQ"))
fault("identification: RQ RQ RQ is asked with", "steps", "station",
      ASKS_AGAIN, ASKS_AGAIN.replace("single(CS4 if stage == 1 else RQ)",
                                     "single(CS4) if stage == 1 else THREE_RQ"))
fault("identification: a damaged block forgets what was gathered", "steps", "station",
      ASKS_AGAIN, ASKS_AGAIN.replace("Answer(station,",
                                     "Answer(station._replace(seven=NO_SEVEN),"))
fault("identification: a damaged block goes back to stage 1", "steps", "station",
      ASKS_AGAIN, ASKS_AGAIN.replace("Answer(station,", "Answer(station._replace(stage=1),"))
fault("identification: letters are all traffic signals", "steps", "station",
      IS_ID_BLOCK, IS_ID_BLOCK.replace("is_identity_signal(word)", "is_traffic(word)"))
fault("identification: any word may stand in the place of alpha", "steps", "station",
      IS_ID_BLOCK, IS_ID_BLOCK.replace("word == ALPHA", "True"))
fault("identification: RQ may stand in the place of alpha", "steps", "station",
      IS_ID_BLOCK, IS_ID_BLOCK.replace("word == ALPHA", "word in (ALPHA, RQ)"))
fault("identification: beta may stand in the place of alpha", "steps", "station",
      IS_ID_BLOCK, IS_ID_BLOCK.replace("word == ALPHA", "word in (ALPHA, BETA)"))
fault("identification: the letters may have bit 7 set", "steps", "station",
      IS_ID_BLOCK, IS_ID_BLOCK.replace("is_identity_signal(word)",
                                       "is_identity_signal(word % 128)"))
fault("identification: the letters of block 1 are gathered the other way round",
      "steps", "station", ID_PLACES, ID_PLACES.replace("(0, 2), (0, 1)", "(0, 2), (1, 0)"))
fault("identification: the letters of block 2 are gathered in the place of the first",
      "steps", "station", ID_PLACES, ID_PLACES.replace("(2, 3)", "(0, 1)"))
fault("identification: the last letter of block 3 is not gathered", "steps", "station",
      ID_PLACES, ID_PLACES.replace("(4, 5, 6)", "(4, 5)"))

# The 32nd repetition.
AT_THE_32ND = ("    if count == MOST_COUNT + 1 and station.place in (IDENTIFYING, "
               "ANSWERING):\n")
RESTS = "        resting = at(station, STANDBY)._replace(count=0)\n"

fault("the 32nd repetition of identification makes it Lost", "steps", "station",
      AT_THE_32ND, "    if False:\n")
fault("the 32nd repetition makes Identifying Lost", "steps", "station",
      AT_THE_32ND, AT_THE_32ND.replace("(IDENTIFYING, ANSWERING)", "(ANSWERING,)"))
fault("the 32nd repetition makes Answering Lost", "steps", "station",
      AT_THE_32ND, AT_THE_32ND.replace("(IDENTIFYING, ANSWERING)", "(IDENTIFYING,)"))
fault("the 32nd repetition leads every place to Stand-by", "steps", "station",
      AT_THE_32ND, "    if count == MOST_COUNT + 1:\n")
fault("identification: 33 repetitions and more", "steps", "station",
      "    count = station.count + 1\n", "    count = station.count + 1\n"
      "    if station.place in (IDENTIFYING, ANSWERING):\n"
      "        count = min(count, MOST_COUNT)\n")
fault("identification: Stand-by one step early", "steps", "station",
      AT_THE_32ND, AT_THE_32ND.replace("== MOST_COUNT + 1", ">= MOST_COUNT"))
fault("Identifying has no time-out", "steps", "station",
      "ASKING, IDENTIFYING, ANSWERING)\n", "ASKING, ANSWERING)\n")
fault("Answering has no time-out", "steps", "station",
      "ASKING, IDENTIFYING, ANSWERING)\n", "ASKING, IDENTIFYING)\n")
fault("identification: the 32nd repetition keeps its count", "steps", "station",
      RESTS, "        resting = at(station, STANDBY)\n")
fault("identification: the 32nd repetition has it wait", "steps", "station",
      RESTS, RESTS.replace("STANDBY", "STANDBY, cycles=CYCLES_TO_WAIT"))
fault("identification: the 32nd repetition bars the identity", "steps", "station",
      RESTS, RESTS.replace("at(station,", "at(station._replace(\n            "
                           "other_end=Barred(station.seven)),"))
fault("identification: the 32nd repetition sets letters case", "steps", "station",
      RESTS, RESTS.replace("count=0", "count=0, case=\"letters\""))
fault("identification: the 32nd repetition still sends its burst", "steps", "station",
      "        return Answer(resting, SILENCE, (), False)",
      "        return Answer(resting, answer.burst, (), False)")

# A call of seven signals offered where none is placed.
TAKEN_OF_TAKE = "                  offer.kind not in CALLS)"

fault("a call of seven offered is reported as taken where a row takes", "steps",
      "station", TAKEN_OF_TAKE, "                  offer.kind != \"call\")")
fault("a call of seven offered ends the circuit", "steps", "station",
      "    if offer.kind == \"end\":\n",
      "    if offer.kind in (\"end\", \"call of seven\"):\n")
fault("a call of seven offered at Receiving turns the direction", "steps", "station",
      "        if over or offer.kind == \"over\":\n",
      "        if over or offer.kind in (\"over\", \"call of seven\"):\n")

# --- The station: the answer-back (02, T-06) ---

# Of `listen`.
HEARS_D = "        elif case == \"figures\" and word == WHO_ARE_YOU:\n"
ASKED = "            asked = True\n            plus = False\n"
# Of `receiving`.
READS_BLOCK = ("        case, plus, over, asked = listen(station.case, station.plus, "
               "burst)\n")
IF_ASKED = "        if asked:\n"
KEEP_OR_BACK = "            owed = Owed(\"keep\" if over else \"back\", 0)\n"
TURNS_TO_ANSWER = """            return Row(Answer(at(heard, ASKING)._replace(owed=owed), single(CS3),
                              printed, False), True)
"""
# Of `answer_blocks`.
CODE_IN_THREES = "    for start in range(0, code.length, 3):\n"
FILLED = "        blocks.append(signals + (BETA,) * (3 - len(signals)))\n"
TWO_OF_BETA = "    blocks.extend((BETAS, BETAS))\n"
OVER_BEHIND = "    if kind == \"back\":\n        blocks.append(OVER)\n"
# Of `take` and `take_owed`.
IF_OWED = "    if station.owed is not None:\n        return take_owed(station, number)\n"
OWED_BLOCK = "    block = blocks[index]\n"
MORE_OWED = "    if index + 1 < len(blocks):\n        owed = Owed(kind, index + 1)\n"
SENDS_OWED = "    answering_back = at(station, SENDING, number, held=block)._replace(owed=owed)\n"
NOT_TAKEN = "    return Answer(answering_back, block, (), False)\n"
# Of `sending`, and of `at`.
DROPS = "        station = station._replace(owed=None)\n"
RESTS_OWING = "    owed = station.owed\n    if place == STANDBY:\n        owed = None\n"
# Of the refusals, in their order.
INDEX_JUDGED = """    if station.owed is not None:
        # 02, T-06: "the station's shape and 01's test of it change": a block is owed
        # that the answer does not have.
        if station.owed.index >= len(answer_blocks(station.code, station.owed.kind)):
            return Refused(4, 0)
"""
CODE_JUDGED = "    if not code_passes(station.code):\n        return Refused(9, 0)\n"
TEXT_JUDGED = """    if offer.kind == "text":
        for index, word in enumerate(offer.words):
            if not may_stand_in_block(word):
                return Refused(3, index)
"""
# Of `code_passes`.
TOO_LONG = "    if code.length > MOST_OF_CODE:\n        return False\n"
IN_THE_CODE = "    signals = code.words[:code.length]\n    for word in signals:\n"
NO_TRAFFIC = "        if not is_traffic(word):\n            return False\n    for case"
EITHER_CASE = "    for case in (\"letters\", \"figures\"):\n"
JUDGED_CASE = "        _, _, over, asked = listen(case, False, signals)\n"
HOLDS = "        if over or asked:\n"

fault("D in figures is only printed", "steps, hear", "station",
      IF_ASKED, "        if False:\n")
fault("D in letters is answered too", "steps, hear", "station",
      HEARS_D, "        elif word == WHO_ARE_YOU:\n")
fault("D in figures does not cancel the +", "steps, hear", "station",
      ASKED, "            asked = True\n")
fault("D is answered by the case before the block", "steps, hear", "station",
      READS_BLOCK, READS_BLOCK
      + "        asked = station.case == \"figures\" and WHO_ARE_YOU in burst\n")
fault("D is answered only at the end of a block", "steps, hear", "station",
      ASKED, "            asked = word is block[-1]\n            plus = False\n")
fault("the block with D is not printed", "steps, hear", "station",
      TURNS_TO_ANSWER, TURNS_TO_ANSWER.replace("printed, False", "(), False"))
fault("D is answered by CS1 or CS2, and sends at once", "steps, hear", "station",
      TURNS_TO_ANSWER, TURNS_TO_ANSWER.replace("single(CS3)",
                                               "single(CONTROL[next_number])"))
fault("the block with D: an over offered is taken", "steps", "station",
      TURNS_TO_ANSWER, TURNS_TO_ANSWER.replace("printed, False",
                                               "printed, offer.kind == \"over\""))
fault("the block with D: an over offered comes before the answer", "steps", "station",
      IF_ASKED, "        if asked and offer.kind != \"over\":\n")
fault("the block with D: an over offered keeps the direction", "steps", "station",
      KEEP_OR_BACK, KEEP_OR_BACK.replace("if over", "if over or offer.kind == \"over\""))
fault("the block with D cancels the + behind it", "steps", "station",
      TURNS_TO_ANSWER, TURNS_TO_ANSWER.replace("_replace(owed=owed)",
                                               "_replace(owed=owed, plus=False)"))
fault("the block with D leaves the case as it was", "steps, hear", "station",
      TURNS_TO_ANSWER, TURNS_TO_ANSWER.replace(
          "_replace(owed=owed)", "_replace(owed=owed, case=station.case)"))
# A station without a code that is offered nothing sends the same without an answer:
# `hear` cannot tell this one.
fault("an over and D in one block: no answer", "steps", "station",
      IF_ASKED, "        if asked and not over:\n")
fault("an over in the block with D does not keep the direction", "steps, hear",
      "station", KEEP_OR_BACK, "            owed = Owed(\"back\", 0)\n")
fault("the direction is always kept", "steps, hear", "station",
      KEEP_OR_BACK, "            owed = Owed(\"keep\", 0)\n")
fault("the direction is kept only where the over stands behind D", "steps, hear",
      "station", ASKED, ASKED + "            over = False\n")
fault("the direction is kept only where the + is in the same block", "steps, hear",
      "station", KEEP_OR_BACK,
      KEEP_OR_BACK.replace("if over", "if over and PLUS in burst"))
fault("the answer begins with its second block", "steps", "station",
      KEEP_OR_BACK, KEEP_OR_BACK.replace(", 0)", ", 1)"))
fault("a question while an answer is owed goes on with that", "steps", "station",
      KEEP_OR_BACK, KEEP_OR_BACK + "            owed = station.owed or owed\n")
fault("an accepted block without D drops what is owed", "steps", "station",
      "        if over or offer.kind == \"over\":\n",
      "        heard = heard._replace(owed=None)\n"
      "        if over or offer.kind == \"over\":\n")

fault("the answer has one block of beta", "steps, hear", "station",
      TWO_OF_BETA, "    blocks.extend((BETAS,))\n")
fault("the answer has three blocks of beta", "steps, hear", "station",
      TWO_OF_BETA, "    blocks.extend((BETAS, BETAS, BETAS))\n")
fault("a code with beta in its last block has one block of beta less", "steps",
      "station", TWO_OF_BETA,
      "    blocks.extend((BETAS, BETAS)[code.length % 3 > 0:])\n")
fault("the blocks of beta stand before the code", "steps", "station",
      TWO_OF_BETA, "    blocks[:0] = (BETAS, BETAS)\n")
fault("the over is left out of the answer", "steps, hear", "station", OVER_BEHIND, "")
fault("the over is sent though the direction is kept", "steps, hear", "station",
      OVER_BEHIND, "    blocks.append(OVER)\n")
fault("the over of the answer is without figures", "steps, hear", "station",
      OVER_BEHIND, OVER_BEHIND.replace("OVER", "(PLUS, QUERY, BETA)"))
fault("the last block of a code is filled with blanks", "steps", "station",
      FILLED, FILLED.replace("(BETA,)", "(CS2,)"))
fault("the last block of a code has what is behind its length", "steps", "station",
      "code.words[start:min(start + 3, code.length)]", "code.words[start:start + 3]")
fault("a code of 20 is sent without its last signal", "steps", "station",
      "code.words[start:min(start + 3, code.length)]",
      "code.words[start:min(start + 3, code.length, 19)]")

fault("owed blocks are not sent", "steps, hear", "station", IF_OWED, "")
fault("an end goes before what is owed", "steps", "station",
      IF_OWED, IF_OWED.replace("None:", "None and offer.kind != \"end\":"))
fault("an over offered goes before what is owed", "steps", "station",
      IF_OWED, IF_OWED.replace("None:", "None and offer.kind != \"over\":"))
fault("Calling takes the offer though a block is owed", "steps", "station",
      "        return Row(take(reached, offer, heard), False)\n",
      "        return Row(take(reached._replace(owed=None), offer, heard), False)\n")
fault("Identifying takes the offer though a block is owed", "steps", "station",
      "            return Row(take(known, offer, 1), False)\n",
      "            return Row(take(known._replace(owed=None), offer, 1), False)\n")
fault("blocks of the answer are reported as taken", "steps", "station",
      NOT_TAKEN, NOT_TAKEN.replace("False", "True"))
fault("the last block of the answer takes the offer", "steps", "station",
      NOT_TAKEN, NOT_TAKEN.replace("False", "owed is None"))
fault("the block behind the one owed is sent", "steps", "station",
      OWED_BLOCK, "    block = blocks[min(index + 1, len(blocks) - 1)]\n")
fault("what is owed does not move on", "steps, hear", "station",
      MORE_OWED, MORE_OWED.replace("Owed(kind, index + 1)", "Owed(kind, index)"))
fault("the last block of the answer is not sent", "steps, hear", "station",
      MORE_OWED, MORE_OWED.replace("index + 1 <", "index + 2 <"))
fault("a block past the last is owed", "steps", "station",
      MORE_OWED, MORE_OWED.replace("index + 1 <", "index <"))
fault("behind its first block an answer turns back", "steps", "station",
      MORE_OWED, MORE_OWED.replace("Owed(kind,", "Owed(\"back\","))
fault("owed blocks are sent and not held", "steps, hear", "station",
      SENDS_OWED, SENDS_OWED.replace("held=block", "held=BETAS"))

fault("what is owed is sent after CS3", "steps, hear", "station", DROPS, "")
fault("a repetition at Sending drops what is owed", "steps", "station",
      "        return Row(Answer(station, station.held, (), False), False)\n",
      "        return Row(Answer(station._replace(owed=None), station.held, (), False),\n"
      "                   False)\n")
fault("CS3 at the end of identification drops what is owed", "steps", "station",
      ID_TURNS, ID_TURNS.replace("at(known, TURNING, 2)",
                                 "at(known, TURNING, 2)._replace(owed=None)"))
fault("a turn drops what is owed", "steps, hear", "station",
      "at(station, OPENING)._replace(plus=False)",
      "at(station, OPENING)._replace(plus=False, owed=None)")
fault("Lost owes nothing", "steps", "station",
      RESTS_OWING, RESTS_OWING.replace("== STANDBY", "in (STANDBY, LOST)"))
fault("entering Stand-by: what is owed stays", "steps", "station",
      RESTS_OWING, "    owed = station.owed\n")
fault("Stand-by that stays owes nothing", "steps", "station",
      SILENT_THERE, SILENT_THERE.replace("last=heard", "last=heard, owed=None"))
fault("a call placed: what is owed stays", "steps", "station",
      BEGUN, BEGUN.replace("owed=None", "owed=station.owed if station.master else None"))
fault("a call answered: what is owed stays", "steps", "station",
      BEGUN, BEGUN.replace("owed=None", "owed=None if station.master else station.owed"))

fault("station: refusal 4 of the index gone", "steps", "station",
      INDEX_JUDGED, "    if station.owed is not None and station.owed.index >= len(\n"
      "            answer_blocks(station.code, station.owed.kind)):\n"
      "        station = station._replace(owed=None)\n")
fault("station: an index one past the last passes", "steps", "station",
      INDEX_JUDGED, INDEX_JUDGED.replace(".index >=", ".index >"),
      (OWED_BLOCK, "    block = (blocks + [BETAS])[index]\n"))
fault("station: the index of the last block is refused", "steps", "station",
      INDEX_JUDGED, INDEX_JUDGED.replace(".index >=", ".index + 1 >="))
fault("station: the index is judged as of an answer that turns back", "steps",
      "station", INDEX_JUDGED, INDEX_JUDGED.replace("station.owed.kind", "\"back\""),
      (OWED_BLOCK, "    block = (blocks + [BETAS])[index]\n"))
fault("station: the index is judged where blocks are sent alone", "steps", "station",
      INDEX_JUDGED, INDEX_JUDGED.replace(
          "is not None:\n        # 02", "is not None and station.place in (\n"
          "            SENDING, OPENING, CALLING, IDENTIFYING):\n        # 02"))
fault("station: over 20 signals the answer counts as of 20", "steps", "station",
      INDEX_JUDGED, INDEX_JUDGED.replace(
          "station.code, station", "\n                station.code._replace(length=min("
          "station.code.length, 20)), station"))
fault("station: refusal 9 gone", "steps", "station", CODE_JUDGED, "")
fault("station: refusal 9 before 4", "steps", "station",
      CODE_JUDGED, "", (COUNT_JUDGED, CODE_JUDGED + COUNT_JUDGED))
fault("station: refusal 9 before 8", "steps", "station",
      CODE_JUDGED, "", (REFUSES_8, CODE_JUDGED + REFUSES_8))
fault("station: refusal 9 behind 3", "steps", "station",
      CODE_JUDGED, "", (TEXT_JUDGED, TEXT_JUDGED + CODE_JUDGED))
fault("station: refusal 3 before 4 of the index", "steps", "station",
      TEXT_JUDGED, "", (INDEX_JUDGED, TEXT_JUDGED + INDEX_JUDGED))
fault("station: refusal 9 only where something is owed", "steps", "station",
      CODE_JUDGED, CODE_JUDGED.replace("if not", "if station.owed is not None and not"))
fault("station: refusal 9 not at Lost", "steps", "station",
      CODE_JUDGED, CODE_JUDGED.replace("if not", "if station.place != LOST and not"))
fault("station: refusal 4 for 9", "steps", "station",
      CODE_JUDGED, CODE_JUDGED.replace("Refused(9", "Refused(4"))
fault("station: refusal 9 tells the length", "steps", "station",
      CODE_JUDGED, CODE_JUDGED.replace("9, 0", "9, station.code.length"))

fault("a code of 21 signals passes", "steps, calls C", "station",
      "MOST_OF_CODE = 20\n", "MOST_OF_CODE = 21\n",
      (NO_TRAFFIC, NO_TRAFFIC.replace("(word):", "(word) and word != 0:")))
fault("a code of 20 signals is refused", "steps, calls C", "station",
      TOO_LONG, TOO_LONG.replace(" > ", " >= "))
fault("a code: words that are no traffic pass", "steps, calls C", "station",
      NO_TRAFFIC, "        pass\n    for case")
fault("a code: beta passes", "calls C", "station",
      NO_TRAFFIC, NO_TRAFFIC.replace("is_traffic", "may_stand_in_block"))
fault("a code: RQ passes", "steps, calls C", "station",
      NO_TRAFFIC, NO_TRAFFIC.replace("(word):", "(word) and word != RQ:"))
fault("a code: shifts are refused", "steps, calls C", "station",
      NO_TRAFFIC, NO_TRAFFIC.replace("(word):", "(word) or word in (LETTERS, FIGURES):"))
fault("a code: words behind the length are judged", "steps, calls C", "station",
      IN_THE_CODE, IN_THE_CODE.replace("in signals", "in code.words[:20]"))
fault("a code: what is behind the length completes an over or asks", "steps, calls C",
      "station", JUDGED_CASE, JUDGED_CASE.replace("signals)",
                                                  "code.words[:code.length + 1])"))
fault("a code: its last word is not judged", "steps, calls C", "station",
      IN_THE_CODE, IN_THE_CODE.replace("in signals", "in signals[:-1]"))
fault("a code is judged from letters alone", "steps, calls C", "station",
      EITHER_CASE, "    for case in (\"letters\",):\n")
fault("a code: D in figures passes", "steps, calls C", "station",
      HOLDS, "        if over:\n")
fault("a code: an over passes", "steps, calls C", "station",
      HOLDS, "        if asked:\n")
fault("a code: D in letters is refused too", "steps, calls C", "station",
      HOLDS, "        if over or WHO_ARE_YOU in signals:\n")
fault("a code that begins with D passes", "calls C", "station",
      HOLDS, "        if over or asked and signals[0] != WHO_ARE_YOU:\n")
fault("a code that ends in + is refused", "steps, calls C", "station",
      JUDGED_CASE + HOLDS, JUDGED_CASE.replace("_, _,", "_, plus,")
      + "        if over or asked or plus:\n")
fault("a code: ? without + is refused", "steps, calls C", "station",
      JUDGED_CASE, JUDGED_CASE.replace("False, signals", "True, signals"))
fault("a code: any + and ? is an over", "steps, calls C", "station",
      HOLDS, "        if over or asked or PLUS in signals and QUERY in signals:\n")
fault("with code refuses 4 for 9", "calls C", "station",
      "    if not code_passes(code):\n        return Refused(9, 0)\n",
      "    if not code_passes(code):\n        return Refused(4, 0)\n")
fault("with code refuses nothing", "calls C", "station",
      "    if not code_passes(code):\n        return Refused(9, 0)\n", "")

# --- Mode B: the sender ---

fault("RX goes out four slots later", "send, calls S", "broadcast",
      "        if t < 2:\n            words.append(ALPHA)               # slots 1 and 3\n"
      "        else:\n            words.append(order[t - 2][1])",
      "        if t < 1:\n            words.append(ALPHA)\n"
      "        else:\n            words.append(order[t - 1][1])")
fault("slots 1 and 3 carry RQ", "send, calls S", "broadcast",
      "            words.append(ALPHA)               # slots 1 and 3",
      "            words.append(RQ)")
fault("15 phasing positions", "send, calls S", "broadcast",
      "order = [PHASING] * 16", "order = [PHASING] * 15")
fault("16 alpha positions at the end", "send, calls S", "broadcast",
      "order.extend([IDLE] * 17)", "order.extend([IDLE] * 16)")
fault("return and line feed are not counted for the break", "send, calls S",
      "broadcast", "        if traffic % 96 == 0:",
      "        if traffic > 2 and (traffic - 2) % 96 == 0:")
fault("a break after 97", "send, calls S", "broadcast",
      "        if traffic % 96 == 0:", "        if traffic % 97 == 0:")
fault("a break though no more text remains", "send, calls S", "broadcast",
      "    order.extend([IDLE] * 17)",
      "    if traffic % 96 == 0:\n        order.extend([PHASING] * 4)\n"
      "    order.extend([IDLE] * 17)")
fault("only the first break", "send, calls S", "broadcast",
      "        if traffic % 96 == 0:", "        if traffic == 96:")
fault("the break of the 80th times 96 is left out", "send, calls S", "broadcast",
      "        if traffic % 96 == 0:", "        if traffic % 96 == 0 and traffic != 7680:")
fault("sending: 8,192 signals are refused", "send, calls S", "broadcast",
      "if len(text) > MOST_SIGNALS:", "if len(text) >= MOST_SIGNALS:")
fault("sending: refusal 3 before 7", "send, calls S", "broadcast",
      "if len(text) > MOST_SIGNALS:",
      "if len(text) > MOST_SIGNALS and all(is_traffic(word) for word in text):")
fault("sending: beta is text", "send, calls S", "broadcast",
      "        if not is_traffic(word):\n            return Refused(3, index)",
      "        if not is_traffic(word) and word != 51:\n            return Refused(3, index)")
fault("refusal 6 before 3", "calls S", "broadcast",
      "    refusal = text_refusal(text)\n    if refusal is not None:\n",
      "    refusal = text_refusal(text)\n"
      "    if refusal is not None and refusal.number == 3:\n"
      "        if number >= len(slots(text)):\n"
      "            return Refused(6, len(slots(text)))\n"
      "    if refusal is not None:\n")
fault("refusal 6 tells the number of positions", "calls S", "broadcast",
      "return Refused(6, len(words))", "return Refused(6, len(words) // 2)")
fault("slot numbers are cut to 16 bits", "calls S", "broadcast",
      "    words = slots(text)\n", "    words = slots(text)\n    number %= 65536\n")

# --- Mode B: the receiver ---

fault("receiver: refusal 4 gone", "calls R", "broadcast",
      "        if receiver.run > MOST_RUN:", "        if False:")
fault("receiver: refusal 4 from a run of 5 on", "calls R", "broadcast",
      "        if receiver.run > MOST_RUN:", "        if receiver.run > MOST_RUN + 1:")
fault("receiver: a run of 255 passes", "calls R", "broadcast",
      "        if receiver.run > MOST_RUN:", "        if MOST_RUN < receiver.run < 255:")
fault("receiver: refusal 4 only where the run goes on", "calls R", "broadcast",
      "        if receiver.run > MOST_RUN:",
      "        if receiver.run > MOST_RUN and word in (ALPHA, RQ):")
fault("search: another word leaves the run", "calls R, receive", "broadcast",
      "    if word not in (ALPHA, RQ):\n        return Searching(0, None)",
      "    if word not in (ALPHA, RQ):\n        return receiver")
fault("search: the same signal again leaves the run", "calls R, receive",
      "broadcast", "    else:\n        run = 1\n",
      "    else:\n        run = max(receiver.run, 1)\n")
fault("search: the same signal again sets the run to 0", "calls R, receive",
      "broadcast", "    else:\n        run = 1\n    if run <= MOST_RUN:",
      "    elif receiver.run > 0:\n        return Searching(0, None)\n"
      "    else:\n        run = 1\n    if run <= MOST_RUN:")
fault("search: three signals are enough", "calls R, receive", "broadcast",
      "    if run <= MOST_RUN:", "    if run < MOST_RUN:")
fault("search: the four need not alternate", "calls R, receive", "broadcast",
      "if receiver.run > 0 and word != receiver.last:", "if receiver.run > 0:")
fault("search: alpha marks DX", "calls R, receive", "broadcast",
      "    if word == RQ:\n        last_slot = 6", "    if word == ALPHA:\n        last_slot = 6")
fault("lock: alpha waits in the place of an RQ", "calls R", "broadcast",
      "{2: RQ, 3: RQ}, False)", "{2: ALPHA, 3: RQ}, False)")
fault("lock: printing has begun at once", "calls R, receive", "broadcast",
      "{2: RQ, 3: RQ}, False)", "{2: RQ, 3: RQ}, True)")
fault("unlike copies settle as phasing", "calls R, receive", "broadcast",
      "        return rx\n    return SETTLED_ERROR",
      "        return rx\n"
      "    return SETTLED_PHASING if intact(dx) else SETTLED_ERROR")
fault("unlike copies settle as the first", "calls R, receive", "broadcast",
      "        return rx\n    return SETTLED_ERROR",
      "        return rx\n    return dx if intact(dx) else SETTLED_ERROR")
fault("two damaged copies settle as phasing", "calls R, receive", "broadcast",
      "        return rx\n    return SETTLED_ERROR",
      "        return rx\n"
      "    return SETTLED_ERROR if intact(dx) else SETTLED_PHASING")
fault("two equal damaged copies settle as that word", "calls R, receive",
      "broadcast", "if intact(dx) and intact(rx) and dx == rx:",
      "if dx == rx:")
fault("alpha then RQ is phasing too", "calls R, receive", "broadcast",
      "if dx == RQ and rx == ALPHA:", "if {dx, rx} == {RQ, ALPHA}:")
fault("RQ then alpha is an error", "calls R, receive", "broadcast",
      "if dx == RQ and rx == ALPHA:", "if False:")
fault("a lone RX copy is not taken", "calls R, receive", "broadcast",
      "    if intact(rx) and not intact(dx):\n        return rx\n",
      "    if intact(rx) and not intact(dx):\n        return SETTLED_ERROR\n")
fault("a lone DX copy is not taken", "calls R, receive", "broadcast",
      "    if intact(dx) and not intact(rx):\n        return dx\n",
      "    if intact(dx) and not intact(rx):\n        return SETTLED_ERROR\n")
fault("RX is settled with the DX two slots too young", "calls R, receive",
      "broadcast", "        settled = settle(receiver.dx[t], word)",
      "        settled = settle(receiver.dx.get(t + 1, RQ), word)")
fault("reception ends at one alpha in DX", "calls R, receive", "broadcast",
      "if word == ALPHA and before.get(t - 1) == ALPHA:", "if word == ALPHA:")
fault("reception ends only once printing has begun", "calls R, receive",
      "broadcast", "if word == ALPHA and before.get(t - 1) == ALPHA:",
      "if word == ALPHA and before.get(t - 1) == ALPHA and receiver.printing:")
fault("reception ends by a damaged alpha", "calls R, receive", "broadcast",
      "before.get(t - 1) == ALPHA:", "before.get(t - 1) % 128 == ALPHA:")
fault("reception ends by an alpha in RX behind one in DX", "calls R, receive",
      "broadcast", "    dx = dict(receiver.dx)\n    dx.pop(t, None)\n",
      "    dx = dict(receiver.dx)\n    dx.pop(t, None)\n"
      "    if word == ALPHA and dx.get(t + 2) == ALPHA:\n"
      "        return Waiting(MOST_WAIT, dx[t + 1], receiver.printing), None\n")
fault("reception ends by two alpha in RX too", "receive", "broadcast",
      "InPhase = namedtuple(\"InPhase\", \"number dx printing\")\n",
      "InPhase = namedtuple(\"InPhase\", \"number dx printing rx\", defaults=(None,))\n",
      ("    return InPhase(receiver.number + 1, dx, receiver.printing), None\n",
       "    return receiver._replace(number=receiver.number + 1, dx=dx), None\n"),
      ("    return InPhase(receiver.number + 1, dx, printing), printed\n",
       "    if word == receiver.rx == ALPHA:\n"
       "        return Waiting(MOST_WAIT, dx[t + 1], printing), printed\n"
       "    return InPhase(receiver.number + 1, dx, printing, word), printed\n"))
fault("printing begins with a line feed only", "calls R, receive", "broadcast",
      "    if settled in (CARRIAGE_RETURN, LINE_FEED):",
      "    if settled == LINE_FEED:")
fault("printing begins with any traffic signal", "calls R, receive", "broadcast",
      "    if not printing or settled == SETTLED_PHASING:",
      "    if settled == SETTLED_PHASING or not printing and not (\n"
      "            settled != SETTLED_ERROR and is_traffic(settled)):")
fault("the first return is not printed", "calls R, receive", "broadcast",
      "        return True, settled\n    if not printing",
      "        return True, settled if printing else None\n    if not printing")
fault("errors are printed before printing has begun", "calls R, receive",
      "broadcast", "    if not printing or settled == SETTLED_PHASING:",
      "    if settled == SETTLED_ERROR:\n        return printing, ERROR_MARK\n"
      "    if not printing or settled == SETTLED_PHASING:")
fault("errors are not printed", "calls R, receive", "broadcast",
      "        return True, ERROR_MARK", "        return True, None")
fault("beta is printed in mode B", "calls R, receive", "broadcast",
      "    if is_traffic(settled):\n        return True, settled",
      "    if is_traffic(settled) or settled == 51:\n        return True, settled")
fault("printing ends with a settled alpha", "calls R, receive", "broadcast",
      "    return True, None\n", "    return settled != ALPHA, None\n")

# --- Mode B: the three words behind the second alpha (02, T-03) ---

# Where the wait begins; and of `hear_waiting`: which word settles the waiting
# position, how it is settled and printed, which word is the last, what is behind
# it, and what is behind another word.
WAIT_BEGINS = "        return Waiting(MOST_WAIT, before[t - 2], receiver.printing), None\n"
SETTLES = "    if receiver.wait == MOST_WAIT:\n"
IN_THE_WAIT = "        settled = settle(receiver.dx, word)\n"
PRINTED_IN_WAIT = "        printing, printed = print_settled(printing, settled)\n"
LAST_OF_WAIT = "    if receiver.wait == 1:\n"
WAIT_ENDS = "        return fresh_receiver(), printed\n"
WAIT_GOES_ON = "    return Waiting(receiver.wait - 1, None, printing), printed\n"
WAIT_REFUSED = "        if receiver.wait > MOST_WAIT:\n"

fault("the end as 01 has it: at once, by the DX alone", "calls R, receive",
      "broadcast", WAIT_BEGINS,
      "        lone = before[t - 2] if intact(before[t - 2]) else SETTLED_ERROR\n"
      "        return fresh_receiver(), print_settled(receiver.printing, lone)[1]\n")
fault("the end at once, and nothing is settled", "calls R, receive", "broadcast",
      WAIT_BEGINS, "        return fresh_receiver(), None\n")
fault("the wait: settled by the DX alone at the second alpha", "calls R, receive",
      "broadcast", WAIT_BEGINS,
      "        lone = before[t - 2] if intact(before[t - 2]) else SETTLED_ERROR\n"
      "        printing, printed = print_settled(receiver.printing, lone)\n"
      "        return Waiting(MOST_WAIT, ALPHA, printing), printed\n",
      (SETTLES, "    if False:\n"))
fault("the wait: settled by the DX alone", "calls R, receive", "broadcast",
      IN_THE_WAIT,
      "        settled = receiver.dx if intact(receiver.dx) else SETTLED_ERROR\n")
fault("the wait: settled by the RX alone", "calls R, receive", "broadcast",
      IN_THE_WAIT, "        settled = word if intact(word) else SETTLED_ERROR\n")
fault("the wait: settled by the DX where both are intact", "calls R, receive",
      "broadcast", IN_THE_WAIT,
      "        settled = receiver.dx if intact(receiver.dx) else settle(0, word)\n")
fault("the wait: two damaged copies print nothing", "calls R, receive", "broadcast",
      PRINTED_IN_WAIT, "        if settled != SETTLED_ERROR:\n    " + PRINTED_IN_WAIT)
fault("the wait: printing cannot begin", "calls R, receive", "broadcast",
      SETTLES, "    if receiver.wait == MOST_WAIT and printing:\n")
fault("the wait: printed whether printing has begun or not", "calls R, receive",
      "broadcast", PRINTED_IN_WAIT,
      "        printing, printed = print_settled(True, settled)\n")
fault("the wait: nothing is settled", "calls R, receive", "broadcast",
      SETTLES, "    if False:\n")
fault("the wait: the first alpha is settled", "calls R, receive", "broadcast",
      WAIT_BEGINS, WAIT_BEGINS.replace("t - 2", "t - 1"))
fault("the wait: settled by the second word", "calls R, receive", "broadcast",
      SETTLES, "    if receiver.wait == 2:\n",
      (WAIT_GOES_ON, WAIT_GOES_ON.replace("None", "receiver.dx")))
fault("the wait: settled by the third word", "calls R, receive", "broadcast",
      SETTLES, "    if receiver.wait == 1:\n",
      (WAIT_GOES_ON, WAIT_GOES_ON.replace("None", "receiver.dx")))
fault("the wait: the waiting position is printed at the third word",
      "calls R, receive", "broadcast", WAIT_GOES_ON,
      "    kept = printed if receiver.wait == MOST_WAIT else receiver.dx\n"
      "    return Waiting(receiver.wait - 1, kept, printing), None\n",
      (WAIT_ENDS, "        return fresh_receiver(), receiver.dx\n"))
fault("a wait of two words", "calls R, receive", "broadcast",
      LAST_OF_WAIT, "    if receiver.wait <= 2:\n")
fault("a wait of one word", "calls R, receive", "broadcast",
      LAST_OF_WAIT, "    if True:\n")
fault("a wait of four words", "calls R, receive", "broadcast",
      "MOST_WAIT = 3 ", "MOST_WAIT = 4 ")
fault("a wait of four words, the fourth behind a wait of 1", "calls R, receive",
      "broadcast", LAST_OF_WAIT, "    if receiver.wait == 0:\n")
fault("the wait is over where printing has not begun", "calls R, receive",
      "broadcast", LAST_OF_WAIT, "    if receiver.wait == 1 or not printing:\n")
fault("the wait: a damaged word is none of the three", "calls R, receive",
      "broadcast", LAST_OF_WAIT,
      "    if not intact(word):\n        return receiver, printed\n" + LAST_OF_WAIT)
fault("the wait: a damaged second or third word is not counted",
      "calls R, receive", "broadcast", LAST_OF_WAIT,
      "    if not intact(word) and receiver.wait < MOST_WAIT:\n"
      "        return receiver, printed\n" + LAST_OF_WAIT)
fault("the wait is over at a word that is no alpha", "calls R, receive",
      "broadcast", LAST_OF_WAIT,
      "    if receiver.wait == 1 or receiver.wait == 2 and word != ALPHA:\n")
fault("the wait is over at RQ", "calls R, receive", "broadcast",
      LAST_OF_WAIT, "    if receiver.wait == 1 or word == RQ:\n")
fault("a third alpha in DX begins the wait anew", "calls R, receive", "broadcast",
      LAST_OF_WAIT,
      "    if word == ALPHA and receiver.wait == 2:\n"
      "        return Waiting(MOST_WAIT, ALPHA, printing), printed\n" + LAST_OF_WAIT)
fault("an alpha as the last word begins the wait anew", "calls R, receive",
      "broadcast", LAST_OF_WAIT,
      "    if word == ALPHA and receiver.wait == 1:\n"
      "        return Waiting(MOST_WAIT, ALPHA, printing), printed\n" + LAST_OF_WAIT)
fault("any alpha in the wait leaves it as it is", "calls R, receive", "broadcast",
      LAST_OF_WAIT,
      "    if word == ALPHA:\n        return receiver._replace(dx=RQ), printed\n"
      + LAST_OF_WAIT)
fault("the wait: the second word is printed", "calls R, receive", "broadcast",
      LAST_OF_WAIT,
      "    if receiver.wait == 2 and intact(word):\n"
      "        printing, printed = print_settled(printing, word)\n" + LAST_OF_WAIT)
fault("the wait: the third word is printed", "calls R, receive", "broadcast",
      LAST_OF_WAIT,
      "    if receiver.wait == 1 and intact(word):\n"
      "        printing, printed = print_settled(printing, word)\n" + LAST_OF_WAIT)
fault("the wait: the second word is settled with the first alpha",
      "calls R, receive", "broadcast", LAST_OF_WAIT,
      "    if receiver.wait == 2:\n"
      "        printing, printed = print_settled(printing, settle(ALPHA, word))\n"
      + LAST_OF_WAIT)
fault("the wait: the third word is settled with the first alpha",
      "calls R, receive", "broadcast", LAST_OF_WAIT,
      "    if receiver.wait == 1:\n"
      "        printing, printed = print_settled(printing, settle(ALPHA, word))\n"
      + LAST_OF_WAIT)
fault("the wait: its three words are heard by the search too", "calls R, receive",
      "broadcast", LAST_OF_WAIT,
      "    searched = receiver.dx\n"
      "    if not isinstance(searched, Searching):\n"
      "        searched = fresh_receiver()\n"
      "    searched = search(searched, word)\n"
      "    if receiver.wait == 1:\n        return searched, printed\n"
      "    if receiver.wait > 1:\n"
      "        return Waiting(receiver.wait - 1, searched, printing), printed\n"
      + LAST_OF_WAIT)
fault("the wait: its last two words are heard by the search too",
      "calls R, receive", "broadcast", LAST_OF_WAIT,
      "    searched = receiver.dx\n"
      "    if not isinstance(searched, Searching):\n"
      "        searched = fresh_receiver()\n"
      "    if receiver.wait < MOST_WAIT:\n"
      "        searched = search(searched, word)\n"
      "    if receiver.wait == 1:\n        return searched, printed\n"
      "    if receiver.wait > 1:\n"
      "        return Waiting(receiver.wait - 1, searched, printing), printed\n"
      + LAST_OF_WAIT)
fault("the wait: its last word is the first of the new search",
      "calls R, receive", "broadcast", WAIT_ENDS,
      "        return search(fresh_receiver(), word), printed\n")
fault("the second alpha is the first of the new search", "calls R, receive",
      "broadcast", WAIT_ENDS, "        return Searching(1, ALPHA), printed\n")
fault("the new search goes on with the run of the lock", "calls R, receive",
      "broadcast", WAIT_ENDS, "        return Searching(MOST_RUN, ALPHA), printed\n")
fault("behind the wait it is in phase still", "calls R, receive", "broadcast",
      WAIT_ENDS, "        return InPhase(8, {2: ALPHA, 3: RQ}, printing), printed\n")
fault("printing is begun still after the end", "receive", "broadcast",
      "Searching = namedtuple(\"Searching\", \"run last\")\n",
      "Searching = namedtuple(\"Searching\", \"run last begun\", defaults=(False,))\n",
      ("        return Searching(0, None)\n",
       "        return Searching(0, None, receiver.begun)\n"),
      ("        return Searching(run, word)\n",
       "        return Searching(run, word, receiver.begun)\n"),
      ("{2: RQ, 3: RQ}, False)", "{2: RQ, 3: RQ}, receiver.begun)"),
      (WAIT_ENDS, "        return Searching(0, None, printing), printed\n"))
fault("receiver: the refusal of a wait gone", "calls R", "broadcast",
      WAIT_REFUSED, "        if False:\n")
fault("receiver: a wait of 4 is taken", "calls R", "broadcast",
      WAIT_REFUSED, "        if receiver.wait > MOST_WAIT + 1:\n")
fault("receiver: a wait of 255 is taken", "calls R", "broadcast",
      WAIT_REFUSED, "        if MOST_WAIT < receiver.wait < 255:\n")
fault("receiver: a wait of 3 is refused", "calls R", "broadcast",
      WAIT_REFUSED, "        if receiver.wait >= MOST_WAIT:\n")
fault("receiver: a wait over 3 is refused only before printing", "calls R",
      "broadcast", WAIT_REFUSED,
      "        if receiver.wait > MOST_WAIT and not receiver.printing:\n")
fault("receiver: the wait is told beside its refusal", "calls R", "broadcast",
      WAIT_REFUSED + "            # 02, T-03: \"4 also for a remaining wait over three\"\n"
      "            return Refused(4, 0)\n",
      WAIT_REFUSED + "            return Refused(4, receiver.wait)\n")

# --- The programs ---

fault("hear: the case starts anew with each burst", "hear", "programs",
      "        room = bytearray(3)\n", "        room = bytearray(3)\n        case = \"letters\"\n")
fault("hear: a short last burst is ignored", "hear", "programs",
      "    for start in range(0, len(data), 3):",
      "    for start in range(0, len(data) - 2, 3):")
fault("hear: steps are numbered from 0", "hear", "programs",
      "(start // 3 + 1,", "(start // 3,")
fault("words: fifteen to a line", "encode, send, receive", "programs",
      "WORDS_ON_A_LINE = 16", "WORDS_ON_A_LINE = 15")
fault("words: a vertical tab is white space", "print, send, receive, stars", "programs",
      "WHITE_SPACE = (32, 9, 13, 10)", "WHITE_SPACE = (32, 9, 13, 10, 11)")
fault("words: 256 passes as 0", "print, send, receive, stars", "programs",
      "value = min(value * 10 + byte - 48, 256)",
      "value = (value * 10 + byte - 48) % 256")
fault("words: values are cut to 64 bits", "print, send, receive, stars", "programs",
      "value = min(value * 10 + byte - 48, 256)",
      "value = (value * 10 + byte - 48) % 2 ** 64")
fault("words: values are cut to 32 bits", "print, send, receive, stars", "programs",
      "value = min(value * 10 + byte - 48, 256)",
      "value = (value * 10 + byte - 48) % 2 ** 32")
fault("words: the place told is behind the run", "print, send, receive, stars",
      "programs", "raise NotANumber(first, \"over 255\")",
      "raise NotANumber(place, \"over 255\")")
fault("words: the place told is behind the byte that is no digit",
      "print, send, receive, stars", "programs",
      "raise NotANumber(first, \"a byte", "raise NotANumber(place, \"a byte")
fault("words: over 255 is told as no digit", "print, send, receive, stars", "programs",
      "raise NotANumber(first, \"over 255\")",
      "raise NotANumber(first, \"a byte that is no digit\")")
fault("words: a byte that is no digit is told as over 255",
      "print, send, receive, stars", "programs",
      "raise NotANumber(first, \"a byte that is no digit\")",
      "raise NotANumber(first, \"over 255\")")
fault("words: a byte that is no digit is told before what comes to over 255",
      "print, send, receive, stars", "programs",
      "        if value > 255:\n", "        if value > 255 and all_digits:\n")
fault("words: digits behind a byte that is none count", "print, send, receive, stars",
      "programs", "            elif all_digits:\n", "            else:\n")
fault("words: a byte that is no digit starts the value anew",
      "print, send, receive, stars", "programs", "                all_digits = False\n",
      "                all_digits = False\n                value = 0\n")
fault("words: a number has three digits at most", "print, send, receive, stars",
      "programs", "        if value > 255:\n",
      "        if value > 255 or all_digits and place - first > 3:\n")
fault("words: a sign before a number is taken", "print, send, receive, stars", "programs",
      "            if not 48 <= byte <= 57:\n",
      "            if place == first and byte in b\"+-\":\n                pass\n"
      "            elif not 48 <= byte <= 57:\n")
fault("words: a number may not lie across a border of blocks",
      "print, send, receive, stars", "programs",
      "                value = min(value * 10 + byte - 48, 256)\n",
      "                if place % 4096 == 0:\n                    value = 0\n"
      "                value = min(value * 10 + byte - 48, 256)\n")
fault("words: the place is counted from the block", "print, send, receive, stars",
      "programs", "(fault.place, fault.reason)", "(fault.place % 4096, fault.reason)")
fault("words: what ends at a border of blocks is lost", "print, send, receive, stars",
      "programs", "        found = found + 1\n",
      "        if place == len(data) and place % 4096 == 0:\n            return\n"
      "        found = found + 1\n")
fault("words: more than the most are looked at", "print, send", "programs",
      "    while most is None or found < most:", "    while True:")
fault("receive: a fault drops what was printed", "receive", "programs",
      "        told = not_a_number(fault)\n    return write_words(printed), told",
      "        return b\"\", not_a_number(fault)\n    return write_words(printed), told")
fault("encode: one character too few is read", "encode", "programs",
      "data[:text.MOST_CHARACTERS + 1]", "data[:text.MOST_CHARACTERS]")
fault("steps: a short last record is filled", "steps", "programs",
      "    for start in range(0, len(data) - RECORD + 1, RECORD):\n"
      "        station, burst, offer = read_step(data[start:start + RECORD])",
      "    for start in range(0, len(data), RECORD):\n"
      "        station, burst, offer = read_step(\n"
      "            (data[start:start + RECORD] + bytes(RECORD))[:RECORD])")
fault("steps: the place is taken modulo 16", "steps", "programs",
      "place = PLACES[record[1] % 12]", "place = (PLACES * 2)[record[1] % 16]")
fault("steps: there are nine places", "steps", "programs",
      "place = PLACES[record[1] % 12]", "place = PLACES[record[1] % 9]")
fault("steps: there are four offers", "steps", "programs",
      "kind = OFFERS[record[13] % 6]", "kind = OFFERS[record[13] % 4]")
fault("steps: there are five offers", "steps", "programs",
      "kind = OFFERS[record[13] % 6]", "kind = OFFERS[record[13] % 5]")
fault("steps: a call has the words of a text before its last", "steps", "programs",
      "        words = record[28:32]\n", "        words = record[14:17] + record[31:32]\n")
fault("steps: who is at the other end is told by any byte", "steps", "programs",
      "    kind = record[23] % 4\n", "    kind = min(record[23], 3)\n")
fault("steps: who is at the other end is told by the lowest bit", "steps", "programs",
      "    kind = record[23] % 4\n", "    kind = record[23] % 2\n")
fault("steps: the call block heard is the byte itself", "steps", "programs",
      "last = record[18] % 3", "last = record[18] if record[18] < 3 else 0")
fault("steps: steps to wait are taken at every place", "steps", "programs",
      "    if place in COUNTS_CYCLES:\n", "    if place != mode_a.ENDING:\n")
fault("steps: the identity called is that of the call offered", "steps", "programs",
      "called = tuple(record[3:7])", "called = tuple(record[28:32])")
fault("steps: the own identity is shown", "steps", "programs",
      "(role, s.cycles, s.last) + s.called +", "(role, s.cycles, s.last) + s.own +")
fault("steps: records of 83 bytes", "steps", "programs",
      "RECORD = 84\n", "RECORD = 83\n")
fault("steps: records of 88 bytes", "steps", "programs",
      "RECORD = 84\n", "RECORD = 88\n")
fault("steps: a barred identity is read as one that was told", "steps", "programs",
      "    return seven if kind == 2 else mode_a.Barred(seven)\n", "    return seven\n")
fault("steps: seven signals that were told are read as barred", "steps", "programs",
      "    return seven if kind == 2 else mode_a.Barred(seven)\n",
      "    return mode_a.Barred(seven)\n")
fault("steps: the last three signals of the other end are those offered", "steps",
      "programs", "record[24:28] + record[39:42]", "record[24:28] + record[42:45]")
fault("steps: the last three signals offered are those of the other end", "steps",
      "programs", "record[28:32] + record[42:45]", "record[28:32] + record[39:42]")
fault("steps: a call of seven has the signals from 28 on in a row", "steps", "programs",
      "record[28:32] + record[42:45]", "record[28:35]")
fault("steps: the own identity of seven begins with that of four", "steps", "programs",
      "own_seven=tuple(record[32:39])", "own_seven=tuple(record[19:23] + record[36:39])")
fault("steps: the blocks heard are the byte itself", "steps", "programs",
      "mode_a.RUNS_OF_BLOCKS[record[45] % 5]",
      "mode_a.RUNS_OF_BLOCKS[record[45] if record[45] < 5 else 0]")
fault("steps: the blocks heard in another order", "steps", "programs",
      "mode_a.RUNS_OF_BLOCKS[record[45] % 5]",
      "mode_a.RUNS_OF_BLOCKS[(0, 1, 3, 2, 4)[record[45] % 5]]")
fault("steps: the stage is the remainder itself", "steps", "programs",
      "stage = record[46] % 4 + 1", "stage = record[46] % 4 or 4")
fault("steps: there are three stages", "steps", "programs",
      "stage = record[46] % 4 + 1", "stage = record[46] % 3 + 1")
fault("steps: the wrong check-sums counted are the remainder by 8", "steps", "programs",
      "        wrong = record[47]\n", "        wrong = record[47] % 8\n")
fault("steps: the last wrong check-sum without bit 7", "steps", "programs",
      "        last_wrong = record[48]\n", "        last_wrong = record[48] % 128\n")
fault("steps: wrong check-sums at Answering too", "steps", "programs",
      "    if place == mode_a.IDENTIFYING:\n        wrong",
      "    if place in HAS_STAGES:\n        wrong")
fault("steps: what was gathered is not read", "steps", "programs",
      "    if place in HAS_SEVEN:\n",
      "    if place in HAS_SEVEN and place != mode_a.ANSWERING:\n")
fault("steps: seven signals at every place", "steps", "programs",
      "    if place in HAS_SEVEN:\n", "    if place not in (mode_a.STANDBY, mode_a.ENDING):\n")
fault("steps: a control signal heard at Calling with three blocks", "steps", "programs",
      "KEEPS_LAST = (mode_a.STANDBY, mode_a.CALLING)",
      "KEEPS_LAST = (mode_a.STANDBY, mode_a.CALLING, mode_a.CALLING_3)",
      ("(role, s.cycles, s.last)", "(role, s.cycles, s.last or (\n"
       "            s.place == mode_a.CALLING_3 and 1))"))
fault("steps: no call bursts are read at Calling with three blocks", "steps", "programs",
      "mode_a.CALLING, mode_a.CALLING_3)\nKEEPS", "mode_a.CALLING)\nKEEPS")
fault("steps: a barred identity is written as seven", "steps", "programs",
      "return \"barred\", other_end.identity", "return \"seven\", other_end.identity")
fault("steps: of a barred identity four signals are written", "steps", "programs",
      "return \"barred\", other_end.identity",
      "return \"barred\", other_end.identity[:4] + (0, 0, 0)")
fault("steps: of seven signals at the other end four are written", "steps", "programs",
      "        return \"seven\", other_end\n",
      "        return \"seven\", other_end[:4] + (0, 0, 0)\n")
fault("steps: the last three of the other end are written before the seven", "steps",
      "programs", "        + s.seven + signals[4:],", "        + signals[4:] + s.seven,")
fault("steps: the stage is written from 0", "steps", "programs",
      "s.stage, s.wrong, s.last_wrong", "max(s.stage - 1, 0), s.wrong, s.last_wrong")
fault("steps: the wrong check-sums are written in the other order", "steps", "programs",
      "s.stage, s.wrong, s.last_wrong", "s.stage, s.last_wrong, s.wrong")
fault("steps: the own identity of seven is shown", "steps", "programs",
      "        + s.seven + signals[4:],", "        + s.own_seven + signals[4:],")
# 02, T-06.
READS_CODE = "    return mode_a.Code(fields[0], tuple(fields[1:21]) + (0,))\n"
READS_KIND = "    kind = record[81] % 3\n"
READS_OWED = "    return mode_a.Owed(\"back\" if kind == 1 else \"keep\", record[82])\n"
WRITES_OWED = "        (\"none\", 0) if s.owed is None else s.owed)\n"
fault("a code: its length is read behind its words", "steps, calls C", "programs",
      READS_CODE, "    return mode_a.Code(fields[20], tuple(fields[:20]) + (0,))\n")
fault("a code: only 19 of its words are read", "steps, calls C", "programs",
      READS_CODE, READS_CODE.replace("fields[1:21]) + (0,)", "fields[1:20]) + (0, 0)"))
fault("steps: the code is read from byte 56 on", "steps", "programs",
      "record[60:81]", "record[56:77]")
fault("steps: what is owed is read modulo 4", "steps", "programs",
      READS_KIND, READS_KIND.replace("% 3", "% 4"))
fault("steps: back is read as keep, and keep as back", "steps", "programs",
      READS_OWED, READS_OWED.replace("kind == 1", "kind == 2"))
fault("steps: the index owed is read from byte 83", "steps", "programs",
      READS_OWED, READS_OWED.replace("[82]", "[83]"))
fault("steps: the index owed is written from 1", "steps", "programs",
      WRITES_OWED, WRITES_OWED.replace("else s.owed", "else (s.owed.kind, s.owed.index + 1)"))
fault("steps: what is owed is not written", "steps", "programs",
      WRITES_OWED, "        (\"none\", 0))\n")
fault("hear: the words of an over by their figures", "hear", "programs",
      "PLUS: \"Z\", QUERY: \"B\"", "PLUS: \"+\", QUERY: \"?\"")
fault("hear: the shift of an over is called letters", "hear", "programs",
      "FIGURES: \"figures\"", "FIGURES: \"letters\"")
fault("calls: a record of C has a word more", "calls, calls C", "programs",
      "    return line, place + 21\n", "    return line, place + 22\n")
fault("calls: there is no kind C", "calls, calls C", "programs",
      "            elif kind == b\"C\":\n", "            elif kind == b\"X\":\n")
fault("steps: a refusal has another part behind it", "steps", "programs",
      "        return \"refused %d %d\\n\" % (answer.number, answer.beside)\n"
      "    s = answer.station\n",
      "        return \"refused %d %d | 0\\n\" % (answer.number, answer.beside)\n"
      "    s = answer.station\n")
fault("steps: the number is the byte itself", "steps", "programs",
      "number = 1 if record[2] % 2 == 1 else 2", "number = 1 if record[2] == 1 else 2")
fault("calls: a room of 8,193 passes", "calls", "programs",
      "MOST_ROOM = 8192", "MOST_ROOM = 8193")
fault("calls: a length of 8,194 passes", "calls", "programs",
      "MOST_LENGTH = 8193", "MOST_LENGTH = 8194")
fault("calls: small letters are kinds", "calls", "programs",
      "            kind = data[place:place + 1]",
      "            kind = data[place:place + 1].upper()")
fault("calls: a bad record is told at its end", "calls", "programs",
      "% (place, fault)", "% (len(data), fault)")
fault("calls: a bad record is told as cut short, whatever it is", "calls",
      "programs", "% (place, fault)", "% (place, \"cut short\")")
fault("calls: no such kind is told as cut short", "calls", "programs",
      "raise BadRecord(\"no such kind\")", "raise BadRecord(\"cut short\")")
fault("calls: a length over 8,193 is told before a room over 8,192", "calls",
      "programs", "    judge_room(room_length)\n",
      "    judge_length(length)\n    judge_room(room_length)\n")
fault("calls: a length over 8,193 is told as cut short", "calls", "programs",
      "raise BadRecord(\"a length over 8193\")", "raise BadRecord(\"cut short\")")
fault("calls: a room over 8,192 is told as a length", "calls", "programs",
      "raise BadRecord(\"a room over 8192\")",
      "raise BadRecord(\"a length over 8193\")")
fault("calls: a list cut short is told before a room over 8,192", "calls",
      "programs", "    judge_room(room_length)\n",
      "    cut(data, place + 5, min(length, MOST_LENGTH))\n"
      "    judge_room(room_length)\n")
fault("calls: a room over 8,192 is told before the head is whole", "calls",
      "programs", "    head = cut(data, place, 5)\n    case",
      "    if low_first(data[place + 1:place + 3]) > MOST_ROOM:\n"
      "        raise BadRecord(\"a room over 8192\")\n"
      "    head = cut(data, place, 5)\n    case")
fault("calls: a refusal has status 1", "calls E, calls P", "programs",
      "        line = \"refused %d %d %s\\n\" % (answer.number, answer.beside, shown)\n",
      "        raise BadRecord(\"refused\")\n")
fault("calls: a record cut short is filled", "calls", "programs",
      "    if place + length > len(data):\n        raise BadRecord(\"cut short\")\n"
      "    return data[place:place + length]",
      "    return (data[place:place + length] + bytes(length))[:length]")
fault("calls M: the number is that of the byte without bit 7", "calls M", "programs",
      "% (MEANING[byte], intact(byte))", "% (MEANING[byte % 128], intact(byte))")
fault("calls R: the settled word is not written as 0 where DX is next", "calls R", "programs",
      "        waiting = [0]\n", "        waiting = [RQ]\n")
fault("calls R: a run of 0 keeps its last signal", "calls R", "programs",
      "        if run == 0:\n            return broadcast.Searching(0, None)\n"
      "        return broadcast.Searching(run,",
      "        return broadcast.Searching(max(run, 1),")
fault("calls R: flags are whole bytes", "calls R", "programs",
      "printing = fields[8] % 2 == 1", "printing = fields[8] != 0")
# Of `read_receiver`, where a receiver waits; and of `waiting_line`.
READS_WAIT = "    wait = fields[9]\n"
IS_WAITING = "    if wait > 0:\n"
WAITING_NEXT = "    following = \"dx\" if receiver.wait == 2 else \"rx\"\n"
WAITING_SETTLED = ("        return \"phase 0 0 0 %s 0 %d | %d\\n\""
                   " % (following, receiver.wait, printed)\n")

fault("calls R: the wait is not looked at", "calls R", "programs",
      READS_WAIT, "    wait = 0\n")
fault("calls R: the wait is the remainder by 4", "calls R", "programs",
      READS_WAIT, "    wait = fields[9] % 4\n")
fault("calls R: the wait is the remainder by 128", "calls R", "programs",
      READS_WAIT, "    wait = fields[9] % 128\n")
fault("calls R: a wait over 3 is none", "calls R", "programs",
      READS_WAIT, "    wait = fields[9] if fields[9] <= 3 else 0\n")
fault("calls R: a wait is looked at only where RX is next", "calls R", "programs",
      IS_WAITING, "    if wait > 0 and fields[7] % 2 == 1:\n")
fault("calls R: a wait over 3 is refused only where RX is next", "calls R",
      "programs", IS_WAITING, "    if 0 < wait < 4 or wait > 3 and fields[7] % 2 == 1:\n")
for wait in (3, 2, 1):
    fault("calls R: byte 7 tells the slot at a wait of %d" % wait, "calls R", "programs",
          IS_WAITING,
          "    if wait > 0 and (wait != %d or fields[7] %% 2 == %d):\n" % (wait, wait % 2))
fault("calls R: the slot behind a word of the wait is the one behind byte 7",
      "calls R", "programs", READS_WAIT,
      "    wait = fields[9]\n    global NEXT\n"
      "    NEXT = \"dx\" if fields[7] % 2 == 1 else \"rx\"\n",
      (WAITING_NEXT, "    following = NEXT\n"))
fault("calls R: the word that waits is the one in the middle", "calls R", "programs",
      "broadcast.Waiting(wait, oldest, printing)",
      "broadcast.Waiting(wait, middle, printing)")
fault("calls R: printing has begun where a receiver waits", "calls R", "programs",
      "broadcast.Waiting(wait, oldest, printing)",
      "broadcast.Waiting(wait, oldest, True)")
fault("calls R: a search with a wait over 3 is refused", "calls R", "programs",
      "        run = fields[2]\n",
      "        run = fields[2] if fields[9] <= 3 else 4\n")
fault("calls R: a receiver in phase with a run over 3 is refused", "calls R",
      "programs", READS_WAIT, "    wait = fields[9] if fields[2] <= 3 else 4\n")
fault("calls R: the wait is written as 0", "calls R", "programs",
      WAITING_SETTLED, WAITING_SETTLED.replace("receiver.wait", "0"))
fault("calls R: the words heard are written at a wait of 3", "calls R", "programs",
      "    return \"phase %d 0 0 %s %d %d | %d\\n\" % (",
      "    return \"phase %d 15 15 %s %d %d | %d\\n\" % (")
fault("calls R: printing is written where nothing is printed any more", "calls R",
      "programs", WAITING_SETTLED,
      "        return \"phase 0 0 0 %s %d %d | %d\\n\" % (\n"
      "            following, receiver.printing, receiver.wait, printed)\n")
fault("calls R: printing is written as 0 at a wait of 3", "calls R", "programs",
      "        receiver.dx, following, receiver.printing, receiver.wait, printed)",
      "        receiver.dx, following, 0, receiver.wait, printed)")
fault("calls R: the next slot of a wait of 2 is RX", "calls R", "programs",
      WAITING_NEXT, "    following = \"rx\"\n")
fault("calls R: the next slot of a wait of 1 is DX", "calls R", "programs",
      WAITING_NEXT, "    following = \"rx\" if receiver.wait == 3 else \"dx\"\n")
fault("calls I: three words are enough", "calls I", "programs",
      "answer = mode_a.standing_by(cut(data, place, 4))",
      "answer = mode_a.standing_by(cut(data, place, 4)[:3])")
fault("calls I: a record has three words", "calls I", "programs",
      "    return line, place + 4\n", "    return line, place + 3\n")
fault("calls J: a record has four words", "calls J", "programs",
      "    return line, place + 11\n", "    return line, place + 4\n")
fault("calls J: the seven come before the four", "calls J", "programs",
      "mode_a.standing_by_both(words[:4], words[4:])",
      "mode_a.standing_by_both(words[7:], words[:7])")
fault("calls J: the four alone are handed on", "calls J", "programs",
      "mode_a.standing_by_both(words[:4], words[4:])", "mode_a.standing_by(words[:4])")
fault("calls J: no such kind", "calls J, calls", "programs",
      "            elif kind == b\"J\":\n", "            elif kind == b\"J\" and False:\n")
fault("calls J: a record cut short is filled", "calls", "programs",
      "    words = cut(data, place, 11)\n",
      "    words = (data[place:place + 11] + bytes([71]) * 11)[:11]\n")
fault("calls R: the words in the other order", "calls R", "programs",
      "oldest, middle, newest = fields[4], fields[5], fields[6]",
      "oldest, middle, newest = fields[6], fields[5], fields[4]")

# --- A passage (02, T-07) ---

PASSED = "passage, calls V"

# Of `damaged`: which words are heard as what.
IS_DAMAGED = "    return tuple(0 if damage >> index & 1 else word\n"
# Of `Run`, how it starts.
SENDS_FIRST = "        self.sender = SLAVE\n"
FIRST_BURST = "        self.burst = mode_a.single(CS1)\n"
# Of `hear`: who hears, what is offered and taken, and what is printed.
HEARS_IT = "    hearer = OTHER[run.sender]\n"
OFFERED = "    offer = mode_a.NOTHING if side.offer is None else side.offer\n"
TAKEN = "    if answer.taken:\n        side.offer = None\n"
PRINTED = "    side.printed += room[:written.length]\n"
CASE_KEPT = "    side.case = written.case\n"
PRINTS = "    written = text.print_signals(side.case, answer.printed, room)\n"
ON_THE_WAY = "    run.burst = answer.burst\n"
NEXT_SENDER = "    run.sender = hearer\n"
# Of `refusal_of`, in its order.
NO_KIND = "    if record[place] not in KINDS:\n        return 10\n"
BODY_CUT = "    if len(body) < length:\n        return 11\n"
KIND_READ = "    what, whose, length = KINDS[record[place]]\n    body = record[place + 1:"
OF_A_BURST = "        if whose != run.sender or body[0] > MOST_DAMAGE:\n            return 12\n"
STANDS_YET = "    if run.sides[whose].offer is not None:\n        return 13\n"
WORDS_JUDGED = """    if what == "text":
        for word in body:
            if not mode_a.may_stand_in_block(word):
                return 3
"""
MAY_STAND = "            if not mode_a.may_stand_in_block(word):\n                return 3\n"
# Of `go`.
GOES_ON_BEHIND = "    behind = place + 1 + length\n"
MAKES_OFFER = ("        run.sides[whose].offer = mode_a.Offer(what, body or "
               "(0, 0, 0))\n")
# Of `passage`: what is refused, and the rooms.
REFUSED_AT = "            return Refused(number, place)\n"
NEXT_ENTRY = "        place = go(run, record, place)\n"
WALKS = "    while place < len(record):\n"
MASTER_NEEDS = """    if len(master) > len(master_room):
        return Refused(2, len(master))
"""
SLAVE_NEEDS = """    if len(slave) > len(slave_room):
        return Refused(2, len(slave))
"""
MASTER_WRITTEN = "    master_room[:len(master)] = master\n"
SLAVE_WRITTEN = "    slave_room[:len(slave)] = slave\n"

# The damage.
fault("passage: bit 0 is that of the last word", PASSED, "passages",
      IS_DAMAGED, IS_DAMAGED.replace("index &", "2 - index &"))
fault("passage: the bits are those of the next words", PASSED, "passages",
      IS_DAMAGED, IS_DAMAGED.replace("index &", "(index + 1) % 3 &"))
for index in range(3):
    fault("passage: bit %d is not looked at" % index, PASSED, "passages",
          IS_DAMAGED, IS_DAMAGED.replace("& 1", "& 1 and index != %d" % index))
fault("passage: any bit damages all three words", PASSED, "passages",
      IS_DAMAGED, IS_DAMAGED.replace("damage >> index & 1", "damage"))
fault("passage: any bit damages the first word", PASSED, "passages",
      IS_DAMAGED, IS_DAMAGED.replace("index & 1", "index & 1 or damage and index == 0"))
fault("passage: a set bit is that of a word that was heard", PASSED, "passages",
      IS_DAMAGED, IS_DAMAGED.replace("damage >>", "~damage >>"))
for name, word in (("RQ", 102), ("alpha", 15), ("beta", 51), ("CS1", 101), ("CS2", 106),
                   ("CS3", 89)):
    fault("passage: a damaged word is heard as %s" % name, PASSED, "passages",
          IS_DAMAGED, IS_DAMAGED.replace("tuple(0 ", "tuple(%d " % word))
fault("passage: a damaged word has one unit changed", PASSED, "passages",
      IS_DAMAGED, IS_DAMAGED.replace("tuple(0 if", "tuple(word ^ 6 if"))
fault("passage: damage stays on the burst when it is sent again", PASSED, "passages",
      ON_THE_WAY, "    run.burst = damaged(answer.burst, damage)\n")
fault("passage: the damage is that of the answer", PASSED, "passages",
      "damaged(run.burst, damage), offer)", "run.burst, offer)",
      (ON_THE_WAY, "    run.burst = damaged(answer.burst, damage)\n"))
fault("passage: a burst whose first word is damaged is not heard", PASSED, "passages",
      HEARS_IT, HEARS_IT + "    if damage & 1:\n        run.sender = hearer\n        return\n")
fault("passage: a burst damaged throughout is no step", PASSED, "passages",
      HEARS_IT, HEARS_IT + "    if damage == 7:\n        run.sender = hearer\n        return\n")

# The run.
fault("passage: the master's burst leads", PASSED, "passages",
      SENDS_FIRST, "        self.sender = MASTER\n")
fault("passage: whichever burst is first leads", PASSED, "passages",
      SENDS_FIRST, "        self.sender = None\n",
      ("        if whose != run.sender or",
       "        if run.sender is None:\n            run.sender = whose\n"
       "        if whose != run.sender or"))
fault("passage: the first burst is silence", PASSED, "passages",
      FIRST_BURST, "        self.burst = mode_a.SILENCE\n")
fault("passage: the first burst is CS2", PASSED, "passages",
      FIRST_BURST, "        self.burst = (106, 0, 0)\n")
fault("passage: the first burst is heard twice", PASSED, "passages",
      ON_THE_WAY,
      "    run.burst = answer.burst\n    if not hasattr(run, \"begun\"):\n"
      "        run.begun = True\n        run.burst = mode_a.single(CS1)\n")
fault("passage: a station hears its own burst", PASSED, "passages",
      HEARS_IT + "    side = run.sides[hearer]\n",
      HEARS_IT + "    side = run.sides[run.sender]\n")
fault("passage: the slave is fresh with the master's role", PASSED, "passages",
      "SLAVE: Side(mode_a.fresh_slave())", "SLAVE: Side(mode_a.fresh_slave()._replace(master=True))")
fault("passage: both have a code", PASSED, "passages",
      "    run = Run()\n",
      "    run = Run()\n    for side in run.sides.values():\n"
      "        side.station = mode_a.with_code(\n"
      "            side.station, mode_a.Code(1, (90,) + (71,) * 20))\n")
fault("passage: the run ends where a station is Lost", PASSED, "passages",
      WALKS, "    while place < len(record) and mode_a.LOST not in [\n"
      "            side.station.place for side in run.sides.values()]:\n")
fault("passage: the run ends where a station is at Stand-by", PASSED, "passages",
      WALKS, "    while place < len(record) and mode_a.STANDBY not in [\n"
      "            side.station.place for side in run.sides.values()]:\n")
fault("passage: a station that is Lost begins anew", PASSED, "passages",
      "    side.station = answer.station\n",
      "    side.station = answer.station\n"
      "    if side.station.place == mode_a.LOST:\n"
      "        side.station = Run().sides[hearer].station\n")
fault("passage: a station at Stand-by begins anew", PASSED, "passages",
      "    side.station = answer.station\n",
      "    side.station = answer.station\n"
      "    if side.station.place == mode_a.STANDBY:\n"
      "        side.station = Run().sides[hearer].station\n")
fault("passage: the last burst of a record is not heard", PASSED, "passages",
      WALKS, WALKS.replace("len(record):", "len(record) and not (\n"
                           "            record[place] in (1, 2) and len(record) == place + 2\n"
                           "            and record[place + 1] < 8):"))

# Offers.
fault("passage: an offer is pressed once only", PASSED, "passages",
      TAKEN, "    side.offer = None\n")
fault("passage: an offer is pressed three times at most", PASSED, "passages",
      TAKEN,
      "    side.pressed = getattr(side, \"pressed\", 0) + 1 if side.offer else 0\n"
      "    if answer.taken or side.pressed == 3:\n"
      "        side.offer = None\n        side.pressed = 0\n")
fault("passage: an offer stands when it is taken", PASSED, "passages", TAKEN, "")
for what in ("text", "over", "end"):
    fault("passage: an offer of %s stands when it is taken" % what, PASSED, "passages",
          TAKEN, TAKEN.replace("taken:", "taken and offer.kind != \"%s\":" % what))
fault("passage: an over stands where Receiving takes it", PASSED, "passages",
      TAKEN, TAKEN.replace("taken:", "taken and side.station.place != mode_a.ASKING:"))
fault("passage: what is taken by one station is taken from the other", PASSED, "passages",
      TAKEN, TAKEN.replace("side.offer", "run.sides[run.sender].offer"))
fault("passage: an answer-back takes the offer", PASSED, "passages",
      TAKEN, TAKEN.replace("taken:", "taken or answer.burst in (\n"
                           "            mode_a.BETAS, mode_a.OVER):"))
for place, name in (("LOST", "Lost"), ("STANDBY", "Stand-by")):
    fault("passage: an offer is dropped at %s" % name, PASSED, "passages",
          TAKEN, TAKEN.replace("taken:", "taken or side.station.place == mode_a.%s:" % place))
fault("passage: an offer is dropped at Turning", PASSED, "passages",
      TAKEN, TAKEN.replace("taken:", "taken or side.station.place == mode_a.TURNING:"))
fault("passage: an offer is pressed at Sending and Opening alone", PASSED, "passages",
      OFFERED, OFFERED.replace("is None else", "is None or side.station.place not in (\n"
                               "        mode_a.SENDING, mode_a.OPENING) else"))
fault("passage: an offer is pressed at Receiving alone", PASSED, "passages",
      OFFERED, OFFERED.replace("is None else", "is None or side.station.place != (\n"
                               "        mode_a.RECEIVING) else"))
fault("passage: an offer is not pressed at the first burst behind it", PASSED, "passages",
      OFFERED,
      "    fresh = side.offer is not None and not getattr(side, \"seen\", False)\n"
      "    side.seen = side.offer is not None\n"
      + OFFERED.replace("is None else", "is None or fresh else"))
fault("passage: an offer is not pressed where the burst is damaged", PASSED, "passages",
      OFFERED, OFFERED.replace("is None else", "is None or damage != 0 else"))
fault("passage: where none stands an over is offered", PASSED, "passages",
      OFFERED, OFFERED.replace("mode_a.NOTHING", "mode_a.Offer(\"over\", (0, 0, 0))"))
fault("passage: the last text is offered again where none stands", PASSED, "passages",
      OFFERED, OFFERED.replace("mode_a.NOTHING", "getattr(side, \"old\", mode_a.NOTHING)")
      + "    side.old = mode_a.NOTHING if offer.kind != \"text\" else offer\n")
fault("passage: the offers of both stations are one", PASSED, "passages",
      MAKES_OFFER, "        for one in OTHER:\n    " + MAKES_OFFER.replace("[whose]", "[one]"))
fault("passage: a text offer has its words in the other order", PASSED, "passages",
      MAKES_OFFER, MAKES_OFFER.replace("body or", "body[::-1] or"))
fault("passage: offers may stand before the slave's burst alone", PASSED, "passages",
      STANDS_YET, STANDS_YET + "    if run.sender != SLAVE:\n        return 12\n")
fault("passage: an offer may not stand before the first burst", PASSED, "passages",
      STANDS_YET, STANDS_YET + "    if not hasattr(run, \"begun\"):\n        return 12\n",
      (ON_THE_WAY, ON_THE_WAY + "    run.begun = True\n"))
fault("passage: an offer to the station that has just sent is refused", PASSED, "passages",
      STANDS_YET, STANDS_YET + "    if run.sender == whose:\n        return 13\n")

# The kinds.
for one, other, name in ((1, 2, "bursts"), (3, 4, "texts"), (5, 6, "overs"), (7, 8, "ends")):
    what = {1: "burst", 3: "text", 5: "over", 7: "end"}[one]
    length = {1: 1, 3: 3, 5: 0, 7: 0}[one]
    line = "    %d: (\"%s\", %s, %d),\n"
    fault("passage: the two kinds of %s are exchanged" % name, PASSED, "passages",
          line % (one, what, "MASTER", length), line % (one, what, "SLAVE", length),
          (line % (other, what, "SLAVE", length), line % (other, what, "MASTER", length)))
fault("passage: kinds 5 and 6 are end, 7 and 8 over", PASSED, "passages",
      "    5: (\"over\", MASTER, 0),\n    6: (\"over\", SLAVE, 0),\n"
      "    7: (\"end\", MASTER, 0),\n    8: (\"end\", SLAVE, 0),\n",
      "    5: (\"end\", MASTER, 0),\n    6: (\"end\", SLAVE, 0),\n"
      "    7: (\"over\", MASTER, 0),\n    8: (\"over\", SLAVE, 0),\n")
fault("passage: kinds 6 and 7 are exchanged", PASSED, "passages",
      "    6: (\"over\", SLAVE, 0),\n    7: (\"end\", MASTER, 0),\n",
      "    6: (\"end\", MASTER, 0),\n    7: (\"over\", SLAVE, 0),\n")
for kind in range(1, 9):
    fault("passage: kind %d is unknown" % kind, PASSED, "passages",
          "    if record[place] not in KINDS:\n",
          "    if record[place] not in KINDS or record[place] == %d:\n" % kind)
# Unknown kinds that are taken for something.
for about, kinds in (("kind 0", "(0,)"), ("kind 9", "(9,)"), ("kind 255", "(255,)"),
                     ("kinds from 128 on", "range(128, 256)"),
                     ("kinds 9 to 15", "range(9, 16)")):
    fault("passage: %s is passed over" % about, PASSED if kinds != "(255,)" else "calls V",
          "passages", NO_KIND,
          "    if record[place] in %s:\n        return None\n" % kinds + NO_KIND,
          ("    what, whose, length = KINDS[record[place]]\n" + GOES_ON_BEHIND,
           "    if record[place] in %s:\n        return place + 1\n" % kinds
           + "    what, whose, length = KINDS[record[place]]\n" + GOES_ON_BEHIND))
for about, cut, tellers in (("bit 7", "& 127", "calls V"), ("bits 4 to 7", "& 15", "calls V"),
                            ("bits 5 to 7", "& 31", "calls V")):
    fault("passage: %s of the kind are not looked at" % about, tellers, "passages",
          "    if record[place] not in KINDS:\n",
          "    if record[place] %s not in KINDS:\n" % cut,
          (KIND_READ, KIND_READ.replace("record[place]]", "record[place] %s]" % cut)),
          ("    what, whose, length = KINDS[record[place]]\n" + GOES_ON_BEHIND,
           "    what, whose, length = KINDS[record[place] %s]\n" % cut + GOES_ON_BEHIND))

# Refusals: what, and in which order.
fault("passage: an unknown kind ends the record", PASSED, "passages",
      NO_KIND, "    if record[place] not in KINDS:\n        return -1\n",
      ("        if number is not None:\n",
       "        if number == -1:\n            break\n        if number is not None:\n"))
fault("passage: 11 before 10", PASSED, "passages",
      NO_KIND, "    if record[place] not in KINDS:\n"
      "        return 11 if place + 1 == len(record) else 10\n")
fault("passage: 11 before 10, of a body of three", PASSED, "passages",
      NO_KIND, "    if record[place] not in KINDS:\n"
      "        return 11 if place + 3 >= len(record) else 10\n")
fault("passage: a body that is cut short is filled", PASSED, "passages",
      BODY_CUT, "    body = bytes(body) + bytes(length - len(body))\n",
      ("    body = tuple(record[place + 1:behind])\n",
       "    body = tuple(record[place + 1:behind]) + (0,) * (behind - len(record))\n"))
fault("passage: a record that is cut short ends before it", PASSED, "passages",
      BODY_CUT, "    if len(body) < length:\n        return -1\n",
      ("        if number is not None:\n",
       "        if number == -1:\n            break\n        if number is not None:\n"))
fault("passage: 11 where the body just fits", PASSED, "passages",
      BODY_CUT, "    if place + length + 1 >= len(record) and length:\n        return 11\n")
fault("passage: a text may lack its last word", PASSED, "passages",
      BODY_CUT, "    if len(body) < min(length, 2):\n        return 11\n")
fault("passage: 12 before 11", PASSED, "passages",
      BODY_CUT, "    if what == \"burst\" and whose != run.sender:\n        return 12\n"
      + BODY_CUT)
fault("passage: 13 before 11", PASSED, "passages",
      BODY_CUT, "    if what != \"burst\" and run.sides[whose].offer is not None:\n"
      "        return 13\n" + BODY_CUT)
fault("passage: 3 before 11", "calls V", "passages",
      BODY_CUT, "    if what == \"text\" and not all(map(mode_a.may_stand_in_block, body)):\n"
      "        return 13 if run.sides[whose].offer else 3\n" + BODY_CUT)
fault("passage: 3 before 13", PASSED, "passages",
      STANDS_YET, "    if what == \"text\" and not all(\n"
      "            map(mode_a.may_stand_in_block, body)):\n        return 3\n" + STANDS_YET)
fault("passage: bursts need not alternate", PASSED, "passages",
      OF_A_BURST, OF_A_BURST.replace("whose != run.sender or ", ""))
fault("passage: a burst behind one of the same station is its repetition", PASSED,
      "passages", OF_A_BURST, OF_A_BURST.replace("whose != run.sender or ", ""),
      ("        hear(run, body[0])\n",
       "        if whose == run.sender:\n            hear(run, body[0])\n"))
fault("passage: the master's bursts need not be in turn", PASSED, "passages",
      OF_A_BURST, OF_A_BURST.replace("whose != run.sender", "whose == SLAVE != run.sender"))
fault("passage: the slave's bursts need not be in turn", PASSED, "passages",
      OF_A_BURST, OF_A_BURST.replace("whose != run.sender", "whose == MASTER != run.sender"))
fault("passage: bits 3 to 7 are not looked at", PASSED, "passages",
      OF_A_BURST, OF_A_BURST.replace(" or body[0] > MOST_DAMAGE", ""))
for bits, most in (("bit 3 is", 15), ("bits 3 and 4 are", 31), ("bits 3 to 6 are", 127)):
    fault("passage: %s not looked at" % bits, PASSED if most > 15 else "calls V", "passages",
          "MOST_DAMAGE = 7\n", "MOST_DAMAGE = %d\n" % most)
fault("passage: bit 7 is not looked at", "calls V", "passages",
      OF_A_BURST, OF_A_BURST.replace("body[0] >", "body[0] & 127 >"))
fault("passage: a burst damaged throughout is refused", PASSED, "passages",
      "MOST_DAMAGE = 7\n", "MOST_DAMAGE = 6\n")
fault("passage: bits 3 to 7 of a burst in turn are 11", PASSED, "passages",
      OF_A_BURST, "        if body[0] > MOST_DAMAGE and whose == run.sender:\n"
      "            return 11\n" + OF_A_BURST)
fault("passage: a burst out of turn is 13", PASSED, "passages",
      OF_A_BURST, "        if whose != run.sender:\n            return 13\n" + OF_A_BURST)
fault("passage: an offer takes the place of one that stands", PASSED, "passages",
      STANDS_YET, "")
fault("passage: an offer beside one that stands is not looked at", PASSED, "passages",
      STANDS_YET, "",
      ("    else:\n        # No words of over and end",
       "    elif run.sides[whose].offer is None:\n        # No words of over and end"))
for what in ("text", "over", "end"):
    fault("passage: %s may be offered beside one that stands" % what, PASSED, "passages",
          STANDS_YET, STANDS_YET.replace("is not None:", "is not None and what != \"%s\":"
                                         % what))
    fault("passage: beside %s that stands another may be offered" % what, PASSED, "passages",
          STANDS_YET, STANDS_YET.replace(
              "is not None:", "is not None and run.sides[whose].offer.kind != \"%s\":" % what))
fault("passage: the same offer once more is not refused", PASSED, "passages",
      STANDS_YET, STANDS_YET.replace(
          "is not None:", "not in (None, mode_a.Offer(what, tuple(body) or (0, 0, 0))):"))
fault("passage: 13 where the other station has an offer", PASSED, "passages",
      STANDS_YET, STANDS_YET.replace("[whose]", "[OTHER[whose]]"))
fault("passage: 13 where either station has an offer", PASSED, "passages",
      STANDS_YET, "    if any(side.offer is not None for side in run.sides.values()):\n"
      "        return 13\n")
for place, name in (("LOST", "Lost"), ("STANDBY", "Stand-by")):
    fault("passage: at %s an offer is never 13" % name, PASSED, "passages",
          STANDS_YET, STANDS_YET.replace(
              "is not None:", "is not None and run.sides[whose].station.place != mode_a.%s:"
              % place))
    fault("passage: at %s the first offer is 13" % name, PASSED, "passages",
          STANDS_YET, STANDS_YET.replace(
              "is not None:", "is not None or run.sides[whose].station.place == mode_a.%s:"
              % place))
fault("passage: text may be offered to who has the direction alone", PASSED, "passages",
      STANDS_YET, STANDS_YET + "    if what == \"text\" and run.sides[whose].station.place in (\n"
      "            mode_a.RECEIVING, mode_a.ASKING):\n        return 13\n")
fault("passage: 3 is not refused", PASSED, "passages",
      MAY_STAND, "            if False:\n                return 3\n",
      ("    side.station = answer.station\n",
       "    if not hasattr(answer, \"station\"):\n        side.offer = None\n        return\n"
       "    side.station = answer.station\n"))
for index in range(3):
    fault("passage: word %d of a text offer is not judged" % index,
          PASSED if index else "calls V", "passages", WORDS_JUDGED,
          WORDS_JUDGED.replace("in body:", "in body[:%d] + body[%d:]:" % (index, index + 1)),
          ("        run.sides[whose].offer = mode_a.Offer(what, body or (0, 0, 0))\n",
           "        body = tuple(word if mode_a.may_stand_in_block(word) else 51\n"
           "                     for word in body)\n" + MAKES_OFFER))
fault("passage: beta may not be offered", PASSED, "passages",
      MAY_STAND, MAY_STAND.replace("word):", "word) or word == 51:"))
for name, word in (("alpha", 15), ("RQ", 102), ("255", 255), ("0", 0)):
    fault("passage: %s may be offered" % name, "calls V", "passages",
          MAY_STAND, MAY_STAND.replace("word):", "word) and word != %d:" % word),
          ("        run.sides[whose].offer = mode_a.Offer(what, body or (0, 0, 0))\n",
           "        body = tuple(word if mode_a.may_stand_in_block(word) else 51\n"
           "                     for word in body)\n" + MAKES_OFFER))
fault("passage: bit 7 of a word offered is not looked at", "calls V", "passages",
      MAY_STAND, MAY_STAND.replace("(word)", "(word % 128)"),
      ("mode_a.Offer(what, body or", "mode_a.Offer(what, tuple(\n"
       "            word % 128 for word in body) or"))
fault("passage: 3 is told where the offer is pressed", PASSED, "passages",
      WORDS_JUDGED, "",
      (OF_A_BURST, OF_A_BURST
       + "        offer = run.sides[OTHER[whose]].offer\n"
       "        if offer is not None and offer.kind == \"text\" and not all(\n"
       "                map(mode_a.may_stand_in_block, offer.words)):\n"
       "            return 3\n"))
fault("passage: an offer that is not taken at the end is 13", PASSED, "passages",
      "    master = run.sides[MASTER].printed\n",
      "    if any(side.offer is not None for side in run.sides.values()):\n"
      "        return Refused(13, place)\n    master = run.sides[MASTER].printed\n")
fault("passage: a record that ends with the slave's burst is 12", PASSED, "passages",
      "    master = run.sides[MASTER].printed\n",
      "    if run.sender == MASTER:\n        return Refused(12, place)\n"
      "    master = run.sides[MASTER].printed\n")
fault("passage: an empty record is 11", PASSED, "passages",
      "    run = Run()\n", "    run = Run()\n    if not record:\n        return Refused(11, 0)\n")
fault("passage: the lowest number counts, and not the first entry", "calls V", "passages",
      REFUSED_AT,
      "            rest = place + 1\n"
      "            if number in (11, 12, 13, 3):\n"
      "                if number != 11:\n"
      "                    rest = place + 1 + KINDS[record[place]][2]\n"
      "                if rest < len(record) and record[rest] not in KINDS:\n"
      "                    return Refused(10, rest)\n" + REFUSED_AT)

# The place beside a refusal.
fault("passage: the place is that behind the kind", PASSED, "passages",
      REFUSED_AT, REFUSED_AT.replace("place)", "place + 1)"))
fault("passage: the place is that behind the entry", PASSED, "passages",
      REFUSED_AT, REFUSED_AT.replace(
          "place)", "place + 1 + KINDS.get(record[place], (0, 0, 0))[2])"))
fault("passage: the place is the number of the entry", PASSED, "passages",
      NEXT_ENTRY, NEXT_ENTRY + "        run.number = getattr(run, \"number\", 0) + 1\n",
      (REFUSED_AT, "            return Refused(number, getattr(run, \"number\", 0))\n"))
fault("passage: of 11 the place is the end of the record", PASSED, "passages",
      REFUSED_AT, REFUSED_AT.replace("place)", "len(record) if number == 11 else place)"))
fault("passage: of 3 the place is that of the word", PASSED, "passages",
      REFUSED_AT, REFUSED_AT.replace("place)", "place if number != 3 else place + 1 + [\n"
      "                mode_a.may_stand_in_block(word) for word in\n"
      "                record[place + 1:place + 4]].index(False))"))
fault("passage: of 3 the index in the offer is beside it", PASSED, "passages",
      REFUSED_AT, REFUSED_AT.replace("place)", "place if number != 3 else [\n"
      "                mode_a.may_stand_in_block(word) for word in\n"
      "                record[place + 1:place + 4]].index(False))"))
fault("passage: of 12 the place is that of the damage", PASSED, "passages",
      REFUSED_AT, REFUSED_AT.replace("place)", "place + (number == 12))"))
fault("passage: of 13 the place is that of the offer that stands", PASSED, "passages",
      REFUSED_AT, REFUSED_AT.replace(
          "place)", "place if number != 13 else run.made[KINDS[record[place]][1]])"),
      (NEXT_ENTRY, "        if record[place] > 2:\n"
       "            run.made[KINDS[record[place]][1]] = place\n" + NEXT_ENTRY),
      ("    run = Run()\n", "    run = Run()\n    run.made = {}\n"))
for bits in (8, 12, 16):
    fault("passage: the place has %d bits" % bits, "passage" if bits == 16 else PASSED,
          "passages", REFUSED_AT,
          REFUSED_AT.replace("place)", "place %% %d)" % 2 ** bits))

# What is printed.
fault("passage: each block is printed from letters", PASSED, "passages", CASE_KEPT, "")
fault("passage: the case is one for both stations", PASSED, "passages",
      CASE_KEPT, "    for one in run.sides.values():\n        one.case = written.case\n")
fault("passage: the case goes back to letters at a turn", PASSED, "passages",
      CASE_KEPT, CASE_KEPT + "    if side.station.place == mode_a.ASKING:\n"
      "        side.case = \"letters\"\n")
fault("passage: printing starts in figures", PASSED, "passages",
      "        self.case = \"letters\"\n", "        self.case = \"figures\"\n")
fault("passage: what a station sends is printed by it", PASSED, "passages",
      PRINTED, "    run.sides[run.sender].printed += room[:written.length]\n")
fault("passage: only what is not a repetition of the last block is printed", PASSED,
      "passages", PRINTED,
      "    if not answer.printed or answer.printed != getattr(side, \"last\", None):\n"
      "        side.printed += room[:written.length]\n"
      "    side.last = answer.printed or getattr(side, \"last\", None)\n")
fault("passage: an over is not printed", PASSED, "passages",
      PRINTED, "    if run.burst != mode_a.OVER:\n    " + PRINTED)
fault("passage: who are you is not printed", PASSED, "passages",
      PRINTED, "    side.printed += room[:written.length].replace(b\"\\5\", b\"\")\n")
fault("passage: what a station at Asking printed last is lost", PASSED, "passages",
      PRINTED, "    if side.station.place != mode_a.ASKING:\n    " + PRINTED)
fault("passage: over 8,192 bytes of a station are refused", "passage", "passages",
      "    master = run.sides[MASTER].printed\n",
      "    if any(len(side.printed) > 8192 for side in run.sides.values()):\n"
      "        return Refused(13, place)\n    master = run.sides[MASTER].printed\n")
fault("passage: a station prints 8,192 bytes at most", "passage", "passages",
      PRINTED, "    if len(side.printed) + written.length <= 8192:\n    " + PRINTED)
fault("passage: a master prints 65,536 bytes at most", "passage", "passages",
      "    master = run.sides[MASTER].printed\n",
      "    master = run.sides[MASTER].printed[:65536]\n")
fault("passage: a slave prints 65,536 bytes at most", "passage", "passages",
      "    slave = run.sides[SLAVE].printed\n",
      "    slave = run.sides[SLAVE].printed[:65536]\n")

# The rooms.
fault("passage: the slave's room is judged first", "calls V", "passages",
      MASTER_NEEDS + SLAVE_NEEDS, SLAVE_NEEDS + MASTER_NEEDS)
fault("passage: a room as long as needed is refused, of the master", "calls V", "passages",
      MASTER_NEEDS, MASTER_NEEDS.replace("> len(master_room)", ">= len(master_room) > 0"))
fault("passage: a room as long as needed is refused, of the slave", "calls V", "passages",
      SLAVE_NEEDS, SLAVE_NEEDS.replace("> len(slave_room)", ">= len(slave_room) > 0"))
fault("passage: no room is refused where none is needed, of the master", "calls V",
      "passages", MASTER_NEEDS, MASTER_NEEDS.replace("if len(master) >", "if max(len(master), 1) >"))
fault("passage: no room is refused where none is needed, of the slave", "calls V",
      "passages", SLAVE_NEEDS, SLAVE_NEEDS.replace("if len(slave) >", "if max(len(slave), 1) >"))
for name, needs in (("master", MASTER_NEEDS), ("slave", SLAVE_NEEDS)):
    fault("passage: a room one too short is taken, of the %s" % name, "calls V", "passages",
          needs, needs.replace("(%s) >" % name, "(%s) - 1 >" % name),
          ("    %s_room[:len(%s)] = %s\n" % (name, name, name),
           "    %s_room[:len(%s)] = %s[:len(%s_room)]\n" % (name, name, name, name)))
    fault("passage: 2 tells one more than is needed, of the %s" % name, "calls V", "passages",
          needs, needs.replace("2, len(%s)" % name, "2, len(%s) + 1" % name))
    fault("passage: 2 tells what is missing, of the %s" % name, "calls V", "passages",
          needs, needs.replace("2, len(%s)" % name, "2, len(%s) - len(%s_room)"
                               % (name, name)))
    fault("passage: 2 tells what both need together, of the %s" % name, "calls V", "passages",
          needs, needs.replace("2, len(%s)" % name, "2, len(master) + len(slave)"))
    fault("passage: 2 tells what the other needs, of the %s" % name, "calls V", "passages",
          needs, needs.replace(
              "2, len(%s)" % name, "2, len(%s)" % ("slave" if name == "master" else "master")))
    fault("passage: 2 tells the length of the room, of the %s" % name, "calls V", "passages",
          needs, needs.replace("2, len(%s)" % name, "2, len(%s_room)" % name))
    fault("passage: 2 writes what fits, of the %s" % name, "calls V", "passages",
          needs, needs.replace("        return", "        %s_room[:] = %s[:len(%s_room)]\n"
                               "        return" % (name, name, name)))
    fault("passage: the room behind what is printed is cleared, of the %s" % name,
          "calls V", "passages", "    %s_room[:len(%s)] = %s\n" % (name, name, name),
          "    %s_room[:] = %s + bytes(len(%s_room) - len(%s))\n" % (name, name, name, name))
    fault("passage: a room that is not needed is cleared, of the %s" % name,
          "calls V", "passages", "    %s_room[:len(%s)] = %s\n" % (name, name, name),
          "    %s_room[:len(%s)] = %s or bytes(len(%s_room))\n" % (name, name, name, name))
    fault("passage: nothing is written, of the %s" % name, "calls V, passage", "passages",
          "    %s_room[:len(%s)] = %s\n" % (name, name, name), "")
fault("passage: the master's room is written before the slave's is judged", "calls V",
      "passages", SLAVE_NEEDS, MASTER_WRITTEN + SLAVE_NEEDS,
      (MASTER_WRITTEN + SLAVE_WRITTEN, SLAVE_WRITTEN))
fault("passage: the slave's room is written where the master's is too short", "calls V",
      "passages", MASTER_NEEDS, MASTER_NEEDS.replace(
          "        return", "        slave_room[:len(slave)] = slave[:len(slave_room)]\n"
          "        return"))
fault("passage: what is printed before a fault is written", "calls V", "passages",
      REFUSED_AT,
      "            for room, side in ((master_room, run.sides[MASTER]),\n"
      "                               (slave_room, run.sides[SLAVE])):\n"
      "                some = side.printed[:len(room)]\n"
      "                room[:len(some)] = some\n" + REFUSED_AT)
fault("passage: 2 before the record's own refusals", "calls V", "passages",
      REFUSED_AT,
      "            if len(run.sides[MASTER].printed) > len(master_room):\n"
      "                return Refused(2, len(run.sides[MASTER].printed))\n"
      "            if len(run.sides[SLAVE].printed) > len(slave_room):\n"
      "                return Refused(2, len(run.sides[SLAVE].printed))\n" + REFUSED_AT)
fault("passage: 2 as soon as a room is full", "calls V", "passages",
      NEXT_ENTRY, NEXT_ENTRY +
      "        for room, whose in ((master_room, MASTER), (slave_room, SLAVE)):\n"
      "            if len(run.sides[whose].printed) > len(room):\n"
      "                return Refused(2, len(run.sides[whose].printed))\n")
fault("passage: the rooms are exchanged", "calls V", "passages",
      "    run = Run()\n",
      "    master_room, slave_room = slave_room, master_room\n    run = Run()\n")

# The program, and V of `calls`.
TELLS_LONG = "    if len(data) > MOST_RECORD:\n        return b\"\", TOO_LONG\n"
PASSAGE_OUT = ("    return (b\"master %d\\n\" % answer.master + master[:answer.master] "
               "+ b\"\\n\"\n")
PASSAGE_OUT_2 = ("            + b\"slave %d\\n\" % answer.slave + slave[:answer.slave] "
                 "+ b\"\\n\"), None\n")

fault("passage: 262,144 bytes are too long", "passage", "programs",
      TELLS_LONG, TELLS_LONG.replace(">", ">="))
fault("passage: 262,145 bytes are not too long", "passage", "programs",
      TELLS_LONG, TELLS_LONG.replace("> MOST_RECORD", "> MOST_RECORD + 1"))
fault("passage: what is too long is cut", "passage", "programs",
      TELLS_LONG, "    data = data[:MOST_RECORD]\n")
fault("passage: a fault in what is too long is told first", "passage", "programs",
      TELLS_LONG,
      "    if len(data) > MOST_RECORD and data[0] in passages.KINDS:\n"
      "        return b\"\", TOO_LONG\n")
fault("passage: too long has other words", "passage", "programs",
      "TOO_LONG = \"too long: over 262144 bytes\"", "TOO_LONG = \"too long\"")
fault("passage: too long is told on standard output", "passage", "programs",
      TELLS_LONG, TELLS_LONG.replace("b\"\", TOO_LONG", "TOO_LONG.encode(), None"))
fault("passage: the master's part is not ended", "passage", "programs",
      PASSAGE_OUT, PASSAGE_OUT.replace("+ b\"\\n\"\n", "\n"))
fault("passage: the slave's part is not ended", "passage", "programs",
      PASSAGE_OUT_2, PASSAGE_OUT_2.replace("slave[:answer.slave] + b\"\\n\"",
                                           "slave[:answer.slave]"))
fault("passage: an empty part is not ended", "passage", "programs",
      PASSAGE_OUT, PASSAGE_OUT.replace("+ b\"\\n\"\n", "+ b\"\\n\"[:answer.master]\n"))
fault("passage: the names are exchanged", "passage", "programs",
      "    return (b\"master %d", "    return (b\"slave %d",
      ("            + b\"slave %d", "            + b\"master %d"))
fault("passage: the numbers are exchanged", "passage", "programs",
      "\"master %d\\n\" % answer.master +", "\"master %d\\n\" % answer.slave +",
      ("\"slave %d\\n\" % answer.slave +", "\"slave %d\\n\" % answer.master +"))
fault("passage: the whole room is written", "passage", "programs",
      "+ slave[:answer.slave] +", "+ slave +")
fault("passage: the program's rooms have 8,192 bytes", "passage", "programs",
      "    master, slave = bytearray(MOST_RECORD), bytearray(MOST_RECORD)\n",
      "    master, slave = bytearray(8192), bytearray(8192)\n",
      ("13: NOT_TAKEN_YET, 3:", "13: NOT_TAKEN_YET, 2: \"no room\", 3:"))
fault("passage: what was printed before a refusal is written", "passage", "programs",
      "        return b\"\", refused(answer, {10:",
      "        return b\"master 0\\n\\nslave 0\\n\\n\", refused(answer, {10:")
for one, other in ((10, "NO_SUCH_KIND"), (11, "CUT_BODY"), (12, "OUT_OF_TURN"),
                   (13, "NOT_TAKEN_YET"), (3, "NOT_IN_A_BLOCK")):
    told = "NO_SUCH_KIND" if one != 10 else "CUT_BODY"
    fault("passage: refusal %d in the words of another" % one, "passage", "programs",
          " %d: %s" % (one, other) if one != 10 else "{10: NO_SUCH_KIND",
          " %d: %s" % (one, told) if one != 10 else "{10: CUT_BODY")

LENT_TWO = "    rooms = low_first(head[0:2]), low_first(head[2:4])\n"
JUDGES_ROOMS = "    judge_room(max(rooms))\n"
V_SHOWN = "    shown = (master.hex().upper() or \"-\", slave.hex().upper() or \"-\")\n"
V_OK = "line = \"ok %d %d %s %s\\n\" % (answer.master, answer.slave, *shown)"

fault("calls V: no such kind", "calls V, calls", "programs",
      "            elif kind == b\"V\":\n", "            elif kind == b\"V\" and False:\n")
fault("calls V: the rooms are exchanged", "calls V", "programs",
      LENT_TWO, "    rooms = low_first(head[2:4]), low_first(head[0:2])\n")
fault("calls V: the high byte of a room comes first", "calls V", "programs",
      LENT_TWO, "    rooms = tuple(int.from_bytes(head[one:one + 2], \"big\") % 8193\n"
      "                  for one in (0, 2))\n")
fault("calls V: only the master's room is judged", "calls", "programs",
      JUDGES_ROOMS, "    judge_room(rooms[0])\n")
fault("calls V: only the slave's room is judged", "calls", "programs",
      JUDGES_ROOMS, "    judge_room(rooms[1])\n")
fault("calls V: the rooms are judged together", "calls V, calls", "programs",
      JUDGES_ROOMS, "    judge_room(sum(rooms))\n")
fault("calls V: a room of 8,192 is over", "calls V, calls", "programs",
      JUDGES_ROOMS, "    judge_room(max(rooms) + 1)\n")
fault("calls V: the length is judged before the rooms", "calls", "programs",
      JUDGES_ROOMS, "    judge_length(length)\n" + JUDGES_ROOMS)
fault("calls V: a list cut short comes before a room over", "calls", "programs",
      JUDGES_ROOMS, "    if length <= MOST_LENGTH:\n        cut(data, place + 6, length)\n"
      + JUDGES_ROOMS)
fault("calls V: the length is not judged", "calls", "programs",
      "    judge_length(length)\n    record = cut(data, place + 6, length)\n",
      "    record = cut(data, place + 6, length)\n")
fault("calls V: a record cut short is run as far as it goes", "calls", "programs",
      "    record = cut(data, place + 6, length)\n",
      "    record = data[place + 6:place + 6 + length]\n")
fault("calls V: a record of its own is one byte shorter", "calls V", "programs",
      "    record = cut(data, place + 6, length)\n",
      "    record = cut(data, place + 6, length)[:max(length - 1, 0)]\n")
fault("calls V: a room is filled with 0", "calls V", "programs",
      "    master, slave = (bytearray([FILLED_WITH]) * room for room in rooms)\n",
      "    master, slave = (bytearray(room) for room in rooms)\n")
fault("calls V: a room without length is not shown", "calls V", "programs",
      V_SHOWN, "    shown = (master.hex().upper(), slave.hex().upper())\n")
fault("calls V: the rooms are shown in the other order", "calls V", "programs",
      V_SHOWN, "    shown = (slave.hex().upper() or \"-\", master.hex().upper() or \"-\")\n")
fault("calls V: only what is printed is shown", "calls V", "programs",
      "        " + V_OK, "        line = \"ok %d %d %s %s\\n\" % (answer + tuple(\n"
      "            room[:printed].hex().upper() or \"-\"\n"
      "            for room, printed in zip((master, slave), answer)))")
fault("calls V: a refusal ends the program", "calls V", "programs",
      "        line = \"refused %d %d %s %s\\n\" % (answer.number, answer.beside, *shown)\n",
      "        raise BadRecord(\"refused\")\n")
fault("calls V: the numbers are exchanged", "calls V", "programs",
      V_OK, V_OK.replace("answer.master, answer.slave", "answer.slave, answer.master"))

# --- Reasons (02, T-08) ---

WHY = "why, calls W"

# Of `REASONS`, lines of the list.
LISTED = {name: "    (\"%s\", %s),\n" % (name, holds) for name, holds in (
    ("silent", "silent"), ("time-out", "time_out"), ("run-out", "run_out"),
    ("called", "called"), ("call-offered", "places_call"), ("own", "own_number"),
    ("other", "other_number"), ("either", "either_number"), ("cs1", "answers_end_by_1"),
    ("cs3", "hears_3"), ("cs4", "hears_4"), ("cs5", "hears_5"),
    ("rq", "asked_to_receive"), ("turn", "turned"), ("alphas", "ended"),
    ("right-sum", "right_sum"), ("wrong-sum", "wrong_sum"), ("told", "told"),
    ("told-again", "told_again"), ("bad", "some_bad"), ("repeat", "some_rq"),
    ("unexpected", "not_expected"), ("over-heard", "over_heard"),
    ("who-are-you", "who_are_you"), ("over-offered", "over_offered"),
    ("accepted", "accepted"))}


def moved(name, behind):
    """The pairs of edits that move a reason behind another one of the list."""
    return LISTED[name], "", (LISTED[behind], LISTED[behind] + LISTED[name])


# The order of the list.
for about, name, behind, tellers in (
        ("RQ before bad", "bad", "repeat", WHY),
        ("time-out behind what is named", "time-out", "told-again", WHY),
        ("time-out behind own number", "time-out", "own", WHY),
        ("time-out behind CS3", "time-out", "cs3", WHY),
        ("time-out behind wrong check-sum", "time-out", "wrong-sum", "calls W"),
        ("time-out behind bad", "time-out", "bad", WHY),
        ("time-out behind RQ", "time-out", "repeat", WHY),
        ("time-out behind a word not expected", "time-out", "unexpected", WHY),
        ("run-out behind what is named", "run-out", "either", "calls W"),
        ("run-out behind bad", "run-out", "bad", "calls W"),
        ("run-out behind RQ", "run-out", "repeat", "calls W"),
        ("run-out behind a word not expected", "run-out", "unexpected", "calls W"),
        ("a call offered before a call heard", "called", "call-offered", "calls W"),
        ("RQ named behind RQ", "rq", "repeat", WHY),
        ("CS3 behind bad", "cs3", "bad", WHY),
        ("CS3 behind a word not expected", "cs3", "unexpected", WHY),
        ("alpha alpha alpha behind a word not expected", "alphas", "unexpected", WHY),
        ("over offered before over heard", "over-heard", "over-offered", WHY),
        ("who are you before over heard", "over-heard", "who-are-you", WHY),
        ("who are you behind over offered", "who-are-you", "over-offered", WHY),
        ("who are you behind accepted", "who-are-you", "accepted", WHY),
        ("accepted before over offered", "over-offered", "accepted", WHY),
        ("accepted before over heard", "over-heard", "accepted", WHY)):
    fault("why: %s" % about if tellers != "calls W" else "calls W: %s" % about, tellers,
          "reasons", *moved(name, behind))
for name in LISTED:
    if name not in ("accepted", "unexpected", "silent"):
        base = name in ("time-out", "own", "other", "either", "cs3", "rq", "turn",
                        "alphas", "bad", "repeat", "over-heard", "who-are-you",
                        "over-offered")
        if name in ("called", "call-offered"):
            # What is left would be no reason at all.
            fault("why: %s is silent" % name, "calls W", "reasons",
                  LISTED[name], LISTED[name].replace("\"%s\"" % name, "\"silent\""))
        else:
            fault("why: %s is no reason" % name, WHY if base else "calls W", "reasons",
                  LISTED[name], "")
for one, two, tellers in (
        ("own", "other", WHY), ("cs4", "cs5", "calls W"),
        ("right-sum", "wrong-sum", "calls W"), ("told", "told-again", "calls W"),
        ("called", "call-offered", "calls W"), ("over-heard", "over-offered", WHY),
        ("silent", "time-out", WHY), ("turn", "alphas", WHY), ("either", "cs1", WHY)):
    fault("why: the names of %s and %s are changed round" % (one, two), tellers, "reasons",
          LISTED[one], LISTED[one].replace("\"%s\"" % one, "\"%s\"" % two),
          (LISTED[two], LISTED[two].replace("\"%s\"" % two, "\"%s\"" % one)))

# What is judged of the words, and how many of them.
READS_FIRST = ("    if station.place in (SENDING, OPENING, ENDING, CALLING, CALLING_3, "
               "IDENTIFYING):\n        return burst[:1]\n")
SLAVE_READS_FIRST = ("    if station.place == TURNING and not station.master:\n"
                     "        return burst[:1]\n")
READS_ALL = "        return burst[:1]\n    return burst\n"
BAD_FIRST = "        place = bad_places(station, burst)[0]\n"
RQ_FIRST = "        return (rq_places(station, burst)[0],)\n"
BAD_TOLD = "        return place, burst[place]\n"
IS_BAD = "            if not intact(word)]\n"

for place, name, tellers in (
        ("SENDING", "Sending", WHY), ("OPENING", "Opening", WHY), ("ENDING", "Ending", WHY),
        ("CALLING", "Calling", "calls W"), ("CALLING_3", "Calling with three blocks",
                                            "calls W"),
        ("IDENTIFYING", "Identifying", "calls W")):
    fault("why: %s judges three words" % name, tellers, "reasons", READS_FIRST,
          READS_FIRST.replace("):\n", ") and station.place != %s:\n" % place))
    fault("why: %s judges two words" % name, tellers, "reasons", READS_FIRST,
          READS_FIRST.replace("burst[:1]", "burst[:1 + (station.place == %s)]" % place))
fault("why: every place judges three words", WHY, "reasons",
      READS_FIRST, "", (SLAVE_READS_FIRST, ""))
fault("why: every place judges the first word alone", WHY, "reasons",
      READS_ALL, "        return burst[:1]\n    return burst[:1]\n")
fault("why: every place judges two words at most", WHY, "reasons",
      READS_ALL, "        return burst[:1]\n    return burst[:2]\n")
for place, name, tellers in (("RECEIVING", "Receiving", WHY), ("ASKING", "Asking", WHY),
                             ("ANSWERING", "Answering", "calls W")):
    for many in (1, 2):
        fault("why: %s judges %d of three words" % (name, many), tellers, "reasons",
              READS_ALL, "        return burst[:1]\n    if station.place == %s:\n"
              "        return burst[:%d]\n    return burst\n" % (place, many))
fault("why: a slave at Turning judges three words", WHY, "reasons",
      SLAVE_READS_FIRST, "")
fault("why: a master at Turning judges the first word alone", WHY, "reasons",
      SLAVE_READS_FIRST, "    if station.place == TURNING:\n        return burst[:1]\n")
fault("why: a master judges one word at Turning and a slave three", WHY, "reasons",
      SLAVE_READS_FIRST, SLAVE_READS_FIRST.replace("not station.master",
                                                   "station.master"))
fault("why: the latest bad place", WHY, "reasons",
      BAD_FIRST, BAD_FIRST.replace("[0]", "[-1]"))
fault("why: the latest RQ", WHY, "reasons", RQ_FIRST, RQ_FIRST.replace("[0]", "[-1]"))
fault("why: bad places are counted from 1", WHY, "reasons",
      BAD_TOLD, "        return place + 1, burst[place]\n")
fault("why: an RQ's place is counted from 1", WHY, "reasons",
      RQ_FIRST, RQ_FIRST.replace("[0],)", "[0] + 1,)"))
fault("why: the place of RQ is told with the word", WHY, "reasons",
      RQ_FIRST, RQ_FIRST.replace(",)", ", RQ)"))
fault("why: the bad word is told without bit 7", WHY, "reasons",
      BAD_TOLD, "        return place, burst[place] & 127\n")
fault("why: the bad word told is the first of the burst", WHY, "reasons",
      BAD_TOLD, "        return place, burst[0]\n")
fault("why: the bad word told is the last of the burst", WHY, "reasons",
      BAD_TOLD, "        return place, burst[2]\n")
fault("why: the bad word is told as 0", WHY, "reasons",
      BAD_TOLD, "        return place, 0\n")
fault("why: the word comes before its place", WHY, "reasons",
      BAD_TOLD, "        return burst[place], place\n")
fault("why: no word is told", WHY, "reasons", BAD_TOLD, "        return (place,)\n")
fault("why: zeros behind a single signal are not bad", WHY, "reasons",
      IS_BAD, "            if not intact(word) and (place == 0 or word != 0)]\n")
fault("why: silence is not bad", WHY, "reasons",
      IS_BAD, "            if not intact(word) and any(burst)]\n")
fault("why: bit 7 makes no word bad", WHY, "reasons",
      IS_BAD, "            if not intact(word & 127)]\n")
fault("why: a service signal is bad", WHY, "reasons",
      IS_BAD, "            if not intact(word) or word == ALPHA]\n")
fault("why: a word that is no traffic is bad", WHY, "reasons",
      IS_BAD, "            if not is_traffic(word)]\n")
fault("why: alpha counts as RQ", WHY, "reasons",
      "            if word == RQ]\n", "            if word in (RQ, ALPHA)]\n")
fault("why: RQ is looked for in all three words", WHY, "reasons",
      "    return [place for place, word in enumerate(words_read(station, burst))\n"
      "            if word == RQ]\n",
      "    return [place for place, word in enumerate(burst)\n"
      "            if word == RQ]\n")

# What the rows of 01 name.
OWN_AT = "    return station.place == SENDING and burst[0] == CONTROL_OF[station.number]\n"
OTHER_AT = "    return (station.place in (SENDING, ENDING)\n"
EITHER_AT = "    return station.place in (OPENING, CALLING) and burst[0] in (CS1, CS2)\n"
CS3_AT = "    return station.place in (SENDING, TURNING, OPENING, CALLING, CALLING_3)\n"
CS3_IDENTIFYING = "        return station.stage == 4\n"
SLAVE_TURNS = ("    if station.place == TURNING and not station.master:\n"
               "        return burst[0] == RQ\n")
THREE_TURN = ("    if station.place == TURNING or station.place == ANSWERING and "
              "station.stage == 4:\n        return burst == (RQ, RQ, RQ)\n")
TURNED_BY = "    return station.place == ASKING and burst == (BETA, ALPHA, BETA)\n"
ENDED_AT = "    return (station.place in (RECEIVING, ANSWERING)\n"
ENDED_BY = "            and burst == (ALPHA, ALPHA, ALPHA))\n"

fault("why: own number is named at Ending", WHY, "reasons",
      OWN_AT, OWN_AT.replace("== SENDING", "in (SENDING, ENDING)"))
fault("why: other number is not named at Ending", WHY, "reasons",
      OTHER_AT, "    return (station.place == SENDING\n")
fault("why: other number at Ending is its own", WHY, "reasons",
      "            and burst[0] == CONTROL_OF[THE_OTHER[station.number]])\n",
      "            and burst[0] == CONTROL_OF[station.number if station.place == ENDING\n"
      "                                       else THE_OTHER[station.number]])\n")
fault("why: other number at Ending is any", WHY, "reasons",
      "            and burst[0] == CONTROL_OF[THE_OTHER[station.number]])\n",
      "            and (burst[0] == CONTROL_OF[THE_OTHER[station.number]]\n"
      "                 or station.place == ENDING and burst[0] in (CS1, CS2)))\n")
fault("why: other number is named at Receiving", WHY, "reasons",
      OTHER_AT, OTHER_AT.replace("ENDING", "ENDING, RECEIVING"))
fault("why: own and other number are changed round", WHY, "reasons",
      "CONTROL_OF = {1: CS1, 2: CS2}", "CONTROL_OF = {1: CS2, 2: CS1}")
fault("why: a control signal counts only alone", WHY, "reasons",
      OWN_AT, OWN_AT.replace("burst[0] == CONTROL_OF[station.number]",
                             "burst == (CONTROL_OF[station.number], 0, 0)"))
fault("why: CS1 alone is named at Opening", WHY, "reasons",
      EITHER_AT, EITHER_AT.replace("in (CS1, CS2)", "== CS1"))
fault("why: CS2 alone is named at Opening", WHY, "reasons",
      EITHER_AT, EITHER_AT.replace("in (CS1, CS2)", "== CS2"))
fault("why: either number at Turning too", WHY, "reasons",
      EITHER_AT, EITHER_AT.replace("OPENING,", "OPENING, TURNING,"))
for place, name in (("SENDING", "Sending"), ("TURNING", "Turning"), ("OPENING", "Opening")):
    fault("why: CS3 is not named at %s" % name, WHY, "reasons",
          CS3_AT, CS3_AT.replace("%s, " % place, ""))
for place, name in (("ENDING", "Ending"), ("RECEIVING", "Receiving"), ("ASKING", "Asking")):
    fault("why: CS3 is named at %s" % name, WHY, "reasons",
          CS3_AT, CS3_AT.replace("OPENING,", "OPENING, %s," % place))
fault("why: a slave at Turning needs three RQ", WHY, "reasons", SLAVE_TURNS, "")
fault("why: a master at Turning needs one RQ", WHY, "reasons",
      SLAVE_TURNS, SLAVE_TURNS.replace(" and not station.master", ""))
fault("why: three RQ are named at Receiving", WHY, "reasons",
      THREE_TURN, THREE_TURN.replace("station.place == TURNING or",
                                     "station.place in (TURNING, RECEIVING) or"))
fault("why: three RQ are named at Opening", WHY, "reasons",
      THREE_TURN, THREE_TURN.replace("station.place == TURNING or",
                                     "station.place in (TURNING, OPENING) or"))
fault("why: beta first is enough at Asking", WHY, "reasons",
      TURNED_BY, TURNED_BY.replace("burst == (BETA, ALPHA, BETA)", "burst[0] == BETA"))
fault("why: beta alpha is enough at Asking", WHY, "reasons",
      TURNED_BY, TURNED_BY.replace("burst == (BETA, ALPHA, BETA)",
                                   "burst[:2] == (BETA, ALPHA)"))
fault("why: alpha beta alpha at Asking", WHY, "reasons",
      TURNED_BY, TURNED_BY.replace("(BETA, ALPHA, BETA)", "(ALPHA, BETA, ALPHA)"))
fault("why: beta alpha beta is named at Receiving", WHY, "reasons",
      TURNED_BY, TURNED_BY.replace("== ASKING", "in (ASKING, RECEIVING)"))
fault("why: alpha first is enough at Receiving", WHY, "reasons",
      ENDED_BY, "            and burst[0] == ALPHA)\n")
fault("why: two alpha are enough at Receiving", WHY, "reasons",
      ENDED_BY, "            and burst[:2] == (ALPHA, ALPHA))\n")
fault("why: alpha alpha alpha is named at Asking", WHY, "reasons",
      ENDED_AT, ENDED_AT.replace("RECEIVING,", "RECEIVING, ASKING,"))
fault("why: alpha alpha alpha is named at every place", WHY, "reasons",
      ENDED_AT + ENDED_BY, "    return burst == (ALPHA, ALPHA, ALPHA)\n")

# The silent places.
SILENT_LOST = "    return station.place == LOST\n"
NEITHER = ("        return not (called(station, burst, offer)\n"
           "                    or places_call(station, burst, offer))\n")
fault("why: Lost is not silent", WHY, "reasons", SILENT_LOST, "    return False\n")
fault("why: Ending is silent", WHY, "reasons",
      SILENT_LOST, "    return station.place in (LOST, ENDING)\n")
fault("why: Ending is silent where four ends are sent", WHY, "reasons",
      SILENT_LOST, "    return station.place == LOST or station.total == 4\n")
fault("why: silent at a call offered", "calls W", "reasons",
      NEITHER, "        return not called(station, burst, offer)\n")
fault("why: silent where it is called", "calls W", "reasons",
      NEITHER, "        return not places_call(station, burst, offer)\n")
fault("why: Stand-by is silent for good", "calls W", "reasons",
      NEITHER, "        return True\n")

# The time-out.
AT_LAST_COUNT = ("    if station.count != LAST_COUNT or station.place not in GOES_ON_BY:\n"
                 "        return False\n")
fault("why: time-out at 30", WHY, "reasons", "LAST_COUNT = 31", "LAST_COUNT = 30")
fault("why: time-out at 30 too", WHY, "reasons",
      AT_LAST_COUNT, AT_LAST_COUNT.replace("!= LAST_COUNT", "< LAST_COUNT - 1"))
fault("why: no time-out", WHY, "reasons", "LAST_COUNT = 31", "LAST_COUNT = 32")
fault("why: time-out at each step with count 31", WHY, "reasons",
      AT_LAST_COUNT, AT_LAST_COUNT + "    return True\n")
fault("why: time-out at Ending", WHY, "reasons",
      "    ASKING: (turned,),\n", "    ASKING: (turned,),\n    ENDING: (other_number,),\n")
fault("why: time-out at Stand-by, before silent", WHY, "reasons",
      "    ASKING: (turned,),\n", "    ASKING: (turned,),\n    STANDBY: (called,),\n",
      (LISTED["silent"], ""), (LISTED["time-out"], LISTED["time-out"] + LISTED["silent"]))
fault("why: time-out at Lost, before silent", WHY, "reasons",
      "    ASKING: (turned,),\n", "    ASKING: (turned,),\n    LOST: (),\n",
      (LISTED["silent"], ""), (LISTED["time-out"], LISTED["time-out"] + LISTED["silent"]))
for place, name, line, parts in (
        ("SENDING", "Sending", "    SENDING: (other_number, hears_3),\n",
         ("other_number", "hears_3")),
        ("OPENING", "Opening", "    OPENING: (either_number, hears_3),\n",
         ("either_number", "hears_3")),
        ("RECEIVING", "Receiving", "    RECEIVING: (accepted, ended),\n",
         ("accepted", "ended")),
        ("TURNING", "Turning", "    TURNING: (asked_to_receive,),\n",
         ("asked_to_receive",)),
        ("ASKING", "Asking", "    ASKING: (turned,),\n", ("turned",)),
        ("IDENTIFYING", "Identifying",
         "    IDENTIFYING: (right_sum, answers_end_by_1, hears_3),\n",
         ("right_sum", "answers_end_by_1", "hears_3")),
        ("ANSWERING", "Answering", "    ANSWERING: (told, asked_to_receive, ended),\n",
         ("told", "asked_to_receive", "ended"))):
    tellers = "calls W" if place in ("IDENTIFYING", "ANSWERING") else WHY
    fault("why: no time-out at %s" % name, tellers, "reasons", line, "")
    for part in parts:
        rest = [other for other in parts if other != part]
        fault("why: time-out at %s in spite of %s" % (name, part), tellers, "reasons",
              line, "    %s: (%s),\n" % (place, "".join(one + ", " for one in rest)))
for place, line, more, about, tellers in (
        ("SENDING", "    SENDING: (other_number, hears_3),\n", "own_number",
         "own number at Sending", WHY),
        ("TURNING", "    TURNING: (asked_to_receive,),\n", "hears_3", "CS3 at Turning", WHY),
        ("ANSWERING", "    ANSWERING: (told, asked_to_receive, ended),\n", "told_again",
         "the block before at Answering", "calls W"),
        ("IDENTIFYING", "    IDENTIFYING: (right_sum, answers_end_by_1, hears_3),\n",
         "wrong_sum", "a wrong check-sum", "calls W")):
    fault("why: no time-out by %s" % about, tellers, "reasons",
          line, line.replace(",),\n", "),\n").replace("),\n", ", %s),\n" % more))
LEADS_AWAY = ("    if wrong_sum(station, burst, offer) and leads_away(station, burst):\n"
              "        return False\n")
fault("why: time-out by a wrong check-sum that leads away", "calls W", "reasons",
      LEADS_AWAY, "")
fault("why: time-out by a wrong check-sum that leads to Ending", "calls W", "reasons",
      "    return station.wrong >= LAST_WRONG or (\n"
      "        station.wrong > 0 and burst[0] == station.last_wrong)\n",
      "    return station.wrong >= LAST_WRONG\n")
fault("why: time-out by a wrong check-sum that leads to Stand-by", "calls W", "reasons",
      "    return station.wrong >= LAST_WRONG or (\n"
      "        station.wrong > 0 and burst[0] == station.last_wrong)\n",
      "    return station.wrong > 0 and burst[0] == station.last_wrong\n")
fault("why: the first wrong check-sum leads away", "calls W", "reasons",
      "        station.wrong > 0 and burst[0] == station.last_wrong)\n",
      "        burst[0] == station.last_wrong)\n")
fault("why: the fourth wrong check-sum leads away", "calls W", "reasons",
      "LAST_WRONG = 4", "LAST_WRONG = 3")
fault("why: the sixth wrong check-sum leads away", "calls W", "reasons",
      "LAST_WRONG = 4", "LAST_WRONG = 5")

# A call that has run out.
RUN_OUT_AT = ("    if station.place not in (CALLING, CALLING_3) or station.cycles < "
              "LAST_CALL_BURST:\n        return False\n")
RUN_OUT_CS3 = "    if hears_3(station, burst, offer):\n        return False\n"
RUN_OUT_TWO = ("        return station.last == 0 or burst[0] != CONTROL_OF[station.last]\n")
RUN_OUT_THREE = ("    return not (hears_4(station, burst, offer) or hears_5(station, burst, "
                 "offer))\n")
fault("why: run-out at 127", "calls W", "reasons",
      "LAST_CALL_BURST = 128", "LAST_CALL_BURST = 127")
fault("why: run-out at 129", "calls W", "reasons",
      "LAST_CALL_BURST = 128", "LAST_CALL_BURST = 129")
fault("why: run-out at 128 alone", "calls W", "reasons",
      RUN_OUT_AT, RUN_OUT_AT.replace("< LAST", "!= LAST"))
fault("why: no run-out at Calling", "calls W", "reasons",
      RUN_OUT_AT, RUN_OUT_AT.replace("(CALLING, CALLING_3)", "(CALLING_3,)"))
fault("why: no run-out at Calling with three blocks", "calls W", "reasons",
      RUN_OUT_AT, RUN_OUT_AT.replace("(CALLING, CALLING_3)", "(CALLING,)"))
fault("why: run-out before the second CS1", "calls W", "reasons",
      RUN_OUT_TWO, "        return True\n")
fault("why: no run-out at a first CS1", "calls W", "reasons",
      RUN_OUT_TWO, "        return burst[0] not in (CS1, CS2)\n")
fault("why: no run-out at CS1 behind CS2", "calls W", "reasons",
      RUN_OUT_TWO, "        return station.last == 0 or burst[0] not in (CS1, CS2)\n")
fault("why: run-out before CS3", "calls W", "reasons", RUN_OUT_CS3, "")
fault("why: run-out before CS4 and CS5", "calls W", "reasons",
      RUN_OUT_THREE, "    return True\n")
fault("why: run-out before CS5", "calls W", "reasons",
      RUN_OUT_THREE, "    return not hears_4(station, burst, offer)\n")
fault("why: no run-out at CS1 of a three-block call", "calls W", "reasons",
      RUN_OUT_THREE, RUN_OUT_THREE.replace("not (", "burst[0] != CS1 and not ("))
fault("why: run-out is a time-out", "calls W", "reasons",
      LISTED["run-out"], LISTED["run-out"].replace("\"run-out\"", "\"time-out\""))

# Calls.
FOUR_IN = ("    own = station.own\n"
           "    if all(is_identity_signal(word) for word in own):\n")
SEVEN_IN = ("    own = station.own_seven\n"
            "    if all(is_identity_signal(word) for word in own):\n")
FOUR_HEARD = "        if (station.last, burst) in ((1, two), (2, one)):\n"
SEVEN_HEARD = "        if (station.blocks, burst) in (((1, 2), three), ((2, 3), one)):\n"
FOUR_PLACED = "        return station.cycles == 0\n"
SEVEN_PLACED = "        return not (station.cycles > 0 and barred)\n"
fault("why: an identity outside table 3a is called", "calls W", "reasons",
      FOUR_IN, "    own = station.own\n    if True:\n")
fault("why: an identity of seven outside table 3a is called", "calls W", "reasons",
      SEVEN_IN, "    own = station.own_seven\n    if True:\n")
fault("why: block 1 behind block 2 is no call", "calls W", "reasons",
      FOUR_HEARD, "        if (station.last, burst) in ((1, two),):\n")
fault("why: block 2 behind block 1 is no call", "calls W", "reasons",
      FOUR_HEARD, "        if (station.last, burst) in ((2, one),):\n")
fault("why: the same block twice is a call", "calls W", "reasons",
      FOUR_HEARD, "        if (station.last, burst) in ((1, two), (2, one), (1, one)):\n")
fault("why: one block is a call", "calls W", "reasons",
      FOUR_HEARD, "        if burst in (one, two):\n")
fault("why: no call of four signals is heard", "calls W", "reasons",
      FOUR_HEARD, "        if False:\n")
fault("why: 2-3-1 is no call", "calls W", "reasons",
      SEVEN_HEARD, "        if (station.blocks, burst) == ((1, 2), three):\n")
fault("why: 1-2-3 is no call", "calls W", "reasons",
      SEVEN_HEARD, "        if (station.blocks, burst) == ((2, 3), one):\n")
fault("why: block 3 behind block 2 is a call", "calls W", "reasons",
      SEVEN_HEARD, SEVEN_HEARD.replace("((1, 2), three),",
                                       "((1, 2), three), ((2,), three),"))
fault("why: block 3 alone is a call", "calls W", "reasons",
      SEVEN_HEARD, "        if burst == three or (station.blocks, burst) == ((2, 3), one):\n")
fault("why: a call of four signals need not wait", "calls W", "reasons",
      FOUR_PLACED, "        return True\n")
fault("why: a call of four signals waits one step less", "calls W", "reasons",
      FOUR_PLACED, "        return station.cycles <= 1\n")
fault("why: a call of seven signals waits", "calls W", "reasons",
      SEVEN_PLACED, "        return station.cycles == 0\n")
fault("why: a barred call is placed", "calls W", "reasons",
      SEVEN_PLACED, "        return True\n")
fault("why: a barred call is never placed", "calls W", "reasons",
      SEVEN_PLACED, "        return not barred\n")
fault("why: every identity is barred", "calls W", "reasons",
      "        barred = station.other_end == Barred(tuple(offer.words))\n",
      "        barred = isinstance(station.other_end, Barred)\n")
fault("why: the identity at the other end is barred", "calls W", "reasons",
      "        barred = station.other_end == Barred(tuple(offer.words))\n",
      "        barred = station.other_end in (tuple(offer.words),\n"
      "                                       Barred(tuple(offer.words)))\n")
fault("why: Lost places a call", "calls W", "reasons",
      "    if station.place != STANDBY:\n        return False\n    if offer.kind == \"call\":\n",
      "    if station.place not in (STANDBY, LOST):\n        return False\n"
      "    if offer.kind == \"call\":\n",
      (SILENT_LOST, "    return station.place == LOST and offer.kind != \"call\"\n"))
fault("why: a call that waits is a reason", "calls W", "reasons",
      FOUR_PLACED, "        return True\n",
      (SEVEN_PLACED, "        return True\n"))
fault("why: at Calling the second of two alone is named", "calls W", "reasons",
      EITHER_AT, "    if station.place == CALLING and burst[0] != CONTROL_OF.get(station.last):\n"
      "        return False\n" + EITHER_AT)
fault("why: at Calling no control signal of the two is named", "calls W", "reasons",
      EITHER_AT, EITHER_AT.replace("(OPENING, CALLING)", "(OPENING,)"))
fault("why: CS1 and CS2 are named at Calling with three blocks", "calls W", "reasons",
      EITHER_AT, EITHER_AT.replace("CALLING)", "CALLING, CALLING_3)"))
fault("why: CS3 is not named at Calling", "calls W", "reasons",
      CS3_AT, CS3_AT.replace(" CALLING,", ""))
fault("why: CS3 is not named at Calling with three blocks", "calls W", "reasons",
      CS3_AT, CS3_AT.replace(", CALLING_3)", ")"))
for number in (4, 5):
    fault("why: CS%d is named at Calling" % number, "calls W", "reasons",
          "    return station.place == CALLING_3 and burst[0] == CS%d\n" % number,
          "    return station.place in (CALLING, CALLING_3) and burst[0] == CS%d\n"
          % number)

# Identification.
CS1_STAGE = ("    return station.place == IDENTIFYING and station.stage == 4 and burst[0] "
             "== CS1\n")
RIGHT_SUM = "            and burst[0] == check_sum(station.seven, station.stage))\n"
IS_LETTER = "            and is_check_sum_signal(burst[0])\n"
TOLD_BY = "            and form(burst) == FORM_OF_BLOCK.get(station.stage))\n"
TOLD_AGAIN_BY = "            and form(burst) == FORM_OF_BLOCK.get(station.stage - 1))\n"
fault("why: CS1 is named at every stage of Identifying", "calls W", "reasons",
      CS1_STAGE, CS1_STAGE.replace(" and station.stage == 4", ""))
fault("why: CS2 is named at the fourth stage", "calls W", "reasons",
      CS1_STAGE, CS1_STAGE.replace("== CS1", "in (CS1, CS2)"))
fault("why: CS1 at the fourth stage is either", "calls W", "reasons",
      LISTED["cs1"], "    (\"either\", answers_end_by_1),\n")
fault("why: CS3 is named at every stage of Identifying", "calls W", "reasons",
      CS3_IDENTIFYING, "        return True\n")
fault("why: CS3 is not named at Identifying", "calls W", "reasons",
      CS3_IDENTIFYING, "        return False\n")
fault("why: CS3 is named before the fourth stage", "calls W", "reasons",
      CS3_IDENTIFYING, "        return station.stage < 4\n")
fault("why: the check-sum expected is that of the own identity", "calls W", "reasons",
      RIGHT_SUM, RIGHT_SUM.replace("station.seven", "station.own_seven"))
fault("why: the check-sum expected is the first", "calls W", "reasons",
      RIGHT_SUM, RIGHT_SUM.replace("station.stage", "1"))
fault("why: the check-sum expected is that of the next stage", "calls W", "reasons",
      RIGHT_SUM, RIGHT_SUM.replace("station.stage", "station.stage % 3 + 1"))
fault("why: a check-sum is right where the last wrong one was the same", "calls W",
      "reasons", RIGHT_SUM,
      "            and burst[0] in (check_sum(station.seven, station.stage),\n"
      "                             station.last_wrong if station.wrong else None))\n")
fault("why: every check-sum is right at the third stage", "calls W", "reasons",
      RIGHT_SUM, "            and (burst[0] == check_sum(station.seven, station.stage) or\n"
      "                 station.stage == 3 and is_check_sum_signal(burst[0])))\n")
fault("why: every traffic signal is a wrong check-sum", "calls W", "reasons",
      IS_LETTER, "            and is_traffic(burst[0])\n")
fault("why: every intact word is a wrong check-sum", "calls W", "reasons",
      IS_LETTER, "            and intact(burst[0])\n")
fault("why: letters at the fourth stage are wrong check-sums", "calls W", "reasons",
      "    return (station.place == IDENTIFYING and station.stage < 4\n" + IS_LETTER,
      "    return (station.place == IDENTIFYING\n" + IS_LETTER)
fault("why: a wrong check-sum that leads away is not named", "calls W", "reasons",
      "            and not right_sum(station, burst, offer))\n",
      "            and not right_sum(station, burst, offer)\n"
      "            and not leads_away(station, burst))\n")
fault("why: told-again as unexpected", "calls W", "reasons",
      TOLD_AGAIN_BY, "            and False)\n")
fault("why: told again only where the letters are those gathered", "calls W", "reasons",
      TOLD_AGAIN_BY, TOLD_AGAIN_BY[:-2] + "\n"
      "            and {1: burst == (station.seven[0], ALPHA, station.seven[1]),\n"
      "                 2: burst == (ALPHA, *station.seven[2:4]),\n"
      "                 3: burst == station.seven[4:]}[station.stage - 1])\n")
fault("why: told again is any block before", "calls W", "reasons",
      TOLD_AGAIN_BY, "            and form(burst) in [FORM_OF_BLOCK.get(number) for number in\n"
      "                                range(1, station.stage)])\n")
fault("why: told again is the next block", "calls W", "reasons",
      TOLD_AGAIN_BY, TOLD_AGAIN_BY.replace("- 1", "+ 1"))
fault("why: told is any block", "calls W", "reasons",
      TOLD_BY, "            and form(burst) in FORM_OF_BLOCK.values())\n")
fault("why: told by any letters", "calls W", "reasons",
      "\"X\" if is_identity_signal(word)", "\"X\" if is_traffic(word)")
fault("why: the forms of blocks 1 and 2 are changed round", "calls W", "reasons",
      "{1: \"X a X\", 2: \"a X X\", 3", "{1: \"a X X\", 2: \"X a X\", 3")
fault("why: the third block may have alpha", "calls W", "reasons",
      "else \"a\" if word == ALPHA else \"-\"\n",
      "else (\"a\" if burst.count(ALPHA) == 1 else \"X\") if word == ALPHA else \"-\"\n")
fault("why: RQ RQ RQ is named at every stage of Answering", "calls W", "reasons",
      THREE_TURN, THREE_TURN.replace(" and station.stage == 4", ""))
fault("why: RQ RQ RQ is not named at Answering", "calls W", "reasons",
      THREE_TURN, THREE_TURN.replace(" or station.place == ANSWERING and station.stage == 4",
                                     ""))
fault("why: alpha alpha alpha is not named at Answering", "calls W", "reasons",
      ENDED_AT, "    return (station.place == RECEIVING\n")

# What is accepted, the over and "who are you".
IS_ACCEPTED = "        is_traffic(word) or word == BETA for word in burst)\n"
OVER_ACCEPTED = "    if not accepted(station, burst, offer):\n        return False\n"
KEPT_PLUS = "    if station.plus:\n        signals = [plus] + signals\n"
IN_ORDER = "    return (plus, query) in zip(signals, signals[1:])\n"
NO_BETA = "        if word != BETA:\n"
ASKED_IN = "            and (\"figures\", WHO_ARE_YOU) in in_their_case(station, burst))\n"
OFFERED_OVER = ("    return accepted(station, burst, offer) and offer.kind == \"over\"\n")
FIRST_CASE = "    case = station.case\n    signals = []\n"
fault("why: beta is not accepted", WHY, "reasons",
      IS_ACCEPTED, "        is_traffic(word) for word in burst)\n")
fault("why: alpha within a block is accepted", WHY, "reasons",
      IS_ACCEPTED, "        is_traffic(word) or word in (BETA, ALPHA) for word in burst)\n")
fault("why: a block is accepted by its first two words", WHY, "reasons",
      IS_ACCEPTED, "        is_traffic(word) or word == BETA for word in burst[:2])\n")
fault("why: the + of an earlier block is forgotten", WHY, "reasons", KEPT_PLUS, "")
fault("why: a + is always kept", WHY, "reasons",
      KEPT_PLUS, "    signals = [plus] + signals\n")
fault("why: beta cancels the over", WHY, "reasons", NO_BETA, "        if True:\n")
fault("why: any signal may stand between + and ?", WHY, "reasons",
      IN_ORDER, "    return plus in signals and query in signals[signals.index(plus):]\n")
fault("why: ? and + in any order", WHY, "reasons",
      IN_ORDER, "    return plus in signals and query in signals\n")
fault("why: + behind ? is an over too", WHY, "reasons",
      IN_ORDER, "    return ((plus, query) in zip(signals, signals[1:])\n"
      "            or (query, plus) in zip(signals, signals[1:]))\n")
fault("why: the over is heard in letters", WHY, "reasons",
      "    plus, query = (\"figures\", PLUS), (\"figures\", QUERY)\n"
      "    signals = in_their_case(station, burst)\n",
      "    plus, query = PLUS, QUERY\n"
      "    signals = [word for _, word in in_their_case(station, burst)]\n")
fault("why: the over must end the block", WHY, "reasons",
      IN_ORDER, "    return signals[-2:] == [plus, query]\n")
fault("why: an over within the block alone", WHY, "reasons",
      IN_ORDER, "    return (plus, query) in zip(signals[station.plus:],\n"
      "                                    signals[station.plus:][1:])\n")
fault("why: a shift does not cancel the over", WHY, "reasons",
      NO_BETA, "        if word not in (BETA, FIGURES, LETTERS):\n")
fault("why: figures in figures do not cancel the over", WHY, "reasons",
      NO_BETA, "        if word != BETA and (word != FIGURES or station.case == "
      "\"letters\"):\n")
fault("why: the over is not heard where D is", WHY, "reasons",
      OVER_ACCEPTED, OVER_ACCEPTED
      + "    if who_are_you(station, burst, offer):\n        return False\n")
fault("why: the over is heard where it is offered", WHY, "reasons",
      IN_ORDER, "    return (offer.kind == \"over\"\n"
      "            or (plus, query) in zip(signals, signals[1:]))\n")
fault("why: D asks in letters too", WHY, "reasons",
      ASKED_IN, "            and WHO_ARE_YOU in burst)\n")
fault("why: D asks in letters alone", WHY, "reasons",
      ASKED_IN, ASKED_IN.replace("figures", "letters"))
fault("why: D asks first alone", WHY, "reasons",
      ASKED_IN, ASKED_IN.replace("burst))", "burst)[:1])"))
fault("why: D asks where it stands last alone", WHY, "reasons",
      ASKED_IN, ASKED_IN.replace("burst))", "burst)[-1:])"))
fault("why: D does not ask where over is offered", WHY, "reasons",
      ASKED_IN, ASKED_IN[:-2] + "\n            and offer.kind != \"over\")\n")
fault("why: the case of a block is that at its end", WHY, "reasons",
      FIRST_CASE, FIRST_CASE + "    for word in burst:\n"
      "        case = {LETTERS: \"letters\", FIGURES: \"figures\"}.get(word, case)\n")
fault("why: a block begins in letters", WHY, "reasons",
      FIRST_CASE, "    case = \"letters\"\n    signals = []\n")
fault("why: a block begins in figures", WHY, "reasons",
      FIRST_CASE, "    case = \"figures\"\n    signals = []\n")
fault("why: letters do not shift", WHY, "reasons",
      "        if word == LETTERS:\n            case = \"letters\"\n", "")
fault("why: figures do not shift", WHY, "reasons",
      "        if word == FIGURES:\n            case = \"figures\"\n", "")
fault("why: any offer is an over offered", WHY, "reasons",
      OFFERED_OVER, OFFERED_OVER.replace("== \"over\"", "!= \"nothing\""))
fault("why: end is an over offered", WHY, "reasons",
      OFFERED_OVER, OFFERED_OVER.replace("== \"over\"", "in (\"over\", \"end\")"))
fault("why: a call is an over offered", "calls W", "reasons",
      OFFERED_OVER, OFFERED_OVER.replace("== \"over\"", "in (\"over\", \"call\")"))
fault("why: a text of figures + ? is an over offered", WHY, "reasons",
      OFFERED_OVER, OFFERED_OVER.replace(
          "offer.kind", "(\n        \"over\" if offer == (\"text\", (FIGURES, PLUS, QUERY))"
          " else offer.kind)"))
fault("why: an over is offered where a block is owed alone", WHY, "reasons",
      OFFERED_OVER, OFFERED_OVER[:-1] + " and station.owed is not None\n")
fault("why: no over is offered while a block is owed", "calls W", "reasons",
      OFFERED_OVER, OFFERED_OVER[:-1] + " and station.owed is None\n")

# Refusals.
JUDGED = "    refusal = refusal_of(station, offer)\n"
fault("why: nothing is refused", WHY, "reasons", JUDGED, "    refusal = None\n")
for number in (4, 3):
    fault("why: %d is not refused" % number, WHY, "reasons",
          JUDGED, JUDGED + "    if refusal is not None and refusal.number == %d:\n"
          "        refusal = None\n" % number)
for number in (8, 9):
    fault("why: %d is not refused" % number, "calls W", "reasons",
          JUDGED, JUDGED + "    if refusal is not None and refusal.number == %d:\n"
          "        refusal = None\n" % number)
fault("why: the silent places refuse nothing", WHY, "reasons",
      JUDGED, JUDGED + "    if silent(station, burst, offer):\n        refusal = None\n")
fault("why: a text is refused only where it is taken", WHY, "reasons",
      JUDGED, JUDGED + "    if (refusal is not None and refusal.number == 3\n"
      "            and station.place not in (SENDING, OPENING)):\n        refusal = None\n")
fault("why: 3 before 4", WHY, "reasons",
      JUDGED, "    refusal = refusal_of(station, offer)\n"
      "    if refusal is not None and refusal.number == 4 and offer.kind == \"text\":\n"
      "        for index, word in enumerate(offer.words):\n"
      "            if not (is_traffic(word) or word == BETA):\n"
      "                return Refused(3, index)\n")
fault("why: the index of 3 is not told", WHY, "reasons",
      JUDGED, JUDGED + "    if refusal is not None and refusal.number == 3:\n"
      "        return Refused(3, 0)\n")
# Of `refusal_of` of the station, which the step and the reason share: the order.
fault("why: 9 before 4", "calls W", "station",
      CODE_JUDGED, "", (COUNT_JUDGED, CODE_JUDGED + COUNT_JUDGED))
fault("why: 4 before 8", "calls W", "station",
      REFUSES_8, "", (COUNT_JUDGED, COUNT_JUDGED + REFUSES_8))
fault("why: 4 before 8 of a call of seven signals", "calls W", "station",
      REFUSES_8_OF_7, "", (COUNT_JUDGED, COUNT_JUDGED + REFUSES_8_OF_7))
fault("why: 3 before 9", "calls W", "station",
      CODE_JUDGED, "", (TEXT_JUDGED, TEXT_JUDGED + CODE_JUDGED))

# --- Stars (02, T-08) ---

STARRED = "stars, calls Y"

NOT_BEGUN = "    if pair is None or not receiver.printing:\n        return None\n"
BOTH_BAD = "    if not intact(dx) and not intact(rx):\n"
BOTH_GOOD = ("    if intact(dx) and intact(rx) and dx != rx and (dx, rx) != (RQ, ALPHA):\n")
IS_RX = "        if receiver.number % 2 == 0 or position not in receiver.dx:\n"
POSITION = "        position = (receiver.number - 5) // 2\n"
IN_WAIT = "    return (receiver.dx, word) if receiver.wait == 3 else None\n"
fault("stars: a star before printing has begun", STARRED, "reasons",
      NOT_BEGUN, "    if pair is None:\n        return None\n")
fault("stars: no star once printing has begun", STARRED, "reasons",
      NOT_BEGUN, NOT_BEGUN.replace("not receiver", "receiver"))
fault("stars: RQ then alpha is unlike", STARRED, "reasons",
      BOTH_GOOD, "    if intact(dx) and intact(rx) and dx != rx:\n")
fault("stars: alpha then RQ is phasing too", STARRED, "reasons",
      BOTH_GOOD, BOTH_GOOD.replace("(dx, rx) != (RQ, ALPHA)", "{dx, rx} != {RQ, ALPHA}"))
fault("stars: alpha then RQ is phasing and RQ then alpha is not", STARRED, "reasons",
      BOTH_GOOD, BOTH_GOOD.replace("(RQ, ALPHA)", "(ALPHA, RQ)"))
fault("stars: any phasing signal is none", STARRED, "reasons",
      BOTH_GOOD, BOTH_GOOD.replace("(dx, rx) != (RQ, ALPHA)", "dx != RQ and rx != ALPHA"))
fault("stars: one bad copy is bad", STARRED, "reasons",
      BOTH_BAD, "    if not intact(dx) or not intact(rx):\n")
fault("stars: a bad DX is bad", STARRED, "reasons",
      BOTH_BAD, "    if not intact(dx):\n")
fault("stars: a bad RX is bad", STARRED, "reasons",
      BOTH_BAD, "    if not intact(rx):\n")
fault("stars: two bad copies that are alike are none", STARRED, "reasons",
      BOTH_BAD, "    if not intact(dx) and not intact(rx) and dx != rx:\n")
fault("stars: two bad copies are never a star", STARRED, "reasons",
      BOTH_BAD, "    if False:\n")
fault("stars: one good copy and one bad are unlike", STARRED, "reasons",
      BOTH_GOOD, "    if dx != rx and (dx, rx) != (RQ, ALPHA):\n")
fault("stars: unlike copies are no star", STARRED, "reasons", BOTH_GOOD, "    if False:\n")
fault("stars: two like copies are a star", STARRED, "reasons",
      BOTH_GOOD, "    if intact(dx) and intact(rx) and (dx, rx) != (RQ, ALPHA):\n")
fault("stars: only traffic may be unlike", STARRED, "reasons",
      BOTH_GOOD, BOTH_GOOD.replace("dx != rx", "dx != rx and is_traffic(dx) and "
                                   "is_traffic(rx)"))
fault("stars: unlike is told as bad", STARRED, "reasons",
      "        return Star(\"unlike\", dx, rx)\n", "        return Star(\"bad\", dx, rx)\n")
fault("stars: bad is told as unlike", STARRED, "reasons",
      "        return Star(\"bad\", dx, rx)\n", "        return Star(\"unlike\", dx, rx)\n")
for name in ("bad", "unlike"):
    line = "        return Star(\"%s\", dx, rx)\n" % name
    fault("stars: the RX is told before the DX of %s copies" % name, STARRED, "reasons",
          line, line.replace("dx, rx", "rx, dx"))
fault("stars: a bad word is told without bit 7", STARRED, "reasons",
      "        return Star(\"bad\", dx, rx)\n",
      "        return Star(\"bad\", dx & 127, rx & 127)\n")
fault("stars: a bad word is told as 0", STARRED, "reasons",
      "        return Star(\"bad\", dx, rx)\n", "        return Star(\"bad\", 0, 0)\n")
fault("stars: no star behind the second alpha", STARRED, "reasons",
      IN_WAIT, "    return None\n")
fault("stars: a star at the second word of the wait", "calls Y", "reasons",
      IN_WAIT, "    return (receiver.dx, word) if receiver.wait == 2 else None\n")
fault("stars: a star at each word of the wait", "calls Y", "reasons",
      IN_WAIT, "    return (receiver.dx or 0, word)\n")
fault("stars: the DX of the next position", STARRED, "reasons",
      POSITION, POSITION.replace("- 5", "- 3"))
fault("stars: the newest DX", STARRED, "reasons", POSITION, POSITION.replace("- 5", "- 1"))
fault("stars: a DX slot settles", STARRED, "reasons",
      IS_RX, "        if position not in receiver.dx:\n",
      (POSITION, "        position = (receiver.number - 4) // 2\n"))
fault("stars: a search run over 3 is not refused", "calls Y", "reasons",
      "        refused = receiver.run > MOST_RUN\n", "        refused = False\n")
fault("stars: a search run of 3 is refused", "calls Y", "reasons",
      "        refused = receiver.run > MOST_RUN\n",
      "        refused = receiver.run >= MOST_RUN\n")
fault("stars: a wait over 3 is not refused", "calls Y", "reasons",
      "receiver.wait > MOST_WAIT\n", "receiver.wait > 255\n")
fault("stars: a wait of 3 is refused", "calls Y", "reasons",
      "receiver.wait > MOST_WAIT\n", "receiver.wait >= MOST_WAIT\n")
fault("stars: only an error is refused", "calls Y", "reasons",
      "    if refused:\n", "    if refused and not intact(word):\n")

# --- The programs why and stars, and the kinds W and X ---

BASE_READ = ("    whole[1] %= BASE_PLACES\n    whole[13] %= BASE_OFFERS\n")
fault("why: the place is the remainder by 12", "why", "programs",
      "BASE_PLACES = 8", "BASE_PLACES = 12")
fault("why: the offer is the remainder by 6", "why", "programs",
      "BASE_OFFERS = 4", "BASE_OFFERS = 6")
fault("why: a record has 16 bytes", "why", "programs",
      "BASE_RECORD = 17", "BASE_RECORD = 16")
fault("why: a record has 84 bytes", "why", "programs",
      "BASE_RECORD = 17", "BASE_RECORD = 84")
fault("why: a short last record is filled", "why", "programs",
      "    for start in range(0, len(data) - BASE_RECORD + 1, BASE_RECORD):\n"
      "        station, burst, offer = read_base_step(data[start:start + BASE_RECORD])\n",
      "    for start in range(0, len(data), BASE_RECORD):\n"
      "        station, burst, offer = read_base_step(\n"
      "            (data[start:start + BASE_RECORD] + bytes(BASE_RECORD))[:BASE_RECORD])\n")
fault("why: the last record is left out", "why", "programs",
      "    for start in range(0, len(data) - BASE_RECORD + 1, BASE_RECORD):\n",
      "    for start in range(0, len(data) - BASE_RECORD, BASE_RECORD):\n")
fault("why: the role is always a master's", "why", "programs",
      BASE_READ, BASE_READ + "    whole[0] = 0\n")
fault("why: the number is always 1", "why", "programs",
      BASE_READ, BASE_READ + "    whole[2] = 1\n")
fault("why: a refusal ends the program", "why", "programs",
      "        lines.append(reason_line(reasons.reason(station, burst, offer)))\n",
      "        lines.append(reason_line(reasons.reason(station, burst, offer)))\n"
      "        if lines[-1].startswith(\"refused\"):\n"
      "            return \"\".join(lines).encode(\"ascii\"), \"refused\"\n")
fault("why: a refusal is told without its value", WHY, "programs",
      "def reason_line(answer):\n    if isinstance(answer, Refused):\n"
      "        return \"refused %d %d\\n\" % (answer.number, answer.beside)\n",
      "def reason_line(answer):\n    if isinstance(answer, Refused):\n"
      "        return \"refused %d\\n\" % answer.number\n")
fault("why: nothing stands beside a reason", WHY, "programs",
      "(answer.name, *answer.beside)", "(answer.name,)")
fault("stars: slots are counted from 1", "stars", "programs",
      "in enumerate(read_words(data)):\n            star",
      "in enumerate(read_words(data), 1):\n            star")
fault("stars: the slot is that of the DX", "stars", "programs",
      "                lines.append(\"%d %s %d %d\\n\" % (slot, *star))\n",
      "                lines.append(\"%d %s %d %d\\n\" % (slot - 5, *star))\n")
fault("stars: lines are numbered", "stars", "programs",
      "                lines.append(\"%d %s %d %d\\n\" % (slot, *star))\n",
      "                lines.append(\"%d %s %d %d\\n\" % (len(lines), *star))\n")
fault("stars: slots are counted from the last search", "stars", "programs",
      "            receiver = broadcast.hear_word(receiver, word)[0]\n",
      "            if isinstance(receiver, broadcast.Searching):\n"
      "                first = slot\n"
      "            receiver = broadcast.hear_word(receiver, word)[0]\n",
      ("                lines.append(\"%d %s %d %d\\n\" % (slot, *star))\n",
       "                lines.append(\"%d %s %d %d\\n\" % (slot - first, *star))\n"))
fault("stars: nothing stays where a fault is", "stars", "programs",
      "        # The lines before it stay.\n        told = not_a_number(fault)\n",
      "        lines, told = [], not_a_number(fault)\n")
fault("stars: a fault is not told", "stars", "programs",
      "        # The lines before it stay.\n        told = not_a_number(fault)\n",
      "        told = None\n")
fault("stars: the receiver is fresh behind a star", "stars", "programs",
      "            receiver = broadcast.hear_word(receiver, word)[0]\n",
      "            receiver = broadcast.hear_word(receiver, word)[0]\n"
      "            if star is not None:\n"
      "                receiver = broadcast.fresh_receiver()\n")
for kind in "WY":
    fault("calls %s: no such kind" % kind, "calls %s, calls" % kind, "programs",
          "            elif kind == b\"%s\":\n" % kind,
          "            elif kind == b\"%s\" and False:\n" % kind)
    fault("calls %s: the small letter is the kind too" % kind, "calls", "programs",
          "            elif kind == b\"%s\":\n" % kind,
          "            elif kind in (b\"%s\", b\"%s\"):\n" % (kind, kind.lower()))
fault("calls W: a record has 17 bytes", "calls W, calls", "programs",
      "    return reason_line(reasons.reason(station, burst, offer)), place + RECORD\n",
      "    return reason_line(reasons.reason(station, burst, offer)), place + BASE_RECORD\n")
fault("calls W: the place is the remainder by 8", "calls W", "programs",
      "    station, burst, offer = read_step(cut(data, place, RECORD))\n",
      "    record = bytearray(cut(data, place, RECORD))\n    record[1] %= 8\n"
      "    station, burst, offer = read_step(bytes(record))\n")
fault("calls W: the offer is the remainder by 4", "calls W", "programs",
      "    station, burst, offer = read_step(cut(data, place, RECORD))\n",
      "    record = bytearray(cut(data, place, RECORD))\n    record[13] %= 4\n"
      "    station, burst, offer = read_step(bytes(record))\n")
fault("calls W: only the first 17 bytes are looked at", "calls W", "programs",
      "    station, burst, offer = read_step(cut(data, place, RECORD))\n",
      "    station, burst, offer = read_base_step(cut(data, place, RECORD)[:BASE_RECORD])\n")
fault("calls W: a record cut short is filled", "calls", "programs",
      "    station, burst, offer = read_step(cut(data, place, RECORD))\n",
      "    station, burst, offer = read_step(\n"
      "        (data[place:place + RECORD] + bytes(RECORD))[:RECORD])\n")
fault("calls Y: a record cut short is filled", "calls", "programs",
      "    fields = b\"Y\" + cut(data, place, 10)\n",
      "    fields = b\"Y\" + (data[place:place + 10] + bytes(10))[:10]\n")
fault("calls Y: none is told as an empty line", "calls Y", "programs",
      "        line = \"none\\n\"\n", "        line = \"\\n\"\n")
fault("calls Y: the DX alone is told", "calls Y", "programs",
      "        line = \"%s %d %d\\n\" % answer\n", "        line = \"%s %d\\n\" % answer[:2]\n")
fault("calls Y: a refusal ends the program", "calls Y", "programs",
      "    elif isinstance(answer, Refused):\n        line",
      "    elif isinstance(answer, Refused):\n        raise BadRecord(\"refused\")\n"
      "        line")

# --- The programs: what is told, and the status ---

ALL = "encode, print, send, receive, hear, passage, steps, why, stars, calls"
TELLING = "encode, print, send, receive, passage, stars, calls"

fault("the program's name is missing", ALL, "programs",
      "return (\"%s: %s\\n\" % (name, told))", "return (\"%s\\n\" % told)")
fault("every program is named telex", ALL, "programs",
      "return (\"%s: %s\\n\" % (name, told))", "return (\"telex: %s\\n\" % told)")
fault("a line on standard error is not ended", ALL, "programs",
      "return (\"%s: %s\\n\" % (name, told))", "return (\"%s: %s\" % (name, told))")
fault("the status is 0 where something is told", TELLING, "programs",
      "return Answer(output, error_line(name, told), TOLD)",
      "return Answer(output, error_line(name, told), DONE)")
fault("the status is 2 where something is told", TELLING, "programs",
      "return Answer(output, error_line(name, told), TOLD)",
      "return Answer(output, error_line(name, told), NOT_RUN)")
fault("the status is 1 where nothing is told", ALL, "programs",
      "return Answer(output, b\"\", DONE)", "return Answer(output, b\"\", TOLD)")
fault("words handed to a program are not looked at", ALL, "programs",
      "    if len(words) > 0:\n", "    if False:\n")
fault("an empty word is none", ALL, "programs",
      "    if len(words) > 0:\n", "    if any(words):\n")
fault("only one word is looked for", ALL, "programs",
      "    if len(words) > 0:\n", "    if len(words) == 1:\n")
fault("usage has status 1", ALL, "programs",
      "error_line(name, usage), NOT_RUN", "error_line(name, usage), TOLD")
fault("usage is told on standard output", ALL, "programs",
      "return Answer(b\"\", error_line(name, usage), NOT_RUN)",
      "return Answer(error_line(name, usage), b\"\", NOT_RUN)")
fault("usage is told behind the answer",
      "encode, print, send, receive, hear, passage, steps, why, stars, calls M", "programs",
      "return Answer(b\"\", error_line(name, usage), NOT_RUN)",
      "return Answer(PROGRAMS[name](data)[0], error_line(name, usage), NOT_RUN)")
fault("a refusal is told without its words", "encode, print, send, passage", "programs",
      "    return \"refused %d %d: %s\" % (\n        refusal.number, refusal.beside,\n"
      "        meanings[refusal.number].format(refusal.beside))",
      "    return \"refused %d %d\" % (refusal.number, refusal.beside)")
fault("the index in the words is counted from 1", "encode, print, send", "programs",
      ".format(refusal.beside)", ".format(refusal.beside + 1)")
fault("encode: the words of 5 and 1 are changed round", "encode", "programs",
      "{5: OVER_CHARACTERS, 1: NO_SIGNAL}", "{1: OVER_CHARACTERS, 5: NO_SIGNAL}")
fault("print: refusal 3 in the words of send", "print", "programs",
      "{7: OVER_SIGNALS, 3: NOT_PRINTED}", "{7: OVER_SIGNALS, 3: NOT_TRAFFIC}")
fault("send: refusal 3 in the words of print", "send", "programs",
      "{7: OVER_SIGNALS, 3: NOT_TRAFFIC}", "{7: OVER_SIGNALS, 3: NOT_PRINTED}")
fault("print and send: refusal 7 in the words of encode", "print, send",
      "programs", "OVER_SIGNALS = \"over 8192 signals\"",
      "OVER_SIGNALS = \"over 4096 characters\"")
fault("steps: a refusal ends the program", "steps", "programs",
      "        lines.append(step_line(mode_a.step(station, burst, offer)))\n",
      "        lines.append(step_line(mode_a.step(station, burst, offer)))\n"
      "        if lines[-1].startswith(\"refused\"):\n"
      "            return \"\".join(lines).encode(\"ascii\"), \"refused\"\n")


# --- Loading ---

class BadFault(Exception):
    """The fault itself is wrong: it says nothing about the inputs."""


def source_of(module):
    with open(os.path.join(HERE, module + ".py"), encoding="utf-8") as file:
        return file.read()


SOURCES = {module: source_of(module) for module in MODULES}
COMPILED = {module: compile(source, module + ".py", "exec")
            for module, source in SOURCES.items()}


def programs_with(one):
    """`run` of a second program with one fault; of none where it is None."""
    compiled = dict(COMPILED)
    # Those before the faulty one do not know of it, and need not be loaded again.
    names = MODULES
    if one is not None:
        names = MODULES[MODULES.index(one.module):]
        source = SOURCES[one.module]
        for old, new in ((one.old, one.new), *one.more):
            if source.count(old) != 1:
                raise BadFault("what it replaces is %d times in %s.py"
                               % (source.count(old), one.module))
            source = source.replace(old, new)
        compiled[one.module] = compile(source, one.module + ".py", "exec")
    kept = {name: sys.modules.get(name) for name in names}
    try:
        for name in names:
            module = types.ModuleType(name)
            sys.modules[name] = module
            exec(compiled[name], module.__dict__)
        return sys.modules["programs"].run
    finally:
        for name, module in kept.items():
            if module is None:
                del sys.modules[name]
            else:
                sys.modules[name] = module


# --- The inputs, in pieces ---

STEPS_IN_A_PIECE = 50
CALLS_IN_A_PIECE = 10


def steps_pieces(all_data):
    """Records do not know of each other, so an input may be cut between them.
    Behind the short inputs the pieces are shuffled: records of a sort stand
    together in an input, and each fault is told by few sorts."""
    size = programs.RECORD * STEPS_IN_A_PIECE
    short = [data for data in all_data if len(data) <= size]
    pieces = [data[start:start + size] for data in all_data[len(short):]
              for start in range(0, len(data), size)]
    random.Random(len(pieces)).shuffle(pieces)
    return short + pieces


def calls_by_kind(all_data):
    """The records of a kind, short ones first, in pieces: from "calls E" to
    pieces.  Under "calls" the inputs as they are."""
    records = {kind: [] for kind in inputs.KINDS.decode()}
    for data in all_data:
        for first, behind in inputs.call_records(data):
            records[chr(data[first])].append(data[first:behind])
    pieces = {"calls": all_data}
    for kind, found in records.items():
        found.sort(key=len)
        pieces["calls " + kind] = [
            b"".join(found[start:start + CALLS_IN_A_PIECE])
            for start in range(0, len(found), CALLS_IN_A_PIECE)]
    return pieces


def pieces_of(name, all_cases):
    """From teller to the pieces it is given: words and input of each."""
    all_data = sorted((case.data for case in all_cases if not case.words), key=len)
    if name == "calls":
        pieces = calls_by_kind(all_data)
    elif name == "steps":
        pieces = {name: steps_pieces(all_data)}
    else:
        pieces = {name: all_data}
    usages = [(case.words, case.data) for case in all_cases if case.words]
    return {teller: usages + [((), data) for data in found]
            for teller, found in pieces.items()}


# What has told a fault is tried first for the next one, but for inputs longer than
# this: `passage` has some that take a second.
LONG = 100000
SHORT_ONES_FIRST = 40
SHORT_TO_A_LONG_ONE = 6


def order_of(number):
    """The order in which `number` pieces are tried: short ones first, then a
    long one between every few, since some faults show only at a limit."""
    low = min(SHORT_ONES_FIRST, number)
    high = number
    order = list(range(low))
    while low < high:
        high -= 1
        order.append(high)
        few = range(low, min(low + SHORT_TO_A_LONG_ONE, high))
        order.extend(few)
        low += len(few)
    return order


# --- Telling ---

class Trial:
    """The pieces, and the unfaulted second program's answers to those that have
    been needed."""

    def __init__(self, cases_for):
        self.pieces = {}
        for name in inputs.NAMES:
            self.pieces.update(pieces_of(name, cases_for(name)))
        self.answers = {}
        # From teller to the pieces by which a fault was told: they are tried
        # first for the next one.
        self.told = {teller: [] for teller in self.pieces}

    def answer(self, teller, index):
        if (teller, index) not in self.answers:
            self.answers[teller, index] = programs.run(
                teller.split()[0], *self.pieces[teller][index])
        return self.answers[teller, index]

    def tells(self, faulty, teller):
        """Whether some piece has another answer from the faulty program.  Where
        the program ends by itself, that is none."""
        name = teller.split()[0]
        pieces = self.pieces[teller]
        told = self.told[teller]
        trouble = None
        for index in told + order_of(len(pieces)):
            try:
                given = faulty(name, *pieces[index])
            except Exception as ended:
                trouble = ended
                continue
            if given != self.answer(teller, index):
                if index not in told and len(pieces[index][1]) <= LONG:
                    told.append(index)
                    told.sort()
                return True
        if trouble is not None:
            raise trouble
        return False

    def try_fault(self, one):
        """Lines that say what is wrong; none where every teller tells it."""
        try:
            faulty = programs_with(one)
            return ["FAULT NOT TOLD by the inputs of %s: %s" % (teller, one.about)
                    for teller in one.tellers if not self.tells(faulty, teller)]
        except Exception as trouble:
            return ["BAD FAULT: %s: %s: %s"
                    % (one.about, type(trouble).__name__, trouble)]


def main(arguments):
    if arguments == ["--list"]:
        for one in FAULTS:
            print("%s (%s)" % (one.about, ", ".join(one.tellers)))
        return 0
    trial = Trial(lambda name: inputs.cases(name, inputs.GATE_SEED))
    passed = failed = 0
    for one in FAULTS:
        lines = trial.try_fault(one)
        for line in lines:
            print(line)
        passed += not lines
        failed += bool(lines)
    print("%d passed, %d failed" % (passed, failed))
    return 1 if failed else 0


if __name__ == "__main__":
    sys.exit(main(sys.argv[1:]))
