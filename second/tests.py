#!/usr/bin/env python3
"""Tests of the second program by itself: paper 01's worked examples, the
corners of its rules and of 02's, and what demand 3 asks of two stations; that
second/compare does not pass where there is nothing to compare, that its inputs
hold what they are there for, and that they tell each of the faults of
second/faults.py.  No proved program is run here; second/compare does that.

The last line is 'N passed, M failed'.  N counts one for each test and one for
each fault told."""

import importlib.machinery
import importlib.util
import os
import random
import subprocess
import sys
import tempfile
import traceback

sys.dont_write_bytecode = True

import broadcast  # noqa: E402
import faults  # noqa: E402
import inputs  # noqa: E402
import passages  # noqa: E402
import programs  # noqa: E402
import reasons  # noqa: E402
import signals  # noqa: E402
import station as mode_a  # noqa: E402
import text  # noqa: E402
from refusal import Refused  # noqa: E402
from signals import (  # noqa: E402
    ALPHA, BETA, BLANK, CARRIAGE_RETURN, CS1, CS2, CS3, CS4, CS5, FIGURES, LETTERS,
    LINE_FEED, PLUS, QUERY, RQ, SPACE)
from station import (  # noqa: E402
    ANSWERING, ASKING, CALLING, CALLING_3, ENDING, IDENTIFYING, LOST, NO_CODE,
    NO_IDENTITY, NO_SEVEN, NOTHING, OPENING, RECEIVING, SENDING, STANDBY, TURNING, Code,
    Offer, Owed, Station)

A = signals.traffic_word(1)
D = signals.traffic_word(4)
E = signals.traffic_word(5)
L = signals.traffic_word(12)

INTACT = [word for word in range(256) if signals.MEANING[word] != 0]
TRAFFIC = [word for word in INTACT if signals.is_traffic(word)]
MUTILATED = [word for word in range(256) if signals.MEANING[word] == 0]
IN_BLOCK = set(TRAFFIC + [BETA])

OVER = Offer("over", (0, 0, 0))
END = Offer("end", (0, 0, 0))


def text_offer(*words):
    return Offer("text", words)


def call_offer(*words):
    return Offer("call", words)


def at(place, number=0, held=(0, 0, 0), total=0, count=0, case="letters",
       plus=False, master=True, own=NO_IDENTITY, other_end=None, cycles=0, last=0,
       called=NO_IDENTITY, own_seven=NO_SEVEN, blocks=(), stage=0, wrong=0,
       last_wrong=0, seven=NO_SEVEN, code=NO_CODE, owed=None):
    if place in (IDENTIFYING, ANSWERING) and stage == 0:
        stage = 1
    return Station(master, place, number, held, total, count, case, plus, own,
                   other_end, cycles, last, called, own_seven, blocks, stage, wrong,
                   last_wrong, seven, code, owed)


def answer(station, *burst, offer=NOTHING):
    return mode_a.step(station, burst, offer)


def shown(result):
    """The parts of an answer that most tests look at."""
    return (result.station.place, result.station.number, result.burst,
            result.printed, result.taken, result.station.count)


RQ3 = (RQ, RQ, RQ)
TURN = (BETA, ALPHA, BETA)
SILENCE = (0, 0, 0)
PLACES = (SENDING, TURNING, OPENING, ENDING, RECEIVING, ASKING, STANDBY, LOST,
          CALLING, CALLING_3, IDENTIFYING, ANSWERING)


# --- The code ---

def code_examples():
    assert signals.MEANING[71] == 1 and signals.MEANING[86] == 5
    for word in (0, 127, 199):
        assert not signals.intact(word) and signals.MEANING[word] == 0
    assert (ALPHA, BETA, RQ, CS1, CS2, CS3) == (15, 51, 102, 101, 106, 89)


def code_all_256():
    assert len(INTACT) == 35 and len(TRAFFIC) == 32
    for word in range(256):
        assert signals.intact(word) == (signals.MEANING[word] != 0)
    assert sorted(signals.MEANING[word] for word in INTACT) == list(range(1, 36))


# --- Text ---

def encoded(case, characters, room=8192):
    lent = bytearray(b"\xaa" * room)
    result = text.encode(case, characters, lent)
    if isinstance(result, Refused):
        assert lent == b"\xaa" * room
        return result
    assert lent[result.length:] == b"\xaa" * (room - result.length)
    return list(lent[:result.length]), result.case


def printed(case, words, room=8192):
    lent = bytearray(b"\xaa" * room)
    result = text.print_signals(case, words, lent)
    if isinstance(result, Refused):
        assert lent == b"\xaa" * room
        return result
    assert lent[result.length:] == b"\xaa" * (room - result.length)
    return bytes(lent[:result.length]), result.case


def encode_examples():
    assert encoded("letters", b"A1") == ([71, 54, 46], "figures")
    assert encoded("letters", b"1 2") == ([54, 46, 92, 39], "figures")
    assert encoded("letters", b"") == ([], "letters")
    assert encoded("letters", b"A 1") == ([71, SPACE, FIGURES, 46], "figures")
    # 02, T-01: "its example "a", now 71".
    assert encoded("letters", b"a") == ([71], "letters")
    assert encoded("letters", b"A1", room=2) == Refused(2, 3)
    assert encoded("letters", b"A" * 4096)[1] == "letters"
    assert encoded("letters", b"A" * 4097) == Refused(5, 4096)


def encode_corners():
    assert encoded("letters", b"", room=0) == ([], "letters")
    assert encoded("letters", b"A1", room=3) == ([71, 54, 46], "figures")
    # 5 and 7 stand in the figure column and need figures case.
    assert encoded("letters", b"\x05") == ([FIGURES, D], "figures")
    assert encoded("figures", b"\x07")[0] == [signals.traffic_word(10)]
    # What F, G, H and the error mark print does not encode.
    assert encoded("figures", b"A#") == Refused(1, 1)
    assert encoded("figures", b"*") == Refused(1, 0)
    # 5 before 1 before 2.
    assert encoded("letters", b"{" * 4097, room=0) == Refused(5, 4096)
    assert encoded("letters", b"AA{", room=0) == Refused(1, 2)
    assert len(text.SIGNAL_OF) == 52
    # The longest answer: a shift before each of 4,096 characters.
    longest, case = encoded("letters", b"1A" * 2048)
    assert len(longest) == 8192 and case == "letters"


def print_corners():
    assert printed("letters", []) == (b"", "letters")
    assert printed("letters", [], room=0) == (b"", "letters")
    f, g, h = (signals.traffic_word(number) for number in (6, 7, 8))
    assert printed("figures", [f, g, h]) == (b"###", "figures")
    assert printed("letters", [f, g, h]) == (b"FGH", "letters")
    assert printed("letters", [255, FIGURES, 255]) == (b"**", "figures")
    # A shift of the case in force stays.
    assert printed("letters", [LETTERS, A]) == (b"A", "letters")
    assert printed("figures", [FIGURES, A]) == (b"-", "figures")
    assert printed("figures", [LETTERS, A]) == (b"A", "letters")
    assert printed("letters", [FIGURES, BLANK, LETTERS], room=0) == (b"", "letters")
    for word in (BETA, ALPHA, RQ, 0, 128, 254):
        assert printed("letters", [A, word, word]) == Refused(3, 1)
    # 7 before 3 before 2; the room is counted in bytes printed.
    assert printed("letters", [0] * 8193, room=0) == Refused(7, 8192)
    assert printed("letters", [A, 0], room=0) == Refused(3, 1)
    assert printed("letters", [A, FIGURES, A], room=1) == Refused(2, 2)
    assert printed("letters", [A] * 8192) == (b"A" * 8192, "letters")


# 01, "Text": the bytes with signals, typed once more.
HAVE_SIGNALS = b"ABCDEFGHIJKLMNOPQRSTUVWXYZ0123456789-?:().,'=/+\r\n \x05\x07"
SMALL = b"abcdefghijklmnopqrstuvwxyz"
TAKEN = HAVE_SIGNALS + SMALL


def in_capitals(characters):
    """02, T-01, without a look at the program: Python raises a to z of bytes and
    no other."""
    return bytes(characters).upper()


def text_round_trip():
    """02, T-01: "text read back is the text in capitals"."""
    draw = random.Random(1)
    for _ in range(2000):
        length = draw.randrange(60)
        original = bytes(draw.choice(TAKEN) for _ in range(length))
        case = draw.choice(("letters", "figures"))
        words, end = encoded(case, original, room=200)
        assert printed(case, words, room=200) == (in_capitals(original), end)
        # What was read back is encoded to the same signals.
        assert encoded(case, in_capitals(original)) == (words, end)
        # No shift where none is needed: never two in a row, none at the end.
        for first, second in zip(words, words[1:] + [FIGURES]):
            assert not {first, second} <= {LETTERS, FIGURES}


def each_byte_alone():
    taken = 0
    for byte in range(256):
        one = bytes([byte])
        for case in ("letters", "figures"):
            if byte not in TAKEN:
                assert encoded(case, one) == Refused(1, 0)
                assert encoded(case, one, room=0) == Refused(1, 0)
                continue
            words, end = encoded(case, one)
            assert printed(case, words) == (in_capitals(one), end)
            # A letter of either size needs letters, a figure figures.
            needed = "letters" if in_capitals(one).isalpha() else "figures"
            if byte in b"\r\n ":
                needed = case
            assert len(words) == 1 + (needed != case) and end == needed
        taken += byte in TAKEN
    assert taken == len(set(TAKEN)) == 78
    # "a to z" are 26; what stands beside them and beside the capitals is not.
    for byte in b"@[`{":
        assert encoded("letters", bytes([byte])) == Refused(1, 0)


def small_letters_as_capitals():
    """A text with small letters is answered as the text in capitals: what is
    written, the end case, the room needed, and each refusal."""
    b, z = signals.traffic_word(2), signals.traffic_word(26)
    assert encoded("letters", b"a1b") == ([A, FIGURES, 46, LETTERS, b], "letters")
    assert encoded("figures", b"z") == ([LETTERS, z], "letters")
    assert encoded("figures", b"z", room=2) == ([LETTERS, z], "letters")
    assert encoded("figures", b"z", room=1) == Refused(2, 2)
    assert encoded("figures", b" a\r1", room=0) == Refused(2, 6)
    assert encoded("figures", b"aAaA") == ([LETTERS, A, A, A, A], "letters")
    assert encoded("letters", SMALL) == encoded("letters", HAVE_SIGNALS[:26])
    draw = random.Random(7)
    told = {1: 0, 2: 0}
    for number in range(4000):
        characters = bytes(draw.choices(TAKEN if number % 2 else SMALL + b"1 ",
                                        k=draw.randrange(30)))
        if number % 4 == 0:
            characters += bytes([draw.randrange(256)]) + b"az"
        case = draw.choice(("letters", "figures"))
        whole = encoded(case, characters)
        assert whole == encoded(case, in_capitals(characters))
        needed = 5 if isinstance(whole, Refused) else len(whole[0])
        for room in {0, max(needed - 1, 0), needed, needed + 1}:
            lent = encoded(case, characters, room)
            assert lent == encoded(case, in_capitals(characters), room)
            if isinstance(lent, Refused):
                told[lent.number] += 1
            else:
                assert lent == whole
    assert told[1] > 1000 and told[2] > 1000


def small_letters_and_refusals():
    # The index is that in the text as it was typed, every character counted.
    assert encoded("letters", b"ab{") == Refused(1, 2)
    assert encoded("letters", b"Ab 1c`d{") == Refused(1, 5)
    assert encoded("figures", b"zzzzzzz\x7fz") == Refused(1, 7)
    # A letter with a mark, in Latin-1 and in UTF-8, small and capital.
    for mark in ("\u00f6", "\u00d6", "\u00e9", "\u00df"):
        for code in ("latin-1", "utf-8"):
            data = ("sch" + mark + "n").encode(code)
            assert encoded("letters", data) == Refused(1, 3)
            for byte in mark.encode(code):
                assert encoded("letters", bytes([byte])) == Refused(1, 0)
    # With the mark behind it in UTF-8, o is a letter as any other.
    assert encoded("letters", "scho\u0308n".encode("utf-8")) == Refused(1, 4)
    # 5 before 1 before 2.
    assert encoded("letters", b"a" * 4096) == ([A] * 4096, "letters")
    assert encoded("letters", b"a" * 4097) == Refused(5, 4096)
    assert encoded("letters", b"a" * 4096 + b"{", room=0) == Refused(5, 4096)
    assert encoded("letters", b"a" * 4095 + b"{", room=0) == Refused(1, 4095)
    assert encoded("letters", b"a" * 4096, room=4095) == Refused(2, 4096)
    longest, case = encoded("letters", b"1a" * 2048)
    assert len(longest) == 8192 and case == "letters"
    assert encoded("letters", b"1a" * 2048, room=8191) == Refused(2, 8192)


# --- The station ---

def sending_examples():
    block = (A, E, BETA)
    sending = at(SENDING, 1, block)
    assert shown(answer(sending, CS1, 0, 0)) == (SENDING, 1, block, (), False, 1)
    result = answer(sending, CS2, 0, 0, offer=text_offer(E, E, E))
    assert shown(result) == (SENDING, 2, (E, E, E), (), True, 0)
    assert shown(answer(sending, CS2, 0, 0))[2:] == ((BETA,) * 3, (), True, 0)
    assert shown(answer(sending, 0, 0, 0)) == (SENDING, 1, RQ3, (), False, 1)
    result = answer(sending, CS2, 0, 0, offer=OVER)
    assert result.station.held == result.burst == (FIGURES, PLUS, QUERY)
    result = answer(sending, CS2, 0, 0, offer=END)
    assert shown(result) == (ENDING, 2, (ALPHA,) * 3, (), True, 0)
    assert result.station.total == 1 and result.station.held == (0, 0, 0)


def time_out_examples():
    receiving = at(RECEIVING, 1, count=31)
    result = answer(receiving, A, E, A)
    assert shown(result) == (RECEIVING, 2, (CS2, 0, 0), (A, E, A), False, 0)
    result = answer(receiving, A, 0, A)
    assert shown(result) == (LOST, 0, (0, 0, 0), (), False, 0)
    # The case and the + are kept.
    result = answer(at(ASKING, count=31, case="figures", plus=True), A, E, A)
    assert result.station == at(LOST, case="figures", plus=True)
    # Count 31 with CS3 at Sending: confirmed, no time-out.
    sending = at(SENDING, 2, (A, A, A), count=31)
    result = answer(sending, CS3, 0, 0, offer=text_offer(E, E, E))
    assert shown(result) == (TURNING, 2, TURN, (), False, 0)
    assert answer(sending, CS2, 0, 0, offer=OVER).station == at(LOST)


def first_word_only():
    # Damage on the two zero words of CS1.
    sending = at(SENDING, 2, (A, A, A))
    clean = answer(sending, CS1, 0, 0)
    for second in (0, 77, 255, RQ, ALPHA):
        for third in (0, 1, 128, CS2):
            assert answer(sending, CS1, second, third) == clean


def over_across_blocks():
    slave = at(RECEIVING, 1, case="figures", master=False)
    heard = answer(slave, A, PLUS, BETA)
    assert heard.station.plus and heard.burst == (CS2, 0, 0)
    heard = answer(heard.station, BETA, BETA, BETA)
    assert heard.station.plus and heard.printed == ()
    heard = answer(heard.station, A, 0, QUERY)        # not accepted, no matter
    assert heard.station.plus and heard.station.count == 1
    heard = answer(heard.station, QUERY, A, A)
    assert shown(heard) == (ASKING, 0, (CS3, 0, 0), (QUERY, A, A), False, 0)


def over_cancelled():
    def over_in(*block, case="figures", plus=False):
        station = at(RECEIVING, 1, case=case, plus=plus)
        heard = answer(station, *block).station
        # D turns the direction too, and then the over alone keeps it.
        return heard.place == ASKING and heard.owed != Owed("back", 0)

    assert over_in(PLUS, QUERY, A) and over_in(PLUS, BETA, QUERY)
    assert over_in(PLUS, PLUS, QUERY) and over_in(QUERY, A, A, plus=True)
    for between in TRAFFIC:
        assert over_in(PLUS, between, QUERY) == (between in (PLUS, QUERY))
    assert not over_in(QUERY, PLUS, A)
    assert not over_in(PLUS, QUERY, A, case="letters")
    # A + heard with letters case: ? is B there and completes nothing.
    assert not over_in(QUERY, A, A, case="letters", plus=True)
    # The two steps that cancel it.
    asking = at(ASKING, case="figures", plus=True)
    opening = answer(asking, BETA, ALPHA, BETA).station
    assert opening == at(OPENING, case="figures")
    turning = at(TURNING, 1, case="figures", plus=True)
    assert answer(turning, RQ, RQ, RQ).station == at(RECEIVING, 2, case="figures")
    # Entering Asking does not cancel it.
    result = answer(at(RECEIVING, 1, case="figures"), PLUS, QUERY, PLUS)
    assert result.station == at(ASKING, case="figures", plus=True)


def over_offered():
    receiving = at(RECEIVING, 2)
    result = answer(receiving, A, A, A, offer=OVER)
    assert shown(result) == (ASKING, 0, (CS3, 0, 0), (A, A, A), True, 0)
    # At a bad block it waits.
    result = answer(receiving, A, 0, A, offer=OVER)
    assert shown(result) == (RECEIVING, 2, (CS2, 0, 0), (), False, 1)
    # With alpha alpha alpha: Stand-by, not taken.
    result = answer(receiving, ALPHA, ALPHA, ALPHA, offer=OVER)
    assert shown(result) == (STANDBY, 0, (CS1, 0, 0), (), False, 0)
    # Over heard and another offer: that offer is not taken.
    figures = at(RECEIVING, 2, case="figures")
    assert not answer(figures, PLUS, QUERY, A, offer=END).taken
    assert answer(figures, PLUS, QUERY, A, offer=OVER).taken
    # CS3 at Sending takes none, nothing included.
    for offer in (NOTHING, OVER, END, text_offer(A, A, A)):
        assert not answer(at(SENDING, 1, (A, A, A)), CS3, 0, 0, offer=offer).taken


def opening_and_ending():
    for master in (True, False):
        opening = at(OPENING, master=master)
        for number, control in ((1, CS1), (2, CS2)):
            result = answer(opening, control, 0, 0, offer=END)
            assert shown(result) == (ENDING, number, (ALPHA,) * 3, (), True, 0)
            assert result.station.total == 1
        assert shown(answer(opening, CS3, 0, 0)) == (
            STANDBY, 0, (0, 0, 0), (), False, 0)
        rq = (RQ, 0, 0) if master else RQ3
        assert shown(answer(opening, A, A, A)) == (OPENING, 0, rq, (), False, 1)
    for heard in (CS1, CS3, 0, RQ):
        station = at(ENDING, 1, total=1)
        for total in (2, 3, 4):
            result = answer(station, heard, 0, 0)
            assert result.burst == (ALPHA,) * 3
            assert result.station == at(ENDING, 1, total=total)
            station = result.station
        assert answer(station, heard, 0, 0) == mode_a.Answer(
            at(STANDBY), (0, 0, 0), (), False)
    assert answer(at(ENDING, 1, total=1, count=31), CS2, 0, 0).station == at(STANDBY)


def turning_by_role():
    for master in (True, False):
        turning = at(TURNING, 1, master=master)
        assert answer(turning, *RQ3).station.place == RECEIVING
        assert answer(turning, *RQ3).burst == (CS2, 0, 0)
        assert answer(turning, CS3, 1, 2).burst == TURN
        assert answer(turning, A, RQ, RQ).burst == RQ3
        single = answer(turning, RQ, 0, 0)
        assert (single.station.place == RECEIVING) == (not master)


def station_refusals():
    bad = text_offer(A, RQ, 0)
    for place in PLACES:
        station = at(place, 1, (A, A, A) if place == SENDING else (0, 0, 0),
                     total=1)
        assert answer(station, A, A, A, offer=bad) == Refused(3, 1)
        over = station._replace(count=32)
        assert answer(over, A, A, A, offer=bad) == Refused(4, 0)
        assert not isinstance(answer(station._replace(count=31), A, A, A), Refused)
    for total in (0, 5, 255):
        assert answer(at(ENDING, 1, total=total), A, A, A, offer=bad) == Refused(4, 0)
    for word in (RQ, ALPHA, 0, 199):
        assert answer(at(SENDING, 1, (A, A, word)), CS1, 0, 0) == Refused(4, 0)
    # On the 32nd repetition too.
    assert answer(at(ASKING, count=31), 0, 0, 0, offer=bad) == Refused(3, 1)


def errors_that_look_right():
    # Two equal blocks in succession are two blocks.
    first = answer(at(RECEIVING, 1), A, A, A)
    second = answer(first.station, A, A, A)
    assert first.printed == second.printed == (A, A, A)
    assert second.station.number == 1
    # L inside a text block is not CS1.
    assert answer(at(RECEIVING, 1), L, A, A).printed == (L, A, A)
    # Beta is no text and does not cancel the over.
    assert answer(at(RECEIVING, 1), BETA, A, BETA).printed == (A,)


def rows_and_kinds():
    """Each place against each kind of burst, written out a second time as a
    table (docs/DECISIONS.md, kinds of burst)."""
    seconds = [0, A, BETA, ALPHA, RQ, CS2, 128 + A]
    for first in range(256):
        for second in seconds:
            for third in seconds:
                check_kinds((first, second, third))


def check_kinds(burst):
    first = burst[0]
    block = all(word in TRAFFIC or word == BETA for word in burst)
    asked = {CS1: 1, CS2: 2}.get(first, 0)
    for master in (True, False):
        for n in (1, 2):
            control = {1: (CS1, 0, 0), 2: (CS2, 0, 0)}
            rq = (RQ, 0, 0) if master else RQ3

            sent = answer(at(SENDING, n, (E, E, E), master=master), *burst)
            if asked == n:
                expected = (SENDING, n, (E, E, E))
            elif asked:
                expected = (SENDING, 3 - n, (BETA,) * 3)
            else:
                expected = (TURNING, n, TURN) if first == CS3 else (SENDING, n, RQ3)
            assert shown(sent)[:3] == expected

            turned = answer(at(TURNING, n, master=master), *burst)
            if burst == RQ3 or (first == RQ and not master):
                expected = (RECEIVING, 3 - n, control[3 - n])
            else:
                expected = (TURNING, n, TURN if first == CS3 else RQ3)
            assert shown(turned)[:3] == expected

            opened = answer(at(OPENING, master=master), *burst)
            if asked:
                expected = (SENDING, asked, (BETA,) * 3)
            else:
                expected = ((STANDBY, 0, (0, 0, 0)) if first == CS3
                            else (OPENING, 0, rq))
            assert shown(opened)[:3] == expected

            ended = answer(at(ENDING, n, total=3, master=master), *burst)
            expected = ((STANDBY, 0, (0, 0, 0)) if asked == 3 - n
                        else (ENDING, n, (ALPHA,) * 3))
            assert shown(ended)[:3] == expected

            received = answer(at(RECEIVING, n, master=master), *burst)
            if block:
                expected = (RECEIVING, 3 - n, control[3 - n])
            elif burst == (ALPHA,) * 3:
                expected = (STANDBY, 0, control[3 - n])
            else:
                expected = (RECEIVING, n, control[n])
            assert shown(received)[:3] == expected
            assert (received.printed != ()) == (
                block and burst != (BETA, BETA, BETA))

        asked_for = answer(at(ASKING, master=master), *burst)
        expected = ((OPENING, 0, rq) if burst == TURN
                    else (ASKING, 0, (CS3, 0, 0)))
        assert shown(asked_for)[:3] == expected
        for place in (STANDBY, LOST):
            assert answer(at(place, count=7), *burst, offer=END) == mode_a.Answer(
                at(place), (0, 0, 0), (), False)
    # Three words of these are enough for the rows of calls.
    if {burst[1], burst[2]} <= {0, A, RQ}:
        check_call_kinds(burst, asked)


def check_call_kinds(burst, asked):
    """The rows of 02, T-02.  The own call blocks are E RQ A and E A RQ."""
    own = (E, A, E, A)
    heard = {(E, RQ, A): 1, (E, A, RQ): 2}.get(burst, 0)
    for last in (0, 1, 2):
        stood = answer(at(STANDBY, own=own, cycles=3, last=last), *burst)
        if heard and last == 3 - heard:
            assert stood == mode_a.Answer(
                at(RECEIVING, 1, master=False, own=own), (CS1, 0, 0), (), False)
        else:
            assert stood == mode_a.Answer(
                at(STANDBY, own=own, cycles=2, last=heard), SILENCE, (), False)
        called = answer(at(CALLING, called=own, cycles=3, last=last), *burst)
        if asked and last == asked:
            expected = (SENDING, asked, (BETA,) * 3)
        else:
            expected = ((STANDBY, 0, SILENCE) if burst[0] == CS3
                        else (CALLING, 0, (E, A, RQ)))
        assert shown(called)[:3] == expected
        if expected[0] == CALLING:
            assert called.station == at(CALLING, called=own, cycles=4, last=asked)


# --- Calls (02, T-02) ---

def spelt(letters):
    """The words of capitals."""
    return tuple(signals.traffic_word(1 + "ABCDEFGHIJKLMNOPQRSTUVWXYZ".index(one))
                 for one in letters)


OWN, FAR = spelt("VICT"), spelt("QRST")
OWN_1, OWN_2 = (OWN[0], RQ, OWN[1]), (OWN[2], OWN[3], RQ)
FAR_1, FAR_2 = (FAR[0], RQ, FAR[1]), (FAR[2], FAR[3], RQ)
# 001, table 3b: the letters in the order of their numbers.
TABLE_3B = "VXQKMPCYFSTBUEOIRZDA"


def stood(*bursts, station=None, offer=NOTHING):
    """The last answer of a station that stands by and hears these one after
    another; the answers before it are silent."""
    station = station or mode_a.standing_by(OWN)
    for burst in bursts[:-1]:
        result = answer(station, *burst, offer=offer)
        assert (result.station.place, result.burst, result.printed,
                result.taken) == (STANDBY, SILENCE, (), False)
        station = result.station
    return answer(station, *bursts[-1], offer=offer)


def is_answered(*bursts, station=None):
    result = stood(*bursts, station=station)
    assert result.station.place in (STANDBY, RECEIVING)
    return result.station.place == RECEIVING


def table_three_a():
    assert sorted(TABLE_3B) == list(signals.IDENTITY_LETTERS)
    within = set(spelt(TABLE_3B))
    assert len(within) == 20 == len(signals.IDENTITY_SIGNALS)
    for word in range(256):
        assert signals.is_identity_signal(word) == (word in within)
    # "Letters outside are G, H, J, L, N and W", and all that is no letter: so no
    # control or service signal.
    assert set(TRAFFIC) - within == set(spelt("GHJLNW")) | {
        CARRIAGE_RETURN, LINE_FEED, LETTERS, FIGURES, SPACE, BLANK}
    assert not within & {CS1, CS2, CS3, RQ, ALPHA, BETA}


def standing_by_or_refused():
    assert mode_a.standing_by(OWN) == at(STANDBY, master=False, own=OWN)
    for word in range(256):
        for index in range(4):
            words = list(OWN)
            words[index] = word
            result = mode_a.standing_by(words)
            if word in spelt(TABLE_3B):
                assert result == at(STANDBY, master=False, own=tuple(words))
            else:
                assert result == Refused(8, index)
                # "the index of the first"
                words[3] = 0
                assert mode_a.standing_by(words) == Refused(8, index)
    assert mode_a.standing_by(NO_IDENTITY) == Refused(8, 0)
    # 01's fresh stations have none, and know nobody.
    for fresh in (mode_a.fresh_master(), mode_a.fresh_slave()):
        assert fresh.own == NO_IDENTITY and fresh.other_end is None


def call_heard():
    """02: "The slave answers CS1 after both blocks in succession"."""
    answered = mode_a.Answer(at(RECEIVING, 1, master=False, own=OWN),
                             (CS1, 0, 0), (), False)
    # In either order.
    assert stood(OWN_1, OWN_2) == stood(OWN_2, OWN_1) == answered
    # The same block twice leaves it heard once.
    assert stood(OWN_1, OWN_1).station == at(STANDBY, master=False, own=OWN, last=1)
    assert stood(OWN_2, OWN_2).station == at(STANDBY, master=False, own=OWN, last=2)
    assert stood(OWN_1, OWN_1, OWN_1, OWN_2) == answered
    assert stood(OWN_2, OWN_2, OWN_1) == answered
    # Anything between starts over, damaged or not.
    damaged = (OWN_1[0], RQ, 0)
    for between in (SILENCE, (A, A, A), RQ3, (CS1, 0, 0), damaged, FAR_1, FAR_2,
                    (RQ, OWN[2], OWN[3])):
        for one, two in ((OWN_1, OWN_2), (OWN_2, OWN_1)):
            assert not is_answered(one, between, two)
            assert is_answered(one, between, two, one)
            assert is_answered(between, one, two)
    # A block is heard where all three words are right.
    for block, first in ((OWN_2, OWN_1), (OWN_1, OWN_2)):
        for index in range(3):
            for word in range(256):
                heard = list(block)
                heard[index] = word
                assert is_answered(first, heard) == (tuple(heard) == block)
    # Whatever was left from before is gone: role, case, +, count, the other end,
    # the wait.
    for last, burst in ((1, OWN_2), (2, OWN_1)):
        for offer in (NOTHING, OVER, END, text_offer(A, A, A), call_offer(*FAR)):
            for wait in (0, 1, 128, 255):
                station = at(STANDBY, own=OWN, last=last, cycles=wait, count=31,
                             case="figures", plus=True, other_end=FAR)
                assert answer(station, *burst, offer=offer) == answered
    # One's own block behind no block.
    assert not is_answered(OWN_1) and not is_answered(OWN_2)
    # Two letters alike in all places are a call as any other.
    alike = spelt("AAAA")
    station = mode_a.standing_by(alike)
    assert is_answered((A, RQ, A), (A, A, RQ), station=station)
    assert is_answered((A, A, RQ), (A, RQ, A), station=station)
    assert not is_answered((A, RQ, A), (A, RQ, A), station=station)


def no_identity_hears_no_call():
    for word in range(256):
        for index in range(4):
            own = list(OWN)
            own[index] = word
            one, two = (own[0], RQ, own[1]), (own[2], own[3], RQ)
            for last, burst in ((1, two), (2, one)):
                station = at(STANDBY, own=tuple(own), last=last)
                result = answer(station, *burst)
                if word in spelt(TABLE_3B):
                    assert result.station.place == RECEIVING
                else:
                    assert result == mode_a.Answer(
                        station._replace(last=0), SILENCE, (), False)
    # Zeros hear nothing; nor does one that would have two equal blocks.
    for own in (NO_IDENTITY, (A, RQ, A, RQ)):
        for number in (1, 2):
            for last in (0, 1, 2):
                block = ((own[0], RQ, own[1]), (own[2], own[3], RQ))[number - 1]
                result = answer(at(STANDBY, own=own, last=last), *block)
                assert result.station == at(STANDBY, own=own)
    # It may place a call.
    result = answer(at(STANDBY), *SILENCE, offer=call_offer(*FAR))
    assert result.station.place == CALLING and result.burst == FAR_1


def call_placed():
    placed = mode_a.Answer(at(CALLING, own=OWN, called=FAR, cycles=1), FAR_1, (),
                           True)
    offer = call_offer(*FAR)
    for burst in (SILENCE, (A, A, A), (CS1, 0, 0), (CS2, 0, 0), (CS3, 0, 0), OWN_1,
                  OWN_2, RQ3):
        for master in (True, False):
            station = at(STANDBY, own=OWN, master=master, case="figures", plus=True,
                         count=31, other_end=OWN)
            assert answer(station, *burst, offer=offer) == placed
            # A call half heard is not waited for.
            last = {OWN_1: 1, OWN_2: 2}.get(burst, 1)
            assert answer(station._replace(last=last), *burst, offer=offer) == placed
    # Other offers are not taken.
    for other in (NOTHING, OVER, END, text_offer(A, A, A)):
        station = at(STANDBY, own=OWN)
        assert answer(station, *SILENCE, offer=other) == mode_a.Answer(
            station, SILENCE, (), False)
    # It may call itself, or whom it called before; nothing bars that.
    assert answer(at(STANDBY, own=OWN), *SILENCE, offer=call_offer(*OWN)).taken


def calls_in_turn():
    """02: "sends call blocks 1 and 2 in turn for at most 128 cycles"."""
    for noise in ((0, 0, 0), (A, E, A), RQ3, (ALPHA,) * 3, (128 + CS1, 0, 0)):
        station = answer(mode_a.standing_by(OWN), *SILENCE,
                         offer=call_offer(*FAR)).station
        sent = [FAR_1]
        while True:
            result = answer(station, *noise, offer=text_offer(A, A, A))
            assert not result.taken and result.printed == ()
            assert result.station.count == 0
            station = result.station
            if station.place != CALLING:
                break
            sent.append(result.burst)
            assert station == at(CALLING, own=OWN, called=FAR, cycles=len(sent))
        assert sent == [FAR_1, FAR_2] * 64
        assert result.burst == SILENCE
        assert station == at(STANDBY, own=OWN, cycles=128)


def answer_to_the_last():
    for number, control in ((1, CS1), (2, CS2)):
        # The step behind the 128th burst still hears its answer.
        last = at(CALLING, called=FAR, cycles=128, last=number)
        result = answer(last, control, 0, 0, offer=text_offer(E, E, E))
        assert shown(result) == (SENDING, number, (E, E, E), (), True, 0)
        # One answer, or two that differ, are too few then.
        for one in (0, 3 - number):
            result = answer(last._replace(last=one), control, 0, 0)
            assert result.station == at(STANDBY, cycles=128)
        # With 127 sent the 128th goes out, and the next step may complete.
        result = answer(last._replace(cycles=127, last=0), control, 0, 0)
        assert result.station == last and result.burst == FAR_2
        assert answer(last._replace(cycles=126, last=0), control, 0, 0).burst == FAR_1


def two_alike_in_succession():
    """02: "goes on to traffic on two successive identical CS1 or CS2"."""
    def heard(*firsts, sent=1):
        """How many steps until it goes on, and under which number."""
        station = at(CALLING, called=FAR, cycles=sent)
        for number, first in enumerate(firsts):
            station = answer(station, first, 77, 255).station
            if station.place == SENDING:
                return number + 1, station.number
        return None

    assert heard(CS1, CS1) == (2, 1) and heard(CS2, CS2) == (2, 2)
    assert heard(CS1, CS2, CS1, CS1) == (4, 1)
    assert heard(CS2, CS1, CS2, CS2) == (4, 2)
    assert heard(CS1, CS2, CS1, CS2) is None
    for between in (0, A, RQ, ALPHA, BETA, 128 + CS1, 255):
        for control in (CS1, CS2):
            assert heard(control, between, control) is None
            assert heard(control, between, control, control)[0] == 4
    # What the placing step heard does not count.
    station = at(STANDBY)
    for control in (CS1, CS2):
        station = answer(at(STANDBY), control, 0, 0, offer=call_offer(*FAR)).station
        assert station.last == 0
        assert answer(station, control, 0, 0).station.place == CALLING


def calling_hears_cs3():
    for last in (0, 1, 2):
        for sent in (1, 2, 127, 128):
            for rest in ((0, 0), (A, 255)):
                station = at(CALLING, called=FAR, cycles=sent, last=last, own=OWN,
                             case="figures", plus=True, count=5, other_end=FAR)
                result = answer(station, CS3, *rest, offer=call_offer(*FAR))
                assert result == mode_a.Answer(
                    at(STANDBY, own=OWN, cycles=128, case="figures", plus=True),
                    SILENCE, (), False)


def wait_of_128():
    """Not in the 128th step behind the one that goes to Stand-by, in the 129th;
    whatever identity is offered."""
    for called in (FAR, spelt("AAAA")):
        station = answer(at(CALLING, called=FAR, cycles=9), CS3, 0, 0).station
        for number in range(1, 129):
            result = answer(station, *SILENCE, offer=call_offer(*called))
            assert not result.taken and result.burst == SILENCE
            station = result.station
            assert station == at(STANDBY, cycles=128 - number)
        result = answer(station, *SILENCE, offer=call_offer(*called))
        assert result.taken and result.station.place == CALLING
    # Meanwhile calls are answered, and the wait is gone with that.
    waiting = at(STANDBY, own=OWN, cycles=128)
    answered = stood(OWN_1, OWN_2, station=waiting, offer=call_offer(*FAR))
    assert answered.station == at(RECEIVING, 1, master=False, own=OWN)
    assert not answered.taken
    # No other way into Stand-by has one.
    for station, burst in (
            (at(OPENING), (CS3, 0, 0)), (at(ENDING, 1, total=1), (CS2, 0, 0)),
            (at(ENDING, 1, total=4), SILENCE), (at(RECEIVING, 1), (ALPHA,) * 3)):
        station = station._replace(own=OWN, other_end=FAR, case="figures", plus=True)
        left = answer(station, *burst).station
        assert left == at(STANDBY, own=OWN, case="figures", plus=True)
        assert answer(left, *SILENCE, offer=call_offer(*FAR)).taken


def offer_at_completion():
    """The offer of the very step is taken, as at Opening."""
    for number, control in ((1, CS1), (2, CS2)):
        for master in (True, False):
            # A slave at Calling comes from no step.
            station = at(CALLING, called=FAR, cycles=7, last=number, own=OWN,
                         master=master)
            sending = at(SENDING, number, own=OWN, other_end=FAR, master=master)
            for offer, block, taken in (
                    (text_offer(A, E, BETA), (A, E, BETA), True),
                    (NOTHING, (BETA,) * 3, True),
                    (OVER, (FIGURES, PLUS, QUERY), True),
                    (call_offer(*OWN), (BETA,) * 3, False)):
                assert answer(station, control, 0, 0, offer=offer) == mode_a.Answer(
                    sending._replace(held=block), block, (), taken)
            ending = at(ENDING, number, total=1, own=OWN, other_end=FAR,
                        master=master)
            assert answer(station, control, 0, 0, offer=END) == mode_a.Answer(
                ending, (ALPHA,) * 3, (), True)


def call_offered_elsewhere():
    """It is taken at Stand-by alone.  Where a row takes, it gives beta beta beta
    as nothing does."""
    offer = call_offer(*FAR)
    for number in (1, 2):
        confirming = (CS2, CS1)[number - 1]
        result = answer(at(SENDING, number, (A, A, A), count=31), confirming, 0, 0,
                        offer=offer)
        assert shown(result) == (SENDING, 3 - number, (BETA,) * 3, (), False, 0)
        assert result.station.held == (BETA,) * 3
        result = answer(at(OPENING), (CS1, CS2)[number - 1], 0, 0, offer=offer)
        assert shown(result) == (SENDING, number, (BETA,) * 3, (), False, 0)
    # Everywhere else as if nothing were offered, but that it is not taken.
    for place in PLACES:
        for first in INTACT + [0, 255]:
            for rest in ((0, 0), (first, first), (A, A), (ALPHA, BETA)):
                for last in (0, 1, 2):
                    station = at(place, 1, (A, A, A), total=2, called=FAR,
                                 cycles=3, last=last, own=OWN)
                    assert answer(station, first, *rest, offer=offer) == answer(
                        station, first, *rest)._replace(taken=False)
                    if place not in (CALLING, STANDBY):
                        break


def refusal_eight():
    """02: "8, an identity signal outside table 3a, checked before all others at
    the call".  At every place, and before 4."""
    within = spelt(TABLE_3B)
    for place in PLACES:
        good = at(place, 1, (A, A, A), total=1, called=FAR, cycles=1, own=OWN)
        unsound = [good._replace(count=32)]
        if place == ENDING:
            unsound += [good._replace(total=total) for total in (0, 5)]
        if place == SENDING:
            unsound += [good._replace(held=(A, word, A)) for word in (RQ, 0)]
        for index in range(4):
            for word in [one for one in INTACT if one not in within] + [0, 128 + A]:
                words = list(FAR)
                words[index] = word
                for burst in (SILENCE, (CS1, 0, 0), OWN_1):
                    for station in [good] + unsound:
                        assert answer(station, *burst, offer=call_offer(*words)) == (
                            Refused(8, index))
        # The first of several.
        assert answer(good, *SILENCE, offer=call_offer(A, 0, A, RQ)) == Refused(8, 1)
        # A good call: 4 is told then.
        for station in unsound:
            assert answer(station, *SILENCE, offer=call_offer(*FAR)) == Refused(4, 0)
    # During the wait, on the 32nd repetition, and where a call is heard.
    bad = call_offer(A, A, A, CS1)
    assert answer(at(STANDBY, cycles=5), *SILENCE, offer=bad) == Refused(8, 3)
    assert answer(at(ASKING, count=31), *SILENCE, offer=bad) == Refused(8, 3)
    assert answer(at(STANDBY, own=OWN, last=1), *OWN_2, offer=bad) == Refused(8, 3)
    # A text offer is judged for 3, whatever its words would be as an identity.
    assert answer(at(STANDBY), *SILENCE, offer=text_offer(A, L, RQ)) == Refused(3, 2)


def counters_beyond_limits():
    # More than 128 call bursts count as 128.
    for sent in range(256):
        station = at(CALLING, called=FAR, cycles=sent, last=1)
        assert answer(station, CS1, 0, 0).station.place == SENDING
        result = answer(station, *SILENCE)
        if sent >= 128:
            assert result == mode_a.Answer(at(STANDBY, cycles=128), SILENCE, (), False)
        else:
            assert result.station == at(CALLING, called=FAR, cycles=sent + 1)
            assert result.burst == (FAR_1 if sent % 2 == 0 else FAR_2)
    # A wait of any size runs down by one a step.
    for wait in range(256):
        result = answer(at(STANDBY, cycles=wait), *SILENCE)
        assert result.station == at(STANDBY, cycles=max(wait - 1, 0))
        placed = answer(at(STANDBY, cycles=wait), *SILENCE, offer=call_offer(*FAR))
        assert placed.taken == (wait == 0)


def call_fields_that_contradict():
    # No refusal concerns the identity called, the own one, or who is at the
    # other end; a count at Calling is set to 0, as by every step there.
    wrong = (0, RQ, CS1, 255)
    station = at(CALLING, called=wrong, cycles=4, own=wrong, other_end=OWN, count=31,
                 case="figures", plus=True)
    result = answer(station, *SILENCE)
    assert result == mode_a.Answer(
        station._replace(cycles=5, count=0), (0, RQ, RQ), (), False)
    result = answer(result.station, *SILENCE)
    assert result.burst == (CS1, 255, RQ)
    result = answer(result.station._replace(last=2), CS2, 0, 0)
    assert result.station == at(SENDING, 2, (BETA,) * 3, own=wrong, other_end=wrong,
                                case="figures", plus=True)
    # Somebody at the other end of a station that stays at Stand-by: it stays so.
    station = at(STANDBY, own=OWN, other_end=FAR, case="figures", plus=True, count=9)
    assert answer(station, *OWN_1).station == station._replace(last=1, count=0)


def identities_kept():
    """No step changes the own identity; who is at the other end stays until
    Stand-by is entered, or a call is answered, placed or completed."""
    draw = random.Random(8)
    for _ in range(4000):
        place = draw.choice(PLACES[:9])
        station = at(place, draw.choice((1, 2)), (A, E, A), total=draw.randint(1, 4),
                     count=draw.choice((0, 31)), own=draw.choice((OWN, FAR)),
                     other_end=draw.choice((None, FAR)), called=OWN,
                     cycles=draw.choice((0, 5, 128)), last=draw.randrange(3),
                     master=draw.random() < 0.5)
        burst = draw.choice((SILENCE, (CS1, 0, 0), (CS2, 0, 0), (CS3, 0, 0), RQ3,
                             TURN, (ALPHA,) * 3, (A, E, A), OWN_1, OWN_2))
        offer = draw.choice((NOTHING, END, OVER, call_offer(*OWN)))
        after = answer(station, *burst, offer=offer).station
        assert after.own == station.own
        if after.place == place or place not in (STANDBY, CALLING) and (
                after.place != STANDBY):
            assert after.other_end == station.other_end
        elif place == CALLING and after.place != STANDBY:
            assert after.other_end == OWN
        else:
            assert after.other_end is None
        # A role is given where a call is answered or placed.
        if place != STANDBY or after.place == STANDBY:
            assert after.master == station.master


def whole_call():
    """A call between two stations with damage, then traffic, a turn, the end and
    a call the other way."""
    first, second = mode_a.standing_by(OWN), mode_a.standing_by(FAR)
    on_the_way = SILENCE

    def step_of(station, expected, offer=NOTHING, heard=None, taken=False,
                printed=()):
        """Hears what is on the way, or what damage makes of it."""
        nonlocal on_the_way
        result = answer(station, *(on_the_way if heard is None else heard),
                        offer=offer)
        assert result.burst == expected, result
        assert (result.taken, result.printed) == (taken, printed)
        on_the_way = result.burst
        return result.station

    first = step_of(first, FAR_1, offer=call_offer(*FAR), taken=True)
    second = step_of(second, SILENCE)
    first = step_of(first, FAR_2)
    second = step_of(second, SILENCE, heard=(FAR_2[0], 0, RQ))
    first = step_of(first, FAR_1)
    second = step_of(second, SILENCE)
    first = step_of(first, FAR_2)
    second = step_of(second, (CS1, 0, 0))
    assert second == at(RECEIVING, 1, master=False, own=FAR)
    first = step_of(first, FAR_1)
    second = step_of(second, (CS1, 0, 0))
    first = step_of(first, FAR_2, heard=SILENCE)
    second = step_of(second, (CS1, 0, 0))
    first = step_of(first, FAR_1, offer=text_offer(E, E, E))
    second = step_of(second, (CS1, 0, 0))
    assert second.count == 3 and first.cycles == 7
    first = step_of(first, (A, E, A), offer=text_offer(A, E, A), taken=True)
    assert first == at(SENDING, 1, (A, E, A), own=OWN, other_end=FAR)
    second = step_of(second, (CS1, 0, 0), heard=(A, 0, A))
    first = step_of(first, (A, E, A), offer=OVER)
    second = step_of(second, (CS2, 0, 0), printed=(A, E, A))
    over = (FIGURES, PLUS, QUERY)
    first = step_of(first, over, offer=OVER, taken=True)
    second = step_of(second, (CS3, 0, 0), printed=over)
    first = step_of(first, TURN, offer=call_offer(*FAR))
    second = step_of(second, RQ3)
    first = step_of(first, (CS1, 0, 0))
    second = step_of(second, (E, E, E), offer=text_offer(E, E, E), taken=True)
    first = step_of(first, (CS2, 0, 0), printed=(E, E, E))
    second = step_of(second, (ALPHA,) * 3, offer=END, taken=True)
    assert first.other_end == FAR and second.other_end is None
    first = step_of(first, (CS1, 0, 0), offer=call_offer(*FAR))
    assert first == at(STANDBY, own=OWN)
    second = step_of(second, SILENCE)
    assert second == at(STANDBY, own=FAR, case="figures", master=False)
    # The other way; the first, a master until then, becomes the slave.
    second = step_of(second, OWN_1, offer=call_offer(*OWN), taken=True)
    first = step_of(first, SILENCE)
    second = step_of(second, OWN_2)
    first = step_of(first, (CS1, 0, 0))
    second = step_of(second, OWN_1)
    first = step_of(first, (CS1, 0, 0))
    second = step_of(second, (BETA,) * 3, taken=True)
    assert second == at(SENDING, 1, (BETA,) * 3, own=FAR, other_end=OWN)
    assert first == at(RECEIVING, 1, master=False, own=OWN, count=1)


# --- Three-block calls and identification (02, T-05) ---

# The two identities of a station, and those of the one that it calls.
OWN_7, FAR_7 = spelt("PEARDBY"), spelt("KQVZRSE")
# 001, table 3a, as it stands there.
TABLE_3A = {"A": 19, "B": 11, "C": 6, "D": 18, "E": 13, "F": 8, "I": 15, "K": 3,
            "M": 4, "O": 14, "P": 5, "Q": 2, "R": 16, "S": 9, "T": 10, "U": 12,
            "V": 0, "X": 1, "Y": 7, "Z": 17}
LETTERS_3A = spelt(TABLE_3B)


def calls_of(identity):
    """The three call blocks of an identity."""
    one, two, three, four, five, six, seven = identity
    return {1: (one, RQ, two), 2: (RQ, three, four), 3: (five, six, seven)}


def tells(identity):
    """The blocks of the four stages of identification."""
    one, two, three, four, five, six, seven = identity
    return {1: (one, ALPHA, two), 2: (ALPHA, three, four), 3: (five, six, seven),
            4: RQ3}


def sums(letters):
    """The three check-sums of seven letters, by adding up."""
    numbers = [TABLE_3A[letter] for letter in letters]
    return "".join(TABLE_3B[(numbers[i] + numbers[i + 1] + numbers[i + 2]) % 20]
                   for i in (0, 2, 4))


CALLS_OWN, CALLS_FAR = calls_of(OWN_7), calls_of(FAR_7)
TELLS_OWN, TELLS_FAR = tells(OWN_7), tells(FAR_7)
# "P E A R D B Y gives Z E R", and figure 3.
SUMS_OWN, SUMS_FAR = dict(zip((1, 2, 3), spelt("ZER"))), dict(zip((1, 2, 3), spelt("PED")))


def ready(identity=OWN, seven=OWN_7):
    return mode_a.standing_by_both(identity, seven)


def offer_of_seven(words):
    return Offer("call of seven", tuple(words))


GOOD_OFFERS = (NOTHING, OVER, END, text_offer(A, E, A), call_offer(*FAR),
               offer_of_seven(FAR_7))


def check_sums():
    """001, 2.5."""
    assert [mode_a.check_sum(OWN_7, n) for n in (1, 2, 3)] == list(spelt("ZER"))
    assert [mode_a.check_sum(FAR_7, n) for n in (1, 2, 3)] == list(spelt("PED"))
    assert sums("PEARDBY") == "ZER" and sums("KQVZRSE") == "PED"
    # Table 3b is table 3a read the other way.
    for letter, number in TABLE_3A.items():
        assert TABLE_3B[number] == letter
        assert signals.NUMBER_OF_WORD[spelt(letter)[0]] == number
    assert signals.CHECK_SUM_SIGNALS == list(LETTERS_3A)
    for word in range(256):
        assert signals.is_check_sum_signal(word) == signals.is_identity_signal(word)
    draw = random.Random(20)
    for _ in range(2000):
        letters = draw.choices(TABLE_3B, k=7)
        words = spelt(letters)
        assert tuple(mode_a.check_sum(words, n) for n in (1, 2, 3)) == spelt(sums(letters))
        # One letter put for another is always seen by one of the three; of two
        # exchanged, none sees the first with the second, or the last two.
        index = draw.randrange(7)
        other = list(letters)
        other[index] = draw.choice([one for one in TABLE_3B if one != letters[index]])
        assert sums(other) != sums(letters)
        one, two, *rest = letters
        assert sums([two, one] + rest) == sums(letters)
        assert sums(letters[:5] + letters[:4:-1]) == sums(letters)
    # A word that is not in table 3a counts 0.
    for word in range(256):
        if word not in LETTERS_3A:
            words = (word,) + OWN_7[1:4] + (word, word) + OWN_7[6:]
            assert [mode_a.check_sum(words, n) for n in (1, 2, 3)] == list(spelt(
                TABLE_3B[(13 + 19) % 20] + TABLE_3B[(19 + 16) % 20] + TABLE_3B[7]))
    assert mode_a.check_sum(NO_SEVEN, 2) == spelt("V")[0]


def standing_by_both_or_refused():
    stands = at(STANDBY, master=False, own=OWN, own_seven=OWN_7)
    assert mode_a.standing_by_both(OWN, OWN_7) == stands
    assert mode_a.standing_by(OWN).own_seven == NO_SEVEN
    for fresh in (mode_a.fresh_master(), mode_a.fresh_slave()):
        assert fresh.own_seven == NO_SEVEN and fresh.blocks == ()
    for word in range(256):
        for index in range(11):
            words = list(OWN + OWN_7)
            words[index] = word
            result = mode_a.standing_by_both(words[:4], words[4:])
            if word in LETTERS_3A:
                assert result == at(STANDBY, master=False, own=tuple(words[:4]),
                                    own_seven=tuple(words[4:]))
            else:
                assert result == Refused(8, index)
                words[10] = 0
                assert mode_a.standing_by_both(words[:4], words[4:]) == Refused(8, index)


# docs/DECISIONS.md, "Blocks in succession", written out: behind each run the run
# that block 1, block 2, block 3 and any other burst leave; "whole" where the call
# is complete.
SUCCESSION = {
    (): ((1,), (2,), (), ()),
    (1,): ((1,), (1, 2), (), ()),
    (1, 2): ((1,), (2,), "whole", ()),
    (2,): ((1,), (2,), (2, 3), ()),
    (2, 3): ("whole", (2,), (), ()),
}


def three_block_call_heard():
    answered = mode_a.Answer(at(ANSWERING, stage=1, master=False, own=OWN,
                                own_seven=OWN_7), (CS4, 0, 0), (), False)
    for blocks, left in SUCCESSION.items():
        for last in (0, 1, 2):
            for wait in (0, 1, 128, 255):
                station = at(STANDBY, own=OWN, own_seven=OWN_7, blocks=blocks, last=last,
                             cycles=wait, case="figures", plus=True, count=31,
                             other_end=mode_a.Barred(FAR_7))
                for offer in GOOD_OFFERS:
                    for number in (1, 2, 3):
                        result = answer(station, *CALLS_OWN[number], offer=offer)
                        if left[number - 1] == "whole":
                            # Whatever was left from before is gone, the bar too.
                            assert result == answered
                        elif result.station.place == STANDBY:
                            assert result.station == station._replace(
                                blocks=left[number - 1], last=0, count=0,
                                cycles=max(wait - 1, 0))
                            assert (result.burst, result.taken) == (SILENCE, False)
                        else:
                            assert offer.kind in mode_a.CALLS and wait == 0
                for other in (SILENCE, RQ3, (A, A, A), CALLS_FAR[1], CALLS_FAR[3],
                              TELLS_OWN[1], TELLS_OWN[2], (CS4, 0, 0)):
                    assert answer(station, *other).station.blocks == left[3]
    # From Stand-by on: 1-2-3 and 2-3-1, in three successive steps; no other order.
    for one in (1, 2, 3):
        for two in (1, 2, 3):
            for three in (1, 2, 3):
                bursts = [CALLS_OWN[number] for number in (one, two, three)]
                whole = (one, two, three) in ((1, 2, 3), (2, 3, 1))
                result = stood(*bursts, station=ready())
                assert (result == answered) == whole
                assert (result.station.place == STANDBY) == (not whole)
    # 3-1-2 is followed by 3, which completes 1-2-3.
    assert stood(*[CALLS_OWN[n] for n in (3, 1, 2, 3)], station=ready()) == answered
    # Anything between starts over, damaged or not.
    for between in (SILENCE, (OWN_7[0], 0, OWN_7[1]), (A, A, A), RQ3, OWN_1, OWN_2):
        for order in ((1, 2, 3), (2, 3, 1)):
            one, two, three = (CALLS_OWN[number] for number in order)
            for bursts in ((one, between, two, three), (one, two, between, three)):
                assert stood(*bursts, station=ready()).station.place == STANDBY
            assert stood(between, one, two, three, station=ready()) == answered
    # A block is heard where all three words are right.
    for number, blocks in ((1, (2, 3)), (3, (1, 2)), (2, (1,))):
        for index in range(3):
            for word in range(256):
                heard = list(CALLS_OWN[number])
                heard[index] = word
                result = answer(at(STANDBY, own=OWN, own_seven=OWN_7, blocks=blocks),
                                *heard)
                right = tuple(heard) == CALLS_OWN[number]
                assert (result.station.blocks == (1, 2) if number == 2
                        else result.station.place == ANSWERING) == right


def seven_outside_table_hears_no_call():
    for index in range(7):
        for word in range(256):
            own = OWN_7[:index] + (word,) + OWN_7[index + 1:]
            for number, blocks in ((1, (2, 3)), (3, (1, 2)), (2, (1,))):
                station = at(STANDBY, own_seven=own, blocks=blocks)
                result = answer(station, *calls_of(own)[number])
                if word not in LETTERS_3A:
                    assert result == mode_a.Answer(station._replace(blocks=()), SILENCE,
                                                   (), False)
                elif number != 2:
                    assert result.station.place == ANSWERING
                else:
                    assert result.station.blocks == (1, 2)
    # Each identity is judged by itself.
    assert stood(OWN_1, OWN_2, station=at(STANDBY, own=OWN)).station.place == RECEIVING
    station = at(STANDBY, own_seven=OWN_7)
    assert stood(*CALLS_OWN.values(), station=station).station.place == ANSWERING


def both_identities_at_once():
    """Two that begin with the same two letters, so that block 1 is the same."""
    own = OWN_7[:2] + spelt("CT")
    station = ready(own)
    one, two = (own[0], RQ, own[1]), (own[2], own[3], RQ)
    assert one == CALLS_OWN[1]
    heard = stood(one, station=station).station
    assert (heard.last, heard.blocks) == (1, (1,))
    assert stood(one, two, station=station).station.place == RECEIVING
    assert stood(*CALLS_OWN.values(), station=station).station.place == ANSWERING
    # Behind block 2 of the four and blocks 2 and 3 of the seven, the four go first.
    both = at(STANDBY, own=own, own_seven=OWN_7, last=2, blocks=(2, 3))
    assert answer(both, *one) == mode_a.Answer(
        at(RECEIVING, 1, master=False, own=own, own_seven=OWN_7), (CS1, 0, 0), (), False)
    # So a station that has heard block 2 of its four answers a two-block call where
    # a three-block one is placed; call block 3 is then printed.
    result = stood(two, CALLS_OWN[1], station=station)
    assert result.station.place == RECEIVING
    result = answer(result.station, *CALLS_OWN[2])
    assert result.printed == () and result.burst == (CS1, 0, 0)
    assert answer(result.station, *CALLS_OWN[3]).printed == CALLS_OWN[3]


def three_block_call_placed():
    placed = mode_a.Answer(at(CALLING_3, own=OWN, own_seven=OWN_7, seven=FAR_7, cycles=1),
                           CALLS_FAR[1], (), True)
    offer = offer_of_seven(FAR_7)
    others = (None, FAR, FAR_7, OWN_7, mode_a.Barred(OWN_7),
              mode_a.Barred(FAR_7[:6] + (A,)), mode_a.Barred(FAR_7))
    for burst in (SILENCE, (A, A, A), (CS1, 0, 0), (CS4, 0, 0), (CS3, 0, 0), OWN_1,
                  CALLS_OWN[1], CALLS_OWN[2], RQ3):
        for other_end in others:
            for wait in (0, 1, 2, 128, 255):
                station = at(STANDBY, own=OWN, own_seven=OWN_7, case="figures", plus=True,
                             count=31, other_end=other_end, cycles=wait, master=False,
                             blocks=(2,))
                result = answer(station, *burst, offer=offer)
                if wait > 0 and other_end == mode_a.Barred(FAR_7):
                    # It waits; the offer is not taken.
                    assert (result.burst, result.taken) == (SILENCE, False)
                    assert result.station.cycles == wait - 1
                    assert result.station.other_end == other_end
                else:
                    assert result == placed
                # A two-block call waits for every step, whoever is barred.
                result = answer(station, *burst, offer=call_offer(*FAR))
                assert result.taken == (wait == 0)
                assert result.station.place == (CALLING if wait == 0 else STANDBY)


def three_blocks_in_turn():
    for noise in ((0, 0, 0), (A, E, A), RQ3, (ALPHA,) * 3, (CS1, 0, 0), (CS2, 0, 0),
                  (128 + CS4, 0, 0), (0, CS4, 0), CALLS_OWN[1]):
        station = answer(ready(), *SILENCE, offer=offer_of_seven(FAR_7)).station
        sent = [CALLS_FAR[1]]
        while True:
            result = answer(station, *noise, offer=text_offer(A, A, A))
            assert (result.taken, result.printed, result.station.count) == (False, (), 0)
            station = result.station
            if station.place != CALLING_3:
                break
            sent.append(result.burst)
            assert station == at(CALLING_3, own=OWN, own_seven=OWN_7, seven=FAR_7,
                                 cycles=len(sent))
        assert sent == [CALLS_FAR[n % 3 + 1] for n in range(128)]
        assert result.burst == SILENCE
        assert station == at(STANDBY, own=OWN, own_seven=OWN_7, cycles=128,
                             other_end=mode_a.Barred(FAR_7))
    # Counters beyond the limit, and none sent.
    for sent in range(256):
        result = answer(at(CALLING_3, seven=FAR_7, cycles=sent, count=31), 0, 0, 0)
        if sent >= 128:
            assert result.station == at(STANDBY, cycles=128,
                                        other_end=mode_a.Barred(FAR_7))
        else:
            assert result.station == at(CALLING_3, seven=FAR_7, cycles=sent + 1)
            assert result.burst == CALLS_FAR[sent % 3 + 1]


def calling_three_hears():
    for sent in (0, 1, 2, 127, 128, 255):
        for rest in ((0, 0), (A, 255), (CS1, RQ)):
            for offer in GOOD_OFFERS:
                station = at(CALLING_3, own=OWN, own_seven=OWN_7, seven=FAR_7,
                             cycles=sent, case="figures", plus=True, count=7)
                kept = at(STANDBY, own=OWN, own_seven=OWN_7, case="figures", plus=True)
                # CS4, once; the answer to the 128th still counts.
                assert answer(station, CS4, *rest, offer=offer) == mode_a.Answer(
                    kept._replace(place=IDENTIFYING, stage=1, seven=FAR_7),
                    TELLS_OWN[1], (), False)
                barred = kept._replace(other_end=mode_a.Barred(FAR_7))
                assert answer(station, CS5, *rest, offer=offer) == mode_a.Answer(
                    barred._replace(place=ENDING, number=2, total=1), (ALPHA,) * 3, (),
                    False)
                assert answer(station, CS3, *rest, offer=offer) == mode_a.Answer(
                    barred._replace(cycles=128), SILENCE, (), False)
    # Of every other first word nothing comes but the next block.
    for first in range(256):
        result = answer(at(CALLING_3, seven=FAR_7, cycles=4), first, 0, 0)
        going_on = first not in (CS3, CS4, CS5)
        assert (result.station.place == CALLING_3) == going_on


def bar_and_wait():
    """001, 3.5.4, 3.5.7 and 3.5.8: the same call signal waits, another does not."""
    refused_by = answer(at(CALLING_3, own=OWN, own_seven=OWN_7, seven=FAR_7, cycles=9),
                        CS3, 0, 0).station
    # Behind CS5 the wait begins where the end is over: confirmed by CS1, or sent
    # four times.
    ending = answer(at(CALLING_3, own=OWN, own_seven=OWN_7, seven=FAR_7, cycles=9),
                    CS5, 0, 0).station
    again = answer(ending, CS2, 0, 0)
    assert (again.station.place, again.station.total, again.burst) == (
        ENDING, 2, (ALPHA,) * 3)
    confirmed = answer(again.station, CS1, 0, 0).station
    for _ in range(3):
        assert ending.place == ENDING and ending.other_end == mode_a.Barred(FAR_7)
        ending = answer(ending, *SILENCE).station
    assert ending.total == 4
    run_out = answer(ending, *SILENCE).station
    assert refused_by == confirmed == run_out == at(
        STANDBY, own=OWN, own_seven=OWN_7, cycles=128, other_end=mode_a.Barred(FAR_7))
    station = refused_by
    for number in range(1, 129):
        result = answer(station, *SILENCE, offer=offer_of_seven(FAR_7))
        assert (result.taken, result.burst) == (False, SILENCE)
        # Another identity may be called at once.
        assert answer(station, *SILENCE, offer=offer_of_seven(OWN_7)).taken
        assert not answer(station, *SILENCE, offer=call_offer(*FAR)).taken
        station = result.station
        assert station == refused_by._replace(cycles=128 - number)
    assert answer(station, *SILENCE, offer=offer_of_seven(FAR_7)).taken
    # The wait of a two-block call bars no call of seven signals.
    waiting = answer(at(CALLING, own_seven=OWN_7, called=FAR, cycles=9), CS3, 0, 0).station
    assert waiting.cycles == 128
    assert answer(waiting, *SILENCE, offer=offer_of_seven(FAR_7)).taken
    # The bar is gone where another call is placed or answered.
    other = answer(refused_by, *SILENCE, offer=offer_of_seven(OWN_7)).station
    assert other.other_end is None
    other = answer(other, CS3, 0, 0).station
    assert other.other_end == mode_a.Barred(OWN_7)
    assert answer(other, *SILENCE, offer=offer_of_seven(FAR_7)).taken
    for bursts in ((OWN_1, OWN_2), tuple(CALLS_OWN.values())):
        answered = stood(*bursts, station=refused_by, offer=offer_of_seven(FAR_7))
        assert answered.station.other_end is None


def identifies(stage, wrong=0, last_wrong=0, **fields):
    return at(IDENTIFYING, own=OWN, own_seven=OWN_7, seven=FAR_7, stage=stage,
              wrong=wrong, last_wrong=last_wrong, **fields)


def identifying_rows():
    """Each first word at each stage, against the table of docs/DECISIONS.md."""
    for stage in (1, 2, 3, 4):
        for wrong, last_wrong in ((0, 0), (0, A), (1, A), (1, E), (3, A), (4, A), (5, E),
                                  (255, 0), (255, A), (4, CS1)):
            for count in (0, 30, 31):
                station = identifies(stage, wrong, last_wrong, count=count,
                                     case="figures", plus=True)
                for first in range(256):
                    rest = (0, 0) if first % 2 else (A, 255)
                    result = answer(station, first, *rest, offer=text_offer(E, E, E))
                    assert result == identifying_answer(station, first), (station, first)


def identifying_answer(station, first):
    """The same once more, for an offer of text E E E."""
    kept = station._replace(stage=0, wrong=0, last_wrong=0, seven=NO_SEVEN, count=0)
    stage = station.stage
    if stage < 4 and first == SUMS_FAR[stage]:
        return mode_a.Answer(station._replace(stage=stage + 1, wrong=0, last_wrong=0,
                                              count=0), TELLS_OWN[stage + 1], (), False)
    if stage < 4 and first in LETTERS_3A:
        if station.wrong >= 1 and station.last_wrong == first:
            return mode_a.Answer(kept._replace(place=ENDING, number=2, total=1),
                                 (ALPHA,) * 3, (), False)
        if station.wrong >= 4:
            return mode_a.Answer(kept._replace(place=STANDBY), SILENCE, (), False)
        station = station._replace(wrong=station.wrong + 1, last_wrong=first)
    if stage == 4 and first == CS1:
        return mode_a.Answer(kept._replace(place=SENDING, number=1, held=(E, E, E),
                                           other_end=FAR_7), (E, E, E), (), True)
    if stage == 4 and first == CS3:
        return mode_a.Answer(kept._replace(place=TURNING, number=2, other_end=FAR_7),
                             TURN, (), False)
    if station.count == 31:
        return mode_a.Answer(kept._replace(place=STANDBY), SILENCE, (), False)
    return mode_a.Answer(station._replace(count=station.count + 1), TELLS_OWN[stage], (),
                         False)


def wrong_check_sums():
    """02: "A block goes out again no more than four times for wrong check-sums"."""
    for stage in (1, 2, 3):
        wrong = [word for word in LETTERS_3A if word != SUMS_FAR[stage]]
        # Each another one than the last: four times again, then Stand-by.
        station = identifies(stage)
        for number in range(4):
            # Damaged answers and RQ between count as repetitions alone.
            for between in (0, RQ, 128 + wrong[number], CS4, CS2, SPACE):
                result = answer(station, between, 0, 0)
                assert result.burst == TELLS_OWN[stage]
                assert result.station == station._replace(count=station.count + 1)
            result = answer(station, wrong[number % 2], 0, 0)
            assert result.burst == TELLS_OWN[stage]
            station = result.station
            assert station == identifies(stage, number + 1, wrong[number % 2],
                                         count=number + 1)
        assert answer(station, wrong[0], 0, 0) == mode_a.Answer(
            at(STANDBY, own=OWN, own_seven=OWN_7), SILENCE, (), False)
        # The right one goes on, and the next stage begins with none.
        assert answer(station, SUMS_FAR[stage], 0, 0) == mode_a.Answer(
            identifies(stage + 1), TELLS_OWN[stage + 1], (), False)
        # The same twice ends the call, damaged answers between or not.
        for between in ((), (0,), (RQ, 255)):
            station = answer(identifies(stage), wrong[5], 0, 0).station
            for word in between:
                station = answer(station, word, 0, 0).station
            ended = answer(station, wrong[5], 0, 0)
            assert ended == mode_a.Answer(at(ENDING, 2, total=1, own=OWN,
                                             own_seven=OWN_7), (ALPHA,) * 3, (), False)
            # CS1 confirms it, and nobody waits.
            assert answer(ended.station, CS1, 0, 0).station == at(
                STANDBY, own=OWN, own_seven=OWN_7)
        # Another one between the two equal ones: they are not compared.
        station = answer(identifies(stage), wrong[5], 0, 0).station
        station = answer(station, wrong[6], 0, 0).station
        assert answer(station, wrong[5], 0, 0).station.wrong == 3
        # The last wrong one of the stage before is not compared.
        station = answer(answer(identifies(1), *spelt("A"), 0, 0).station,
                         SUMS_FAR[1], 0, 0).station
        assert answer(station, *spelt("A"), 0, 0).station.wrong == 1


def end_of_identification():
    for count in (0, 31):
        for other_end in (None, FAR, OWN_7, mode_a.Barred(OWN_7)):
            station = identifies(4, count=count, other_end=other_end)
            sending = at(SENDING, 1, own=OWN, own_seven=OWN_7, other_end=FAR_7)
            for offer, block, taken in (
                    (text_offer(A, E, BETA), (A, E, BETA), True),
                    (NOTHING, (BETA,) * 3, True),
                    (OVER, (FIGURES, PLUS, QUERY), True),
                    (call_offer(*OWN), (BETA,) * 3, False),
                    (offer_of_seven(FAR_7), (BETA,) * 3, False)):
                assert answer(station, CS1, 0, 0, offer=offer) == mode_a.Answer(
                    sending._replace(held=block), block, (), taken)
            assert answer(station, CS1, 9, 9, offer=END) == mode_a.Answer(
                sending._replace(place=ENDING, total=1), (ALPHA,) * 3, (), True)
            # CS3: it turns, and then asks for 1.
            for offer in GOOD_OFFERS:
                result = answer(station, CS3, 9, 9, offer=offer)
                assert result == mode_a.Answer(
                    sending._replace(place=TURNING, number=2), TURN, (), False)
            result = answer(result.station, *RQ3)
            assert result.station == sending._replace(place=RECEIVING)
            assert result.burst == (CS1, 0, 0)


def answers(stage, seven=NO_SEVEN, **fields):
    return at(ANSWERING, master=False, own=OWN, own_seven=OWN_7, stage=stage, seven=seven,
              **fields)


def number_of_block(burst):
    """1 where it is X alpha X, 2 where alpha X X, 3 where X X X, else 0."""
    shape = "".join("a" if word == ALPHA else "X" if word in LETTERS_3A else "-"
                    for word in burst)
    return {"XaX": 1, "aXX": 2, "XXX": 3}.get(shape, 0)


def answering_answer(station, burst, offer):
    """Answering by the table of docs/DECISIONS.md, once more."""
    kept = station._replace(stage=0, seven=NO_SEVEN, count=0)
    stage = station.stage
    if burst == (ALPHA,) * 3:
        return mode_a.Answer(kept._replace(place=STANDBY), (CS1, 0, 0), (), False)
    if burst == RQ3 and stage == 4:
        known = kept._replace(other_end=station.seven)
        if offer == OVER:
            return mode_a.Answer(known._replace(place=ASKING), (CS3, 0, 0), (), True)
        return mode_a.Answer(known._replace(place=RECEIVING, number=1), (CS1, 0, 0), (),
                             False)
    number = number_of_block(burst)
    first = {1: 0, 2: 2, 3: 4}.get(number, 0)
    letters = tuple(word for word in burst if word != ALPHA)
    gathered = station.seven[:first] + letters + station.seven[first + len(letters):]
    if number and number == stage:
        return mode_a.Answer(station._replace(stage=stage + 1, seven=gathered, count=0),
                             (SUMS_OWN[number], 0, 0), (), False)
    if station.count == 31:
        return mode_a.Answer(kept._replace(place=STANDBY), SILENCE, (), False)
    station = station._replace(count=station.count + 1)
    if number and number == stage - 1:
        if gathered == station.seven:
            return mode_a.Answer(station, (SUMS_OWN[number], 0, 0), (), False)
        return mode_a.Answer(station._replace(seven=gathered), (RQ, 0, 0), (), False)
    return mode_a.Answer(station, (CS4 if stage == 1 else RQ, 0, 0), (), False)


def answering_rows():
    words = (ALPHA, RQ, BETA, A, FAR_7[0], FAR_7[1], L, 0, 128 + A, CS4)
    bursts = {(one, two, three) for one in words for two in words for three in words}
    bursts |= set(TELLS_FAR.values()) | set(TELLS_OWN.values()) | set(CALLS_OWN.values())
    for stage in (1, 2, 3, 4):
        for gathered in (NO_SEVEN, FAR_7):
            for count in (0, 30, 31):
                station = answers(stage, gathered, count=count, case="figures", plus=True)
                for number, burst in enumerate(sorted(bursts)):
                    offer = GOOD_OFFERS[number % len(GOOD_OFFERS)]
                    assert answer(station, *burst, offer=offer) == answering_answer(
                        station, burst, offer), (station, burst)
                for offer in GOOD_OFFERS:
                    for burst in [RQ3, (ALPHA,) * 3] + list(TELLS_FAR.values()):
                        assert answer(station, *burst, offer=offer) == (
                            answering_answer(station, burst, offer))
    # Each word at each place of each block.
    for number, block in tells(FAR_7).items():
        for index in range(3):
            for word in range(256):
                burst = block[:index] + (word,) + block[index + 1:]
                for stage in (1, 2, 3, 4):
                    station = answers(stage, FAR_7)
                    assert answer(station, *burst) == answering_answer(
                        station, burst, NOTHING)


def blocks_told_in_order():
    """Three plain letters begin nothing; a block is answered where it is due."""
    for stage in (1, 2, 3, 4):
        for number in (1, 2, 3):
            result = answer(answers(stage), *TELLS_FAR[number])
            if number == stage:
                expected = (stage + 1, SUMS_OWN[number])
            elif number == stage - 1:
                expected = (stage, RQ)
            else:
                expected = (stage, CS4 if stage == 1 else RQ)
                assert result.station.seven == NO_SEVEN
            assert (result.station.stage, result.burst[0]) == expected
    # In the right order all seven are gathered.
    station = answers(1)
    for number, gathered in ((1, FAR_7[:2]), (2, FAR_7[:4]), (3, FAR_7)):
        result = answer(station, *TELLS_FAR[number])
        assert result == mode_a.Answer(
            answers(number + 1, gathered + (0,) * (7 - len(gathered))),
            (SUMS_OWN[number], 0, 0), (), False)
        station = result.station


def blocks_that_differ():
    """001, 3.6.16: RQ "until two identical consecutive identification blocks are
    received"; damaged bursts between do not matter."""
    other = tells(spelt("ZZZZZZZ"))
    for number in (1, 2, 3):
        station = answers(number + 1, FAR_7)
        # The same letters: the check-sum again.
        result = answer(station, *TELLS_FAR[number])
        assert result.burst == (SUMS_OWN[number], 0, 0)
        assert result.station == station._replace(count=1)
        # Others take their place, and RQ is sent; twice the same, the check-sum.
        result = answer(station, *other[number])
        assert result.burst == (RQ, 0, 0)
        assert result.station.stage == station.stage and result.station.count == 1
        assert number_of_block(other[number]) == number
        for between in ((), (SILENCE,), ((0, ALPHA, A), (A, 0, 0))):
            twice = result.station
            for burst in between:
                hears = answer(twice, *burst)
                assert hears.burst == (RQ, 0, 0)
                assert hears.station.seven == twice.seven
                twice = hears.station
            same = answer(twice, *other[number])
            assert same.burst == (SUMS_OWN[number], 0, 0)
            assert same.station.seven == twice.seven
            # Or the first ones again: RQ, for they differ from the last.
            first = answer(twice, *TELLS_FAR[number])
            assert first.burst == (RQ, 0, 0) and first.station.seven == FAR_7
        # The next block goes on from either.
        for station in (station, result.station):
            going_on = answer(station, *TELLS_FAR[number + 1])
            if number < 3:
                assert going_on.station.stage == number + 2
            else:
                assert going_on.station.other_end == station.seven


def thirty_two_lead_to_standby():
    for make in (identifies, answers):
        for stage in (1, 2, 3, 4):
            for other_end in (None, FAR, FAR_7):
                station = make(stage, other_end=other_end, case="figures", plus=True)
                expected = at(STANDBY, master=station.master, own=OWN, own_seven=OWN_7,
                              case="figures", plus=True)
                for number in range(1, 32):
                    result = answer(station, *SILENCE, offer=END)
                    assert result.station == station._replace(count=number)
                    assert result.burst != SILENCE and not result.taken
                    station = result.station
                assert answer(station, *SILENCE, offer=END) == mode_a.Answer(
                    expected, SILENCE, (), False)
    # Wrong check-sums and damage count together.
    station = identifies(1)
    for number in range(31):
        first = (0, RQ, spelt("V")[0], 0, spelt("X")[0])[number] if number < 5 else 0
        station = answer(station, first, 0, 0).station
    assert (station.count, station.wrong) == (31, 2)
    assert answer(station, *spelt("V"), 0, 0).station.place == STANDBY
    assert answer(station, SUMS_FAR[1], 0, 0).station == identifies(2)
    # So do a block heard again and letters that differ.
    station = answers(2, FAR_7, count=31)
    assert answer(station, *TELLS_FAR[1]).station.place == STANDBY
    assert answer(station, *TELLS_OWN[1]).station.place == STANDBY
    assert answer(station, *TELLS_FAR[2]).station == answers(3, FAR_7)
    # Elsewhere the 32nd is still Lost.
    for place in (SENDING, TURNING, OPENING, RECEIVING, ASKING):
        assert answer(at(place, 1, (A, A, A), count=31), *SILENCE).station.place == LOST


def standby_entered():
    """From every place, with each kind of other end: a barred identity stays and
    waits, any other is forgotten."""
    ways = [(at(OPENING), (CS3, 0, 0)), (at(ENDING, 1, total=1), (CS2, 0, 0)),
            (at(ENDING, 2, total=4), SILENCE), (at(RECEIVING, 1), (ALPHA,) * 3),
            (at(ANSWERING, stage=2), (ALPHA,) * 3), (at(ANSWERING, count=31), SILENCE),
            (identifies(3, count=31), SILENCE),
            (identifies(2, 4, 0), (spelt("V")[0], 0, 0))]
    for station, burst in ways:
        for other_end in (None, FAR, FAR_7, mode_a.Barred(FAR_7)):
            before = station._replace(own=OWN, own_seven=OWN_7, case="figures", plus=True,
                                      other_end=other_end)
            after = answer(before, *burst).station
            expected = at(STANDBY, own=OWN, own_seven=OWN_7, case="figures", plus=True)
            if other_end == mode_a.Barred(FAR_7):
                expected = expected._replace(other_end=other_end, cycles=128)
            assert after == expected, (before, after)
    # Lost keeps whoever it is.
    for other_end in (None, FAR, FAR_7, mode_a.Barred(FAR_7)):
        after = answer(at(ASKING, count=31, other_end=other_end), *SILENCE).station
        assert after == at(LOST, other_end=other_end)
        assert answer(after, *RQ3).station == after


def refusal_eight_of_seven():
    """02: "8 also for a self-identity".  The seven called and then the seven of its
    own, at every place, before 4."""
    outside = [word for word in INTACT if word not in LETTERS_3A] + [0, 128 + A]
    for place in PLACES:
        good = at(place, 1, (A, A, A), total=1, called=FAR, cycles=1, own_seven=OWN_7,
                  seven=FAR_7)
        unsound = [good._replace(count=32)]
        if place == ENDING:
            unsound += [good._replace(total=total) for total in (0, 5)]
        if place == SENDING:
            unsound += [good._replace(held=(A, word, A)) for word in (RQ, 0)]
        for index in range(14):
            for word in outside:
                words = list(FAR_7 + OWN_7)
                words[index] = word
                offer = offer_of_seven(words[:7])
                for station in [good] + unsound:
                    station = station._replace(own_seven=tuple(words[7:]))
                    assert answer(station, *SILENCE, offer=offer) == Refused(8, index)
                    # No other offer has the own identity judged.
                    if index > 6:
                        result = answer(station, *SILENCE, offer=call_offer(*FAR))
                        assert result == Refused(4, 0) or station == good._replace(
                            own_seven=station.own_seven)
        words = list(FAR_7 + OWN_7)
        words[5] = words[9] = RQ
        assert answer(good._replace(own_seven=tuple(words[7:])), *SILENCE,
                      offer=offer_of_seven(words[:7])) == Refused(8, 5)
        # A good one: 4 is told then.
        for station in unsound:
            assert answer(station, *SILENCE, offer=offer_of_seven(FAR_7)) == Refused(4, 0)
    # During a wait with that identity barred, and where a call is heard.
    station = at(STANDBY, own_seven=OWN_7[:6] + (0,), cycles=5,
                 other_end=mode_a.Barred(FAR_7))
    assert answer(station, *SILENCE, offer=offer_of_seven(FAR_7)) == Refused(8, 13)
    station = at(STANDBY, own=OWN, last=1)
    assert answer(station, *OWN_2, offer=offer_of_seven(FAR_7)) == Refused(8, 7)
    # A station without seven signals may place a call of four, and no other.
    assert answer(at(STANDBY), *SILENCE, offer=call_offer(*FAR)).taken
    assert answer(at(STANDBY), *SILENCE, offer=offer_of_seven(FAR_7)) == Refused(8, 7)


def call_of_seven_offered_elsewhere():
    """It is taken at Stand-by alone.  Where a row takes, it gives beta beta beta."""
    offer = offer_of_seven(FAR_7)
    for place in PLACES:
        for first in INTACT + [0, 255]:
            for rest in ((0, 0), (first, first), (A, A), (ALPHA, A)):
                for stage in (1, 2, 3, 4):
                    station = at(place, 1, (A, A, A), total=2, called=FAR, cycles=3,
                                 last=1, own=OWN, own_seven=OWN_7, seven=FAR_7,
                                 stage=stage if place in (IDENTIFYING, ANSWERING) else 0)
                    result = answer(station, first, *rest, offer=offer)
                    if place == STANDBY:
                        assert result.taken and result.station.place == CALLING_3
                    else:
                        assert result == answer(station, first, *rest)._replace(
                            taken=False)
                    if place not in (IDENTIFYING, ANSWERING):
                        break


def fields_of_identification_that_contradict():
    # Words outside table 3a in what is carried: they go out, count 0, and become the
    # other end.
    wrong = (0, RQ, CS1, 255, 128 + A, ALPHA, CS3)
    station = at(CALLING_3, seven=wrong, own_seven=wrong, cycles=2)
    assert answer(station, *SILENCE).burst == (128 + A, ALPHA, CS3)
    result = answer(station, CS4, 0, 0)
    assert result.burst == (0, ALPHA, RQ)
    for _ in range(3):
        # Every check-sum of it is that of 0.
        result = answer(result.station, *spelt("V"), 0, 0)
    assert result.station.stage == 4 and result.burst == RQ3
    assert answer(result.station, CS1, 0, 0).station.other_end == wrong
    result = answer(at(ANSWERING, own_seven=wrong, stage=4, seven=wrong), *RQ3)
    assert result.station.other_end == wrong
    # A slave at Calling or Identifying and a master at Answering come from no step.
    for station in (at(CALLING_3, seven=FAR_7, cycles=1, master=False),
                    identifies(1, master=False)):
        assert not answer(station, *SILENCE).station.master
    assert answer(at(ANSWERING, stage=4), *RQ3).station.master
    # More than four wrong check-sums count as four, and stay as they are.
    station = identifies(1, 200, A)
    assert answer(station, *SILENCE).station.wrong == 200
    assert answer(station, *spelt("V"), 0, 0).station.place == STANDBY
    assert answer(station, A, 0, 0).station.place == ENDING


def nothing_printed_and_own_kept():
    """"never goes to the printer": at the places of calls nothing is printed; no step
    changes either identity of its own."""
    draw = random.Random(19)
    for _ in range(6000):
        place = draw.choice(PLACES)
        carries = place in (CALLING_3, IDENTIFYING, ANSWERING)
        station = at(place, draw.choice((1, 2)), (A, E, A), total=draw.randint(1, 4),
                     count=draw.choice((0, 31)), own=OWN, own_seven=OWN_7, called=FAR,
                     cycles=draw.choice((0, 5, 128)), last=draw.randrange(3),
                     seven=FAR_7 if carries else NO_SEVEN,
                     stage=draw.randint(1, 4) if carries and place != CALLING_3 else 0,
                     blocks=draw.choice(mode_a.RUNS_OF_BLOCKS) if place == STANDBY
                     else (), other_end=draw.choice((None, FAR, FAR_7,
                                                     mode_a.Barred(FAR_7))))
        burst = draw.choice((SILENCE, (CS1, 0, 0), (CS3, 0, 0), (CS4, 0, 0), (CS5, 0, 0),
                             RQ3, (ALPHA,) * 3, (A, E, A), *CALLS_OWN.values(),
                             *TELLS_FAR.values(), *((word, 0, 0) for word in spelt("PEDV"))))
        result = answer(station, *burst, offer=draw.choice(GOOD_OFFERS))
        after = result.station
        assert (after.own, after.own_seven) == (OWN, OWN_7)
        if place != RECEIVING:
            assert result.printed == ()
        if after.place not in (CALLING_3, IDENTIFYING, ANSWERING):
            assert (after.seven, after.stage) == (NO_SEVEN, 0)
        # The other end changes where a call or identification says so, and on
        # entering Stand-by.
        if after.place == place or place not in (
                STANDBY, CALLING, CALLING_3, IDENTIFYING, ANSWERING) and (
                after.place != STANDBY):
            assert after.other_end == station.other_end


def whole_identification():
    """A three-block call with damage, identification, traffic from either side, the
    end, and the identities kept as long as the connection lasts."""
    first, second = ready(), ready(FAR, FAR_7)
    on_the_way = SILENCE

    def step_of(station, expected, offer=NOTHING, heard=None, taken=False,
                printed=()):
        nonlocal on_the_way
        result = answer(station, *(on_the_way if heard is None else heard),
                        offer=offer)
        assert result.burst == expected, result
        assert (result.taken, result.printed) == (taken, printed)
        on_the_way = result.burst
        return result.station

    def alone(word):
        return (word, 0, 0)

    first = step_of(first, CALLS_FAR[1], offer=offer_of_seven(FAR_7), taken=True)
    second = step_of(second, SILENCE, heard=(FAR_7[0], 0, FAR_7[1]))
    first = step_of(first, CALLS_FAR[2])
    second = step_of(second, SILENCE)
    first = step_of(first, CALLS_FAR[3])
    second = step_of(second, SILENCE)
    first = step_of(first, CALLS_FAR[1])
    second = step_of(second, alone(CS4))
    first = step_of(first, CALLS_FAR[2], heard=SILENCE)
    second = step_of(second, alone(CS4))
    first = step_of(first, TELLS_OWN[1])
    second = step_of(second, alone(CS4), heard=(OWN_7[0], ALPHA, 0))
    first = step_of(first, TELLS_OWN[1])
    # Figure 3: P E D.
    second = step_of(second, alone(spelt("P")[0]))
    first = step_of(first, TELLS_OWN[2])
    second = step_of(second, alone(spelt("E")[0]))
    first = step_of(first, TELLS_OWN[2], heard=SILENCE)
    second = step_of(second, alone(spelt("E")[0]))
    first = step_of(first, TELLS_OWN[3])
    second = step_of(second, alone(RQ), heard=(OWN_7[4], OWN_7[5], 255))
    first = step_of(first, TELLS_OWN[3])
    second = step_of(second, alone(spelt("D")[0]))
    assert first.other_end is None and second.other_end is None
    first = step_of(first, RQ3)
    assert second.seven == OWN_7
    second = step_of(second, alone(RQ), heard=(RQ, RQ, 0))
    first = step_of(first, RQ3)
    second = step_of(second, alone(CS1), offer=text_offer(E, E, E))
    assert second == at(RECEIVING, 1, master=False, own=FAR, own_seven=FAR_7,
                        other_end=OWN_7)
    first = step_of(first, RQ3, heard=SILENCE)
    second = step_of(second, alone(CS1))
    first = step_of(first, (A, E, A), offer=text_offer(A, E, A), taken=True)
    assert first == at(SENDING, 1, (A, E, A), own=OWN, own_seven=OWN_7, other_end=FAR_7)
    second = step_of(second, alone(CS2), printed=(A, E, A))
    first = step_of(first, (ALPHA,) * 3, offer=END, taken=True)
    second = step_of(second, alone(CS1))
    assert second == at(STANDBY, master=False, own=FAR, own_seven=FAR_7)
    first = step_of(first, SILENCE)
    assert first == at(STANDBY, own=OWN, own_seven=OWN_7)
    # Again, and the one called begins the traffic.
    first = step_of(first, CALLS_FAR[1], offer=offer_of_seven(FAR_7), taken=True)
    for expected in (CALLS_FAR[2], CALLS_FAR[3], TELLS_OWN[1], TELLS_OWN[2],
                     TELLS_OWN[3], RQ3):
        answered = mode_a.step(second, on_the_way, NOTHING)
        second, on_the_way = answered.station, answered.burst
        first = step_of(first, expected)
    second = step_of(second, alone(CS3), offer=OVER, taken=True)
    assert second.place == ASKING and second.other_end == OWN_7
    first = step_of(first, TURN, offer=text_offer(A, A, A))
    second = step_of(second, RQ3)
    first = step_of(first, alone(CS1))
    assert first.other_end == FAR_7
    second = step_of(second, (E, A, E), offer=text_offer(E, A, E), taken=True)
    first = step_of(first, alone(CS2), printed=(E, A, E))
    assert second.number == 1


def identification_over_damage():
    """Calls over random damage: where both come to traffic, each knows the other; the
    one called prints nothing meanwhile."""
    draw = random.Random(36)
    seen = {"identified": 0, "given up": 0, "turned": 0, "ended": 0}
    for run in range(400):
        caller, called = ready(), ready(FAR, FAR_7)
        wanted = FAR_7 if run % 5 else FAR_7[:6] + OWN_7[:1]
        if wanted != FAR_7:
            # Somebody hears the call who has another identity.
            called = called._replace(blocks=(1, 2))
        damage = DAMAGE[run % 4] / 2
        result = answer(caller, *SILENCE, offer=offer_of_seven(wanted))
        caller, burst = result.station, result.burst
        if wanted != FAR_7:
            burst = CALLS_FAR[3]
        for number in range(300):
            heard = tuple(draw.choice(MUTILATED) if draw.random() < damage else word
                          for word in burst)
            if number % 2 == 0:
                offer = OVER if run % 3 == 0 else NOTHING
                result = answer(called, *heard, offer=offer)
                called = result.station
            else:
                result = answer(caller, *heard)
                caller = result.station
            burst = result.burst
            assert result.printed == ()
            if caller.place in (SENDING, TURNING):
                assert caller.other_end == FAR_7 and called.other_end == OWN_7
                assert called.place in (RECEIVING, ASKING)
                seen["identified"] += 1
                seen["turned"] += caller.place == TURNING
                break
            if caller.place in (STANDBY, ENDING):
                seen["given up"] += caller.place == STANDBY
                seen["ended"] += caller.place == ENDING
                break
        if wanted != FAR_7:
            # A check-sum sees one letter put for another.
            assert caller.other_end != wanted
    assert seen["identified"] > 200 and seen["turned"] > 60, seen
    assert seen["given up"] > 10 and seen["ended"] > 20, seen


# --- The answer-back (02, T-06) ---

def coded(*words):
    """A code of these signals; behind them what may not stand in one."""
    return Code(len(words), (*words, *(RQ, 0, D)[:21 - len(words)],
                             *(0,) * (18 - len(words))))


def blocks_by_hand(code, kind):
    """The blocks of an answer, cut out of one list."""
    words = list(code.words[:code.length])
    while len(words) % 3:
        words.append(BETA)
    words += [BETA] * 6
    if kind == "back":
        words += [FIGURES, PLUS, QUERY]
    return [tuple(words[start:start + 3]) for start in range(0, len(words), 3)]


def who_are_you():
    # Asked in figures; CS3, Asking, the whole answer owed.
    for master in (True, False):
        for n in (1, 2):
            result = answer(at(RECEIVING, n, count=31, case="figures", master=master),
                            A, D, BETA)
            assert shown(result) == (ASKING, 0, (CS3, 0, 0), (A, D), False, 0)
            assert result.station == at(ASKING, case="figures", master=master,
                                        owed=Owed("back", 0))

    def owed(*burst, **fields):
        return answer(at(RECEIVING, 1, **fields), *burst).station.owed

    back = Owed("back", 0)
    for burst, letters, figures in (
            ((D, A, A), None, back), ((A, D, A), None, back), ((A, A, D), None, back),
            ((D, D, D), None, back), ((FIGURES, D, A), back, back),
            ((FIGURES, A, D), back, back), ((D, FIGURES, A), None, back),
            ((LETTERS, D, A), None, None), ((D, LETTERS, A), None, back),
            ((FIGURES, LETTERS, D), None, None), ((LETTERS, FIGURES, D), back, back),
            ((BETA, BETA, D), None, back), ((BETA, FIGURES, D), back, back),
            ((A, E, A), None, None), ((D, 0, A), None, None), ((D, RQ, A), None, None),
            ((ALPHA, D, D), None, None), ((D, D, 128 + D), None, None)):
        assert owed(*burst) == letters, burst
        assert owed(*burst, case="figures") == figures, burst
    # What case the block leaves, and its +.
    asked = answer(at(RECEIVING, 1), FIGURES, D, LETTERS).station
    assert (asked.case, asked.plus, asked.owed) == ("letters", False, back)
    asked = answer(at(RECEIVING, 1), FIGURES, D, PLUS).station
    assert (asked.case, asked.plus, asked.owed) == ("figures", True, back)
    # Nowhere else.
    for place in PLACES:
        if place != RECEIVING:
            held = (E, E, E) if place == SENDING else (0, 0, 0)
            station = at(place, place in (SENDING, TURNING, ENDING), held, case="figures",
                         total=2 if place == ENDING else 0)
            assert answer(station, D, D, D).station.owed is None
    # A question while something is owed starts anew; no other block does.
    for before in (None, Owed("keep", 1), Owed("back", 2)):
        assert owed(D, A, A, case="figures", owed=before) == back
        assert owed(A, A, A, case="figures", owed=before) == before
        assert owed(0, D, A, case="figures", owed=before) == before


def over_and_question():
    """"If the over stood in the same block, it keeps the direction"."""
    def owed(*burst, case="figures", plus=False):
        station = answer(at(RECEIVING, 1, case=case, plus=plus), *burst).station
        return station.owed and station.owed.kind

    assert owed(PLUS, QUERY, D) == owed(D, PLUS, QUERY) == "keep"
    assert owed(QUERY, D, A, plus=True) == owed(QUERY, A, D, plus=True) == "keep"
    assert owed(BETA, QUERY, D, plus=True) == "keep"
    # D cancels the +, before the block and within it.
    assert owed(D, QUERY, A, plus=True) == owed(PLUS, D, QUERY) == "back"
    assert owed(PLUS, D, QUERY, plus=True) == owed(A, QUERY, D, plus=True) == "back"
    assert owed(QUERY, PLUS, D) == owed(D, QUERY, PLUS) == owed(D, A, QUERY) == "back"
    assert owed(FIGURES, QUERY, D, plus=True) == "back"
    # An over alone owes nothing.
    assert owed(PLUS, QUERY, A) is None and owed(QUERY, A, A, plus=True) is None
    assert owed(LETTERS, D, QUERY, plus=True) is None


def offers_at_the_question():
    """"an over at the block with D too, waits meanwhile"."""
    offers = (NOTHING, OVER, END, text_offer(A, A, A), call_offer(*OWN))
    for offer in offers:
        for burst, kind in (((D, A, A), "back"), ((PLUS, QUERY, D), "keep")):
            result = answer(at(RECEIVING, 2, case="figures"), *burst, offer=offer)
            assert result.station == at(ASKING, case="figures", owed=Owed(kind, 0))
            assert (result.burst, result.taken) == ((CS3, 0, 0), False)
    # Without D it is taken as ever, with something owed too.
    for owed in (None, Owed("back", 1)):
        result = answer(at(RECEIVING, 2, owed=owed), D, A, A, offer=OVER)
        assert result.taken and result.station == at(ASKING, owed=owed)


def where_blocks_are_taken(code, owed):
    """Each row that takes: the station, the burst, the number."""
    fields = {"code": code, "owed": owed}
    for n, first in ((1, CS2), (2, CS1)):
        yield at(SENDING, n, (E, E, E), **fields), (first, 0, 0), 3 - n
        yield at(OPENING, count=9, **fields), (first, A, A), n % 2 + 1
        yield at(CALLING, called=FAR, last=3 - n, cycles=3, **fields), (first, 0, 0), 3 - n
    yield at(IDENTIFYING, stage=4, seven=FAR_7, **fields), (CS1, 0, 0), 1


def answer_in_blocks():
    """Each block of codes of each length, at each row that takes, with any offer."""
    draw = random.Random(13)
    offers = (NOTHING, OVER, END, text_offer(A, A, A), call_offer(*OWN))
    for length in range(21):
        code = coded(*draw.choices([A, E, L, SPACE], k=length))
        for kind in ("back", "keep"):
            blocks = blocks_by_hand(code, kind)
            assert len(blocks) == (length + 2) // 3 + (3 if kind == "back" else 2)
            assert mode_a.answer_blocks(code, kind) == blocks
            for index, block in enumerate(blocks):
                left = Owed(kind, index + 1) if index + 1 < len(blocks) else None
                for station, burst, number in where_blocks_are_taken(code,
                                                                     Owed(kind, index)):
                    result = answer(station, *burst, offer=draw.choice(offers))
                    after = result.station
                    assert shown(result) == (SENDING, number, block, (), False, 0)
                    assert (after.held, after.owed, after.code) == (block, left, code)
    # A code that is none, and one of two signals.
    assert mode_a.answer_blocks(NO_CODE, "back") == [(BETA,) * 3] * 2 + [mode_a.OVER]
    assert mode_a.answer_blocks(coded(A, E), "keep") == [(A, E, BETA)] + [(BETA,) * 3] * 2
    # With nothing owed the offer is taken as ever.
    for station, burst, number in where_blocks_are_taken(coded(A, E), None):
        result = answer(station, *burst, offer=text_offer(E, E, A))
        assert shown(result) == (SENDING, number, (E, E, A), (), True, 0)


def what_is_owed_stays_or_goes():
    code = coded(A, E, A, E)
    for owed in (Owed("back", 2), Owed("keep", 0), None):
        fields = {"code": code, "owed": owed}
        sending = at(SENDING, 1, (A, E, A), **fields)
        # CS3 confirms the block held, and drops the rest.
        for offer in (NOTHING, OVER, text_offer(A, A, A)):
            assert answer(sending, CS3, 0, 0, offer=offer) == mode_a.Answer(
                at(TURNING, 1, code=code), TURN, (), False)
        # Repetitions keep it, and so do the turn, Lost and Ending.
        for station, burst, place in (
                (sending, (CS1, 0, 0), SENDING), (sending, SILENCE, SENDING),
                (sending._replace(count=31), SILENCE, LOST), (at(LOST, **fields), RQ3, LOST),
                (at(ASKING, **fields), TURN, OPENING), (at(ASKING, **fields), RQ3, ASKING),
                (at(OPENING, **fields), SILENCE, OPENING),
                (at(OPENING, count=31, **fields), RQ3, LOST),
                (at(TURNING, 1, **fields), RQ3, RECEIVING),
                (at(RECEIVING, 1, **fields), (A, A, A), RECEIVING),
                (at(RECEIVING, 1, **fields), (FIGURES, PLUS, QUERY), ASKING),
                (at(ENDING, 1, total=2, **fields), SILENCE, ENDING),
                (at(STANDBY, own=OWN, **fields), OWN_1, STANDBY),
                (at(STANDBY, cycles=9, **fields), SILENCE, STANDBY),
                (at(CALLING, called=FAR, cycles=3, **fields), SILENCE, CALLING),
                (at(CALLING_3, seven=FAR_7, cycles=3, **fields), (CS4, 0, 0), IDENTIFYING),
                (at(CALLING_3, seven=FAR_7, cycles=3, **fields), (CS5, 0, 0), ENDING),
                (at(IDENTIFYING, stage=4, seven=FAR_7, **fields), (CS3, 0, 0), TURNING),
                (at(ANSWERING, stage=4, seven=FAR_7, **fields), RQ3, RECEIVING)):
            after = answer(station, *burst).station
            assert (after.place, after.owed, after.code) == (place, owed, code)
        # Every way into Stand-by.
        for station, burst in (
                (at(OPENING, **fields), (CS3, 0, 0)),
                (at(RECEIVING, 1, **fields), (ALPHA,) * 3),
                (at(ENDING, 1, total=4, **fields), SILENCE),
                (at(ENDING, 1, total=1, **fields), (CS2, 0, 0)),
                (at(CALLING, called=FAR, cycles=3, **fields), (CS3, 0, 0)),
                (at(CALLING, called=FAR, cycles=128, **fields), SILENCE),
                (at(CALLING_3, seven=FAR_7, cycles=128, **fields), SILENCE),
                (at(IDENTIFYING, seven=FAR_7, count=31, **fields), SILENCE),
                (at(ANSWERING, seven=FAR_7, count=31, **fields), SILENCE),
                (at(ANSWERING, seven=FAR_7, **fields), (ALPHA,) * 3)):
            after = answer(station, *burst).station
            assert (after.place, after.owed, after.code) == (STANDBY, None, code)
        # Calls that are placed and answered.
        by = at(STANDBY, own=OWN, own_seven=OWN_7, **fields)
        for station, burst, offer, place in (
                (by._replace(last=1), OWN_2, NOTHING, RECEIVING),
                (by._replace(blocks=(1, 2)), CALLS_OWN[3], NOTHING, ANSWERING),
                (by, SILENCE, call_offer(*FAR), CALLING),
                (by, SILENCE, offer_of_seven(FAR_7), CALLING_3)):
            after = answer(station, *burst, offer=offer).station
            assert (after.place, after.owed, after.code) == (place, None, code)


def passes_by_hand(words):
    """Whether a code passes, by the runs of signals between its shifts: none of them
    that is in figures, the first counted there, has D or + and ? in succession."""
    if len(words) > 20 or any(word not in TRAFFIC for word in words):
        return False
    runs = [[]]
    for word in words:
        if word == FIGURES:
            runs.append([])
        elif word == LETTERS:
            runs.append(None)
        elif runs[-1] is not None:
            runs[-1].append(word)
    return not any(D in run or (PLUS, QUERY) in zip(run, run[1:])
                   for run in runs if run is not None)


def codes_and_refusal_nine():
    draw = random.Random(6)
    few = (D, FIGURES, LETTERS, PLUS, QUERY, A)
    codes = [()] + [(one,) for one in range(256)]
    codes += [(one, two, three, four) for one in few for two in few for three in few
              for four in few]
    codes += [tuple(draw.choices(TRAFFIC + [D, FIGURES, LETTERS, PLUS, QUERY] * 3,
                                 k=draw.randint(1, 21))) for _ in range(3000)]
    passed = 0
    for words in codes:
        code = Code(len(words), words + (RQ, D, 0, A) * 5 + (A,))
        passes = passes_by_hand(words)
        passed += passes
        given = mode_a.with_code(at(SENDING, 1, (A, A, A), owed=Owed("back", 9)), code)
        if passes:
            assert given == at(SENDING, 1, (A, A, A), code=code)
            assert not isinstance(answer(given, CS1, 0, 0), Refused)
        else:
            assert given == Refused(9, 0)
            place = draw.choice(PLACES)
            station = at(place, 1, total=1, code=code, held=(A, A, A))
            assert answer(station, *SILENCE) == Refused(9, 0)
    assert 1000 < passed < len(codes) - 1000
    # What no signal says of itself.
    for words, passes in (
            ((D,), False), ((LETTERS, D), True), ((A, LETTERS, D, FIGURES), True),
            ((LETTERS, FIGURES, D), False), ((PLUS, QUERY), False),
            ((LETTERS, PLUS, QUERY), True), ((FIGURES, PLUS), True), ((PLUS,), True),
            ((FIGURES, PLUS, FIGURES, QUERY), True), ((PLUS, BETA, QUERY), False),
            ((PLUS, BLANK, QUERY), True), ((QUERY, A), True), ((BETA,), False),
            ((ALPHA,), False), ((RQ,), False), ((0,), False), ((128 + A,), False),
            ((A,) * 20, True), ((A,) * 21, False)):
        assert mode_a.code_passes(Code(len(words), words + (0,) * 21)) == passes, words
    # A length over 20, whatever the words are.
    for length in (21, 22, 60, 255):
        assert mode_a.with_code(at(LOST), Code(length, (A,) * 21)) == Refused(9, 0)
    # A + at the end of the code completes nothing in the answer: figures cancel it.
    plus = False
    for block in blocks_by_hand(coded(FIGURES, A, PLUS), "back")[:-1]:
        _, plus, over, _ = mode_a.listen("figures", plus, block)
        assert plus and not over
    assert not mode_a.listen("figures", plus, (FIGURES, QUERY, QUERY))[2]


def refusals_of_what_is_owed():
    """4 for an index that the answer does not have; the order 8, 4, 9, 3."""
    for place in PLACES:
        for kind in ("back", "keep"):
            for length in (0, 1, 3, 4, 19, 20, 21, 22, 63, 64, 255):
                there = -(-length // 3) + (3 if kind == "back" else 2)
                code = Code(length, (A,) * 21)
                for index in (0, there - 1, there, there + 1, 255):
                    result = answer(at(place, 1, total=1, held=(A,) * 3, code=code,
                                       owed=Owed(kind, index)), *SILENCE)
                    if index >= there:
                        assert result == Refused(4, 0)
                    elif length > 20:
                        assert result == Refused(9, 0)
                    else:
                        assert not isinstance(result, Refused)
    bad_text, bad_call = text_offer(A, RQ, A), call_offer(A, A, RQ, A)
    good, bad = coded(A), coded(D)
    for place in PLACES:
        def refused(offer, **fields):
            return answer(at(place, 1, **{"total": 1, "held": (A,) * 3, **fields}),
                          *SILENCE, offer=offer)

        beyond = Owed("keep", 4)
        for offer in (bad_call, offer_of_seven((A,) * 6 + (RQ,))):
            for code in (good, bad):
                for count in (0, 32):
                    for owed in (None, beyond):
                        assert refused(offer, code=code, count=count,
                                       owed=owed).number == 8
        for offer in (bad_text, NOTHING):
            for code in (good, bad):
                assert refused(offer, code=code, owed=beyond) == Refused(4, 0)
                assert refused(offer, code=code, count=32) == Refused(4, 0)
            assert refused(offer, code=bad) == Refused(9, 0)
        assert refused(bad_text, code=bad, owed=Owed("back", 0)) == Refused(9, 0)
        assert refused(bad_text, code=good, owed=Owed("back", 0)) == Refused(3, 1)


def whole_answers():
    """A master asks, and the slave answers: it turns back, keeps the direction where
    the over stood in the block, or is cut by an over of the master's operator."""
    room = bytearray(64)
    written = text.encode("letters", b"NAME 7", room)
    code = Code(written.length, tuple(room[:written.length]) + (0,) * 21)
    assert written.length == 7

    def run(question, cut=None):
        """What each prints, the burst of each step of the slave, and both at last."""
        master = mode_a.fresh_master()
        slave = mode_a.with_code(mode_a.fresh_slave(), code)
        burst = (CS1, 0, 0)
        waiting = list(question)
        printed = {True: [], False: []}
        sent = []
        accepted = 0
        for _ in range(24):
            offer = text_offer(*waiting[0]) if waiting else NOTHING
            if not waiting and accepted == cut and master.place == RECEIVING:
                offer = OVER
            result = answer(master, *burst, offer=offer)
            if waiting and result.taken:
                waiting.pop(0)
            accepted += master.place == RECEIVING and result.station.place != RECEIVING or (
                master.place == RECEIVING and result.station.number != master.number)
            printed[True].extend(result.printed)
            master = result.station
            # The slave's operator has a text all the time.
            reply = answer(slave, *result.burst, offer=text_offer(L, L, L))
            printed[False].extend(reply.printed)
            assert not reply.taken or slave.owed is None
            slave, burst = reply.station, reply.burst
            sent.append(burst)
            if reply.taken:
                return printed, sent, master, slave
        return printed, sent, master, slave

    answer_words = list(code.words[:7])
    over = [FIGURES, PLUS, QUERY]
    printed, sent, master, slave = run([(FIGURES, D, BETA)])
    assert printed[False] == [FIGURES, D] and printed[True] == answer_words + over
    assert (master.place, slave.place) == (SENDING, RECEIVING)
    assert sent[:2] == [(CS3, 0, 0), RQ3]
    assert sent[2:8] == blocks_by_hand(code, "back") and sent[8] == TURN
    # The direction is kept: the operator's text goes out behind the answer.
    printed, sent, master, slave = run([(FIGURES, PLUS, PLUS), (QUERY, BETA, D)])
    assert printed[True] == answer_words and slave.place == SENDING
    assert sent[-6:] == blocks_by_hand(code, "keep") + [(L, L, L)]
    # Cut behind each block: that one is printed, and the answer is not taken up again.
    for cut in range(6):
        printed, sent, master, slave = run([(FIGURES, D, BETA)], cut)
        assert printed[True] == (answer_words + over)[:(3, 6, 7, 7, 7, 10)[cut]]
        assert sent[-1][1:] == (0, 0) and slave.owed is None
        assert (master.place, slave.place) == (SENDING, RECEIVING)


# --- Demand 3 on random runs of two stations ---

class Side:
    """A station of a run and what has happened to it."""

    def __init__(self, station):
        self.station = station
        self.blocks = []        # blocks put on the air from its offers
        self.confirmed = 0      # how many of them it counts as confirmed
        self.accepted = 0       # how many of the other's blocks it accepted

    def copy(self):
        twin = Side(self.station)
        twin.blocks = list(self.blocks)
        twin.confirmed = self.confirmed
        twin.accepted = self.accepted
        return twin


def takes(before, after):
    """Whether the row of this step takes.  A call offered there is not reported
    as taken, and the block counts all the same."""
    if after.place not in (SENDING, ENDING):
        return False
    if before.place == SENDING:
        return after.place == ENDING or after.number != before.number
    return before.place in (OPENING, CALLING)


def one_step(hearer, sender, burst, offer):
    """The hearer hears the burst.  Checks what demand 3 says of printing and
    confirming; answers the burst it sends and whether it confirmed."""
    before = hearer.station
    result = mode_a.step(before, burst, offer)
    after = result.station
    hearer.station = after
    taking = takes(before, after)
    confirmed = before.place == SENDING and (taking or after.place == TURNING)
    accepted = before.place == RECEIVING and (
        after.place == ASKING
        or (after.place == RECEIVING and after.number != before.number))
    if confirmed:
        hearer.confirmed += 1
    if taking and after.place == SENDING:
        hearer.blocks.append(after.held)
    if accepted:
        # The next of the other's blocks, none missing and none twice.
        assert hearer.accepted < len(sender.blocks)
        block = sender.blocks[hearer.accepted]
        assert result.printed == tuple(w for w in block if w in TRAFFIC)
        hearer.accepted += 1
    else:
        assert result.printed == ()
    # 02, T-06: while an answer is owed its blocks are taken, and no offer is.
    if taking and before.owed is not None:
        assert not result.taken and after.place == SENDING
        kind, index = before.owed
        blocks = blocks_by_hand(before.code, kind)
        assert after.held == blocks[index]
        assert after.owed == (Owed(kind, index + 1) if index + 1 < len(blocks) else None)
    for one, two in ((hearer, sender), (sender, hearer)):
        # What is confirmed is printed, and printing is ahead by one at most.
        assert 0 <= two.accepted - one.confirmed <= 1
    # The two never both have text on the way.
    assert not hearer.station.place == sender.station.place == SENDING
    return result.burst, confirmed


def random_offer(draw):
    chance = draw.random()
    if chance < 0.70:
        return text_offer(*(draw.choice(TRAFFIC + [BETA, PLUS, QUERY, FIGURES, D])
                            for _ in range(3)))
    if chance < 0.82:
        return NOTHING
    if chance < 0.85:
        return call_offer(*draw.choice((OWN, FAR)))
    return OVER if chance < 0.995 else END


def two_undamaged_exchanges(draw, sender, hearer, burst):
    """A block waiting for its confirmation gets it within two undamaged
    exchanges, each begun by its sender, unless a station is Lost first."""
    sender, hearer = sender.copy(), hearer.copy()
    for _ in range(2):
        reply, _ = one_step(hearer, sender, burst, random_offer(draw))
        burst, confirmed = one_step(sender, hearer, reply, random_offer(draw))
        if confirmed or LOST in (sender.station.place, hearer.station.place):
            return
    raise AssertionError("no confirmation within two undamaged exchanges")


def run_of_two(draw, sender, hearer, burst, most, damage, seen):
    """A run of demand 3.  It ends "where a station at Stand-by places a call".
    Counts in `seen` what it passes through."""
    for _ in range(most):
        if sender.station.place == SENDING and draw.random() < 0.1:
            two_undamaged_exchanges(draw, sender, hearer, burst)
            seen["exchanges"] += 1
        heard = tuple(draw.choice(MUTILATED) if draw.random() < damage
                      else word for word in burst)
        before = hearer.station
        burst, _ = one_step(hearer, sender, heard, random_offer(draw))
        after = hearer.station
        if before.place == STANDBY and after.place == CALLING:
            seen["ended by a call"] += 1
            break
        seen["turns"] += before.place == TURNING and after.place == RECEIVING
        if before.owed is not None and after.place in (SENDING, TURNING):
            seen["answered"] += after.owed is None and after.place == SENDING
            seen["cut"] += before.place == SENDING and after.place == TURNING
        if before.place == CALLING and after.place in (SENDING, ENDING):
            # What a completed call leaves: the slave is Receiving and awaits 1.
            slave = sender.station
            assert (slave.place, slave.number) == (RECEIVING, 1)
            assert after.number == 1 and after.master and not slave.master
            assert (after.other_end, slave.other_end) == (slave.own, None)
            seen["completed"] += 1
            seen["after repetitions"] += slave.count > 4
        seen["ran out"] += before.place == CALLING and after.place == STANDBY
        sender, hearer = hearer, sender
    places = (sender.station.place, hearer.station.place)
    seen["ends"] += STANDBY in places
    seen["losses"] += LOST in places


def seen_nothing():
    return dict.fromkeys(("exchanges", "turns", "ends", "losses", "completed",
                          "after repetitions", "ran out", "ended by a call",
                          "answered", "cut"), 0)


DAMAGE = (0, 0.05, 0.2, 0.5)


def demand_three():
    draw = random.Random(3)
    seen = seen_nothing()
    for run in range(1200):
        master, slave = (Side(with_some_code(draw, fresh)) for fresh in (
            mode_a.fresh_master(), mode_a.fresh_slave()))
        # "the slave's CS1 first"
        run_of_two(draw, slave, master, (CS1, 0, 0), 120, DAMAGE[run % 4], seen)
    # The runs have to pass through what they are meant to show.
    assert seen["turns"] > 1200 and seen["exchanges"] > 1200
    assert seen["ends"] + seen["ended by a call"] > 60 and seen["losses"] > 40
    assert seen["completed"] == seen["ran out"] == 0
    assert seen["answered"] > 400 and seen["cut"] > 100, seen


def with_some_code(draw, station):
    """Demand 3 "takes stations whose code passes this"."""
    return mode_a.with_code(station, programs.read_code(inputs.passing_code(draw)))


def left_at_standby(draw, own):
    """A station at Stand-by as anything may have left it."""
    station = at(STANDBY, own=own, master=draw.random() < 0.5,
                 case=draw.choice(("letters", "figures")), plus=draw.random() < 0.5,
                 cycles=draw.choice((0, 0, 5, 128)), last=draw.randrange(3))
    return with_some_code(draw, station)


def demand_three_from_a_call():
    """A call just placed to a station at Stand-by, and what one leaves."""
    draw = random.Random(9)
    seen = seen_nothing()
    for run in range(400):
        caller = left_at_standby(draw, OWN)._replace(cycles=0, last=0)
        called = FAR if run % 20 else spelt("ABCD")
        placed = answer(caller, *SILENCE, offer=call_offer(*called))
        assert placed.taken
        # A wait, so that the one called does not call itself where it hears
        # nothing.
        slave = left_at_standby(draw, FAR)._replace(cycles=255)
        run_of_two(draw, Side(placed.station), Side(slave), placed.burst,
                   270 if run % 20 == 0 or run % 4 == 3 else 120, DAMAGE[run % 4],
                   seen)
    assert seen["completed"] > 250 and seen["after repetitions"] > 20
    assert seen["ran out"] > 15 and seen["turns"] > 1000 and seen["losses"] > 20
    assert seen["ends"] + seen["ended by a call"] > 80 and seen["exchanges"] > 800
    assert seen["answered"] > 100 and seen["cut"] > 20, seen
    seen = seen_nothing()
    for run in range(256):
        block = random_offer(draw).words[:3]
        block = block if all(w in TRAFFIC + [BETA] for w in block) else (BETA,) * 3
        master = Side(at(SENDING, 1, block, own=OWN, other_end=FAR))
        master.blocks.append(block)
        if run % 8 == 7:
            master = Side(at(ENDING, 1, total=1, own=OWN, other_end=FAR))
            block = (ALPHA,) * 3
        slave = Side(at(RECEIVING, 1, own=FAR, master=False, count=run % 32))
        run_of_two(draw, master, slave, block, 60, DAMAGE[run // 32 % 4], seen)
    assert seen["losses"] > 20 and seen["exchanges"] > 200


# --- A passage (02, T-07) ---

# Words of a text offer, and the entries of two bursts that are heard whole, the
# slave's first.
ONE = (113, 89, 86)
WHOLE = (2, 0, 1, 0)


def passed(*record, rooms=(400, 400)):
    """What the master and the slave print, or the refusal and its value."""
    lent = [bytearray([170]) * room for room in rooms]
    result = passages.passage(bytes(record), *lent)
    if isinstance(result, Refused):
        # "A refusal prints and sends nothing, writes nothing into lent memory".
        assert lent == [bytearray([170]) * room for room in rooms]
        return tuple(result)
    for room, printed in zip(lent, result):
        # "room beyond the part written is untouched"
        assert room[printed:] == bytes([170]) * (len(room) - printed)
    return tuple(bytes(room[:printed]) for room, printed in zip(lent, result))


def passage_examples():
    assert passed() == (b"", b"")
    # The fresh master hears the slave's CS1, takes the text, and the slave prints it.
    assert passed(3, *ONE) == passed(3, *ONE, 2, 0) == (b"", b"")
    assert passed(3, *ONE, *WHOLE) == (b"", b"ONE")
    # An offer behind the burst comes one exchange later: the first block is beta.
    assert passed(2, 0, 3, *ONE, 1, 0) == (b"", b"")
    assert passed(2, 0, 3, *ONE, 1, 0, *WHOLE) == (b"", b"ONE")
    # Two equal blocks are two, and one that is sent again is one.
    assert passed(3, *ONE, *WHOLE, 3, *ONE, *WHOLE) == (b"", b"ONEONE")
    for damage in range(1, 8):
        # The slave asks for 1 again.
        spoilt = (3, *ONE, 2, 0, 1, damage)
        assert passed(*spoilt) == (b"", b"")
        assert passed(*spoilt, *WHOLE) == (b"", b"ONE")
        # Of CS1 the first word alone is read: RQ goes out where that is damaged.
        spoilt = (3, *ONE, 2, damage, 1, 0)
        assert passed(*spoilt) == (b"", b"" if damage & 1 else b"ONE")
        assert passed(*spoilt, *WHOLE) == (b"", b"ONE")
        # So of CS2, behind ONE: where it is not heard the slave hears RQ RQ RQ, and
        # asks for 2 again.
        spoilt = (3, *ONE, *WHOLE, 3, *ONE, 2, damage, 1, 0)
        assert passed(*spoilt) == (b"", b"ONE" if damage & 1 else b"ONEONE")
        assert passed(*spoilt, *WHOLE, *WHOLE) == (b"", b"ONEONE")
    # The case runs on from block to block.
    figures = (3, FIGURES, A, BETA, *WHOLE, 3, A, A, BLANK, *WHOLE)
    assert passed(*figures) == (b"", b"---")
    assert passed(*figures, 3, LETTERS, A, 89, *WHOLE) == (b"", b"---AN")
    assert passed(3, CARRIAGE_RETURN, LINE_FEED, SPACE, *WHOLE) == (b"", b"\r\n ")


def passage_turns():
    # The master's over: figures + ? is heard, CS3, beta alpha beta, RQ RQ RQ, CS2.
    over = (5, *WHOLE, *WHOLE, 2, 0)
    assert passed(5, *WHOLE) == passed(*over) == (b"", b"+?")
    # The slave sends under 2.  Its direction has a case of its own.
    assert passed(*over, 4, *ONE, 1, 0) == (b"", b"+?")
    assert passed(*over, 4, *ONE, 1, 0, 2, 0) == (b"ONE", b"+?")
    # The same where the offer stood from the start, and beside the over.
    assert passed(4, *ONE, *over, 1, 0, 2, 0) == (b"ONE", b"+?")
    # The slave breaks in: it accepts a block of beta, and nothing is printed.
    turned = (6, *WHOLE, *WHOLE, 2, 0)
    assert passed(*turned, 4, *ONE, 1, 0, 2, 0) == (b"ONE", b"")
    # Its over leads back by CS3, beta alpha beta, RQ, and CS1 or CS2.
    back = (*turned, 6, 1, 0, 2, 0, 1, 0, 2, 0, 1, 0)
    assert passed(*back) == (b"+?", b"")
    assert passed(*back, 3, *ONE, *WHOLE) == (b"+?", b"ONE")
    # An over that Receiving takes is taken: another one may be offered.
    assert passed(6, *WHOLE, 6, *WHOLE, 2, 0, 1, 0, 2, 0) == (b"+?", b"")
    # The end: alpha alpha alpha, the slave at Stand-by, and the master too.
    end = (7, *WHOLE, 2, 0)
    assert passed(3, *ONE, *WHOLE, *end, 1, 0) == (b"", b"ONE")
    for offer in ((3, *ONE), (4, *ONE), (5,), (6,), (7,), (8,)):
        assert passed(*end, *offer) == passed(*end, *offer, *[1, 0, 2, 0] * 70) == (b"", b"")
        # Which is never taken.
        for later in ((), (1, 0), [1, 0, 2, 0] * 70):
            place = len(end) + len(offer) + len(later)
            assert passed(*end, *offer, *later, *offer) == (13, place)


def passage_questions():
    """02, T-06 and T-07: the answer of a station without a code."""
    asked = (3, FIGURES, D, BETA, *WHOLE, *WHOLE)
    assert passed(*asked) == (b"", b"\5")
    # CS2, beta beta beta, CS1, beta beta beta, CS2, figures + ?.
    answered = (*asked, *WHOLE, *WHOLE, *WHOLE)
    assert passed(*answered) == (b"", b"\5")
    assert passed(*answered, 2, 0) == (b"+?", b"\5")
    # The direction is the master's again: CS3, beta alpha beta, RQ, CS2.
    assert passed(*answered, *WHOLE, *WHOLE, 3, LETTERS, *ONE[:2], *WHOLE) == (
        b"+?", b"\5ON")
    # An offer to the slave stands meanwhile, and longer, an over too.
    for offer in ((4, *ONE), (6,)):
        for at in range(len(asked) + 1, len(answered), 2):
            longer = (*answered[:at - 1], *offer, *answered[at - 1:], 2, 0)
            assert passed(*longer) == (b"+?", b"\5")
            assert passed(*longer, *offer) == (13, len(longer))
    # With the over in the same block the direction is kept, and what stands is sent.
    kept = (3, FIGURES, PLUS, BETA, *WHOLE, 3, QUERY, D, BETA, *WHOLE, 4, *ONE, *WHOLE,
            *WHOLE, *WHOLE)
    assert passed(*kept) == (b"", b"+?\5")
    assert passed(*kept, *WHOLE, 2, 0) == (b"ONE", b"+?\5")


def passage_time_outs():
    # "Count 31 and a good block: accepted", by a slave that has heard RQ 31 times.
    for bad, printed in ((0, b"ONE"), (31, b"ONE"), (32, b""), (33, b"")):
        for damage in (1, 7):
            assert passed(3, *ONE, *[2, damage, 1, 0] * bad, *WHOLE) == (b"", printed)
    # 31 times the block, and the last whole.
    for bad, printed in ((31, b"ONE"), (32, b"")):
        for damage in (1, 2, 4, 7):
            assert passed(3, *ONE, *[2, 0, 1, damage] * bad, *WHOLE) == (b"", printed)
    # At Lost an offer is never taken.
    lost = (3, *ONE, *[2, 1, 1, 0] * 32)
    assert passed(*lost, *WHOLE) == passed(*lost, 4, *ONE, *WHOLE) == (b"", b"")
    assert passed(*lost, 7) == (13, 132)
    assert passed(*lost, *WHOLE, 5) == passed(*lost, 4, *ONE, 8) == (13, 136)
    assert passed(*lost[4:], 3, *ONE, *WHOLE * 40, 5) == (13, 128 + 4 + 160)


def passage_refusals():
    """By number, each with the place of the entry."""
    text = (3, *ONE)
    before = ((), WHOLE, text, (*text, *WHOLE), (4, *ONE, 2, 0, 1, 7), (8, *WHOLE * 9))
    for begun in before:
        place = len(begun)
        for kind in (0, *range(9, 256)):
            assert passed(*begun, kind) == passed(*begun, kind, 0, 0, 0) == (10, place)
        # 11, whatever else would be wrong.
        for kind, length in ((1, 1), (2, 1), (3, 3), (4, 3)):
            for cut in range(length):
                for word in (0, A, 255):
                    assert passed(*begun, kind, *[word] * cut) == (11, place)
        # 12
        for damage in range(256):
            assert passed(*begun, 1, damage) == (12, place)
            result = passed(*begun, 2, damage)
            assert (result == (12, place)) == (damage > 7)
            result = passed(*begun, 2, 0, 1, damage)
            assert (result == (12, place + 2)) == (damage > 7)
            assert passed(*begun, 2, 0, 2, damage) == (12, place + 2)
    # 13, of each offer behind each, and before 3.
    offers = {1: ((3, *ONE), (5,), (7,)), 2: ((4, *ONE), (6,), (8,))}
    for role in (1, 2):
        for first in offers[role]:
            for second in (*offers[role], (role + 2, 0, 0, 0), (role + 2, A, A, ALPHA)):
                assert passed(*first, *second) == (13, len(first))
                assert passed(2, 7, *first, 1, 7, *second) == (13, len(first) + 4)
            for other in offers[3 - role]:
                assert passed(*first, *other) == (b"", b"")
    # The master takes it at the burst that it hears, and the slave does not.
    assert passed(*text, 2, 0, *text) == passed(5, 2, 0, 5) == (b"", b"")
    assert passed(*text, 2, 1, *text) == (13, 6)
    assert passed(*text, 2, 6, *text) == (b"", b"")
    assert passed(4, *ONE, *WHOLE, 4, *ONE) == (13, 8)
    # 3, at each place.
    for kind in (3, 4):
        for index in range(3):
            for word in range(256):
                words = list(ONE)
                words[index] = word
                good = word in TRAFFIC or word == BETA
                assert (passed(kind, *words) == (3, 0)) != good
                assert (passed(*WHOLE, kind, *words, 9) == (3, 4)) != good
    # The first in the record counts.
    assert passed(2, 8, 9) == (12, 0) and passed(9, 2, 8) == (10, 0)
    assert passed(3, 0, 0, 0, 1) == (3, 0) and passed(5, 5, 3, 0, 0, 0) == (13, 1)
    # What stands at the end, and what is on the way, is not refused.
    assert passed(*text, 6, 2, 7) == passed(8, 7) == (b"", b"")


def passage_rooms():
    """"after them 2, master's room first, with the room needed"."""
    record = (3, *ONE, *WHOLE, 6, *WHOLE, *WHOLE, 2, 0, 4, *ONE, 1, 0, 2, 0, 4, A, BETA,
              BETA, 1, 0, 2, 0)
    assert passed(*record, rooms=(4, 3)) == (b"ONEA", b"ONE")
    for master in range(7):
        for slave in range(7):
            result = passed(*record, rooms=(master, slave))
            if master < 4:
                assert result == (2, 4)
            elif slave < 3:
                assert result == (2, 3)
            else:
                assert result == (b"ONEA", b"ONE")
            # A fault of the record comes before.
            assert passed(*record, 9, rooms=(master, slave)) == (10, len(record))
    assert passed(rooms=(0, 0)) == passed(*WHOLE, rooms=(0, 0)) == (b"", b"")
    # Shifts, blank and beta take none.
    assert passed(3, FIGURES, BLANK, BETA, *WHOLE, rooms=(0, 0)) == (b"", b"")


def passage_by_blocks(record):
    """Of a record without a fault, by demand 3: what a station prints is the text of
    the blocks that it has accepted, of those taken from the other's offers."""
    sides = {1: Side(mode_a.fresh_master()), 2: Side(mode_a.fresh_slave())}
    offers = {1: NOTHING, 2: NOTHING}
    burst = (CS1, 0, 0)
    rest = list(record)
    while rest:
        kind = rest.pop(0)
        role = 2 - kind % 2
        if kind > 2:
            assert offers[role] == NOTHING
            words = tuple(rest.pop(0) for _ in range(3)) if kind < 5 else (0, 0, 0)
            offers[role] = Offer(("text", "over", "end")[(kind - 3) // 2], words)
            continue
        hearer = 3 - role
        damage = rest.pop(0)
        for index, bit in enumerate((1, 2, 4)):
            if damage & bit:
                burst = (*burst[:index], 0, *burst[index + 1:])
        taken = mode_a.step(sides[hearer].station, burst, offers[hearer]).taken
        burst, _ = one_step(sides[hearer], sides[role], burst, offers[hearer])
        if taken:
            offers[hearer] = NOTHING
    out = []
    for hearer in (1, 2):
        blocks = sides[3 - hearer].blocks[:sides[hearer].accepted]
        words = [word for block in blocks for word in block if word in TRAFFIC]
        room = bytearray(len(words))
        out.append(bytes(room[:text.print_signals("letters", words, room).length]))
    return tuple(out)


def passage_is_demand_three():
    draw = random.Random(7)
    printed = [0, 0]
    for run in range(150):
        way = (inputs.sent_home, inputs.any_passage)[run % 2]
        record = way(draw, draw.choice((30, 300)), (0, 0.02, 0.1, 0.3)[run // 2 % 4]).record
        result = passed(*record, rooms=(2000, 2000))
        assert result == passage_by_blocks(record)
        printed = [one + len(more) for one, more in zip(printed, result)]
    assert min(printed) > 1500, printed


# --- Reasons (02, T-08) ---

def why(station, *burst, offer=NOTHING):
    """The reason as `why` writes it."""
    return programs.reason_line(reasons.reason(station, burst, offer))[:-1]


def reason_examples():
    """Each reason of 01's eight places, by hand."""
    for number, own, other in ((1, CS1, CS2), (2, CS2, CS1)):
        sends = at(SENDING, number, (E, E, E))
        assert why(sends, own, 0, 0) == "own"
        assert why(sends, other, 0, 0) == "other"
        assert why(sends, CS3, 0, 0) == "cs3"
        assert why(sends, 0, own, own) == "bad 0 0"
        assert why(sends, RQ, 0, 0) == "repeat 0"
        assert why(sends, ALPHA, 0, 0) == "unexpected"
        # "judge that word only"
        assert why(sends, E, 0, RQ) == "unexpected"
        ends = at(ENDING, number, total=2)
        assert why(ends, other, 255, RQ) == "other"
        assert why(ends, own, 0, 0) == why(ends, CS3, 0, 0) == "unexpected"
        assert why(ends, 127, 0, 0) == "bad 0 127" and why(ends, RQ, 0, 0) == "repeat 0"
        receives = at(RECEIVING, number)
        assert why(receives, E, BETA, A) == "accepted"
        assert why(receives, ALPHA, ALPHA, ALPHA) == "alphas"
        # The zeros behind a single signal are mutilated words.
        assert why(receives, RQ, 0, 0) == "bad 1 0"
        assert why(receives, CS1, 0, 0) == "bad 1 0"
        assert why(receives, E, E, 255) == "bad 2 255"
        assert why(receives, RQ, RQ, RQ) == why(receives, RQ, E, E) == "repeat 0"
        assert why(receives, E, RQ, RQ) == "repeat 1"
        assert why(receives, ALPHA, E, RQ) == "repeat 2"
        for burst in ((E, ALPHA, E), (ALPHA, ALPHA, E), (ALPHA, BETA, ALPHA), TURN):
            assert why(receives, *burst) == "unexpected"
    for master in (True, False):
        turns = at(TURNING, 1, master=master)
        assert why(turns, CS3, 0, 0) == "cs3"
        assert why(turns, RQ, RQ, RQ) == "rq"
        assert why(turns, RQ, 0, 0) == ("bad 1 0" if master else "rq")
        assert why(turns, RQ, A, A) == ("repeat 0" if master else "rq")
        assert why(turns, A, RQ, RQ) == ("repeat 1" if master else "unexpected")
        assert why(turns, A, A, 9) == ("bad 2 9" if master else "unexpected")
        assert why(turns, 9, RQ, RQ) == "bad 0 9"
        opens = at(OPENING, master=master)
        assert why(opens, CS1, 0, 0) == why(opens, CS2, 0, 0) == "either"
        assert why(opens, CS3, 0, 0) == "cs3" and why(opens, RQ, RQ, RQ) == "repeat 0"
        assert why(opens, 0, 0, 0) == "bad 0 0" and why(opens, A, 0, 0) == "unexpected"
        asks = at(ASKING, master=master)
        assert why(asks, *TURN) == "turn"
        assert why(asks, BETA, ALPHA, 0) == "bad 2 0"
        assert why(asks, CS3, 0, 0) == "bad 1 0"
        assert why(asks, BETA, RQ, BETA) == "repeat 1"
        assert why(asks, E, E, E) == why(asks, ALPHA, ALPHA, ALPHA) == "unexpected"
    for place in (STANDBY, LOST):
        for offer in (NOTHING, OVER, END, text_offer(A, A, A)):
            assert why(at(place, count=31), CS1, 0, 0, offer=offer) == "silent"


def first_that_holds():
    """Where more than one condition holds, the first of 02's list."""
    # The time-out before what is named, and only where the step is a repetition.
    sends = at(SENDING, 1, (E, E, E), count=31)
    assert why(sends, CS1, 0, 0) == why(sends, 0, 0, 0) == "time-out"
    assert why(sends, CS2, 0, 0) == "other" and why(sends, CS3, 0, 0) == "cs3"
    turns = at(TURNING, 1, count=31)
    assert why(turns, CS3, 0, 0) == why(turns, RQ, 0, 0) == "time-out"
    assert why(turns, *RQ3) == "rq"
    assert why(turns._replace(master=False), RQ, 0, 0) == "rq"
    opens = at(OPENING, count=31)
    assert why(opens, CS2, 0, 0) == "either" and why(opens, CS3, 0, 0) == "cs3"
    assert why(opens, A, 0, 0) == "time-out"
    receives = at(RECEIVING, 1, count=31)
    assert why(receives, A, A, A) == "accepted"
    assert why(receives, ALPHA, ALPHA, ALPHA) == "alphas"
    assert why(receives, A, 0, A) == why(receives, *RQ3) == "time-out"
    asks = at(ASKING, count=31)
    assert why(asks, *TURN) == "turn" and why(asks, CS3, 0, 0) == "time-out"
    # 01 counts no repetitions at Ending.
    for total in (1, 4):
        ends = at(ENDING, 1, total=total, count=31)
        assert why(ends, CS1, 0, 0) == "unexpected" and why(ends, 0, 0, 0) == "bad 0 0"
        assert why(ends, CS2, 0, 0) == "other"
    for count in range(31):
        assert why(sends._replace(count=count), CS1, 0, 0) == "own"
        assert why(receives._replace(count=count), A, 0, A) == "bad 1 0"
    # Bad before RQ, and of each the earliest.
    for one in (A, RQ, 0):
        for two in (A, RQ, 7):
            for three in (A, RQ, 255):
                burst = (one, two, three)
                bad = [i for i in range(3) if burst[i] in MUTILATED]
                asked = [i for i in range(3) if burst[i] == RQ]
                wanted = ("bad %d %d" % (bad[0], burst[bad[0]]) if bad
                          else "repeat %d" % asked[0] if asked else None)
                if wanted is not None:
                    assert why(at(RECEIVING, 1), *burst) == wanted
                    assert why(at(ASKING), *burst) == wanted
                    if burst != RQ3:
                        assert why(at(TURNING, 1), *burst) == wanted


def over_and_question_as_reasons():
    figures = at(RECEIVING, 1, case="figures")
    for offer in (NOTHING, OVER, END, text_offer(A, A, A)):
        plain = "over-offered" if offer == OVER else "accepted"
        for station, burst, wanted in (
                (at(RECEIVING, 1), (FIGURES, PLUS, QUERY), "over-heard"),
                (figures, (PLUS, BETA, QUERY), "over-heard"),
                (figures._replace(plus=True), (BETA, BETA, QUERY), "over-heard"),
                (figures._replace(plus=True), (QUERY, D, A), "over-heard"),
                (figures, (D, PLUS, QUERY), "over-heard"),
                (figures._replace(plus=True), (D, QUERY, A), "who-are-you"),
                (figures, (D, A, A), "who-are-you"),
                (figures, (A, BETA, D), "who-are-you"),
                (at(RECEIVING, 2), (FIGURES, D, BETA), "who-are-you"),
                (at(RECEIVING, 2), (D, FIGURES, BETA), plain),
                (figures, (LETTERS, D, FIGURES), plain),
                (at(RECEIVING, 2), (D, D, D), plain),
                (figures, (PLUS, A, QUERY), plain),
                (figures, (PLUS, FIGURES, QUERY), plain),
                (figures._replace(plus=True), (A, QUERY, A), plain),
                (figures._replace(plus=True), (LETTERS, QUERY, A), plain),
                (at(RECEIVING, 1, plus=True), (QUERY, A, A), plain),
                (at(RECEIVING, 1), (PLUS, QUERY, A), plain),
                (figures, (QUERY, PLUS, A), plain)):
            for count in (0, 31):
                assert why(station._replace(count=count), *burst, offer=offer) == wanted
                # Not accepted, whatever is in it.
                spoilt = (*burst[:2], 0)
                assert why(station._replace(count=count), *spoilt, offer=offer) == (
                    "time-out" if count else "bad 2 0")


def reasons_of_calls():
    """02, T-02 and T-05: Stand-by, and Calling of either kind."""
    stands = ready()
    one, two = OWN_1, OWN_2
    first, second, third = CALLS_OWN.values()
    call, call_of_seven = call_offer(*FAR), offer_of_seven(FAR_7)
    for offer in GOOD_OFFERS:
        for last, burst in ((1, two), (2, one)):
            assert why(stands._replace(last=last), *burst, offer=offer) == "called"
            for wait in (1, 128):
                assert why(stands._replace(last=last, cycles=wait), *burst,
                           offer=offer) == "called"
        for blocks, burst in (((1, 2), third), ((2, 3), first)):
            assert why(stands._replace(blocks=blocks), *burst, offer=offer) == "called"
    for last, burst in ((0, one), (0, two), (1, one), (2, two), (1, SILENCE)):
        assert why(stands._replace(last=last), *burst) == "silent"
    for blocks, burst in (((), third), ((1,), second), ((2,), third), ((1, 2), second),
                          ((2, 3), third), ((2, 3), second)):
        assert why(stands._replace(blocks=blocks), *burst) == "silent"
    # One whose identity has a word outside table 3a hears no call.
    assert why(at(STANDBY, own=(A, A, A, L), last=1), A, L, RQ) == "silent"
    assert why(at(STANDBY, own_seven=(L,) + OWN_7[1:], blocks=(1, 2)), *third) == "silent"
    # Placed, or to wait.
    barred = mode_a.Barred(FAR_7)
    for cycles in (0, 1, 128, 255):
        waits = stands._replace(cycles=cycles)
        placed = "call-offered" if cycles == 0 else "silent"
        assert why(waits, *SILENCE, offer=call) == placed
        assert why(waits, *one, offer=call) == placed
        for known in (None, FAR, FAR_7, mode_a.Barred(OWN_7)):
            assert why(waits._replace(other_end=known), *SILENCE,
                       offer=call_of_seven) == "call-offered"
        assert why(waits._replace(other_end=barred), *SILENCE,
                   offer=call_of_seven) == placed
    assert why(at(LOST), *SILENCE, offer=call) == "silent"
    # Calling.
    for sent in (0, 1, 127, 128, 129, 255):
        out = sent >= 128
        for last in (0, 1, 2):
            calls = at(CALLING, called=FAR, cycles=sent, last=last, count=31)
            for number, control in ((1, CS1), (2, CS2)):
                completes = last == number
                assert why(calls, control, 0, 0) == (
                    "run-out" if out and not completes else "either")
            assert why(calls, CS3, 0, 0) == "cs3"
            for burst, wanted in (((0, CS1, CS1), "bad 0 0"), ((RQ, 0, 0), "repeat 0"),
                                  ((CS4, 0, 0), "unexpected"), ((CS5, 0, 0), "unexpected"),
                                  ((A, 0, RQ), "unexpected")):
                assert why(calls, *burst) == ("run-out" if out else wanted)
        calls = at(CALLING_3, seven=FAR_7, cycles=sent, count=31)
        assert why(calls, CS3, 0, 0) == "cs3"
        assert why(calls, CS4, 0, 0) == "cs4" and why(calls, CS5, 0, 0) == "cs5"
        for burst, wanted in (((255, CS4, CS4), "bad 0 255"), ((RQ, 0, 0), "repeat 0"),
                              ((CS1, 0, 0), "unexpected"), ((CS2, 0, 0), "unexpected"),
                              ((A, 0, RQ), "unexpected")):
            assert why(calls, *burst) == ("run-out" if out else wanted)


def reasons_of_identification():
    """02, T-05: Identifying and Answering."""
    for stage in (1, 2, 3):
        right = SUMS_FAR[stage]
        wrong = [word for word in LETTERS_3A if word != right]
        for count in (0, 30, 31):
            def reason(first, **fields):
                return why(identifies(stage, count=count, **fields), first, 0, 0)

            again = "time-out" if count == 31 else None
            assert reason(right, wrong=4, last_wrong=right) == "right-sum"
            for word in wrong:
                assert reason(word) == (again or "wrong-sum")
                assert reason(word, last_wrong=word) == (again or "wrong-sum")
                assert reason(word, wrong=3, last_wrong=right) == (again or "wrong-sum")
                # To Ending and to Stand-by, which is no repetition.
                assert reason(word, wrong=1, last_wrong=word) == "wrong-sum"
                assert reason(word, wrong=4) == reason(word, wrong=255) == "wrong-sum"
            for word in (CS1, CS2, CS3, CS4, CS5, ALPHA, BETA, LINE_FEED):
                assert reason(word) == (again or "unexpected")
            assert reason(RQ) == (again or "repeat 0")
            assert reason(128 + right) == (again or "bad 0 %d" % (128 + right))
    for count in (0, 31):
        last = identifies(4, count=count)
        assert why(last, CS1, 0, 0) == "cs1" and why(last, CS3, 0, 0) == "cs3"
        for word, wanted in ((CS2, "unexpected"), (A, "unexpected"), (CS4, "unexpected"),
                             (RQ, "repeat 0"), (0, "bad 0 0")):
            assert why(last, word, 0, RQ) == (wanted if count == 0 else "time-out")
    for stage in (1, 2, 3, 4):
        for count in (0, 31):
            again = "time-out" if count == 31 else None
            answering = answers(stage, FAR_7, count=count)
            assert why(answering, ALPHA, ALPHA, ALPHA) == "alphas"
            assert why(answering, *RQ3) == (
                "rq" if stage == 4 else again or "repeat 0")
            for number in (1, 2, 3):
                # Whatever its letters.
                for block in (TELLS_FAR[number], TELLS_OWN[number]):
                    wanted = ("told" if number == stage else again or (
                        "told-again" if number == stage - 1 else "unexpected"))
                    assert why(answering, *block) == wanted
            for burst, wanted in (((A, ALPHA, 0), "bad 2 0"), ((A, RQ, A), "repeat 1"),
                                  ((0, RQ, 255), "bad 0 0"), ((RQ, 0, 0), "bad 1 0"),
                                  ((ALPHA, ALPHA, A), "unexpected"),
                                  ((A, L, A), "unexpected"), (TURN, "unexpected")):
                assert why(answering, *burst) == (again or wanted)


def reasons_refused():
    """4 and 3 as for the step, and so 8 and 9: at each place, in that order."""
    bad_code = Code(21, (A,) * 21)
    bad_text, bad_call = text_offer(A, A, ALPHA), call_offer(A, L, A, A)
    for place in PLACES:
        fine = at(place, 1 if place in programs.NUMBERED else 0,
                  (A, A, A) if place == SENDING else (0, 0, 0),
                  1 if place == ENDING else 0)
        assert not isinstance(reasons.reason(fine, SILENCE, NOTHING), Refused)
        for station, offer, wanted in (
                (fine, bad_text, (3, 2)), (fine, bad_call, (8, 1)),
                (fine._replace(count=32), NOTHING, (4, 0)),
                (fine._replace(code=bad_code), NOTHING, (9, 0)),
                (fine._replace(owed=Owed("keep", 2)), NOTHING, (4, 0)),
                (fine._replace(count=32), bad_text, (4, 0)),
                (fine._replace(count=32), bad_call, (8, 1)),
                (fine._replace(code=bad_code), bad_text, (9, 0)),
                (fine._replace(code=bad_code, count=32), bad_text, (4, 0)),
                (fine._replace(code=bad_code, count=32), bad_call, (8, 1)),
                (fine, offer_of_seven(FAR_7[:6] + (L,)), (8, 6)),
                (fine, offer_of_seven(FAR_7), (8, 7))):
            for burst in (SILENCE, RQ3, (A, A, A)):
                assert reasons.reason(station, burst, offer) == Refused(*wanted)
                assert mode_a.step(station, burst, offer) == Refused(*wanted)
    for total in (0, 5, 255):
        assert why(at(ENDING, 1, total=total), CS2, 0, 0, offer=bad_text) == "refused 4 0"
    assert why(at(SENDING, 1, (A, RQ, A)), CS2, 0, 0, offer=bad_text) == "refused 4 0"


ACCEPTS = ("over-heard", "who-are-you", "over-offered", "accepted")


def does_as_reason(name, station, burst, offer, result):
    """Whether the answer of the step is what this reason says of it."""
    place, after = station.place, result.station
    went = after.place
    rq = (RQ, 0, 0) if station.master else RQ3
    if name == "silent":
        return place == went and place in (STANDBY, LOST) and result.burst == SILENCE
    if name == "time-out":
        return result.burst == SILENCE and went == (
            STANDBY if place in (IDENTIFYING, ANSWERING) else LOST)
    if name == "run-out":
        return went == STANDBY and station.cycles >= 128 and burst[0] != CS3
    if name == "called":
        return (went, result.burst[0]) in ((RECEIVING, CS1), (ANSWERING, CS4))
    if name == "call-offered":
        return result.taken and went in (CALLING, CALLING_3)
    if name == "own":
        return went == SENDING and result.burst == station.held and not result.taken
    if name == "other":
        if place == ENDING:
            return went == STANDBY and result.burst == SILENCE
        return went in (SENDING, ENDING) and after.number == 3 - station.number
    if name in ("either", "cs1"):
        number = {CS1: 1, CS2: 2}[burst[0]]
        if went == CALLING:
            return after.last == number != station.last
        return went in (SENDING, ENDING) and after.number == number
    if name == "cs3":
        wanted = {SENDING: TURNING, TURNING: TURNING, IDENTIFYING: TURNING}
        return went == wanted.get(place, STANDBY) and result.burst == (
            SILENCE if went == STANDBY else TURN)
    if name in ("cs4", "cs5"):
        return went == (IDENTIFYING if name == "cs4" else ENDING)
    if name == "rq":
        return went in ((RECEIVING,) if place == TURNING else (RECEIVING, ASKING))
    if name == "turn":
        return went == OPENING and result.burst == rq
    if name == "alphas":
        return went == STANDBY and result.burst[0] in (CS1, CS2)
    if name in ("right-sum", "told"):
        return went == place and after.stage == station.stage + 1
    if name == "wrong-sum":
        return went in (ENDING, STANDBY) or after.wrong == station.wrong + 1
    if name == "told-again":
        own = mode_a.check_sum(station.own_seven, station.stage - 1)
        return after.stage == station.stage and result.burst[0] == (
            own if after.seven == station.seven else RQ)
    if name in ("bad", "repeat", "unexpected"):
        if place == ENDING:
            return (went, result.burst) in ((ENDING, (ALPHA,) * 3), (STANDBY, SILENCE))
        if place == CALLING:
            return after.cycles == station.cycles + 1 and after.last == 0
        if place == CALLING_3:
            return after.cycles == station.cycles + 1
        if place == IDENTIFYING:
            sent = mode_a.identification_block(station.own_seven, station.stage)
        elif place == ANSWERING:
            sent = (CS4 if station.stage == 1 else RQ, 0, 0)
        else:
            sent = {SENDING: RQ3, TURNING: RQ3, OPENING: rq, ASKING: (CS3, 0, 0),
                    RECEIVING: ((CS1, CS2)[station.number - 1], 0, 0)}[place]
        return result.burst == sent and after == station._replace(
            count=station.count + 1)
    if name == "accepted":
        return went == RECEIVING and after.number == 3 - station.number
    if name == "over-offered":
        return went == ASKING and result.taken and after.owed == station.owed
    if name == "who-are-you":
        return went == ASKING and after.owed == Owed("back", 0) and not result.taken
    assert name == "over-heard"
    if mode_a.listen(station.case, station.plus, burst)[3]:
        # With D in figures too.
        return went == ASKING and after.owed == Owed("keep", 0) and not result.taken
    return went == ASKING and result.taken == (offer.kind == "over")


def words_as_reason(reason, station, burst):
    """Whether the numbers beside the reason are those of the burst."""
    one = station.place in (SENDING, OPENING, ENDING, CALLING, CALLING_3, IDENTIFYING) or (
        station.place == TURNING and not station.master)
    read = burst[:1] if one else burst
    bad = [(i, word) for i, word in enumerate(read) if word in MUTILATED]
    asked = [(i,) for i, word in enumerate(read) if word == RQ]
    if reason.name == "bad":
        return reason.beside == bad[0]
    if reason.name == "repeat":
        return not bad and reason.beside == asked[0]
    if reason.name == "unexpected" or reason.name in ACCEPTS:
        return not bad and not asked and reason.beside == ()
    return reason.beside == ()


def reason_and_step():
    """The reason against the step, which knows nothing of it, over many stations:
    accepted, and no other, where the step accepts; time-out where it is the 32nd
    repetition; each reason with the answer that it is the reason for."""
    draw = random.Random(88)
    records = list(inputs.stations_asked(draw))
    for _ in range(30000):
        any_bytes = bytearray(draw.randbytes(programs.RECORD))
        any_bytes[7] = draw.choice((0, 1, 29, 30, 31, 31, 31, 32))
        any_bytes[3:6] = bytes(draw.choices(TRAFFIC + [BETA], k=3))
        any_bytes[6] = draw.randint(1, 4)
        any_bytes[10:13] = bytes(draw.choice((inputs.any_burst(draw),
                                              inputs.block(draw))))
        any_bytes[60:81] = draw.choice(inputs.PASSING_CODES)
        any_bytes[81] = 0
        records.append(bytes(any_bytes))
    seen = {"refused": 0}
    for record in records:
        station, burst, offer = programs.read_step(record)
        reason = reasons.reason(station, burst, offer)
        result = mode_a.step(station, burst, offer)
        if isinstance(result, Refused) or isinstance(reason, Refused):
            assert result == reason
            seen["refused"] += 1
            continue
        after = result.station
        accepts = station.place == RECEIVING and (
            after.place == ASKING
            or after.place == RECEIVING and after.number != station.number)
        assert accepts == (reason.name in ACCEPTS), (record, reason)
        # What the same step is without a row of repetitions behind it.
        alone = mode_a.step(station._replace(count=0), burst, offer).station
        last = station.count == 31 and alone.count == 1
        assert last == (reason.name == "time-out"), (record, reason)
        assert does_as_reason(reason.name, station, burst, offer, result), (
            record, reason)
        assert words_as_reason(reason, station, burst), (record, reason)
        seen[reason.name] = seen.get(reason.name, 0) + 1
    assert sorted(seen) == sorted(["refused"] + [name for name, _ in reasons.REASONS])
    assert min(seen.values()) >= 50, seen


def star_examples():
    sent = broadcast.slots([E, A, E])

    def stars(**copies):
        heard = list(sent)
        for slot, word in copies.items():
            heard[int(slot[1:])] = word
        return programs.stars(programs.write_words(heard))[0].decode()

    assert stars() == ""
    assert stars(s36=0, s41=255) == "41 bad 0 255\n"
    assert stars(s36=0) == stars(s41=0) == ""
    assert stars(s36=A) == "41 unlike %d %d\n" % (A, E)
    assert stars(s36=RQ, s41=ALPHA) == ""
    assert stars(s36=ALPHA, s41=RQ) == "41 unlike %d %d\n" % (ALPHA, RQ)
    assert stars(s36=BETA, s41=BETA) == stars(s36=RQ, s41=RQ) == ""
    # Of the last signal, within the three words behind the second alpha; and not of
    # the words behind it.
    assert stars(s40=9, s45=7, s46=A, s47=A) == "45 bad 9 7\n"
    # The return lost is no star, and what was before it neither.
    assert stars(s32=0, s37=0) == ""
    assert stars(s28=A, s33=E, s30=0, s35=0) == ""
    assert stars(s34=0, s39=0) == "39 bad 0 0\n"
    assert stars(s36=0, s41=0, s38=E, s43=A, s40=1, s45=2) == (
        "41 bad 0 0\n43 unlike %d %d\n45 bad 1 2\n" % (E, A))


def stars_are_error_marks():
    """A star exactly where the receiver prints an error; its words are those heard in
    the slot and five before it."""
    draw = random.Random(12)
    seen = {"bad": 0, "unlike": 0}
    for run in range(300):
        words = inputs.heard_in_mode_b(draw, inputs.RECEIVE_KINDS[run % len(
            inputs.RECEIVE_KINDS)])[:700]
        receiver = broadcast.fresh_receiver()
        lines = []
        for slot, word in enumerate(words):
            star = reasons.star(receiver, word)
            receiver, signal = broadcast.hear_word(receiver, word)
            assert (star is not None) == (signal == 255)
            if star is not None:
                # Five before, but for a DX from before the lock, which counts as RQ.
                assert star.rx == word and star.dx == words[slot - 5]
                good = {star.dx, star.rx} & set(INTACT)
                assert star.name == ("unlike" if good else "bad")
                assert not good or len(good) == 2
                seen[star.name] += 1
                lines.append("%d %s %d %d\n" % (slot, *star))
        data = programs.write_words(words)
        assert programs.stars(data) == ("".join(lines).encode(), None)
        printed = list(programs.read_words(programs.receive(data)[0]))
        assert printed.count(255) == len(lines)
    assert min(seen.values()) > 1000, seen
    # Receivers that no run comes to.
    for record in inputs.receive_records(draw):
        receiver = programs.read_receiver(record)
        star = reasons.star(receiver, record[10])
        result = broadcast.hear_word(receiver, record[10])
        if isinstance(result, Refused) or isinstance(star, Refused):
            assert star == result == Refused(4, 0)
        else:
            assert (star is not None) == (result[1] == 255)


# --- Mode B ---

def received(words):
    receiver = broadcast.fresh_receiver()
    out = []
    for word in words:
        receiver, signal = broadcast.hear_word(receiver, word)
        if signal is not None:
            out.append(signal)
    return out, receiver


HEAD = [CARRIAGE_RETURN, LINE_FEED]


def sender_examples():
    words = broadcast.slots([E])
    assert len(broadcast.positions([E])) == 36 and len(words) == 72
    assert [s for s in range(72) if words[s] == E] == [36, 41]
    assert [s for s in range(72) if words[s] == CARRIAGE_RETURN] == [32, 37]
    assert broadcast.slot([E], 36) == broadcast.slot([E], 41) == E
    assert broadcast.slot([E], 72) == Refused(6, 72)
    assert len(broadcast.positions([E] * 94)) == 129
    assert len(broadcast.positions([E] * 95)) == 134


def sender_corners():
    assert broadcast.slot([], 0) == RQ
    assert broadcast.slot([], 1) == broadcast.slot([], 3) == ALPHA
    assert broadcast.slot([], 69) == ALPHA
    assert broadcast.slot([], 70) == Refused(6, 70)
    assert broadcast.slot([], 2 ** 32 - 1) == Refused(6, 70)
    assert len(broadcast.positions([E] * 190)) == 16 + 2 + 190 + 4 + 17
    assert len(broadcast.positions([E] * 191)) == 16 + 2 + 191 + 8 + 17
    full = [E] * 8192
    assert len(broadcast.positions(full)) == 8567
    assert broadcast.slot(full, 17133) == ALPHA
    assert broadcast.slot(full, 17134) == Refused(6, 17134)
    assert broadcast.slot([0] * 8193, 0) == Refused(7, 8192)
    for word in (BETA, ALPHA, RQ, 255, 0):
        assert broadcast.slot([E, word, word], 99999) == Refused(3, 1)


def search_is_last_four():
    """The search by its run against 01's own words: four in a row alternate."""
    draw = random.Random(5)
    for _ in range(3000):
        words = [draw.choice((ALPHA, RQ, ALPHA, RQ, E, 0)) for _ in range(12)]
        receiver = broadcast.fresh_receiver()
        for index, word in enumerate(words):
            receiver, _ = broadcast.hear_word(receiver, word)
            last = words[max(0, index - 3):index + 1]
            found = last in ([ALPHA, RQ] * 2, [RQ, ALPHA] * 2)
            assert found == isinstance(receiver, broadcast.InPhase)
            if found:
                # RQ marks DX: after an RQ the next slot is RX.
                assert receiver.number % 2 == (word == RQ)
                break
    assert broadcast.hear_word(broadcast.Searching(4, RQ), RQ) == Refused(4, 0)
    assert broadcast.hear_word(broadcast.Searching(3, RQ), E) == (
        broadcast.fresh_receiver(), None)


def lock_either_way():
    words = broadcast.slots([E, A])
    for start in range(29):                 # slots 28 to 31 are the last four
        out, receiver = received(words[start:])
        assert out == HEAD + [E, A]
        assert isinstance(receiver, broadcast.Searching)
    assert received(words[29:])[0] == []


def lock_at_a_break():
    """A break's phasing positions b to b+3 alternate in slots 2b+4 to 2b+7
    alone: before and behind them a text signal stands in the other slot."""
    words = broadcast.slots([E] * 94 + [A, LINE_FEED, A])
    b = 16 + 96
    assert words[2 * b + 4:2 * b + 8] == [RQ, ALPHA, RQ, ALPHA]
    for start in (100, 2 * b, 2 * b + 4):
        assert received(words[start:])[0] == [LINE_FEED, A]
    assert received(words[2 * b + 5:])[0] == []
    for damaged in range(2 * b + 4, 2 * b + 8):
        late = list(words)
        late[damaged] = 0
        assert received(late[100:])[0] == []


PHASING = [RQ, ALPHA] * 4
# Words of each sort, for what is heard behind the second alpha.
SORTS = (ALPHA, RQ, BETA, CARRIAGE_RETURN, LINE_FEED, A, E, 0, 255, 128 + ALPHA)


def steps_of(words, receiver=None):
    """The receivers after each word, and what each word prints."""
    if receiver is None:
        receiver = broadcast.fresh_receiver()
    receivers, out = [], []
    for word in words:
        receiver, signal = broadcast.hear_word(receiver, word)
        receivers.append(receiver)
        out.append(signal)
    return receivers, out


def end_of_reception():
    # Empty text: the line feed is the last position, heard by either copy.
    for slot in (2 * 17, 2 * 17 + 5):
        words = broadcast.slots([])
        words[slot] = 0
        assert received(words)[0] == HEAD
    # The position before the two alpha is settled in the ordinary way: by its RX,
    # by its DX, by neither, and by two that are unlike.
    for dx, rx, last in ((0, E, E), (E, 0, E), (0, 255, 255), (E, A, 255),
                         (E, E, E), (128 + E, E, E), (RQ, ALPHA, None)):
        words = broadcast.slots([E])
        words[36], words[41] = dx, rx
        assert received(words)[0] == HEAD + ([] if last is None else [last])
    # Two alpha before printing: nothing printed, and it searches anew.
    out, receiver = received(PHASING + [ALPHA, ALPHA, ALPHA])
    assert out == [] and receiver == broadcast.Waiting(3, RQ, False)
    out, receiver = received(PHASING + [ALPHA] * 6)
    assert out == [] and receiver == broadcast.fresh_receiver()
    # The settled one may be the first return or line feed.
    for one in HEAD:
        for dx, rx in ((one, one), (one, 0), (0, one)):
            begins = PHASING + [dx, 0, ALPHA, 0, ALPHA]
            assert steps_of(begins + [rx, ALPHA, ALPHA])[1] == (
                [None] * len(begins) + [one, None, None])
        assert received(begins + [A, A, A])[0] == []
    assert received(PHASING + [0, 0, ALPHA, 0, ALPHA, 0, 0, 0])[0] == []
    # A mutilated DX between the two breaks the pair, and so does RQ; an alpha in
    # RX completes none.
    for between in (0, RQ, E, 128 + ALPHA):
        out, receiver = received(PHASING + [ALPHA, ALPHA, between, ALPHA, ALPHA])
        assert isinstance(receiver, broadcast.InPhase)


def three_words_more():
    """02, T-03: "hear three more signals after the second alpha"."""
    for printing in (False, True):
        head = [LINE_FEED, ALPHA] if printing else [BETA, ALPHA]
        rest = [LINE_FEED if printing else BETA]
        for dx in SORTS[1:]:
            before = PHASING + head + [dx, ALPHA, ALPHA] + rest + [ALPHA]
            receivers, out = steps_of(before)
            waiting = broadcast.Waiting(3, dx, printing)
            assert receivers[-1] == waiting and out[-1] is None
            for one in range(256):
                ordinary = broadcast.print_settled(
                    printing, broadcast.settle(dx, one))
                assert broadcast.hear_word(waiting, one) == (
                    broadcast.Waiting(2, None, ordinary[0]), ordinary[1])
    # The other two print nothing, whatever they are, and do not count for the
    # search; a further alpha does not begin the wait anew.
    for printing in (False, True):
        for wait, after in ((2, broadcast.Waiting(1, None, printing)),
                            (1, broadcast.fresh_receiver())):
            for one in range(256):
                heard = broadcast.hear_word(
                    broadcast.Waiting(wait, None, printing), one)
                assert heard == (after, None)


def three_words_are_swallowed():
    """Of any three words, four phasing signals behind them are enough for the
    text that follows, and three are not."""
    behind = broadcast.slots([A])
    up_to = broadcast.slots([E])[:41]
    out, second = received(up_to)
    assert out == HEAD and second == broadcast.Waiting(3, E, True)
    for one in SORTS:
        _, last = broadcast.print_settled(True, broadcast.settle(E, one))
        for two in SORTS:
            for three in SORTS:
                receivers, printed_then = steps_of([one, two, three], second)
                assert receivers[-1] == broadcast.fresh_receiver()
                assert printed_then == [last, None, None]
    for three in ((ALPHA, RQ, ALPHA), (RQ, ALPHA, RQ), (A, ALPHA, RQ), (A, RQ, ALPHA),
                  (E, A, ALPHA), (E, A, RQ), (0, 0, 0), (A, LINE_FEED, E)):
        out = received(up_to + list(three))[0]
        assert received(up_to + list(three) + behind[28:])[0] == out + HEAD + [A]
        assert received(up_to + list(three) + behind[29:])[0] == out
    # Printing does not last: one who joins behind the return and the line feed
    # prints nothing.
    late = broadcast.slots([E] * 94 + [A])[2 * (16 + 96) + 4:]
    assert received(late)[0] == []
    assert received(up_to + [E, ALPHA, ALPHA] + late)[0] == HEAD + [E]


def sender_stops_within_the_wait():
    """Where the last two alpha alone are heard in DX, one word of the three is
    sent; two of what follows are swallowed."""
    for damaged in range(18):
        words = broadcast.slots([E])
        assert len(words) == 72 and words[38:72:2] == [ALPHA] * 17
        words[36] = 0
        for number in range(damaged):
            words[38 + 2 * number] = 0
        out, receiver = received(words)
        if damaged < 15:
            assert out == HEAD + [E] and receiver.run <= 1
        elif damaged == 15:
            assert out == HEAD + [E] and receiver == broadcast.Waiting(2, None, True)
            for start, text_heard in ((26, HEAD + [A]), (27, []), (28, [])):
                behind = broadcast.slots([A])[start:]
                assert received(words + behind)[0] == out + text_heard
        else:
            # The end is not found, and nothing is wrong with what was printed.
            assert out == HEAD + [E] and isinstance(receiver, broadcast.InPhase)


def waits_refused():
    for wait in range(1, 256):
        for dx in (None, A, 0):
            for printing in (False, True):
                for word in (ALPHA, RQ, A, 0):
                    receiver = broadcast.Waiting(wait, 0 if wait == 3 else dx, printing)
                    refused = broadcast.hear_word(receiver, word) == Refused(4, 0)
                    assert refused == (wait > 3)


def printed_by_the_list(words):
    """What is printed, found in the whole list of words heard."""
    printed = []
    start = 0
    while True:
        # The first four in a row that alternate, none of them before `start`.
        four = [at for at in range(start, len(words) - 3) if words[at:at + 4]
                in ([ALPHA, RQ] * 2, [RQ, ALPHA] * 2)]
        if not four:
            return printed
        dx_first = four[0] if words[four[0]] == RQ else four[0] + 1
        behind = four[0] + 4
        # The second of two successive alpha in DX; DX slots are every second.
        ends = [at for at in range(dx_first, len(words), 2) if at - 2 >= behind
                and words[at] == words[at - 2] == ALPHA]
        end = ends[0] if ends else len(words)
        begun = False
        # RX slots up to the one behind the second alpha; the DX is five before.
        for at in range(dx_first + 1, min(end + 2, len(words)), 2):
            if at < behind:
                continue
            dx = words[at - 5] if at - 5 >= four[0] else RQ
            rx = words[at]
            signal = 255
            if dx in INTACT and rx in INTACT:
                signal = dx if dx == rx else 255
                if (dx, rx) == (RQ, ALPHA):
                    signal = RQ
            elif dx in INTACT or rx in INTACT:
                signal = dx if dx in INTACT else rx
            begun = begun or signal in HEAD
            if begun and (signal in TRAFFIC or signal == 255):
                printed.append(signal)
        start = end + 4


def reception_by_the_list():
    """The receiver, word by word, against the list as a whole."""
    draw = random.Random(7)
    ends = 0
    for run in range(1500):
        if run % 3 == 0:
            words = draw.choices((ALPHA, RQ) * 4 + (LINE_FEED, A, E, 0), k=60)
        elif run % 3 == 1:
            words = []
            for _ in range(4):
                words += [RQ, ALPHA] * 2 + draw.choices(
                    (LINE_FEED, A, E, 0), k=draw.randrange(10))
                words += draw.choices((ALPHA,) * 5 + (RQ, A, 0),
                                      k=draw.randrange(3, 9))
        else:
            words = []
            for _ in range(2):
                sent = broadcast.slots(draw.choices(TRAFFIC, k=draw.randrange(3)))
                words += [draw.choice((0, 255, A, RQ)) if draw.random() < 0.2 else one
                          for one in sent[draw.randrange(20, 30):]]
        receivers, out = steps_of(words)
        assert [one for one in out if one is not None] == printed_by_the_list(words)
        ends += sum(isinstance(one, broadcast.Waiting) and one.wait == 3
                    for one in receivers)
    assert ends > 1500


def settling():
    for dx in range(256):
        for rx in (A, E, ALPHA, BETA, RQ, 0, 255):
            settled = broadcast.settle(dx, rx)
            if dx in INTACT and rx in INTACT:
                if dx == rx:
                    assert settled == dx
                else:
                    assert settled == ("phasing" if (dx, rx) == (RQ, ALPHA)
                                       else "error")
            elif dx in INTACT or rx in INTACT:
                assert settled == (dx if dx in INTACT else rx)
            else:
                assert settled == "error"


def heard_with_copies(draw, sent, chance, keep):
    """The slots with damage that is none of the 35, but for those of `keep`, four
    phasing signals before the text, and a copy of each position that is sent."""
    keep = set(keep)
    first = draw.randrange(29)
    keep.update(range(first, first + 4))
    for t in range(len(sent) // 2):
        copies = [s for s in (2 * t, 2 * t + 5) if s < len(sent)]
        keep.add(draw.choice(copies))
    return [word if s in keep or draw.random() >= chance
            else draw.choice(MUTILATED) for s, word in enumerate(sent)]


def perfect_copy():
    """01: "Premise for a perfect copy", as 02, T-03 has it: "The premise on intact
    DX copies falls away".  With random damage inside it, over the slots that are
    sent."""
    draw = random.Random(4)
    by_rx = late = stopped = 0
    for run in range(500):
        length = draw.choice((0, 0, 1, 1, 2, 2, 50, 93, 94, 95, 96, 200, 300))
        words = [draw.choice(TRAFFIC) for _ in range(length)]
        sent = broadcast.slots(words)
        heard = heard_with_copies(draw, sent, (0.1, 0.5, 1, 1)[run % 4], ())
        last = len(sent) // 2 - 18          # the last traffic position
        if run % 10 == 9:
            # Of the alpha, those of the last two positions alone in DX.
            for t in range(last + 1, len(sent) // 2 - 2):
                heard[2 * t], heard[2 * t + 5] = draw.choice(MUTILATED), ALPHA
        out, receiver = received(heard)
        assert out == HEAD + words
        by_rx += heard[2 * last] not in INTACT
        late += heard[2 * last + 2] != ALPHA or heard[2 * last + 4] != ALPHA
        stopped += receiver == broadcast.Waiting(2, None, True)
    assert by_rx > 100 and late > 200 and stopped >= 50


def perfect_copy_of_01():
    """Under the premise of paper 01 without T-03, with its three intact DX
    copies at the end."""
    draw = random.Random(8)
    for run in range(200):
        length = draw.choice((0, 1, 2, 50, 94, 95, 200))
        words = [draw.choice(TRAFFIC) for _ in range(length)]
        sent = broadcast.slots(words)
        last = len(sent) // 2 - 18
        heard = heard_with_copies(draw, sent, (0.1, 0.5, 1)[run % 3],
                                  (2 * last, 2 * last + 2, 2 * last + 4))
        out, receiver = received(heard)
        assert out == HEAD + words and isinstance(receiver, broadcast.Searching)


def copies_are_needed():
    """Where a position has no intact copy that is sent, an error is printed, of
    an alpha too; but none of an alpha that is behind the end."""
    sent = broadcast.slots([E])
    for t in range(16, 19):
        words = list(sent)
        words[2 * t] = words[2 * t + 5] = 0
        # The return lost: the line feed begins printing.
        assert received(words)[0] == ([LINE_FEED, E] if t == 16 else
                                      (HEAD + [E])[:t - 16] + [255]
                                      + (HEAD + [E])[t - 15:])
    for t in (19, 20):
        words = list(sent)
        words[2 * t] = words[2 * t + 5] = 0
        assert received(words)[0] == HEAD + [E, 255]
    words = list(sent)
    for t in range(21, 36):
        for slot in (2 * t, 2 * t + 5):
            if slot < len(words):
                words[slot] = 0
    assert received(words)[0] == HEAD + [E]


def last_letter_of_a_bulletin():
    """02, T-03, by the programs: the DX of the last letter is damaged."""
    sent = list(programs.read_words(programs.send(programs.encode(b"E")[0])[0]))
    assert sent[36] == sent[41] == E and len(sent) == 72
    for damaged, printed_text in (([], b"\r\nE"), ([36], b"\r\nE"),
                                  ([41], b"\r\nE"), ([36, 41], b"\r\n*"),
                                  ([36, 38, 40], b"\r\nE"), ([42, 43], b"\r\nE")):
        heard = [0 if slot in damaged else word for slot, word in enumerate(sent)]
        out = programs.receive(programs.write_words(heard))
        assert out[1] is None
        assert programs.print_(out[0]) == (printed_text, None)


# --- The programs ---

def hear_example():
    data = bytes([116, 86, 51, 86, 0, 86, 54, 99, 114, 51, 15, 51])
    assert programs.hear(data) == (b"step answer printed\n"
                                   b"1 CS2 5445\n2 CS2 none\n3 CS3 2B3F\n"
                                   b"4 RQ.RQ.RQ none\n", None)
    assert programs.hear(b"") == (b"step answer printed\n", None)
    # Shifts alone print no byte; a short last burst is filled with zeros.
    assert programs.hear(bytes([FIGURES, BLANK, BETA, A]))[0].endswith(
        b"1 CS2 none\n2 CS2 none\n")
    # Through a turn, and silent at last.
    turned = data + bytes([CS1, 0, 0, CS3, 0, 0, RQ, 0, 0] + [ALPHA] * 4)
    assert programs.hear(turned)[0].endswith(
        b"5 beta.beta.beta none\n6 beta.alpha.beta none\n7 CS2 none\n"
        b"8 CS1 none\n9 silent none\n")
    # D in figures: it answers as of no code, and turns back (02, T-06).
    asked = bytes([FIGURES, D, BETA, *TURN, CS1, 0, 0, CS2, 0, 0, CS1, 0, 0, CS3, 0, 0])
    assert programs.hear(asked)[0] == (
        b"step answer printed\n1 CS3 05\n2 RQ.RQ.RQ none\n3 beta.beta.beta none\n"
        b"4 beta.beta.beta none\n5 figures.Z.B none\n6 beta.alpha.beta none\n")
    # At Stand-by it has no identity, and hears no call.
    called = bytes([ALPHA] * 3 + [0, RQ, 0, 0, 0, RQ, 0, RQ, 0, A, A, RQ])
    assert programs.hear(called)[0] == (
        b"step answer printed\n1 CS2 none\n2 silent none\n3 silent none\n"
        b"4 silent none\n5 silent none\n")


def words_in_and_out():
    print_, send = programs.print_, programs.send
    assert print_(b"") == (b"", None)
    assert print_(b" \t\r\n071\n0000086 ") == (b"AE", None)
    over, no_digit = "over 255", "a byte that is no digit"
    for data, place, reason in (
            (b"71 300", 3, over), (b"71 7a", 3, no_digit), (b"-1", 0, no_digit),
            (b" 1\x0b2", 1, no_digit), (b"71\n256", 3, over), (b"9" * 5000, 0, over),
            # What comes first decides, and what is behind it does not count.
            (b"256x", 0, over), (b"x300", 0, no_digit), (b"3x999", 0, no_digit),
            (b"25x6", 0, no_digit), (b"71 0000256", 3, over), (b"25 6x", 3, no_digit),
            (b"000255x", 0, no_digit), (b"+300", 0, no_digit), (b"300-", 0, over),
            (b"\xff", 0, no_digit), (b"256\x00", 0, over), (b"\x00256", 0, no_digit)):
        told = "not a number at %d: %s" % (place, reason)
        assert print_(data) == (b"", told) and send(data) == (b"", told)
    assert print_(b"0" * 5000 + b"71") == (b"A", None)
    assert print_(b"0000255") == (b"*", None)
    # A fault comes before a refusal; behind the 8,193rd it is not looked at.
    assert print_(b"0 x")[1] == "not a number at 2: " + no_digit
    assert print_(b"0 71")[1] == ("refused 3 0: the word at index 0 is neither "
                                  "traffic nor the error mark")
    assert send(b"71 255")[1] == "refused 3 1: the word at index 1 is not traffic"
    many = b"71 " * 8192
    assert print_(many + b"x")[1] == "not a number at 24576: " + no_digit
    for call in (print_, send):
        assert call(many + b"71 x")[1] == "refused 7 8192: over 8192 signals"
    assert programs.encode(b"A" * 4096)[1] is None
    assert programs.encode(b"A" * 4096 + b"{")[1] == (
        "refused 5 4096: over 4096 characters")
    assert programs.encode(b"A" * 4095 + b"{")[1] == (
        "refused 1 4095: the character at index 4095 has no signal")
    assert programs.encode(b"a" * 4097)[1] == "refused 5 4096: over 4096 characters"
    assert programs.encode(b"abc{")[1] == (
        "refused 1 3: the character at index 3 has no signal")
    assert programs.encode(b"Aa1a") == (b"71 71 54 46 90 71\n", None)
    assert programs.encode(b"A" * 17)[0] == b" ".join([b"71"] * 16) + b"\n71\n"


def whole_runs():
    """The line on standard error, and the status."""
    assert programs.run("print", (), b"71") == (b"A", b"", 0)
    assert programs.run("print", (), b"71 3x") == (
        b"", b"print: not a number at 3: a byte that is no digit\n", 1)
    assert programs.run("encode", (), b"a") == (b"71\n", b"", 0)
    assert programs.run("encode", (), b"`") == (
        b"", b"encode: refused 1 0: the character at index 0 has no signal\n", 1)
    assert programs.run("calls", (), b"MGE") == (
        b"1 1\n", b"calls: bad record at 2: cut short\n", 1)
    # A refusal that is a record's line is nothing told.
    refused = b"E\0\0\0\1\0A"
    assert programs.run("calls", (), refused) == (b"refused 2 1 -\n", b"", 0)
    assert programs.run("steps", (), bytes([0, 6, 0, 0, 0, 0, 0, 99] + [0] * 76)) == (
        b"refused 4 0\n", b"", 0)
    for name in programs.PROGRAMS:
        usage = b"%s: usage: ./telex %s < input\n" % (name.encode(), name.encode())
        for words in (("x",), ("",), ("x", "y")):
            assert programs.run(name, words, b"M") == (b"", usage, 2)


def run_script(*words, **streams):
    done = subprocess.run([SCRIPT, *words], stderr=subprocess.PIPE, **streams)
    return done.stdout, done.stderr, done.returncode


SCRIPT = os.path.join(os.path.dirname(os.path.abspath(__file__)), "telex")


def script_gives_whole_runs():
    assert run_script("encode", input=b"A", stdout=subprocess.PIPE) == (
        b"71\n", b"", 0)
    assert run_script("receive", input=b"3 300", stdout=subprocess.PIPE) == (
        b"", b"receive: not a number at 2: over 255\n", 1)
    with tempfile.TemporaryFile() as file:
        file.write(b"71")
        file.seek(0)
        assert run_script("print", "", stdin=file, stdout=subprocess.PIPE) == (
            b"", b"print: usage: ./telex print < input\n", 2)
        assert os.lseek(file.fileno(), 0, os.SEEK_CUR) == 0
    with open(os.devnull, "wb") as unreadable, open("/dev/full", "wb") as full:
        assert run_script("hear", stdin=unreadable, stdout=subprocess.PIPE) == (
            b"", b"hear: cannot read standard input\n", 1)
        assert run_script("hear", input=b"", stdout=full) == (
            None, b"hear: cannot write standard output\n", 1)
    assert run_script("fax", input=b"")[2] == run_script(input=b"")[2] == 2


def letter_through_all():
    letter = b"SHIP'S STORES: 12 (TWELVE) CRATES, 3/4 FULL.\r\nREPLY +?"
    typed = b"Ship's stores: 12 (twelve) crates, 3/4 full.\r\nreply +?"
    words, told = programs.encode(typed)
    assert programs.encode(letter) == (words, None)
    assert programs.print_(words) == (letter, None)
    heard, told = programs.send(words)
    prints, told = programs.receive(heard)
    assert programs.print_(prints) == (b"\r\n" + letter, None)
    # What was printed before a fault stays.
    cut = heard.split(b"\n")
    cut[5] = b"x" + cut[5]
    place = len(b"\n".join(cut[:5])) + 1
    prints, told = programs.receive(b"\n".join(cut))
    assert prints.startswith(b"120 108") and prints.endswith(b"\n")
    assert told == "not a number at %d: a byte that is no digit" % place


def step_record(head, burst, offer, *, behind=(0,) * 6, known=(0,) * 5,
                called=(0,) * 4, seven=(0,) * 28, code=(0,) * 21, owed=(0, 0)):
    """head: bytes 0 to 9; offer: 13 to 16; behind: 17 to 22; known: 23 to 27; called:
    28 to 31; seven: 32 to 59; code: 60 to 80; owed: 81 and 82."""
    record = bytes([*head, *burst, *offer, *behind, *known, *called, *seven, *code,
                    *owed, 0])
    assert len(record) == 84
    return record


# The last parts of a line where nothing of three-block calls is told, and nothing is
# owed.
NO_MORE = b" | 0 0 0 0 0 0 0 0 0 0 0 0 0 0 | none 0\n"


def passage_program():
    def told(record):
        output, error, status = programs.run("passage", (), bytes(record))
        assert (output, status) == (b"", 1)
        return error

    assert programs.run("passage", (), b"") == (b"master 0\n\nslave 0\n\n", b"", 0)
    assert programs.run("passage", (), bytes((3, *ONE, *WHOLE))) == (
        b"master 0\n\nslave 3\nONE\n", b"", 0)
    over = bytes((5, *WHOLE, *WHOLE, 2, 0, 4, CARRIAGE_RETURN, LINE_FEED, A, 1, 0, 2, 0))
    assert programs.passage(over) == (b"master 3\n\r\nA\nslave 2\n+?\n", None)
    assert told([9]) == b"passage: refused 10 0: no such kind\n"
    assert told([2, 0, 1]) == b"passage: refused 11 2: the body is cut short\n"
    turn = b"passage: refused 12 %d: a burst out of turn, or bits 3 to 7 set\n"
    assert told([1, 0]) == turn % 0 and told([2, 0, 2, 0]) == turn % 2
    assert told([2, 0, 1, 8]) == turn % 2
    assert told([8, 6]) == b"passage: refused 13 1: the last offer is not taken yet\n"
    assert told([8, 3, A, A, RQ]) == (
        b"passage: refused 3 1: a word that is neither traffic nor beta\n")
    # The limit, whatever else is wrong.
    most = 262144
    too_long = b"passage: too long: over 262144 bytes\n"
    assert told(most) == b"passage: refused 10 0: no such kind\n"
    assert told(most + 1) == told(bytes((3, *ONE, *WHOLE)) * (most // 8) + b"\7") == too_long
    # 7 is none of its refusals.
    output, error = programs.passage(bytes((3, *ONE, *WHOLE)) * 3000)
    assert output == b"master 0\n\nslave 9000\n" + b"ONE" * 3000 + b"\n" and error is None


def passage_records():
    """Of `V`."""
    def record(master, slave, *body):
        return (b"V" + master.to_bytes(2, "little") + slave.to_bytes(2, "little")
                + len(body).to_bytes(2, "little") + bytes(body))

    one = (3, *ONE, *WHOLE)
    good = (record(0, 0) + record(1, 4, *one) + record(0, 3, *one) + record(0, 2, *one)
            + record(2, 1, *one, 9) + record(300, 0, 5)
            + record(1, 2, 5, *WHOLE, *WHOLE, 2, 0, 4, A, A, BETA, 1, 0, 2, 0))
    lines = (b"ok 0 0 - -\nok 0 3 AA 4F4E45AA\nok 0 3 - 4F4E45\nrefused 2 3 - AAAA\n"
             b"refused 10 8 AAAA AA\nok 0 0 " + b"AA" * 300 + b" -\nrefused 2 2 AA AAAA\n")
    assert programs.calls(good) == (lines, None)

    def ends(tail, reason):
        told = "bad record at %d: %s" % (len(good), reason)
        assert programs.calls(good + tail) == (lines, told)

    whole = record(5, 6, *one)
    for length in range(1, len(whole)):
        ends(whole[:length], "cut short")
    for rooms in ((8193, 0), (0, 8193), (8193, 65535)):
        for tail in (b"\0\0", b"\1\0", b"\2\x20", b"\xff\xff", b"\1\0" + good):
            ends(record(*rooms)[:5] + tail, "a room over 8192")
        ends(record(*rooms)[:6], "cut short")
    for tail in (b"\2\x20", b"\2\x20" + bytes(9000)):
        ends(record(8192, 8192)[:5] + tail, "a length over 8193")
    assert programs.calls(record(8192, 8192, *[5] * 8193)) == (
        b"refused 13 1 %s %s\n" % (b"AA" * 8192, b"AA" * 8192), None)


def steps_records():
    head = [1, 4, 1, 9, 9, 9, 9, 31, 0, 0]
    nobody = b" | slave 0 0 0 0 0 0 nobody 0 0 0 0" + NO_MORE
    accepted = step_record(head, [116, 86, 51], [0, 9, 9, 9])
    lost = step_record(head, [116, 0, 51], [3, 9, 9, 9])
    refused = step_record(head, [116, 0, 51], [7, 71, 51, 15])
    assert programs.steps(accepted + lost + refused + accepted[:83]) == (
        b"receiving 2 0 0 0 0 0 letters 0 | 106 0 0 | 116 86 0 | 0" + nobody +
        b"lost 0 0 0 0 0 0 letters 0 | 0 0 0 | 0 0 0 | 0" + nobody +
        b"refused 3 2\n", None)
    sending = step_record([0, 12, 7, 71, 51, 86, 0, 5, 3, 5], [106, 1, 2],
                          [6, 0, 0, 0], known=(5, 9, 8, 7, 0))
    assert programs.steps(sending)[0] == (
        b"sending 2 51 51 51 0 0 figures 1 | 51 51 51 | 0 0 0 | 1"
        b" | master 0 0 0 0 0 0 four 9 8 7 0" + NO_MORE)


def steps_records_of_calls():
    # Stand-by, which hears its second call block behind the first; the same with
    # byte 18 for the second; and what is nobody's.
    head = [0, 6 + 12, 0, 1, 2, 3, 4, 0, 1, 1]
    own = list(OWN)
    line = programs.steps(step_record(head, OWN_2, [0, 0, 0, 0],
                                      behind=[9, 1 + 3] + own))[0]
    assert line == (b"receiving 1 0 0 0 0 0 letters 0 | 101 0 0 | 0 0 0 | 0"
                    b" | slave 0 0 0 0 0 0 nobody 0 0 0 0" + NO_MORE)
    line = programs.steps(step_record(head, OWN_2, [0, 0, 0, 0],
                                      behind=[9, 2 + 3] + own,
                                      known=(253, 1, 2, 3, 4)))[0]
    assert line == (b"standby 0 0 0 0 0 0 figures 1 | 0 0 0 | 0 0 0 | 0"
                    b" | master 8 2 0 0 0 0 four 1 2 3 4" + NO_MORE)
    # A call placed, and one that is refused.
    called = b" ".join(b"%d" % word for word in FAR)
    offered = step_record(head, [0, 0, 0], [4 + 6, 0, 0, 0], called=FAR)
    assert programs.steps(offered)[0] == (
        b"calling 0 0 0 0 0 0 letters 0 | %d %d %d | 0 0 0 | 1"
        b" | master 1 0 %s nobody 0 0 0 0" % (*FAR_1, called) + NO_MORE)
    assert programs.steps(offered[:30] + b"\0\0" + offered[32:])[0] == b"refused 8 2\n"
    # Calling goes on, and completes.
    head = [1, 8, 0] + list(FAR) + [0, 0, 0]
    assert programs.steps(step_record(head, [CS2, 0, 0], [1, A, A, A],
                                      behind=[5, 1, 0, 0, 0, 0]))[0] == (
        b"calling 0 0 0 0 0 0 letters 0 | %d %d %d | 0 0 0 | 0"
        b" | slave 6 2 %s nobody 0 0 0 0" % (*FAR_2, called) + NO_MORE)
    assert programs.steps(step_record(head, [CS2, 0, 0], [1, A, E, A],
                                      behind=[5, 254, 0, 0, 0, 0]))[0] == (
        b"sending 2 71 86 71 0 0 letters 0 | 71 86 71 | 0 0 0 | 1"
        b" | slave 0 0 0 0 0 0 four %s" % called + NO_MORE)
    # Fields that a place does not carry are ignored, and written as 0.
    for place in range(12):
        record = bytearray(step_record([0, place, 1, A, A, A, 1, 0, 0, 0], [0] * 3,
                                       [0] * 4, behind=[7, 1, 0, 0, 0, 0]))
        fields = programs.steps(bytes(record))[0].decode().split()
        told = [int(field) for field in fields[fields.index("master") + 1:][:6]]
        assert any(told) == (place in (6, 8, 9)), (place, told)
        ignored = [index for index, places in ((17, (6, 8, 9)), (18, (6, 8)))
                   if place not in places]
        line = programs.steps(bytes(record))
        for index in ignored:
            for byte in (0, 128, 255):
                record[index] = byte
                assert programs.steps(bytes(record)) == line


def numbers(words):
    return b" ".join(b"%d" % word for word in words)


def steps_records_of_identification():
    def line(head, burst, offer=(0,) * 4, *, known=0, of_other=NO_SEVEN, called=NO_SEVEN,
             own=OWN_7, blocks=0, stage=0, wrong=0, last_wrong=0, seven=NO_SEVEN,
             wait=0):
        record = step_record(
            head, burst, offer, behind=[wait, 0, 0, 0, 0, 0], known=(known, *of_other[:4]),
            called=called[:4], seven=(*own, *of_other[4:], *called[4:], blocks, stage,
                                      wrong, last_wrong, *seven, 9, 9, 9, 9))
        return programs.steps(record)[0]

    def told(place, burst, *, number=0, held=(0,) * 3, total=0, count=0, case=b"letters",
             taken=0, role=b"master", cycles=0, known=b"nobody", of_other=NO_SEVEN,
             blocks=0, stage=0, wrong=0, last_wrong=0, seven=NO_SEVEN):
        return (b"%s %d %s %d %d %s 0 | %s | 0 0 0 | %d | %s %d 0 0 0 0 0 %s %s"
                b" | %d %d %d %d %s %s | none 0\n" % (
                    place, number, numbers(held), total, count, case, numbers(burst),
                    taken, role, cycles, known, numbers(of_other[:4]), blocks, stage,
                    wrong, last_wrong, numbers(seven), numbers(of_other[4:])))

    def head(place, count=0, role=0):
        return [role, place, 0, 0, 0, 0, 0, count, 0, 0]

    # Stand-by: the run of blocks, and the call that completes it.
    for byte, blocks in enumerate(((), (1,), (1, 2), (2,), (2, 3))):
        for number in (1, 2, 3):
            left = SUCCESSION[blocks][number - 1]
            result = line(head(6), CALLS_OWN[number], blocks=byte + 5 * number, wait=3)
            if left == "whole":
                assert result == told(b"answering", (CS4, 0, 0), role=b"slave", stage=1)
            else:
                assert result == told(b"standby", SILENCE, cycles=2, blocks=(
                    (), (1,), (1, 2), (2,), (2, 3)).index(left))
    # A call placed; barred; refused.
    offer = (5 + 12, 0, 0, 0)
    assert line(head(6), SILENCE, offer, called=FAR_7, wait=3, known=2,
                of_other=FAR_7) == told(b"calling3", CALLS_FAR[1], taken=1, cycles=1,
                                        seven=FAR_7)
    assert line(head(6), SILENCE, offer, called=FAR_7, wait=3, known=3 + 4,
                of_other=FAR_7) == told(b"standby", SILENCE, cycles=2, known=b"barred",
                                        of_other=FAR_7)
    for index in range(14):
        words = list(FAR_7 + OWN_7)
        words[index] = RQ
        assert line(head(6, 32), SILENCE, offer, called=words[:7], own=words[7:]) == (
            b"refused 8 %d\n" % index)
    # Calling with three blocks, and what it hears.
    assert line(head(9), SILENCE, seven=FAR_7, wait=4) == told(
        b"calling3", CALLS_FAR[2], cycles=5, seven=FAR_7)
    assert line(head(9), (CS5, 0, 0), seven=FAR_7, wait=4) == told(
        b"ending", (ALPHA,) * 3, number=2, total=1, known=b"barred", of_other=FAR_7)
    assert line(head(9), (CS3, 0, 0), seven=FAR_7, wait=4) == told(
        b"standby", SILENCE, cycles=128, known=b"barred", of_other=FAR_7)
    assert line(head(9), (CS4, 0, 0), seven=FAR_7, wait=4) == told(
        b"identifying", TELLS_OWN[1], stage=1, seven=FAR_7)
    # Identifying.
    assert line(head(10, 3), (A, 0, 0), stage=4, wrong=2, last_wrong=E,
                seven=FAR_7) == told(b"identifying", TELLS_OWN[1], count=4, stage=1,
                                     wrong=3, last_wrong=A, seven=FAR_7)
    assert line(head(10, 3), (SUMS_FAR[2], 0, 0), stage=1, wrong=2, last_wrong=E,
                seven=FAR_7) == told(b"identifying", TELLS_OWN[3], stage=3, seven=FAR_7)
    assert line(head(10, 3), (CS3, 0, 0), stage=255, seven=FAR_7) == told(
        b"turning", TURN, number=2, known=b"seven", of_other=FAR_7)
    # Answering.
    assert line(head(11, 3, 1), TELLS_FAR[2], stage=1, seven=FAR_7[:2] + (9,) * 5) == told(
        b"answering", (SUMS_OWN[2], 0, 0), role=b"slave", stage=3,
        seven=FAR_7[:4] + (9,) * 3)
    assert line(head(11, 3, 1), RQ3, (2, 0, 0, 0), stage=3, seven=FAR_7) == told(
        b"asking", (CS3, 0, 0), taken=1, role=b"slave", known=b"seven", of_other=FAR_7)
    assert line(head(11, 31, 1), SILENCE, stage=2, seven=FAR_7) == told(
        b"standby", SILENCE, role=b"slave")
    # Fields that a place does not carry, and bytes 56 to 59: ignored.
    carried = {6: [45], 9: range(49, 56), 10: range(46, 56), 11: [46, *range(49, 56)]}
    for place in range(12):
        record = bytearray(step_record([0, place, 1, A, A, A, 1, 0, 0, 0], [0] * 3,
                                       [0] * 4, seven=[0] * 13 + [1] * 15))
        plain = programs.steps(bytes(record))
        for index in range(45, 60):
            if index not in carried.get(place, ()):
                for byte in (0, 127, 255):
                    record[index] = byte
                    assert programs.steps(bytes(record)) == plain, (place, index)


def steps_records_of_answers():
    def line(head, burst, offer=(0,) * 4, **fields):
        return programs.steps(step_record(head, burst, offer, **fields))[0]

    nobody = b" | slave 0 0 0 0 0 0 nobody 0 0 0 0"
    nothing = NO_MORE[:-len(b"none 0\n")]
    code = [4, A, E, L, A] + [0] * 16
    # The question, with something owed before it; an over in its block.
    head = [1, 4, 1, 0, 0, 0, 0, 0, 1, 0]
    assert line(head, [D, A, A], [2, 0, 0, 0], code=code, owed=(2, 1)) == (
        b"asking 0 0 0 0 0 0 figures 0 | 89 0 0 | 83 71 71 | 0" + nobody + nothing
        + b"back 0\n")
    assert line(head, [PLUS, QUERY, D], code=code, owed=(0, 77)) == (
        b"asking 0 0 0 0 0 0 figures 0 | 89 0 0 | 99 114 83 | 0" + nobody + nothing
        + b"keep 0\n")
    # Its blocks.
    head = [1, 2, 0, 0, 0, 0, 0, 0, 0, 0]
    for kind, index, block, left in (
            (1, 0, (A, E, L), b"back 1"), (2 + 3, 1, (A, BETA, BETA), b"keep 2"),
            (1 + 252, 4, mode_a.OVER, b"none 0"), (254, 3, (BETA,) * 3, b"none 0"),
            (1, 3, (BETA,) * 3, b"back 4")):
        assert line(head, [CS2, 0, 0], [3, 0, 0, 0], code=code, owed=(kind, index)) == (
            b"sending 2 %s 0 0 letters 0 | %s | 0 0 0 | 0" % (
                numbers(block), numbers(block)) + nobody + nothing + left + b"\n")
    # What is refused.
    for kind, index, length, told in (
            (1, 5, 4, b"4 0"), (2, 4, 4, b"4 0"), (0, 5, 4, None), (3, 255, 4, None),
            (0, 0, 21, b"9 0"), (1, 9, 21, b"9 0"), (1, 10, 21, b"4 0"),
            (2, 9, 21, b"4 0"), (1, 88, 255, b"4 0"), (1, 87, 255, b"9 0")):
        told = None if told is None else b"refused %s\n" % told
        result = line(head, SILENCE, code=[length] + [A] * 20, owed=(kind, index))
        assert result == told or told is None and result.endswith(b"| none 0\n")
    # Of the code only what is within the length, and nothing of byte 83, matters.
    record = bytearray(step_record(head, SILENCE, [0] * 4, code=code))
    plain = programs.steps(bytes(record))
    for index in (*range(56, 60), *range(65, 81), 82, 83):
        for byte in (0, D, RQ, 255):
            record[index] = byte
            assert programs.steps(bytes(record)) == plain
    for index in range(61, 65):
        spoilt = bytearray(record)
        spoilt[index] = BETA
        assert programs.steps(bytes(spoilt))[0] == b"refused 9 0\n"


def code_records():
    """Of `C`: each word at each place; the word behind the length is any."""
    data = bytearray()
    wanted = []
    for word in range(256):
        for index in range(20):
            words = [A] * 20
            words[index] = word
            data += b"C" + bytes([20] + words) + b"C" + bytes([index] + words)
            wanted.append("ok" if word in TRAFFIC and word != D else "refused 9 0")
            wanted.append("ok")
    for length in range(256):
        data += b"C" + bytes([length] + [A] * 20)
        wanted.append("ok" if length <= 20 else "refused 9 0")
    assert programs.calls(bytes(data)) == (
        "".join(line + "\n" for line in wanted).encode(), None)
    for length in range(1, 22):
        assert programs.calls(b"MG" + (b"C" + bytes(21))[:length]) == (
            b"1 1\n", "bad record at 2: cut short")


def calls_records():
    def record(kind, case, room, body):
        return (kind + bytes([case]) + room.to_bytes(2, "little")
                + len(body).to_bytes(2, "little") + body)

    good = (record(b"E", 0, 4, b"A1") + record(b"E", 1, 0, b"") +
            record(b"P", 3, 3, bytes([71, 255])) + record(b"E", 0, 2, b"A1") +
            b"S" + (36).to_bytes(4, "little") + b"\x01\x00\x56")
    lines = (b"ok 3 figures 47362EAA\nok 0 figures -\nok 2 figures 2D2AAA\n"
             b"refused 2 3 AAAA\nok 86\n")
    assert programs.calls(good) == (lines, None)
    # Small letters are taken as the capitals; P takes words, and 97 is none.
    assert programs.calls(
        record(b"E", 1, 3, b"a") + record(b"E", 1, 1, b"a")
        + record(b"E", 0, 2, b"a\xe1") + record(b"P", 0, 1, b"a")) == (
            b"ok 2 letters 5A47AA\nrefused 2 2 AA\nrefused 1 1 AAAA\n"
            b"refused 3 0 AA\n", None)

    def ends(tail, reason):
        told = "bad record at %d: %s" % (len(good), reason)
        assert programs.calls(good + tail) == (lines, told)

    for tail in (b"E", b"S\0\0\0", record(b"E", 0, 9, b"AB")[:-1], b"M",
                 # Too short for its room and its length to be told.
                 b"E\0\1\x20\5"):
        ends(tail, "cut short")
    for tail in (b"X", b"\0", b"e", b"w", b"y"):
        ends(tail + good, "no such kind")
    for tail in (record(b"E", 0, 8193, b""), record(b"P", 0, 8193, b"A" * 8194),
                 record(b"P", 0, 8193, b"AB")[:-1], record(b"P", 0, 8193, b"AB")[:-2]):
        ends(tail, "a room over 8192")
    ends(record(b"P", 0, 8192, b"A" * 8194), "a length over 8193")
    ends(record(b"P", 0, 8192, b"A" * 8194)[:6], "a length over 8193")
    ends(b"S\0\0\0\0\2\x20", "a length over 8193")


def meaning_records():
    data = b"".join(b"M" + bytes([byte]) for byte in range(256))
    lines = programs.calls(data)[0].decode().splitlines()
    assert len(lines) == 256
    for byte, line in enumerate(lines):
        number, intact = line.split(" ")
        # 01: below 128 and exactly four ones, counted here unit by unit.
        ones = sum(byte >> bit & 1 for bit in range(8))
        assert intact == ("1" if byte < 128 and ones == 4 else "0")
        assert (number == "0") == (intact == "0")
    told = {71: "1", 86: "5", 101: "12", 89: "14", 106: "32", 15: "33",
            51: "34", 102: "35"}
    for byte, number in told.items():
        assert lines[byte] == number + " 1"
    for byte in (0, 127, 199, 255):
        assert lines[byte] == "0 0"
    assert programs.calls(b"M") == (b"", "bad record at 0: cut short")
    assert programs.calls(b"MGM") == (b"1 1\n", "bad record at 2: cut short")


def identity_records():
    """Of `I`: each word at each place."""
    assert programs.calls(b"I" + bytes(OWN) + b"I\0\0\0\0") == (
        b"ok\nrefused 8 0\n", None)
    data = bytearray()
    wanted = []
    for word in range(256):
        for index in range(4):
            words = list(FAR)
            words[index] = word
            data += b"I" + bytes(words)
            wanted.append("ok" if word in spelt(TABLE_3B) else "refused 8 %d" % index)
    assert programs.calls(bytes(data)) == (
        "".join(line + "\n" for line in wanted).encode(), None)
    for length in range(1, 5):
        assert programs.calls(b"MG" + (b"I" + bytes(OWN))[:length]) == (
            b"1 1\n", "bad record at 2: cut short")


def both_identity_records():
    """Of `J`: each word at each place; the index is that in the eleven."""
    assert programs.calls(b"J" + bytes(OWN + OWN_7) + b"J" + bytes(11)) == (
        b"ok\nrefused 8 0\n", None)
    data = bytearray()
    wanted = []
    for word in range(256):
        for index in range(11):
            words = list(FAR + FAR_7)
            words[index] = word
            data += b"J" + bytes(words)
            wanted.append("ok" if word in LETTERS_3A else "refused 8 %d" % index)
    assert programs.calls(bytes(data)) == (
        "".join(line + "\n" for line in wanted).encode(), None)
    for length in range(1, 12):
        assert programs.calls(b"MG" + (b"J" + bytes(OWN + OWN_7))[:length]) == (
            b"1 1\n", "bad record at 2: cut short")


def stepped(*fields):
    """The line of an `R` record with these ten bytes behind its kind."""
    assert len(fields) == 10
    output, told = programs.calls(b"R" + bytes(fields))
    assert told is None and output.endswith(b"\n")
    return output.decode()[:-1]


def receive_records():
    # The lines worked in docs/FORMATS.md.
    assert stepped(1, 0, 0, 71, 72, 15, 1, 1, 0, 71) == "phase 0 72 15 dx 1 0 | 71"
    assert stepped(0, 3, 1, 0, 0, 0, 0, 0, 0, 15) == "phase 0 102 102 dx 0 0 | 0"
    assert stepped(0, 3, 0, 0, 0, 0, 0, 0, 0, 102) == "phase 102 102 102 rx 0 0 | 0"
    assert stepped(0, 4, 0, 0, 0, 0, 0, 0, 0, 15) == "refused 4 0"
    assert stepped(1, 0, 0, 71, 71, 15, 0, 1, 0, 15) == "phase 71 0 0 rx 1 3 | 0"
    assert stepped(1, 0, 0, 71, 15, 15, 1, 1, 3, 71) == "phase 0 0 0 dx 0 2 | 71"
    assert stepped(1, 0, 0, 15, 15, 15, 1, 1, 1, 71) == "searching 0 none | 0"
    assert stepped(1, 0, 0, 0, 0, 0, 0, 0, 4, 15) == "refused 4 0"
    # Refusal 4 for every run over 3 of a search and every wait over 3 in phase,
    # whatever is heard; and not for those of the other state.
    for run in range(256):
        for last in (0, 1):
            for word in (ALPHA, RQ, E, 0):
                line = stepped(0, run, last, 1, 1, 1, 1, 1, 255 - run, word)
                assert (line == "refused 4 0") == (run > 3)
                line = stepped(1, 255 - run, last, E, E, E, last, run, run, word)
                assert (line == "refused 4 0") == (run > 3)
        assert stepped(0, 3, 0, E, E, E, 1, 1, run, E) == "searching 0 none | 0"
        assert stepped(1, run, 0, E, E, E, 1, 1, 0, E).startswith("phase ")
    # The search.
    assert stepped(0, 0, 1, 0, 0, 0, 0, 0, 0, RQ) == "searching 1 RQ | 0"
    assert stepped(0, 0, 0, 0, 0, 0, 0, 0, 0, RQ) == "searching 1 RQ | 0"
    assert stepped(2, 1, 1, 0, 0, 0, 0, 0, 0, ALPHA) == "searching 2 alpha | 0"
    assert stepped(0, 3, 0, 0, 0, 0, 0, 0, 0, ALPHA) == "searching 1 alpha | 0"
    assert stepped(0, 3, 1, 0, 0, 0, 0, 0, 0, E) == "searching 0 none | 0"
    # In phase, next DX: the word waits, the oldest of the three is settled.
    assert stepped(1, 9, 9, 9, A, E, 0, 0, 0, L) == "phase %d %d %d rx 0 0 | 0" % (
        A, E, L)
    assert stepped(1, 0, 0, ALPHA, ALPHA, A, 0, 1, 0, ALPHA).startswith("phase ")
    # The second alpha: the wait begins, and the one in the middle waits.
    for middle in (A, 0, 255, ALPHA):
        for printing in (0, 1):
            assert stepped(1, 0, 0, 9, middle, ALPHA, 0, printing, 0, ALPHA) == (
                "phase %d 0 0 rx %d 3 | 0" % (middle, printing))
    # In phase, next RX: the oldest of the three is settled.
    assert stepped(1, 0, 0, LINE_FEED, A, E, 1, 0, 0, 255) == (
        "phase 0 %d %d dx 1 0 | %d" % (A, E, LINE_FEED))
    assert stepped(1, 0, 0, A, A, E, 1, 0, 0, A) == "phase 0 %d %d dx 0 0 | 0" % (A, E)
    assert stepped(1, 0, 0, A, A, E, 1, 1, 0, E).endswith(" | 255")
    assert stepped(1, 0, 0, RQ, A, E, 1, 1, 0, ALPHA).endswith(" | 0")
    assert stepped(1, 0, 0, ALPHA, A, E, 1, 1, 0, RQ).endswith(" | 255")
    assert stepped(1, 0, 0, BETA, A, E, 1, 1, 0, 0).endswith(" | 0")


def receive_records_that_wait():
    """02, T-03: the wait alone tells which word comes, whatever byte 7 is; of the
    words held the oldest counts at 3, and none behind it."""
    for following in (0, 1, 254, 255):
        for rest in ((ALPHA, ALPHA), (A, E), (0, 255), (ALPHA, A)):
            for dx in SORTS:
                for word in SORTS:
                    for printing in (0, 1):
                        held = (dx, *rest, following, printing)
                        settled = broadcast.settle(dx, word)
                        _, signal = broadcast.print_settled(printing == 1, settled)
                        assert stepped(1, 9, 9, *held, 3, word) == (
                            "phase 0 0 0 dx 0 2 | %d" % (signal or 0))
                        assert stepped(1, 9, 9, *held, 2, word) == (
                            "phase 0 0 0 rx 0 1 | 0")
                        assert stepped(1, 9, 9, *held, 1, word) == (
                            "searching 0 none | 0")


def receive_records_run_on():
    """A run of `R` records, each written from the line before it, prints what
    the receiver prints that runs by itself."""
    draw = random.Random(6)
    waits = 0
    for _ in range(40):
        sent = broadcast.slots(draw.choices(TRAFFIC + HEAD, k=draw.randrange(120)))
        words = [draw.choice(range(256)) if draw.random() < 0.1 else word
                 for word in sent + sent[draw.randrange(9):]]
        out = []
        fields = [0] * 9
        for word in words:
            receiver, _, signal = stepped(*(fields + [word])).partition(" | ")
            if signal != "0":
                out.append(int(signal))
            told = receiver.split(" ")
            if told[0] == "searching":
                fields = [0, int(told[1]), told[2] == "RQ"] + draw.choices(
                    range(256), k=6)
            else:
                fields = [1] + draw.choices(range(256), k=2) + [
                    int(number) for number in told[1:4]] + [
                    told[4] == "rx", int(told[5]), int(told[6])]
                if fields[8] > 0:
                    # The next slot, and what the line has as 0.
                    waits += 1
                    fields[6] = draw.randrange(256)
                    fields[4:6] = draw.choices(range(256), k=2)
                if fields[8] in (1, 2):
                    fields[3] = draw.randrange(256)
                    fields[7] = draw.randrange(256)
        assert out == received(words)[0]
    assert waits > 200


def receive_records_cut():
    record = b"R" + bytes([1, 0, 0, 71, 72, 15, 1, 1, 0, 71])
    line = b"phase 0 72 15 dx 1 0 | 71\n"
    assert programs.calls(record * 2) == (line * 2, None)
    for length in range(1, 11):
        assert programs.calls(record + record[:length]) == (
            line, "bad record at 11: cut short")


def why_program():
    """Records of 17 bytes: the place by 8, the offer by 4, and nothing of 02."""
    record = bytes([1, 4, 1, 9, 9, 9, 9, 31, 0, 0, 116, 86, 51, 0, 9, 9, 9])

    def told(**fields):
        changed = bytearray(record)
        for name, value in fields.items():
            changed[int(name[1:])] = value
        output, error = programs.why(bytes(changed))
        assert error is None and output.endswith(b"\n")
        return output.decode()[:-1]

    assert told() == "accepted"
    assert told(b11=0) == "time-out" and told(b11=0, b7=30) == "bad 1 0"
    assert told(b7=32) == "refused 4 0" and told(b7=32, b13=1) == "refused 4 0"
    assert told(b13=1) == "refused 3 0" and told(b13=1, b14=71) == "refused 3 1"
    for offer in range(256):
        # 2 is over, also where the remainder by 6 is a call.
        wanted = {0: "accepted", 1: "refused 3 0", 2: "over-offered", 3: "accepted"}
        assert told(b13=offer) == wanted[offer % 4]
    for place in range(256):
        line = told(b1=place, b7=0, b3=71, b4=71, b5=71, b6=1)
        # 116 is a letter, and no control signal.
        assert line == ("unexpected", "unexpected", "unexpected", "unexpected",
                        "accepted", "unexpected", "silent", "silent")[place % 8]
    assert told(b8=1, b10=83) == told(b8=255, b10=83) == "who-are-you"
    assert told(b8=1, b9=1, b10=114) == told(b8=3, b9=255, b10=114) == "over-heard"
    assert told(b8=1, b9=2, b10=114) == told(b8=2, b9=1, b10=114) == "accepted"
    # Each place as the station of `steps` with zeros behind.
    draw = random.Random(17)
    for _ in range(4000):
        fields = bytearray(draw.randbytes(17))
        fields[1] %= 8
        fields[13] %= 4
        assert programs.why(bytes(fields)) == programs.calls(
            b"W" + bytes(fields) + bytes(67))
    # A short last record is ignored.
    for length in range(17):
        assert programs.why(record * 2 + record[:length]) == (b"accepted\n" * 2, None)


def stars_program():
    sent = broadcast.slots([E, A])
    sent[36], sent[41] = 7, 9
    data = programs.write_words(sent)
    assert programs.stars(data) == (b"41 bad 7 9\n", None)
    assert programs.stars(b"") == programs.stars(b" \n") == (b"", None)
    # The lines before a fault stay, and a word that is cut by the end is one.
    runs = [b"%d" % word for word in sent]
    for index, lines in ((41, b""), (42, b"41 bad 7 9\n"), (60, b"41 bad 7 9\n")):
        before = b" ".join(runs[:index]) + b" "
        for run, reason in ((b"256", "over 255"), (b"7x", "a byte that is no digit")):
            assert programs.stars(before + run + b" 1 2") == (
                lines, "not a number at %d: %s" % (len(before), reason))
    assert programs.stars(b" ".join(runs[:42])) == (b"41 bad 7 9\n", None)
    assert programs.run("stars", (), b"7x") == (
        b"", b"stars: not a number at 0: a byte that is no digit\n", 1)


def reason_and_star_records():
    """Of `W` and `Y` of `calls`."""
    head = [1, 4, 1, 9, 9, 9, 9, 31, 0, 0]
    accepted = b"W" + step_record(head, [116, 86, 51], [0, 9, 9, 9])
    lost = b"W" + step_record(head, [116, 0, 51], [3, 9, 9, 9])
    refused = b"W" + step_record(head, [116, 0, 51], [7, 71, 51, 15])
    coded = b"W" + step_record(head, [116, 86, 51], [7, 0, 0, 0],
                               code=[21] + [71] * 20)
    # Byte 1 by 12 and byte 13 by 6.
    called = b"W" + step_record([0, 18, 0, 1, 2, 3, 4, 0, 1, 1], OWN_2, [10, 0, 0, 0],
                                behind=[9, 4, *OWN], called=FAR)
    offered = b"W" + step_record([0, 18, 0, 1, 2, 3, 4, 0, 1, 1], OWN_2, [10, 0, 0, 0],
                                 behind=[0, 3, *OWN], called=FAR)
    bad_call = b"W" + step_record(head, [116, 86, 51], [10, 0, 0, 0])
    data = accepted + lost + refused + coded + called + offered + bad_call
    lines = (b"accepted\ntime-out\nrefused 3 2\nrefused 9 0\ncalled\ncall-offered\n"
             b"refused 8 0\n")
    assert programs.calls(data) == (lines, None)
    for length in range(1, 85):
        assert programs.calls(b"MG" + accepted[:length]) == (
            b"1 1\n", "bad record at 2: cut short")

    def star(*fields):
        assert len(fields) == 10
        return programs.calls(b"Y" + bytes(fields))[0].decode()[:-1]

    assert star(1, 0, 0, A, E, E, 1, 1, 0, E) == "unlike %d %d" % (A, E)
    assert star(1, 0, 0, 0, E, E, 1, 1, 0, 255) == "bad 0 255"
    assert star(1, 0, 0, 0, E, E, 3, 255, 0, 255) == "bad 0 255"
    assert star(1, 0, 0, A, E, E, 1, 0, 0, E) == "none"       # not begun
    assert star(1, 0, 0, A, E, E, 0, 1, 0, E) == "none"       # a DX
    assert star(1, 0, 0, A, E, E, 1, 1, 0, A) == "none"
    assert star(1, 0, 0, A, E, E, 1, 1, 0, 0) == "none"
    assert star(1, 0, 0, RQ, E, E, 1, 1, 0, ALPHA) == "none"
    assert star(1, 0, 0, ALPHA, E, E, 1, 1, 0, RQ) == "unlike %d %d" % (ALPHA, RQ)
    for following in (0, 1):
        assert star(1, 0, 0, 0, E, E, following, 1, 3, 9) == "bad 0 9"
        assert star(1, 0, 0, 0, E, E, following, 0, 3, 9) == "none"
        for wait in (1, 2):
            assert star(1, 0, 0, 0, E, E, following, 1, wait, 9) == "none"
    assert star(0, 3, 0, 0, 0, 0, 1, 1, 9, 9) == "none"
    assert star(0, 4, 0, 0, 0, 0, 1, 1, 0, 9) == "refused 4 0"
    assert star(1, 0, 0, 0, 0, 0, 1, 1, 4, 9) == "refused 4 0"
    assert star(1, 9, 0, A, E, E, 1, 1, 0, A) == "none"
    for length in range(1, 11):
        assert programs.calls(b"MG" + (b"Y" + bytes(10))[:length]) == (
            b"1 1\n", "bad record at 2: cut short")


# --- second/compare ---

def load_compare():
    path = os.path.join(os.path.dirname(os.path.abspath(__file__)), "compare")
    loader = importlib.machinery.SourceFileLoader("compare", path)
    module = importlib.util.module_from_spec(
        importlib.util.spec_from_loader("compare", loader))
    loader.exec_module(module)
    return module


compare = load_compare()
COMPARED = ["encode", "print", "send", "receive", "hear", "passage", "steps", "why",
            "stars", "calls"]


def compare_names_all_programs():
    assert sorted(compare.LEAST) == sorted(COMPARED) == sorted(programs.PROGRAMS)
    assert sorted(inputs.NAMES) == sorted(COMPARED)
    assert all(compare.EXCEPTIONS.values())
    listed = COMPARED + sorted(compare.EXCEPTIONS)
    faults = compare.faults_of_the_list
    assert faults(listed, listed, COMPARED) == []
    # One gone from crates.txt, whether or not its directory is there.
    for gone in listed:
        rest = [name for name in listed if name != gone]
        for on_disk in (rest, listed):
            told = faults(rest, on_disk, COMPARED)
            assert len(told) == 1 and told[0].startswith(gone + ": MISSING")
    assert len(faults([], [], COMPARED)) == len(listed)
    # One without inputs.
    for gone in COMPARED:
        told = faults(listed, listed, [name for name in COMPARED if name != gone])
        assert len(told) == 1 and told[0].startswith(gone + ": NOT COMPARED")
    # One that nobody knows, listed or only on disk.
    for more in (listed + ["fax"], listed):
        told = faults(more, listed + ["fax"], COMPARED)
        assert len(told) == 1 and told[0].startswith("fax: NOT COMPARED")


def compare_counts_inputs():
    for name, least in compare.LEAST.items():
        assert len(least) > 1 and all(amount > 0 for amount in least.values())
        # Nothing at all, and as many inputs as are asked with nothing in them.
        assert len(compare.shortages(name, [])) == len(least)
        empty = [inputs.quickly("empty", b"")] * least["inputs"]
        assert len(compare.shortages(name, empty)) == len(least) - 1
    # Without the inputs of one kind of `calls`.
    all_cases = gate_cases("calls")
    assert compare.shortages("calls", all_cases) == []
    for kind in inputs.KINDS:
        without = [case._replace(data=b"".join(
            case.data[first:behind]
            for first, behind in inputs.call_records(case.data)
            if case.data[first] != kind)) for case in all_cases]
        told = compare.shortages("calls", without)
        assert len(told) == 1 and "TOO FEW %s" % chr(kind) in told[0]


def compare_wants_every_reason():
    """A reason that no input gives is a failure, and so is one that nobody knows."""
    tellers = {"why": ["why"], "stars": ["stars"], "calls": ["calls W", "calls Y"]}
    assert sorted(compare.MET) == sorted(key for keys in tellers.values() for key in keys)
    names = {name for name, _ in reasons.REASONS}
    assert {begins.split()[0] for begins in compare.MET["calls W"]} == names | {"refused"}
    for name in inputs.NAMES:
        found = set()
        for case in gate_cases(name):
            # Of `calls`, the inputs that are there for reasons are enough.
            if name in tellers and (name != "calls" or "reasons" in case.about):
                output = programs.run(name, case.words, case.data).output
                found |= compare.met_in(name, case, output)
        assert compare.not_met(name, found) == []
        assert {key for key, _ in found} == set(tellers.get(name, ()))
        for one in found:
            told = compare.not_met(name, found - {one})
            assert told == ["%s: NOT MET: %s" % one]
        if name in tellers:
            other = (tellers[name][0], "fading")
            assert compare.not_met(name, found | {other}) == [
                "%s: NOT EXPECTED: fading" % other[0]]
            # Without any input none is met.
            assert len(compare.not_met(name, set())) == len(found)
    # A program that gives an answer to every record, and always the same.
    case = inputs.quickly("all", b"".join(gate_inputs("why")))
    assert compare.met_in("why", case, b"accepted\n" * 99) == {("why", "accepted")}


# A stand-in for a proved `hear`: it answers each burst as it comes.
STAND_IN = """
import os, sys
sys.path.insert(0, sys.argv[1])
import programs
data, done, more = b"", 0, b"x"
while True:
    output = programs.hear(data[:len(data) // 3 * 3] if more else data)[0]
    os.write(1, output[done:])
    done = len(output)
    if not more:
        break
    more = os.read(0, 4096)
    data += more
"""


def compare_tells_who_does_not_answer():
    def stand_in(*command):
        def started(name, words, standard_input, standard_output=subprocess.PIPE):
            return subprocess.Popen(
                [*command, name], stdin=standard_input, stdout=standard_output,
                stderr=subprocess.PIPE, bufsize=0, start_new_session=True)
        return started

    kept = compare.started, compare.ANSWER_LIMIT
    try:
        compare.started = stand_in(sys.executable, "-B", "-c", STAND_IN,
                                   os.path.dirname(SCRIPT))
        talk = inputs.CONVERSATIONS["hear"][0]
        assert compare.converse("hear", talk) is None
        # It answers `hear`, whatever it is asked.
        assert "came for" in compare.converse("steps", inputs.CONVERSATIONS["steps"][0])
        # The second program answers when its input has ended.
        compare.ANSWER_LIMIT = 0.3
        compare.started = stand_in(SCRIPT)
        for name in ("hear", "receive"):
            told = compare.converse(name, inputs.CONVERSATIONS[name][0])
            assert "has not come" in told
        assert compare.converse("print", inputs.CONVERSATIONS["print"][0]) == (
            "it has not ended")
        # What is handed words may not read.
        usage = inputs.with_words(b"71")[0]
        compare.started = stand_in("sh", "-c", "cat > /dev/null")
        assert compare.run_proved("print", usage).trouble == "has read its input"
        compare.started = stand_in("sh", "-c", "exit 2")
        assert compare.run_proved("print", usage) == (b"", b"", 2, None)
    finally:
        compare.started, compare.ANSWER_LIMIT = kept


# --- The inputs: that they hold what they are there for ---

GATE_CASES = {}


def gate_cases(name):
    """The inputs of the gate, made once."""
    if name not in GATE_CASES:
        GATE_CASES[name] = inputs.cases(name, inputs.GATE_SEED)
    return GATE_CASES[name]


def gate_inputs(name):
    return [case.data for case in gate_cases(name) if not case.words]


def inputs_are_bytes():
    for name in inputs.NAMES:
        assert all(type(case.data) is bytes for case in gate_cases(name))
    for name in ("encode", "receive"):
        assert inputs.inputs_for(name) == gate_inputs(name)
        assert inputs.cases(name, 625) == gate_cases(name)
        assert inputs.inputs_for(name, 626) != gate_inputs(name)


def inputs_at_borders():
    """What is read and what is written ends before, at and behind the borders of
    blocks, and is given in each way."""
    for name in inputs.NAMES:
        cases = gate_cases(name)
        assert {case.fed for case in cases} == set(range(4))
        size = {len(programs.run(name, case.words, case.data).output)
                for case in cases if case.fed == inputs.FROM_A_FILE}
        assert {4096, 8192} <= size and size & {4094, 4095} and size & {4097, 4098}
    for name in ("print", "send", "receive", "stars"):
        # A number of three digits stands before, across and behind the border.
        found = set()
        for data in gate_inputs(name):
            for border in range(4096, len(data), 4096):
                around = data[border - 3:border + 3]
                found.add("".join("9" if 48 <= byte <= 57 else " " if byte == 32
                                  else "x" for byte in around))
        assert {"999 99", "99 999", "9 999 ", " 999 9"} <= found


def inputs_tell_each_line():
    """Each line of standard error that docs/FORMATS.md has for a program, but
    for failed reads and writes, is one that some input gives."""
    reasons = {
        "encode": ["over 4096 characters", "the character at index N has no signal"],
        "print": ["over 8192 signals", "over 255", "a byte that is no digit",
                  "the word at index N is neither traffic nor the error mark"],
        "send": ["over 8192 signals", "over 255", "a byte that is no digit",
                 "the word at index N is not traffic"],
        "receive": ["over 255", "a byte that is no digit"],
        "stars": ["over 255", "a byte that is no digit"],
        "calls": ["no such kind", "cut short", "a room over 8192",
                  "a length over 8193"],
        "passage": ["no such kind", "the body is cut short", "over 262144 bytes",
                    "a burst out of turn, or bits 3 to 7 set",
                    "the last offer is not taken yet",
                    "a word that is neither traffic nor beta"],
        "hear": [], "steps": [], "why": [],
    }
    for name, wanted in reasons.items():
        found = {}
        for case in gate_cases(name):
            long = 30000 < len(case.data) <= programs.MOST_RECORD
            if (name in ("hear", "steps", "why") or long) and not case.words:
                # Long ones tell nothing that short ones do not, but that they are long.
                continue
            error = programs.run(name, case.words, case.data).error.decode()
            told = error.strip().split(": ")[-1]
            told = " ".join("N" if name in ("encode", "print", "send")
                            and before == "index" else word for before, word in
                            zip([""] + told.split(" "), told.split(" ")))
            found[told] = found.get(told, 0) + 1
        found.pop("", None)
        assert found.pop("./telex %s < input" % name) == 3
        assert sorted(found) == sorted(wanted), (name, found)
        assert all(amount >= 2 for amount in found.values())


def conversations_are_answered():
    assert sorted(inputs.CONVERSATIONS) == sorted(inputs.NAMES)
    for name in ("hear", "steps", "why", "calls", "receive", "stars"):
        for pieces in inputs.CONVERSATIONS[name]:
            # Something has to come for a piece, before the next one.
            answers = [programs.run(name, (), compare.whole_part(
                name, b"".join(pieces[:number]))).output.rstrip()
                for number in range(len(pieces) + 1)]
            assert sum(one != two for one, two in zip(answers, answers[1:])) >= 3
    ends = [programs.run(name, (), b"".join(pieces)).status
            for name in inputs.NAMES for pieces in inputs.CONVERSATIONS[name]]
    assert ends.count(programs.TOLD) >= 6 and ends.count(programs.DONE) >= 3


def step_inputs(data):
    size = programs.RECORD
    return [data[start:start + size] for start in range(0, len(data) - size + 1, size)]


def inputs_of_steps():
    records = [one for data in gate_inputs("steps") for one in step_inputs(data)]
    # Each field with each byte; the fields drawn apart from one another, which
    # no run of stations leaves.
    for index in range(84):
        assert len({record[index] for record in records}) == 256
    # Around the time-out at each place, with either role.
    around = {}
    for record in records:
        key = (record[0] % 2, record[1] % 12, record[7])
        around[key] = around.get(key, 0) + 1
    for role in range(2):
        for place in range(12):
            for count in (0, 30, 31, 32):
                assert around[role, place, count] >= 50
    # Chains: counts 0 to 31 one after another, at each place with a count.
    climbed = {}
    length = 0
    for before, after in zip(records, records[1:]):
        same = before[1] % 12 == after[1] % 12 and before[0] % 2 == after[0] % 2
        length = length + 1 if same and after[7] == before[7] + 1 else 0
        if length == 31:
            climbed[after[1] % 12] = climbed.get(after[1] % 12, 0) + 1
    for place in (0, 1, 2, 4, 5, 10, 11):
        assert climbed[place] >= 4
    # Damage by any mutilated byte, at each place of the burst.
    bad = set(MUTILATED)
    for index in (10, 11, 12):
        heard = [record[index] for record in records]
        assert bad <= set(heard)
        assert sum(word in bad and word != 0 for word in heard) > 20000


def inputs_of_calls():
    """02, T-02: what the inputs of `steps` hold of calls.  The input that is there
    for them alone has it."""
    data = [case.data for case in gate_cases("steps") if case.about == "calls"]
    found = {}
    for record in step_inputs(data[0]):
        station, burst, offer = programs.read_step(record)
        result = mode_a.step(station, burst, offer)
        keys = []
        if isinstance(result, Refused):
            if result.number == 8:
                keys = [("8", station.place), ("8 at", result.beside)]
                keys += [("8 before 4", station.place)] * (station.count > 31)
        elif station.place == STANDBY and result.station.place == RECEIVING:
            keys = [("answered behind", station.last), ("answered", offer.kind),
                    ("answered, to wait", station.cycles)]
        elif station.place == STANDBY and result.station.place == CALLING:
            keys = [("placed, half heard", station.last)]
        elif station.place == STANDBY:
            keys = [("heard, then", station.last, result.station.last),
                    ("not placed, to wait", station.cycles, offer.kind)]
        elif station.place == CALLING and result.station.place in (SENDING, ENDING):
            keys = [("completed under", station.last), ("completed", offer.kind),
                    ("completed, sent", station.cycles)]
        elif station.place == CALLING:
            keys = [("called, heard", station.last, result.station.last),
                    (result.station.place, "sent", station.cycles)]
        for key in keys:
            found[key] = found.get(key, 0) + 1

    def has(least, *key):
        assert found.get(key, 0) >= least, (key, found.get(key, 0))

    around = (0, 1, 2, 127, 128, 129, 255)
    for place in PLACES:
        has(20, "8", place)
        has(5, "8 before 4", place)
    for index in range(4):
        has(50, "8 at", index)
        assert index == 0 or found["8 at", index] < 3000
    for kind in programs.OFFERS:
        has(10, "answered", kind)
        has(20, "completed", kind)
    for number in (1, 2):
        has(100, "answered behind", number)
        has(100, "completed under", number)
    for last in range(3):
        has(15, "placed, half heard", last)
        for heard in range(3):
            if last + heard != 3:
                has(20, "heard, then", last, heard)
            if last != heard or last == 0:
                has(20, "called, heard", last, heard)
    for cycles in around:
        has(8, "answered, to wait", cycles)
        has(8, "completed, sent", cycles)
        has(8, STANDBY, "sent", cycles)
        if cycles > 0:
            has(4, "not placed, to wait", cycles, "call")
    for cycles in range(1, 128):
        has(1, CALLING, "sent", cycles)
        # The whole wait, each step of it with a call offered.
        has(1, "not placed, to wait", cycles, "call")
    assert not any((CALLING, "sent", cycles) in found for cycles in range(128, 256))
    assert ("not placed, to wait", 0, "call") not in found


def keys_of_identification(station, burst, offer, result):
    """What a record of `steps` tries of 02, T-05."""
    place, stage = station.place, station.stage
    barred = station.other_end == mode_a.Barred(tuple(offer.words))
    if isinstance(result, Refused):
        if result.number == 8 and offer.kind == "call of seven":
            yield "8", place
            yield "8 at", result.beside
            if station.count > 31:
                yield "8 before 4", result.beside
        return
    after = result.station
    if place == STANDBY:
        number = mode_a.own_call_block_of_seven(station, burst)
        yield "heard", station.blocks, number, after.place
        if after.place == ANSWERING:
            yield "answered", offer.kind
            yield "answered, to wait", station.cycles
        if number and after.last:
            yield "both heard", after.last, after.blocks
        if offer.kind == "call of seven" and after.place in (STANDBY, CALLING_3):
            yield "offered", station.cycles, barred, after.place
    elif place == CALLING_3:
        yield "calling", burst[0] if burst[0] in (CS1, CS2, CS3, CS4, CS5) else 0, after.place
        yield "sent", station.cycles, after.place
        yield "calling offered", offer.kind, after.place
    elif place == IDENTIFYING:
        letter = signals.is_identity_signal(burst[0])
        expected = stage < 4 and burst[0] == mode_a.check_sum(station.seven, stage)
        sort = ("expected" if expected else "same" if letter and (
            burst[0] == station.last_wrong) else "letter" if letter else
            burst[0] if burst[0] in (CS1, CS2, CS3, CS4, CS5, RQ) else "other")
        yield "identifying", stage, min(station.wrong, 6), sort
        yield "identifying, count", stage, station.count, after.place
        if stage == 4 and after.place != IDENTIFYING:
            yield "identified", offer.kind, after.place
    elif place == ANSWERING:
        number = mode_a.identification_heard(burst)
        yield "answering", stage, number, after.stage, result.burst[0] == RQ
        yield "answering, count", stage, station.count, after.place
        if burst == RQ3:
            yield "last block", stage, offer.kind, after.place
    if after.place in (STANDBY, LOST) and place != after.place:
        kind = programs.other_end_fields(station.other_end)[0]
        yield "entered", place, kind, after.place


def inputs_of_identification():
    """02, T-05: what the input of `steps` that is there for it holds."""
    data = [case.data for case in gate_cases("steps") if case.about == "identification"]
    found = {}
    for record in step_inputs(data[0]):
        station, burst, offer = programs.read_step(record)
        result = mode_a.step(station, burst, offer)
        for key in keys_of_identification(station, burst, offer, result):
            found[key] = found.get(key, 0) + 1

    def has(least, *key):
        assert found.get(key, 0) >= least, (key, found.get(key, 0))

    for place in PLACES:
        has(40, "8", place)
    for index in range(14):
        has(100, "8 at", index)
        has(20, "8 before 4", index)
    for blocks, left in SUCCESSION.items():
        for number in (0, 1, 2, 3):
            whole = left[number - 1] == "whole" and number > 0
            has(20, "heard", blocks, number, ANSWERING if whole else STANDBY)
    for kind in programs.OFFERS:
        has(8, "answered", kind)
        has(2, "last block", 4, kind, ASKING if kind == "over" else RECEIVING)
        has(2, "identified", kind, ENDING if kind == "end" else SENDING)
        has(2, "identified", kind, TURNING)
        has(8, "calling offered", kind, CALLING_3)
        has(2, "calling offered", kind, IDENTIFYING)
    for cycles in (0, 1, 128):
        has(3, "answered, to wait", cycles)
        has(4, "offered", cycles, True, CALLING_3 if cycles == 0 else STANDBY)
        has(4, "offered", cycles, False, CALLING_3)
    has(8, "both heard", 1, (1,))
    for first, left in ((CS1, CALLING_3), (CS2, CALLING_3), (0, CALLING_3),
                        (CS3, STANDBY), (CS4, IDENTIFYING), (CS5, ENDING)):
        has(20, "calling", first, left)
    for sent in range(256):
        has(1, "sent", sent, CALLING_3 if sent < 128 else STANDBY)
        has(1, "sent", sent, IDENTIFYING)
        has(1, "sent", sent, ENDING)
    for stage in (1, 2, 3):
        for wrong in range(7):
            for sort in ("expected", "same", "letter", CS1, CS2, CS3, CS4, CS5, RQ,
                         "other"):
                has(2, "identifying", stage, wrong, sort)
    for stage in (1, 2, 3, 4):
        for first in (CS1, CS2, CS3, CS4, CS5, RQ, "letter", "other"):
            has(5, "identifying", 4, 0, first)
        for place, kind in ((IDENTIFYING, "identifying"), (ANSWERING, "answering")):
            has(10, kind + ", count", stage, 30, place)
            has(10, kind + ", count", stage, 31, STANDBY)
        for number in (0, 1, 2, 3):
            if number == stage:
                has(20, "answering", stage, number, stage + 1, False)
            elif number > 0 and number == stage - 1:
                has(10, "answering", stage, number, stage, False)
                has(10, "answering", stage, number, stage, True)
            else:
                has(10, "answering", stage, number, stage, stage > 1)
    for place in (OPENING, ENDING, RECEIVING, CALLING, CALLING_3, IDENTIFYING, ANSWERING):
        for kind in ("nobody", "four", "seven", "barred"):
            has(2, "entered", place, kind, STANDBY)
    for place in (SENDING, TURNING, OPENING, RECEIVING, ASKING):
        for kind in ("nobody", "four", "seven", "barred"):
            has(2, "entered", place, kind, LOST)


def inputs_of_answers():
    """02, T-06: what the input of `steps` that is there for it holds, and the records
    of `C`."""
    data = [case.data for case in gate_cases("steps") if case.about == "answer-back"]
    found = {}

    def has(least, *key):
        assert found.get(key, 0) >= least, (key, found.get(key, 0))

    for record in step_inputs(data[0]):
        station, burst, offer = programs.read_step(record)
        result = mode_a.step(station, burst, offer)
        place, code, owed = station.place, station.code, station.owed
        passes = code.length <= 20 and passes_by_hand(code.words[:code.length])
        keys = []
        if isinstance(result, Refused):
            keys = [("refused", result.number, place)]
            beyond = owed is not None and owed.index >= len(
                blocks_by_hand(code, owed.kind)) and code.length <= 20
            if result.number == 8:
                keys += [("8 before 9", place)] * (not passes)
                keys += [("8 before 4", place)] * beyond
            if result.number == 4 and beyond and station.count < 32:
                keys += [("4 before 9", place)] * (not passes)
                keys += [("4 before 3", place)] * (offer.kind == "text")
            if result.number == 9:
                keys += [("9 before 3", place)] * (
                    offer.kind == "text" and not set(offer.words) <= set(TRAFFIC + [BETA]))
                keys += [("9 of length", code.length)]
            if result.number == 4 and owed is not None:
                keys += [("past the last", code.length, owed.kind)]
        else:
            after = result.station
            taking = takes(station, after) or (
                place == IDENTIFYING and after.place == SENDING)
            if place == RECEIVING and result.printed and D in burst:
                at_places = tuple(word == D for word in burst)
                keys = [("D at", at_places, station.case, after.place),
                        ("D offered", offer.kind, after.owed and after.owed.kind)]
            if owed is not None and taking:
                keys = [("block", place, code.length, owed), ("taken", place, offer.kind)]
            if owed is not None and place == SENDING and after.place == TURNING:
                keys = [("dropped", owed.kind)]
            if owed is not None and after.place == STANDBY != place:
                keys = [("rested", place, owed.kind)]
            if owed is not None and place == STANDBY:
                keys = [("call", after.place, owed.kind)]
            if owed is not None and after.place == place and after.owed == owed:
                keys.append(("kept", place, owed.kind))
        for key in keys:
            found[key] = found.get(key, 0) + 1
    # Each block of each length, at each row that takes.
    for length in range(21):
        code = Code(length, (A,) * 21)
        for kind in ("back", "keep"):
            has(3, "past the last", length, kind)
            for index in range(len(blocks_by_hand(code, kind))):
                for place in (SENDING, OPENING, CALLING, IDENTIFYING):
                    has(1, "block", place, length, Owed(kind, index))
    for length in inputs.LENGTHS_OVER:
        has(3, "9 of length", length)
    for place in PLACES:
        has(20, "refused", 4, place)
        has(40, "refused", 9, place)
        for order in ("8 before 9", "8 before 4", "4 before 9", "4 before 3", "9 before 3"):
            has(2, order, place)
    for kind in ("back", "keep"):
        has(20, "dropped", kind)
        for place in (OPENING, ENDING, RECEIVING, CALLING, CALLING_3, ANSWERING):
            has(2, "rested", place, kind)
        for place in (STANDBY, RECEIVING, ANSWERING, CALLING, CALLING_3):
            has(5, "call", place, kind)
        for place in PLACES:
            has(5, "kept", place, kind)
    for offer in programs.OFFERS:
        for place in (SENDING, OPENING, CALLING, IDENTIFYING):
            has(2, "taken", place, offer)
        for kind in ("back", "keep", None):
            has(10, "D offered", offer, kind)
    for one in (False, True):
        for two in (False, True):
            for three in (False, True):
                if one or two or three:
                    has(5, "D at", (one, two, three), "figures", ASKING)
                    has(5, "D at", (one, two, three), "letters", RECEIVING)
    # Of `C`, both answers to codes of each length, and each sort of word.
    answers = {}
    for case in gate_cases("calls"):
        for first, behind in inputs.call_records(case.data):
            if case.data[first:first + 1] == b"C":
                length, *words = case.data[first + 1:behind]
                key = min(length, 21), length <= 20 and passes_by_hand(words[:length])
                answers[key] = answers.get(key, 0) + 1
    assert answers[0, True] >= 20 and answers[21, False] >= 200
    for length in range(1, 21):
        assert answers[length, True] >= 30 and answers[length, False] >= 30, length


def keys_of_passage(record):
    """What a record tries, as the inputs are to hold it: what each burst is heard at,
    and the entry that is refused, with what else would be."""
    run = passages.Run()
    place = 0
    keys = []
    while place < len(record):
        number = passages.refusal_of(run, record, place)
        kind = record[place]
        left = len(record) - place - 1
        whose = (passages.SLAVE, passages.MASTER)[kind % 2]
        side = run.sides[whose]
        stands = None if side.offer is None else side.offer.kind
        words = record[place + 1:place + 4]
        bad = [index for index, word in enumerate(words)
               if word not in TRAFFIC and word != BETA]
        if number == 10:
            keys.append((10, kind, place == 0, left == 0))
        elif number == 11:
            keys.append((11, kind, left, run.sender == whose if kind < 3 else
                         (stands is not None, bad != [])))
        elif number == 12:
            keys.append((12, kind, words[0], run.sender == whose))
        elif number == 13:
            keys += [(13, kind, stands), (13, kind, side.station.place)]
            keys += [(13, kind, "3")] * (kind < 5 and bad != [])
        elif number == 3:
            keys += [(3, kind, len(bad)), (3, bad[0], words[bad[0]])]
        if number is not None:
            return keys
        if kind < 3:
            hearer = run.sides[passages.OTHER[whose]]
            before = hearer.station
            offered = None if hearer.offer is None else hearer.offer.kind
            keys.append(("heard", before.master, before.place, words[0]))
        place = passages.go(run, record, place)
        if kind < 3:
            after = hearer.station
            if after.place == LOST != before.place:
                keys += [("lost", before.master, before.place), ("lost with", offered)]
            if offered is not None:
                kept = hearer.offer is not None
                keys.append(("pressed", before.place, offered, kept))
                keys += [("waits for an answer", offered)] * (
                    kept and before.owed is not None and after.owed != before.owed)
            keys += [("turned", before.master)] * (
                before.place == TURNING and after.place == RECEIVING)
            keys += [("count 31 and on", before.place)] * (
                before.count == 31 and after.place != LOST)
    keys.append("clean")
    keys += [("prints", whose, side.case) for whose, side in run.sides.items()
             if side.printed]
    return keys


def inputs_of_passages():
    """02, T-07: what the records of `V` hold, and the inputs of `passage`."""
    found = {}

    def has(least, *key):
        assert found.get(key, 0) >= least, (key, found.get(key, 0))

    def count(keys):
        for key in keys:
            found[key] = found.get(key, 0) + 1

    for data in gate_inputs("calls"):
        for first, behind in inputs.call_records(data):
            if data[first:first + 1] != b"V":
                continue
            record = data[first + 7:behind]
            keys = keys_of_passage(record)
            count(keys)
            lent = [int.from_bytes(data[at:at + 2], "little")
                    for at in (first + 1, first + 3)]
            rooms = [bytearray(8192), bytearray(8192)]
            result = passages.passage(record, *rooms)
            if isinstance(result, Refused):
                count([("refused", result.number, lent[0] == 0, lent[1] == 0)])
                continue
            assert "clean" in keys
            # -1 is one too short, 1 is longer than needed; and whether any is needed.
            spare = [max(min(room - needed, 1), -1) for room, needed in zip(lent, result)]
            one_short = [room == needed - 1 for room, needed in zip(lent, result)]
            count([("rooms", *spare), ("one short", *one_short),
                   ("needed", result.master > 0, result.slave > 0),
                   ("unlike", result.master != result.slave, *spare)])
    for kind in (0, *range(9, 256)):
        for first in (False, True):
            has(1, 10, kind, first, True)
        has(2, 10, kind, False, False)
    for kind in (1, 2):
        for in_turn in (False, True):
            has(5, 11, kind, 0, in_turn)
            for damage in range(8, 256):
                has(1, 12, 2, damage, True)
                has(1, 12, 1, damage, False)
        for damage in range(8):
            has(1, 12, kind, damage, False)
    for kind in (3, 4):
        for left in range(3):
            for stands in (False, True):
                has(2, 11, kind, left, (stands, False))
                if left > 0:
                    has(2, 11, kind, left, (stands, True))
        has(50, 13, kind, "3")
        for bad in (1, 2):
            has(30, 3, kind, bad)
    for word in range(256):
        if word not in TRAFFIC and word != BETA:
            for index in range(3):
                has(1, 3, index, word)
    for kind in range(3, 9):
        for stands in ("text", "over", "end"):
            has(5, 13, kind, stands)
        for place in (LOST, STANDBY):
            has(5, 13, kind, place)
    for master in (False, True):
        for damage in range(8):
            for place in (SENDING, OPENING, ENDING, RECEIVING, ASKING, TURNING, STANDBY):
                has(1, "heard", master, place, damage)
        for place in (SENDING, OPENING, RECEIVING, ASKING, TURNING):
            has(3, "lost", master, place)
        has(200, "turned", master)
    for place in (SENDING, OPENING, RECEIVING, ASKING):
        has(2, "count 31 and on", place)
    for offer in ("text", "over", "end", None):
        has(2, "lost with", offer)
    for offer in ("text", "over", "end"):
        for place in (SENDING, OPENING):
            has(5, "pressed", place, offer, False)
            has(5, "pressed", place, offer, True)
        for place in (RECEIVING, ASKING, TURNING, STANDBY, LOST):
            has(5, "pressed", place, offer, True)
        has(2, "waits for an answer", offer)
    has(20, "pressed", RECEIVING, "over", False)
    for one in (-1, 0, 1):
        for two in (-1, 0, 1):
            has(5, "rooms", one, two)
            has(5, "unlike", True, one, two)
    for one in (False, True):
        for two in (False, True):
            has(10, "needed", one, two)
            has(10, "one short", one, two)
            for number in (10, 11, 12, 13, 3):
                has(10, "refused", number, one, two)
    for whose in ("master", "slave"):
        for case in ("letters", "figures"):
            has(50, "prints", whose, case)
    # Of `passage`: lengths around the limit, much printed by either station, and
    # records that are refused behind thousands of entries.
    sizes = {}
    printed = []
    for data in gate_inputs("passage"):
        sizes.setdefault(len(data), set()).add(data[:1])
        if 20000 < len(data) <= programs.MOST_RECORD:
            rooms = [bytearray(len(data)), bytearray(len(data))]
            printed.append(passages.passage(data, *rooms))
    for size in (262144, 262145):
        assert sizes[size] == {b"\0", b"\1", b"\2", b"\3"}
    assert 262143 in sizes and 262244 in sizes
    assert (0, 98304) in printed and (11, 66000) in printed
    assert any(one.slave == 0 and one.master > 65536 for one in printed
               if not isinstance(one, Refused))


# Where each reason can be the first that holds, and nowhere else.  A word that is bad
# and an RQ with their places; I is that of each word.
BAD, REPEAT = ("bad 0", "bad 1", "bad 2"), ("repeat 0", "repeat 1", "repeat 2")
FIRST_WORD = ("bad 0", "repeat 0", "unexpected")
THREE_WORDS = (*BAD, *REPEAT, "unexpected")
REASONS_OF_BASE = {
    (SENDING, "either role"): ("time-out", "own", "other", "cs3", *FIRST_WORD),
    (TURNING, "master"): ("time-out", "cs3", "rq", *THREE_WORDS),
    (TURNING, "slave"): ("time-out", "cs3", "rq", "bad 0", "unexpected"),
    (OPENING, "either role"): ("time-out", "either", "cs3", *FIRST_WORD),
    (ENDING, "either role"): ("other", *FIRST_WORD),
    (RECEIVING, "either role"): ("time-out", "alphas", *THREE_WORDS, *ACCEPTS),
    (ASKING, "either role"): ("time-out", "turn", *THREE_WORDS),
    (STANDBY, "either role"): ("silent",),
    (LOST, "either role"): ("silent",),
}
REASONS_OF_CALLS = {
    (STANDBY, 0): ("silent", "called", "call-offered"),
    (CALLING, 0): ("run-out", "either", "cs3", *FIRST_WORD),
    (CALLING_3, 0): ("run-out", "cs3", "cs4", "cs5", *FIRST_WORD),
    (IDENTIFYING, 1): ("time-out", "right-sum", "wrong-sum", *FIRST_WORD),
    (IDENTIFYING, 2): ("time-out", "right-sum", "wrong-sum", *FIRST_WORD),
    (IDENTIFYING, 3): ("time-out", "right-sum", "wrong-sum", *FIRST_WORD),
    (IDENTIFYING, 4): ("time-out", "cs1", "cs3", *FIRST_WORD),
    (ANSWERING, 1): ("time-out", "alphas", "told", *THREE_WORDS),
    (ANSWERING, 2): ("time-out", "alphas", "told", "told-again", *THREE_WORDS),
    (ANSWERING, 3): ("time-out", "alphas", "told", "told-again", *THREE_WORDS),
    (ANSWERING, 4): ("time-out", "rq", "alphas", "told-again", *THREE_WORDS),
}
REFUSED_IN_ORDER = {
    "8 before 4": (8, 4), "8 before 9": (8, 9), "4 before 9": (4, 9),
    "4 before 3": (4, 3), "9 before 3": (9, 3)}


def begins(answer):
    """The reason with the place of a bad word or an RQ."""
    if answer.beside:
        return "%s %d" % (answer.name, answer.beside[0])
    return answer.name


def refusals_alone(station, offer):
    """Each number by which something is refused, whatever goes before it."""
    if offer.kind == "text" and not set(offer.words) <= IN_BLOCK:
        yield 3
    called = offer.words if offer.kind in ("call", "call of seven") else ()
    told = station.own_seven if offer.kind == "call of seven" else ()
    if not set((*called, *told)) <= set(LETTERS_3A):
        yield 8
    code, owed = station.code, station.owed
    if code.length > 20 or not passes_by_hand(code.words[:code.length]):
        yield 9
    beyond = owed is not None and owed.index >= (code.length + 2) // 3 + (
        3 if owed.kind == "back" else 2)
    if beyond or station.count > 31 or (
            station.place == ENDING and not 1 <= station.total <= 4) or (
            station.place == SENDING and not set(station.held) <= IN_BLOCK):
        yield 4


def reasons_asked(records):
    """Of records, each station, burst and offer with its reason."""
    for station, burst, offer in records:
        yield station, burst, offer, reasons.reason(station, burst, offer)


def base_records():
    size = programs.BASE_RECORD
    for data in gate_inputs("why"):
        for start in range(0, len(data) - size + 1, size):
            yield programs.read_base_step(data[start:start + size])


def records_of_kind(kind):
    """The bytes of the records of a kind of `calls`, behind the kind."""
    for data in gate_inputs("calls"):
        for first, behind in inputs.call_records(data):
            if data[first:first + 1] == kind:
                yield data[first + 1:behind]


def inputs_of_why():
    """02, T-08: each reason at each place where it can be, and at none where it
    cannot; around the time-out; with each offer."""
    found = {}

    def count(*key):
        found[key] = found.get(key, 0) + 1

    def has(least, *key):
        assert found.get(key, 0) >= least, (key, found.get(key, 0))

    words = {}              # the mutilated words told, by place and index
    for station, burst, offer, answer_given in reasons_asked(base_records()):
        place = station.place
        role = "either role"
        if place == TURNING:
            role = "master" if station.master else "slave"
        if isinstance(answer_given, Refused):
            numbers = set(refusals_alone(station, offer))
            count("refused", place, answer_given.number)
            count("refused", answer_given)
            if numbers == {4, 3}:
                assert answer_given.number == 4
                count("4 before 3", place)
            continue
        name = begins(answer_given)
        count("reason", place, role, name)
        count("role", place, station.master, name)
        count("count", place, station.count, name)
        count("offer", place, offer.kind, name)
        if answer_given.name == "bad":
            words.setdefault((place, answer_given.beside[0]), set()).add(
                answer_given.beside[1])
        if place == RECEIVING and name in ACCEPTS:
            count("block", name, D in burst, offer.kind, station.count == 31)
            count("kept", name, station.case, station.plus)
        if name == "unexpected" and burst[0] == (CS1, CS2)[station.number - 1]:
            count("own at", place)
    for (place, role), names in REASONS_OF_BASE.items():
        for name in names:
            has(10, "reason", place, role, name)
            if place != TURNING:
                has(5, "role", place, True, name)
                has(5, "role", place, False, name)
            # Either side of the time-out, but where it is one.
            if name == "time-out":
                assert ("count", place, 30, name) not in found
            else:
                has(3, "count", place, 0, name)
                has(3, "count", place, 30, name)
            if place in (ENDING, STANDBY, LOST):
                has(2, "count", place, 31, name)
            if name not in ACCEPTS:
                for kind in programs.OFFERS[:4]:
                    has(1, "offer", place, kind, name)
    given = {key[1:] for key in found if key[0] == "reason"}
    assert given == {(place, role, name) for (place, role), names
                     in REASONS_OF_BASE.items() for name in names}
    for place, index in ((SENDING, 0), (TURNING, 0), (OPENING, 0), (ENDING, 0),
                         (RECEIVING, 0), (RECEIVING, 1), (RECEIVING, 2), (ASKING, 0),
                         (ASKING, 1), (ASKING, 2)):
        assert words[place, index] == set(MUTILATED), (place, index)
    assert len(words[TURNING, 1]) > 150 and len(words[TURNING, 2]) > 150
    has(20, "own at", ENDING)
    # Over heard and over offered at once, with D and without; both at the last count.
    for asks in (False, True):
        has(5, "block", "over-heard", asks, "over", False)
        has(2, "block", "over-heard", asks, "over", True)
        has(5, "block", "over-heard", asks, "nothing", False)
    has(50, "block", "who-are-you", True, "over", False)
    has(50, "block", "over-offered", True, "over", False)
    has(50, "block", "accepted", True, "nothing", False)
    has(20, "kept", "over-heard", "figures", True)
    has(20, "kept", "over-heard", "figures", False)
    has(20, "kept", "accepted", "letters", True)
    for place in programs.PLACES[:8]:
        has(100, "refused", place, 4)
        has(20, "refused", place, 3)
        has(5, "4 before 3", place)
    for index in range(3):
        has(100, "refused", Refused(3, index))


def inputs_of_reasons():
    """02, T-08: likewise of `W` of `calls`; and each place with each kind of burst."""
    found = {}

    def count(*key):
        found[key] = found.get(key, 0) + 1

    def has(least, *key):
        assert found.get(key, 0) >= least, (key, found.get(key, 0))

    records = [programs.read_step(one) for one in records_of_kind(b"W")]
    for station, burst, offer, answer_given in reasons_asked(records):
        place, stage = station.place, station.stage
        count("cell", place, kind_of_burst(burst))
        if isinstance(answer_given, Refused):
            numbers = set(refusals_alone(station, offer))
            count("refused", place, answer_given.number)
            for order, (one, two) in REFUSED_IN_ORDER.items():
                if numbers == {one, two}:
                    assert answer_given.number == one
                    count(order, place)
            continue
        name = begins(answer_given)
        key = (place, stage)
        if (place, 0) in REASONS_OF_CALLS or stage > 0:
            count("reason", place, stage, name)
        else:
            role = "either role"
            if place == TURNING:
                role = "master" if station.master else "slave"
            key = (place, role)
            count("reason", place, role, name)
        count("count", *key, station.count, name)
        if place == STANDBY:
            count("stands", name, offer.kind, min(station.cycles, 2))
            count("stands, barred", name, offer.kind, station.cycles > 0,
                  station.other_end == mode_a.Barred(tuple(offer.words)))
            if name == "called":
                count("called by", station.last, station.blocks, len(offer.words))
        if place in (CALLING, CALLING_3):
            count("called out", place, name, station.cycles)
            if place == CALLING and burst[0] in (CS1, CS2):
                count("second", (CS1, CS2).index(burst[0]) + 1 == station.last, name,
                      station.cycles)
            if burst[0] in (CS1, CS2, CS4, CS5):
                count("control", place, burst[0], name)
        if place == IDENTIFYING and stage < 4 and burst[0] in LETTERS_3A:
            count("wrong", min(station.wrong, 5), burst[0] == station.last_wrong,
                  station.count, name)
        if place == ANSWERING and name == "told-again":
            count("letters", stage, mode_a.gathered_with(
                station.seven, burst, stage - 1) == station.seven)
        if place == IDENTIFYING and burst[0] in (CS1, CS2, CS3):
            count("at identifying", stage, burst[0], name)
    table = {**REASONS_OF_BASE, **REASONS_OF_CALLS}
    table.pop((STANDBY, "either role"))
    for key, names in table.items():
        for name in names:
            has(5, "reason", *key, name)
            if name != "time-out":
                has(2, "count", *key, 0, name)
            else:
                has(5, "count", *key, 31, name)
                assert ("count", *key, 30, name) not in found
    given = {key[1:] for key in found if key[0] == "reason"}
    assert given == {(*key, name) for key, names in table.items() for name in names}
    for place in PLACES:
        for kind in range(18):
            has(40, "cell", place, kind)
        for number in (8, 4, 9, 3):
            has(5, "refused", place, number)
        for order in REFUSED_IN_ORDER:
            has(2, order, place)
    # Stand-by: to wait or not, with each offer; a call heard and one offered at once.
    for kind in ("call", "call of seven"):
        has(5, "stands", "called", kind, 0)
        has(5, "stands", "called", kind, 2)
        has(5, "stands", "call-offered", kind, 0)
    has(20, "stands", "silent", "call", 1)
    has(20, "stands", "silent", "call", 2)
    has(5, "stands, barred", "silent", "call of seven", True, True)
    has(5, "stands, barred", "call-offered", "call of seven", True, False)
    has(5, "stands, barred", "call-offered", "call of seven", False, True)
    assert {key[1:3] for key in found if key[0] == "called by"} >= {
        (1, ()), (2, ()), (0, (1, 2)), (0, (2, 3))}
    # Calls around 128 bursts.
    for place in (CALLING, CALLING_3):
        for sent in (128, 129, 255):
            has(5, "called out", place, "run-out", sent)
            has(5, "called out", place, "cs3", sent)
        has(5, "called out", place, "bad 0", 127)
        has(1, "called out", place, "unexpected", 127)
    for sent in (127, 128, 129):
        has(5, "second", True, "either", sent)
        has(5, "second", False, "either" if sent == 127 else "run-out", sent)
    for first in (CS1, CS2):
        has(10, "control", CALLING_3, first, "unexpected")
        has(10, "control", CALLING_3, first, "run-out")
    for first in (CS4, CS5):
        has(10, "control", CALLING, first, "unexpected")
        has(10, "control", CALLING, first, "run-out")
    # Wrong check-sums at the last count: those that have the block sent again, and
    # those that lead away.
    for wrong in range(6):
        for same in (False, True):
            again = wrong < 4 and not (same and wrong > 0)
            has(2, "wrong", wrong, same, 31, "time-out" if again else "wrong-sum")
            has(2, "wrong", wrong, same, 0, "wrong-sum")
    for stage in (1, 2, 3):
        for first in (CS1, CS2, CS3):
            has(5, "at identifying", stage, first, "unexpected")
        for alike in (False, True):
            has(5, "letters", stage + 1, alike)
    has(5, "at identifying", 4, CS2, "unexpected")


def kind_of_burst(burst):
    """Which of the eighteen kinds of docs/DECISIONS.md a burst is."""
    block = set(burst) <= IN_BLOCK
    for number, first in enumerate((CS1, CS2, CS3, CS4, CS5)):
        if burst[0] == first:
            return 2 * number + (not block)
    if burst[0] in LETTERS_3A:
        return 10 + (not block)
    if burst[0] == RQ:
        return 12 if burst == RQ3 else 13
    if block:
        return 14
    return {TURN: 15, (ALPHA,) * 3: 16}.get(burst, 17)


def inputs_of_stars():
    """02, T-08: what `stars` and `Y` of `calls` hold of errors."""
    found = {}

    def count(*key):
        found[key] = found.get(key, 0) + 1

    bad, unlike = set(), set()
    for case in gate_cases("stars"):
        if case.words:
            continue
        words = []
        try:
            for word in programs.read_words(case.data):
                words.append(word)
        except programs.NotANumber:
            pass
        receiver = broadcast.fresh_receiver()
        for word in words:
            star = reasons.star(receiver, word)
            pair = reasons.copies(receiver, word)
            if star is not None:
                count(star.name, type(receiver).__name__)
                (bad if star.name == "bad" else unlike).add(star[1:])
            elif pair is not None:
                good = sum(one in INTACT for one in pair)
                sort = "alike" if pair[0] == pair[1] else "unlike"
                count("none", "begun" if receiver.printing else "not begun", good,
                      "phasing" if pair == (RQ, ALPHA) else sort)
            receiver = broadcast.hear_word(receiver, word)[0]
    for place in ("InPhase", "Waiting"):
        assert found["bad", place] > 20 and found["unlike", place] > 20
    for index in range(2):
        assert {pair[index] for pair in bad} == set(MUTILATED)
    assert unlike == {(dx, rx) for dx in INTACT for rx in INTACT
                      if dx != rx and (dx, rx) != (RQ, ALPHA)}
    # What is no star: before printing has begun, phasing, one copy, two alike.
    for key in (("not begun", 0, "unlike"), ("not begun", 2, "unlike"),
                ("begun", 2, "phasing"), ("begun", 1, "unlike"), ("begun", 2, "alike")):
        assert found[("none", *key)] > 50, key
    pairs = {0: {}, 3: {}}
    states = {}
    for record in records_of_kind(b"Y"):
        fields = b"Y" + record
        receiver = programs.read_receiver(fields)
        state = (type(receiver).__name__, getattr(receiver, "run", None),
                 getattr(receiver, "wait", None), getattr(receiver, "printing", None),
                 getattr(receiver, "number", 0) % 2)
        states[state] = states.get(state, 0) + 1
        star = reasons.star(receiver, fields[10])
        if star is not None and not isinstance(star, Refused):
            wait = 0 if isinstance(receiver, broadcast.InPhase) else 3
            pairs[wait].setdefault(star.name, set()).add(star[1:])
    for wait in (0, 3):
        for index in range(2):
            assert {pair[index] for pair in pairs[wait]["bad"]} == set(MUTILATED)
        assert len(pairs[wait]["unlike"]) == 35 * 34 - 1
    for run in range(256):
        assert states["Searching", run, None, None, 0] >= 1
    for printing in (False, True):
        for number in (0, 1):
            assert states["InPhase", None, None, printing, number] > 300
        for wait in range(1, 256):
            assert states["Waiting", None, wait, printing, 0] >= 1
        for wait in (1, 2, 3):
            assert states["Waiting", None, wait, printing, 0] > 100


RECEIVE_RUNS = []


def receive_runs():
    """Of the inputs of `receive`, run once: the words, the receiver after each,
    and what each prints."""
    if not RECEIVE_RUNS:
        for data in gate_inputs("receive"):
            words = []
            try:
                for word in programs.read_words(data):
                    words.append(word)
            except programs.NotANumber:
                pass
            RECEIVE_RUNS.append((words, *steps_of(words)))
    return RECEIVE_RUNS


def inputs_of_receive():
    mutilated = unlike = ends = locks_after_an_end = ends_with_error = 0
    good = set(INTACT)
    for words, receivers, out in receive_runs():
        ended = False
        before = broadcast.fresh_receiver()
        for word, receiver, signal in zip(words, receivers, out):
            mutilated += word != 0 and word not in good
            if isinstance(before, broadcast.Searching):
                locks_after_an_end += ended and isinstance(
                    receiver, broadcast.InPhase)
            elif isinstance(before, broadcast.Waiting):
                ends_with_error += signal == 255
                if isinstance(receiver, broadcast.Searching):
                    ended = True
                    ends += 1
            elif before.number % 2 == 1:
                dx = before.dx.get((before.number - 5) // 2, 0)
                unlike += signal == 255 and dx in good and word in good
            before = receiver
    assert mutilated > 5000 and unlike > 1000 and ends > 1000
    assert locks_after_an_end > 800 and ends_with_error > 100


def waits_heard():
    """Of the inputs of `receive`, each wait that is heard whole: whether printing
    had begun, the DX of the waiting position, the three words, what the first of
    them printed, and some words behind them."""
    for words, receivers, out in receive_runs():
        for at, receiver in enumerate(receivers[:-3]):
            if isinstance(receiver, broadcast.Waiting) and receiver.wait == 3:
                yield (receiver.printing, receiver.dx, words[at + 1:at + 4],
                       out[at + 1], words[at + 4:at + 12])


def sort_of(word):
    return ("alpha" if word == ALPHA else "RQ" if word == RQ else "beta"
            if word == BETA else "traffic" if word in TRAFFIC else "damage")


def locked_behind(words):
    """How many of the words it takes to find four that alternate; None where
    there are none."""
    for number in range(4, len(words) + 1):
        if words[number - 4:number] in ([ALPHA, RQ] * 2, [RQ, ALPHA] * 2):
            return number
    return None


def inputs_of_waits():
    """02, T-03: what the inputs of `receive` hold of the three words."""
    found = {}
    good = set(INTACT)
    for printing, dx, three, printed_first, behind in waits_heard():
        rx = three[0]
        alike = ("alike" if dx == rx else "unlike") if {dx, rx} <= good else (
            "DX" if dx in good else "RX" if rx in good else "neither")
        keys = [("settled by", alike, printing), ("printing before", printing)]
        if not printing and printed_first is not None:
            keys.append(("printing begins by", alike))
        if printing:
            keys += [("word", place, sort_of(word)) for place, word in enumerate(three)]
            keys.append(("printed", "error" if printed_first == 255 else
                         "nothing" if printed_first is None else "signal"))
        # Four that alternate: the last of them, counted behind the three words,
        # where the three count too and where they do not.
        late = locked_behind(behind)
        early = locked_behind(three + behind)
        if early is not None and early < 7:
            keys.append(("four across, behind the wait", early - 3, late is None))
        if late == 4:
            keys.append(("four directly behind", sort_of(three[2])))
        # A bulletin that begins within the wait.
        if [ALPHA, RQ] in (three[1:], three[:2]) or three[1:] == [RQ, ALPHA]:
            keys.append(("phasing in the wait",))
        for key in keys:
            found[key] = found.get(key, 0) + 1

    def has(least, *key):
        assert found.get(key, 0) >= least, (key, found.get(key, 0))

    for alike in ("alike", "unlike", "DX", "RX", "neither"):
        has(30, "settled by", alike, True)
        has(5, "settled by", alike, False)
    for alike in ("alike", "DX", "RX"):
        has(5, "printing begins by", alike)
    for printing in (False, True):
        has(100, "printing before", printing)
    for word in ("alpha", "RQ", "traffic", "damage"):
        for place in range(3):
            has(40, "word", place, word)
    for what in ("error", "nothing", "signal"):
        has(50, "printed", what)
    for behind in (1, 2, 3):
        # A receiver that feeds the wait to its search would lock there, and the
        # right one not at all.
        has(10, "four across, behind the wait", behind, True)
    for last in ("alpha", "RQ", "traffic", "damage"):
        has(30, "four directly behind", last)
    has(50, "phasing in the wait")


def inputs_of_waiting_records():
    """02, T-03: what `R` of `calls` holds of receivers that wait."""
    waits = {}              # the wait: lowest bits of the bytes 7 and 8
    copies = set()          # at 3: printing, DX and RX
    heard = {}              # at 2 and 1, printing begun: the words heard
    held = {}               # at 3, 2 and 1: whether two alpha are held
    searching = set()       # the wait beside a search that is not refused
    runs = set()            # the run beside a receiver in phase
    for data in gate_inputs("calls"):
        for first, behind in inputs.call_records(data):
            if data[first:first + 1] != b"R":
                continue
            fields = data[first:behind]
            if fields[1] % 2 == 0:
                if fields[2] <= 3:
                    searching.add(fields[9])
                continue
            wait, printing = fields[9], fields[8] % 2
            waits.setdefault(wait, set()).add((fields[7] % 2, printing))
            if wait <= 3:
                runs.add(fields[2])
            if wait == 3:
                copies.add((printing, fields[4], fields[10]))
            elif 0 < wait < 3 and printing == 1:
                heard.setdefault(wait, set()).add(fields[10])
            if 0 < wait <= 3:
                pair = fields[5] == fields[6] == ALPHA
                held[wait, pair] = held.get((wait, pair), 0) + 1
    everything = set(range(256))
    for wait in everything:
        assert waits[wait] == {(0, 0), (0, 1), (1, 0), (1, 1)}
    for printing in (0, 1):
        for dx in SORTS:
            assert {rx for flag, one, rx in copies if (flag, one) == (printing, dx)
                    } >= set(SORTS)
    assert {dx for _, dx, _ in copies} == {rx for _, _, rx in copies} == everything
    assert heard[2] == heard[1] == searching == runs == everything
    for wait in (1, 2, 3):
        assert held[wait, True] > 200 and held[wait, False] > 200


def texts_to_encode():
    """Of `encode` and of `E` of `calls`: the byte of the case, the room (None of
    `encode`) and the characters."""
    bodies = {"encode": [(0, None, data) for data in gate_inputs("encode")],
              "calls": []}
    for data in gate_inputs("calls"):
        for first, behind in inputs.call_records(data):
            if data[first:first + 1] == b"E":
                room = data[first + 2] + 256 * data[first + 3]
                bodies["calls"].append((data[first + 1], room,
                                        data[first + 6:behind]))
    return bodies


def inputs_of_small_letters():
    """02, T-01: for `encode` and for `E` of `calls`."""
    for name, texts in texts_to_encode().items():
        in_force = set()        # each character taken, with the case before it
        refused = set()         # the first refused byte behind a small letter
        long_ones = []          # lengths of texts with many, and the refusal or 0
        exact = one_short = 0
        for byte, room, characters in texts:
            small = sum(one in SMALL for one in characters)
            if small == 0:
                continue
            case = ("letters", "figures")[byte % 2]
            result = encoded(case, characters)
            number = result.number if isinstance(result, Refused) else 0
            if small > 1000:
                long_ones.append((len(characters), number))
            if number == 0:
                exact += room == len(result[0])
                one_short += room == len(result[0]) - 1
                for one in characters:
                    in_force.add((one, case))
                    if one not in b"\r\n ":
                        case = "letters" if bytes([one]).isalpha() else "figures"
            elif number == 1 and set(characters[:result.beside]) & set(SMALL):
                refused.add(characters[result.beside])
        assert in_force == {(one, case) for one in TAKEN
                            for case in ("letters", "figures")}
        assert refused >= set(b"@[`{") | {129, 154, 161, 186, 193, 195, 214, 218,
                                          225, 246, 250, 255}
        for one in ((4096, 0), (4096, 1), (4097, 5)):
            assert long_ones.count(one) >= 2
        if name == "calls":
            assert refused == set(range(256)) - set(TAKEN)
            assert exact > 500 and one_short > 500


def inputs_of_groups():
    """For an encoder that takes several characters at a time and what is left
    by itself: for `encode` and for `E` of `calls`."""
    around = set(range(1, 10)) | {15, 16, 17, 31, 32, 33}
    for name, texts in texts_to_encode().items():
        alone = {}              # length and place of the one refused byte: bytes
        two = set()             # places of two refused bytes among eight
        ends = {}               # length and what the text ends in: spare rooms
        for byte, room, characters in texts:
            length = len(characters)
            if length > max(around):
                continue
            bad = [place for place, one in enumerate(characters)
                   if one not in TAKEN]
            if len(bad) == 1:
                alone.setdefault((length, bad[0]), set()).add(characters[bad[0]])
            if len(bad) == 2 and length == 8:
                two.add(tuple(bad))
            if not bad:
                case = ("letters", "figures")[byte % 2]
                # What is in force before the last character, and that character.
                last = (encoded(case, characters[:-1])[1], characters[-1:])
                spare = None if room is None else (
                    room - len(encoded(case, characters)[0]))
                for end in (("letters", b"9"), ("figures", b"q"), (case, b"")):
                    if last == end:
                        ends.setdefault((length, end[1]), set()).add(spare)
        # At each place of a whole four, and at the very end with none to three
        # behind the last whole four.
        assert {place % 4 for length, place in alone
                if place < length // 4 * 4} == {0, 1, 2, 3}
        assert {length % 4 for length, place in alone
                if place == length - 1} == {0, 1, 2, 3}
        # At the very end of each length, and at each place of it: of `encode`, of
        # lengths that are a four and one, two and three more.
        wanted = {(length, length - 1) for length in around}
        for length in (5, 6, 7) if name == "encode" else around:
            wanted |= {(length, place) for place in range(length)}
        assert wanted <= set(alone)
        # Of each length a text whose last character takes a shift; `encode`
        # begins in letters, so a single q takes none there.
        assert {length for length, end in ends if end == b""} == {0}
        assert set(range(1, 18)) <= {length for length, end in ends if end == b"9"}
        first = 2 if name == "encode" else 1
        assert set(range(first, 18)) <= {length for length, end in ends
                                         if end == b"q"}
        if name == "calls":
            # A zero, one that has an entry in a table of 128, one over it.
            assert all({0, 123, 246} <= alone[one] for one in wanted)
            assert two == {(one, other) for other in range(8)
                           for one in range(other)}
            for length in set(range(1, 18)) | {31, 32, 33}:
                for end in (b"9", b"q"):
                    assert {-1, 0, 1, 32} <= ends[length, end]
    # The text they are made from: a shift to either case at each place of a four.
    shifts = set()
    case = "letters"
    for place in range(len(inputs.GROUPED)):
        words, case = encoded(case, inputs.GROUPED[place:place + 1])
        if len(words) == 2:
            shifts.add((place % 4, case))
    assert len(shifts) == 8


# --- The faults: that one which no input tells is a failure ---

def faults_not_told_are_found():
    trial = faults.Trial(lambda name: gate_cases(name) if name == "encode" else [])

    def tried(module, old, new):
        return trial.try_fault(faults.Fault("a fault", ["encode"], module, old, new))

    shift = "if needed is not None and needed != case:"
    assert tried("text", shift, "if needed is not None:") == []
    # One that changes nothing, one that only other programs could tell, one
    # that ends the program, one that does not fit.
    for module, old, new in (("text", shift, shift),
                             ("station", "MOST_ENDS = 4", "MOST_ENDS = 5")):
        assert tried(module, old, new) == [
            "FAULT NOT TOLD by the inputs of encode: a fault"]
    for old, new in ((shift, "if undefined:"), ("no such piece", ""), ("case", "x")):
        told = tried("text", old, new)
        assert len(told) == 1 and told[0].startswith("BAD FAULT: a fault: ")
    # Of two edits, both are made.
    both = faults.Fault("a fault", ["encode"], "text", shift, "if wanted(needed):",
                        (("def raised(", "def wanted(case):\n    return case is not None"
                          "\n\n\ndef raised("),))
    assert trial.try_fault(both) == []
    for one in (both._replace(more=()), both._replace(more=(("case", "x"),))):
        assert trial.try_fault(one)[0].startswith("BAD FAULT: a fault: ")
    for number in (0, 1, 39, 40, 41, 46, 47, 48, 500):
        assert sorted(faults.order_of(number)) == list(range(number))


def faults_of_groups_are_told():
    """The four of faults.py and their like for groups of other sizes, by the
    short inputs that are there for them, without any other."""
    group_cases = {"encode": inputs.group_cases(), "calls": inputs.group_calls()}
    trial = faults.Trial(lambda name: group_cases.get(name, []))

    def told(old, new, *tellers):
        one = faults.Fault("a fault", tellers, "text", old, new)
        assert trial.try_fault(one) == [], (new, tellers)

    for size in (2, 4, 8, 16):
        whole = "len(characters) // %d * %d" % (size, size)
        both = ("encode", "calls E")
        told(faults.FIRST_REFUSED, faults.not_judged("index >= " + whole), *both)
        told("return Refused(1, index)",
             "return Refused(1, index // %d * %d)" % (size, size), *both)
        told("return Refused(1, index)",
             "return Refused(1, index %% %d)" % size, *both)
        for place in range(size):
            which = "index %% %d == %d and index < %s" % (size, place, whole)
            told(faults.FIRST_REFUSED, faults.not_judged(which),
                 *(both if size <= 4 else ["calls E"]))
        # Lost: what is left, and the last one of a length of each remainder.
        told("for character in characters:", "for character in characters[:%s]:"
             % whole, *both)
        for left in range(size):
            told("for character in characters:",
                 "for character in characters[:len(characters)"
                 " - (len(characters) %% %d == %d)]:" % (size, left), *both)


def faults_of_all_programs():
    tellers = {teller for one in faults.FAULTS for teller in one.tellers}
    assert tellers == set(COMPARED) | {"calls " + chr(kind) for kind in inputs.KINDS}
    assert len({one.about for one in faults.FAULTS}) == len(faults.FAULTS) >= 1390
    # The modules of the second program are as they were.
    assert faults.programs_with(None) is not programs.run
    assert sys.modules["programs"] is programs


TESTS = [
    code_examples, code_all_256,
    encode_examples, encode_corners, print_corners, text_round_trip,
    each_byte_alone, small_letters_as_capitals, small_letters_and_refusals,
    sending_examples, time_out_examples, first_word_only, over_across_blocks,
    over_cancelled, over_offered, opening_and_ending, turning_by_role,
    station_refusals, errors_that_look_right, rows_and_kinds,
    table_three_a, standing_by_or_refused, call_heard, no_identity_hears_no_call,
    call_placed, calls_in_turn, answer_to_the_last, two_alike_in_succession,
    calling_hears_cs3, wait_of_128, offer_at_completion, call_offered_elsewhere,
    refusal_eight, counters_beyond_limits, call_fields_that_contradict,
    identities_kept, whole_call,
    check_sums, standing_by_both_or_refused, three_block_call_heard,
    seven_outside_table_hears_no_call, both_identities_at_once,
    three_block_call_placed, three_blocks_in_turn, calling_three_hears, bar_and_wait,
    identifying_rows, wrong_check_sums, end_of_identification, answering_rows,
    blocks_told_in_order, blocks_that_differ, thirty_two_lead_to_standby,
    standby_entered, refusal_eight_of_seven, call_of_seven_offered_elsewhere,
    fields_of_identification_that_contradict, nothing_printed_and_own_kept,
    whole_identification, identification_over_damage,
    who_are_you, over_and_question, offers_at_the_question, answer_in_blocks,
    what_is_owed_stays_or_goes, codes_and_refusal_nine, refusals_of_what_is_owed,
    whole_answers,
    reason_examples, first_that_holds, over_and_question_as_reasons, reasons_of_calls,
    reasons_of_identification, reasons_refused, reason_and_step, star_examples,
    stars_are_error_marks,
    demand_three, demand_three_from_a_call,
    passage_examples, passage_turns, passage_questions, passage_time_outs,
    passage_refusals, passage_rooms, passage_is_demand_three,
    sender_examples, sender_corners, search_is_last_four, lock_either_way,
    lock_at_a_break, end_of_reception, three_words_more, three_words_are_swallowed,
    sender_stops_within_the_wait, waits_refused, reception_by_the_list, settling,
    perfect_copy, perfect_copy_of_01, copies_are_needed, last_letter_of_a_bulletin,
    hear_example, words_in_and_out, whole_runs, script_gives_whole_runs,
    letter_through_all, passage_program, passage_records,
    steps_records, steps_records_of_calls, steps_records_of_identification,
    steps_records_of_answers,
    calls_records, meaning_records, identity_records, both_identity_records,
    code_records,
    receive_records, receive_records_that_wait, receive_records_run_on,
    receive_records_cut, why_program, stars_program, reason_and_star_records,
    compare_names_all_programs, compare_counts_inputs, compare_wants_every_reason,
    compare_tells_who_does_not_answer,
    inputs_are_bytes, inputs_at_borders, inputs_tell_each_line,
    inputs_of_steps, inputs_of_calls, inputs_of_identification, inputs_of_answers,
    inputs_of_why, inputs_of_reasons, inputs_of_stars,
    inputs_of_passages, inputs_of_receive, inputs_of_waits,
    inputs_of_waiting_records, inputs_of_small_letters, inputs_of_groups,
    conversations_are_answered,
    faults_not_told_are_found, faults_of_groups_are_told, faults_of_all_programs,
]


def main():
    passed = failed = 0
    for test in TESTS:
        try:
            test()
            passed += 1
        except Exception:
            failed += 1
            print("%s failed:" % test.__name__)
            traceback.print_exc(file=sys.stdout)
    trial = faults.Trial(gate_cases)
    for one in faults.FAULTS:
        lines = trial.try_fault(one)
        for line in lines:
            print(line)
        passed += not lines
        failed += bool(lines)
    print("%d passed, %d failed" % (passed, failed))
    return 1 if failed else 0


if __name__ == "__main__":
    sys.exit(main())
