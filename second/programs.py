"""The programs: what goes in and what comes out (docs/FORMATS.md).

Each is a function from all of standard input to what it writes on standard
output and what it tells, None where it tells nothing.  PROGRAMS at the end
names them; `run` gives the answer of a whole run.
"""

from collections import namedtuple

import broadcast
import passages
import reasons
import station as mode_a
import text
from refusal import Refused
from signals import (ALPHA, BETA, CS1, CS2, CS3, FIGURES, MEANING, PLUS, QUERY, RQ,
                     intact)

WHITE_SPACE = (32, 9, 13, 10)
WORDS_ON_A_LINE = 16


# --- Words: decimal numbers 0 to 255 ---

class NotANumber(Exception):
    """Carries the place of the faulty run's first byte, and what is wrong."""

    def __init__(self, place, reason):
        Exception.__init__(self, place, reason)
        self.place = place
        self.reason = reason


def read_words(data, most=None):
    """Yields the numbers of the input, at most `most` of them: what stands
    behind the last one is not looked at.  A number is a run of bytes up to
    white space or the end; the run is judged whole, so "12x" is one fault.
    Leading zeros are allowed and the length is not bounded.  What comes first
    in a faulty run is what is told: "256x" is over 255, "25x6" is not."""
    place = 0
    found = 0
    while most is None or found < most:
        while place < len(data) and data[place] in WHITE_SPACE:
            place = place + 1
        if place == len(data):
            return
        first = place
        # The value of the digits before a byte that is none.
        value = 0
        all_digits = True
        while place < len(data) and data[place] not in WHITE_SPACE:
            byte = data[place]
            if not 48 <= byte <= 57:
                all_digits = False
            elif all_digits:
                # 256 stands for every value over 255.
                value = min(value * 10 + byte - 48, 256)
            place = place + 1
        if value > 255:
            raise NotANumber(first, "over 255")
        if not all_digits:
            raise NotANumber(first, "a byte that is no digit")
        found = found + 1
        yield value


def write_words(words):
    """Sixteen to a line, one space between, each line ended by a line feed."""
    lines = []
    for start in range(0, len(words), WORDS_ON_A_LINE):
        line = words[start:start + WORDS_ON_A_LINE]
        lines.append(" ".join(str(word) for word in line) + "\n")
    return "".join(lines).encode("ascii")


# --- What is told ---

def refused(refusal, meanings):
    """`meanings`: from 01's number to what it means to this program, with the
    value beside it where the text has a place for it."""
    return "refused %d %d: %s" % (
        refusal.number, refusal.beside,
        meanings[refusal.number].format(refusal.beside))


OVER_CHARACTERS = "over 4096 characters"
OVER_SIGNALS = "over 8192 signals"
NO_SIGNAL = "the character at index {} has no signal"
NOT_PRINTED = "the word at index {} is neither traffic nor the error mark"
NOT_TRAFFIC = "the word at index {} is not traffic"


def not_a_number(fault):
    return "not a number at %d: %s" % (fault.place, fault.reason)


# --- hear (paper 01, worked examples) ---

# The last three are those of an over, by which an answer turns back (02, T-06).
NAMES = {CS1: "CS1", CS2: "CS2", CS3: "CS3", RQ: "RQ", ALPHA: "alpha",
         BETA: "beta", FIGURES: "figures", PLUS: "Z", QUERY: "B"}


def name_of_burst(burst):
    """01: "words sent, by name, joined by dots (`alpha`, `beta`; `silent` for
    silence)".  The two zero words behind a single signal are not shown."""
    if burst == mode_a.SILENCE:
        return "silent"
    return ".".join(NAMES[word] for word in burst if word != 0)


def hear(data):
    lines = ["step answer printed\n"]
    slave = mode_a.fresh_slave()
    case = "letters"
    for start in range(0, len(data), 3):
        burst = data[start:start + 3]
        # 01: "a short last burst filled with zeros"
        burst = tuple(burst) + (0,) * (3 - len(burst))
        answer = mode_a.step(slave, burst, mode_a.NOTHING)
        slave = answer.station
        # The printing case runs through all steps.
        room = bytearray(3)
        written = text.print_signals(case, answer.printed, room)
        case = written.case
        # "none" where no byte was printed, also after shifts alone.
        printed = room[:written.length].hex().upper() or "none"
        lines.append("%d %s %s\n" % (start // 3 + 1,
                                     name_of_burst(answer.burst), printed))
    return "".join(lines).encode("ascii"), None


# --- encode, print, send: one call each ---

def encode(data):
    """Small letters are taken as the capitals (02, T-01)."""
    characters = data[:text.MOST_CHARACTERS + 1]
    room = bytearray(text.MOST_SIGNALS)
    answer = text.encode("letters", characters, room)
    if isinstance(answer, Refused):
        return b"", refused(answer, {5: OVER_CHARACTERS, 1: NO_SIGNAL})
    return write_words(room[:answer.length]), None


def print_(data):
    try:
        signals = list(read_words(data, text.MOST_SIGNALS + 1))
    except NotANumber as fault:
        return b"", not_a_number(fault)
    room = bytearray(text.MOST_SIGNALS)
    answer = text.print_signals("letters", signals, room)
    if isinstance(answer, Refused):
        return b"", refused(answer, {7: OVER_SIGNALS, 3: NOT_PRINTED})
    return bytes(room[:answer.length]), None


def send(data):
    try:
        signals = list(read_words(data, broadcast.MOST_SIGNALS + 1))
    except NotANumber as fault:
        return b"", not_a_number(fault)
    refusal = broadcast.text_refusal(signals)
    if refusal is not None:
        return b"", refused(refusal, {7: OVER_SIGNALS, 3: NOT_TRAFFIC})
    return write_words(broadcast.slots(signals)), None


# --- receive: a stream ---

def receive(data):
    printed = []
    told = None
    receiver = broadcast.fresh_receiver()
    try:
        for word in read_words(data):
            receiver, signal = broadcast.hear_word(receiver, word)
            if signal is not None:
                printed.append(signal)
    except NotANumber as fault:
        # What was printed before it stays, the line begun is ended.
        told = not_a_number(fault)
    return write_words(printed), told


# --- stars: a stream, and why there are error marks in it (02, T-08) ---

def stars(data):
    lines = []
    told = None
    receiver = broadcast.fresh_receiver()
    try:
        for slot, word in enumerate(read_words(data)):
            star = reasons.star(receiver, word)
            if star is not None:
                lines.append("%d %s %d %d\n" % (slot, *star))
            receiver = broadcast.hear_word(receiver, word)[0]
    except NotANumber as fault:
        # The lines before it stay.
        told = not_a_number(fault)
    return "".join(lines).encode("ascii"), told


# --- passage (02, T-07) ---

MOST_RECORD = 262144
TOO_LONG = "too long: over 262144 bytes"

NO_SUCH_KIND = "no such kind"
CUT_BODY = "the body is cut short"
OUT_OF_TURN = "a burst out of turn, or bits 3 to 7 set"
NOT_TAKEN_YET = "the last offer is not taken yet"
NOT_IN_A_BLOCK = "a word that is neither traffic nor beta"


def passage(data):
    if len(data) > MOST_RECORD:
        return b"", TOO_LONG
    # As long as the longest record: 2 is not refused.
    master, slave = bytearray(MOST_RECORD), bytearray(MOST_RECORD)
    answer = passages.passage(data, master, slave)
    if isinstance(answer, Refused):
        return b"", refused(answer, {10: NO_SUCH_KIND, 11: CUT_BODY, 12: OUT_OF_TURN,
                                     13: NOT_TAKEN_YET, 3: NOT_IN_A_BLOCK})
    return (b"master %d\n" % answer.master + master[:answer.master] + b"\n"
            + b"slave %d\n" % answer.slave + slave[:answer.slave] + b"\n"), None


# --- steps: records of 84 bytes, one step of a station written out ---

RECORD = 84
PLACES = (mode_a.SENDING, mode_a.TURNING, mode_a.OPENING, mode_a.ENDING,
          mode_a.RECEIVING, mode_a.ASKING, mode_a.STANDBY, mode_a.LOST,
          mode_a.CALLING, mode_a.CALLING_3, mode_a.IDENTIFYING, mode_a.ANSWERING)
NUMBERED = (mode_a.SENDING, mode_a.TURNING, mode_a.ENDING, mode_a.RECEIVING)
COUNTS_CYCLES = (mode_a.STANDBY, mode_a.CALLING, mode_a.CALLING_3)
KEEPS_LAST = (mode_a.STANDBY, mode_a.CALLING)
HAS_STAGES = (mode_a.IDENTIFYING, mode_a.ANSWERING)
HAS_SEVEN = (mode_a.CALLING_3, mode_a.IDENTIFYING, mode_a.ANSWERING)
OFFERS = ("nothing", "text", "over", "end", "call", "call of seven")


def case_of(byte):
    return "letters" if byte % 2 == 0 else "figures"


def read_other_end(record):
    """Who is at the other end."""
    kind = record[23] % 4
    seven = tuple(record[24:28] + record[39:42])
    if kind == 0:
        return None
    if kind == 1:
        return seven[:4]
    return seven if kind == 2 else mode_a.Barred(seven)


def read_offer(record):
    kind = OFFERS[record[13] % 6]
    words = record[14:17]
    if kind == "call":
        words = record[28:32]
    if kind == "call of seven":
        words = record[28:32] + record[42:45]
    return mode_a.Offer(kind, tuple(words))


def read_code(fields):
    """An answer-back code: its length, and the first 20 words of it."""
    return mode_a.Code(fields[0], tuple(fields[1:21]) + (0,))


def read_owed(record):
    kind = record[81] % 3
    if kind == 0:
        return None
    return mode_a.Owed("back" if kind == 1 else "keep", record[82])


def read_step(record):
    """The station, burst and offer of a record.  A field that a place does not
    carry is ignored."""
    place = PLACES[record[1] % 12]
    number = 0
    held = mode_a.NO_BLOCK
    total = 0
    cycles = last = 0
    called = mode_a.NO_IDENTITY
    blocks = ()
    stage = wrong = last_wrong = 0
    seven = mode_a.NO_SEVEN
    if place in NUMBERED:
        number = 1 if record[2] % 2 == 1 else 2
    if place == mode_a.SENDING:
        held = tuple(record[3:6])
    if place == mode_a.ENDING:
        total = record[6]
    if place in COUNTS_CYCLES:
        cycles = record[17]
    if place in KEEPS_LAST:
        last = record[18] % 3
    if place == mode_a.CALLING:
        called = tuple(record[3:7])
    if place == mode_a.STANDBY:
        blocks = mode_a.RUNS_OF_BLOCKS[record[45] % 5]
    if place in HAS_STAGES:
        stage = record[46] % 4 + 1
    if place == mode_a.IDENTIFYING:
        wrong = record[47]
        last_wrong = record[48]
    if place in HAS_SEVEN:
        seven = tuple(record[49:56])
    station = mode_a.Station(
        master=record[0] % 2 == 0, place=place, number=number, held=held,
        total=total, count=record[7], case=case_of(record[8]),
        plus=record[9] % 2 == 1, own=tuple(record[19:23]),
        other_end=read_other_end(record), cycles=cycles, last=last, called=called,
        own_seven=tuple(record[32:39]), blocks=blocks, stage=stage, wrong=wrong,
        last_wrong=last_wrong, seven=seven, code=read_code(record[60:81]),
        owed=read_owed(record))
    return station, tuple(record[10:13]), read_offer(record)


def other_end_fields(other_end):
    """Who it is, by name, and the signals of that identity, seven of them."""
    if other_end is None:
        return "nobody", mode_a.NO_SEVEN
    if isinstance(other_end, mode_a.Barred):
        return "barred", other_end.identity
    if len(other_end) == 7:
        return "seven", other_end
    return "four", other_end + (0, 0, 0)


def step_line(answer):
    if isinstance(answer, Refused):
        return "refused %d %d\n" % (answer.number, answer.beside)
    s = answer.station
    printed = answer.printed + (0,) * (3 - len(answer.printed))
    role = "master" if s.master else "slave"
    known, signals = other_end_fields(s.other_end)
    parts = (
        (s.place, s.number) + s.held + (s.total, s.count, s.case, int(s.plus)),
        answer.burst,
        printed,
        (int(answer.taken),),
        (role, s.cycles, s.last) + s.called + (known,) + signals[:4],
        (mode_a.RUNS_OF_BLOCKS.index(s.blocks), s.stage, s.wrong, s.last_wrong)
        + s.seven + signals[4:],
        ("none", 0) if s.owed is None else s.owed)
    return " | ".join(" ".join(map(str, part)) for part in parts) + "\n"


def steps(data):
    lines = []
    # A short last record is ignored.
    for start in range(0, len(data) - RECORD + 1, RECORD):
        station, burst, offer = read_step(data[start:start + RECORD])
        lines.append(step_line(mode_a.step(station, burst, offer)))
    return "".join(lines).encode("ascii"), None


# --- why: records of 17 bytes, the reason for the answer of a step (02, T-08) ---

BASE_RECORD = 17
BASE_PLACES = 8
BASE_OFFERS = 4


def read_base_step(record):
    """The station, burst and offer of the first 17 bytes of a record, as 01 has
    them without 02: eight places and four offers.  The station has no identity and
    no code and owes nothing; at Stand-by nothing is left to wait and nothing was
    heard."""
    whole = bytearray(record + bytes(RECORD - BASE_RECORD))
    whole[1] %= BASE_PLACES
    whole[13] %= BASE_OFFERS
    return read_step(bytes(whole))


def reason_line(answer):
    if isinstance(answer, Refused):
        return "refused %d %d\n" % (answer.number, answer.beside)
    return " ".join(map(str, (answer.name, *answer.beside))) + "\n"


def why(data):
    lines = []
    # A short last record is ignored.
    for start in range(0, len(data) - BASE_RECORD + 1, BASE_RECORD):
        station, burst, offer = read_base_step(data[start:start + BASE_RECORD])
        lines.append(reason_line(reasons.reason(station, burst, offer)))
    return "".join(lines).encode("ascii"), None


# --- calls: one public call a record ---

FILLED_WITH = 170
MOST_ROOM = 8192
MOST_LENGTH = 8193


class BadRecord(Exception):
    """Carries what is wrong with it."""


def cut(data, place, length):
    if place + length > len(data):
        raise BadRecord("cut short")
    return data[place:place + length]


def judge_room(length):
    if length > MOST_ROOM:
        raise BadRecord("a room over 8192")


def judge_length(length):
    if length > MOST_LENGTH:
        raise BadRecord("a length over 8193")


def low_first(field):
    """The number in bytes with the low byte first."""
    return int.from_bytes(field, "little")


def text_call(call, data, place):
    """An `E` or `P` record from its second byte on: its line and the place
    behind it.  `E` takes small letters as the capitals (02, T-01); the kind
    itself is `E` alone."""
    head = cut(data, place, 5)
    case = case_of(head[0])
    room_length = low_first(head[1:3])
    length = low_first(head[3:5])
    judge_room(room_length)
    judge_length(length)
    body = cut(data, place + 5, length)
    room = bytearray([FILLED_WITH]) * room_length
    answer = call(case, body, room)
    shown = room.hex().upper() or "-"
    if isinstance(answer, Refused):
        line = "refused %d %d %s\n" % (answer.number, answer.beside, shown)
    else:
        line = "ok %d %s %s\n" % (answer.length, answer.case, shown)
    return line, place + 5 + length


def slot_call(data, place):
    """An `S` record, likewise."""
    head = cut(data, place, 6)
    number = low_first(head[0:4])
    length = low_first(head[4:6])
    judge_length(length)
    body = cut(data, place + 6, length)
    answer = broadcast.slot(body, number)
    if isinstance(answer, Refused):
        line = "refused %d %d\n" % (answer.number, answer.beside)
    else:
        line = "ok %d\n" % answer
    return line, place + 6 + length


def meaning_call(data, place):
    """An `M` record: the number of a byte's signal, and whether it is intact."""
    byte = cut(data, place, 1)[0]
    return "%d %d\n" % (MEANING[byte], intact(byte)), place + 1


def read_receiver(fields):
    """The receiver of an `R` record.  `fields` are the record's bytes with the
    kind at 0; those of the other state are not looked at."""
    if fields[1] % 2 == 0:
        run = fields[2]
        if run == 0:
            return broadcast.Searching(0, None)
        return broadcast.Searching(run, ALPHA if fields[3] % 2 == 0 else RQ)
    printing = fields[8] % 2 == 1
    oldest, middle, newest = fields[4], fields[5], fields[6]
    wait = fields[9]
    if wait > 0:
        # The oldest waits for its RX; which slot comes next the wait tells.
        return broadcast.Waiting(wait, oldest, printing)
    # The receiver counts its slots from any even number on; here the three
    # words are the DX of positions 2, 3 and 4, heard in slots 4, 6 and 8.
    if fields[7] % 2 == 0:
        # Slot 9 was the RX of position 2, so that one is settled.
        return broadcast.InPhase(10, {3: middle, 4: newest}, printing)
    return broadcast.InPhase(9, {2: oldest, 3: middle, 4: newest}, printing)


def receiver_line(answer):
    if isinstance(answer, Refused):
        return "refused %d %d\n" % (answer.number, answer.beside)
    receiver, signal = answer
    printed = 0 if signal is None else signal
    if isinstance(receiver, broadcast.Searching):
        last = {None: "none", ALPHA: "alpha", RQ: "RQ"}[receiver.last]
        return "searching %d %s | %d\n" % (receiver.run, last, printed)
    if isinstance(receiver, broadcast.Waiting):
        return waiting_line(receiver, printed)
    if receiver.number % 2 == 0:
        newest = receiver.number // 2 - 1
        waiting = [0]
        following = "dx"
    else:
        newest = (receiver.number - 1) // 2
        # Before the four signals of the lock: counts as phasing, so RQ.
        waiting = [receiver.dx.get(newest - 2, RQ)]
        following = "rx"
    waiting.append(receiver.dx[newest - 1])
    waiting.append(receiver.dx[newest])
    return "phase %d %d %d %s %d 0 | %d\n" % (
        waiting[0], waiting[1], waiting[2], following, receiver.printing, printed)


def waiting_line(receiver, printed):
    """Behind the second alpha (02, T-03).  What can no longer matter is 0: the
    two words that no RX is heard for, and, once the waiting position is
    settled, its word and whether printing has begun."""
    following = "dx" if receiver.wait == 2 else "rx"
    if receiver.dx is None:
        return "phase 0 0 0 %s 0 %d | %d\n" % (following, receiver.wait, printed)
    return "phase %d 0 0 %s %d %d | %d\n" % (
        receiver.dx, following, receiver.printing, receiver.wait, printed)


def receive_call(data, place):
    """An `R` record: one step of a receiver that is written out."""
    fields = b"R" + cut(data, place, 10)
    answer = broadcast.hear_word(read_receiver(fields), fields[10])
    return receiver_line(answer), place + 10


def reason_call(data, place):
    """A `W` record: the reason for the answer of a step, of a record of `steps`."""
    station, burst, offer = read_step(cut(data, place, RECORD))
    return reason_line(reasons.reason(station, burst, offer)), place + RECORD


def star_call(data, place):
    """A `Y` record: the receiver and the word of an `R` record, and why an error is
    printed there."""
    fields = b"Y" + cut(data, place, 10)
    answer = reasons.star(read_receiver(fields), fields[10])
    if answer is None:
        line = "none\n"
    elif isinstance(answer, Refused):
        line = "refused %d %d\n" % (answer.number, answer.beside)
    else:
        line = "%s %d %d\n" % answer
    return line, place + 10


def standing_by_call(data, place):
    """An `I` record: a station standing by, with this identity of its own."""
    answer = mode_a.standing_by(cut(data, place, 4))
    line = "ok\n"
    if isinstance(answer, Refused):
        line = "refused %d %d\n" % (answer.number, answer.beside)
    return line, place + 4


def standing_by_both_call(data, place):
    """A `J` record: likewise, with its identities of four and of seven signals."""
    words = cut(data, place, 11)
    answer = mode_a.standing_by_both(words[:4], words[4:])
    line = "ok\n"
    if isinstance(answer, Refused):
        line = "refused %d %d\n" % (answer.number, answer.beside)
    return line, place + 11


def passage_call(data, place):
    """A `V` record: a passage, with a room for each station."""
    head = cut(data, place, 6)
    rooms = low_first(head[0:2]), low_first(head[2:4])
    length = low_first(head[4:6])
    judge_room(max(rooms))
    judge_length(length)
    record = cut(data, place + 6, length)
    master, slave = (bytearray([FILLED_WITH]) * room for room in rooms)
    answer = passages.passage(record, master, slave)
    shown = (master.hex().upper() or "-", slave.hex().upper() or "-")
    if isinstance(answer, Refused):
        line = "refused %d %d %s %s\n" % (answer.number, answer.beside, *shown)
    else:
        line = "ok %d %d %s %s\n" % (answer.master, answer.slave, *shown)
    return line, place + 6 + length


def with_code_call(data, place):
    """A `C` record: an answer-back code, given to a fresh slave."""
    answer = mode_a.with_code(mode_a.fresh_slave(), read_code(cut(data, place, 21)))
    line = "ok\n"
    if isinstance(answer, Refused):
        line = "refused %d %d\n" % (answer.number, answer.beside)
    return line, place + 21


def calls(data):
    lines = []
    told = None
    place = 0
    try:
        while place < len(data):
            kind = data[place:place + 1]
            if kind == b"E":
                line, behind = text_call(text.encode, data, place + 1)
            elif kind == b"P":
                line, behind = text_call(text.print_signals, data, place + 1)
            elif kind == b"S":
                line, behind = slot_call(data, place + 1)
            elif kind == b"M":
                line, behind = meaning_call(data, place + 1)
            elif kind == b"R":
                line, behind = receive_call(data, place + 1)
            elif kind == b"I":
                line, behind = standing_by_call(data, place + 1)
            elif kind == b"J":
                line, behind = standing_by_both_call(data, place + 1)
            elif kind == b"V":
                line, behind = passage_call(data, place + 1)
            elif kind == b"C":
                line, behind = with_code_call(data, place + 1)
            elif kind == b"W":
                line, behind = reason_call(data, place + 1)
            elif kind == b"Y":
                line, behind = star_call(data, place + 1)
            else:
                raise BadRecord("no such kind")
            lines.append(line)
            place = behind
    except BadRecord as fault:
        # The lines before it stay.  The place is that of the record's first
        # byte, whatever is wrong with it.
        told = "bad record at %d: %s" % (place, fault)
    return "".join(lines).encode("ascii"), told


PROGRAMS = {
    "hear": hear,
    "encode": encode,
    "print": print_,
    "send": send,
    "receive": receive,
    "passage": passage,
    "steps": steps,
    "why": why,
    "stars": stars,
    "calls": calls,
}


# --- A whole run ---

DONE, TOLD, NOT_RUN = 0, 1, 2
CANNOT_READ = "cannot read standard input"
CANNOT_WRITE = "cannot write standard output"

Answer = namedtuple("Answer", "output error status")


def error_line(name, told):
    return ("%s: %s\n" % (name, told)).encode("ascii")


def run(name, words, data):
    """What ./telex NAME gives, words handed to it, on that standard input."""
    if len(words) > 0:
        usage = "usage: ./telex %s < input" % name
        return Answer(b"", error_line(name, usage), NOT_RUN)
    output, told = PROGRAMS[name](data)
    if told is None:
        return Answer(output, b"", DONE)
    return Answer(output, error_line(name, told), TOLD)
