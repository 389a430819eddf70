"""Inputs for second/compare: valid, damaged and hostile, long and short.

    inputs_for(NAME, seed)   the inputs of a program as bytes, for any caller
    cases(NAME, seed)        the same with what each one tries, and runs with
                             words handed to the program
    CONVERSATIONS[NAME]      what is written piece by piece, each piece answered
    NAMES, GATE_SEED         the programs, and the seed of the gate

Both functions give the same list each time they are asked.
"""

import random
from collections import namedtuple

import broadcast
import passages
import programs
import station as mode_a
import text
from passages import MASTER, SLAVE
from refusal import Refused
from signals import (ALPHA, BETA, CARRIAGE_RETURN, CS1, CS2, CS3, CS4, CS5, FIGURES,
                     IDENTITY_SIGNALS, LETTERS, LINE_FEED, MEANING, PLUS, QUERY,
                     RQ, WHO_ARE_YOU, check_sum, is_traffic)
from station import (ANSWERING, ASKING, CALLING, CALLING_3, ENDING, IDENTIFYING, LOST,
                     OPENING, RECEIVING, SENDING, STANDBY, TURNING)

# about: what the input tries, for the report of a difference.
# fed: how the program gets it.  A file gives it in whole blocks; bytes and odd
# pieces written to a pipe give it short reads.
# words: what is handed to the program behind its name.
Case = namedtuple("Case", "about data fed words")

AT_ONCE, FROM_A_FILE, BY_BYTES, IN_PIECES = range(4)

GATE_SEED = 625

WORDS = list(range(256))
INTACT = [word for word in WORDS if MEANING[word] != 0]
MUTILATED = [word for word in WORDS if MEANING[word] == 0]
TRAFFIC = [word for word in WORDS if is_traffic(word)]
IN_BLOCK = TRAFFIC + [BETA]
NOT_IN_BLOCK = [word for word in WORDS if word not in IN_BLOCK]
NOT_IN_IDENTITY = [word for word in WORDS if word not in IDENTITY_SIGNALS]
CAPITALS = b"ABCDEFGHIJKLMNOPQRSTUVWXYZ"
SMALL = b"abcdefghijklmnopqrstuvwxyz"
# The bytes that encoding takes (01, "Text"; 02, T-01), and those it refuses.
CHARACTERS = sorted(text.SIGNAL_OF) + list(SMALL)
NO_CHARACTERS = [byte for byte in WORDS if byte not in CHARACTERS]

# Bytes that a wrong rule may take for letters.  Beside the capitals and the small
# letters:
NO_LETTERS = [64, 91, 96, 123]
# Less 32, 64 or 128 the first or the last of the capitals or small letters; 64
# less than the first or the last capital:
NO_LETTERS += [129, 154, 161, 186, 193, 218, 225, 250, 1, 26]
# Letters with a mark in Latin-1, and the ends of what is over 127:
NO_LETTERS += [214, 246, 223, 128, 255]
# Texts with a letter that has a mark: in Latin-1, in UTF-8, in UTF-8 with the mark
# behind the letter, and in a code of seven bits in which it is 124; and one that
# begins with the mark by which UTF-8 is told.
MARKED = [b"Alles sch\xf6n", b"Alles sch\xc3\xb6n", b"Alles scho\xcc\x88n",
          b"Alles sch|n", b"\xef\xbb\xbfAlles nun"]

# Words that a rule names, and one mutilated word of each sort.
NAMED = [CS1, CS2, CS3, RQ, ALPHA, BETA, FIGURES, LETTERS, PLUS, QUERY,
         WHO_ARE_YOU, CARRIAGE_RETURN, LINE_FEED, 0, 127, 128 + ALPHA, 255]


def cases(name, seed):
    """The inputs of one program."""
    return MAKERS[name](random.Random("%s %d" % (name, seed)))


def inputs_for(name, seed=GATE_SEED):
    """The inputs of one program, each all of its standard input."""
    return [case.data for case in cases(name, seed) if not case.words]


def slowly(about, data):
    return Case(about + ", a byte at a time", data, BY_BYTES, ())


def in_pieces(about, data):
    return Case(about + ", in odd pieces", bytes(data), IN_PIECES, ())


def from_file(about, data):
    return Case(about + ", from a file", bytes(data), FROM_A_FILE, ())


def quickly(about, data):
    return Case(about, bytes(data), AT_ONCE, ())


def with_words(data):
    """Words handed to a program that takes none.  The input would have an
    answer of its own; a file shows whether any of it is read."""
    return [Case("words %r" % (words,), data, FROM_A_FILE, words)
            for words in (("--help",), ("",), ("71", "86"))]


# --- Around a block ---

# A program reads up to so much at a time, and writes by the block too.
BLOCK = 4096
OUTPUT_SIZES = (BLOCK - 1, BLOCK, BLOCK + 1, 2 * BLOCK)


def made_up(size, small):
    """How many lines or words of `small` bytes, and how many of one byte more,
    come to `size` together."""
    number = size // small
    more = size - number * small
    assert more <= number
    return number - more, more


# --- Texts ---

def spelt(draw):
    """A word in capitals, in small letters, or with one capital before them."""
    first, rest = draw.choice(((CAPITALS, CAPITALS), (SMALL, SMALL),
                               (CAPITALS, SMALL)))
    return [draw.choice(first)] + draw.choices(rest, k=draw.randrange(8))


def letter(draw, length):
    """A text an operator might write."""
    out = []
    while len(out) < length:
        kind = draw.random()
        if kind < 0.7:
            out.extend(spelt(draw))
            out.append(32)
        elif kind < 0.85:
            out.extend(draw.choice(b"0123456789")
                       for _ in range(draw.randint(1, 5)))
            out.append(32)
        elif kind < 0.95:
            out.append(draw.choice(b"-?:()., '=/+\x05\x07"))
        else:
            out.extend(b"\r\n")
    return bytes(out[:length])


def characters(draw, length):
    """Any characters that encoding takes, small letters a third of them."""
    return bytes(draw.choices(CHARACTERS, k=length))


def with_byte(data, index, byte):
    return data[:index] + bytes([byte]) + data[index + 1:]


def small_letters(draw, length):
    return bytes(draw.choices(SMALL, k=length))


def among_small(draw, middle):
    """With small letters before it and behind it, at least one each."""
    return (small_letters(draw, draw.randint(1, 9)) + middle
            + small_letters(draw, draw.randint(1, 9)))


def each_small(before, behind):
    """Each small letter between the two."""
    return b"".join(before + bytes([byte]) + behind for byte in SMALL)


# --- Texts for an encoder that takes several characters at a time ---

# It may judge or write them in groups of two, four, eight or sixteen, and what is
# left at the end by itself.  Lengths below, at and above a multiple of each:
GROUP_LENGTHS = [1, 2, 3, 4, 5, 6, 7, 8, 9, 15, 16, 17, 31, 32, 33]
# The longest of them.  No character but the space stands in it twice, and a
# shift to either case is needed at each place of a four.
GROUPED = b"Ab1c 2D,e\r\n34FgH(i)5jK 6:lm7\x07N/o8"
# Bytes without a signal.  A group filled up with zeros must not let a 0 of the
# text pass; over 127 a table of 128 entries does not reach.
NOT_IN_GROUPS = [0, 123, 246]
# A figure behind a letter and a small letter behind a figure: of either, two
# signals are missing where the last character is lost.
GROUP_ENDS = [b"Q9", b"0q"]


def all_but(length, index, byte):
    """A text of which this byte alone has no signal."""
    return with_byte(GROUPED[:length], index, byte)


def ending_in(length, end):
    """A text of this length, all of it taken, with the end as far as it fits."""
    return (GROUPED[:max(length - 2, 0)] + end)[max(2 - length, 0):]


# --- Numbers written in various ways ---

def plain(words):
    return programs.write_words(list(words))


def written(draw, words):
    """The words as numbers, in one of several ways that mean the same."""
    way = draw.randrange(5)
    if way == 0:
        return plain(words)
    if way == 1:
        return b" ".join(b"%d" % word for word in words)
    if way == 2:
        return b"".join(b"%d\r\n" % word for word in words)
    out = [draw.choice((b"", b" ", b"\n\n", b"\t"))]
    for word in words:
        zeros = draw.choice((0, 0, 0, 1, 2, 7)) if way == 4 else 0
        out.append(b"0" * zeros + b"%d" % word)
        between = draw.choice((1, 1, 2, 5))
        out.append(bytes(draw.choices((32, 9, 13, 10), k=between)))
    return b"".join(out)


# Runs that are no number.  Among them values that come out small when cut to
# 8, 16, 32 or 64 bits.
FAULTY_RUNS = [
    b"256", b"300", b"1000", b"00000256", b"65536", b"65607", b"4294967296",
    b"4294967367", b"18446744073709551616", b"18446744073709551687",
    b"99999999999999999999999999", b"1.0", b"0x47", b"71,", b",71", b"3x", b"x",
    b"\x00", b"71\x00", b"\xff", b"\x0b", b"71\x0c72", b"\xd9\xa7", b"/", b":",
    b"7/", b"7:",
    # A sign; a byte that is none before, behind and between digits that come to
    # more than 255, or would without it; 255 and 256 behind zeros.
    b"-1", b"+300", b"300-", b"256x", b"x300", b"3x999", b"25x6", b"000255x",
    b"000256x", b"256\x00", b"\x00256", b"25\xb2",
]

# Each reason first, behind words, behind zeros, and with more behind it; and
# numbers that look like it.
FAULTY_LISTS = [
    b"300", b"3x", b" \n300 71", b"\t3x 71", b"71 86 300", b"71 86 3x",
    b"71 0000300 86", b"71 00003x 86", b"255 256", b"25 6x", b"0000255",
    b"000 0000000255 00000256",
]


def with_run(draw, words, index, run):
    """The words as numbers with a run put in before the one at `index`."""
    runs = [b"%d" % word for word in words]
    runs.insert(index, run)
    return draw.choice((b" ", b"\n", b"\r\n", b" \t")).join(runs)


def in_threes(words):
    """The words in three digits each, so that they stand every four bytes: a
    number, or the white space behind it, is at each border of blocks."""
    return b"".join(b"%03d " % word for word in words)


def border_cases(make):
    """For print, send and receive: numbers and faults that lie across the
    borders of blocks, begin there or end there; inputs that end there."""
    words = in_threes(make(2100))
    out = []
    for before in range(4):
        out.append(from_file("numbers %d from the border" % before,
                             b" " * before + words))
    for first in (BLOCK - 2, BLOCK - 1, BLOCK, 2 * BLOCK - 1):
        good = (words[:first // 4 * 4] + b"   ")[:first]
        out.append(from_file("over 255 from %d on" % first, good + b"256 71"))
        out.append(from_file("no digit from %d on" % first, good + b"71x 71"))
    for size in (BLOCK - 1, BLOCK, BLOCK + 1, 2 * BLOCK):
        out.append(from_file("ends at %d" % size,
                             (b" " * 4 + words)[(3 - size) % 4:][:size]))
    for size in (BLOCK, 2 * BLOCK + 1):
        out.append(from_file("%d of white space" % size,
                             (b" \n" * size)[:size]))
    out.append(from_file("zeros across the border", b"0" * BLOCK + b"71"))
    out.append(in_pieces("words", words[:900]))
    out.append(in_pieces("words and a fault", words[:900] + b"2x"))
    return out


# --- encode ---

def encode_cases(draw):
    out = [quickly("empty", b""),
           quickly("A1", b"A1"),
           quickly("1 2", b"1 2"),
           quickly("all characters", bytes(CHARACTERS)),
           quickly("characters and a small letter", b"AB1a"),
           quickly("characters and a byte without a signal", b"AB1{"),
           slowly("a letter", letter(draw, 120)),
           slowly("a refused letter", letter(draw, 60) + b"#" + letter(draw, 60)),
           in_pieces("a letter", letter(draw, 3000))]
    out.extend(with_words(b"A1"))
    for size in OUTPUT_SIZES:
        two, three = made_up(size, 3)
        out.append(from_file("%d bytes written" % size, b"A" * two + b"L" * three))
    # the longest that a word can be, a space, three digits and a line feed,
    # from six bytes before the end of a block on
    for short in range(59, 66):
        out.append(from_file("the longest word at the end of a block, %d" % short,
                             b"A" * short + b"L" * (66 * 16 - short)))
    for length in (1, 15, 16, 17, 31, 32, 33, 4095, 4096):
        out.append(quickly("letter of %d" % length, letter(draw, length)))
        out.append(quickly("characters, %d" % length, characters(draw, length)))
    out.append(quickly("most shifts", b"1A" * 2048))
    out.extend(small_letter_cases(draw))
    for length in (4097, 4098, 8192, 8193, 70000):
        out.append(quickly("over the limit, %d" % length, characters(draw, length)))
    for index in (0, 1, 4094, 4095):
        bad = with_byte(characters(draw, 4096), index, draw.choice(NO_CHARACTERS))
        out.append(quickly("4,096 with a bad byte at %d" % index, bad))
        out.append(quickly("the same, one longer", bad + b"A"))
    out.append(quickly("bad byte beyond the limit",
                       characters(draw, 4096) + b"{" + characters(draw, 100)))
    while len(out) < 150:
        length = draw.choice((draw.randrange(40), draw.randrange(400),
                              draw.randrange(4097)))
        kind = draw.randrange(5)
        if kind == 0:
            data = letter(draw, length)
        elif kind == 1:
            data = characters(draw, length)
        elif kind == 2 and length > 0:
            data = with_byte(characters(draw, length), draw.randrange(length),
                             draw.choice(NO_CHARACTERS))
        elif kind == 3:
            data = bytes(draw.choices(WORDS, k=length))
        else:
            data = bytes(draw.choices(b"Aa1 \r\n", k=length))
        out.append(quickly("text of %d" % length, data))
    out.extend(group_cases())
    return out


def group_cases():
    """A run for each, so not all: `group_records` has every place of every
    length, and each byte there."""
    out = []
    for length in GROUP_LENGTHS:
        for index in range(0 if length in (5, 6, 7) else length - 1, length):
            byte = NOT_IN_GROUPS[index % 3]
            out.append(quickly("%d characters, byte %d at %d"
                               % (length, byte, index),
                               all_but(length, index, byte)))
    for length in range(1, 18):
        for end in GROUP_ENDS:
            out.append(quickly("%d characters, the last ones %r" % (length, end),
                               ending_in(length, end)))
    return out


def small_letter_cases(draw):
    """Paper 02, T-01."""
    out = [quickly("a", b"a"),
           quickly("small letters", SMALL),
           quickly("small letters in figures", b"1" + SMALL),
           quickly("each small letter behind a figure", each_small(b"1", b"")),
           quickly("each small letter behind its capital",
                   b"".join(bytes(pair) for pair in zip(CAPITALS, SMALL))),
           quickly("small letters and what needs no case",
                   each_small(b" ", b"\r\n") + b"1" + each_small(b" ", b"\r\n")),
           slowly("small letters", small_letters(draw, 60) + b" 12 "
                  + small_letters(draw, 60)),
           quickly("4,096 small letters", small_letters(draw, 4096)),
           quickly("4,097 small letters", small_letters(draw, 4097)),
           quickly("4,096 capitals and a small letter", b"A" * 4096 + b"a"),
           quickly("most shifts, small letters", b"1a" * 2048),
           quickly("4,095 small letters and a bad byte",
                   small_letters(draw, 4095) + b"{")]
    for byte in NO_LETTERS:
        out.append(quickly("byte %d among small letters" % byte,
                           among_small(draw, bytes([byte]))))
    for data in MARKED:
        out.append(quickly("a mark, %r" % data, data))
    return out


# --- print ---

PRINTABLE = TRAFFIC + [255]
NOT_PRINTABLE = [word for word in WORDS if word not in PRINTABLE]


def signals(draw, length):
    """Signals that may be printed, shifts and error marks well among them."""
    more = [FIGURES, LETTERS, FIGURES, LETTERS, 255]
    return draw.choices(PRINTABLE + more, k=length)


def limit_cases(draw, make):
    """For print and send: around the most signals, and faults around it."""
    out = []
    for length in (8191, 8192, 8193, 8194, 9000):
        out.append(quickly("%d signals" % length, written(draw, make(length))))
    words = make(8192)
    out.append(quickly("first bad word at the limit", plain(words + [0])))
    out.append(quickly("bad word, one too many", plain([0] + words)))
    for index in (0, 8191, 8192, 8193, 8194):
        out.append(quickly("fault before number %d of 9,000" % index,
                           with_run(draw, make(9000), index, b"256")))
        out.append(quickly("fault of a byte, likewise at %d" % index,
                           with_run(draw, make(9000), index, b"71x")))
    out.append(quickly("8,193 and a fault that touches the last",
                       plain(words).rstrip() + b" 71!"))
    out.append(quickly("8,193, white space, a fault",
                       plain(words) + b"71" + b" " * 5000 + b"!"))
    return out


def fault_cases(draw, make):
    """Faulty runs first, last, between, after a refusable word."""
    out = [quickly("list %r" % data, data) for data in FAULTY_LISTS]
    for run in FAULTY_RUNS:
        length = draw.choice((0, 1, 3, 20, 200))
        words = make(length)
        index = draw.choice((0, length, draw.randint(0, length)))
        out.append(quickly("run %r" % run, with_run(draw, words, index, run)))
    out.append(quickly("bad word before a fault", b"0 71 999"))
    out.append(quickly("fault before a bad word", b"71 999 0"))
    out.append(quickly("two faults", b"71  1x 999"))
    out.append(quickly("70,000 zeros and 71", b"0" * 70000 + b"71"))
    out.append(quickly("70,000 zeros and 256", b"71 " + b"0" * 70000 + b"256"))
    out.append(quickly("70,000 digits", b" " + b"7" * 70000))
    out.append(quickly("70,000 spaces and 71", b" " * 70000 + b"71"))
    out.append(quickly("70,000 spaces and a fault", b"71" + b" " * 70000 + b"_"))
    return out


def print_cases(draw):
    def make(length):
        return signals(draw, length)

    out = [quickly("empty", b""), quickly("white space", b" \n\t\r "),
           quickly("all traffic in letters", plain(TRAFFIC)),
           quickly("all traffic in figures", plain([FIGURES] + TRAFFIC[:28])),
           quickly("all intact", plain(INTACT)),
           slowly("signals", written(draw, make(40))),
           slowly("signals and a fault", plain(make(30)) + b"71 7x 71")]
    out.extend(with_words(b"71 86"))
    for size in OUTPUT_SIZES:
        out.append(from_file("%d bytes written" % size,
                             plain([FIGURES] + [71] * (size - 1) + [86])
                             if size < 2 * BLOCK else plain([71] * size)))
    out.extend(border_cases(make))
    out.extend(fault_cases(draw, make))
    out.extend(limit_cases(draw, make))
    for _ in range(20):
        length = draw.choice((draw.randrange(20), draw.randrange(300),
                              draw.randrange(3000)))
        words = make(length)
        kind = draw.randrange(4)
        if kind == 0 and length > 0:
            words[draw.randrange(length)] = draw.choice(NOT_PRINTABLE)
        elif kind == 1:
            words = draw.choices(WORDS, k=length)
        out.append(quickly("%d signals" % length, written(draw, words)))
    return out


# --- send ---

# The breaks that `send` itself is tried at, on both sides of each.  Where a
# proved program reads the whole text for each slot, all slots of a long text
# cost the square of its length; `calls` tries single slots at all 85 breaks.
SEND_BREAKS = list(range(1, 6)) + [10, 20, 30, 40, 50, 60, 70, 80, 85]
ALL_BREAKS = list(range(1, 86))


def sides(number):
    """The text lengths on both sides of a break: after 96 x number traffic
    positions, two of them return and line feed."""
    return 96 * number - 2, 96 * number - 1


def text_sent_in(size):
    """A text of which the slots, written as words, come to `size` bytes, which
    has to be even: each signal is sent twice."""
    length = size // 6
    while len(plain(broadcast.slots([86] * length))) > size:
        length -= 1
    more = (size - len(plain(broadcast.slots([86] * length)))) // 2
    return [101] * more + [86] * (length - more)


def send_cases(draw):
    def make(length):
        return draw.choices(TRAFFIC, k=length)

    out = [quickly("empty", b""), quickly("white space", b"\n \r\t"),
           quickly("E", b"86"), quickly("all traffic", plain(TRAFFIC)),
           slowly("text", written(draw, make(30))),
           slowly("text and a fault", plain(make(20)) + b"71 256 71")]
    out.extend(with_words(b"86"))
    for size in (BLOCK - 2, BLOCK, BLOCK + 2, 2 * BLOCK):
        out.append(from_file("%d bytes written" % size, plain(text_sent_in(size))))
    # words of two and of three digits, so that lines end anywhere in a block
    for _ in range(8):
        out.append(from_file("words of two lengths", plain(draw.choices((71, 101), k=900))))
    out.extend(border_cases(make))
    lengths = [1, 2, 93, 96, 97, 189, 192, 193]
    for number in SEND_BREAKS:
        lengths.extend(sides(number))
    for length in lengths:
        out.append(quickly("%d signals" % length, written(draw, make(length))))
    for word in (255, BETA, ALPHA, RQ, 0, 128):
        out.append(quickly("word %d in it" % word, plain(make(5) + [word, word])))
    out.append(quickly("8,190 signals", plain(make(8190))))
    out.extend(fault_cases(draw, make))
    out.extend(limit_cases(draw, make))
    for _ in range(20):
        length = draw.choice((draw.randrange(10), draw.randrange(100),
                              draw.randrange(400)))
        words = make(length)
        if length > 0 and draw.random() < 0.3:
            words[draw.randrange(length)] = draw.choice(
                [word for word in WORDS if word not in TRAFFIC])
        out.append(quickly("%d signals" % length, written(draw, words)))
    return out


# --- receive ---

LEAST_RECEIVE_WORDS = 100000


def bulletin(draw, length):
    """A text for mode B.  Returns and line feeds let a receiver that joined
    late begin to print."""
    words = draw.choices(TRAFFIC + [CARRIAGE_RETURN, LINE_FEED], k=length)
    return broadcast.slots(words)


def damaged(draw, words, chance, others):
    """Words replaced, each with the same chance, by one of `others`."""
    return [draw.choice(others) if draw.random() < chance else word
            for word in words]


def heard_in_mode_b(draw, kind):
    """One input's words, of about 2,000."""
    words = []
    size = draw.choice((300, 1000, 2000, 3000))
    while len(words) < size:
        sent = bulletin(draw, draw.choice((0, 1, 2, 30, 94, 95, 190, 300, 600)))
        if kind == "clean":
            words += sent
        elif kind == "damaged":
            words += damaged(draw, sent, draw.choice((0.02, 0.1, 0.3)), MUTILATED)
        elif kind == "other signals":
            words += damaged(draw, sent, draw.choice((0.02, 0.1)), INTACT)
        elif kind == "joined late":
            words += sent[draw.randrange(len(sent)):]
        elif kind == "cut short":
            words += sent[:draw.randrange(len(sent))]
        elif kind == "slots slip":
            at = draw.randrange(len(sent))
            words += sent[:at] + draw.choice(([], [0], [ALPHA])) + sent[at + 1:]
        elif kind == "noise between":
            words += sent + draw.choices(WORDS, k=draw.randrange(40))
        elif kind == "intact noise":
            words += draw.choices(INTACT, k=50)
        elif kind == "noise":
            words += draw.choices(WORDS, k=100)
        elif kind == "phasing noise":
            words += draw.choices(
                [ALPHA, RQ] * 3 + [LINE_FEED, CARRIAGE_RETURN, BETA, 0, 71], k=50)
        elif kind == "ends":
            # A lock, a few positions, an end in DX or nearly one, about as many
            # words as it waits for, and what a new search may or may not take
            # for its four signals.
            words += draw.choice(([RQ, ALPHA] * 2, [ALPHA, RQ] * 2 + [ALPHA]))
            for _ in range(draw.randrange(4)):
                words += draw.choices((LINE_FEED, CARRIAGE_RETURN, 71, RQ, 0), k=2)
            alphas = [ALPHA] * 8 + [128 + ALPHA, 0, RQ]
            words += [draw.choice(alphas), draw.choice((ALPHA, RQ, 71, 0)),
                      draw.choice(alphas)]
            words += draw.choices((ALPHA, RQ, LINE_FEED, 71, 0),
                                  k=draw.choice((0, 1, 2, 3, 3, 3, 4)))
            words += ([RQ, ALPHA] * 3)[:draw.randrange(3, 6)]
            words += draw.choices((LINE_FEED, 71, 86), k=draw.randrange(6))
        elif kind == "late ends":
            # The alpha at the end damaged, so that the second one heard comes
            # late, up to the last; the end cut, and the next bulletin directly
            # behind it, of which the phasing is cut.
            sent = bulletin(draw, draw.choice((0, 1, 2, 10)))
            traffic = len(sent) - 2 * 17 - 6
            behind = damaged(draw, sent[traffic:], draw.choice((0.3, 0.6, 0.8)),
                             draw.choice((MUTILATED, MUTILATED, WORDS)))
            if draw.random() < 0.2:
                behind[-4] = behind[-2] = ALPHA
            sent = sent[:traffic] + behind[:len(behind) - draw.choice((0, 0, 1, 2, 4))]
            words += sent[draw.choice((0, 25, 26, 27, 28)):]
        else:
            # A lock, and then pairs of words that settle each way.
            words += draw.choice(([RQ, ALPHA], [ALPHA, RQ])) * 2
            few = draw.sample(IN_BLOCK, 2) + [LINE_FEED, ALPHA, RQ, BETA, 0, 255]
            words += draw.choices(few, k=draw.randrange(60))
    return words


RECEIVE_KINDS = ("clean", "damaged", "other signals", "joined late", "cut short",
                 "slots slip", "noise between", "intact noise", "noise",
                 "phasing noise", "ends", "late ends", "settling")


# --- receive: the three words behind the second alpha (02, T-03) ---

LOCK = [RQ, ALPHA, RQ, ALPHA]

# Of a bulletin with one signal: the last four phasing signals before the text, the
# DX and the RX of the signal, the second alpha in DX, and what comes behind the
# three words that follow it.
LAST_FOUR, ONE_DX, ONE_RX, SECOND_ALPHA, WAITED = 28, 36, 41, 40, 44


def ended(positions, two):
    """A lock, positions by their DX and RX as heard, two alpha in DX, and three
    words behind the second: the RX of the last position, then `two`.  Where
    there is no position, one of the lock waits."""
    dx = [one[0] for one in positions] + [ALPHA, ALPHA]
    rx = [ALPHA, ALPHA] + [one[1] for one in positions]
    heard = list(LOCK)
    for pair in zip(dx, rx):
        heard += pair
    return heard + list(two)


def listened_from(first, word):
    """A bulletin with one signal from a slot on, to the end of the three words."""
    return broadcast.slots([word])[first:WAITED]


def searched_in(draw):
    """What is behind an end: a bulletin of which three to six phasing signals are
    heard, or one that is joined where signals come before a line feed."""
    if draw.random() < 0.3:
        return ended([(71, 71), (86, 86), (LINE_FEED, LINE_FEED), (86, 86)],
                     [ALPHA, ALPHA])
    return listened_from(draw.choice((26, 27, 28, 28, 29)), 71)


def last_position_ends(draw):
    """The last position of a text, the line feed where there is none, heard in
    either slot, in both, in neither, and unlike."""
    def ways(bad, other):
        return [{}, {0: bad}, {5: bad}, {0: bad, 5: bad}, {0: other}, {5: other}]

    for length in (0, 1, 2, 94, 95):
        words = draw.choices(TRAFFIC, k=length)
        sent = broadcast.slots(words)
        last = len(sent) - 2 * 18
        for way in ways(draw.choice(MUTILATED),
                        draw.choice(INTACT))[:6 if length < 94 else 3]:
            heard = list(sent)
            for behind, word in way.items():
                heard[last + behind] = word
            yield heard[LAST_FOUR:]


def alphas_damaged(draw):
    """The first alpha in DX damaged, each number of them, up to those before the
    last two; then another bulletin, of which more or fewer phasing signals are
    heard.  Behind the last two the sender stops within the wait."""
    sent = broadcast.slots([86])
    for spoilt in range(16):
        for first in (25, 26, 27, 28, 29) if spoilt > 12 else (28,):
            heard = list(sent)
            heard[draw.choice((ONE_DX, ONE_RX))] = draw.choice(MUTILATED)
            for number in range(spoilt):
                heard[ONE_DX + 2 + 2 * number] = draw.choice(MUTILATED)
            yield heard[LAST_FOUR:] + listened_from(first, 71)


def cut_ends(draw):
    """A bulletin cut around its second alpha and the three words, and another."""
    for behind in range(SECOND_ALPHA - 1, WAITED + 2):
        for first in range(24, 30):
            yield (broadcast.slots([86])[LAST_FOUR:behind]
                   + listened_from(first, draw.choice((71, 86))))


def words_in_wait(draw):
    """Three words of each sort.  The DX of the position that waits is 71, or
    damaged in one of three."""
    sorts = (ALPHA, RQ, 71, 86, LINE_FEED, None)
    for three in [(one, two, three) for one in sorts for two in sorts
                  for three in sorts]:
        one, *two = [draw.choice(MUTILATED) if word is None else word
                     for word in three]
        dx = draw.choice((71, 71, draw.choice(MUTILATED)))
        yield ended([(LINE_FEED, LINE_FEED), (dx, one)], two) + searched_in(draw)


def waiting_positions(draw):
    """Each sort of DX and RX of the position that waits, once printing has begun
    and before that; and an end directly behind the lock."""
    for begun in ([], [(CARRIAGE_RETURN, CARRIAGE_RETURN)]):
        for dx in (CARRIAGE_RETURN, LINE_FEED, 71, RQ, BETA, 0, 128 + ALPHA):
            for rx in (CARRIAGE_RETURN, LINE_FEED, 71, RQ, ALPHA, 0, 255):
                two = draw.choices((ALPHA, ALPHA, 86, LINE_FEED, 0), k=2)
                yield ended(begun + [(dx, rx)], two) + searched_in(draw)
    for _ in range(6):
        yield ended([], draw.choices((ALPHA, RQ, LINE_FEED), k=2)) + searched_in(draw)


def four_across_the_wait(draw):
    """Four alternating signals, the first ones among the three words or the
    second alpha itself, and a text.  Only those that all come behind the three
    words end the search."""
    text_behind = listened_from(LAST_FOUR + 4, 86)
    begun = [(LINE_FEED, LINE_FEED)]
    for before, other in ((begun, 71), (begun, 0), (begun, LINE_FEED), ([], 71),
                          ([], BETA)):
        for early in range(4):
            for four, gap in ((LOCK, []), ([ALPHA, RQ] * 2, [0])):
                one, *two = [other] * (3 - early) + four[:early]
                yield (ended(before + [(71, one)], two) + four[early:] + gap
                       + text_behind)
        for gap in ([0], [ALPHA]):
            yield ended(before + [(other, RQ)], [ALPHA, RQ]) + gap + text_behind


WAIT_WORDS_IN_A_CASE = 1200
WAIT_KINDS = (last_position_ends, alphas_damaged, cut_ends, words_in_wait,
              waiting_positions, four_across_the_wait)


def wait_cases(draw):
    """Inputs of these."""
    out = []
    for kind in WAIT_KINDS:
        words = []
        for heard in kind(draw):
            words += heard
            if len(words) > WAIT_WORDS_IN_A_CASE:
                out.append(quickly(kind.__name__.replace("_", " "), plain(words)))
                words = []
        if words:
            out.append(quickly(kind.__name__.replace("_", " "), plain(words)))
    return out


def receive_cases(draw):
    text_of_one = broadcast.slots([86])
    out = [quickly("empty", b""), quickly("white space", b" \r\n"),
           quickly("text E", plain(text_of_one)),
           quickly("no text", plain(broadcast.slots([]))),
           slowly("text E", plain(text_of_one))]
    out.extend(with_words(plain(text_of_one)))
    for size in OUTPUT_SIZES:
        # A return and a line feed are printed before the text.
        two, three = made_up(size - len("120 108 "), 3)
        out.append(from_file("%d bytes written" % size, plain(
            broadcast.slots([86] * two + [101] * three))))
    out.extend(border_cases(
        lambda length: broadcast.slots(draw.choices(TRAFFIC, k=length))[:length]))
    # Every slot of a short bulletin damaged, and listened to from.  The whole
    # bulletin between lets the receiver begin anew.
    for start in range(0, len(text_of_one), 8):
        words = []
        for place in range(start, start + 8):
            spoilt = list(text_of_one)
            spoilt[place] = draw.choice(MUTILATED)
            words += spoilt + text_of_one + text_of_one[place:] + text_of_one
        out.append(quickly("slots %d to %d damaged" % (start, start + 7),
                           plain(words)))
    for behind in range(SECOND_ALPHA + 1, WAITED):
        out.append(quickly("ends within the wait, %d words" % behind,
                           plain(text_of_one[:behind])))
    out.extend(wait_cases(draw))
    total = 0
    while total < LEAST_RECEIVE_WORDS:
        for kind in RECEIVE_KINDS:
            words = heard_in_mode_b(draw, kind)
            total += len(words)
            out.append(quickly(kind, written(draw, words)))
    for case in fault_cases(draw, lambda length: bulletin(draw, 20)[:length]):
        out.append(case)
    for run in (b"256", b"x", b"12x", b"99999999999999999999"):
        # Printing has begun; the line begun has 1 to 16 words.
        words = broadcast.slots(draw.choices(TRAFFIC, k=60))
        for place in (42, 44, draw.randrange(40, 160)):
            out.append(quickly("fault %r after %d words" % (run, place),
                               with_run(draw, words, place, run)))
    return out


# --- stars (02, T-08) ---

LEAST_STARS_WORDS = 60000
# The return, the line feed, and the first signal of a text.
FIRST_OF_TEXT = 18


def with_copies(sent, position, dx, rx):
    """The slots with other copies of one position."""
    heard = list(sent)
    for slot, word in ((2 * position, dx), (2 * position + 5, rx)):
        if slot < len(heard):
            heard[slot] = word
    return heard


def pairs_of_copies(draw, word):
    """Copies of a position as they may be heard: neither intact, one, both; unlike,
    and phasing in either order."""
    one, two = draw.sample(INTACT, 2)
    bad, worse = draw.choices(MUTILATED, k=2)
    return [(bad, worse), (bad, bad), (one, two), (two, one), (word, bad), (bad, word),
            (word, one), (one, word), (RQ, ALPHA), (ALPHA, RQ), (RQ, bad), (bad, ALPHA),
            (word | 128, word), (word | 128, word | 128), (BETA, word), (0, 0),
            (255, 0)]


def each_position_spoilt(draw):
    """Each position of a short bulletin in each of these ways: before printing has
    begun, the first return or line feed, the text, its last signal, and alpha.  The
    whole bulletin behind each lets the receiver begin anew."""
    sent = broadcast.slots([71, 86, 71])
    for position in range(len(sent) // 2):
        for dx, rx in pairs_of_copies(draw, sent[2 * position]):
            yield with_copies(sent, position, dx, rx)[LAST_FOUR - 4:] + sent[LAST_FOUR:]


def each_word_bad(draw):
    """Each mutilated word as either copy, once printing has begun."""
    for flip in range(2):
        sent = broadcast.slots([71] * len(MUTILATED))
        traffic = [t for t in range(FIRST_OF_TEXT, len(sent) // 2) if sent[2 * t] == 71]
        for position, word in zip(traffic, MUTILATED):
            pair = (word, draw.choice(MUTILATED))
            sent = with_copies(sent, position, *(reversed(pair) if flip else pair))
        yield sent


def each_two_intact(draw):
    """Each two intact words as the copies of a position.  No two alpha come in DX one
    behind the other."""
    two = [(dx, rx) for rx in INTACT for dx in INTACT]
    sent = broadcast.slots([71] * len(two))
    traffic = [t for t in range(FIRST_OF_TEXT, len(sent) // 2) if sent[2 * t] == 71]
    for position, (dx, rx) in zip(traffic, two):
        sent[2 * position], sent[2 * position + 5] = dx, rx
    yield sent


def much_damaged(draw):
    """Bulletins of which most positions are stars."""
    for chance in (0.3, 0.5, 0.7, 0.9):
        for others in (MUTILATED, INTACT, WORDS):
            sent = broadcast.slots(draw.choices(TRAFFIC, k=draw.choice((3, 60, 95, 150))))
            behind = damaged(draw, sent[37:], chance, others)
            yield sent[LAST_FOUR:37] + behind + broadcast.slots([86])[LAST_FOUR:]


STAR_KINDS = (each_position_spoilt, each_word_bad, each_two_intact, much_damaged)


def starred_in(size):
    """Words of which the lines come to `size` bytes: a text of which every signal is
    a star, as many as fit, the words of some longer than one digit."""
    sent = broadcast.slots([71] * (size // 10))
    traffic = [t for t in range(FIRST_OF_TEXT, len(sent) // 2) if sent[2 * t] == 71]
    lines = [len("%d bad 0 0\n" % (2 * position + 5)) for position in traffic]
    while sum(lines) > size:
        lines.pop()
    more = size - sum(lines)
    for position, _ in zip(traffic, lines):
        # Two digits more for the DX, and as many for the RX.
        words = []
        for _ in range(2):
            digits = min(more, 2)
            more -= digits
            words.append((0, 10, 100)[digits])
        sent = with_copies(sent, position, *words)
    assert more == 0
    return sent


def stars_cases(draw):
    star = with_copies(broadcast.slots([86, 71]), FIRST_OF_TEXT, 0, 127)
    out = [quickly("empty", b""), quickly("white space", b" \r\n"),
           quickly("text E and no star", plain(broadcast.slots([86]))),
           quickly("a star", plain(star)), slowly("a star", plain(star)),
           in_pieces("stars", plain(starred_in(600)))]
    out.extend(with_words(plain(star)))
    for size in OUTPUT_SIZES:
        out.append(from_file("%d bytes written" % size, plain(starred_in(size))))
        # The last word, of which the star is, ends there.
        up_to = plain(star[:2 * FIRST_OF_TEXT + 6]).rstrip()
        out.append(from_file("a star at %d bytes" % size, up_to.rjust(size)))
    out.extend(border_cases(lambda length: damaged(
        draw, bulletin(draw, length)[:length], 0.3, MUTILATED)))
    for kind in STAR_KINDS:
        words = []
        for heard in kind(draw):
            words += heard
            if len(words) > 3000:
                out.append(quickly(kind.__name__.replace("_", " "), plain(words)))
                words = []
        if words:
            out.append(quickly(kind.__name__.replace("_", " "), plain(words)))
    out.extend(wait_cases(draw))
    total = 0
    while total < LEAST_STARS_WORDS:
        for kind in RECEIVE_KINDS:
            words = heard_in_mode_b(draw, kind)
            total += len(words)
            out.append(quickly(kind, written(draw, words)))
    out.extend(fault_cases(draw, lambda length: star[:length]))
    for run in (b"256", b"x", b"12x", b"99999999999999999999"):
        # Before the star, at it and behind it.
        for place in (41, 42, 43):
            out.append(quickly("fault %r after %d words" % (run, place),
                               with_run(draw, star, place, run)))
    return out


# --- hear ---

LEAST_HEAR_BURSTS = 100000


def single(word):
    return (word, 0, 0)


IN_BLOCK_MORE = IN_BLOCK + [BETA] * 6 + [FIGURES, PLUS, PLUS, QUERY, QUERY,
                                         LETTERS, WHO_ARE_YOU]


def block(draw):
    """A block a slave accepts, with shifts, +, ? and D well among its signals."""
    return tuple(draw.choices(IN_BLOCK_MORE, k=3))


def any_burst(draw):
    """A burst of any kind, whatever the place."""
    kind = draw.randrange(13)
    if kind == 0:
        return block(draw)
    if kind == 1:
        broken = list(block(draw))
        broken[draw.randrange(3)] = draw.choice(MUTILATED)
        return tuple(broken)
    if kind == 2:
        return tuple(draw.choices(WORDS, k=3))
    if kind == 3:
        return tuple(draw.choices(INTACT, k=3))
    if kind == 4:
        return (RQ, RQ, RQ)
    if kind == 5:
        return (RQ,) + tuple(draw.choices((0, RQ, ALPHA, 71, 255), k=2))
    if kind == 6:
        return (BETA, ALPHA, BETA)
    if kind == 7:
        return tuple(draw.choices((ALPHA, BETA, RQ), k=3))
    if kind == 8:
        return single(draw.choice((CS1, CS2, CS3)))
    if kind == 9:
        return (draw.choice((CS1, CS2, CS3)),) + tuple(draw.choices(WORDS, k=2))
    if kind == 10:
        return tuple(draw.choices(NAMED, k=3))
    if kind == 11:
        return (0, 0, 0)
    broken = list(block(draw))
    broken[draw.randrange(3)] = draw.choice((ALPHA, RQ))
    return tuple(broken)


def helpful_burst(draw, slave):
    """A burst that leads the slave on from where it is."""
    if slave.place == RECEIVING:
        return block(draw)
    if slave.place == ASKING:
        return (BETA, ALPHA, BETA)
    if slave.place == OPENING:
        return single(draw.choice((CS1, CS2)))
    if slave.place == SENDING:
        other = CS2 if slave.number == 1 else CS1
        return single(draw.choice((other, other, CS3)))
    if slave.place == TURNING:
        return (RQ,) + draw.choice(((0, 0), (RQ, RQ)))
    if slave.place == CALLING:
        return single(draw.choice((CS1, CS2)))
    if slave.place == CALLING_3:
        return single(CS4)
    if slave.place == IDENTIFYING:
        if slave.stage == 4:
            return single(draw.choice((CS1, CS3)))
        return single(check_sum(slave.seven, slave.stage))
    if slave.place == ANSWERING:
        return mode_a.identification_block(identity(draw, 7), slave.stage)
    if slave.place == STANDBY and slave.own != mode_a.NO_IDENTITY:
        if slave.own_seven == mode_a.NO_SEVEN or draw.random() < 0.5:
            return mode_a.call_block(slave.own, draw.choice((1, 2)))
        # What leads on to one of the two orders.
        number = {(): 1, (1,): 2, (1, 2): 3, (2,): 3, (2, 3): 1}[slave.blocks]
        return mode_a.call_block_of_seven(slave.own_seven, number)
    return any_burst(draw)


def led_circuit(draw, most):
    """Bursts for a slave that is led through many turns: each burst is chosen
    by the place the slave has reached, and helps it on often enough that it
    is seldom lost and seldom at Stand-by before the end."""
    slave = mode_a.fresh_slave()
    bursts = []
    silent_for = 0
    while len(bursts) < most and silent_for < 8:
        near_end = len(bursts) > most - 60
        if draw.random() < 0.45 or (slave.count > 20 and not near_end):
            burst = helpful_burst(draw, slave)
        else:
            burst = any_burst(draw)
        leaves = (burst == (ALPHA, ALPHA, ALPHA) and slave.place == RECEIVING
                  or burst[0] == CS3 and slave.place == OPENING)
        if leaves and not near_end and draw.random() < 0.98:
            continue
        slave = mode_a.step(slave, burst, mode_a.NOTHING).station
        bursts.append(burst)
        if slave.place in (STANDBY, LOST):
            silent_for += 1
    return bursts


def model_circuit(draw, most, chance):
    """Bursts as a real master sends them, with damage both ways."""
    master, slave = mode_a.fresh_master(), mode_a.fresh_slave()
    heard = single(CS1)
    bursts = []

    def spoil(burst):
        return tuple(damaged(draw, burst, chance, MUTILATED))

    while len(bursts) < most:
        chosen = draw.random()
        if chosen < 0.8:
            offer = mode_a.Offer("text", block(draw))
        elif chosen < 0.9:
            offer = mode_a.NOTHING
        elif chosen < 0.998:
            offer = mode_a.Offer("over", (0, 0, 0))
        else:
            offer = mode_a.Offer("end", (0, 0, 0))
        answer = mode_a.step(master, spoil(heard), offer)
        master = answer.station
        burst = spoil(answer.burst)
        bursts.append(burst)
        reply = mode_a.step(slave, burst, mode_a.NOTHING)
        slave = reply.station
        heard = reply.burst
        if STANDBY in (master.place, slave.place) and draw.random() < 0.1:
            break
    return bursts


def led_to(draw, place):
    """Bursts that lead a slave to a place, and the slave there."""
    slave = mode_a.fresh_slave()
    bursts = []
    while slave.place != place or slave.count > 0 or len(bursts) < 3:
        burst = helpful_burst(draw, slave)
        slave = mode_a.step(slave, burst, mode_a.NOTHING).station
        bursts.append(burst)
    return bursts, slave


def left_circuit(draw, place, burst):
    """Bursts that lead a slave to a place, one burst there, and a little more."""
    bursts, _ = led_to(draw, place)
    return bursts + [burst] + [any_burst(draw) for _ in range(5)]


def starved_circuit(draw, place, bad):
    """Bursts that lead a slave to a place, leave it there for `bad` steps, help
    it on with one burst and go on a little."""
    bursts, slave = led_to(draw, place)
    kept = 0
    while kept < bad:
        burst = any_burst(draw)
        after = mode_a.step(slave, burst, mode_a.NOTHING).station
        if after.count == slave.count + 1 or after.place == LOST:
            slave = after
            bursts.append(burst)
            kept += 1
    bursts.append(helpful_burst(draw, slave))
    return bursts + [any_burst(draw) for _ in range(5)]


# "Who are you", alone, behind an over, before one, and the over in the same block.
QUESTIONS = [[(FIGURES, WHO_ARE_YOU, BETA)], [(BETA, FIGURES, WHO_ARE_YOU)],
             [(FIGURES, PLUS, PLUS), (QUERY, WHO_ARE_YOU, BETA)],
             [(FIGURES, PLUS, BETA), (WHO_ARE_YOU, PLUS, QUERY)],
             [(FIGURES, 71, 86), (WHO_ARE_YOU, WHO_ARE_YOU, WHO_ARE_YOU)],
             [(FIGURES, WHO_ARE_YOU, PLUS), (QUERY, 71, 86)],
             [(WHO_ARE_YOU, FIGURES, LETTERS), (BETA, BETA, WHO_ARE_YOU)]]


def questioned(draw, question, cuts, chance):
    """Bursts for a slave that is asked who it is (02, T-06), once for each of the
    cuts: behind so many blocks of what it sends it hears CS3.  With a chance a burst
    is damaged."""
    slave = mode_a.fresh_slave()
    bursts = []
    for cut in cuts:
        waiting = list(question)
        sent = 0
        while waiting or slave.place not in (RECEIVING, STANDBY, LOST):
            burst = helpful_burst(draw, slave)
            if slave.place == RECEIVING:
                burst = waiting[0]
            if slave.place == SENDING:
                burst = single(CS3 if sent >= cut else (CS2, CS1)[slave.number - 1])
            if draw.random() < chance:
                burst = spoilt(draw, burst)
            elif slave.place == RECEIVING:
                waiting.pop(0)
            before, slave = slave, mode_a.step(slave, burst, mode_a.NOTHING).station
            bursts.append(burst)
            sent += slave.place == SENDING and slave.number != before.number
    return bursts


def joined(bursts):
    return bytes(word for burst in bursts for word in burst)


def heard_in(size):
    """Blocks of which the lines come to `size` bytes: two bytes printed by each,
    and three by as many as are needed."""
    lines = programs.hear(joined([(71, 71, BETA)] * (size // 10)))[0].splitlines(True)
    while sum(map(len, lines)) > size or (size - sum(map(len, lines))) % 2 == 1:
        lines.pop()
    more = (size - sum(map(len, lines))) // 2
    # The first line is the header.
    return joined([(71, 71, 71)] * more + [(71, 71, BETA)] * (len(lines) - 1 - more))


def hear_cases(draw):
    example = bytes([116, 86, 51, 86, 0, 86, 54, 99, 114, 51, 15, 51])
    out = [quickly("01's example", example), quickly("empty", b""),
           slowly("01's example", example),
           slowly("a circuit", joined(led_circuit(draw, 40))),
           in_pieces("a circuit", joined(led_circuit(draw, 400)))]
    out.extend(with_words(example))
    for size in OUTPUT_SIZES:
        out.append(from_file("%d bytes written" % size, heard_in(size)))
    circuit = joined(led_circuit(draw, 4000))
    for size in (BLOCK - 1, BLOCK, BLOCK + 1, 2 * BLOCK, 2 * BLOCK + 1):
        out.append(from_file("%d bytes heard" % size, circuit[:size]))
    for length in (1, 2, 3, 4, 5, 11):
        out.append(quickly("first %d bytes of 01's example" % length,
                           example[:length]))
        out.append(quickly("%d traffic signals" % length,
                           bytes(draw.choices(TRAFFIC, k=length))))
    for _ in range(5):
        out.append(quickly("random bytes",
                           bytes(draw.choices(WORDS, k=draw.randint(90, 200)))))
        out.append(quickly("random intact words",
                           bytes(draw.choices(INTACT, k=draw.randint(90, 900)))))
    # What leads to Stand-by.
    for burst in (single(CS3), (CS3, 71, 86), (CS3, 255, RQ)):
        out.append(quickly("CS3 at Opening",
                           joined(left_circuit(draw, OPENING, burst))))
    for _ in range(2):
        out.append(quickly("alphas at Receiving", joined(
            left_circuit(draw, RECEIVING, (ALPHA, ALPHA, ALPHA)))))
    out.append(quickly("32 bad bursts and nothing behind them", bytes(96)))
    # What would be the call blocks of a station without an identity.
    for block in ((0, RQ, 0), (71, RQ, 71)):
        behind = (block[0], block[2], RQ)
        out.append(quickly("call blocks at Stand-by", joined(
            [(ALPHA, ALPHA, ALPHA), block, behind, block, behind])))
    # And of one without seven signals.
    blocks = [mode_a.call_block_of_seven(mode_a.NO_SEVEN, number) for number in (1, 2, 3)]
    out.append(quickly("three call blocks at Stand-by", joined(
        [(ALPHA, ALPHA, ALPHA)] + blocks * 2)))
    # The answer-back of a station that has no code, whole and cut.
    for question in QUESTIONS:
        for chance in (0, 0.3):
            out.append(quickly("who are you", joined(
                questioned(draw, question, (3, 1, 2, 3, 6, 3), chance))))
    # The time-out to the burst, at each place that has one.
    for place in (SENDING, TURNING, OPENING, RECEIVING, ASKING):
        for bad in (30, 31, 32, 33):
            out.append(quickly("%d bad bursts at %s" % (bad, place),
                               joined(starved_circuit(draw, place, bad))))
    total = sum(len(case.data) for case in out) // 3
    number = 0
    while total < LEAST_HEAR_BURSTS:
        most = draw.choice((100, 1000, 2000, 4000))
        if number % 3 == 2:
            bursts = model_circuit(draw, most, draw.choice((0, 0.02, 0.1, 0.3)))
            about = "circuit of a model master"
        else:
            bursts = led_circuit(draw, most)
            about = "slave led through turns"
        number += 1
        data = joined(bursts)
        cut = draw.choice((0, 0, 1, 2))
        data = data[:len(data) - cut]
        total += len(bursts)
        out.append(quickly(about, data))
    return out


# --- steps ---

STEPS_IN_A_CASE = 20000


# For blocks, with what an over is made of well among it; the first word of a
# block that is no control signal and no letter of table 3a.
OVER_PARTS = [PLUS, QUERY, FIGURES, BETA] * 4 + [WHO_ARE_YOU] * 2
BLOCK_FIRST = [word for word in IN_BLOCK if word not in IDENTITY_SIGNALS
               and word not in (CS1, CS2, CS3, CS4, CS5)] + [FIGURES, BETA] * 4
BLOCK_REST = IN_BLOCK + OVER_PARTS
LETTERS_FIRST = IDENTITY_SIGNALS + [PLUS, QUERY] * 10

# The kinds of burst: the five control signals and the letters of table 3a first,
# each as a block and otherwise; three RQ, RQ first otherwise, another block, beta
# alpha beta, alpha alpha alpha, anything else.
KINDS_OF_BURST = range(18)


def burst_of_kind(draw, kind):
    """A burst of this kind, drawn at random."""
    if kind < 12:
        first = (CS1, CS2, CS3, CS4, CS5, draw.choice(LETTERS_FIRST))[kind // 2]
        if kind % 2 == 0:
            return (first,) + tuple(draw.choices(BLOCK_REST, k=2))
        rest = draw.choice(((0, 0), tuple(draw.choices(WORDS, k=2)),
                            tuple(draw.choices(NOT_IN_BLOCK, k=2))))
        return (first,) + rest
    if kind == 12:
        return (RQ, RQ, RQ)
    if kind == 13:
        return (RQ,) + draw.choice(((0, 0), (RQ, 0), (0, RQ), (71, 71),
                                    tuple(draw.choices(WORDS, k=2))))
    if kind == 14:
        return (draw.choice(BLOCK_FIRST),) + tuple(draw.choices(BLOCK_REST, k=2))
    if kind == 15:
        return (BETA, ALPHA, BETA)
    if kind == 16:
        return (ALPHA, ALPHA, ALPHA)
    # Anything else, near misses often.
    return draw.choice((
        tuple(draw.choices(WORDS, k=3)), (0, 0, 0), (ALPHA, ALPHA, 0),
        (ALPHA, 0, ALPHA), (0, ALPHA, ALPHA), (BETA, ALPHA, ALPHA),
        (ALPHA, BETA, ALPHA), (BETA, ALPHA, 0), (0, RQ, RQ), (71, RQ, RQ),
        (71, 71, RQ), (71, 0, 71), (128 + CS1, 0, 0), (71, 86, ALPHA),
        (128 + CS4, 0, 0), (128 + 71, 0, 0), (ALPHA, 71, 86)))


# Sorts of offer: nothing, good text, bad text, over, end, text with one word of
# any value, a good call and a bad one, and the same of seven signals.
(NO_OFFER, TEXT, BAD_TEXT, OVER, END, ANY_TEXT, CALL, BAD_CALL, CALL_7,
 BAD_CALL_7) = SORTS = range(10)
# Those that no word they hold has refused.
GOOD_SORTS = (NO_OFFER, TEXT, OVER, END, CALL, CALL_7)


def offer_of_sort(draw, sort):
    """Byte 13, the three words of a text, and the four and three of a call.  Those
    that the kind does not have are of any value."""
    kind = (0, 1, 1, 2, 3, 1, 4, 4, 5, 5)[sort]
    words = draw.choices(IN_BLOCK, k=3) if kind == 1 else draw.randbytes(3)
    if sort == BAD_TEXT:
        for index in draw.choice(((0,), (1,), (2,), (0, 1), (1, 2), (0, 1, 2))):
            words[index] = draw.choice(NOT_IN_BLOCK)
    elif sort == ANY_TEXT:
        words[draw.randrange(3)] = draw.choice(WORDS)
    length = {4: 4, 5: 7}.get(kind, 0)
    called = identity(draw, length)
    if sort in (BAD_CALL, BAD_CALL_7):
        called = outside(draw, called)
    return (stretched(draw, kind, 6), *words, *called, *draw.randbytes(7 - length))


NOTHING_OFFERED = (0,) * 11


def call_offer(called):
    """The offer of a call of four or of seven signals."""
    if len(called) == 7:
        return (5, 0, 0, 0, *called)
    return (4, 0, 0, 0, *called, 0, 0, 0)


def stretched(draw, value, step):
    """A byte of which only the remainder counts."""
    return value + step * int(draw.random() * ((255 - value) // step + 1))


# Few letters, so that identities are often alike in some of their places.
FEW_LETTERS = IDENTITY_SIGNALS[:3]


def identity(draw, length=4):
    """So many words of table 3a."""
    return tuple(draw.choices(draw.choice((FEW_LETTERS, IDENTITY_SIGNALS)), k=length))


# Words outside table 3a that a wrong rule may take for one within it: the letters
# that it leaves out, signals that are no letters, and one of its letters with
# bit 7 set.
NEARLY_IN_IDENTITY = [word for word in INTACT if word not in IDENTITY_SIGNALS]
NEARLY_IN_IDENTITY += [0, 128 + IDENTITY_SIGNALS[0]]


def outside(draw, words):
    """The identity with one word outside table 3a, or more."""
    words = list(words)
    many = draw.choice((1, 1, 1, 1, 2, 2, 2, len(words)))
    for index in draw.sample(range(len(words)), many):
        words[index] = draw.choice(draw.choice((NEARLY_IN_IDENTITY,
                                                NOT_IN_IDENTITY)))
    return tuple(words)


def own_identity(draw, length=4):
    """Most often one that can be called; else none, or one with a word outside
    table 3a."""
    way = draw.randrange(10)
    if way < 7:
        return identity(draw, length)
    return (0,) * length if way == 7 else outside(draw, identity(draw, length))


# Steps left to wait and call bursts sent: around none and around 128.
CYCLES = (0, 1, 2, 3, 126, 127, 128, 129, 254, 255)


# How often a wrong check-sum has had a block sent again: around none and four.
WRONG = (0, 1, 2, 3, 4, 5, 255)

# Where the own identity of seven signals is heard, sent or added up.
USES_OWN_SEVEN = (STANDBY, CALLING_3, IDENTIFYING, ANSWERING)


# --- steps: answer-back codes, and what is owed (02, T-06) ---

# What a wrong rule may take for a question or an over in a code, or not: shifts, +, ?
# and D well among the rest.
CODE_PARTS = TRAFFIC + [LETTERS, FIGURES, PLUS, QUERY, WHO_ARE_YOU] * 3
NOT_TRAFFIC = [word for word in WORDS if word not in TRAFFIC]
# Words that stand in a code without a say, and what is behind its length, or not.
PLAIN = [word for word in TRAFFIC if word not in (LETTERS, FIGURES, PLUS, QUERY,
                                                  WHO_ARE_YOU)]
WORDS_WRITTEN = 20


def code_of(draw, signals, length=None):
    """The 21 bytes of a code: its length, and 20 words, any behind the length."""
    signals = tuple(signals)[:WORDS_WRITTEN]
    behind = draw.choices(draw.choice((WORDS, CODE_PARTS, [0])),
                          k=WORDS_WRITTEN - len(signals))
    return bytes((len(signals) if length is None else length, *signals, *behind))


def passing_code(draw, length=None):
    """A code that a station may have."""
    if length is None:
        length = draw.choice((0, 1, 2, 3, 19, 20, draw.randint(0, 20)))
    while True:
        code = code_of(draw, draw.choices(draw.choice((PLAIN, CODE_PARTS, TRAFFIC)),
                                          k=length))
        if mode_a.code_passes(programs.read_code(code)):
            return code


# What is told of a code by a few of its signals.  Within plain words, and with what
# may stand before them.
CODE_CORNERS = [
    [WHO_ARE_YOU], [LETTERS, WHO_ARE_YOU], [FIGURES, WHO_ARE_YOU],
    [LETTERS, FIGURES, WHO_ARE_YOU], [FIGURES, LETTERS, WHO_ARE_YOU],
    [LETTERS, WHO_ARE_YOU, FIGURES], [LETTERS, WHO_ARE_YOU, FIGURES, WHO_ARE_YOU],
    [LETTERS, 71, WHO_ARE_YOU, 86], [FIGURES, 71, WHO_ARE_YOU, LETTERS],
    [PLUS], [QUERY], [PLUS, QUERY], [QUERY, PLUS], [PLUS, PLUS, QUERY],
    [FIGURES, PLUS, QUERY], [LETTERS, PLUS, QUERY], [LETTERS, PLUS, FIGURES, QUERY],
    [FIGURES, PLUS, FIGURES, QUERY], [FIGURES, PLUS, LETTERS, QUERY],
    [FIGURES, PLUS, 71, QUERY], [FIGURES, PLUS, CS2, QUERY], [FIGURES, PLUS, QUERY, 71],
    [FIGURES, QUERY, PLUS], [FIGURES, PLUS], [LETTERS, FIGURES, PLUS],
    [FIGURES, PLUS, LETTERS], [LETTERS, PLUS, QUERY, FIGURES],
    [FIGURES, PLUS, BETA, QUERY], [PLUS, BETA, QUERY], [LETTERS, PLUS, BETA, QUERY],
    [FIGURES, PLUS, WHO_ARE_YOU, QUERY], [LETTERS, FIGURES], [FIGURES, LETTERS],
    [BETA], [ALPHA], [RQ], [0], [127], [255], [128 + 71], [128 + WHO_ARE_YOU]]


def near_codes(draw):
    """Codes of each corner: first, last and elsewhere, in codes of several lengths,
    and behind the length, where nothing is looked at."""
    for corner in CODE_CORNERS:
        many = len(corner)
        for length in (many, many + 1, draw.randint(many + 2, 18), 19, 20):
            for first in {0, length - many, draw.randint(0, length - many)}:
                signals = draw.choices(PLAIN, k=length)
                if draw.random() < 0.2 and first > 0:
                    signals[draw.randrange(first)] = draw.choice((LETTERS, FIGURES))
                signals[first:first + many] = corner
                yield code_of(draw, signals)
        # All behind the length but for the first of them, or all.
        for seen in (0, 1):
            for before in (0, 2, 20 - many):
                signals = draw.choices(PLAIN, k=before) + corner
                yield code_of(draw, signals, length=before + min(seen, many - 1))


LENGTHS_OVER = (21, 22, 23, 24, 60, 61, 62, 63, 64, 127, 128, 254, 255)


def codes_of_any_length(draw):
    """Plain codes of each length up to 20 and some above."""
    for length in (*range(21), *LENGTHS_OVER):
        yield code_of(draw, draw.choices(PLAIN, k=min(length, 20)), length=length)


# Codes for records that try other things: drawn once, most of them with some
# signals.
def common_codes(draw):
    """Those that pass, and the same with some that may not."""
    passing = [bytes(21)] * 40 + [passing_code(draw) for _ in range(150)]
    return passing, (passing + draw.choices(list(near_codes(draw)), k=6)
                     + draw.choices(list(codes_of_any_length(draw)), k=4))


PASSING_CODES, COMMON_CODES = common_codes(random.Random(GATE_SEED))


def blocks_of(length, kind):
    """How many blocks the answer has."""
    return (length + 2) // 3 + (3 if kind == "back" else 2)


def some_owed(draw, length):
    """What is owed, most often nothing, else most often a block that is there."""
    way = draw.random()
    if way < 0.6:
        return "none"
    kind = "back" if way < 0.8 else "keep"
    if 0.78 < way < 0.82:
        return mode_a.Owed(kind, int(draw.random() * 256))
    return mode_a.Owed(kind, int(draw.random() * blocks_of(length, kind)))


def record(draw, role, place, number, count, burst, offer, total=None,
           case=None, plus=None, held=None, cycles=None, last=None, own=None,
           other_end=None, called=None, own_seven=None, blocks=None, stage=None,
           wrong=None, last_wrong=None, seven=None, code=None, owed=None):
    """A record of 84 bytes.  Only the low part of a field counts, so the rest
    of its byte is drawn at random; so are fields the place does not carry.
    other_end: an identity of four or of seven signals, one that is barred, or
    "nobody"; called: the identity called at Calling, in the bytes of the words
    held and of the total; code: as of `code_of`; owed: a kind and an index, or
    "none"."""
    if held is None:
        held = draw.choices(IN_BLOCK, k=3)
        if draw.random() < 0.05:
            held[draw.randrange(3)] = draw.choice(NOT_IN_BLOCK)
    if total is None:
        total = draw.choice((1, 2, 3, 4, 1, 2, 3, 4, 0, 5, 255))
    if called is not None:
        held, total = called[:3], called[3]
    if case is None:
        case = draw.randrange(2)
    if plus is None:
        plus = draw.randrange(2)
    if cycles is None:
        cycles = draw.choice(CYCLES)
    if last is None:
        last = draw.randrange(3)
    # Where nothing turns on them these are any bytes.
    name = programs.PLACES[place]
    if own is None:
        own = own_identity(draw) if name == STANDBY else draw.randbytes(4)
    if own_seven is None:
        matters = name in USES_OWN_SEVEN or offer[0] % 6 == 5
        own_seven = own_identity(draw, 7) if matters else draw.randbytes(7)
    if wrong is None:
        wrong = draw.choice(WRONG)
    if last_wrong is None:
        last_wrong = draw.choice(draw.choice((IDENTITY_SIGNALS, WORDS)))
    if seven is None:
        carried = name in programs.HAS_SEVEN
        seven = own_identity(draw, 7) if carried else draw.randbytes(7)
    blocks_byte, stage_byte, known, *signals_of_other = draw.randbytes(10)
    if blocks is not None:
        blocks_byte = stretched(draw, mode_a.RUNS_OF_BLOCKS.index(blocks), 5)
    if stage is not None:
        stage_byte = stretched(draw, stage - 1, 4)
    known = known % 4
    if other_end == "nobody":
        known = 0
    elif isinstance(other_end, mode_a.Barred):
        known, signals_of_other = 3, other_end.identity
    elif other_end is not None:
        known = 1 if len(other_end) == 4 else 2
        signals_of_other = (*other_end, *signals_of_other[len(other_end):])
    if code is None:
        code = draw.choice(COMMON_CODES)
    if owed is None:
        owed = some_owed(draw, code[0])
    if owed == "none":
        owed_kind, owed_index = 0, int(draw.random() * 256)
    else:
        owed_kind, owed_index = ("back", "keep").index(owed.kind) + 1, owed.index
    return bytes((
        stretched(draw, role, 2), stretched(draw, place, 12),
        stretched(draw, number, 2), *held, total, count,
        stretched(draw, case, 2), stretched(draw, plus, 2), *burst, *offer[:4],
        cycles, stretched(draw, last, 3), *own, stretched(draw, known, 4),
        *signals_of_other[:4], *offer[4:8], *own_seven, *signals_of_other[4:],
        *offer[8:], blocks_byte, stage_byte, wrong, last_wrong, *seven,
        *draw.randbytes(4), *code, stretched(draw, owed_kind, 3), owed_index,
        *draw.randbytes(1)))


def written_out(draw, station, burst, offer):
    """The record of a step of this station; offer as of `offer_of_sort`."""
    place = station.place

    def carried(value, *places):
        return value if place in places else None

    return record(draw, 0 if station.master else 1,
                  programs.PLACES.index(place), station.number % 2,
                  station.count, burst, offer,
                  total=carried(station.total, ENDING),
                  case=0 if station.case == "letters" else 1,
                  plus=int(station.plus), held=carried(station.held, SENDING),
                  cycles=carried(station.cycles, *programs.COUNTS_CYCLES),
                  last=carried(station.last, *programs.KEEPS_LAST),
                  own=station.own, other_end=station.other_end or "nobody",
                  called=carried(station.called, CALLING),
                  own_seven=station.own_seven,
                  blocks=carried(station.blocks, STANDBY),
                  stage=carried(station.stage, *programs.HAS_STAGES),
                  wrong=carried(station.wrong, IDENTIFYING),
                  last_wrong=carried(station.last_wrong, IDENTIFYING),
                  seven=carried(station.seven, *programs.HAS_SEVEN),
                  code=bytes((station.code.length, *station.code.words[:20])),
                  owed=station.owed or "none")


def offered(offer):
    """The offer of byte 13 and the words behind it."""
    kind = programs.OFFERS[offer[0] % 6]
    words = {"call": offer[4:8], "call of seven": offer[4:]}.get(kind, offer[1:4])
    return mode_a.Offer(kind, tuple(words))


def spoilt(draw, burst):
    """The burst with one to three words damaged, each by any mutilated byte."""
    words = list(burst)
    for index in draw.sample(range(3), draw.choice((1, 1, 2, 3))):
        words[index] = draw.choice(MUTILATED)
    return tuple(words)


def that_answers(draw, station, owes=True):
    """The station with a code, and half of the time with a block owed."""
    station = mode_a.with_code(station, programs.read_code(passing_code(draw)))
    if owes and draw.random() < 0.5:
        kind = draw.choice(("back", "keep"))
        station = station._replace(owed=mode_a.Owed(
            kind, draw.randrange(blocks_of(station.code.length, kind))))
    return station


def chain_records(draw, station, most):
    """Steps of one station, each from where the step before left it.  Nearly
    every burst makes it repeat, so that the count climbs to the time-out; the
    chain ends a few steps behind it."""
    silent_for = 0
    for _ in range(most):
        helped = draw.random() < 0.004
        offer = offer_of_sort(draw, draw.choice(
            (NO_OFFER, NO_OFFER, TEXT, TEXT, OVER, END, CALL)))
        at_the_last = (station.count == mode_a.MOST_COUNT
                       and station.place in programs.HAS_STAGES)
        for _ in range(50):
            burst = helpful_burst(draw, station) if helped else draw.choice(
                (any_burst(draw), spoilt(draw, helpful_burst(draw, station))))
            answer = mode_a.step(station, burst, offered(offer))
            if helped or answer.station.place == LOST or (
                    answer.station.count == station.count + 1) or (
                    at_the_last and answer.station.place == STANDBY):
                break
        yield written_out(draw, station, burst, offer)
        station = answer.station
        if station.place in (STANDBY, LOST):
            silent_for += 1
            if silent_for > 3:
                return


def circuit_records(draw, most, chance):
    """Steps of a master and a slave in turn, over a circuit with damage."""
    hearer, sender = (that_answers(draw, fresh, owes=False) for fresh in (
        mode_a.fresh_master(), mode_a.fresh_slave()))
    burst = single(CS1)
    for _ in range(most):
        burst = tuple(damaged(draw, burst, chance, MUTILATED))
        sort = draw.choice((NO_OFFER, TEXT, TEXT, TEXT, TEXT, OVER))
        if draw.random() < 0.02:
            sort = draw.choice((END, CALL))
        offer = offer_of_sort(draw, sort)
        yield written_out(draw, hearer, burst, offer)
        answer = mode_a.step(hearer, burst, offered(offer))
        hearer, sender, burst = sender, answer.station, answer.burst


def long_records(draw):
    """Time-outs: chains from each place and stage that has one, from fresh
    stations and over damaged circuits, and damage at each place around the
    32nd."""
    for place in (SENDING, TURNING, OPENING, RECEIVING, ASKING):
        for master in (True, False):
            for count in (0, 0, 0, 29, 30, 31):
                station = mode_a.Station(
                    master, place, 0, mode_a.NO_BLOCK, 0, count,
                    draw.choice(("letters", "figures")), draw.random() < 0.5)
                if place in (SENDING, TURNING, RECEIVING):
                    station = station._replace(number=draw.choice((1, 2)))
                if place == SENDING:
                    station = station._replace(held=block(draw))
                yield from chain_records(draw, that_answers(draw, station), 40)
    for place in (IDENTIFYING, ANSWERING):
        for stage in (1, 2, 3, 4):
            for count in (0, 0, 30):
                yield from chain_records(draw, that_answers(draw, mode_a.Station(
                    place == IDENTIFYING, place, 0, mode_a.NO_BLOCK, 0, count,
                    draw.choice(("letters", "figures")), draw.random() < 0.5,
                    own=identity(draw), own_seven=identity(draw, 7), stage=stage,
                    seven=identity(draw, 7))), 40)
    for fresh in (mode_a.fresh_master(), mode_a.fresh_slave()):
        for _ in range(10):
            yield from chain_records(draw, fresh, 70)
    for chance in (0, 0.02, 0.1, 0.3, 0.6):
        for _ in range(8):
            yield from circuit_records(draw, 100, chance)
    for place in programs.PLACES:
        for count in (30, 31, 32):
            for _ in range(60):
                number = draw.choice((1, 2))
                station = mode_a.Station(
                    draw.random() < 0.5, place, number, block(draw),
                    draw.randint(1, 4), count,
                    draw.choice(("letters", "figures")), draw.random() < 0.5,
                    own=own_identity(draw), cycles=draw.choice(CYCLES),
                    last=draw.randrange(3), called=identity(draw),
                    own_seven=own_identity(draw, 7),
                    blocks=draw.choice(mode_a.RUNS_OF_BLOCKS),
                    stage=draw.randint(1, 4), wrong=draw.choice(WRONG),
                    last_wrong=draw.choice(IDENTITY_SIGNALS),
                    seven=identity(draw, 7))
                station = that_answers(draw, station)
                helpful = helpful_burst(draw, station)
                offer = offer_of_sort(draw, draw.choice(SORTS))
                yield written_out(draw, station, helpful, offer)
                yield written_out(draw, station, spoilt(draw, helpful), offer)


# --- steps: calls (02, T-02) ---

def near_own_blocks(own):
    """The call blocks of an identity, and bursts that a wrong rule may take for
    one of them."""
    one, two, three, four = own
    return [
        (one, RQ, two), (three, four, RQ),
        # Those of three-block calls; the signals changed round; all at once.
        (RQ, three, four), (two, RQ, one), (four, three, RQ), (three, RQ, four),
        (one, two, RQ), (one, RQ, four), (three, two, RQ),
        # A word short, or another in the place of RQ.
        (one, RQ, 0), (0, RQ, two), (one, 0, two), (three, four, 0),
        (three, 0, RQ), (0, four, RQ), (one, ALPHA, two), (one, two, BETA),
        (one, RQ, RQ), (RQ, RQ, two), (three, RQ, RQ), (RQ, four, RQ)]


def one_other(draw, block):
    """The burst with one word that is another: damaged, with bit 7 set, or
    another letter of table 3a."""
    words = list(block)
    index = draw.randrange(3)
    words[index] = draw.choice((draw.choice(MUTILATED), words[index] | 128,
                                draw.choice([word for word in IDENTITY_SIGNALS
                                             if word != words[index]])))
    return tuple(words)


def standby_records(draw):
    """Stand-by hears its call blocks, and what is nearly one of them."""
    place = programs.PLACES.index(STANDBY)

    def stood(own, burst, offer, **fields):
        return record(draw, draw.randrange(2), place, draw.randrange(2),
                      draw.choice((0, 0, 0, 0, 0, 1, 31, 32)), burst, offer, own=own,
                      **fields)

    for last in range(3):
        for cycles in CYCLES:
            for sort in SORTS:
                own = identity(draw)
                blocks = near_own_blocks(own)
                for burst in blocks[:2] + [
                        draw.choice(blocks[2:]), one_other(draw, blocks[0]),
                        one_other(draw, blocks[1]), any_burst(draw)]:
                    yield stood(own, burst, offer_of_sort(draw, sort), last=last,
                                cycles=cycles)
    # A call that could be placed, and one that is heard or half heard.
    for last in range(3):
        for _ in range(30):
            own = identity(draw)
            for burst in near_own_blocks(own)[:2]:
                yield stood(own, burst, offer_of_sort(draw, CALL), last=last,
                            cycles=0)
    for last in range(3):
        for _ in range(4):
            own = identity(draw)
            for burst in near_own_blocks(own):
                yield stood(own, burst, NOTHING_OFFERED, last=last)
    # Each word at each place of the own identity, with either of its blocks to
    # complete the call; and two that are no identity, of which the first has two
    # equal blocks.
    for word in WORDS:
        for index in range(4):
            own = list(identity(draw))
            own[index] = word
            for number in (1, 2):
                yield stood(own, mode_a.call_block(own, number), NOTHING_OFFERED,
                            last=3 - number)
    for own in ((71, RQ, 71, RQ), mode_a.NO_IDENTITY):
        for number in (1, 2):
            for last in range(3):
                yield stood(own, mode_a.call_block(own, number), NOTHING_OFFERED,
                            last=last)
    # Each word of the signals called, where the call is placed and elsewhere.
    for word in WORDS:
        for index in range(4):
            called = list(identity(draw))
            called[index] = word
            yield stood(identity(draw), (0, 0, 0), call_offer(called), cycles=0)
            yield record(draw, draw.randrange(2), draw.randrange(12),
                         draw.randrange(2), draw.choice((0, 31, 32)),
                         any_burst(draw), call_offer(called))


def calling_records(draw):
    """Calling: each answer, and counters on both sides of their limits."""
    place = programs.PLACES.index(CALLING)

    def calls(burst, offer, **fields):
        called = identity(draw)
        if draw.random() < 0.1:
            called = draw.choices(WORDS, k=4)
        return record(draw, draw.randrange(2), place, draw.randrange(2),
                      draw.choice((0, 0, 0, 0, 0, 1, 31, 32)), burst, offer,
                      called=called, **fields)

    for last in 2 * (0, 1, 2):
        for sent in CYCLES:
            for sort in SORTS:
                for first in (CS1, CS2, CS3, draw.choice(MUTILATED),
                              draw.choice((RQ, ALPHA, BETA, 71, 128 + CS1))):
                    rest = draw.choice(((0, 0), tuple(draw.choices(WORDS, k=2))))
                    yield calls((first,) + rest, offer_of_sort(draw, sort),
                                last=last, cycles=sent)
    # Each word first, and each number of bursts sent.
    for word in WORDS:
        for last in range(3):
            yield calls((word, 0, 0), offer_of_sort(draw, TEXT), last=last,
                        cycles=draw.choice((1, 2, 127)))
        for first in (CS1, CS2, CS3, 0):
            yield calls(single(first), offer_of_sort(draw, TEXT), cycles=word)


def caller_offer(draw, station, called):
    """What the caller offers: the call while it stands by, then text, overs and
    at last the end.  A call is offered now and then while the circuit stands."""
    if station.place == STANDBY:
        return call_offer(called)
    # One without seven signals of its own would be refused a call of seven.
    call = CALL if station.own_seven == mode_a.NO_SEVEN else CALL_7
    sort = draw.choice((NO_OFFER, TEXT, TEXT, TEXT, TEXT, OVER, OVER, call))
    return offer_of_sort(draw, END if draw.random() < 0.1 else sort)


def call_circuit_records(draw, most, chance):
    """Steps of a caller and the station that it calls, in turn, from Stand-by on:
    the call, the circuit that it leads to, its end, and the next call, over a
    path with damage.  One that is Lost begins anew at Stand-by."""
    names = identity(draw), identity(draw)
    hearer, sender = (that_answers(draw, mode_a.standing_by(name), owes=False)
                      for name in names)
    burst = mode_a.SILENCE
    for number in range(most):
        if number % 2 == 0:
            offer = caller_offer(draw, hearer, names[1])
        else:
            offer = offer_of_sort(draw, draw.choice((NO_OFFER, TEXT, TEXT, OVER)))
        burst = tuple(damaged(draw, burst, chance, MUTILATED))
        yield written_out(draw, hearer, burst, offer)
        answer = mode_a.step(hearer, burst, offered(offer))
        station = answer.station
        if station.place == LOST:
            station = mode_a.standing_by(names[number % 2])._replace(code=station.code)
        hearer, sender, burst = sender, station, answer.burst


def unheard_records(draw, most):
    """Steps of a caller whom nobody hears: 128 call bursts, the wait of 128
    steps, and the next call."""
    station = mode_a.standing_by(identity(draw))
    called = identity(draw)
    for _ in range(most):
        # Two control signals in succession would complete the call.
        burst = spoilt(draw, mode_a.SILENCE)
        if station.last == 0 and draw.random() < 0.1:
            burst = single(draw.choice((CS1, CS2)))
        offer = caller_offer(draw, station, called)
        yield written_out(draw, station, burst, offer)
        station = mode_a.step(station, burst, offered(offer)).station


def crossed_records(draw, most):
    """Steps of one station at Stand-by or Calling, each from where the step
    before left it: its call blocks in any order, with anything between them,
    and control signals in any order."""
    station = mode_a.standing_by(identity(draw))
    for _ in range(most):
        sort = NO_OFFER
        if station.place == CALLING:
            burst = draw.choice((single(CS1), single(CS2), single(CS1),
                                 single(CS2), any_burst(draw), single(CS3)))
            sort = draw.choice(GOOD_SORTS)
        else:
            blocks = near_own_blocks(station.own)
            burst = draw.choice(blocks[:2] * 4 + [draw.choice(blocks),
                                                  any_burst(draw)])
            if draw.random() < 0.1:
                sort = draw.choice(GOOD_SORTS)
        offer = offer_of_sort(draw, sort)
        answer = mode_a.step(station, burst, offered(offer))
        yield written_out(draw, station, burst, offer)
        if isinstance(answer, Refused):
            continue
        station = answer.station
        if station.place not in (STANDBY, CALLING):
            # Back to where calls are heard, by a circuit that ends at once.
            station = mode_a.at(station, STANDBY, cycles=draw.choice((0, 0, 3)))


def all_call_records(draw):
    yield from standby_records(draw)
    yield from calling_records(draw)
    for chance in (0, 0, 0, 0.02, 0.05, 0.1, 0.2, 0.3):
        for _ in range(3):
            yield from call_circuit_records(draw, 120, chance)
    for _ in range(3):
        yield from unheard_records(draw, 270)
    for _ in range(40):
        yield from crossed_records(draw, 40)


# --- steps: three-block calls and identification (02, T-05) ---

def good_offer(draw):
    """What no word of it has refused."""
    return offer_of_sort(draw, draw.choice(GOOD_SORTS))


def both_identities(draw):
    """An identity of four signals and one of seven; half of the time both begin
    with the same two, so that their first call blocks are alike."""
    four, seven = identity(draw), identity(draw, 7)
    if draw.random() < 0.5:
        seven = four[:2] + seven[2:]
    return four, seven


def some_other_end(draw, called=None):
    """Who is at the other end, each kind of it.  Where an identity is given, the
    one that is barred is that one, or nearly."""
    near = list(called or identity(draw, 7))
    if called is not None and draw.random() < 0.5:
        index = draw.randrange(7)
        near[index] = draw.choice([word for word in IDENTITY_SIGNALS
                                   if word != near[index]])
    return draw.choice(("nobody", identity(draw), identity(draw, 7), tuple(called or near),
                        mode_a.Barred(tuple(near)),
                        mode_a.Barred(tuple(called or near))))


def near_own_blocks_of_seven(own):
    """The three call blocks of an identity, and bursts that a wrong rule may take
    for one of them."""
    one, two, three, four, five, six, seven = own
    return [
        (one, RQ, two), (RQ, three, four), (five, six, seven),
        # Those of two-block calls and of identification; the signals changed round.
        (three, four, RQ), (one, ALPHA, two), (ALPHA, three, four), (two, RQ, one),
        (RQ, four, three), (seven, six, five), (five, seven, six), (three, RQ, four),
        # A word short, or another in its place.
        (one, RQ, 0), (0, RQ, two), (one, 0, two), (RQ, three, 0), (RQ, 0, four),
        (0, three, four), (five, six, 0), (five, 0, seven), (0, six, seven),
        (RQ, RQ, two), (one, RQ, RQ), (RQ, RQ, four), (RQ, three, RQ), (RQ, RQ, RQ),
        (one, two, three), (one, RQ, four), (RQ, one, two), (five, six, RQ)]


def standby_of_seven_records(draw):
    """Stand-by hears its three call blocks, and places three-block calls."""
    place = programs.PLACES.index(STANDBY)

    def stood(own, burst, offer, **fields):
        four, seven = own
        return record(draw, draw.randrange(2), place, draw.randrange(2),
                      draw.choice((0, 0, 0, 0, 0, 1, 31, 32)), burst, offer, own=four,
                      own_seven=seven, **fields)

    # Behind each run of blocks and each own block of four signals: the blocks of
    # either identity, and what is nearly one.
    for blocks in mode_a.RUNS_OF_BLOCKS:
        for last in range(3):
            for cycles in (0, 1, 128, draw.choice(CYCLES)):
                for _ in range(2):
                    own = both_identities(draw)
                    ours = near_own_blocks_of_seven(own[1])
                    for burst in ours[:3] + near_own_blocks(own[0])[:2] + [
                            draw.choice(ours[3:]), one_other(draw, ours[0]),
                            one_other(draw, ours[1]), one_other(draw, ours[2]),
                            any_burst(draw)]:
                        yield stood(own, burst, good_offer(draw), last=last,
                                    blocks=blocks, cycles=cycles)
        for _ in range(3):
            own = both_identities(draw)
            for burst in near_own_blocks_of_seven(own[1]):
                yield stood(own, burst, NOTHING_OFFERED, blocks=blocks, last=0)
    # A call that completes, with each offer; behind a block of the four, which may
    # complete its own.
    for number, blocks in ((1, (2, 3)), (3, (1, 2))):
        for sort in SORTS:
            for cycles in (0, 1, 128):
                for last in range(3):
                    own = both_identities(draw)
                    yield stood(own, mode_a.call_block_of_seven(own[1], number),
                                offer_of_sort(draw, sort), blocks=blocks, cycles=cycles,
                                last=last)
    # A call of seven that is offered: to wait or not, and who is barred.
    for cycles in CYCLES:
        for _ in range(40):
            called = identity(draw, 7)
            own = both_identities(draw)
            ours = near_own_blocks_of_seven(own[1])
            yield stood(own, draw.choice([(0, 0, 0), any_burst(draw)] + ours[:3]),
                        call_offer(called), cycles=cycles, last=draw.choice((0, 0, 1)),
                        other_end=some_other_end(draw, called))
        for sort in (CALL, NO_OFFER, OVER):
            for _ in range(6):
                yield stood(both_identities(draw), (0, 0, 0), offer_of_sort(draw, sort),
                            cycles=cycles, other_end=some_other_end(draw))
    # Of a barred identity each signal is another one.
    for index in range(7):
        for _ in range(6):
            called = identity(draw, 7)
            barred = list(called)
            barred[index] = draw.choice([word for word in WORDS
                                         if word != called[index]])
            for other in (barred, called):
                yield stood(both_identities(draw), (0, 0, 0), call_offer(called),
                            cycles=draw.choice((1, 128)),
                            other_end=mode_a.Barred(tuple(other)))
    # Each word at each place of the own identity of seven, with either of its
    # blocks that complete the call; one of which no word is within.
    for word in WORDS:
        for index in range(7):
            four, seven = both_identities(draw)
            seven = seven[:index] + (word,) + seven[index + 1:]
            for number, blocks in ((1, (2, 3)), (3, (1, 2))):
                yield stood((four, seven), mode_a.call_block_of_seven(seven, number),
                            NOTHING_OFFERED, blocks=blocks, last=0)
    for seven in ((0,) * 7, (RQ,) * 7):
        for number in (1, 2, 3):
            for blocks in mode_a.RUNS_OF_BLOCKS:
                yield stood((identity(draw), seven),
                            mode_a.call_block_of_seven(seven, number), NOTHING_OFFERED,
                            blocks=blocks)


def refusal_of_seven_records(draw):
    """Refusal 8 of three-block calls: each of the fourteen words outside, at each
    place, with what 4 would refuse too."""
    for place in range(12):
        for index in range(14):
            for count in (0, 0, 31, 32, 255):
                words = list(identity(draw, 14))
                words[index] = draw.choice(draw.choice((NEARLY_IN_IDENTITY,
                                                        NOT_IN_IDENTITY)))
                if draw.random() < 0.5:
                    for second in range(index + 1, 14):
                        words[second] = draw.choice(NEARLY_IN_IDENTITY)
                offer = (5, *draw.randbytes(3), *words[:7])
                held = draw.choice((None, [draw.choice(NOT_IN_BLOCK)] * 3))
                yield record(draw, draw.randrange(2), place, draw.randrange(2), count,
                             any_burst(draw), offer, held=held, own_seven=words[7:],
                             total=draw.choice((0, 1, 5)))
                # The own identity matters to no other offer.
                yield record(draw, draw.randrange(2), place, draw.randrange(2), count,
                             any_burst(draw), good_offer(draw), own_seven=words[7:])
    for word in WORDS:
        for index in range(14):
            words = list(identity(draw, 14))
            words[index] = word
            yield record(draw, draw.randrange(2), draw.randrange(12),
                         draw.randrange(2), draw.choice((0, 31)), any_burst(draw),
                         (5, *draw.randbytes(3), *words[:7]), own_seven=words[7:])


def calling_three_records(draw):
    """Calling with three blocks: each answer, and counters on both sides of 128."""
    place = programs.PLACES.index(CALLING_3)

    def calls(burst, offer, **fields):
        called = identity(draw, 7)
        if draw.random() < 0.1:
            called = tuple(draw.choices(WORDS, k=7))
        return record(draw, draw.randrange(2), place, draw.randrange(2),
                      draw.choice((0, 0, 0, 1, 31)), burst, offer, seven=called,
                      **fields)

    for sent in CYCLES:
        for sort in SORTS:
            for first in (CS1, CS2, CS3, CS4, CS5, draw.choice(MUTILATED),
                          draw.choice((RQ, ALPHA, BETA, 71, 128 + CS4, 128 + CS5))):
                rest = draw.choice(((0, 0), tuple(draw.choices(WORDS, k=2))))
                yield calls((first,) + rest, offer_of_sort(draw, sort), cycles=sent)
    for word in WORDS:
        for sent in (draw.randint(1, 127), 127, 128):
            yield calls((word, 0, 0), good_offer(draw), cycles=sent)
        for first in (CS1, CS3, CS4, CS5, 0):
            yield calls(single(first), good_offer(draw), cycles=word,
                        own_seven=identity(draw, 7), code=draw.choice(PASSING_CODES),
                        owed="none")


def wrong_letters(stage, seven, last_wrong):
    """The letters that are neither the check-sum expected nor the last wrong one."""
    expected = check_sum(seven, stage) if stage < 4 else 0
    return [word for word in IDENTITY_SIGNALS if word not in (expected, last_wrong)]


def identifying_records(draw):
    """Identifying: each stage, each number of wrong check-sums, each answer."""
    place = programs.PLACES.index(IDENTIFYING)

    def identifies(first, offer, count, **fields):
        rest = draw.choice(((0, 0), (0, 0), tuple(draw.choices(WORDS, k=2))))
        return record(draw, draw.choice((0, 0, 0, 1)), place, draw.randrange(2), count,
                      (first,) + rest, offer, **fields)

    for stage in (1, 2, 3, 4):
        for wrong in WRONG:
            for count in (0, draw.choice((1, 15)), 30, 31, 32):
                for _ in range(2):
                    seven, own = identity(draw, 7), identity(draw, 7)
                    expected = check_sum(seven, min(stage, 3))
                    last_wrong = draw.choice([word for word in IDENTITY_SIGNALS
                                              if word != expected])
                    others = wrong_letters(stage, seven, last_wrong)
                    firsts = [
                        expected, last_wrong, draw.choice(others), draw.choice(others),
                        check_sum(seven, draw.choice((1, 2, 3))),
                        check_sum(own, min(stage, 3)), CS1, CS2, CS3, CS4, CS5, RQ,
                        draw.choice((ALPHA, BETA, LETTERS, LINE_FEED)),
                        draw.choice(NEARLY_IN_IDENTITY), draw.choice(MUTILATED),
                        128 + expected, 128 + last_wrong]
                    for first in firsts:
                        yield identifies(first, good_offer(draw), count, stage=stage,
                                         wrong=wrong, last_wrong=last_wrong,
                                         seven=seven, own_seven=own,
                                         other_end=some_other_end(draw))
                    # A last wrong one that is the one expected, or no letter.
                    for last_wrong in (expected, 0, 128 + expected, CS1, RQ):
                        first = draw.choice((expected, last_wrong, draw.choice(others)))
                        yield identifies(first, good_offer(draw), count, stage=stage,
                                         wrong=wrong, last_wrong=last_wrong,
                                         seven=seven, own_seven=own)
    # Each word first, at each stage; and identities with words outside table 3a.
    for word in WORDS:
        for stage in (1, 2, 3, 4):
            yield identifies(word, good_offer(draw), 0, stage=stage,
                             wrong=draw.choice((0, 1)), seven=identity(draw, 7),
                             last_wrong=draw.choice((word, 71)))
            yield identifies(word, offer_of_sort(draw, TEXT), 0, stage=stage, wrong=0,
                             seven=identity(draw, 7), last_wrong=word)
    for stage in (1, 2, 3):
        for index in range(7):
            for _ in range(12):
                seven = list(identity(draw, 7))
                seven[index] = draw.choice(draw.choice((WORDS, NEARLY_IN_IDENTITY)))
                yield identifies(check_sum(seven, stage), good_offer(draw), 0,
                                 stage=stage, seven=seven, own_seven=own_identity(draw, 7))
    # Each letter at each of the places that a check-sum adds up, of the identity
    # called; and each check-sum as the answer.
    for word in IDENTITY_SIGNALS:
        for index in range(7):
            for stage in (1, 2, 3):
                seven = list(identity(draw, 7))
                seven[index] = word
                yield identifies(check_sum(seven, stage), NOTHING_OFFERED, 0,
                                 stage=stage, seven=seven)
        for stage in (1, 2, 3):
            for wrong in (0, 1):
                for _ in range(4):
                    yield identifies(word, NOTHING_OFFERED, 0, stage=stage, wrong=wrong,
                                     seven=identity(draw, 7))
    for sort in SORTS:
        for first in (CS1, CS3, RQ, 0):
            for count in (0, 31):
                for _ in range(3):
                    yield identifies(first, offer_of_sort(draw, sort), count, stage=4,
                                     other_end=some_other_end(draw))


def near_identification(draw, gathered):
    """The three identification blocks of the signals gathered and of others, and
    bursts that a wrong rule may take for one of them."""
    one, two, three, four, five, six, seven = gathered
    other = identity(draw, 7)
    out = [mode_a.identification_block(gathered, number) for number in (1, 2, 3)]
    out += [mode_a.identification_block(other, number) for number in (1, 2, 3)]
    # One letter another one; the letters changed round.
    for block in out[:3]:
        words = list(block)
        index = draw.choice([index for index in range(3) if words[index] != ALPHA])
        words[index] = draw.choice([word for word in IDENTITY_SIGNALS
                                    if word != words[index]])
        out.append(tuple(words))
    out += [(two, ALPHA, one), (ALPHA, four, three), (seven, six, five)]
    # One word outside table 3a, or damaged.
    for block in out[:3]:
        words = list(block)
        words[draw.randrange(3)] = draw.choice((draw.choice(NEARLY_IN_IDENTITY),
                                                draw.choice(MUTILATED)))
        out.append(tuple(words))
        out.append(tuple(word | 128 if word == block[2] else word for word in block))
    return out + [
        (ALPHA, ALPHA, two), (one, ALPHA, ALPHA), (one, two, ALPHA), (ALPHA, three, ALPHA),
        (ALPHA, ALPHA, ALPHA), (ALPHA, ALPHA, 0), (0, ALPHA, ALPHA), (ALPHA, 0, ALPHA),
        (RQ, RQ, RQ), (RQ, 0, 0), (RQ, RQ, 0), (0, RQ, RQ), (RQ, ALPHA, RQ),
        (one, RQ, two), (RQ, three, four), (one, BETA, two), (BETA, three, four),
        (BETA, ALPHA, BETA), (BETA, BETA, BETA), (LINE_FEED,) * 3, (five, six, LINE_FEED),
        single(CS1), single(CS3), single(CS4), single(RQ), (0, 0, 0), (one, 0, two),
        (three, ALPHA, four), (five, six, 0), (ALPHA, 0, 0)]


def answering_records(draw):
    """Answering: each stage, blocks as they were gathered and others, the end."""
    place = programs.PLACES.index(ANSWERING)

    def answers(burst, offer, count, **fields):
        return record(draw, draw.choice((1, 1, 1, 0)), place, draw.randrange(2), count,
                      burst, offer, **fields)

    for stage in (1, 2, 3, 4):
        for count in (0, draw.choice((1, 15)), 30, 31, 32):
            for _ in range(4):
                gathered = identity(draw, 7)
                for burst in near_identification(draw, gathered):
                    yield answers(burst, good_offer(draw), count, stage=stage,
                                  seven=gathered, other_end=some_other_end(draw),
                                  own_seven=own_identity(draw, 7))
        # Only as much gathered as a run has by then.
        for _ in range(12):
            gathered = identity(draw, 7)[:(0, 2, 4, 7)[stage - 1]]
            gathered += (0,) * (7 - len(gathered))
            for number in (1, 2, 3):
                for seven in (gathered, identity(draw, 7)):
                    yield answers(mode_a.identification_block(seven, number),
                                  NOTHING_OFFERED, draw.choice((0, 3)), stage=stage,
                                  seven=gathered, own_seven=identity(draw, 7))
        # The block whose number is the stage less one, each letter of it another.
        for index in range(7):
            gathered = list(identity(draw, 7))
            heard = list(gathered)
            heard[index] = draw.choice([word for word in IDENTITY_SIGNALS
                                        if word != heard[index]])
            for number in (1, 2, 3):
                yield answers(mode_a.identification_block(heard, number),
                              good_offer(draw), 0, stage=stage, seven=gathered)
        # The end of identification with each offer.
        for sort in SORTS:
            for count in (0, 31):
                for _ in range(3):
                    yield answers((RQ, RQ, RQ), offer_of_sort(draw, sort), count,
                                  stage=stage, other_end=some_other_end(draw))
        # Each word at each place of each block.
        for word in WORDS:
            for number in (1, 2, 3):
                block = list(mode_a.identification_block(identity(draw, 7), number))
                block[draw.randrange(3)] = word
                yield answers(tuple(block), NOTHING_OFFERED, 0, stage=stage)
    # Each letter of the own identity at each place, for the check-sums.
    for word in IDENTITY_SIGNALS:
        for index in range(7):
            for stage in (1, 2, 3):
                own = list(identity(draw, 7))
                own[index] = word
                yield answers(mode_a.identification_block(identity(draw, 7), stage),
                              NOTHING_OFFERED, 0, stage=stage, own_seven=own)


def left_for_standby_records(draw):
    """Every way into Stand-by and to Lost, with each kind of other end."""
    silence = (0, 0, 0)
    alphas = (ALPHA, ALPHA, ALPHA)
    # A place, fields of it, and the burst.
    ways = [
        (OPENING, {}, single(CS3)), (RECEIVING, {}, alphas), (ASKING, {}, silence),
        (ENDING, {"total": 4}, silence), (ENDING, {"total": 1}, single(CS1)),
        (ENDING, {"total": 2}, single(CS2)), (CALLING, {"cycles": 5}, single(CS3)),
        (CALLING, {"cycles": 128}, silence), (CALLING_3, {"cycles": 5}, single(CS3)),
        (CALLING_3, {"cycles": 128}, silence), (CALLING_3, {"cycles": 7}, single(CS5)),
        (ANSWERING, {}, alphas), (ANSWERING, {}, silence), (IDENTIFYING, {}, silence),
        (RECEIVING, {}, silence), (SENDING, {}, silence), (TURNING, {}, silence),
        (OPENING, {}, silence), (LOST, {}, silence), (STANDBY, {}, silence)]
    for place, fields, burst in ways:
        for count in (0, 31):
            for other_end in ("nobody", identity(draw), identity(draw, 7),
                              mode_a.Barred(identity(draw, 7))):
                for role in range(2):
                    for number in range(2):
                        yield record(draw, role, programs.PLACES.index(place), number,
                                     count, burst, good_offer(draw),
                                     other_end=other_end, held=(71, 86, 71)
                                     if place == SENDING else None,
                                     own_seven=identity(draw, 7), **fields)
    # The fifth wrong check-sum, and one that is wrong in the same way twice.
    for stage in (1, 2, 3):
        for other_end in ("nobody", identity(draw), identity(draw, 7),
                          mode_a.Barred(identity(draw, 7))):
            for wrong in (1, 4, 255):
                seven = identity(draw, 7)
                for last_wrong in (0, wrong_letters(stage, seven, 0)[0]):
                    yield record(draw, 0, programs.PLACES.index(IDENTIFYING), 1, 0,
                                 single(wrong_letters(stage, seven, 0)[0]),
                                 good_offer(draw), other_end=other_end, stage=stage,
                                 wrong=wrong, last_wrong=last_wrong, seven=seven,
                                 own_seven=identity(draw, 7))


def other_letters(draw, burst, chance):
    """Letters of table 3a taken for others, each with the same chance."""
    return tuple(draw.choice(IDENTITY_SIGNALS)
                 if word in IDENTITY_SIGNALS and draw.random() < chance else word
                 for word in burst)


def identified_circuit_records(draw, most, chance, letters):
    """Steps of a caller and the station that it calls by seven signals, in turn,
    from Stand-by on: the call, identification, the circuit, its end, and the next
    call, over a path with damage, where letters are taken for others too.  One that
    is Lost begins anew at Stand-by; so does what has gone astray."""
    names = both_identities(draw), both_identities(draw)
    hearer, sender = (that_answers(draw, mode_a.standing_by_both(*name), owes=False)
                      for name in names)
    burst = mode_a.SILENCE
    for number in range(most):
        if number % 2 == 0:
            called = names[1][1]
            if draw.random() < 0.1:
                called = draw.choice((names[1][0], identity(draw, 7)))
            offer = caller_offer(draw, hearer, called)
        else:
            offer = offer_of_sort(draw, draw.choice((NO_OFFER, TEXT, TEXT, OVER)))
        burst = tuple(damaged(draw, burst, chance, MUTILATED))
        burst = other_letters(draw, burst, letters)
        yield written_out(draw, hearer, burst, offer)
        answer = mode_a.step(hearer, burst, offered(offer))
        station = answer.station
        if station.place == LOST:
            station = mode_a.standing_by_both(*names[number % 2])._replace(
                code=station.code)
        hearer, sender, burst = sender, station, answer.burst


def unheard_of_seven_records(draw, most):
    """Steps of a caller by seven signals whom nobody hears: 128 call bursts, the
    wait of 128 steps, and the next call."""
    own = both_identities(draw)
    station = mode_a.standing_by_both(*own)
    called = identity(draw, 7)
    for _ in range(most):
        burst = spoilt(draw, mode_a.SILENCE)
        if draw.random() < 0.1:
            burst = single(draw.choice((CS1, CS2, RQ)))
        offer = caller_offer(draw, station, called)
        yield written_out(draw, station, burst, offer)
        station = mode_a.step(station, burst, offered(offer)).station


def crossed_of_seven_records(draw, most):
    """Steps of one station, each from where the step before left it: the call blocks
    of both identities in any order, with anything between them; the answers to a
    call of its own in any order."""
    station = mode_a.standing_by_both(*both_identities(draw))
    for _ in range(most):
        sort = NO_OFFER
        if station.place == STANDBY:
            ours = near_own_blocks_of_seven(station.own_seven)
            burst = draw.choice(ours[:3] * 5 + near_own_blocks(station.own)[:2]
                                + [draw.choice(ours), any_burst(draw)])
            if draw.random() < 0.05:
                sort = draw.choice(GOOD_SORTS)
        elif station.place == ANSWERING:
            gathered = near_identification(draw, station.seven)
            burst = draw.choice(gathered[:6] * 3 + gathered)
            sort = draw.choice(GOOD_SORTS)
        else:
            burst = draw.choice((helpful_burst(draw, station), any_burst(draw),
                                 single(draw.choice(IDENTITY_SIGNALS))))
            sort = draw.choice(GOOD_SORTS)
        offer = offer_of_sort(draw, sort)
        yield written_out(draw, station, burst, offer)
        station = mode_a.step(station, burst, offered(offer)).station
        if station.place not in (STANDBY, CALLING_3, IDENTIFYING, ANSWERING):
            # Back to where calls are heard, by a circuit that ends at once.
            station = mode_a.at(station, STANDBY, cycles=draw.choice((0, 0, 3)))


def all_identification_records(draw):
    yield from standby_of_seven_records(draw)
    yield from refusal_of_seven_records(draw)
    yield from calling_three_records(draw)
    yield from identifying_records(draw)
    yield from answering_records(draw)
    yield from left_for_standby_records(draw)
    for chance, letters in ((0, 0), (0, 0.1), (0.02, 0), (0.05, 0.05), (0.1, 0),
                            (0.1, 0.2), (0.2, 0), (0.3, 0.1)):
        for _ in range(3):
            yield from identified_circuit_records(draw, 120, chance, letters)
    for _ in range(2):
        yield from unheard_of_seven_records(draw, 270)
    for _ in range(40):
        yield from crossed_of_seven_records(draw, 40)


# --- steps: the answer-back (02, T-06) ---

def question_records(draw):
    """Receiving hears D: in letters and in figures, with shifts, + and ? in the same
    block and before it, with each offer; and elsewhere."""
    place = programs.PLACES.index(RECEIVING)

    def hears(burst, sort, count=0, **fields):
        return record(draw, draw.randrange(2), place, draw.randrange(2), count, burst,
                      offer_of_sort(draw, sort), code=passing_code(draw), **fields)

    few = (WHO_ARE_YOU, FIGURES, LETTERS, BETA, PLUS, QUERY, 71)
    for one in few:
        for two in few:
            for three in few:
                asks = WHO_ARE_YOU in (one, two, three)
                for case in range(2):
                    for plus in range(2):
                        sorts = [OVER]
                        if asks:
                            sorts += [NO_OFFER, draw.choice(GOOD_SORTS)]
                        for sort in sorts:
                            yield hears((one, two, three), sort, case=case, plus=plus)
    # At each sort of offer, at the counts around the time-out, and with something
    # owed already.
    for burst in ((WHO_ARE_YOU, 71, 86), (FIGURES, WHO_ARE_YOU, BETA),
                  (WHO_ARE_YOU, PLUS, QUERY), (PLUS, QUERY, WHO_ARE_YOU)):
        for sort in SORTS:
            for count in (0, 30, 31, 32):
                for case in range(2):
                    yield hears(burst, sort, count, case=case)
        # Not accepted, by one word.
        for index in range(3):
            for word in (ALPHA, RQ, 0, draw.choice(MUTILATED), 128 + WHO_ARE_YOU):
                for sort in (NO_OFFER, OVER):
                    spoilt_burst = list(burst)
                    spoilt_burst[index] = word
                    yield hears(spoilt_burst, sort, draw.choice((0, 31)), case=1)
        # At each place.
        for other_place in range(12):
            for case in range(2):
                for sort in (NO_OFFER, OVER, TEXT):
                    yield record(draw, draw.randrange(2), other_place,
                                 draw.randrange(2), draw.choice((0, 31)), burst,
                                 offer_of_sort(draw, sort), case=case,
                                 code=passing_code(draw))
    # Each word beside D, and each word first.
    for word in IN_BLOCK:
        for burst in ((word, WHO_ARE_YOU, BETA), (BETA, WHO_ARE_YOU, word),
                      (WHO_ARE_YOU, word, word), (word, word, word)):
            for case in range(2):
                yield hears(burst, draw.choice((NO_OFFER, OVER)), case=case)


# Where an offer is taken under a number: the place, fields of it, the number, the
# first word heard.
TAKING = [
    (SENDING, {"held": (71, 86, BETA)}, 1, CS2), (SENDING, {"held": (BETA,) * 3}, 0, CS1),
    (OPENING, {}, 1, CS1), (OPENING, {}, 0, CS2), (CALLING, {"last": 1}, 1, CS1),
    (CALLING, {"last": 2}, 0, CS2), (IDENTIFYING, {"stage": 4}, 1, CS1)]


def owed_records(draw):
    """Blocks of an answer: each index of codes of each length where a row takes, and
    one past the last; and what else is heard while something is owed."""
    def owes(place, number, first, sort, code, owed, count=0, **fields):
        burst = first if isinstance(first, tuple) else single(first)
        return record(draw, draw.randrange(2), programs.PLACES.index(place), number,
                      count, burst, offer_of_sort(draw, sort), code=code, owed=owed,
                      **{"own_seven": identity(draw, 7), **fields})

    for length in range(21):
        code = passing_code(draw, length)
        for kind in ("back", "keep"):
            for index in range(blocks_of(length, kind) + 1):
                for place, fields, number, first in TAKING:
                    yield owes(place, number, first, draw.choice(GOOD_SORTS), code,
                               mode_a.Owed(kind, index), draw.choice((0, 0, 31)),
                               **fields)
        for place, fields, number, first in TAKING:
            yield owes(place, number, first, draw.choice(GOOD_SORTS), code, "none",
                       **fields)
    # With each offer, at the first block, the last ones and one between.
    for place, fields, number, first in TAKING:
        for sort in SORTS:
            for length in (0, draw.randint(1, 20)):
                for kind in ("back", "keep"):
                    last = blocks_of(length, kind) - 1
                    for index in (0, last, last - 1, draw.randint(0, last)):
                        yield owes(place, number, first, sort,
                                   passing_code(draw, length),
                                   mode_a.Owed(kind, index), **fields)
    # Each place with each kind of burst, each offer, and nothing, back or keep owed.
    for place in programs.PLACES:
        for kind_of_burst in KINDS_OF_BURST:
            for sort in GOOD_SORTS:
                for kind in ("none", "back", "keep"):
                    code = passing_code(draw)
                    owed = kind
                    if kind != "none":
                        owed = mode_a.Owed(kind, draw.randrange(
                            blocks_of(code[0], kind)))
                    yield owes(place, draw.randrange(2),
                               burst_of_kind(draw, kind_of_burst), sort, code, owed,
                               draw.choice((0, 0, 31)), held=draw.choices(IN_BLOCK, k=3)
                               if place != CALLING else None,
                               total=draw.randint(1, 4))
    # Every call that is answered or placed.
    for kind in ("back", "keep"):
        for _ in range(10):
            four, seven = both_identities(draw)
            for burst, sort, fields in (
                    (mode_a.call_block(four, 2), NO_OFFER, {"last": 1}),
                    (mode_a.call_block(four, 1), OVER, {"last": 2}),
                    (mode_a.call_block_of_seven(seven, 3), NO_OFFER,
                     {"last": 0, "blocks": (1, 2)}),
                    (mode_a.call_block_of_seven(seven, 1), OVER,
                     {"last": 0, "blocks": (2, 3)}),
                    ((0, 0, 0), CALL, {"last": 0, "cycles": 0}),
                    ((0, 0, 0), CALL_7, {"last": 0, "cycles": 0}),
                    ((0, 0, 0), CALL, {"last": 0, "cycles": 1}),
                    ((0, 0, 0), NO_OFFER, {"last": 0})):
                code = passing_code(draw)
                yield owes(STANDBY, 1, burst, sort, code, mode_a.Owed(
                    kind, draw.randrange(blocks_of(code[0], kind))), own=four,
                    own_seven=seven, **fields)


def code_refusal_records(draw):
    """Refusals 4 and 9 of the code and of what is owed, and the order 8, 4, 9, 3."""
    def at_place(place, sort, code, owed, count=0, **fields):
        number = draw.randrange(2)
        burst = draw.choice((single(CS1), single(CS2), single(CS3), (71, 86, 71)))
        return record(draw, draw.randrange(2), place, number, count, burst,
                      offer_of_sort(draw, sort), code=code, owed=owed, **fields)

    # Each length, with the index around the number of blocks, at some place.
    for code in codes_of_any_length(draw):
        for kind in ("back", "keep"):
            there = blocks_of(code[0], kind)
            for index in (0, there - 2, there - 1, there, there + 1, 255):
                yield at_place(draw.randrange(12), draw.choice(GOOD_SORTS), code,
                               mode_a.Owed(kind, index))
        yield at_place(draw.randrange(12), draw.choice(GOOD_SORTS), code, "none")
    # Each corner of a code, at each place one of them.
    for number, code in enumerate(near_codes(draw)):
        yield at_place(number % 12, draw.choice(GOOD_SORTS), code, "none")
    # Each word at some places of a code, and directly behind its length.
    for word in WORDS:
        for index in draw.sample(range(20), 4) + [0, 19]:
            signals = draw.choices(PLAIN, k=draw.randint(index + 1, 20))
            signals[index] = word
            yield at_place(draw.randrange(12), NO_OFFER, code_of(draw, signals), "none")
        length = draw.randrange(20)
        yield at_place(draw.randrange(12), NO_OFFER, code_of(
            draw, draw.choices(PLAIN, k=length) + [word], length=length), "none")
    # All that is refused beside something else that is, at each place.
    bad_codes = [code_of(draw, [71] * 20, length=21), code_of(draw, [71, BETA]),
                 code_of(draw, [FIGURES, WHO_ARE_YOU]), code_of(draw, [PLUS, QUERY])]
    for place in range(12):
        for sort in (BAD_CALL, BAD_CALL_7, BAD_TEXT, TEXT):
            for code in bad_codes + [passing_code(draw)]:
                for wrong in ("nothing", "count", "index", "total", "held"):
                    kind = draw.choice(("back", "keep"))
                    index = blocks_of(code[0], kind) - (wrong != "index")
                    owed = mode_a.Owed(kind, index)
                    if wrong != "index" and draw.random() < 0.5:
                        owed = "none"
                    held = (71, ALPHA if wrong == "held" else 86, BETA)
                    yield at_place(place, sort, code, owed, 32 * (wrong == "count"),
                                   held=held, total=5 * (wrong == "total") or 2)


def asking_offer(draw):
    """An offer of one who asks often."""
    way = draw.random()
    if way < 0.3:
        return (1, *draw.choice(draw.choice(QUESTIONS)), *mode_a.NO_SEVEN)
    sort = draw.choice((NO_OFFER, TEXT, TEXT, OVER))
    if way > 0.98:
        sort = draw.choice((END, CALL, CALL_7))
    return offer_of_sort(draw, sort)


def answering_circuit_records(draw, most, chance):
    """Steps of a master and a slave in turn that ask each other."""
    own = identity(draw, 7)
    hearer, sender = (that_answers(draw, fresh, owes=False)._replace(own_seven=own)
                      for fresh in (mode_a.fresh_master(), mode_a.fresh_slave()))
    burst = single(CS1)
    for _ in range(most):
        burst = tuple(damaged(draw, burst, chance, MUTILATED))
        offer = asking_offer(draw)
        yield written_out(draw, hearer, burst, offer)
        answer = mode_a.step(hearer, burst, offered(offer))
        hearer, sender, burst = sender, answer.station, answer.burst
        if STANDBY in (hearer.place, sender.place):
            return


def whole_answer_records(draw, length, question, cut):
    """A master asks and the slave answers with a code of this length; the master
    offers an over behind so many blocks of the answer, which cuts it, and nothing
    before it and behind it."""
    master = that_answers(draw, mode_a.fresh_master(), owes=False)
    slave = mode_a.with_code(mode_a.fresh_slave(),
                             programs.read_code(passing_code(draw, length)))
    waiting = list(question)
    heard = 0
    burst = single(CS1)
    for _ in range(20 + length // 3):
        offer = NOTHING_OFFERED
        if waiting:
            offer = (1, *waiting[0], *mode_a.NO_SEVEN)
        elif master.place == RECEIVING and heard == cut:
            offer = offer_of_sort(draw, OVER)
        yield written_out(draw, master, burst, offer)
        answer = mode_a.step(master, burst, offered(offer))
        if answer.taken and waiting:
            waiting.pop(0)
        heard += master.place == RECEIVING
        master = answer.station
        offer = offer_of_sort(draw, draw.choice((NO_OFFER, TEXT, OVER, TEXT)))
        if slave.owed is None and slave.place != SENDING:
            offer = NOTHING_OFFERED
        yield written_out(draw, slave, answer.burst, offer)
        reply = mode_a.step(slave, answer.burst, offered(offer))
        slave, burst = reply.station, reply.burst


def all_answer_back_records(draw):
    yield from question_records(draw)
    yield from owed_records(draw)
    yield from code_refusal_records(draw)
    for chance in (0, 0, 0, 0.02, 0.05, 0.1, 0.2):
        for _ in range(4):
            yield from answering_circuit_records(draw, 120, chance)
    for length in (0, 1, 3, 19, 20):
        for cut in (0, 1, blocks_of(length, "back") - 1, 99):
            for question in QUESTIONS[:4]:
                yield from whole_answer_records(draw, length, question, cut)


def steps_records(draw):
    """All the records but those of calls and of the answer-back, at least 160,000."""
    yield from long_records(draw)
    # Each place with each kind of burst, each sort of offer, each count.
    for _ in range(3):
        for place in range(12):
            for kind in KINDS_OF_BURST:
                for sort in SORTS:
                    for role in range(2):
                        for number in range(2):
                            for count in (0, 31, draw.choice((1, 15, 29, 30)),
                                          draw.choice((0, 31, 32, 33, 255))):
                                yield record(draw, role, place, number, count,
                                             burst_of_kind(draw, kind),
                                             offer_of_sort(draw, sort))
    # Each of the 256 words at each place in the burst, at each place.
    for place in range(12):
        for word in WORDS:
            for index in range(3):
                for role in range(2):
                    burst = draw.choice(([0, 0, 0], [71, 86, 51], [RQ, RQ, RQ],
                                         [ALPHA] * 3, [BETA, ALPHA, BETA]))
                    burst = list(burst)
                    burst[index] = word
                    yield record(draw, role, place, draw.randrange(2), 0, burst,
                                 NOTHING_OFFERED)
    # The over: all blocks of a few words, from each case, with + and without.
    few = (PLUS, QUERY, BETA, FIGURES, LETTERS, CS2, 71, ALPHA, WHO_ARE_YOU)
    for one in few:
        for two in few:
            for three in few:
                for case in range(2):
                    for plus in range(2):
                        for sort in (NO_OFFER, TEXT, OVER, END):
                            yield record(draw, draw.randrange(2), 4,
                                         draw.randrange(2), draw.choice((0, 31)),
                                         (one, two, three),
                                         offer_of_sort(draw, sort),
                                         case=case, plus=plus)
    # Each count and each total with each place.
    for place in range(12):
        for value in WORDS:
            yield record(draw, 0, place, 1, value, any_burst(draw),
                         NOTHING_OFFERED)
            yield record(draw, 1, place, 0, 0, any_burst(draw),
                         offer_of_sort(draw, TEXT), total=value)
    # Each word held, each word offered, at Sending and elsewhere.
    for word in WORDS:
        for index in range(3):
            words = draw.choices(IN_BLOCK, k=3)
            words[index] = word
            text_offer = (1,) + tuple(words) + mode_a.NO_SEVEN
            yield record(draw, 0, 0, 1, 0, single(CS2), NOTHING_OFFERED,
                         held=words)
            yield record(draw, 0, draw.randrange(12), 1, 0, single(CS1),
                         text_offer, held=words)
            yield record(draw, 1, 2, 0, 0, single(CS2), text_offer)
    # Records of any bytes; of four, two with what is judged in order but for the
    # text offered, and one with a code that is and an index that there may be.
    for number in range(30000):
        any_bytes = bytearray(draw.randbytes(programs.RECORD))
        if number % 2 == 0:
            any_bytes[7] %= 32
            any_bytes[3:6] = bytes(draw.choices(IN_BLOCK, k=3))
            any_bytes[28:32] = bytes(draw.choices(IDENTITY_SIGNALS, k=4))
            any_bytes[32:39] = bytes(draw.choices(IDENTITY_SIGNALS, k=7))
            any_bytes[42:45] = bytes(draw.choices(IDENTITY_SIGNALS, k=3))
        if number % 4 != 3:
            any_bytes[60:81] = draw.choice(COMMON_CODES)
            any_bytes[82] = int(draw.random() * blocks_of(any_bytes[60], "back"))
        yield bytes(any_bytes)


def stepped_in(size):
    """Records of which the lines come to `size` bytes."""
    # A printed word over 99 takes a byte more; there are three.
    accepted = bytes([1, 4, 1, 0, 0, 0, 0, 0, 0, 0, 71, 71, 71] + [0] * 71)
    small = len(programs.steps(accepted)[0])
    number = size // small
    each, more = divmod(size - number * small, number)
    assert each < 3
    out = b""
    for index in range(number):
        longer = each + (index < more)
        out += accepted[:10] + bytes([116] * longer + [71] * (3 - longer)
                                     ) + accepted[13:]
    return out


def steps_cases(draw):
    calls = list(all_call_records(draw))
    identification = list(all_identification_records(draw))
    answer_back = list(all_answer_back_records(draw))
    records = list(steps_records(draw))
    out = [quickly("empty", b""), slowly("8 records", b"".join(records[:8])),
           in_pieces("200 records", b"".join(records[:200])),
           quickly("calls", b"".join(calls)),
           quickly("identification", b"".join(identification)),
           quickly("answer-back", b"".join(answer_back))]
    out.extend(with_words(records[0]))
    for size in OUTPUT_SIZES:
        out.append(from_file("%d bytes written" % size, stepped_in(size)))
    for size in (BLOCK - 1, BLOCK, BLOCK + 1, 2 * BLOCK):
        out.append(from_file("%d bytes of records" % size,
                             b"".join(records[:300])[:size]))
    # 17 is the length up to the offer's text, 60 that up to the code, 83 that of what
    # is looked at.
    for length in (1, 17, 60, 81, 83, 85, 167, 168, 169):
        out.append(quickly("cut to %d bytes" % length,
                           b"".join(records[:3])[:length]))
    for start in range(0, len(records), STEPS_IN_A_CASE):
        part = b"".join(records[start:start + STEPS_IN_A_CASE])
        tail = bytes(draw.choices(WORDS, k=draw.randrange(programs.RECORD)))
        out.append(quickly("records from %d on" % start, part + tail))
    return out


# --- why (02, T-08) ---

WHY_IN_A_CASE = 10000

# The sorts of offer that a record of 17 bytes has, and byte 13 of each.
BASE_OFFER = {NO_OFFER: 0, TEXT: 1, BAD_TEXT: 1, ANY_TEXT: 1, OVER: 2, END: 3}

# Each sort of word that is judged, three of them: a letter, one that is damaged (None
# here), RQ, and alpha, which no block may have.
JUDGED_WORDS = [(one, two, three) for one in (71, None, RQ, ALPHA)
                for two in (71, None, RQ, ALPHA) for three in (71, None, RQ, ALPHA)]

# First words that rows name, and what stands behind them: alone, zeros behind a
# single signal, RQ, and more of the same.
NAMED_FIRST = [CS1, CS2, CS3, CS4, CS5, RQ, ALPHA, BETA, 71, WHO_ARE_YOU]
NAMED_BURSTS = [(first, *rest) for first in NAMED_FIRST
                for rest in ((0, 0), (first, first), (RQ, 0), (0, RQ), (71, ALPHA))]


def base_record(draw, role, place, number, count, burst, sort, total=None, case=None,
                plus=None, held=None):
    """A record of 17 bytes; held words and totals that are not given are in order."""
    if held is None:
        held = draw.choices(IN_BLOCK, k=3)
    if total is None:
        total = draw.randint(1, 4)
    if case is None:
        case = draw.randrange(2)
    if plus is None:
        plus = draw.randrange(2)
    return bytes((
        stretched(draw, role, 2), stretched(draw, place, 8), stretched(draw, number, 2),
        *held, total, count, stretched(draw, case, 2), stretched(draw, plus, 2), *burst,
        stretched(draw, BASE_OFFER[sort], 4), *offer_of_sort(draw, sort)[1:4]))


def judged_words(draw, burst):
    """The burst with damage in the place of None, another each time."""
    return tuple(draw.choice(MUTILATED) if word is None else word for word in burst)


def base_circuit_records(draw, most, chance):
    """Steps of a master and a slave in turn, over a circuit with damage."""
    hearer, sender = mode_a.fresh_master(), mode_a.fresh_slave()
    burst = single(CS1)
    for _ in range(most):
        burst = tuple(damaged(draw, burst, chance, MUTILATED))
        sort = draw.choice((NO_OFFER, TEXT, TEXT, TEXT, OVER))
        if draw.random() < 0.02:
            sort = END
        one = base_record(draw, 0 if hearer.master else 1,
                          programs.PLACES.index(hearer.place), hearer.number % 2,
                          hearer.count, burst, sort, hearer.total,
                          int(hearer.case == "figures"), int(hearer.plus), hearer.held)
        yield one
        answer = mode_a.step(hearer, burst, programs.read_base_step(one)[2])
        hearer, sender, burst = sender, answer.station, answer.burst


def base_refusal_records(draw):
    """Refusals 4 and 3, each alone and both at once."""
    for place in range(8):
        for value in WORDS:
            yield base_record(draw, draw.randrange(2), place, draw.randrange(2), value,
                              any_burst(draw), draw.choice((NO_OFFER, TEXT, BAD_TEXT)))
        for sort in (TEXT, BAD_TEXT, BAD_TEXT, OVER):
            for count in (0, 31, 32, 255):
                for total in (0, 1, 4, 5, 255):
                    for held in ((71, 86, 51), (71, ALPHA, 51), (0, 71, 71)):
                        yield base_record(draw, draw.randrange(2), place,
                                          draw.randrange(2), count, any_burst(draw),
                                          sort, total=total, held=held)
    for word in WORDS:
        yield base_record(draw, draw.randrange(2), 3, draw.randrange(2), 0,
                          any_burst(draw), NO_OFFER, total=word)
        for index in range(3):
            held = draw.choices(IN_BLOCK, k=3)
            held[index] = word
            for place in (0, draw.randrange(1, 8)):
                yield base_record(draw, draw.randrange(2), place, draw.randrange(2), 0,
                                  any_burst(draw), NO_OFFER, held=held)
                one = bytearray(base_record(draw, draw.randrange(2), place,
                                            draw.randrange(2), 0, any_burst(draw), TEXT))
                one[14 + index] = word
                yield bytes(one)


def why_records(draw):
    """Records of 17 bytes."""
    roles = [(role, number) for role in range(2) for number in range(2)]
    # Each place with each kind of burst, role, number, count and offer.
    for place in range(8):
        for kind in KINDS_OF_BURST:
            for role, number in roles:
                for count in (0, 30, 31):
                    for sort in (NO_OFFER, TEXT, OVER, END, BAD_TEXT):
                        yield base_record(draw, role, place, number, count,
                                          burst_of_kind(draw, kind), sort)
    # What is judged of each word, and what the rows name, at each place.
    for place in range(8):
        for role in range(2):
            for count in (0, 30, 31):
                for burst in JUDGED_WORDS:
                    yield base_record(draw, role, place, draw.randrange(2), count,
                                      judged_words(draw, burst),
                                      draw.choice((NO_OFFER, TEXT, OVER, END)))
            for burst in NAMED_BURSTS:
                for number in range(2):
                    for count in (0, 31):
                        yield base_record(draw, role, place, number, count, burst,
                                          NO_OFFER)
    # Each of the 256 words at each place of the burst: with none bad before it, and
    # any.
    intact = ([71, 86, 51], [RQ, RQ, RQ], [ALPHA] * 3, [BETA, ALPHA, BETA])
    for place in range(8):
        for word in WORDS:
            for index in range(3):
                for role in range(2):
                    first = role == (word + index) % 2
                    burst = list(draw.choice(intact if first else [[0, 0, 0], *intact]))
                    burst[index] = word
                    yield base_record(draw, role, place, draw.randrange(2),
                                      0 if first else draw.choice((0, 31)), burst,
                                      NO_OFFER)
    # The over and "who are you": all blocks of a few words, from each case, with + and
    # without, with over offered and not.
    few = (PLUS, QUERY, BETA, FIGURES, LETTERS, CS2, 71, ALPHA, WHO_ARE_YOU)
    for one in few:
        for two in few:
            for three in few:
                for case, plus in roles:
                    for sort in (NO_OFFER, OVER):
                        yield base_record(draw, draw.randrange(2), 4, draw.randrange(2),
                                          draw.choice((0, 30, 31)), (one, two, three),
                                          sort, case=case, plus=plus)
    # A text of figures + ? is no over.
    for burst in ((71, 86, BETA), (BETA, BETA, BETA), (FIGURES, WHO_ARE_YOU, BETA)):
        for place in (0, 2, 4):
            one = base_record(draw, 1, place, 1, 0, burst, TEXT)
            yield one[:14] + bytes(mode_a.OVER)
    yield from base_refusal_records(draw)
    for chance in (0, 0.02, 0.1, 0.3, 0.6):
        for _ in range(5):
            yield from base_circuit_records(draw, 80, chance)
    # Records of any bytes; every second one with what 4 judges in order.
    for number in range(6000):
        any_bytes = bytearray(draw.randbytes(programs.BASE_RECORD))
        if number % 2 == 0:
            any_bytes[3:6] = bytes(draw.choices(IN_BLOCK, k=3))
            any_bytes[6] = draw.randint(1, 4)
            any_bytes[7] %= 32
        yield bytes(any_bytes)


def reasoned_in(size):
    """Records of which the lines come to `size` bytes: `rq` and `own`."""
    rq, own = made_up(size, 3)
    return (bytes([1, 1, 1, 0, 0, 0, 0, 0, 0, 0, RQ] + [0] * 6) * rq
            + bytes([0, 0, 1, 71, 71, 71, 0, 0, 0, 0, CS1] + [0] * 6) * own)


def why_cases(draw):
    records = list(why_records(draw))
    draw.shuffle(records)
    out = [quickly("empty", b""), slowly("20 records", b"".join(records[:20])),
           in_pieces("400 records", b"".join(records[:400]))]
    out.extend(with_words(records[0]))
    for size in OUTPUT_SIZES:
        out.append(from_file("%d bytes written" % size, reasoned_in(size)))
    for size in (BLOCK - 1, BLOCK, BLOCK + 1, 2 * BLOCK):
        out.append(from_file("%d bytes of records" % size,
                             b"".join(records[:600])[:size]))
    # 84 is the length of a record of `steps`.
    for length in (1, 16, 17, 18, 33, 34, 35, 83, 84, 85):
        out.append(quickly("cut to %d bytes" % length, b"".join(records[:6])[:length]))
    for start in range(0, len(records), WHY_IN_A_CASE):
        part = b"".join(records[start:start + WHY_IN_A_CASE])
        tail = bytes(draw.choices(WORDS, k=draw.randrange(programs.BASE_RECORD)))
        out.append(quickly("records from %d on" % start, part + tail))
    return out


# --- passage (02, T-07) ---

KIND_OF = {(what, whose): kind for kind, (what, whose, _) in passages.KINDS.items()}
BOTH = (MASTER, SLAVE)
# Letters that stand for themselves: no shift, no D, and in letters no over.
SPELT = [word for word in TRAFFIC if chr(text.printed_in_letters(word)[0] or 0)
         in "ABCEFGHIJKLMNOPQRSTUVWXYZ"]


class Passage:
    """A record in the making.  Each entry is run as it is put behind the others, so
    that the next one can be chosen by where the two stations are."""

    def __init__(self, record=b""):
        self.run = passages.Run()
        self.record = bytearray()
        place = 0
        while place < len(record):
            assert passages.refusal_of(self.run, record, place) is None
            place = passages.go(self.run, record, place)
        self.record += record

    def put(self, what, whose, *body):
        entry = bytes((KIND_OF[what, whose], *body))
        assert passages.refusal_of(self.run, entry, 0) is None
        passages.go(self.run, entry, 0)
        self.record += entry

    def bursts(self, number, damage=0):
        for _ in range(number):
            self.put("burst", self.run.sender, damage)

    def station(self, whose):
        return self.run.sides[whose].station

    def free(self, whose):
        """Whether an offer may be made to that station."""
        return self.run.sides[whose].offer is None

    def offer(self, draw, whose, what):
        """An offer, where it may be made."""
        if self.free(whose):
            self.put(what, whose, *(block(draw) if what == "text" else ()))

    def hearer(self):
        return passages.OTHER[self.run.sender]

    def needed(self):
        """The rooms for the master and for the slave."""
        return tuple(len(self.run.sides[whose].printed) for whose in BOTH)


def damage_of(draw, chance):
    return sum(1 << index for index in range(3) if draw.random() < chance)


def telegram(draw):
    """The blocks of a text that begins with a shift, the last filled with beta."""
    body = letter(draw, draw.randint(1, 30))
    room = bytearray(2 * len(body))
    written = text.encode("letters", body, room)
    words = [LETTERS, *room[:written.length], BETA, BETA]
    return [tuple(words[start:start + 3]) for start in range(0, len(words) - 2, 3)]


def sent_home(draw, most, chance):
    """A passage as the engineers bring it home: each desk sends a telegram, hands the
    direction over, asks who is there, and breaks in now and then."""
    made = Passage()
    telegrams = {whose: telegram(draw) for whose in BOTH}
    ends = draw.choice((0, 0, 0.02))
    for _ in range(most):
        for whose in draw.sample(BOTH, 2):
            if not made.free(whose):
                continue
            place = made.station(whose).place
            chosen = draw.random()
            if place in (RECEIVING, ASKING, STANDBY, LOST) and chosen > 0.03:
                continue
            if chosen < 0.01:
                made.put("over", whose)
            elif telegrams[whose]:
                made.put("text", whose, *telegrams[whose].pop(0))
            else:
                made.put("end" if draw.random() < ends else "over", whose)
                telegrams[whose] = telegram(draw)
        made.bursts(1, damage_of(draw, chance))
    return made


def any_passage(draw, most, chance):
    """A passage with offers of any sort, whatever the place, and stretches in which
    one station hears nothing, or both."""
    made = Passage()
    often = draw.choice((0.2, 0.5, 1))
    ends = draw.choice((0, 0, 0, 0.02))
    deaf, left = (), 0
    for _ in range(most):
        for whose in draw.sample(BOTH, draw.randrange(3)):
            if draw.random() < often:
                chosen = draw.random()
                made.offer(draw, whose, "end" if chosen < ends else
                           "over" if chosen < 0.15 else "text")
        if left == 0 and draw.random() < 0.02:
            deaf = draw.choice(((MASTER,), (SLAVE,), BOTH))
            left = draw.choice((4, 10, 33, 64))
        damage = damage_of(draw, chance)
        if left > 0:
            left -= 1
            damage = 7 if made.hearer() in deaf else damage
        made.bursts(1, damage)
    return made


def crowded(draw, most, chance):
    """A passage with an offer at each desk whenever one may be made, and many turns: a
    station that is a step ahead or behind prints more or less."""
    made = Passage()
    for _ in range(most):
        for whose in BOTH:
            made.offer(draw, whose, draw.choice(("text", "text", "over")))
        made.bursts(1, damage_of(draw, chance))
    return made


def revealed(draw, made, bursts=14):
    """Puts what shows where the two stations are: text at each desk, undamaged."""
    for _ in range(bursts):
        for whose in BOTH:
            if made.free(whose) and draw.random() < 0.7:
                made.put("text", whose, *draw.choices(SPELT, k=3))
        made.bursts(1)
    return made


def led_passage(draw, whose, place):
    """A passage that has led one station to a place, and whose burst this station is
    to hear next; at Stand-by and Lost it has no offer."""
    while True:
        made = Passage()
        for _ in range(80):
            station = made.station(whose)
            if (station.place == place and station.count == 0
                    and made.hearer() == whose and len(made.record) > 4):
                return made
            if place == LOST:
                made.bursts(1, 7)
                continue
            for one in BOTH:
                sends = made.station(one).place in (SENDING, OPENING)
                if place in (ENDING, STANDBY):
                    # Only who takes it is offered something, at last the end.
                    if sends:
                        made.offer(draw, one, "end" if draw.random() < 0.2
                                   else draw.choice(("text", "text", "over")))
                elif draw.random() < 0.6:
                    made.offer(draw, one, draw.choice(("text", "text", "over")))
            made.bursts(1, damage_of(draw, 0.02))


def starved_passage(draw, whose, place, bad, offer):
    """A station at a place, with an offer or without, that hears damaged bursts so
    often; and what shows whether it is Lost."""
    made = led_passage(draw, whose, place)
    if offer is not None:
        while not made.free(whose):
            made = led_passage(draw, whose, place)
        made.offer(draw, whose, offer)
    for _ in range(bad):
        made.bursts(1, draw.choice((7, 7, 1)) if place not in (RECEIVING, ASKING)
                    else draw.choice((7, 2, 4)))
        made.bursts(1)
    return revealed(draw, made)


def questioned_passage(draw, whose, question, later, offer):
    """A station is asked who it is; some bursts later an offer is made to it, which
    waits for the answer."""
    made = Passage()
    if whose == MASTER:
        made = Passage(TURNED)
    asks = passages.OTHER[whose]
    waiting = list(question)
    for _ in range(10):
        # One of the questions is none, for its D is in letters.
        if made.station(whose).owed is not None:
            break
        if waiting and made.free(asks):
            made.put("text", asks, *waiting.pop(0))
        made.bursts(1)
    made.bursts(later)
    made.offer(draw, whose, offer)
    return revealed(draw, made)


def upset(draw, record):
    """A record with one thing wrong in it, or more."""
    record = bytearray(record)
    for _ in range(draw.choice((1, 1, 1, 2, 4))):
        at = draw.randrange(len(record) + 1)
        chosen = draw.randrange(7)
        if chosen == 0:
            del record[at:]
        elif chosen == 1:
            del record[at:at + draw.choice((1, 1, 2, 4))]
        elif chosen == 2:
            record[at:at] = bytes(draw.choices(WORDS, k=draw.randint(1, 3)))
        elif chosen == 3:
            record[at:at] = bytes([draw.randrange(10)])
        elif chosen == 4:
            record[at:at] = record[max(at - draw.randint(1, 8), 0):at]
        elif at < len(record):
            record[at] = (record[at] ^ 1 << draw.randrange(8) if chosen == 5
                          else draw.choice(WORDS))
    return bytes(record)


def begun_passages(draw):
    """Records without a fault, by what stands behind them: the slave's burst or the
    master's to be heard, with an offer to each station and without; stations that take
    none."""
    for bursts in (0, 1, 2, 5):
        for offered in ((), (MASTER,), (SLAVE,), BOTH):
            made = Passage()
            made.bursts(bursts)
            for whose in offered:
                made.offer(draw, whose, draw.choice(("text", "over", "end")))
            yield made
    for place in (STANDBY, LOST):
        for whose in BOTH:
            yield led_passage(draw, whose, place)


def hostile_entries(draw, made):
    """Entries behind a record that are refused there, one behind another reason too."""
    sender = made.run.sender
    bad = draw.choice(NOT_IN_BLOCK)
    for whose in BOTH:
        turn = KIND_OF["burst", whose]
        # Cut at each length, with what would be refused 12, 13 or 3.
        yield bytes([turn])
        for length in range(3):
            for words in (draw.choices(IN_BLOCK, k=3), [bad] * 3):
                yield bytes([KIND_OF["text", whose], *words[:length]])
        # Bits 3 to 7, in turn and not.
        yield bytes([turn, draw.randint(8, 255)])
        yield bytes([turn, 1 << draw.randint(3, 7)])
        yield bytes([turn, 128 | draw.randrange(8)])
        if whose != sender:
            yield bytes([turn, draw.randrange(8)])
        for what in ("over", "end", "text"):
            body = draw.choices(IN_BLOCK, k=3) if what == "text" else []
            kind = KIND_OF[what, whose]
            if not made.free(whose):
                yield bytes([kind, *body])
            else:
                # The second of two.
                for first in ("over", "end", "text"):
                    words = draw.choices(IN_BLOCK, k=3) if first == "text" else []
                    yield bytes([KIND_OF[first, whose], *words, kind, *body])
        # A word that may not stand there, and 13 before it where that holds.
        words = draw.choices(IN_BLOCK, k=3)
        words[draw.randrange(3)] = bad
        yield bytes([KIND_OF["text", whose], *words])
    yield bytes([draw.choice((0, 9, 10, 255))])


def to_the_slave(draw, blocks):
    """Text to the master, so many blocks, that the slave prints: eight bytes of a
    record each."""
    return b"".join(bytes((3, *draw.choices(SPELT, k=3), 2, 0, 1, 0))
                    for _ in range(blocks))


# The slave breaks in: it has the direction behind this, and is to hear.
TURNED = bytes([6, 2, 0, 1, 0, 2, 0, 1, 0, 2, 0])


def to_the_master(draw, blocks):
    """The other way round, behind TURNED."""
    return b"".join(bytes((4, *draw.choices(SPELT, k=3), 1, 0, 2, 0))
                    for _ in range(blocks))


def passed_in(draw, size):
    """A record whose answer comes to `size` bytes, all of it printed by the slave."""
    printed = 0
    while len(b"master 0\n\nslave %d\n\n" % printed) + printed < size:
        printed += 1
    record = bytearray(to_the_slave(draw, (printed + 2) // 3))
    short = -printed % 3
    record[1:1 + short] = bytes([BETA] * short)
    return bytes(record)


def long_passages(draw):
    """Around the limit of the program."""
    most = programs.MOST_RECORD
    slave = to_the_slave(draw, most // 8)
    assert len(slave) == most
    yield "the most that a slave prints", slave
    # Over 65,536 bytes.
    yield "much that a master prints", TURNED + to_the_master(draw, 22000)
    yield "a fault behind much else", slave[:66000] + b"\2"
    # One more: nothing is run, whatever is wrong with it.
    yield "too long, and clean", slave + b"\7"
    for size in (most - 1, most, most + 1, most + 100):
        for first in (0, 1, 2) if size in (most, most + 1) else (0,):
            yield ("%d bytes, the first is %d" % (size, first),
                   bytes([first]) + bytes(size - 1))


def passage_cases(draw):
    example = bytes([3, 113, 89, 86, 2, 0, 1, 0])
    out = [quickly("empty", b""), quickly("ONE", example),
           slowly("ONE", example),
           quickly("offers alone", bytes([3, 71, 86, 51, 8])),
           slowly("a passage", bytes(revealed(draw, Passage(), 30).record)),
           in_pieces("a passage", sent_home(draw, 300, 0.05).record),
           in_pieces("a passage upset", upset(draw, sent_home(draw, 300, 0.05).record))]
    out.extend(with_words(example))
    for damage in (1, 2, 4):
        out.append(quickly("CS1, damaged by %d" % damage, example[:5] + bytes([damage, 1, 0])))
        out.append(quickly("ONE, damaged by %d" % damage, example[:7] + bytes([damage])))
    for size in OUTPUT_SIZES:
        out.append(from_file("%d bytes written" % size, passed_in(draw, size)))
    for size in (BLOCK - 1, BLOCK, BLOCK + 1, 2 * BLOCK):
        # Text to the slave alone, so that it may end in an entry or behind one.
        out.append(from_file("%d bytes read" % size,
                             to_the_slave(draw, BLOCK // 4 + 1)[:size]))
    # Each sort of refusal, behind nothing and behind a passage.
    for entry in ((0,), (9,), (0, *example), (255, *example), (1,), (2,), (3,), (4, 71, 71),
                  (1, 0, *example), (2, 8, *example), (2, 0, 2, 0), (2, 0, 1, 0, 1, 0),
                  (5, 5), (3, 71, 71, 71, 7), (8, 6), (7, 2, 1, 3, 71, 71, 71),
                  (6, 2, 0, 4, 71, 15, 71), (4, 71, 71, 71, 4, 71, 71, 71),
                  (3, 71, 15, 71), (3, 71, 86, 102), (4, 0, 71, 71, *example)):
        out.append(quickly("refused at once", bytes(entry)))
    for made in (sent_home(draw, 60, 0.05), any_passage(draw, 61, 0.05)):
        entries = list(hostile_entries(draw, made))
        for entry in draw.sample(entries, 6):
            out.append(quickly("refused behind a passage", made.record + entry))
    # Stations that take no offer any more: one that stands, and another one behind it.
    for place in (STANDBY, LOST):
        for whose in BOTH:
            made = led_passage(draw, whose, place)
            made.bursts(2)
            made.offer(draw, whose, draw.choice(("text", "over", "end")))
            made.bursts(draw.randint(2, 5))
            record = bytes(made.record)
            out.append(quickly("an offer at %s" % place, record))
            out.append(quickly("another offer at %s" % place, record + bytes(
                [KIND_OF[draw.choice(("over", "end")), whose]])))
    for bad in (31, 32):
        for whose in BOTH:
            out.append(quickly("%d bad bursts" % bad, starved_passage(
                draw, whose, draw.choice((SENDING, OPENING)), bad, None).record))
    # More than `print` takes in one call.
    out.append(quickly("over 8,192 signals", to_the_slave(draw, 2800)))
    out.append(quickly("over 8,192 signals", TURNED + to_the_master(draw, 2800)))
    for most in (40, 60, 90, 120):
        out.append(quickly("many turns", crowded(draw, most, 0.15).record))
    for number in range(10):
        chance = (0, 0.02, 0.1, 0.3)[number % 4]
        most = draw.choice((20, 200, 1000))
        made = (sent_home if number % 3 else any_passage)(draw, most, chance)
        out.append(quickly("a passage of %d bursts" % most, made.record))
        if number % 2 == 0:
            out.append(quickly("a passage upset", upset(draw, made.record)))
    for about, record in long_passages(draw):
        out.append(quickly(about, record))
    return out


def passage_entries(data):
    """Places of the entries of a record, first byte and the one behind the last, up
    to the first that is none or is cut short."""
    first = 0
    while first < len(data) and data[first] in passages.KINDS:
        behind = first + 1 + passages.KINDS[data[first]][2]
        if behind > len(data):
            return
        yield first, behind
        first = behind


# --- calls ---

CALLS_IN_A_CASE = 800
REASONS_AMONG_OTHERS = 4000
REASONS_IN_A_CASE = 6000

# A block that is accepted with count 31, as a record of `steps`; and a star.
STEP_RECORD = bytes([1, 4, 1, 0, 0, 0, 0, 31, 0, 0, 116, 86, 51] + [0] * 71)
STAR_RECORD = b"Y" + bytes([1, 0, 0, 71, 86, 86, 1, 1, 0, 86])


def low_first(value, length):
    return value.to_bytes(length, "little")


def text_record(kind, case, room, body):
    body = bytes(body)
    return (kind + bytes([case]) + low_first(room, 2) + low_first(len(body), 2)
            + body)


def slot_record(number, words):
    words = bytes(words)
    return b"S" + low_first(number, 4) + low_first(len(words), 2) + words


def room_needed(call, case, body):
    """How much room the call needs, or a room drawn where it is refused."""
    answer = call(("letters", "figures")[case % 2], body, bytearray(8192))
    if isinstance(answer, Refused):
        return None
    return answer.length


def with_room(draw, kind, call, body, sort=None):
    """A record of the call with a room of one sort: as needed, one less, one
    more, none, any, or the most."""
    case = draw.randrange(256)
    needed = room_needed(call, case, body)
    if needed is None:
        needed = draw.randrange(9)
    if sort is None:
        sort = draw.choice((0, 0, 0, 1, 1, 2, 3, 4))
    room = (needed, max(needed - 1, 0), min(needed + 1, 8192), 0,
            draw.randrange(2 * needed + 2), 8192)[sort]
    return text_record(kind, case, min(room, 8192), body)


def text_records(draw, kind, call, make, bad, limit):
    """E or P records.  make(n): a body the call takes; bad: bytes it refuses;
    limit: the most it takes."""
    # Each byte at each of the first places.
    for place in range(5):
        for byte in WORDS:
            body = bytearray(make(5))
            body[place] = byte
            yield with_room(draw, kind, call, bytes(body))
    # Short bodies with each sort of room.
    for length in range(0, 40):
        for sort in range(5):
            for _ in range(8):
                yield with_room(draw, kind, call, make(length), sort)
    for _ in range(1400):
        yield with_room(draw, kind, call, make(draw.randrange(120)))
    for _ in range(500):
        body = bytes(draw.choices(WORDS, k=draw.randrange(12)))
        yield with_room(draw, kind, call, body)
    for _ in range(400):
        body = bytearray(make(draw.randint(1, 60)))
        for _ in range(draw.choice((1, 1, 2, 3))):
            body[draw.randrange(len(body))] = draw.choice(bad)
        yield with_room(draw, kind, call, bytes(body))
    for length in (0, 1, 30):
        for _ in range(3):
            yield with_room(draw, kind, call, make(length), 5)
    # Around the limit.
    for length in (limit - 1, limit, limit + 1):
        for sort in range(6):
            yield with_room(draw, kind, call, make(length), sort)
        for index in (0, length // 2, limit - 1, limit, length - 1):
            if index < length:
                body = bytearray(make(length))
                body[index] = draw.choice(bad)
                yield with_room(draw, kind, call, bytes(body),
                                draw.choice((0, 3, 5)))
    yield text_record(kind, 0, 8192, make(8193))
    yield text_record(kind, 1, 0, bytes(draw.choices(WORDS, k=8193)))
    for _ in range(25):
        yield with_room(draw, kind, call, make(draw.randint(1000, limit)))


def encode_records(draw):
    def make(length):
        way = letter if draw.random() < 0.5 else characters
        return way(draw, length)

    yield from text_records(draw, b"E", text.encode, make, NO_CHARACTERS, 4096)
    for sort in range(6):
        # The most room that encoding ever needs.
        body = (b"1A" if sort % 2 == 0 else b"A1") * 2048
        yield with_room(draw, b"E", text.encode, body, sort)
    yield from small_letter_records(draw)


def small_letter_records(draw):
    """Paper 02, T-01."""
    # Each small letter in each case in force, alone and beside a figure, with
    # room as needed and one less.
    for byte in SMALL:
        for case in (0, 1):
            for body in (b"%c", b"%c1", b"1%c", b"1%c1", b" %c"):
                body = body % byte
                needed = room_needed(text.encode, case, body)
                for room in (needed, needed - 1):
                    yield text_record(b"E", case, room, body)
    # Each byte that is refused, among small letters.
    for byte in NO_CHARACTERS:
        yield with_room(draw, b"E", text.encode, among_small(draw, bytes([byte])))
    for body in MARKED:
        yield with_room(draw, b"E", text.encode, body)
    # Around the limit.
    for sort in range(6):
        body = (b"1a" if sort % 2 == 0 else b"a1") * 2048
        yield with_room(draw, b"E", text.encode, body, sort)
        yield with_room(draw, b"E", text.encode, small_letters(draw, 4096), sort)
    yield with_room(draw, b"E", text.encode, small_letters(draw, 4097))
    yield with_room(draw, b"E", text.encode, small_letters(draw, 4095) + b"{")


def group_records():
    """E records for an encoder that takes several characters at a time."""
    for length in GROUP_LENGTHS:
        for index in range(length):
            for byte in NOT_IN_GROUPS:
                # Room for the text, so that only the byte can be what is refused.
                yield text_record(b"E", (length + index) % 2, 2 * length,
                                  all_but(length, index, byte))
    # 01: "index of the first", where a second one stands in the same group or
    # behind it.
    for second in range(8):
        for first in range(second):
            for one in NOT_IN_GROUPS:
                for other in NOT_IN_GROUPS:
                    body = with_byte(all_but(8, first, one), second, other)
                    yield text_record(b"E", (first + second) % 2, 16, body)
    # 01: "room beyond the part written is untouched".  The longest room could
    # take another group of sixteen, a shift before each.
    for length in list(range(18)) + [31, 32, 33]:
        for end in GROUP_ENDS:
            body = ending_in(length, end)
            for case in (0, 1):
                needed = room_needed(text.encode, case, body)
                for room in (max(needed - 1, 0), needed, needed + 1, needed + 32):
                    yield text_record(b"E", case, room, body)


def print_records(draw):
    def make(length):
        return bytes(signals(draw, length))

    yield from text_records(draw, b"P", text.print_signals, make, NOT_PRINTABLE,
                            8192)


def slot_records(draw):
    def make(length):
        return draw.choices(TRAFFIC, k=length)

    # Every slot of a short text and some behind it, and numbers of any size.
    for words in ([], [86], [71, 86]):
        count = len(broadcast.slots(words))
        for number in range(count + 4):
            yield slot_record(number, words)
        for number in (255, 256, 65535, 65536, 2 ** 31 - 1, 2 ** 31, 2 ** 32 - 1):
            yield slot_record(number, words)
    # Both sides of each break: slots around the break, around the end, any.
    for number in ALL_BREAKS:
        for length in sides(number):
            words = make(length)
            count = len(broadcast.slots(words))
            at = 2 * (16 + 100 * number - 4)
            chosen = [at + draw.randrange(-6, 16), at + draw.randrange(-6, 16),
                      count - draw.randrange(1, 40), count - 1, count,
                      count + draw.randrange(1, 40), draw.randrange(count)]
            for one in chosen:
                yield slot_record(one, words)
    # Whole stretches around the first two breaks.
    words = make(193)
    for one in range(212, 252):
        yield slot_record(one, words)
    for one in range(412, 468):
        yield slot_record(one, words)
    for length in (8190, 8191, 8192):
        words = make(length)
        for one in (0, 1, 17000, 17129, 17130, 17131, 17132, 17133, 17134,
                    2 ** 32 - 1):
            yield slot_record(one, words)
    # Refusals: 7 before 3 before 6.
    yield slot_record(0, make(8193))
    yield slot_record(2 ** 32 - 1, [0] * 8193)
    not_traffic = [word for word in WORDS if word not in TRAFFIC]
    for word in WORDS:
        yield slot_record(draw.randrange(90), make(2) + [word] + make(2))
    for _ in range(200):
        words = make(draw.randint(1, 120))
        for _ in range(draw.choice((1, 1, 2))):
            words[draw.randrange(len(words))] = draw.choice(not_traffic)
        yield slot_record(draw.choice((0, 50, 10 ** 6)), words)
    for _ in range(1000):
        words = make(draw.randrange(220))
        yield slot_record(draw.randrange(2 * len(words) + 80), words)


def meaning_records():
    for byte in WORDS:
        yield b"M" + bytes([byte])


def receive_record(draw, *, run=None, last=None, dx=None, following=None,
                   printing=None, wait=0, word):
    """An R record.  Searching where a run is given, else in phase.  Only the
    lowest bit of a flag counts, so the rest of its byte is drawn at random; so
    are the fields of the other state."""
    fields = draw.choices(WORDS, k=10)

    def flag(index, value):
        fields[index - 1] = (fields[index - 1] & 254) + value

    flag(1, 0 if run is not None else 1)
    if run is not None:
        fields[1] = run
    else:
        fields[8] = wait
    if last is not None:
        flag(3, last)
    if dx is not None:
        fields[3:6] = dx
    if following is not None:
        flag(7, following)
    if printing is not None:
        flag(8, printing)
    fields[9] = word
    return b"R" + bytes(fields)


# What a receiver may hear or hold, each sort of it: phasing signals, the other
# service signal, what begins printing, shifts, other traffic, damage of each
# sort (among it alpha and RQ with bit 7 set), and the error mark.
IN_MODE_B = [ALPHA, RQ, BETA, CARRIAGE_RETURN, LINE_FEED, LETTERS, 71, 86, 0,
             127, 128 + ALPHA, 128 + RQ, 255]
DX_NEXT, RX_NEXT = 0, 1


def receive_records(draw):
    # The search: each run with each word, and runs that no search comes to.
    for run in (0, 1, 2, 3):
        for last in (0, 1):
            for word in WORDS:
                yield receive_record(draw, run=run, last=last, word=word)
    for run in (4, 5, 255):
        for last in (0, 1):
            for word in IN_MODE_B:
                yield receive_record(draw, run=run, last=last, word=word)
    for run in WORDS:
        for word in (ALPHA, RQ, draw.choice(WORDS)):
            yield receive_record(draw, run=run, last=draw.randrange(2), word=word)
    # In phase, DX next: the word heard, the one before it and the one that
    # waits, each of each sort.
    for printing in (0, 1):
        for middle in IN_MODE_B:
            for newest in IN_MODE_B:
                for word in (ALPHA, RQ, LINE_FEED, draw.choice(IN_MODE_B)):
                    yield receive_record(
                        draw, dx=(draw.choice(WORDS), middle, newest),
                        following=DX_NEXT, printing=printing, word=word)
    # Two alpha in DX, with every word that may wait: the wait begins.
    for printing in (0, 1):
        for waiting in WORDS:
            yield receive_record(draw, dx=(draw.choice(WORDS), waiting, ALPHA),
                                 following=DX_NEXT, printing=printing, word=ALPHA)
    # In phase, RX next: both copies of each sort; and each of the 256 words as
    # either copy.
    for printing in (0, 1):
        for dx in IN_MODE_B:
            for rx in IN_MODE_B:
                for _ in range(2):
                    rest = draw.choices(IN_MODE_B, k=2)
                    yield receive_record(draw, dx=(dx, rest[0], rest[1]),
                                         following=RX_NEXT, printing=printing,
                                         word=rx)
    for word in WORDS:
        for other in (word, ALPHA, RQ, 0, draw.choice(TRAFFIC)):
            for dx, rx in ((word, other), (other, word)):
                rest = draw.choices(WORDS, k=2)
                yield receive_record(draw, dx=(dx, rest[0], rest[1]),
                                     following=RX_NEXT,
                                     printing=draw.choice((0, 1, 1)), word=rx)
    yield from wait_records(draw)
    # Bytes of any value everywhere.
    for number in range(2500):
        fields = draw.choices(WORDS, k=10)
        if number % 2 == 0:
            fields[1] %= 5
            fields[8] %= 5
            fields[9] = draw.choice(IN_MODE_B)
        yield b"R" + bytes(fields)


def wait_records(draw):
    """Receivers that wait (02, T-03).  The next slot and the words held are of any
    value: no run comes to most of them."""
    flags = [(following, printing) for following in (DX_NEXT, RX_NEXT)
             for printing in (0, 1)]

    def waits(wait, dx, word, following=None, printing=None):
        return receive_record(draw, dx=dx, following=following, printing=printing,
                              wait=wait, word=word)

    # Each wait, and those over 3 with each sort of word.
    for wait in WORDS:
        for following, printing in flags:
            yield waits(wait, draw.choices(IN_MODE_B, k=3), draw.choice(IN_MODE_B),
                        following, printing)
    for wait in (4, 5, 255):
        for word in IN_MODE_B:
            yield waits(wait, (71, ALPHA, ALPHA), word)
    # Words held and words heard of each sort: at 3 the oldest is settled by the
    # word, at 2 and 1 nothing is.
    for wait in (3, 2, 1):
        for following, printing in flags:
            for dx in IN_MODE_B:
                for word in IN_MODE_B:
                    if wait == 3 or draw.random() < 0.5:
                        rest = draw.choice(((ALPHA, ALPHA),
                                            draw.choices(IN_MODE_B, k=2)))
                        yield waits(wait, (dx, *rest), word, following, printing)
    # Each of the 256 words as either copy at 3, and as the word heard at 2 and 1.
    for word in WORDS:
        for other in (word, 0, draw.choice(TRAFFIC)):
            for dx, rx in ((word, other), (other, word)):
                yield waits(3, (dx, *draw.choices(WORDS, k=2)), rx,
                            printing=draw.choice((0, 1, 1)))
        for wait in (2, 1):
            yield waits(wait, (word, ALPHA, ALPHA), word, printing=1)


def identity_records(draw):
    """I records (02, T-02)."""
    # Each word at each place, and with another one outside behind it.
    for word in WORDS:
        for index in range(4):
            words = list(identity(draw))
            words[index] = word
            yield b"I" + bytes(words)
            for second in range(index + 1, 4):
                words[second] = draw.choice(NEARLY_IN_IDENTITY)
            yield b"I" + bytes(words)
    for _ in range(500):
        yield b"I" + bytes(identity(draw))
        yield b"I" + bytes(outside(draw, identity(draw)))
        yield b"I" + bytes(draw.choices(WORDS, k=4))


def both_identities_records(draw):
    """J records (02, T-05)."""
    # Each word at each place, and with others outside behind it.
    for word in WORDS:
        for index in range(11):
            words = list(identity(draw) + identity(draw, 7))
            words[index] = word
            yield b"J" + bytes(words)
            for second in draw.sample(range(index + 1, 11), draw.randint(0, 10 - index)):
                words[second] = draw.choice(NEARLY_IN_IDENTITY)
            yield b"J" + bytes(words)
    for _ in range(200):
        yield b"J" + bytes(identity(draw) + identity(draw, 7))
        yield b"J" + bytes(outside(draw, identity(draw)) + outside(draw, identity(draw, 7)))
        yield b"J" + bytes(draw.choices(WORDS, k=11))


def code_records(draw):
    """C records (02, T-06)."""
    codes = list(near_codes(draw)) + list(near_codes(draw))
    codes += list(codes_of_any_length(draw))
    # Each length with words that may not stand in a code.
    for length in WORDS:
        codes.append(bytes((length, *draw.choices(WORDS, k=20))))
    # Each word at each place, and directly behind the length.
    for word in WORDS:
        for index in range(20):
            signals = draw.choices(PLAIN, k=draw.randint(index + 1, 20))
            signals[index] = word
            codes.append(code_of(draw, signals))
        length = draw.randrange(20)
        codes.append(code_of(draw, draw.choices(PLAIN, k=length) + [word],
                             length=length))
    for _ in range(700):
        codes.append(passing_code(draw))
        codes.append(code_of(draw, draw.choices(CODE_PARTS, k=draw.randint(1, 20))))
    # Few words, so that all that a case and a + do is tried.
    few = (WHO_ARE_YOU, FIGURES, LETTERS, PLUS, QUERY, 71)
    for _ in range(600):
        codes.append(code_of(draw, draw.choices(few, k=draw.randint(1, 5))))
    for code in codes:
        yield b"C" + code


def passage_record(rooms, record):
    return (b"V" + low_first(rooms[0], 2) + low_first(rooms[1], 2)
            + low_first(len(record), 2) + bytes(record))


def lent_rooms(draw, needed, sort):
    """For the master and for the slave: as needed, one of them one less or both, more,
    none, those of the other."""
    master, slave = needed
    return ((master, slave), (max(master - 1, 0), slave), (master, max(slave - 1, 0)),
            (max(master - 1, 0), max(slave - 1, 0)), (master + 1, slave + 2),
            (0, 0), (0, slave), (master, 0), (slave, master),
            (draw.randrange(master + 2), draw.randrange(slave + 2)))[sort]


ROOM_SORTS = range(10)


def with_rooms(draw, made, sort=None):
    """A V record of a passage without a fault, with rooms of one sort."""
    if sort is None:
        sort = draw.choice((0, 0, 0, 1, 2, 4, 9))
    return passage_record(lent_rooms(draw, made.needed(), sort), made.record)


def judged(draw, record, needed=None):
    """A V record of a passage that may have a fault: its rooms are short, or long enough
    for what is printed before that."""
    if needed is None:
        needed = draw.choice(((0, 0), (1, 0), (0, 4), (9, 9)))
    return passage_record(needed, record)


def passage_records(draw):
    """V records (02, T-07)."""
    yield from refused_passages(draw)
    # Each damage byte, of the burst in turn and of the other.
    for damage in WORDS:
        for bursts in (0, 1, 4):
            made = Passage()
            made.offer(draw, MASTER, "text")
            made.bursts(bursts)
            if damage < 8:
                made.bursts(1, damage)
                yield with_rooms(draw, revealed(draw, made, 8))
            else:
                yield judged(draw, made.record + bytes([2 - bursts % 2, damage, 1]))
        yield judged(draw, bytes([1, damage]))
        yield judged(draw, bytes([2, 0, 2, damage]))
    # Each of the eight at each place of the hearer.
    for whose in BOTH:
        for place in (SENDING, TURNING, OPENING, ENDING, RECEIVING, ASKING, STANDBY):
            for damage in range(8):
                made = led_passage(draw, whose, place)
                made.bursts(1, damage)
                yield with_rooms(draw, revealed(draw, made, 6))
    # The time-out to the burst, with each offer and without.
    for whose in BOTH:
        for place in (SENDING, TURNING, OPENING, RECEIVING, ASKING):
            for bad, offer in ((30, "text"), (31, None), (31, "over"), (32, None),
                               (32, "text"), (32, "end"), (33, "over")):
                yield with_rooms(draw, starved_passage(draw, whose, place, bad, offer))
    # Questions, and an offer while the answer is owed.
    for whose in BOTH:
        for question in QUESTIONS:
            for later in range(9):
                offer = draw.choice(("text", "over", "end"))
                yield with_rooms(draw, questioned_passage(draw, whose, question, later,
                                                          offer))
    for most in range(10, 70):
        yield with_rooms(draw, crowded(draw, most, draw.choice((0.05, 0.2))), 0)
    # Rooms of each sort, beside a fault too.
    for number in range(20):
        made = (sent_home if number % 2 else any_passage)(draw, 60, 0.03)
        for sort in ROOM_SORTS:
            yield with_rooms(draw, made, sort)
            rooms = lent_rooms(draw, made.needed(), sort)
            yield judged(draw, made.record + b"\x09", rooms)
    for number in range(400):
        chance = draw.choice((0, 0.02, 0.1, 0.3))
        most = draw.choice((6, 20, 20, 60, 120))
        made = (sent_home if number % 2 else any_passage)(draw, most, chance)
        if number % 3 == 0:
            made = revealed(draw, made)
        yield with_rooms(draw, made)
        for _ in range(2):
            yield judged(draw, upset(draw, made.record), made.needed())
    for _ in range(150):
        yield judged(draw, bytes(draw.choices(WORDS, k=draw.randrange(12))))
        few = (0, 1, 2, 3, 4, 5, 6, 7, 8, 71, 51)
        yield judged(draw, bytes(draw.choices(few, k=draw.randrange(14))))
        # Two passages one behind the other are not two.
        one, two = (any_passage(draw, draw.randint(1, 9), 0.02).record for _ in BOTH)
        yield judged(draw, one + two, (15, 15))
    # The longest that V takes.
    for record in (to_the_slave(draw, 1024), TURNED + to_the_master(draw, 1022) + b"\5"):
        made = Passage(record)
        for sort in (0, 1, 2):
            yield with_rooms(draw, made, sort)
    for tail in (b"\1", b"\5", b"\6", b"\7\7"):
        record = (to_the_slave(draw, 1024) + tail)[-8193:]
        yield judged(draw, record, (8192, 8192))
    for record in (b"", b"\0", bytes([2, 0])):
        for rooms in ((0, 0), (8192, 0), (0, 8192), (255, 256)):
            yield judged(draw, record, rooms)


def refused_passages(draw):
    """Each reason by itself, and behind another one."""
    # Each kind first, last and between, and with what would be its body.
    for kind in WORDS:
        record = any_passage(draw, draw.randint(1, 5), 0.02).record
        yield judged(draw, bytes([kind]))
        yield judged(draw, record + bytes([kind]))
        yield judged(draw, record + bytes([kind, 0]))
        yield judged(draw, record + bytes([kind, *draw.choices(IN_BLOCK, k=3)]))
    # Each word at each place of a text offer, to either station, which then goes out;
    # and behind an offer that is not taken.
    for word in WORDS:
        for index in range(3):
            words = draw.choices(SPELT, k=3)
            words[index] = word
            entry = bytes([draw.choice((3, 4)), *words])
            if entry[0] == 3:
                yield judged(draw, entry + bytes([2, 0, 1, 0]), (0, 3))
            else:
                yield judged(draw, TURNED + entry + bytes([1, 0, 2, 0]), (3, 0))
            if word in NOT_IN_BLOCK:
                words[draw.randrange(3)] = draw.choice(NOT_IN_BLOCK)
                yield judged(draw, bytes([2, 0, entry[0], *words, 1]))
                standing = bytes([entry[0] + draw.choice((2, 4))])
                yield judged(draw, standing + entry)
    for made in begun_passages(draw):
        for entry in hostile_entries(draw, made):
            yield judged(draw, made.record + entry)
            # The first in the record counts.
            yield judged(draw, made.record + entry
                         + bytes(draw.choices(range(10), k=draw.randint(1, 6))))
    # An offer that is never taken, and another one however much later.
    for place in (STANDBY, LOST):
        for whose in BOTH:
            for first in ("text", "over", "end"):
                for second in ("text", "over", "end"):
                    made = led_passage(draw, whose, place)
                    made.offer(draw, whose, first)
                    made.bursts(draw.choice((0, 1, 2, 3, 8, 70)))
                    yield with_rooms(draw, made)
                    words = draw.choices(IN_BLOCK, k=3) if second == "text" else ()
                    yield judged(draw, made.record + bytes(
                        [KIND_OF[second, whose], *words]))


# Records of `steps` that try calls, identification and the answer-back, of which W
# has some.
REASON_SOURCES = (standby_records, calling_records, standby_of_seven_records,
                  refusal_of_seven_records, calling_three_records, identifying_records,
                  answering_records, left_for_standby_records, question_records,
                  code_refusal_records)


def asked_record(draw, place, count, burst, offer, role=None, **fields):
    """A record of `steps` of a station that is not refused."""
    code = draw.choice(PASSING_CODES)
    owed = "none"
    if draw.random() < 0.3:
        kind = draw.choice(("back", "keep"))
        owed = mode_a.Owed(kind, draw.randrange(blocks_of(code[0], kind)))
    if role is None:
        role = draw.randrange(2)
    return record(draw, role, place, draw.randrange(2), count, burst, offer,
                  held=draw.choices(IN_BLOCK, k=3), total=draw.randint(1, 4),
                  own=identity(draw), own_seven=identity(draw, 7), code=code, owed=owed,
                  **fields)


def reason_records(draw):
    """W records (02, T-08)."""
    for one in stations_asked(draw):
        yield b"W" + one


def refused_in_order(draw):
    """What 8, 4, 9 and 3 refuse at each place, each alone and with each other."""
    bad_codes = [code_of(draw, [71] * 20, length=21), code_of(draw, [71, BETA]),
                 code_of(draw, [FIGURES, WHO_ARE_YOU]), code_of(draw, [PLUS, QUERY])]
    for place in range(12):
        for sort in (BAD_CALL, BAD_CALL_7, BAD_TEXT, TEXT, NO_OFFER):
            for wrong in ("nothing", "count", "index", "total", "held"):
                for code in (*draw.choices(PASSING_CODES, k=4),
                             *draw.choices(bad_codes, k=2)):
                    kind = draw.choice(("back", "keep"))
                    owed = "none"
                    if wrong == "index":
                        owed = mode_a.Owed(kind, blocks_of(code[0], kind))
                    held = (71, ALPHA if wrong == "held" else 86, BETA)
                    yield record(draw, draw.randrange(2), place, draw.randrange(2),
                                 32 * (wrong == "count"), any_burst(draw),
                                 offer_of_sort(draw, sort), held=held,
                                 total=5 * (wrong == "total") or 2, code=code, owed=owed,
                                 own_seven=identity(draw, 7))


def stood_by(draw):
    """Stand-by: called by each order of its blocks, half called and not, with each
    offer, each number of steps to wait, and the identity offered barred or not."""
    place = programs.PLACES.index(STANDBY)
    for cycles in CYCLES:
        for sort in GOOD_SORTS:
            four, seven = both_identities(draw)
            one, two = (mode_a.call_block(four, number) for number in (1, 2))
            first, second, third = (mode_a.call_block_of_seven(seven, number)
                                    for number in (1, 2, 3))
            for burst, last, blocks in (
                    (two, 1, ()), (one, 2, ()), (third, 0, (1, 2)), (first, 0, (2, 3)),
                    (one, 1, ()), (two, 0, ()), (third, 0, (2,)), (second, 1, (1,)),
                    ((0, 0, 0), 2, (1, 2)), (any_burst(draw), 0, ())):
                offer = offer_of_sort(draw, sort)
                same, near = offer[4:], list(offer[4:])
                near[draw.randrange(7)] = draw.choice(IDENTITY_SIGNALS)
                ends = [mode_a.Barred(same), mode_a.Barred(tuple(near)), same, "nobody"]
                for known in ends if sort == CALL_7 else draw.choices(ends):
                    yield record(draw, draw.randrange(2), place, 0,
                                 draw.choice((0, 31)), burst, offer, cycles=cycles,
                                 last=last, own=four, own_seven=seven, blocks=blocks,
                                 other_end=known, code=draw.choice(PASSING_CODES),
                                 owed="none")


def sums_asked(draw):
    """Identifying: right and wrong check-sums, the last one the same or another, at
    each stage, number of wrong ones and count."""
    place = programs.PLACES.index(IDENTIFYING)
    for stage in (1, 2, 3):
        for wrong in WRONG:
            for count in (0, 30, 31):
                seven = identity(draw, 7)
                right = check_sum(seven, stage)
                one, two = draw.sample(wrong_letters(stage, seven, 0), 2)
                for first, last_wrong in ((right, one), (right, right), (one, one),
                                          (one, two), (one, right), (two, 0)):
                    for rest in ((0, 0), draw.choices(WORDS, k=2)):
                        yield asked_record(draw, place, count, (first, *rest),
                                           good_offer(draw), stage=stage, wrong=wrong,
                                           last_wrong=last_wrong, seven=seven)


def stations_asked(draw):
    """Records of `steps`, for W and for whoever asks a reason."""
    # Each place with each kind of burst, stage, count and offer; the wrong check-sums
    # counted, the last one, what was heard last, the steps to wait and the bursts sent
    # are drawn.
    for place in range(12):
        for kind in KINDS_OF_BURST:
            for stage in (1, 2, 3, 4):
                for count in (0, 30, 31):
                    for sort in GOOD_SORTS:
                        yield asked_record(draw, place, count,
                                           burst_of_kind(draw, kind),
                                           offer_of_sort(draw, sort), stage=stage)
    # What is judged of each word, and what the rows name, at each place and stage.
    for place, name in enumerate(programs.PLACES):
        for stage in (1, 2, 3, 4) if name in programs.HAS_STAGES else (1,):
            for count in (0, 31):
                for role in range(2):
                    for burst in JUDGED_WORDS:
                        yield asked_record(draw, place, count,
                                           judged_words(draw, burst),
                                           good_offer(draw), role, stage=stage)
                for burst in NAMED_BURSTS:
                    yield asked_record(draw, place, count, burst, NOTHING_OFFERED,
                                       stage=stage)
    # Each of the 256 words at each place of the burst.
    for place in range(12):
        for word in WORDS:
            for index in range(3):
                burst = list(draw.choice(([0, 0, 0], [71, 86, 71], [RQ, RQ, RQ],
                                          [ALPHA] * 3, [71, ALPHA, 86], [ALPHA, 71, 86])))
                burst[index] = word
                yield asked_record(draw, place, draw.choice((0, 0, 0, 31)), burst,
                                   NOTHING_OFFERED)
    # A text of figures + ? is no over.
    for burst in ((71, 86, BETA), (BETA, BETA, BETA), (FIGURES, WHO_ARE_YOU, BETA)):
        for place in (0, 2, 4):
            yield asked_record(draw, place, 0, burst, (1, *mode_a.OVER, *mode_a.NO_SEVEN))
    yield from stood_by(draw)
    yield from sums_asked(draw)
    yield from refused_in_order(draw)
    for source in REASON_SOURCES:
        for one in source(draw):
            if draw.random() < 0.4:
                yield one
    # What stations come to.
    for chance, letters in ((0, 0), (0.02, 0), (0.1, 0.1), (0.3, 0)):
        yield from call_circuit_records(draw, 150, chance)
        yield from identified_circuit_records(draw, 150, chance, letters)
        yield from answering_circuit_records(draw, 150, chance)
    yield from unheard_records(draw, 150)
    yield from unheard_of_seven_records(draw, 150)


def star_records(draw):
    """Y records (02, T-08): receivers as those of R, and each two copies."""
    for one in receive_records(draw):
        yield b"Y" + one[1:]

    def settles(dx, rx, wait, printing=1):
        following = RX_NEXT if wait == 0 else None
        one = receive_record(draw, dx=(dx, *draw.choices(WORDS, k=2)),
                             following=following, printing=printing, wait=wait, word=rx)
        return b"Y" + one[1:]

    for wait in (0, 3):
        for dx in INTACT:
            for rx in INTACT:
                yield settles(dx, rx, wait)
        for word in MUTILATED:
            for other in (word, draw.choice(MUTILATED), draw.choice(INTACT)):
                yield settles(word, other, wait)
                yield settles(other, word, wait)
    # Before printing has begun, and where the word settles nothing.
    for _ in range(200):
        pair = draw.choice((draw.sample(INTACT, 2), draw.choices(MUTILATED, k=2)))
        for wait in (0, 3):
            yield settles(*pair, wait, printing=0)
        for wait in (1, 2):
            yield settles(*pair, wait)


KINDS = b"EPSMRIJCVWY"


def hostile_tails(draw):
    """What ends the program: bad kinds, rooms, lengths, and cut records."""
    kinds = [byte for byte in WORDS if byte not in KINDS]
    for byte in draw.sample(kinds, 6) + list(KINDS.lower()):
        yield "kind %d" % byte, bytes([byte]) + text_record(b"E", 0, 9, b"AB")
    heads = [b"E", b"P"]
    for head in heads:
        for room in (8193, 65535):
            yield "room %d" % room, text_record(head, 0, room, b"") + b"E"
        # Both over; the room over and the list cut short, not there, or too
        # short for its length to be told.
        over = head + b"\0" + low_first(8193, 2)
        yield "room and length over", over + low_first(8194, 2) + b"A"
        yield "room over, list cut", over + low_first(2, 2) + b"A"
        yield "room over, no list", over + low_first(2, 2)
        yield "room over, length cut", over + b"\2"
        yield "room over, no length", over
        yield "length over, no list", head + b"\0" + low_first(5, 2) + b"\2\x20"
        for length in (8194, 65535):
            whole = head + b"\0" + low_first(5, 2) + low_first(length, 2)
            yield "length %d" % length, whole + bytes([71]) * length
        whole = text_record(head, 1, 5, bytes([71] * 6))
        for length in range(1, len(whole)):
            yield "record cut to %d" % length, whole[:length]
    # Of V, either room.
    for rooms in ((8193, 0), (0, 8193), (65535, 65535), (8192, 8193)):
        yield "rooms %d and %d" % rooms, passage_record(rooms, b"") + b"E"
    for head in ((8193, 5), (5, 8193), (5, 5)):
        over = b"V" + low_first(head[0], 2) + low_first(head[1], 2)
        reason = "rooms %d and %d, " % head
        yield reason + "length over", over + low_first(8194, 2) + b"\2"
        yield reason + "list cut", over + low_first(2, 2) + b"\2"
        yield reason + "no list", over + low_first(2, 2)
        yield reason + "length cut", over + b"\2"
        yield reason + "no length", over
    for length in (8194, 65535):
        whole = b"V" + low_first(5, 2) * 2 + low_first(length, 2)
        yield "length %d" % length, whole + bytes([5]) * length
    for length in (8194, 65535):
        whole = b"S" + low_first(5, 4) + low_first(length, 2)
        yield "length %d" % length, whole + bytes([71]) * length
    for whole in (slot_record(5, [71] * 4), b"M" + bytes([71]),
                  receive_record(draw, run=3, last=1, word=ALPHA),
                  b"I" + bytes([71] * 4), b"J" + bytes([71] * 11),
                  b"C" + bytes([20] + [71] * 20),
                  passage_record((2, 3), bytes([3, 71, 71, 71, 2, 0, 1, 0])),
                  STAR_RECORD):
        for length in range(1, len(whole)):
            yield "record cut to %d" % length, whole[:length]
    for length in (1, 2, 17, 18, 60, 84):
        yield "record cut to %d" % length, (b"W" + STEP_RECORD)[:length]


def call_length(data, first):
    """The length of the record of `calls` that begins there; 0 where its kind
    is none."""
    kind = data[first:first + 1]
    if kind in (b"E", b"P"):
        return 6 + int.from_bytes(data[first + 4:first + 6], "little")
    if kind == b"S":
        return 7 + int.from_bytes(data[first + 5:first + 7], "little")
    if kind == b"V":
        return 7 + int.from_bytes(data[first + 5:first + 7], "little")
    return {b"M": 2, b"R": 11, b"I": 5, b"J": 12, b"C": 22, b"W": 1 + programs.RECORD,
            b"Y": 11}.get(kind, 0)


def call_records(data):
    """Places of the records of a `calls` input, first byte and the one behind
    the last, up to the first bad one."""
    first = 0
    while True:
        behind = first + call_length(data, first)
        if behind == first or behind > len(data):
            return
        yield first, behind
        first = behind


def calls_at_borders():
    """Records across the borders of blocks, each border another byte of the
    record; bad records that begin or are cut there."""
    out = []
    for whole in (text_record(b"E", 0, 5, b"A1A"), slot_record(40, [71, 86]),
                  b"I" + bytes([71, 86, 71, 101]),
                  b"J" + bytes([71, 86, 71, 86, 71, 86, 71, 86, 71, 86, 101]),
                  b"C" + bytes([20] + [71, 86] * 9 + [PLUS, QUERY]),
                  passage_record((0, 3), bytes([3, 71, 86, 71, 2, 0, 1, 0])),
                  STAR_RECORD, b"W" + STEP_RECORD):
        data = b""
        # Each byte of a record, of a long one the first, the last and some between.
        behind = range(1, len(whole) + 2)
        if len(whole) > 12:
            behind = (1, 2, 3, 4, 10, 15, 20, 21, 22, 23)
        if len(whole) > 30:
            behind = (1, 2, 3, 11, 18, 61, 83, 84, 85, 86)
        for number, bytes_before in enumerate(behind, 1):
            first = BLOCK * number - bytes_before
            while len(data) % 2 != first % 2:
                data += text_record(b"P", 1, 0, bytes([71]))
            data += b"MV" * ((first - len(data)) // 2) + whole
        out.append(from_file("records across borders", data))
    up_to = b"MV" * (BLOCK // 2)
    out.append(from_file("a bad kind at the border", up_to + b"?"))
    out.append(from_file("a bad kind before it", up_to[:-2] + b"M\0?"))
    for tail in (b"E\0", b"E\0\5\0\3\0", text_record(b"E", 0, 5, b"AA")):
        # The input ends at the border: in the head, before the list, behind it.
        out.append(from_file("ends at the border",
                             up_to[:BLOCK - len(tail)] + tail))
    out.append(from_file("cut in a list across the border",
                         up_to[2:] + text_record(b"E", 0, 5, b"A1A")[:-1]))
    return out


def group_calls():
    records = list(group_records())
    return [quickly("characters in groups, records from %d on" % start,
                    b"".join(records[start:start + CALLS_IN_A_CASE]))
            for start in range(0, len(records), CALLS_IN_A_CASE)]


def calls_cases(draw):
    records = (list(encode_records(draw)) + list(print_records(draw))
               + list(slot_records(draw)) + list(meaning_records())
               + list(receive_records(draw)) + list(identity_records(draw))
               + list(both_identities_records(draw)) + list(code_records(draw))
               + list(passage_records(draw)))
    # Of the records of reasons some stand among the others, the rest by themselves.
    reasons = list(reason_records(draw)) + list(star_records(draw))
    draw.shuffle(reasons)
    records += reasons[:REASONS_AMONG_OTHERS]
    draw.shuffle(records)
    short = [one for one in records if len(one) < 40]
    out = [quickly("empty", b""), slowly("12 records", b"".join(short[:12])),
           slowly("8 records and a bad one", b"".join(short[12:20]) + b"?"),
           in_pieces("200 records", b"".join(short[:200]))]
    out.extend(with_words(b"M\x47"))
    for size in OUTPUT_SIZES:
        # The lines `5 1` and `12 1`.
        few, more = made_up(size, 4)
        out.append(from_file("%d bytes written" % size, b"MV" * few + b"Me" * more))
    out.extend(calls_at_borders())
    out.extend(group_calls())
    for start in range(0, len(records), CALLS_IN_A_CASE):
        out.append(quickly("records from %d on" % start,
                           b"".join(records[start:start + CALLS_IN_A_CASE])))
    for start in range(REASONS_AMONG_OTHERS, len(reasons), REASONS_IN_A_CASE):
        out.append(quickly("reasons from %d on" % start,
                           b"".join(reasons[start:start + REASONS_IN_A_CASE])))
    for about, tail in hostile_tails(draw):
        good = b"".join(draw.choices(short, k=draw.choice((0, 1, 5))))
        out.append(quickly(about, good + tail))
    return out


MAKERS = {
    "hear": hear_cases,
    "encode": encode_cases,
    "print": print_cases,
    "send": send_cases,
    "receive": receive_cases,
    "passage": passage_cases,
    "steps": steps_cases,
    "why": why_cases,
    "stars": stars_cases,
    "calls": calls_cases,
}

NAMES = tuple(MAKERS)


# --- Conversations ---

# Each is a list of pieces.  When a piece is written, the program has to answer
# what it can before the next one comes; `steps`, `why` and `calls` in whole records,
# `hear` in whole bursts, `receive` and `stars` in words with white space behind them.
# docs/FORMATS.md: "always before it reads again, so that whoever feeds it a
# burst or a word sees the answer".
# The last piece of a list that ends in a fault ends the program, while its input
# is still open.

def spoken(words, begun):
    """What is heard up to the first that is printed, then word by word."""
    heard = broadcast.slots(words)
    return [plain(heard[:begun])] + [b"%d " % word for word in heard[begun:WAITED]]


# Of the second, E is printed at the first of the three words behind the second
# alpha.
SPOKEN = [spoken([71, 101, 86, 116], 40), spoken([86], ONE_RX - 3)]


def spoken_stars():
    """Three signals, of which the first and the last have two bad copies and the
    second two that are unlike; the last is a star at the first word behind the second
    alpha."""
    heard = broadcast.slots([71, 86, 71])
    for position, dx, rx in ((18, 0, 127), (19, 86, 101), (20, 255, 0)):
        heard = with_copies(heard, position, dx, rx)
    return [plain(heard[:40])] + [b"%d " % word for word in heard[40:48]]


BASE_STEP = STEP_RECORD[:programs.BASE_RECORD]

CONVERSATIONS = {
    # the header comes before anything is read
    "hear": [[b"", bytes([116, 86, 51]), bytes([86, 0, 86]), bytes([54, 99]),
              bytes([114]), bytes([51, 15, 51, CS1, 0, 0])]],
    "steps": [[STEP_RECORD, STEP_RECORD + STEP_RECORD[:5], STEP_RECORD[5:]]],
    "why": [[BASE_STEP, BASE_STEP + BASE_STEP[:5], BASE_STEP[5:]]],
    "stars": [spoken_stars(), spoken_stars() + [b"12x "]],
    "calls": [[b"MV", text_record(b"E", 0, 4, b"A1"), slot_record(36, [86]),
               b"R" + bytes([0, 3, 1, 0, 0, 0, 0, 0, 0, 15]),
               b"R" + bytes([1, 0, 0, 71, 15, 15, 1, 1, 3, 71]), b"I" + bytes([71] * 4),
               b"J" + bytes([71] * 11), b"C" + bytes([1, 83] + [0] * 19),
               b"C" + bytes([1, 71] + [0] * 19),
               passage_record((0, 3), bytes([3, 71, 86, 71, 2, 0, 1, 0])),
               passage_record((3, 3), bytes([1, 0])), b"W" + STEP_RECORD, STAR_RECORD,
               b"W" + STEP_RECORD[:20], STEP_RECORD[20:], b"M", b"eMA", b"?"]],
    "receive": SPOKEN + [SPOKEN[0] + [b"256 "]],
    "encode": [[b"A" * (text.MOST_CHARACTERS + 1)]],
    "print": [[b"71 ", b"7x "], [b"71 " * (text.MOST_SIGNALS + 1)]],
    "send": [[b"71 ", b"256 "]],
    "passage": [[bytes([3, 71, 86]), bytes([71, 2, 0, 1]), b"\0"],
                [bytes([2, 0]), bytes(programs.MOST_RECORD - 1)]],
}
