"""A record of a passage as text, an entry a line, and as bytes (docs/DECISIONS.md, A passage).

Every text that is read gives one record, and every record is written as a text that gives it back, a damaged one too.
"""
import random
import re
from collections import namedtuple

KINDS = {1: "master-burst", 2: "slave-burst", 3: "master-text", 4: "slave-text", 5: "master-over", 6: "slave-over", 7: "master-end", 8: "slave-end"}
NUMBERS = {name: kind for kind, name in KINDS.items()}
MASTER, SLAVE = 0, 1

# The signals that a text may hold, by name: a letter stands for its signal whatever the case in force.
WORDS = dict(zip("ABCDEFGHIJKLMNOPQRSTUVWXYZ", (71, 114, 29, 83, 86, 27, 53, 105, 77, 23, 30, 101, 57, 89, 113, 45, 46, 85, 75, 116, 78, 60, 39, 58, 43, 99)))
WORDS.update({"letters": 90, "figures": 54, "return": 120, "feed": 108, "space": 92, "blank": 106, "beta": 51})
SIGNALS = {word: name for name, word in WORDS.items()}
# The figures, by the letter that has the same signal.
FIGURES = dict(zip("-?:38().,9014'57=2/6+", "ABCEIKLMNOPQRSTUVWXYZ"))

FORM = """\
An entry a line, in the order in which they happen; what stands behind # is a comment, and a line may be empty.

    slave-burst 010         the slave's next burst: a digit for each of its three words, 1 where the word is damaged
    master-burst 000        the master's. Bursts alternate, and the slave's is the first
    master-text ONE         a text offered to the master: three signals, here each a letter
    slave-text figures Z B  or each by itself, spaces between:
        A .. Z                the signal of that letter; a figure has that of its letter, and is not written: Z behind figures prints +
        letters figures return feed space blank beta
        071                   a word as it is, in two or three digits
    master-over             the over, offered to the master; slave-over
    master-end              the end, offered to the master; slave-end
    slave-burst 01000001    all eight bits of the byte, bit 0 first; passage refuses 1 behind the third
    byte 9                  a byte as it is, where no whole entry stands

An offer stands until its station takes it, and passage refuses another one before. A control signal is the first word of its burst; the
other two are silence, which damage does not change."""


class NotARecord(Exception):
    """What is wrong with a line."""


# An entry: where its first byte stands, its kind's name or `byte`, and its body, of `byte` the byte itself.
Entry = namedtuple("Entry", "at name body")


def length(kind):
    """How long the body of a kind is."""
    return 1 if kind in (1, 2) else 3 if kind in (3, 4) else 0


def station(name):
    return MASTER if name.startswith("master") else SLAVE


def entries(record):
    """The entries of a record, in order. A byte that is no kind stands alone; so does each byte of a last entry that is cut short."""
    at = 0
    while at < len(record):
        kind, long = record[at], length(record[at])
        if kind not in KINDS:
            yield Entry(at, "byte", record[at:at + 1])
            at += 1
        elif at + 1 + long > len(record):
            yield from (Entry(place, "byte", record[place:place + 1]) for place in range(at, len(record)))
            return
        else:
            yield Entry(at, KINDS[kind], record[at + 1:at + 1 + long])
            at += 1 + long


def line_of(entry):
    """An entry as a line."""
    if entry.name == "byte":
        return "byte %d" % entry.body[0]
    if entry.name.endswith("burst"):
        return "%s %s" % (entry.name, bits(entry.body[0]))
    if entry.name.endswith("text"):
        names = [SIGNALS.get(word) or "%02d" % word for word in entry.body]
        return "%s %s" % (entry.name, ("" if all(len(name) == 1 for name in names) else " ").join(names))
    return entry.name


def bits(byte):
    """Word 0, or bit 0, first."""
    return "".join(str(byte >> place & 1) for place in range(3 if byte < 8 else 8))


def text_of(record):
    """A record as text."""
    return "".join(line_of(entry) + "\n" for entry in entries(record))


def record_of(text):
    """The record of a text, and the number of the line behind each place at which an entry begins."""
    record, lines = bytearray(), {}
    for number, line in enumerate(text.split("\n"), 1):
        told = line.partition("#")[0].split()
        if told:
            lines[len(record)] = number
            try:
                record += entry_of(*told)
            except NotARecord as fault:
                raise NotARecord("line %d: %s" % (number, fault))
    return bytes(record), lines


def entry_of(name, *told):
    """The bytes of an entry."""
    if name == "byte":
        if len(told) != 1 or not re.fullmatch("[0-9]{1,3}", told[0]) or int(told[0]) > 255:
            raise NotARecord("byte takes a number, 0 to 255")
        return bytes((int(told[0]),))
    if name not in NUMBERS:
        raise NotARecord("there is no entry %r; there are %s, byte" % (name, ", ".join(NUMBERS)))
    kind = bytes((NUMBERS[name],))
    if length(kind[0]) == 1:
        if len(told) != 1 or not re.fullmatch("[01]{3}|[01]{8}", told[0]):
            raise NotARecord("%s takes three digits, 0 or 1: a digit a word, 1 where it is damaged" % name)
        return kind + bytes((sum(int(digit) << place for place, digit in enumerate(told[0])),))
    if length(kind[0]) == 3:
        told = list(told[0]) if len(told) == 1 and len(told[0]) == 3 else told
        signals = [signal(one) for one in told]
        if len(signals) != 3:
            raise NotARecord("%s takes three signals, and there %s %d: beta fills what is left of a text" % (
                name, "is" if len(signals) == 1 else "are", len(signals)))
        return kind + bytes(signals)
    if told:
        raise NotARecord("%s stands alone" % name)
    return kind


def signal(told):
    """A signal by its name, or a word by its number."""
    if told in WORDS:
        return WORDS[told]
    if len(told) == 1 and told.upper() in WORDS:        # as encode takes small letters
        return WORDS[told.upper()]
    if told in FIGURES:
        raise NotARecord("%s is a figure: it has the signal of its letter, %s, which prints it behind figures" % (told, FIGURES[told]))
    if re.fullmatch("[0-9]{2,3}", told) and int(told) < 256:
        return int(told)
    raise NotARecord("%r is no signal: a letter A to Z; %s; or a number of two or three digits, at most 255" % (
        told, " ".join(name for name in WORDS if len(name) > 1)))


def as_text(data):
    """What a file holds, where that is text, else None. A record that is not empty begins with a kind, which no text holds."""
    try:
        return None if re.search(rb"[\x00-\x08\x0b\x0c\x0e-\x1f]", data) else data.decode("utf-8-sig")
    except UnicodeDecodeError:
        return None


# What is told of some lines that are no entries.
TOLD = {
    "master-text 1 2 3": "line 1: 1 is a figure: it has the signal of its letter, Q, which prints it behind figures",
    "\n# two\nslave-burst 020": "line 3: slave-burst takes three digits, 0 or 1: a digit a word, 1 where it is damaged",
    "master-text A beta": "line 1: master-text takes three signals, and there are 2: beta fills what is left of a text",
    "slave-over 1": "line 1: slave-over stands alone", "byte 256": "line 1: byte takes a number, 0 to 255",
}
READ = {"master-text ONE": b"\3\x71\x59\x56", "slave-burst 010": b"\2\2", "master-text o n e # so": b"\3\x71\x59\x56",
        "slave-text figures Z B\r\n\r\nslave-over": b"\4\x36\x63\x72\6", "slave-burst 11111111": b"\2\xff", "master-text 071 00 255": b"\3\x47\0\xff"}


def told_of(text):
    try:
        return record_of(text)[0]
    except NotARecord as fault:
        return str(fault)


def faults():
    """What is wrong with this form: each entry, each beginning of one and random bytes are written and read back; some lines are read."""
    chance = random.Random(625)
    some = [bytes((kind, *body)) for kind in range(256) for body in ((), (7,), (8, 255), (71, 0, 51))]
    some += [bytes((kind, byte)) for kind in (1, 2) for byte in range(256)]
    some += [bytes((3, *(word if place == at else 71 for at in range(3)))) for place in range(3) for word in range(256)]
    some += [bytes(int(chance.random() * (10 if chance.random() < 0.5 else 256)) for _ in range(int(chance.random() * 40))) for _ in range(4000)]
    found = ["the record %s does not come back from its text" % list(one) for one in some if told_of(text_of(one)) != one]
    found += ["of %r is told: %s" % (text, told_of(text)) for text, told in TOLD.items() if told_of(text) != told]
    found += ["%r is read as %s" % (text, told_of(text)) for text, read in READ.items() if told_of(text) != read]
    return found
