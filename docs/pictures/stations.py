"""The proved programs, driven: the table of actions (`rows`), single steps and runs of two stations (`steps`), the reason for a step's
answer (`why`), records (`passage`), texts (`encode`, `print`), and mode B (`send`, `receive`)."""
import functools
import os
import random
import re
import subprocess
from collections import namedtuple

ROOT = os.path.dirname(os.path.dirname(os.path.dirname(os.path.abspath(__file__))))

PLACES = ("sending", "turning", "opening", "ending", "receiving", "asking", "standby", "lost", "calling", "calling3", "identifying", "answering")
KINDS = ("cs1-block", "cs1", "cs2-block", "cs2", "cs3-block", "cs3", "cs4-block", "cs4", "cs5-block", "cs5", "letter-block", "letter",
         "rqs", "rq", "block", "turn", "alphas", "else")
OFFERS = ("nothing", "text", "over", "end", "call", "call3")
OTHERS = ("nobody", "four", "seven", "barred")
OWED = ("none", "back", "keep")
MASTER, SLAVE = 0, 1
ROLES = ("master", "slave")

ALPHA, BETA, RQ, CS1, CS2, CS3, CS4, CS5 = 15, 51, 102, 101, 106, 89, 53, 105
SILENCE = (0, 0, 0)
TRAFFIC = [word for word in range(128) if bin(word).count("1") == 4 and word not in (ALPHA, BETA, RQ)]

# Identities: the letters of table 3a, as signals; of four signals and of seven, the seven of 001's example (2.5) and of its figure 3.
NO_IDENTITY, NO_SEVEN = (0,) * 4, (0,) * 7
DOCK, VXQZ = (83, 113, 29, 30), (60, 58, 46, 99)
KQVZRSE, PEARDBY = (30, 46, 60, 99, 85, 75, 86), (45, 86, 71, 85, 83, 114, 43)
NOBODY = ("nobody", ())
NONE_OWED = ("none", 0)
CODE_WORDS = 20     # so many words of an answer-back code a record has

# A station as `steps` writes it, and its own identities, of four signals and of seven, and its answer-back code, which that does not show;
# a field that the place does not carry is 0. `other` is who is at the other end: the word of `steps`, and the signals; `owed` what is owed
# of an answer: the word of `steps`, and the index.
Station = namedtuple("Station", "role place number held total count case plus cycles last to own own3 other heard3 stage wrong lastwrong signals code owed")
# The words of a text, or the identity of a call.
Offer = namedtuple("Offer", "what words")
Answer = namedtuple("Answer", "station sent printed taken")

NOTHING = Offer("nothing", SILENCE)


def at_place(role, place, number=0, held=SILENCE, total=0, count=0, cycles=0, last=0, to=NO_IDENTITY, own=NO_IDENTITY, own3=NO_SEVEN,
             other=NOBODY, heard3=0, stage=0, wrong=0, lastwrong=0, signals=NO_SEVEN, code=(), owed=NONE_OWED):
    return Station(role, place, number, held, total, count, "letters", 0, cycles, last, to, own, own3, other, heard3, stage, wrong, lastwrong, signals,
                   code, owed)


def fresh(role):
    """01: a fresh master is at Opening, a fresh slave Receiving and awaits 1."""
    return at_place(role, "opening") if role == MASTER else at_place(role, "receiving", 1)


def standing(own, own3=NO_SEVEN):
    """A station at Stand-by that is called by this identity, and by one of seven signals."""
    return at_place(SLAVE, "standby", own=own, own3=own3)


def call_blocks(identity):
    """The call blocks of an identity: two where it has four signals, three where it has seven."""
    if len(identity) == 4:
        one, two, three, four = identity
        return (one, RQ, two), (three, four, RQ)
    one, two, three, four, *rest = identity
    return (one, RQ, two), (RQ, three, four), tuple(rest)


def identity_blocks(identity):
    """Identification blocks 1 to 3."""
    one, two, three, four, *rest = identity
    return (one, ALPHA, two), (ALPHA, three, four), tuple(rest)


FIRST_BURST = (CS1, 0, 0)       # 01: a fresh slave's first burst is CS1

LETTERS, FIGURES, WHO = 90, 54, 83      # the shifts, and who are you: D in figures
CODE = (LETTERS, 75, 86, 71)            # an answer-back code: letters S E A


PROGRAMS = ("rows", "steps", "why", "passage", "encode", "print", "send", "receive")


class NotRun(Exception):
    """A program could not be built, or did not do what it was run for."""


class Refused(Exception):
    """What `passage` tells of a record that it does not run, and the place of the entry that it names, or None."""

    def __init__(self, told):
        super().__init__(told)
        place = re.match(r"passage: refused \d+ (\d+):", told)
        self.place = int(place.group(1)) if place else None


def build(*names):
    """Each of these programs proved and built, where it is not already."""
    for name in names:
        started(subprocess.run, "./telex", name, stdin=subprocess.DEVNULL, stdout=subprocess.DEVNULL)


def started(how, *command, **streams):
    try:
        done = how(command, cwd=ROOT, **streams)
    except OSError as fault:
        raise NotRun("%s: %s" % (" ".join(command), fault.strerror))
    if done.returncode:
        raise NotRun("%s ended with status %d" % (" ".join(command), done.returncode))
    return done


def run(name, data):
    """What a program that is built writes."""
    return started(subprocess.run, "./telex", "--built", name, input=data, stdout=subprocess.PIPE).stdout.decode("ascii")


def passage(record):
    """What `passage` writes of a record: what the master printed, and the slave."""
    try:
        done = subprocess.run(("./telex", "--built", "passage"), cwd=ROOT, input=record, stdout=subprocess.PIPE, stderr=subprocess.PIPE)
    except OSError as fault:
        raise NotRun("./telex --built passage: %s" % fault.strerror)
    if done.returncode == 1:
        raise Refused(done.stderr.decode("utf-8", "replace").strip())
    printed, rest = [], done.stdout
    for role in ROLES:
        head = re.match(rb"%s (\d+)\n" % role.encode("ascii"), rest)
        if done.returncode or not head:
            raise NotRun("./telex --built passage ended with status %d, and did not write what each station printed" % done.returncode)
        printed.append(rest[head.end():head.end() + int(head.group(1))])
        rest = rest[head.end() + int(head.group(1)) + 1:]
    return printed


def table():
    """The action of each (place, kind), from the program `rows`."""
    cells = {}
    for line in run("rows", b"").splitlines():
        place, kind, action = line.split()
        cells[place, kind] = action
    if set(cells) != {(place, kind) for place in PLACES for kind in KINDS}:
        raise SystemExit("rows did not write the cells of %d places by %d kinds" % (len(PLACES), len(KINDS)))
    return cells


def kinds_of(bursts):
    """The kind of each of these bursts, from the program `rows`."""
    bursts = sorted(bursts)
    lines = run("rows", bytes(word for burst in bursts for word in burst)).splitlines()
    return {burst: line.split()[3] for burst, line in zip(bursts, lines[-len(bursts):])}


@functools.lru_cache(None)
def encoded(text):
    """The signals of a text, from the program `encode`."""
    return tuple(int(word) for word in run("encode", text.encode("ascii")).split())


def words(name, some):
    """What `send` or `receive` makes of these words."""
    return tuple(int(word) for word in run(name, " ".join(map(str, some)).encode("ascii")).split())


def record(station, burst, offer):
    called = offer.what in ("call", "call3")
    identity = (offer.words if called else NO_IDENTITY) + (0,) * 3
    what, other = station.other[0], station.other[1] + (0,) * 7
    return bytes((station.role, PLACES.index(station.place), station.number)
                 + (station.to if station.place == "calling" else station.held + (station.total,))
                 + (station.count, station.case == "figures", station.plus) + burst
                 + (OFFERS.index(offer.what),) + (SILENCE if called else offer.words)
                 + (station.cycles, station.last) + station.own
                 + (OTHERS.index(what),) + other[:4] + identity[:4]
                 + station.own3 + other[4:7] + identity[4:7]
                 + (station.heard3, max(station.stage - 1, 0), station.wrong, station.lastwrong) + station.signals + (0,) * 4
                 + (len(station.code),) + station.code + (0,) * (CODE_WORDS - len(station.code))
                 + (OWED.index(station.owed[0]), station.owed[1], 0))


OF_WHY = 17     # so many bytes of a record of `steps` are one of `why`


def reasons(asked):
    """The reasons for the answers to a list of (station, burst heard, offer), as the program `why` writes them. It knows 01's eight places, and
    no call that is offered."""
    lines = run("why", b"".join(record(*one)[:OF_WHY] for one in asked)).splitlines()
    if len(lines) != len(asked):
        raise NotRun("./telex --built why gave %d reasons for %d answers" % (len(lines), len(asked)))
    for line in lines:
        if line.startswith("refused"):
            raise SystemExit("a reason was refused: " + line)
    return lines


@functools.lru_cache(1 << 16)
def answer(own, own3, code, line):
    if not line.endswith("\n"):
        raise NotRun("./telex --built steps ended before it had answered")
    if line.startswith("refused"):
        raise SystemExit("a step was refused: " + line)
    place, sent, printed, taken, calls, told, owed = [part.split() for part in line.split("|")]
    number, *held = [int(field) for field in place[1:5]]
    total, count, plus = int(place[5]), int(place[6]), int(place[8])
    cycles, last, *to = [int(field) for field in calls[1:7]]
    heard3, stage, wrong, lastwrong, *signals = [int(field) for field in told]
    known = {"nobody": 0, "four": 4}.get(calls[7], 7)
    other = (calls[7], tuple((*map(int, calls[8:]), *signals[7:])[:known]))
    return Answer(Station(ROLES.index(calls[0]), place[0], number, tuple(held), total, count, place[7], plus, cycles, last, tuple(to), own, own3,
                          other, heard3, stage, wrong, lastwrong, tuple(signals[:7]), code, (owed[0], int(owed[1]))),
                  tuple(map(int, sent)), tuple(int(word) for word in printed if word != "0"), taken == ["1"])


class Steps:
    """The program `steps`, kept running."""
    AT_ONCE = 4096 // 84    # so many records of 84 bytes any pipe takes whole: the answers to all before have been read by then

    def __enter__(self):
        self.process = started(subprocess.Popen, "./telex", "--built", "steps", stdin=subprocess.PIPE, stdout=subprocess.PIPE)
        return self

    def __exit__(self, *_):
        try:
            self.process.stdin.close()
        except OSError:
            pass
        self.process.wait()

    def all(self, asked):
        """The answers to a list of (station, burst heard, offer)."""
        answers = []
        for first in range(0, len(asked), self.AT_ONCE):
            some = asked[first:first + self.AT_ONCE]
            try:
                self.process.stdin.write(b"".join(record(*one) for one in some))
                self.process.stdin.flush()
            except OSError as fault:
                raise NotRun("./telex --built steps takes no more records: %s" % fault.strerror)
            answers += [answer(one[0].own, one[0].own3, one[0].code, self.process.stdout.readline().decode("ascii")) for one in some]
        return answers


# How a circuit begins: with a fresh master and a fresh slave, or with two stations at Stand-by, of which the first calls the second by two
# blocks or by three; or with fresh ones of which the slave has an answer-back code: letters S E A.
BY_FRESH, BY_CALL, BY_CALL3, BY_CODE = range(4)
FIRST_CALL = {BY_CALL: Offer("call", VXQZ), BY_CALL3: Offer("call3", PEARDBY)}


class Circuit:
    """Two stations. Bursts alternate; who hears one answers it, and the other hears the answer."""

    def __init__(self, by=BY_FRESH):
        called = by in FIRST_CALL
        self.stations = [standing(DOCK, KQVZRSE), standing(VXQZ, PEARDBY)] if called else [fresh(MASTER), fresh(SLAVE)]
        if by == BY_CODE:
            self.stations[SLAVE] = self.stations[SLAVE]._replace(code=CODE)
        self.on_the_way, self.hearer = SILENCE if called else FIRST_BURST, MASTER
        self.to_call = FIRST_CALL.get(by)       # the call that is still to be placed

    def answered(self, reply):
        self.stations[self.hearer] = reply.station
        self.on_the_way, self.hearer = reply.sent, 1 - self.hearer
        self.to_call = None


def pick(chance, some):
    return some[int(chance.random() * len(some))]


def damaged(chance, burst, rate):
    """Each word lost with the rate given, to a word that is none of the 35: here 0 or 127."""
    return tuple(pick(chance, (0, 127)) if chance.random() < rate else word for word in burst)


IN_TEXT = TRAFFIC + [BETA, CS1, CS2, CS3] * 4       # words that are a control signal's are chosen more often


def offered(chance, circuit):
    """A call begins a circuit by call; later one may be offered where it is not placed, which is at every place but Stand-by."""
    what = pick(chance, ("nothing", "text", "text", "text", "over", "over", "end", "call"))
    if circuit.to_call:
        return circuit.to_call
    if what == "call":
        return NOTHING if circuit.stations[circuit.hearer].place == "standby" else Offer("call", VXQZ)
    if what != "text":
        return Offer(what, SILENCE)
    return Offer(what, tuple(pick(chance, IN_TEXT) for _ in range(3)))


RATES = (0, 0.02, 0.1, 0.3, 0.6, 0.9, 1)
REDRAWN = 1 / 40            # how likely the rate of a direction changes at an event: fading, so that both time-outs and recoveries are seen


def seen(steps, circuits=400, events=2000):
    """The cells that the stations of a long run came to: (place, kind) heard, and how many steps it was."""
    chance = random.Random(625)
    heard = set()
    runs, rates = [Circuit(number % 3) for number in range(circuits)], [[0, 0] for _ in range(circuits)]
    for _ in range(events):
        asked = []
        for number, circuit in enumerate(runs):
            if {station.place for station in circuit.stations} <= {"standby", "lost"} and chance.random() < 0.1:
                circuit = runs[number] = Circuit(number % 3)
            if chance.random() < REDRAWN:
                rates[number][circuit.hearer] = pick(chance, RATES)
            burst = damaged(chance, circuit.on_the_way, rates[number][circuit.hearer])
            asked.append((circuit.stations[circuit.hearer], burst, offered(chance, circuit)))
            heard.add((asked[-1][0].place, burst))
        for circuit, reply in zip(runs, steps.all(asked)):
            circuit.answered(reply)
    kinds = kinds_of({burst for _, burst in heard})
    return {(place, kinds[burst]) for place, burst in heard}, circuits * events
