"""Runs of two stations, each burst from the program `steps`, told by name; and their drawing as ladders.

A run is made of offers and damage (`run`), or of a record of a passage (`over`), where what is printed has to be what the program
`passage` writes; there the reason for each repetition may be asked of the program `why`.
"""
import functools
from collections import namedtuple

import records
import stations
from drawing import BLUSH, GREY, INK, RED, WIDTH, headed, lines, width_of, wrapped
from stations import ALPHA, BETA, BY_FRESH, CS1, CS2, CS3, CS4, CS5, FIGURES, LETTERS, MASTER, NOTHING, RQ, SILENCE, SLAVE, Circuit, Offer

NAMES = {"sending": "Sending", "turning": "Turning", "opening": "Opening", "ending": "Ending",
         "receiving": "Receiving", "asking": "Asking", "standby": "Stand-by", "lost": "Lost", "calling": "Calling",
         "calling3": "Calling with three blocks", "identifying": "Identifying", "answering": "Answering"}

# --- Names of words ---

SINGLE = {CS1: "CS1", CS2: "CS2", CS3: "CS3", CS4: "CS4", CS5: "CS5"}
GREEK = {ALPHA: "α", BETA: "β"}
SHIFTS = {LETTERS: "letters", FIGURES: "figures"}
FREE = {records.WORDS["return"]: 13, records.WORDS["feed"]: 10, records.WORDS["space"]: 32}     # these print the same byte in either case


@functools.lru_cache(None)
def printed_as(case):
    """The byte that each letter's signal prints in a case, from the program `print`."""
    letters = [word for name, word in records.WORDS.items() if len(name) == 1]
    shift, = [word for word, name in SHIFTS.items() if name == case]
    return dict(zip(letters, stations.run("print", " ".join(map(str, [shift] + letters)).encode("ascii")).encode("ascii")))


def single(word):
    """The name of a word that stands alone."""
    return SINGLE.get(word) or named((word,))[0]


def named(words, case="letters"):
    """The names of the words of a text that begins in a case: characters as they are printed, D for who are you."""
    names = []
    for word in words:
        case = SHIFTS.get(word, case)
        byte = printed_as(case).get(word)
        name = {5: "D", 7: "bell"}.get(byte) or chr(byte) if byte else GREEK.get(word) or records.SIGNALS.get(word)
        names.append(name or ("RQ" if word == RQ else str(word)))
    return names


def behind(words, case):
    """The case in force behind some words."""
    for word in words:
        case = SHIFTS.get(word, case)
    return case


def joined(names):
    """Characters of a text stand together, and so do α and β; all else apart."""
    together = all(len(name) == 1 for name in names) and len({name in GREEK.values() for name in names}) == 1
    return ("" if together else " ").join(names)


# --- Runs ---

# A burst of a run: who hears it, what was sent and what is heard, the names of its words and of the whole, the offer taken or None, the
# answer, the names of the burst sent and of what is printed, that of the block confirmed or None, whether who is at the other end was told,
# and the reason where it repeats and that was asked for, or None.
Heard = namedtuple("Heard", "hearer burst arrives words name offer reply sent printed confirmed met why")
LONGEST = 80
CALLS = ("calling", "calling3", "identifying")      # what is sent there are letters of an identity, which stand apart


class Telling:
    """A run as it goes on: the circuit, what was told of it, what was asked of `steps`, and for each station the case in front of the block
    that it sent last and behind it, the name of that block, and the case of its print. A sender's case is that of all that it has sent
    before, block by block."""

    def __init__(self, steps, by=BY_FRESH):
        self.steps, self.circuit, self.told, self.asked = steps, Circuit(by), [], []
        self.front, self.back, self.print = [["letters"] * 2 for _ in range(3)]
        self.block = [None, None]
        self.words, self.name = self.names_of(self.circuit.on_the_way, 1 - self.circuit.hearer)

    def names_of(self, burst, sender):
        """The names of a burst's words, and of the whole."""
        if burst == SILENCE:
            return ["silence"], "silence"
        if burst[1:] == (0, 0):
            return [single(burst[0])], single(burst[0])
        words = named(burst, self.front[sender])
        return words, " ".join(words) if self.circuit.stations[sender].place in CALLS else joined(words)

    def hears(self, arrives, offer):
        """The next burst is heard as it arrives, with that offer."""
        circuit, hearer = self.circuit, self.circuit.hearer
        before, burst, words, name = circuit.stations[hearer], circuit.on_the_way, self.words, self.name
        self.asked.append((before, arrives, offer))
        reply, = self.steps.all(self.asked[-1:])
        after = reply.station
        circuit.answered(reply)
        # a block is held at Sending until it is confirmed, or its station Lost
        held = before.place == "sending"
        kept = after.place in ("sending", "lost") and after.number in (before.number, 0)
        confirmed = self.block[hearer] if held and not kept else None
        if after.place == "sending" and not (held and kept):
            self.front[hearer] = self.back[hearer]
            self.back[hearer] = behind(after.held, self.front[hearer])
            self.block[hearer] = self.names_of(after.held, hearer)[1]
        self.words, self.name = self.names_of(reply.sent, hearer)
        printed = joined(named(reply.printed, self.print[hearer])) if reply.printed else ""
        self.print[hearer] = behind(reply.printed, self.print[hearer])
        self.told.append(Heard(hearer, burst, arrives, words, name, offer if reply.taken else None, reply, self.name, printed, confirmed,
                               before.other != after.other and after.other[0] == "seven", None))
        return reply


def run(steps, offers, damage, ended, by=BY_FRESH):
    """A fresh master and a fresh slave, or two stations at Stand-by, with their offers, until `ended` of what was told and the two stations.
    `damage` is asked what is heard of a burst: how many there were before it, who sends it, its name, and what it is."""
    telling, waiting = Telling(steps, by), [list(some) for some in offers]
    while len(telling.told) < LONGEST:
        hearer = telling.circuit.hearer
        arrives = damage(len(telling.told), 1 - hearer, telling.name, telling.circuit.on_the_way)
        if telling.hears(arrives, waiting[hearer][0] if waiting[hearer] else NOTHING).taken and waiting[hearer]:
            waiting[hearer].pop(0)
        if ended(telling.told, telling.circuit.stations):
            return telling.told
    raise SystemExit("a run does not come to an end")


def first_time(steps, offers, spoilt, ended, spared=0, by=BY_FRESH):
    """A run in which each burst named, (who sends it, what), is struck the first time that it is sent after those spared; and those of
    them that were never sent."""
    left = set(spoilt)

    def damage(number, sender, name, burst):
        if number < spared or (sender, name) not in left:
            return burst
        left.remove((sender, name))
        return struck(burst)

    return run(steps, offers, damage, ended, by), left


def struck(burst):
    """With one word lost, which is none of the 35 then: the first of what is judged by it, the second of the others."""
    return (0,) + burst[1:] if burst[1] == 0 else (burst[0], 0, burst[2])


# A run over a record: what was told of it; after each number of bursts, from none on, the names of the two offers that stand, or None; and the
# bytes that each station printed in each burst that it heard.
Passage = namedtuple("Passage", "told standing printed")


def over(steps, record, why=False):
    """A fresh master and a fresh slave over a record, which the program `passage` has to take. What they print is what that writes. With
    `why` each repetition has its reason."""
    written = stations.passage(record)
    telling, offers, standing, printed = Telling(steps), [None, None], [], []

    def stand():
        return [offer and (joined(named(offer.words, telling.back[role])) if offer.what == "text" else offer.what) for role, offer in enumerate(offers)]

    for entry in records.entries(record):
        what = entry.name.split("-")[1]
        if what != "burst":
            offers[records.station(entry.name)] = Offer(what, tuple(entry.body) or SILENCE)
            continue
        standing.append(stand())
        hearer, case = telling.circuit.hearer, telling.print[telling.circuit.hearer]
        arrives = tuple(0 if entry.body[0] >> place & 1 else word for place, word in enumerate(telling.circuit.on_the_way))
        reply = telling.hears(arrives, offers[hearer] or NOTHING)
        if reply.taken:
            offers[hearer] = None
        printed.append(bytes_of(reply.printed, case))
    standing.append(stand())
    for role in (MASTER, SLAVE):
        if b"".join(some for one, some in zip(telling.told, printed) if one.hearer == role) != written[role]:
            raise SystemExit("what the %s prints step by step is not what passage writes" % stations.ROLES[role])
    return Passage(reasoned(telling) if why else telling.told, standing, printed)


def repeats(before, after):
    """Whether a station repeats from one step to the next: its count rises, ααα goes out again, or it is Lost by its time-out."""
    return after.count > before.count or before.place == after.place == "ending" or before.place != after.place == "lost"


def reasoned(telling):
    """What was told of a run, each repetition with its reason."""
    again = [number for number, one in enumerate(telling.told) if repeats(telling.asked[number][0], one.reply.station)]
    why = dict(zip(again, stations.reasons([telling.asked[number] for number in again])))
    return [one._replace(why=why.get(number)) for number, one in enumerate(telling.told)]


def bytes_of(words, case):
    """What is printed of signals, from a case on."""
    found = b""
    for word in words:
        case = SHIFTS.get(word, case)
        byte = FREE.get(word) or printed_as(case).get(word)
        found += bytes((byte,)) if byte else b""
    return found


def sent_by(told, role, name):
    return sum(one.hearer != role and one.name == name for one in told)


def printed_by(told, role):
    return [one.printed for one in told if one.hearer == role and one.printed]


def listed(told, role):
    """What a station took, what it counts as confirmed, and what the other printed: the names of the blocks."""
    return ([one.sent for one in told if one.hearer == role and one.offer is not None],
            [one.confirmed for one in told if one.hearer == role and one.confirmed], printed_by(told, 1 - role))


# --- Their drawing ---

LADDER = {MASTER: 176, SLAVE: 504}
MIDDLE, APART = (LADDER[MASTER] + LADDER[SLAVE]) / 2, LADDER[SLAVE] - LADDER[MASTER]
BESIDE = LADDER[MASTER] - 8     # the room beside a ladder
STEP = 34
# Something said between two bursts, in a frame of that colour; with `gap` bursts are left out there.
Said = namedtuple("Said", "lines stroke gap")


def high(item):
    return 14 * len(item.lines) + 24 if isinstance(item, Said) else STEP


# Who stands at the head of a ladder, and where.
FRESH = (("Master", stations.fresh(MASTER)), ("Slave", stations.fresh(SLAVE)))


def ladder_picture(title, about, *ladders, foot=None, heads=FRESH, first=None):
    """Ladders one below the other, each a heading or None and its bursts; `foot` is what stands below: a height, and who draws it. Bursts have
    numbers from `first` on where that is given."""
    top = 56 + 14 * len(about)
    below, draw = foot or (0, None)
    heights = [(26 if heading else 0, sum(map(high, items)) + 24 + hanging(items)) for heading, items in ladders]
    between = 40
    picture = headed(top + sum(map(sum, heights)) + between * (len(ladders) - 1) + 16 + below, title, about)
    for (heading, items), (above, height) in zip(ladders, heights):
        if heading:
            picture.text(2, top - 3, heading, 12, bold=True, room=WIDTH)
        ladder(picture, top + above, items, heads, first)
        top += above + height + between
    if draw:
        draw(picture, top - between)
    return picture.svg()


def hanging(items):
    """How far what is told of the last bursts hangs below a ladder: two lines stand beside it."""
    return max([0] + [13 * (len(note_lines(*told_of(one))) - 2) - STEP * above for above, one in enumerate(items[:-3:-1]) if isinstance(one, Heard)])


def ladder(picture, top, items, heads, first):
    for role, (name, station) in enumerate(heads):
        picture.text(LADDER[role], top - 8, name, 12.5, "middle", True)
        note(picture, role, top + 8, ["at " + place_of(station)])
        y = top
        for number, item in enumerate(items):
            tall = high(item) + (24 if number == len(items) - 1 else 0)
            picture.line((LADDER[role], y), (LADDER[role], y + tall), wide=2, dashed="2 4" if isinstance(item, Said) and item.gap else "")
            y += tall
    y = top + 14
    for number, item in enumerate(items):
        if isinstance(item, Said):
            picture.box(LADDER[MASTER] + 12, y - 4, APART - 24, high(item) - 16, "white", item.stroke, 4)
            lines(picture, MIDDLE, y - 4 + (high(item) - 16) / 2, item.lines, APART - 34, "middle", fill=item.stroke)
        else:
            burst_of(picture, y, item)
            note(picture, item.hearer, y + 20, told_of(item))
            if first is not None:
                sender = 1 - item.hearer
                picture.text(LADDER[sender] + (5, -5)[sender], y - 3, str(first + number), 9, ("start", "end")[sender], fill=GREY)
        y += high(item)


def burst_of(picture, y, one):
    """The arrow of a burst; the text stands above it, at its own height. Of a damaged one the words, and what is heard where one is hit."""
    damage, silent = one.burst != one.arrives, one.burst == SILENCE
    picture.line((LADDER[1 - one.hearer], y), (LADDER[one.hearer], y + 18), stroke=RED if damage else GREY if silent else INK,
                 dashed="5 3" if damage else "1 4" if silent else "", arrow=True)
    if not damage:
        picture.text(MIDDLE, y + 1, one.name, 11, "middle", not silent, GREY if silent else INK, room=APART - 100)
        return
    picture.cross(LADDER[one.hearer] + (-34 if one.hearer == SLAVE else 34), y + 18 - 18 * 34 / APART)
    cells = [(name, None) if sent == came else ("%s → %s" % (name, single(came)), RED)
             for name, sent, came in zip(one.words, one.burst, one.arrives)]
    wide = [width_of(name, 11, bool(hit)) + 8 for name, hit in cells]
    x = MIDDLE - sum(wide) / 2
    for (name, hit), width in zip(cells, wide):
        if hit:
            picture.box(x, y - 12.5, width, 15, BLUSH, hit, 2)
        picture.text(x + width / 2, y - 1, name, 11, "middle", bool(hit), hit or INK)
        x += width


HEARD3 = ("", ", block 1 heard", ", 1 and 2 heard", ", block 2 heard", ", 2 and 3 heard")


def place_of(station):
    place = {"calling3": "Calling 3"}.get(station.place, NAMES[station.place])
    if station.place in ("sending", "turning", "ending"):
        place += " %d" % station.number
    if station.place == "receiving":
        place += ", awaits %d" % station.number
    if station.place == "ending":
        place += ", total %d" % station.total
    if station.place == "standby" and station.last:
        place += ", block %d heard" % station.last
    if station.place == "standby":
        place += HEARD3[station.heard3]
    if station.stage:
        place += ", stage %d" % station.stage
    if station.owed[0] != "none":
        place += ", %s %d" % station.owed
    if station.place in ("calling", "calling3"):
        place += ", %d sent" % station.cycles
        if station.last:
            place += ", CS%d heard" % station.last
    return place


def told_of(one):
    """The place after a step, and each thing that was confirmed, taken and printed; of a repetition the reason, where that was asked for."""
    told = []
    if one.confirmed:
        told.append("confirms " + one.confirmed)
    if one.offer is not None:
        told.append("takes " + (one.sent if one.offer.what == "text" else one.offer.what.rstrip("3")))
    if one.met:
        told.append("other end told")
    if one.reply.station.wrong:
        told.append("wrong %d" % one.reply.station.wrong)
    if one.printed:
        told.append("prints " + one.printed)
    if one.reply.station.count:
        told.append("count %d" % one.reply.station.count)
    if one.why:
        told.append("why: " + one.why)
    return [place_of(one.reply.station)] + told


def note_lines(place, *told):
    """The lines of a note: the place, and behind it what was told, each thing whole where there is room."""
    found = []
    for number, one in enumerate(told, 1):
        one += "," if number < len(told) else ""
        if found and width_of(found[-1] + " " + one, 10.5) <= BESIDE:
            found[-1] += " " + one
        else:
            found += wrapped(one, BESIDE, 10.5)
    return [place] + found


def note(picture, role, y, some):
    x, anchor = (LADDER[role] - 8, "end") if role == MASTER else (LADDER[role] + 8, "start")
    first, *others = note_lines(*some)
    picture.text(x, y, first, 11, anchor, True, room=BESIDE)
    for number, line in enumerate(others, 1):
        picture.text(x, y + 13 * number, line, 10.5, anchor, fill=GREY, room=BESIDE)


def foot_of(told, said):
    """Below a ladder: what each station took, counts as confirmed and had printed, and what is said of it."""
    def draw(picture, y):
        columns = (60, 176, 340, 504)
        for x, head in zip(columns[1:], ("taken from its offers", "counted as confirmed", "printed by the other")):
            picture.text(x, y + 24, head, 10.5, fill=GREY, room=160)
        picture.line((columns[0], y + 29), (640, y + 29), stroke=GREY, wide=0.8)
        for number, (role, name) in enumerate(((MASTER, "Master"), (SLAVE, "Slave"))):
            picture.text(columns[0], y + 42 + 18 * number, name, 11, bold=True)
            for x, some in zip(columns[1:], listed(told, role)):
                picture.text(x, y + 42 + 18 * number, ", ".join(some) or "none", 11, room=160)
        for number, line in enumerate(said):
            picture.text(columns[0], y + 84 + 15 * number, line, 11, bold=True, fill=RED, room=WIDTH - columns[0])
    return 65 + 15 * len(said), draw


# --- Records, page by page ---

PAGE = 24       # so many bursts a printed page has room for
ABOUT = ("A fresh master and a fresh slave over this record. Each burst is what the program steps answers; beside it the place after the "
         "step, and what was confirmed, taken and printed. A word in a frame is damaged, and heard as 0.")
ABOUT_WHY = "Behind why: the reason for a repetition, in the words of the program why; docs/REASONS.md says what each means."


def headings(name, text):
    """The title of a text's pictures and what is said below it: the comment that it begins with, its first line and the rest; else the name."""
    comment = []
    for line in text.split("\n"):
        if not line.startswith("#"):
            break
        comment.append(line.strip("# \r\t"))
    title, *rest = wrapped(comment[0] if comment else name, WIDTH / 1.13, 15)
    return title, wrapped(" ".join(rest + comment[1:]) or ABOUT, WIDTH - 2)


def pages(bursts):
    """The bursts, as a range from 0, cut into pages; one page where there are none."""
    return [range(first, min(first + PAGE, bursts.stop)) for first in range(bursts.start, bursts.stop, PAGE)] or [bursts]


def page_picture(passage, title, about, bursts):
    """A ladder of some of the bursts of a passage, and below it what was printed up to there and what is offered and not taken."""
    def at(role, station):
        return next((one.reply.station for one in reversed(passage.told[:bursts.start]) if one.hearer == role), station)

    if any(one.why for one in passage.told[bursts.start:bursts.stop]):
        about = about + wrapped(ABOUT_WHY, WIDTH - 2)
    if len(bursts) != len(passage.told):
        about = about + ["Bursts %d to %d of %d." % (bursts.start + 1, bursts.stop, len(passage.told))]
    heads = [(name, at(role, station)) for role, (name, station) in enumerate(FRESH)]
    return ladder_picture(title, about, (None, passage.told[bursts.start:bursts.stop]), foot=(65, printed_foot(passage, bursts.stop)), heads=heads,
                          first=bursts.start + 1)


def printed_foot(passage, stop):
    def draw(picture, y):
        columns, room = (60, 130, 190, 480), 280
        for x, head in zip(columns[1:], ("printed", "by now, as passage writes it", "offered, not yet taken")):
            picture.text(x, y + 24, head, 10.5, fill=GREY, room=room)
        picture.line((columns[0], y + 29), (640, y + 29), stroke=GREY, wide=0.8)
        for number, (role, name) in enumerate(((MASTER, "Master"), (SLAVE, "Slave"))):
            printed = b"".join(some for one, some in zip(passage.told[:stop], passage.printed) if one.hearer == role)
            told = (name, "%d byte%s" % (len(printed), "s"[len(printed) == 1:]), shown(printed, room), passage.standing[stop][role] or "nothing")
            for x, some in zip(columns, told):
                picture.text(x, y + 42 + 18 * number, some, 11, bold=x == columns[0], room=room)
    return draw


def shown(printed, room):
    """Printed bytes in a line, the last of them where there is no room for all."""
    text = "".join({5: "(who are you)", 7: "(bell)", 10: " / ", 13: ""}.get(byte, chr(byte)) for byte in printed)
    if width_of(text) > room:
        while width_of(".. " + text) > room:
            text = text[1:]
        text = ".. " + text
    return text
