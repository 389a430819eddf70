"""A passage run once more over the record of its damage (paper 02, T-07).

The record is entries one behind another.  Two fresh stations without a code are run
over it, and what each prints goes into a room lent for it (a bytearray).
"""

from collections import namedtuple

import station as mode_a
import text
from refusal import Refused
from signals import CS1

MASTER, SLAVE = "master", "slave"
OTHER = {MASTER: SLAVE, SLAVE: MASTER}

# 02, T-07: "An entry is one byte of kind and a body whose length the kind fixes."
# From the kind to what it is, of or to which station, and the length of the body.
KINDS = {
    1: ("burst", MASTER, 1),
    2: ("burst", SLAVE, 1),
    3: ("text", MASTER, 3),
    4: ("text", SLAVE, 3),
    5: ("over", MASTER, 0),
    6: ("over", SLAVE, 0),
    7: ("end", MASTER, 0),
    8: ("end", SLAVE, 0),
}

# "bits 0 to 2 set where a word was damaged": the most that a body may be.
MOST_DAMAGE = 7

# How many bytes each station has printed.
Passed = namedtuple("Passed", "master slave")


class Side:
    """One of the two stations.  `offer` is the one that stands, None where none does;
    `case` is in force behind what is printed so far."""

    def __init__(self, station):
        self.station = station
        self.offer = None
        self.case = "letters"
        self.printed = bytearray()


class Run:
    """The two stations, the burst on the way, and who has sent it."""

    def __init__(self):
        self.sides = {MASTER: Side(mode_a.fresh_master()),
                      SLAVE: Side(mode_a.fresh_slave())}
        # "the slave's first one leading"; 01: "its first burst is CS1".
        self.sender = SLAVE
        self.burst = mode_a.single(CS1)


def damaged(burst, damage):
    """Bit i is that of word i, from 0.  A damaged word is heard as 0."""
    return tuple(0 if damage >> index & 1 else word
                 for index, word in enumerate(burst))


def hear(run, damage):
    """The burst on the way is heard by the other station, whose answer is the next."""
    hearer = OTHER[run.sender]
    side = run.sides[hearer]
    # "An offer stands until taken."
    offer = mode_a.NOTHING if side.offer is None else side.offer
    answer = mode_a.step(side.station, damaged(run.burst, damage), offer)
    side.station = answer.station
    if answer.taken:
        side.offer = None
    # "The run's printed text is that of 01's rows": the case runs on from block to
    # block, and 01's limit of 8,192 signals is that of one call.
    room = bytearray(3)
    written = text.print_signals(side.case, answer.printed, room)
    side.case = written.case
    side.printed += room[:written.length]
    run.burst = answer.burst
    run.sender = hearer


def refusal_of(run, record, place):
    """The number by which the entry there is refused, None where it is not.  "within
    one entry in the order 10, 11, 12, 13, 3"."""
    if record[place] not in KINDS:
        return 10
    what, whose, length = KINDS[record[place]]
    body = record[place + 1:place + 1 + length]
    if len(body) < length:
        return 11
    if what == "burst":
        # "Bursts must alternate"
        if whose != run.sender or body[0] > MOST_DAMAGE:
            return 12
        return None
    # "13 offer before that station's last was taken": for good where it is at
    # Stand-by or Lost, which take none.
    if run.sides[whose].offer is not None:
        return 13
    if what == "text":
        for word in body:
            if not mode_a.may_stand_in_block(word):
                return 3
    return None


def go(run, record, place):
    """What an entry that is not refused does; the place behind it."""
    what, whose, length = KINDS[record[place]]
    behind = place + 1 + length
    body = tuple(record[place + 1:behind])
    if what == "burst":
        hear(run, body[0])
    else:
        # No words of over and end: three zeros, as where nothing is offered.
        run.sides[whose].offer = mode_a.Offer(what, body or (0, 0, 0))
    return behind


def passage(record, master_room, slave_room):
    """Answers Passed or Refused."""
    run = Run()
    place = 0
    while place < len(record):
        number = refusal_of(run, record, place)
        if number is not None:
            # "Refusals, each with the entry's place"; "the first in the record counts".
            return Refused(number, place)
        place = go(run, record, place)
    master = run.sides[MASTER].printed
    slave = run.sides[SLAVE].printed
    # "after them 2, master's room first, with the room needed"
    if len(master) > len(master_room):
        return Refused(2, len(master))
    if len(slave) > len(slave_room):
        return Refused(2, len(slave))
    master_room[:len(master)] = master
    slave_room[:len(slave)] = slave
    return Passed(len(master), len(slave))
