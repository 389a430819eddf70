"""Refusals by number (paper 01, "Numbers returned"; paper 02)."""

from collections import namedtuple

# number: 1 to 7 of 01's table, 8 of 02, T-02 and T-05, 9 of T-06, 10 to 13 of T-07.
# beside: 01's "Answer beside it".
#
#   1  encoding: a byte without a signal                 index of the first
#   2  encoding, printing: lent room too short           room needed
#   3  a word that may not stand there                   index of the first
#   4  a station or receiver that cannot be              0
#   5  encoding: over 4,096 characters                   4,096
#   6  mode B: slot past the last                        number of slots
#   7  over 8,192 signals for mode B or printing         8,192
#   8  an identity signal outside table 3a               index of the first
#   9  an answer-back code that a station may not have   0
#  10  a record: unknown kind of an entry                the entry's place
#  11  a record: an entry's body cut short               the entry's place
#  12  a record: a burst out of turn, or bits 3 to 7     the entry's place
#  13  a record: an offer before the last was taken      the entry's place
#
# Of 1: a to z are taken as the capitals (02, T-01), so they are not refused.
# Of 4: a receiver that has to wait for more than three words too (02, T-03), and a
# station that owes a block which its answer does not have (02, T-06).
# Of 3: of a record too the entry's place is beside it, and not an index (02, T-07).
# Of 8: the index is that in all the identities that are judged together, one
# behind another (02, T-05: "8 also for a self-identity").
#
# Each call tests for them in 01's order: "encoding 5, 1, 2; printing 7, 3, 2;
# mode A step 4, 3; mode B slot 7, 3, 6".  The step tests for 8 before these (02,
# T-02: "checked before all others at the call"), and for 9 behind 4 (02, T-06: "after
# 4").  A record is judged entry by entry, each for 10, 11, 12, 13 and 3, and behind the
# last for 2 (02, T-07).
Refused = namedtuple("Refused", "number beside")
