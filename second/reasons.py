"""Why a station answered as it did, and why a receiver of mode B printed a star
(paper 02, T-08).

Nothing here asks what a step does.  Each condition is judged by itself, by 01's
rows as 02 has amended them, from the place, the burst heard and the offer; the
order of 02's list stands in REASONS alone.
"""

from collections import namedtuple

from broadcast import MOST_RUN, MOST_WAIT, InPhase, Searching
from refusal import Refused
from signals import (ALPHA, BETA, CS1, CS2, CS3, CS4, CS5, FIGURES, LETTERS, PLUS,
                     QUERY, RQ, WHO_ARE_YOU, check_sum, intact, is_check_sum_signal,
                     is_identity_signal, is_traffic)
from station import (ANSWERING, ASKING, CALLING, CALLING_3, ENDING, IDENTIFYING, LOST,
                     OPENING, RECEIVING, SENDING, STANDBY, TURNING, Barred, refusal_of)

# A reason: its name, and the numbers that stand beside it.
Reason = namedtuple("Reason", "name beside")

# The 32nd repetition is the one behind 31; of a call at most 128 bursts are sent; a
# block of identification goes out again four times for wrong check-sums.
LAST_COUNT = 31
LAST_CALL_BURST = 128
LAST_WRONG = 4

CONTROL_OF = {1: CS1, 2: CS2}
THE_OTHER = {1: 2, 2: 1}


# --- What the rows name ---

def own_number(station, burst, offer):
    """01, Sending: "Control signal of its own number".  Ending does not name it."""
    return station.place == SENDING and burst[0] == CONTROL_OF[station.number]


def other_number(station, burst, offer):
    """Sending: "Of the other number"; Ending: "The other number's control signal"."""
    return (station.place in (SENDING, ENDING)
            and burst[0] == CONTROL_OF[THE_OTHER[station.number]])


def either_number(station, burst, offer):
    """Opening: "CS1 or CS2"; Calling: "two successive identical CS1 or CS2" (02,
    T-02), of which the first is named too."""
    return station.place in (OPENING, CALLING) and burst[0] in (CS1, CS2)


def answers_end_by_1(station, burst, offer):
    """The fourth stage of Identifying (001, 3.6.10)."""
    return station.place == IDENTIFYING and station.stage == 4 and burst[0] == CS1


def hears_3(station, burst, offer):
    """Sending, Turning and Opening; either kind of Calling (001, 3.5.7); the fourth
    stage of Identifying (001, 3.6.11)."""
    if burst[0] != CS3:
        return False
    if station.place == IDENTIFYING:
        return station.stage == 4
    return station.place in (SENDING, TURNING, OPENING, CALLING, CALLING_3)


def hears_4(station, burst, offer):
    return station.place == CALLING_3 and burst[0] == CS4


def hears_5(station, burst, offer):
    return station.place == CALLING_3 and burst[0] == CS5


def asked_to_receive(station, burst, offer):
    """Turning: "three RQ (if master) or RQ in the first word (if slave)"; the fourth
    stage of Answering: RQ RQ RQ (001, 3.6.9)."""
    if station.place == TURNING and not station.master:
        return burst[0] == RQ
    if station.place == TURNING or station.place == ANSWERING and station.stage == 4:
        return burst == (RQ, RQ, RQ)
    return False


def turned(station, burst, offer):
    """Asking: beta alpha beta."""
    return station.place == ASKING and burst == (BETA, ALPHA, BETA)


def ended(station, burst, offer):
    """Receiving: alpha alpha alpha; Answering too (001, 3.6.17)."""
    return (station.place in (RECEIVING, ANSWERING)
            and burst == (ALPHA, ALPHA, ALPHA))


def right_sum(station, burst, offer):
    """The first three stages of Identifying: the check-sum of the identity called."""
    return (station.place == IDENTIFYING and station.stage < 4
            and burst[0] == check_sum(station.seven, station.stage))


def wrong_sum(station, burst, offer):
    """There, "another letter" of table 3b."""
    return (station.place == IDENTIFYING and station.stage < 4
            and is_check_sum_signal(burst[0])
            and not right_sum(station, burst, offer))


# 02, T-05: "Y1 alpha Y2, alpha Y3 Y4, Y5 Y6 Y7".  X is any letter of table 3a.
FORM_OF_BLOCK = {1: "X a X", 2: "a X X", 3: "X X X"}


def form(burst):
    return " ".join("X" if is_identity_signal(word) else "a" if word == ALPHA else "-"
                    for word in burst)


def told(station, burst, offer):
    """Answering: the identification block that the stage awaits."""
    return (station.place == ANSWERING
            and form(burst) == FORM_OF_BLOCK.get(station.stage))


def told_again(station, burst, offer):
    """The one before it, whatever its letters."""
    return (station.place == ANSWERING
            and form(burst) == FORM_OF_BLOCK.get(station.stage - 1))


# --- Stand-by (02, T-02 and T-05) ---

def called(station, burst, offer):
    """The own call blocks in succession: of four signals either one behind the
    other, of seven 1-2-3 or 2-3-1.  An identity with a word outside table 3a hears
    no call."""
    if station.place != STANDBY:
        return False
    own = station.own
    if all(is_identity_signal(word) for word in own):
        one, two = (own[0], RQ, own[1]), (own[2], own[3], RQ)
        if (station.last, burst) in ((1, two), (2, one)):
            return True
    own = station.own_seven
    if all(is_identity_signal(word) for word in own):
        one, three = (own[0], RQ, own[1]), (own[4], own[5], own[6])
        if (station.blocks, burst) in (((1, 2), three), ((2, 3), one)):
            return True
    return False


def places_call(station, burst, offer):
    """The call offered can be placed: of four signals where no step is left to wait,
    of seven unless one is and these very signals are barred."""
    if station.place != STANDBY:
        return False
    if offer.kind == "call":
        return station.cycles == 0
    if offer.kind == "call of seven":
        barred = station.other_end == Barred(tuple(offer.words))
        return not (station.cycles > 0 and barred)
    return False


# --- What is accepted ---

def accepted(station, burst, offer):
    """Receiving: "Three intact words, each traffic or beta"."""
    return station.place == RECEIVING and all(
        is_traffic(word) or word == BETA for word in burst)


def in_their_case(station, burst):
    """The signals of a block but beta, each with the case in which it stands; a
    shift stands in the case that it names."""
    case = station.case
    signals = []
    for word in burst:
        if word == LETTERS:
            case = "letters"
        if word == FIGURES:
            case = "figures"
        if word != BETA:
            signals.append((case, word))
    return signals


def over_heard(station, burst, offer):
    """01: "? follows + in figures case with only beta between, within a block or
    across blocks"."""
    if not accepted(station, burst, offer):
        return False
    plus, query = ("figures", PLUS), ("figures", QUERY)
    signals = in_their_case(station, burst)
    if station.plus:
        signals = [plus] + signals
    return (plus, query) in zip(signals, signals[1:])


def who_are_you(station, burst, offer):
    """02, T-06: D in figures.  02, T-08 puts the over before it."""
    return (accepted(station, burst, offer)
            and ("figures", WHO_ARE_YOU) in in_their_case(station, burst))


def over_offered(station, burst, offer):
    return accepted(station, burst, offer) and offer.kind == "over"


# --- What goes before ---

def silent(station, burst, offer):
    """Lost, and Stand-by that is neither called nor places a call."""
    if station.place == STANDBY:
        return not (called(station, burst, offer)
                    or places_call(station, burst, offer))
    return station.place == LOST


def leads_away(station, burst):
    """001, 3.6.12: a wrong check-sum that is the same as the previous one, or the
    fifth, does not have the block sent again."""
    return station.wrong >= LAST_WRONG or (
        station.wrong > 0 and burst[0] == station.last_wrong)


# What a place "neither changes place, nor confirms, nor accepts" without: where none
# of these holds, the step is a repetition.  01 counts none at Ending, Stand-by and
# Lost, and 02 none at Calling.
GOES_ON_BY = {
    SENDING: (other_number, hears_3),
    TURNING: (asked_to_receive,),
    OPENING: (either_number, hears_3),
    RECEIVING: (accepted, ended),
    ASKING: (turned,),
    IDENTIFYING: (right_sum, answers_end_by_1, hears_3),
    ANSWERING: (told, asked_to_receive, ended),
}


def time_out(station, burst, offer):
    """01: "The 32nd makes it Lost and silent"; 02, T-05: "32 successive repetitions
    lead to stand-by"."""
    if station.count != LAST_COUNT or station.place not in GOES_ON_BY:
        return False
    if wrong_sum(station, burst, offer) and leads_away(station, burst):
        return False
    return not any(holds(station, burst, offer)
                   for holds in GOES_ON_BY[station.place])


def run_out(station, burst, offer):
    """128 call bursts are sent, and this burst neither completes the call nor stops
    it."""
    if station.place not in (CALLING, CALLING_3) or station.cycles < LAST_CALL_BURST:
        return False
    if hears_3(station, burst, offer):
        return False
    if station.place == CALLING:
        # The second of two like CS1 or CS2.
        return station.last == 0 or burst[0] != CONTROL_OF[station.last]
    return not (hears_4(station, burst, offer) or hears_5(station, burst, offer))


# --- What is judged of the words ---

def words_read(station, burst):
    """02: "Places that read one word judge that word only"."""
    if station.place in (SENDING, OPENING, ENDING, CALLING, CALLING_3, IDENTIFYING):
        return burst[:1]
    if station.place == TURNING and not station.master:
        return burst[:1]
    return burst


def bad_places(station, burst):
    """The places of the words read that are mutilated, in order."""
    return [place for place, word in enumerate(words_read(station, burst))
            if not intact(word)]


def rq_places(station, burst):
    """Likewise those of RQ."""
    return [place for place, word in enumerate(words_read(station, burst))
            if word == RQ]


def some_bad(station, burst, offer):
    return bad_places(station, burst) != []


def some_rq(station, burst, offer):
    return rq_places(station, burst) != []


def not_expected(station, burst, offer):
    """"other word not expected": any other burst that is not accepted."""
    return not accepted(station, burst, offer)


# --- The reason ---

# 02: "It is the first of these that holds: silent place, time-out, what the place's
# row names (own number, other number, at Opening either, CS3, RQ, beta alpha beta,
# alpha alpha alpha), earliest bad place and its word, earliest RQ, other word not
# expected, over heard, over offered, accepted."  With what T-02, T-05 and T-06 have
# added to the rows: a call that has run out behind the time-out, what their rows
# name among what is named, and "who are you" before the over offered.
REASONS = (
    ("silent", silent),
    ("time-out", time_out),
    ("run-out", run_out),
    ("called", called),
    ("call-offered", places_call),
    ("own", own_number),
    ("other", other_number),
    ("either", either_number),
    ("cs1", answers_end_by_1),
    ("cs3", hears_3),
    ("cs4", hears_4),
    ("cs5", hears_5),
    ("rq", asked_to_receive),
    ("turn", turned),
    ("alphas", ended),
    ("right-sum", right_sum),
    ("wrong-sum", wrong_sum),
    ("told", told),
    ("told-again", told_again),
    ("bad", some_bad),
    ("repeat", some_rq),
    ("unexpected", not_expected),
    ("over-heard", over_heard),
    ("who-are-you", who_are_you),
    ("over-offered", over_offered),
    ("accepted", accepted),
)


def beside(name, station, burst):
    """Of a bad word its place, from 0, and the word as it was heard; of RQ its
    place."""
    if name == "bad":
        place = bad_places(station, burst)[0]
        return place, burst[place]
    if name == "repeat":
        return (rq_places(station, burst)[0],)
    return ()


def reason(station, burst, offer):
    """The reason for the answer, Reason or Refused."""
    burst = tuple(burst)
    # "Refusals: 4 and 3 as for the step", and so 8 and 9 of T-02, T-05 and T-06.
    refusal = refusal_of(station, offer)
    if refusal is not None:
        return refusal
    for name, holds in REASONS:
        if holds(station, burst, offer):
            return Reason(name, beside(name, station, burst))
    raise AssertionError("no reason holds")


# --- A star in mode B ---

# Why an error is printed: "bad" or "unlike", with the two words as they were heard.
Star = namedtuple("Star", "name dx rx")


def copies(receiver, word):
    """The DX of the position that this word settles, and the word as its RX; None
    where it settles none, or one whose DX came before the lock."""
    if isinstance(receiver, Searching):
        return None
    if isinstance(receiver, InPhase):
        position = (receiver.number - 5) // 2
        if receiver.number % 2 == 0 or position not in receiver.dx:
            return None
        return receiver.dx[position], word
    # Of the three words behind the second alpha the first is an RX (02, T-03).
    return (receiver.dx, word) if receiver.wait == 3 else None


def star(receiver, word):
    """02: "For an error in mode B: both copies bad, or both good and unlike, with the
    two words."  Answers Star, None where no error is printed, or Refused."""
    if isinstance(receiver, Searching):
        refused = receiver.run > MOST_RUN
    else:
        refused = not isinstance(receiver, InPhase) and receiver.wait > MOST_WAIT
    if refused:
        return Refused(4, 0)
    pair = copies(receiver, word)
    # 01: "from then on traffic signals and error marks are printed".
    if pair is None or not receiver.printing:
        return None
    dx, rx = pair
    if not intact(dx) and not intact(rx):
        return Star("bad", dx, rx)
    # "RQ then alpha, phasing"
    if intact(dx) and intact(rx) and dx != rx and (dx, rx) != (RQ, ALPHA):
        return Star("unlike", dx, rx)
    return None
