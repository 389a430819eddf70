"""One station of mode A (paper 01, "The station, mode A"; 001, 3.3 to 3.7), its
calls (paper 02, T-02 and T-05; 001, 3.5), identification (02, T-05; 001, 3.6) and
the answer-back (02, T-06; 001, 3.7.13)."""

from collections import namedtuple
from functools import lru_cache

from refusal import Refused
from signals import (ALPHA, BETA, CS1, CS2, CS3, CS4, CS5, FIGURES, LETTERS, PLUS,
                     QUERY, RQ, WHO_ARE_YOU, check_sum, is_check_sum_signal,
                     is_identity_signal, is_traffic)

# An identity is four words, or seven.  A station without one has zeros.
NO_IDENTITY = (0, 0, 0, 0)
NO_SEVEN = (0, 0, 0, 0, 0, 0, 0)

# Who is at the other end, where that is nobody: the seven signals of a three-block
# call that failed, and that is not to be placed again at once.
Barred = namedtuple("Barred", "identity")

# 02, T-06: an answer-back code, so many of its 21 words.  Those behind the length
# are not looked at.
Code = namedtuple("Code", "length words")
WORDS_OF_CODE = 21
NO_CODE = Code(0, (0,) * WORDS_OF_CODE)

# What is owed of an answer: its kind is "back" where the direction is turned back
# behind it and "keep" where it is kept, the index that of the block to be sent
# next, from 0.
Owed = namedtuple("Owed", "kind index")

# A station.  `count`, `case`, `plus`, `own`, `own_seven`, `other_end`, `code` and
# `owed` are carried at every place:
#   master     True for a master, False for a slave
#   place      one of the twelve below
#   number     1 or 2: of the block held (Sending), of the last block (Turning),
#              under which the end is sent (Ending), awaited (Receiving); else 0
#   held       the block held at Sending; else three zeros
#   total      how often alpha alpha alpha has been sent, at Ending; else 0
#   count      the repetition count
#   case       "letters" or "figures": the case of the direction this station
#              receives.  What it sends itself does not move it.
#   plus       True when a + was heard that a ? would make an over
#   own        its own identity of four signals, which no step changes
#   other_end  who is at the other end: the four signals called, the seven that
#              identification has told, those of a call that is Barred, or None
#              for nobody
#   cycles     at Stand-by the steps left to wait, at Calling of either kind the
#              call bursts sent; else 0
#   last       at Stand-by which of its own two call blocks the last step heard,
#              at Calling which of CS1 and CS2: 1 or 2, 0 for neither; else 0
#   called     the identity called, at Calling; else four zeros
#   own_seven  its own identity of seven signals, which no step changes
#   blocks     at Stand-by the numbers of its own three call blocks heard in
#              succession up to the last step, as in RUNS_OF_BLOCKS; else none
#   stage      1 to 4 at Identifying and Answering; else 0
#   wrong      at Identifying how often a wrong check-sum has had the block of this
#              stage sent again; else 0
#   last_wrong the last wrong check-sum, at Identifying; else 0
#   seven      the identity called, at Calling with three blocks and Identifying;
#              the signals gathered so far, at Answering; else seven zeros
#   code       its answer-back code, which no step changes
#   owed       what is still to be sent of an answer, or None
Station = namedtuple("Station",
                     "master place number held total count case plus "
                     "own other_end cycles last called "
                     "own_seven blocks stage wrong last_wrong seven code owed",
                     defaults=(NO_IDENTITY, None, 0, 0, NO_IDENTITY,
                               NO_SEVEN, (), 0, 0, 0, NO_SEVEN, NO_CODE, None))

SENDING, TURNING, OPENING, ENDING = "sending", "turning", "opening", "ending"
RECEIVING, ASKING, STANDBY, LOST = "receiving", "asking", "standby", "lost"
CALLING = "calling"
# 02, T-05: Calling with three blocks, the master that identifies itself, and the
# slave that answers it.
CALLING_3, IDENTIFYING, ANSWERING = "calling3", "identifying", "answering"

# An offer: kind is "nothing", "text", "over", "end", "call" or "call of seven";
# words matter for text (three) and for a call (the four or seven of the identity).
Offer = namedtuple("Offer", "kind words")
CALLS = ("call", "call of seven")
NOTHING = Offer("nothing", (0, 0, 0))

# One step's answer: "the new station, a burst to send, up to three printed
# signals, and whether the offer was taken".
Answer = namedtuple("Answer", "station burst printed taken")

# What a row of the step finds: the answer as if there were no time-out, and
# whether a block was confirmed or accepted, which the repetition count needs.
Row = namedtuple("Row", "answer confirmed_or_accepted")

# "A burst is three words; a single signal is followed by two zero words,
# silence is three zeros."
SILENCE = (0, 0, 0)
ALPHAS = (ALPHA, ALPHA, ALPHA)
BETAS = (BETA, BETA, BETA)
TURN = (BETA, ALPHA, BETA)
OVER = (FIGURES, PLUS, QUERY)
THREE_RQ = (RQ, RQ, RQ)
CONTROL = {1: CS1, 2: CS2}
NO_BLOCK = (0, 0, 0)

MOST_COUNT = 31
MOST_ENDS = 4
# 02, T-02: "for at most 128 cycles", "waits 128 cycles in stand-by"
MOST_CALL_BURSTS = 128
CYCLES_TO_WAIT = 128
# 02, T-05: "A block goes out again no more than four times for wrong check-sums"
MOST_WRONG = 4
# 02, T-06: "The code has at most 20 signals"
MOST_OF_CODE = 20

# 001, 3.5.5: "the three call blocks in succession", in these orders; and what may
# have been heard of them before the last.
WHOLE_CALLS = ((1, 2, 3), (2, 3, 1))
RUNS_OF_BLOCKS = ((), (1,), (1, 2), (2,), (2, 3))


def single(word):
    return (word, 0, 0)


def other(number):
    return 3 - number


def may_stand_in_block(word):
    """Traffic or beta: in a block held, in a text offer, in a block heard."""
    return is_traffic(word) or word == BETA


def first_outside(identity):
    """The index of the first word outside table 3a, None where all stand in
    it."""
    for index, word in enumerate(identity):
        if not is_identity_signal(word):
            return index
    return None


def call_block(identity, number):
    """001, 3.5.3: "in the first, second and third character places
    respectively", in call block 1 "the first identification signal, the service
    information signal "signal repetition" and the second identification
    signal", in call block 2 "the third and the fourth identification signals of
    the called station and "signal repetition""."""
    if number == 1:
        return (identity[0], RQ, identity[1])
    return (identity[2], identity[3], RQ)


def call_block_of_seven(identity, number):
    """001, 3.5.3, "in the case of a 7-signal call identity": call block 1 as above,
    in call block 2 ""signal repetition", and the third and fourth identification
    signals", in call block 3 "the last three identification signals"."""
    if number == 1:
        return (identity[0], RQ, identity[1])
    if number == 2:
        return (RQ, identity[2], identity[3])
    return (identity[4], identity[5], identity[6])


def identification_block(identity, stage):
    """02, T-05: "Blocks: Y1 alpha Y2, alpha Y3 Y4, Y5 Y6 Y7, then RQ RQ RQ"."""
    if stage == 1:
        return (identity[0], ALPHA, identity[1])
    if stage == 2:
        return (ALPHA, identity[2], identity[3])
    if stage == 3:
        return (identity[4], identity[5], identity[6])
    return THREE_RQ


def fresh_master():
    """01: "A fresh master is Opening", with "count 0, letters case and no +
    heard"."""
    return Station(True, OPENING, 0, NO_BLOCK, 0, 0, "letters", False)


def fresh_slave():
    """01: "A fresh slave is Receiving, awaits 1, and its first burst is CS1."
    That first burst is no step: it is on the way when the run starts."""
    return Station(False, RECEIVING, 1, NO_BLOCK, 0, 0, "letters", False)


def standing_by(identity):
    """A station at Stand-by that can be called by this identity, with nothing to
    wait and nothing heard.  Answers Station or Refused."""
    # 02, T-02: "Refusals: 8, an identity signal outside table 3a"
    index = first_outside(identity)
    if index is not None:
        return Refused(8, index)
    return Station(False, STANDBY, 0, NO_BLOCK, 0, 0, "letters", False,
                   own=tuple(identity))


def standing_by_both(identity, seven):
    """The same with an identity of seven signals beside that of four."""
    # 02, T-05: "Refusals: 8 also for a self-identity".  The index is that in the
    # four and then the seven.
    index = first_outside(tuple(identity) + tuple(seven))
    if index is not None:
        return Refused(8, index)
    return standing_by(identity)._replace(own_seven=tuple(seven))


def with_code(station, code):
    """The station with this answer-back code, owing nothing.  Answers Station or
    Refused."""
    if not code_passes(code):
        return Refused(9, 0)
    return station._replace(code=code, owed=None)


# --- The answer-back code and the answer (02, T-06) ---

@lru_cache(maxsize=None)
def code_passes(code):
    """02, T-06: "9, a code over 20 signals, with a word that isn't traffic, or
    holding D in figures or an over from either case"."""
    if code.length > MOST_OF_CODE:
        return False
    signals = code.words[:code.length]
    for word in signals:
        if not is_traffic(word):
            return False
    for case in ("letters", "figures"):
        _, _, over, asked = listen(case, False, signals)
        if over or asked:
            return False
    return True


@lru_cache(maxsize=None)
def answer_blocks(code, kind):
    """The blocks of an answer: "sends its code, then two blocks of beta beta beta,
    and turns back by an over of its own; if the over stood in the same block, it
    keeps the direction".  Of a code that fills no whole block the last is filled
    with beta."""
    blocks = []
    for start in range(0, code.length, 3):
        signals = code.words[start:min(start + 3, code.length)]
        blocks.append(signals + (BETA,) * (3 - len(signals)))
    blocks.extend((BETAS, BETAS))
    if kind == "back":
        blocks.append(OVER)
    return blocks


# --- Refusals 8, 4, 9 and 3, judged at every place and whatever is heard ---

def refusal_of(station, offer):
    # 02, T-02: "8, an identity signal outside table 3a, checked before all others
    # at the call"
    if offer.kind == "call":
        index = first_outside(offer.words)
        if index is not None:
            return Refused(8, index)
    # 02, T-05: "8 also for a self-identity".  A three-block call tells it, so it is
    # judged there: the seven called and then the seven of its own.
    if offer.kind == "call of seven":
        index = first_outside(tuple(offer.words) + station.own_seven)
        if index is not None:
            return Refused(8, index)
    # "Order: ... mode A step 4, 3"
    if station.count > MOST_COUNT:
        return Refused(4, 0)
    if station.place == ENDING and not 1 <= station.total <= MOST_ENDS:
        return Refused(4, 0)
    if station.place == SENDING:
        for word in station.held:
            if not may_stand_in_block(word):
                return Refused(4, 0)
    if station.owed is not None:
        # 02, T-06: "the station's shape and 01's test of it change": a block is owed
        # that the answer does not have.
        if station.owed.index >= len(answer_blocks(station.code, station.owed.kind)):
            return Refused(4, 0)
    # "Refusals: 9, ... after 4"
    if not code_passes(station.code):
        return Refused(9, 0)
    if offer.kind == "text":
        for index, word in enumerate(offer.words):
            if not may_stand_in_block(word):
                return Refused(3, index)
    return None


# --- The rows, one for each place ---

def at(station, place, number=0, held=NO_BLOCK, total=0, cycles=0, last=0,
       called=NO_IDENTITY, stage=0, wrong=0, last_wrong=0, seven=NO_SEVEN):
    """The station moved to a place, with what that place carries.  With the move
    to Stand-by nobody is at the other end any more, and nothing is owed; an identity
    that is barred stays so, and has to wait from there on (001, 3.5.4, 3.5.7 and
    3.5.8)."""
    owed = station.owed
    if place == STANDBY:
        owed = None
    other_end = station.other_end
    if place == STANDBY:
        if isinstance(other_end, Barred):
            cycles = CYCLES_TO_WAIT
        else:
            other_end = None
    return Station(station.master, place, number, held, total, station.count,
                   station.case, station.plus, station.own, other_end, cycles,
                   last, called, station.own_seven, (), stage, wrong, last_wrong,
                   seven, station.code, owed)


def take(station, offer, number):
    """01: "Text gives that block, nothing gives beta beta beta, over gives
    figures + ?, end gives alpha alpha alpha and place Ending".  A call of either
    kind, which only Stand-by takes, gives beta beta beta too and is not taken.
    While an answer is owed its next block is what goes out."""
    if station.owed is not None:
        return take_owed(station, number)
    if offer.kind == "end":
        ending = at(station, ENDING, number, total=1)
        return Answer(ending, ALPHAS, (), True)
    if offer.kind == "text":
        block = tuple(offer.words)
    elif offer.kind == "over":
        block = OVER
    else:
        block = BETAS
    return Answer(at(station, SENDING, number, held=block), block, (),
                  offer.kind not in CALLS)


def take_owed(station, number):
    """02, T-06: "an operator's own offer ... waits meanwhile and is reported as not
    taken"."""
    kind, index = station.owed
    blocks = answer_blocks(station.code, kind)
    block = blocks[index]
    owed = None
    if index + 1 < len(blocks):
        owed = Owed(kind, index + 1)
    answering_back = at(station, SENDING, number, held=block)._replace(owed=owed)
    return Answer(answering_back, block, (), False)


def sending(station, burst, offer):
    # "reads the first word only"
    first = burst[0]
    if first == CONTROL[station.number]:
        # "Control signal of its own number: send the block again."
        return Row(Answer(station, station.held, (), False), False)
    if first == CONTROL[other(station.number)]:
        # "Of the other number: the block is confirmed; take the offer (nothing
        # counts as taken too), with the other number."
        return Row(take(station, offer, other(station.number)), True)
    if first == CS3:
        # "CS3: confirmed; send beta alpha beta, go to Turning."  No offer is
        # taken.  02, T-06: "the blocks of the answer not yet sent are then
        # dropped".
        station = station._replace(owed=None)
        turning_now = at(station, TURNING, station.number)
        return Row(Answer(turning_now, TURN, (), False), True)
    # "All else: send RQ RQ RQ."
    return Row(Answer(station, THREE_RQ, (), False), False)


def turning(station, burst, offer):
    # "Hears three RQ (if master) or RQ in the first word (if slave)"
    if station.master:
        asked = burst == THREE_RQ
    else:
        asked = burst[0] == RQ
    if asked:
        # "becomes Receiving, awaiting the number that its last block did not
        # have, and asks for it."  This step cancels a + heard earlier.
        awaited = other(station.number)
        receiving_now = at(station, RECEIVING, awaited)._replace(plus=False)
        return Row(Answer(receiving_now, single(CONTROL[awaited]), (), False),
                   False)
    if burst[0] == CS3:
        # "CS3 first: send beta alpha beta again."
        return Row(Answer(station, TURN, (), False), False)
    # "All else: RQ RQ RQ."
    return Row(Answer(station, THREE_RQ, (), False), False)


def request(station):
    """Opening's burst: "one RQ if master, three if slave"."""
    if station.master:
        return single(RQ)
    return THREE_RQ


def opening(station, burst, offer):
    # "reads the first word"
    first = burst[0]
    if first == CS1:
        # "CS1 or CS2: take the offer under that number, as above."
        return Row(take(station, offer, 1), False)
    if first == CS2:
        return Row(take(station, offer, 2), False)
    if first == CS3:
        # "CS3: go to Stand-by, silent."
        return Row(Answer(at(station, STANDBY), SILENCE, (), False), False)
    # "All else: one RQ if master, three if slave."
    return Row(Answer(station, request(station), (), False), False)


def ending(station, burst, offer):
    # "reads the first word"
    if burst[0] == CONTROL[other(station.number)]:
        # "The other number's control signal: Stand-by, silent."
        return Row(Answer(at(station, STANDBY), SILENCE, (), False), False)
    # "All else: alpha alpha alpha again; if it has been sent four times,
    # Stand-by, silent."
    if station.total == MOST_ENDS:
        return Row(Answer(at(station, STANDBY), SILENCE, (), False), False)
    again = at(station, ENDING, station.number, total=station.total + 1)
    return Row(Answer(again, ALPHAS, (), False), False)


def listen(case, plus, block):
    """Reads an accepted block for shifts and for the over: "? follows + in
    figures case with only beta between, within a block or across blocks; any
    other signal between cancels it"; and for "who are you", which is D in figures
    (02, T-06).  Answers case, plus, over heard, asked who it is."""
    over = False
    asked = False
    for word in block:
        if word == BETA:
            continue
        if word == LETTERS:
            case = "letters"
            plus = False
        elif word == FIGURES:
            # A shift cancels too, though the case may not change by it.
            case = "figures"
            plus = False
        elif case == "figures" and word == PLUS:
            plus = True
        elif case == "figures" and word == QUERY:
            over = over or plus
            plus = False
        elif case == "figures" and word == WHO_ARE_YOU:
            asked = True
            plus = False
        else:
            plus = False
    return case, plus, over, asked


def receiving(station, burst, offer):
    awaited = station.number
    next_number = other(awaited)
    if (may_stand_in_block(burst[0]) and may_stand_in_block(burst[1])
            and may_stand_in_block(burst[2])):
        # "Three intact words, each traffic or beta: accepted; the traffic
        # signals are printed"
        printed = tuple(word for word in burst if is_traffic(word))
        case, plus, over, asked = listen(station.case, station.plus, burst)
        heard = station._replace(case=case, plus=plus)
        if asked:
            # 02, T-06: "a receiver that prints D in figures turns the direction";
            # "if the over stood in the same block, it keeps the direction"; "an over
            # at the block with D too, waits meanwhile".
            owed = Owed("keep" if over else "back", 0)
            return Row(Answer(at(heard, ASKING)._replace(owed=owed), single(CS3),
                              printed, False), True)
        if over or offer.kind == "over":
            # "it sends CS3 and goes to Asking (an over offered then counts as
            # taken, no other offer does)."
            return Row(Answer(at(heard, ASKING), single(CS3), printed,
                              offer.kind == "over"), True)
        # "it awaits the other number and asks for it by CS1 or CS2."
        return Row(Answer(at(heard, RECEIVING, next_number),
                          single(CONTROL[next_number]), printed, False), True)
    if burst == ALPHAS:
        # "ask for the other number, go to Stand-by."
        return Row(Answer(at(station, STANDBY), single(CONTROL[next_number]),
                          (), False), False)
    # "All else, any RQ included: ask for n again."
    return Row(Answer(station, single(CONTROL[awaited]), (), False), False)


def asking(station, burst, offer):
    if burst == TURN:
        # "go to Opening and send RQ as there."  This step cancels a + heard.
        opening_now = at(station, OPENING)._replace(plus=False)
        return Row(Answer(opening_now, request(station), (), False), False)
    # "All else: CS3 again."
    return Row(Answer(station, single(CS3), (), False), False)


def own_call_block(station, burst):
    """Which of its own call blocks the burst is: 1 or 2, 0 for neither.  A
    station whose own identity has a word outside table 3a hears no call."""
    if first_outside(station.own) is None:
        for number in (1, 2):
            if burst == call_block(station.own, number):
                return number
    return 0


def own_call_block_of_seven(station, burst):
    """Likewise, of its own three call blocks of seven signals: 1, 2 or 3."""
    if first_outside(station.own_seven) is None:
        for number in (1, 2, 3):
            if burst == call_block_of_seven(station.own_seven, number):
                return number
    return 0


def blocks_in_succession(station, burst):
    """The call blocks of seven signals heard in successive steps, this burst the
    last of them: the longest run that one of the two orders begins with."""
    heard = station.blocks + (own_call_block_of_seven(station, burst),)
    for first in range(len(heard)):
        if heard[first:] in RUNS_OF_BLOCKS + WHOLE_CALLS:
            return heard[first:]
    return ()


def begin_call(station):
    """What is forgotten where a call is answered or placed: a circuit starts
    with letters case and no + heard, nobody is at the other end yet, and nothing is
    owed."""
    return station._replace(case="letters", plus=False, other_end=None, owed=None)


def standby(station, burst, offer):
    # 02, T-02: "01's Stand-by row is amended: it hears and places calls."
    heard = own_call_block(station, burst)
    if heard != 0 and station.last == other(heard):
        # "The slave answers CS1 after both blocks in succession."  In either
        # order, and while it waits too; the offer is not taken.
        answering = begin_call(at(station, RECEIVING, 1)._replace(master=False))
        return Row(Answer(answering, single(CS1), (), False), False)
    blocks = blocks_in_succession(station, burst)
    if blocks in WHOLE_CALLS:
        # 001, 3.5.5: "following the reception of the three call blocks in
        # succession after which it sends "control signal 4"".  While it waits too;
        # the offer is not taken.
        answering_now = begin_call(at(station, ANSWERING, stage=1)
                                   ._replace(master=False))
        return Row(Answer(answering_now, single(CS4), (), False), False)
    if offer.kind == "call" and station.cycles == 0:
        # "the master sends call blocks 1 and 2 in turn": the first goes out
        # here, and the offer is taken.
        identity = tuple(offer.words)
        calling_now = begin_call(at(station, CALLING, cycles=1, called=identity)
                                 ._replace(master=True))
        return Row(Answer(calling_now, call_block(identity, 1), (), True), False)
    if offer.kind == "call of seven":
        # 001, 3.5.4: "waits for a time of at least 128 cycles before sending the
        # same "call signal" again".  Another one may be sent at once.
        identity = tuple(offer.words)
        if station.cycles == 0 or station.other_end != Barred(identity):
            calling_now = begin_call(at(station, CALLING_3, cycles=1, seven=identity)
                                     ._replace(master=True))
            return Row(Answer(calling_now, call_block_of_seven(identity, 1), (),
                              True), False)
    # Silent, "no offer taken".  One step less is left to wait.
    left = max(station.cycles - 1, 0)
    return Row(Answer(station._replace(cycles=left, last=heard, blocks=blocks),
                      SILENCE, (), False), False)


def lost(station, burst, offer):
    # "Lost: silent for good, no offer taken."
    return Row(Answer(station, SILENCE, (), False), False)


def calling(station, burst, offer):
    # It reads the first word.
    first = burst[0]
    heard = 0
    if first == CS1:
        heard = 1
    if first == CS2:
        heard = 2
    if heard != 0 and station.last == heard:
        # 02, T-02: "goes on to traffic on two successive identical CS1 or CS2".
        # As at Opening: the offer is taken under that number.
        reached = station._replace(other_end=station.called)
        return Row(take(reached, offer, heard), False)
    if first == CS3 or station.cycles >= MOST_CALL_BURSTS:
        # "on CS3 waits 128 cycles in stand-by"; 001, 3.5.4: "if the circuit has
        # not been established within 128 cycles" too.
        waiting = at(station, STANDBY, cycles=CYCLES_TO_WAIT)
        return Row(Answer(waiting, SILENCE, (), False), False)
    # "call blocks 1 and 2 in turn for at most 128 cycles": the first burst, the
    # third and so on are block 1.
    sent = station.cycles + 1
    block = call_block(station.called, 1 if sent % 2 == 1 else 2)
    again = at(station, CALLING, cycles=sent, last=heard, called=station.called)
    return Row(Answer(again, block, (), False), False)


def calling_three(station, burst, offer):
    # It reads the first word.  CS1 and CS2 answer calls of four signals alone.
    first = burst[0]
    if first == CS4:
        # 001, 3.6.1: "On receipt of "control signal 4" the calling station changes
        # to the ISS condition and starts the identification procedure."
        identifying_now = at(station, IDENTIFYING, stage=1, seven=station.seven)
        return Row(Answer(identifying_now,
                          identification_block(station.own_seven, 1), (), False),
                   False)
    barred = station._replace(other_end=Barred(station.seven))
    if first == CS5:
        # 001, 3.5.8: "starts the "end-of-communication" procedure", and waits when
        # that is over.  CS1 confirms it.
        return Row(Answer(at(barred, ENDING, 2, total=1), ALPHAS, (), False), False)
    if first == CS3 or station.cycles >= MOST_CALL_BURSTS:
        # 001, 3.5.7 and 3.5.4.
        return Row(Answer(at(barred, STANDBY), SILENCE, (), False), False)
    # The three blocks in turn.
    block = call_block_of_seven(station.seven, station.cycles % 3 + 1)
    again = at(station, CALLING_3, cycles=station.cycles + 1, seven=station.seven)
    return Row(Answer(again, block, (), False), False)


def identifying(station, burst, offer):
    # It reads the first word.
    first = burst[0]
    stage = station.stage
    block = identification_block(station.own_seven, stage)
    if stage == 4:
        known = station._replace(other_end=station.seven)
        if first == CS1:
            # 001, 3.6.10: "ends the identification cycle and starts the traffic
            # flow by transmitting "information block 1"".  As at Opening.
            return Row(take(known, offer, 1), False)
        if first == CS3:
            # 001, 3.6.11: "starts the traffic flow with the change-over procedure".
            # It is to ask for 1, so its last block counts as 2.
            return Row(Answer(at(known, TURNING, 2), TURN, (), False), False)
    elif first == check_sum(station.seven, stage):
        # 001, 3.6.4, 3.6.6 and 3.6.8: the next block.
        following = at(station, IDENTIFYING, stage=stage + 1, seven=station.seven)
        return Row(Answer(following,
                          identification_block(station.own_seven, stage + 1), (),
                          False), True)
    elif is_check_sum_signal(first):
        if station.wrong > 0 and first == station.last_wrong:
            # 001, 3.6.12: "If they are still not identical, and the received
            # check-sum signal is the same as the previous one, the calling station
            # initiates the "end of communication" procedure".
            return Row(Answer(at(station, ENDING, 2, total=1), ALPHAS, (), False),
                       False)
        if station.wrong >= MOST_WRONG:
            # "after which, if the required check-sum signal is still not received,
            # the calling station reverts to the "stand-by" condition"
            return Row(Answer(at(station, STANDBY), SILENCE, (), False), False)
        # "otherwise the calling station transmits the previous identification block
        # again"
        again = station._replace(wrong=station.wrong + 1, last_wrong=first)
        return Row(Answer(again, block, (), False), False)
    # 001, 3.6.13 and 3.6.15: the block again.
    return Row(Answer(station, block, (), False), False)


# 001, 3.6.2, 3.6.4 and 3.6.6: of an identification block the places of its letters,
# and which of the seven signals they are.
LETTERS_OF_BLOCK = {1: ((0, 2), (0, 1)), 2: ((1, 2), (2, 3)), 3: ((0, 1, 2), (4, 5, 6))}


def identification_heard(burst):
    """The number of the identification block that the burst is, 0 for none: X alpha
    X is 1, alpha X X is 2, X X X is 3, each X of table 3a."""
    for number, (places, _) in LETTERS_OF_BLOCK.items():
        if all(is_identity_signal(word) if place in places else word == ALPHA
               for place, word in enumerate(burst)):
            return number
    return 0


def gathered_with(gathered, burst, number):
    """The seven signals with those of this identification block in their place."""
    words = list(gathered)
    for place, index in zip(*LETTERS_OF_BLOCK[number]):
        words[index] = burst[place]
    return tuple(words)


def answering(station, burst, offer):
    stage = station.stage
    if burst == ALPHAS:
        # 001, 3.6.17: "it sends a "control signal 1" and reverts to the "stand-by"
        # condition".
        return Row(Answer(at(station, STANDBY), single(CS1), (), False), False)
    if burst == THREE_RQ and stage == 4:
        known = station._replace(other_end=station.seven)
        if offer.kind == "over":
            # 001, 3.6.9: ""control signal 3", if the called station is required to
            # start the traffic flow".  The over is taken.
            return Row(Answer(at(known, ASKING), single(CS3), (), True), False)
        # ""control signal 1", thus starting the traffic flow".
        return Row(Answer(at(known, RECEIVING, 1), single(CS1), (), False), False)
    number = identification_heard(burst)
    if number == stage:
        # 001, 3.6.3, 3.6.5 and 3.6.7: "On receipt of "identification block 1" the
        # called station sends "check-sum signal 1", derived from its identity."
        seven = gathered_with(station.seven, burst, number)
        return Row(Answer(at(station, ANSWERING, stage=stage + 1, seven=seven),
                          single(check_sum(station.own_seven, number)), (), False),
                   True)
    if number != 0 and number == stage - 1:
        # 001, 3.6.12: "sends the appropriate check-sum signal once more"; 3.6.16: if
        # they "are not identical, the called station sends "signal repetition" until
        # two identical consecutive identification blocks are received".
        seven = gathered_with(station.seven, burst, number)
        word = RQ
        if seven == station.seven:
            word = check_sum(station.own_seven, number)
        return Row(Answer(station._replace(seven=seven), single(word), (), False),
                   False)
    # 001, 3.5.5: "it sends "control signal 4" until "identification block 1" has been
    # received"; 3.6.14: "it transmits a "signal repetition"".
    return Row(Answer(station, single(CS4 if stage == 1 else RQ), (), False), False)


ROWS = {
    SENDING: sending,
    TURNING: turning,
    OPENING: opening,
    ENDING: ending,
    RECEIVING: receiving,
    ASKING: asking,
    STANDBY: standby,
    LOST: lost,
    CALLING: calling,
    CALLING_3: calling_three,
    IDENTIFYING: identifying,
    ANSWERING: answering,
}

# 02, T-05 adds the last two.
COUNTING = (SENDING, TURNING, OPENING, RECEIVING, ASKING, IDENTIFYING, ANSWERING)


# --- The step ---

def step(station, burst, offer):
    """One step: "hear a burst, take an offer".  Answers Answer or Refused."""
    refusal = refusal_of(station, offer)
    if refusal is not None:
        return refusal

    answer, confirmed_or_accepted = ROWS[station.place](
        station, tuple(burst), offer)

    # "Repetition count: steps in a row, at Sending, Turning, Opening,
    # Receiving or Asking, in which the station neither changes place, nor
    # confirms, nor accepts."  At Identifying and Answering the step to the next
    # stage is one that confirms or accepts.
    repetition = (station.place in COUNTING
                  and answer.station.place == station.place
                  and not confirmed_or_accepted)
    if not repetition:
        # "Then, and after every other step, the count is 0."
        return answer._replace(station=answer.station._replace(count=0))
    count = station.count + 1
    if count == MOST_COUNT + 1 and station.place in (IDENTIFYING, ANSWERING):
        # 02, T-05: "32 successive repetitions lead to stand-by".
        resting = at(station, STANDBY)._replace(count=0)
        return Answer(resting, SILENCE, (), False)
    if count == MOST_COUNT + 1:
        # "The 32nd makes it Lost and silent, with no offer taken."
        lost_now = at(station, LOST)._replace(count=0)
        return Answer(lost_now, SILENCE, (), False)
    return answer._replace(station=answer.station._replace(count=count))
