"""Mode B, collective: sender and receiver (paper 01, "Mode B"; 001, 4.2 to
4.6; 02, T-03)."""

from collections import namedtuple

from refusal import Refused
from signals import (ALPHA, CARRIAGE_RETURN, ERROR_MARK, LINE_FEED, RQ, intact,
                     is_traffic)

MOST_SIGNALS = 8192


# --- The sender ---

# A position: its word in DX and its word in RX.
PHASING = (RQ, ALPHA)        # "A phasing position is RQ in DX, alpha in RX."
IDLE = (ALPHA, ALPHA)


def positions(text):
    """01: "Order sent: 16 phasing positions, return, line feed, the text; after
    each 96 traffic positions (return and line feed counted), if more text
    remains, four phasing positions; then 17 alpha positions"."""
    order = [PHASING] * 16
    order.append((CARRIAGE_RETURN, CARRIAGE_RETURN))
    order.append((LINE_FEED, LINE_FEED))
    traffic = 2
    for word in text:
        # A text signal is still to come here, so "more text remains".
        if traffic % 96 == 0:
            order.extend([PHASING] * 4)
        order.append((word, word))
        traffic = traffic + 1
    order.extend([IDLE] * 17)
    return order


def slots(text):
    """The word of every slot.  "Position t goes out first (DX) in slot 2t and
    again (RX) in slot 2t+5 ... Before position 0, RX slots carry alpha ... The
    last slot is number 2t+1, where t is the last position; RX copies due later
    are not sent"."""
    order = positions(text)
    words = []
    for t, (dx, _) in enumerate(order):
        words.append(dx)                      # slot 2t
        if t < 2:
            words.append(ALPHA)               # slots 1 and 3
        else:
            words.append(order[t - 2][1])     # slot 2t+1 = 2(t-2)+5
    return words


def text_refusal(text):
    # "Order: ... mode B slot 7, 3, 6": here 7 and 3.
    if len(text) > MOST_SIGNALS:
        return Refused(7, MOST_SIGNALS)
    for index, word in enumerate(text):
        if not is_traffic(word):
            return Refused(3, index)
    return None


def slot(text, number):
    """The word of one slot, or Refused."""
    refusal = text_refusal(text)
    if refusal is not None:
        return refusal
    words = slots(text)
    if number >= len(words):
        return Refused(6, len(words))
    return words[number]


# --- The receiver ---

# While it searches: `run` signals in a row alternate alpha and RQ, the last of
# them is `last`.  In phase: `number` is the number of the next slot, even for
# DX, counted by the receiver itself; `dx` maps the positions that wait for
# their RX to the DX word heard; `printing` tells whether printing has begun.
# While it waits behind the two alpha that end reception: `wait` words are still
# to come; `dx` is the DX word of the position that waits for its RX, None where
# that has been heard; `printing` as before.
Searching = namedtuple("Searching", "run last")
InPhase = namedtuple("InPhase", "number dx printing")
Waiting = namedtuple("Waiting", "wait dx printing")

# A settled position: a signal's word, or one of these.
SETTLED_PHASING = "phasing"
SETTLED_ERROR = "error"

MOST_RUN = 3                 # a fourth signal ends the search
MOST_WAIT = 3                # "three more signals after the second alpha"


def fresh_receiver():
    return Searching(0, None)


def hear_word(receiver, word):
    """One step: "hears one word and answers the receiver and at most one
    printed signal, 255 for an error".  Answers (receiver, printed), printed
    None for none, or Refused."""
    if isinstance(receiver, Searching):
        if receiver.run > MOST_RUN:
            # "receiver with a search run over 3"
            return Refused(4, 0)
        return search(receiver, word), None
    if isinstance(receiver, Waiting):
        if receiver.wait > MOST_WAIT:
            # 02, T-03: "4 also for a remaining wait over three"
            return Refused(4, 0)
        return hear_waiting(receiver, word)
    if receiver.number % 2 == 0:
        return hear_dx(receiver, word)
    return hear_rx(receiver, word)


def search(receiver, word):
    # "It searches until four intact signals in a row alternate alpha and RQ"
    if word not in (ALPHA, RQ):
        return Searching(0, None)
    if receiver.run > 0 and word != receiver.last:
        run = receiver.run + 1
    else:
        run = 1
    if run <= MOST_RUN:
        return Searching(run, word)
    # "RQ marks DX."  The fourth signal only ends the search.  It gets slot
    # number 6 if it is RQ and 7 if it is alpha, so that either way the two RQ
    # among the four stand in slots 4 and 6: positions 2 and 3.
    if word == RQ:
        last_slot = 6
    else:
        last_slot = 7
    return InPhase(last_slot + 1, {2: RQ, 3: RQ}, False)


def hear_dx(receiver, word):
    t = receiver.number // 2
    before = receiver.dx
    if word == ALPHA and before.get(t - 1) == ALPHA:
        # "Two successive intact alpha in DX end reception": after three more
        # words.  The one position before them has not been settled.
        return Waiting(MOST_WAIT, before[t - 2], receiver.printing), None
    dx = dict(before)
    dx[t] = word
    return InPhase(receiver.number + 1, dx, receiver.printing), None


def hear_rx(receiver, word):
    t = (receiver.number - 5) // 2
    if t in receiver.dx:
        settled = settle(receiver.dx[t], word)
    else:
        # "Positions whose DX came before those four signals count as phasing."
        settled = SETTLED_PHASING
    dx = dict(receiver.dx)
    dx.pop(t, None)
    printing, printed = print_settled(receiver.printing, settled)
    return InPhase(receiver.number + 1, dx, printing), printed


def hear_waiting(receiver, word):
    """02, T-03: "The receiver shall hear three more signals after the second
    alpha and settle the waiting position in the ordinary way"; then, by 01, it
    "searches anew".  The second and the third word are heard and no more."""
    printing, printed = receiver.printing, None
    if receiver.wait == MOST_WAIT:
        # "the last position's RX copy is the very next signal"
        settled = settle(receiver.dx, word)
        printing, printed = print_settled(printing, settled)
    if receiver.wait == 1:
        return fresh_receiver(), printed
    return Waiting(receiver.wait - 1, None, printing), printed


def settle(dx, rx):
    """01: "both copies intact and alike, that signal; RQ then alpha, phasing; only
    one intact, that one; otherwise an error"."""
    if intact(dx) and intact(rx) and dx == rx:
        return dx
    if dx == RQ and rx == ALPHA:
        return SETTLED_PHASING
    if intact(dx) and not intact(rx):
        return dx
    if intact(rx) and not intact(dx):
        return rx
    return SETTLED_ERROR


def print_settled(printing, settled):
    """01: "Printing begins with the first settled return or line feed, which is
    printed; from then on traffic signals and error marks are printed."
    Answers whether printing has begun, and the signal printed or None."""
    if settled in (CARRIAGE_RETURN, LINE_FEED):
        return True, settled
    if not printing or settled == SETTLED_PHASING:
        return printing, None
    if settled == SETTLED_ERROR:
        return True, ERROR_MARK
    if is_traffic(settled):
        return True, settled
    return True, None
