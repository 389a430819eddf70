"""Characters to signals and back (paper 01, "Text"; small letters: paper 02,
T-01).

Both calls are given a case to start in and a lent room (a bytearray), and
answer `Written` or `Refused`.  A refusal writes nothing; on success "room
beyond the part written is untouched".

Encoding takes small letters as the capitals.  Printing what was encoded, from
the same case, gives the text in capitals: a caller that wants it as it was typed
has to keep it.
"""

from collections import namedtuple

from refusal import Refused
from signals import (ERROR_MARK, FIGURES, LETTERS, TRAFFIC_ROWS, is_traffic,
                     MEANING, word_of)

MOST_CHARACTERS = 4096
MOST_SIGNALS = 8192

# "Both answer how many bytes they wrote and the case they end in."
# case is "letters" or "figures".
Written = namedtuple("Written", "length case")

SHIFT = {"letters": LETTERS, "figures": FIGURES}


def signals_of_characters():
    """01: "Capitals, the figures above, 13, 10, 32, 5 (who are you) and 7 (bell)
    have signals; no other byte does."  From byte to (case needed, word);
    the case is None for return, line feed and space, which "need none"."""
    table = {}
    for letter, figure, units in TRAFFIC_ROWS:
        word = word_of(units)
        if letter is not None and letter == figure:
            table[ord(letter)] = (None, word)
            continue
        if letter is not None:
            table[ord(letter)] = ("letters", word)
        if figure is not None:
            table[ord(figure)] = ("figures", word)
    return table


SIGNAL_OF = signals_of_characters()


def raised(character):
    """02, T-01: "Encoding is to take a to z as the capitals".  These 26 bytes and
    no other: 96 and 123 beside them have no signal, and no byte over 127 has one.
    A letter with a mark is none of the 26, and is not guessed at."""
    if ord("a") <= character <= ord("z"):
        return character - ord("a") + ord("A")
    return character


def encode(case, characters, room):
    # "Order: encoding 5, 1, 2"
    if len(characters) > MOST_CHARACTERS:
        return Refused(5, MOST_CHARACTERS)
    # The index is that in the text as it was typed, every character counted.
    for index, character in enumerate(characters):
        if raised(character) not in SIGNAL_OF:
            return Refused(1, index)

    signals = []
    for character in characters:
        needed, word = SIGNAL_OF[raised(character)]
        # "A shift is put in only where the next letter or figure needs the
        # other case": directly before it, so after the space of "A 1".
        if needed is not None and needed != case:
            signals.append(SHIFT[needed])
            case = needed
        signals.append(word)

    if len(signals) > len(room):
        return Refused(2, len(signals))
    room[:len(signals)] = bytes(signals)
    return Written(len(signals), case)


def printed_in_letters(word):
    """The rule for letters case: the byte printed (None for none) and the case
    that prints the next signal."""
    if word == ERROR_MARK:
        return 42, "letters"
    if word == FIGURES:
        return None, "figures"
    # The letters signal stays here: a shift names a case and toggles nothing.
    letter = TRAFFIC_ROWS[MEANING[word] - 1][0]
    if letter is None:
        # "Shifts and blank print no byte."
        return None, "letters"
    return ord(letter), "letters"


def printed_in_figures(word):
    """The rule for figures case, likewise."""
    if word == ERROR_MARK:
        return 42, "figures"
    if word == LETTERS:
        return None, "letters"
    letter, figure, _ = TRAFFIC_ROWS[MEANING[word] - 1]
    if figure is None and letter is not None:
        # "F, G, H in figures print 35."
        return 35, "figures"
    if figure is None:
        return None, "figures"
    return ord(figure), "figures"


RULE = {"letters": printed_in_letters, "figures": printed_in_figures}


def print_signals(case, signals, room):
    # "Order: ... printing 7, 3, 2"
    if len(signals) > MOST_SIGNALS:
        return Refused(7, MOST_SIGNALS)
    for index, word in enumerate(signals):
        if not is_traffic(word) and word != ERROR_MARK:
            return Refused(3, index)

    printed = []
    for word in signals:
        byte, case = RULE[case](word)
        if byte is not None:
            printed.append(byte)

    # The room needed is counted in bytes printed, not in signals.
    if len(printed) > len(room):
        return Refused(2, len(printed))
    room[:len(printed)] = bytes(printed)
    return Written(len(printed), case)
