"""The seven-unit code (paper 01, "The code"; paper 001, tables 1, 2, 3a and 3b).

In quotations from 01, here and in the other modules, the Greek letters are
spelt out.
"""

# The 32 traffic signals in 01's order, which gives them the numbers 1 to 32.
# Columns: what it prints in letters case, in figures case, its units with the
# unit sent first on the left.  None: prints no character of its own.
# \x05 is "who are you", \x07 is the bell.
TRAFFIC_ROWS = [
    ("A", "-", "BBBYYYB"),
    ("B", "?", "YBYYBBB"),
    ("C", ":", "BYBBBYY"),
    ("D", "\x05", "BBYYBYB"),
    ("E", "3", "YBBYBYB"),
    ("F", None, "BBYBBYY"),
    ("G", None, "BYBYBBY"),
    ("H", None, "BYYBYBB"),
    ("I", "8", "BYBBYYB"),
    ("J", "\x07", "BBBYBYY"),
    ("K", "(", "YBBBBYY"),
    ("L", ")", "BYBYYBB"),
    ("M", ".", "BYYBBBY"),
    ("N", ",", "BYYBBYB"),
    ("O", "9", "BYYYBBB"),
    ("P", "0", "BYBBYBY"),
    ("Q", "1", "YBBBYBY"),
    ("R", "4", "BYBYBYB"),
    ("S", "'", "BBYBYYB"),
    ("T", "5", "YYBYBBB"),
    ("U", "7", "YBBBYYB"),
    ("V", "=", "YYBBBBY"),
    ("W", "2", "BBBYYBY"),
    ("X", "/", "YBYBBBY"),
    ("Y", "6", "BBYBYBY"),
    ("Z", "+", "BBYYYBB"),
    ("\r", "\r", "YYYBBBB"),     # 27 carriage return
    ("\n", "\n", "YYBBYBB"),     # 28 line feed
    (None, None, "YBYBBYB"),     # 29 letters
    (None, None, "YBBYBBY"),     # 30 figures
    (" ", " ", "YYBBBYB"),       # 31 space
    (None, None, "YBYBYBB"),     # 32 blank
]

# The three service signals, numbers 33 to 35.
SERVICE_ROWS = [
    "BBBBYYY",                   # 33 alpha
    "BBYYBBY",                   # 34 beta
    "YBBYYBB",                   # 35 RQ
]


def word_of(units):
    """The byte of seven units: "The unit sent first is bit 0, B is 1, Y is 0,
    bit 7 is 0"."""
    word = 0
    for place, unit in enumerate(units):
        if unit == "B":
            word = word + (1 << place)
    return word


def traffic_word(number):
    """The word of traffic signal `number`, 1 to 32."""
    return word_of(TRAFFIC_ROWS[number - 1][2])


CARRIAGE_RETURN = traffic_word(27)
LINE_FEED = traffic_word(28)
LETTERS = traffic_word(29)
FIGURES = traffic_word(30)
SPACE = traffic_word(31)
BLANK = traffic_word(32)
ALPHA = word_of(SERVICE_ROWS[0])
BETA = word_of(SERVICE_ROWS[1])
RQ = word_of(SERVICE_ROWS[2])

# "Control signals share words with traffic: CS1 = L, CS2 = blank, CS3 = N."
# Which of the two is meant depends on the place that hears the word.
CS1 = traffic_word(12)
CS2 = BLANK
CS3 = traffic_word(14)
# 001, table 2: the two that only three-block calls know (02, T-05).  They are the
# words of G and H.
CS4 = traffic_word(7)
CS5 = traffic_word(8)

# In figures case, Z is + and B is ?, and D is "who are you".
PLUS = traffic_word(26)
QUERY = traffic_word(2)
WHO_ARE_YOU = traffic_word(4)

# "The error mark is byte 255 in a list of signals."  It is no word of the code.
ERROR_MARK = 255


def intact(word):
    """01: "A word is intact when it is below 128 and has exactly four ones;
    otherwise it is mutilated"."""
    return word < 128 and bin(word).count("1") == 4


def meanings():
    """01: "A table of 256 entries, one for each byte, with the signal's number
    (1 to 32 in the order above, alpha 33, beta 34, RQ 35) or 0 for
    mutilated"."""
    table = [0] * 256
    for number in range(1, 33):
        table[traffic_word(number)] = number
    for number in range(33, 36):
        table[word_of(SERVICE_ROWS[number - 33])] = number
    return table


MEANING = meanings()


def is_traffic(word):
    """01: "These 32 are traffic signals"."""
    return 1 <= MEANING[word] <= 32


# 001, table 3a: the letters that an identity is made of (02, T-02: "The identity
# letters are those of table 3a").
IDENTITY_LETTERS = "ABCDEFIKMOPQRSTUVXYZ"

IDENTITY_SIGNALS = [word_of(units) for letter, _, units in TRAFFIC_ROWS
                    if letter is not None and letter in IDENTITY_LETTERS]


def is_identity_signal(word):
    return word in IDENTITY_SIGNALS


# 001, table 3a: the number of each letter.
IDENTITY_NUMBERS = {
    "A": 19, "B": 11, "C": 6, "D": 18, "E": 13, "F": 8, "I": 15, "K": 3, "M": 4,
    "O": 14, "P": 5, "Q": 2, "R": 16, "S": 9, "T": 10, "U": 12, "V": 0, "X": 1,
    "Y": 7, "Z": 17}

# 001, table 3b: the letters of the check-sum numbers 0 to 19.
CHECK_SUM_LETTERS = "VXQKMPCYFSTBUEOIRZDA"

WORD_OF_LETTER = {letter: word_of(units) for letter, _, units in TRAFFIC_ROWS}
NUMBER_OF_WORD = {WORD_OF_LETTER[letter]: number
                  for letter, number in IDENTITY_NUMBERS.items()}
CHECK_SUM_SIGNALS = [WORD_OF_LETTER[letter] for letter in CHECK_SUM_LETTERS]


def is_check_sum_signal(word):
    return word in CHECK_SUM_SIGNALS


def check_sum(identity, number):
    """Check-sum signal 1, 2 or 3 of seven identity signals.  001, 2.5: "The three
    numbers N1, N2 and N3 are added and the sum is translated into one check-sum
    number CN1 using modulo 20-addition", and so N3, N4, N5 and N5, N6, N7.  A word
    outside table 3a counts 0."""
    first = 2 * (number - 1)
    added = sum(NUMBER_OF_WORD.get(word, 0) for word in identity[first:first + 3])
    return CHECK_SUM_SIGNALS[added % 20]
