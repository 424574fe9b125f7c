"""Prints input and output of the program `text_vectors` (docs/PROGRAMS.md), computed by the model.

With the argument `stdin` it prints the lines that the program reads, with `stdout` what it prints for
them. Both are the same in each run.
"""

import random
import sys

import text_model
from model import Lattice
from samples import digest

chance = random.Random(1)


# --- The lines of the input -----------------------------------------------------------------------

FIRSTS = [1, 2, 7, 100, 4294967295]
LARGEST_FIRST = 4294967296

# Kind, number of the first line, size of the memory, text; in their order, and none twice.
vectors = []
seen = set()


def add(kind, text, size, first):
    vector = (kind, first, size, text)
    if vector not in seen:
        seen.add(vector)
        vectors.append(vector)


def add_script(text, first=None):
    # a script needs no memory, so its size must not matter
    size = chance.choice([0, 0, 0, 1, 64, 20000])
    add("script", text, size, first if first is not None else chance.choice(FIRSTS))


def add_board(text, size, first=None):
    add("board", text, size, first if first is not None else chance.choice(FIRSTS))


def text_of(*lines):
    """A text of these lines, written with a space for each tab."""
    return b"".join(line.replace(" ", "\t").encode("latin-1") + b"\n" for line in lines)


def text_of_lines(lines):
    return b"".join(line + b"\n" for line in lines)


# --- Good scripts ---------------------------------------------------------------------------------

SOME_NUMBERS = [0, 1, 2, 7, 9, 10, 11, 19, 99, 100, 101, 255, 256, 1000, 9999, 10000, 99999, 100000, 999999]


def any_number():
    if chance.randrange(2) == 0:
        return chance.choice(SOME_NUMBERS)
    return chance.randrange(10 ** chance.randrange(1, 7))


def step():
    return ("step", chance.choice([1, -1]) * any_number())


def flip():
    return ("flip", any_number(), any_number(), any_number())


def at_rest():
    """One record that is permitted at rest, and leaves the state at rest."""
    return chance.choice([step(), ("undo",), ("redo",)])


def in_session():
    return chance.choice([flip(), flip(), ("clear",)])


def session():
    return [("open",)] + [in_session() for _ in range(chance.randrange(5))] + [("close",)]


def good_records(parts):
    """Records of a good script: so many parts, of which each is a record or a session."""
    records = []
    for _ in range(parts):
        records += session() if chance.randrange(3) == 0 else [at_rest()]
    return records


def good_script(parts):
    return text_model.script_written(good_records(parts))


for first in [LARGEST_FIRST] + FIRSTS:
    add_script(b"", first)
    add_script(text_of("undo"), first)
    add_script(text_of("open", "flip 1 2 3", "clear", "flip 0 0 255", "close"), first)
for record in ["undo", "redo"]:
    add_script(text_of(record))
    add_script(text_of(record, record))
for value in SOME_NUMBERS:
    add_script(text_of(f"step {value}"))
    if value > 0:
        add_script(text_of(f"step -{value}"))
    add_script(text_of("open", f"flip {value} 0 0", f"flip 0 {value} 0", f"flip 0 0 {value}", "close"))
add_script(text_of("open", "close"))
add_script(text_of("open", "close", "open", "close"))
add_script(text_of("open", "clear", "close"))
add_script(text_of("open", "clear", "clear", "close", "undo", "redo"))
add_script(text_of("step 1", "open", "flip 0 0 1", "close", "step -1"))
add_script(text_of("open", "flip 999999 999999 999999", "close"))
for parts in range(1, 10):
    for _ in range(5):
        add_script(good_script(parts))
add_script(good_script(100))


# --- Scripts with one fault at a chosen place -----------------------------------------------------

BAD_AT_REST = [
    # 23
    "", "stop", "steps 1", "ste 1", "tep 1", "UNDO", "Undo", "undO", "undo\r", "undo\x00", "\x00undo", "\xffundo",
    " undo", " ", "un do", "row 00", "board 2 2 0", "map bbm", "1", "Step 1", "STEP 1", "open\r", "\r", "\x00",
    "\x80",
    # 24
    "step", "step 1 2", "step 1 ", "step  1", "step x y", "undo 1", "undo ", "undo  ", "redo 0", "redo ",
    "open ", "open 1",
    # 24 before 25
    "flip", "flip 0", "flip 0 0", "flip 0 0 1 1", "flip 0 0 1 ", "clear ", "clear 1", "close ", "close 1",
    # 25
    "flip 0 0 1", "clear", "close",
    # 25 before 22
    "flip x 0 1", "flip 0 0 01", "flip   ",
    # 22
    "step x", "step ", "step -", "step --1", "step -x", "step +1", "step 01", "step 00", "step 000001",
    "step -0", "step -00",
    "step -01", "step 1234567", "step -1234567", "step 1000000", "step 0000000", "step 1-", "step 1-1", "step 0x1",
    "step 1.0", "step 1\r", "step \r", "step 1\x00", "step \x001", "step \x00", "step /", "step :", "step 1/",
    "step 1:",
    "step 4294967297", "step -4294967297", "step 18446744073709551617", "step \xb2", "step \xff", "step 12345a",
    "step a12345", "step 1e3", "step 1_0", "step -1\xa0",
]

BAD_IN_SESSION = [
    # 23
    "", "flipp 0 0 1", "lip 0 0 1", "Flip 0 0 1", "Close", "CLEAR", "end", " close", "close\r", "clear\x00",
    "flip0 0 1",
    # 24
    "flip", "flip 0", "flip 0 0", "flip 0 0 1 ", "flip 0 0 1 1", "flip x y", "clear ", "clear 0", "close ", "close 0",
    # 24 before 25
    "step", "step 1 1", "undo 1", "redo ", "open ",
    # 25
    "step 1", "undo", "redo", "open",
    # 25 before 22
    "step x", "step 01", "step ",
    # 22
    "flip x 0 1", "flip 0 x 1", "flip 0 0 x", "flip x x 1", "flip 0 x x", "flip x 0 x", "flip x x x",
    "flip  0 1", "flip 0  1", "flip 0 0 ", "flip   ", "flip -1 0 1", "flip 0 -1 1", "flip 0 0 -1",
    "flip -0 0 1", "flip 0 -0 1", "flip 0 0 -0", "flip 00 0 1", "flip 0 01 1", "flip 0 0 001",
    "flip 1234567 0 1", "flip 0 1234567 1", "flip 0 0 1234567", "flip +0 0 1", "flip 0 +0 1", "flip 0 0 +1",
    "flip 4294967296 0 1", "flip 0 4294967296 1", "flip 0 0 18446744073709551617",
    "flip 0 0 1\r", "flip 0 0 1\x00", "flip \xb9 0 1", "flip 0 / 1", "flip 0 : 1",
]


def opened():
    """A session that is still open."""
    return [("open",)] + [in_session() for _ in range(chance.randrange(3))]


def flips():
    return [in_session() for _ in range(chance.randrange(3))]


def add_bad_line(line, which, shortest, before, after):
    """Two of the three places, in turn: after what must come before it, in the middle, as the last line."""
    texts = [shortest + text_of(line) + after, before + text_of(line) + after, before + text_of(line)]
    add_script(texts[which % 3])
    add_script(texts[(which + 1) % 3])


for which, line in enumerate(BAD_AT_REST):
    before = text_model.script_written(good_records(chance.randrange(1, 5)))
    after = text_model.script_written(good_records(chance.randrange(1, 4)))
    add_bad_line(line, which, b"", before, after)
for which, line in enumerate(BAD_IN_SESSION):
    before = text_model.script_written(good_records(chance.randrange(1, 3)) + opened())
    after = text_model.script_written(flips() + [("close",)] + good_records(chance.randrange(2)))
    add_bad_line(line, which, text_of("open"), before, after)

# 26
for first in [LARGEST_FIRST] + FIRSTS:
    add_script(text_of("open"), first)
    add_script(text_of("open", "close", "open", "flip 0 0 1"), first)
for parts in range(12):
    add_script(text_model.script_written(good_records(parts % 4) + opened()))

# 21: with good lines before the unfinished one, with a line that would be bad, and with none
for text in [
    b"u", b"undo", b"\t", b"\r", b"\x00", b"\xff", b"step\t1", b"undo\nundo", b"open\nclose", b"\n\nundo",
    b"stop", b"stop\nundo",
    b"undo\n\t", b"undo\n\r", b"undo\n ", b"open\nstep\tx\nundo", b"open\n\n\n\n\n\nclose",
    b"step\t01\nstep\t1", b"open\nopen",
]:
    add_script(text)
for first in [LARGEST_FIRST] + FIRSTS:
    add_script(b"undo\nredo", first)
for parts in range(1, 10):
    add_script(good_script(parts)[:-1])


# --- Scripts with several faults ------------------------------------------------------------------

for _ in range(80):
    parts = [text_model.script_written(good_records(chance.randrange(3)))]
    for _ in range(chance.randrange(2, 5)):
        parts.append(text_of(chance.choice(chance.choice([BAD_AT_REST, BAD_IN_SESSION]))))
        parts.append(text_model.script_written(chance.choice([good_records(chance.randrange(3)), opened()])))
    text = b"".join(parts)
    if chance.randrange(8) == 0:
        text = text[:-1]
    add_script(text)


# --- Damage ---------------------------------------------------------------------------------------

ODD_BYTES = b"\t\n\r\x00\x01 -+.0189afgAFG/:@`\x7f\x80\xb2\xff"


def any_place(text):
    return chance.randrange(len(text))


def odd_byte():
    return bytes([chance.choice(ODD_BYTES)])


def places_of(text, which):
    """The places of a text at which one of these bytes stands."""
    return [place for place, byte in enumerate(text) if byte in which]


def byte_inserted(text):
    place = chance.randrange(len(text) + 1)
    return text[:place] + odd_byte() + text[place:]


def byte_deleted(text):
    place = any_place(text)
    return text[:place] + text[place + 1 :]


def byte_changed(text):
    place = any_place(text)
    return text[:place] + odd_byte() + text[place + 1 :]


def bit_changed(text):
    place = any_place(text)
    return text[:place] + bytes([text[place] ^ 1 << chance.randrange(8)]) + text[place + 1 :]


def byte_doubled(text):
    place = any_place(text)
    return text[:place] + text[place : place + 1] + text[place:]


def neighbours_exchanged(text):
    place = any_place(text)
    return text[:place] + text[place : place + 2][::-1] + text[place + 2 :]


def cut_short(text):
    return text[: any_place(text)]


def cut_in_front(text):
    return text[chance.randrange(1, len(text) + 1) :]


def line_doubled(text):
    lines, _ = text_model.lines(text)
    which = chance.randrange(len(lines))
    return text_of_lines(lines[: which + 1] + lines[which:])


def line_lost(text):
    lines, _ = text_model.lines(text)
    which = chance.randrange(len(lines))
    return text_of_lines(lines[:which] + lines[which + 1 :])


def lines_exchanged(text):
    lines, _ = text_model.lines(text)
    one, other = chance.randrange(len(lines)), chance.randrange(len(lines))
    lines[one], lines[other] = lines[other], lines[one]
    return text_of_lines(lines)


def before_a_newline(text, added):
    place = chance.choice(places_of(text, b"\n"))
    return text[:place] + added + text[place:]


def tab_at_the_end(text):
    return before_a_newline(text, b"\t")


def carriage_return(text):
    return before_a_newline(text, b"\r")


def carriage_returns(text):
    return text.replace(b"\n", b"\r\n")


def newline_added(text):
    return before_a_newline(text, b"\n")


def without_one_of(text, which):
    places = places_of(text, which)
    if not places:
        return text
    place = chance.choice(places)
    return text[:place] + text[place + 1 :]


def tab_removed(text):
    return without_one_of(text, b"\t")


def newline_removed(text):
    return without_one_of(text, b"\n")


def blank_for_tab(text):
    return text.replace(b"\t", b" ", 1)


def newline_for_tab(text):
    return text.replace(b"\t", b"\n", 1)


def with_field_changed(text, wanted, change):
    """The text after a change of one of the fields that are wanted, if there are any."""
    lines, _ = text_model.lines(text)
    cut = [text_model.fields(line) for line in lines]
    places = [(at, place) for at, line in enumerate(cut) for place, field in enumerate(line) if wanted(field)]
    if not places:
        return text
    at, place = chance.choice(places)
    cut[at][place] = change(cut[at][place])
    return text_of_lines([b"\t".join(line) for line in cut])


def is_number(field):
    return text_model.number_of_step(field) is not None


def digits_exchanged(text):
    """The text after two digits that stand side by side changed places."""
    digits = text_model.CELL_DIGITS
    places = [place for place in places_of(text[:-1], digits) if text[place + 1] in digits]
    if not places:
        return text
    place = chance.choice(places)
    return text[:place] + text[place : place + 2][::-1] + text[place + 2 :]


def leading_zero(text):
    return with_field_changed(text, is_number, lambda field: b"0" + field)


def minus_zero(text):
    return with_field_changed(text, is_number, lambda field: b"-0")


def minus_in_front(text):
    return with_field_changed(text, is_number, lambda field: b"-" + field)


def plus_in_front(text):
    return with_field_changed(text, is_number, lambda field: b"+" + field)


def seven_digits(text):
    return with_field_changed(text, is_number, lambda field: b"%d" % chance.randrange(1000000, 10000000))


def other_number(text):
    return with_field_changed(text, is_number, lambda field: text_model.number_written(any_number()))


def field_emptied(text):
    return with_field_changed(text, lambda field: True, lambda field: b"")


def is_word(field):
    return field.isalpha() and len(field) > 2


def word_in_capitals(text):
    return with_field_changed(text, is_word, lambda field: field.upper())


def one_capital(text):
    return with_field_changed(text, is_word, lambda field: field.capitalize())


def letters_in_capitals(text):
    """Here also the digits a to f of a row."""
    return with_field_changed(text, lambda field: field != field.upper(), lambda field: field.upper())


# these take any text
ANY_DAMAGES = [
    byte_inserted, byte_deleted, byte_changed, bit_changed, byte_doubled, neighbours_exchanged, cut_short, cut_in_front,
]
# and these one whose last line is finished
LINE_DAMAGES = [
    line_doubled, line_lost, lines_exchanged, tab_at_the_end, carriage_return, carriage_returns, newline_added,
    tab_removed, newline_removed, blank_for_tab, newline_for_tab, digits_exchanged, leading_zero, minus_zero, minus_in_front,
    plus_in_front, seven_digits, other_number, field_emptied, word_in_capitals, one_capital, letters_in_capitals,
]
DAMAGES = ANY_DAMAGES + LINE_DAMAGES


def damaged(text, damage):
    """The text after this damage, and sometimes one more."""
    text = damage(text)
    if text != b"" and chance.randrange(4) == 0:
        text = chance.choice(ANY_DAMAGES)(text)
    return text


for _ in range(6):
    for damage in DAMAGES:
        add_script(damaged(good_script(chance.randrange(1, 6)), damage))


# --- Good boards ----------------------------------------------------------------------------------

# Width and height.
SHAPES = [(2, 2), (2, 4), (4, 2), (6, 4), (16, 2), (8, 8)]


def any_lattice(width, height, phase):
    return Lattice(width, height, phase, [chance.randrange(256) for _ in range(width * height)])


def board(width, height):
    return text_model.board_written(any_lattice(width, height, chance.randrange(2)))


def any_shape():
    # the larger ones are rarer, for their length
    return chance.choice([(2, 2), (2, 2), (2, 4), (4, 2), (2, 4), (4, 2), (6, 4), (16, 2), (8, 8)])


BEHIND = [
    b"\n", b"\t\n", b"\r\n", b"\x00\n", b"\xff\n", b"\n\n\n", b"undo\n", b"stop\n", b"row\t0000\n", b"row\n",
    b"board\t2\t2\t0\n",
    b"open\n", b"step\t01\n", b"map\tbbm\n", b"flip\t0\t0\t1\n",
]


def behind():
    if chance.randrange(2) == 0:
        return chance.choice(BEHIND)
    return good_script(chance.randrange(1, 4))


for width, height in SHAPES:
    area = width * height
    for phase in [0, 1]:
        for size, more in [
            (area, b""),
            (area, behind()),
            (area + 1, b""),
            (area + 1, behind()),
            (area + chance.randrange(2, 300), behind()),
        ]:
            add_board(text_model.board_written(any_lattice(width, height, phase)) + more, size)
for first in [LARGEST_FIRST] + FIRSTS:
    for size in [4, 5]:
        add_board(text_of("board 2 2 0", "row 0001", "row 0203"), size, first)
        add_board(text_of("board 2 2 1", "row f00f", "row 9aa9", "undo"), size, first)
for more in BEHIND:
    add_board(board(2, 2) + more, 4)
add_board(board(2, 2) + board(2, 2), 4)
add_board(board(2, 4) + board(2, 2), 9)
# every value of a cell, every digit at both of its places
add_board(text_model.board_written(Lattice(16, 16, 0, list(range(256)))), 256)
add_board(text_model.board_written(Lattice(64, 4, 1, list(range(255, -1, -1)))), 300)
add_board(text_model.board_written(any_lattice(256, 2, 1)), 512)
add_board(text_model.board_written(any_lattice(2, 256, 0)), 20000)
add_board(board(4, 2), 20000)


# --- Boards with a fault on the board's line ------------------------------------------------------

BAD_BOARD_LINES = [
    # 23
    "", "Board 2 2 0", "BOARD 2 2 0", "boar 2 2 0", "boards 2 2 0", "oard 2 2 0", " board 2 2 0",
    "board\r 2 2 0", "\x00board 2 2 0",
    "row 0000", "map bbm", "step 1", "board2 2 0", "\xffoard 2 2 0", "\r",
    # 23 before 24 and 22
    "Board", "Board 2 2", "board\x00 x y z", "lattice 3 3 3 3",
    # 24
    "board", "board 2", "board 2 2", "board 2 2 0 ", "board 2 2 0 0", "board  2 2 0", "board 2 2 0  ", "board ",
    # 24 before 22, 1, 2 and 3
    "board x y", "board x y z 0", "board 3 3", "board 256 256", "board 2 2 2 2",
    # 22
    "board x 2 0", "board 2 x 0", "board 2 2 x", "board  2 0", "board 2  0", "board 2 2 ", "board   ",
    "board 02 2 0", "board 2 02 0", "board 2 2 00", "board 2 2 01", "board -2 2 0", "board 2 -2 0", "board 2 2 -1",
    "board -0 2 0", "board 2 -0 0", "board 2 2 -0", "board 1234567 2 0", "board 2 1234567 0", "board 2 2 1234567",
    "board 2 2 0000000", "board +2 2 0", "board 2 +2 0", "board 2 2 +0", "board 2 2 0\r", "board 2 2 0\x00",
    "board 2\x00 2 0",
    "board 2 2 \xb0", "board 0x2 2 0", "board / 2 0", "board 2 : 0", "board a 2 0", "board 1000000 2 0",
    "board 4294967298 2 0", "board 2 4294967298 0", "board 2 2 4294967296", "board 2 18446744073709551618 0",
    # the leftmost
    "board x y z", "board x y 0", "board x 2 z", "board 2 y z",
    # 22 before 1, 2 and 3
    "board 3 x 0", "board x 3 0", "board 256 256 x", "board 256 256 -1", "board 3 3 z", "board 3 2 01",
    # 1
    "board 0 2 0", "board 2 0 0", "board 0 0 0", "board 1 2 0", "board 2 1 0", "board 3 2 0", "board 2 3 0",
    "board 257 2 0",
    "board 2 257 0", "board 258 2 0", "board 2 258 0", "board 65538 2 0", "board 2 65538 0", "board 512 4 0",
    "board 1000 2 1",
    "board 131072 131072 0", "board 258 256 0",
    # 1 before 2 and 3
    "board 999999 999999 999999", "board 255 999 7", "board 3 2 2", "board 256 257 0", "board 999998 999998 0",
    # 2
    "board 256 66 0", "board 66 256 0", "board 128 130 0", "board 130 128 1", "board 256 256 0", "board 256 256 1",
    "board 130 130 0", "board 254 66 0", "board 66 254 1", "board 150 110 0",
    # 2 before 3
    "board 256 66 2", "board 256 256 2", "board 130 128 999999",
    # 3
    "board 2 2 2", "board 2 2 3", "board 2 2 9", "board 2 2 10", "board 2 2 255", "board 2 2 256", "board 2 2 999999",
    "board 4 2 2", "board 256 64 2", "board 64 256 2", "board 128 128 4", "board 2 256 2", "board 126 130 2",
]

GOOD_ROWS = text_of("row 0102", "row a0ff")
# what may follow, and how large the memory is
FOLLOWING = [
    (GOOD_ROWS, 4),
    (GOOD_ROWS, 3),
    (b"", 9),
    (GOOD_ROWS + text_of("undo"), 200),
    (text_of("row 010", "row 0000"), 4),
    (text_of("row 0102"), 0),
]

for which, line in enumerate(BAD_BOARD_LINES):
    following, size = FOLLOWING[which % len(FOLLOWING)]
    add_board(text_of(line) + following, size)


# --- Boards with a fault on a row -----------------------------------------------------------------

CAPITALS = b"ABCDEF"
NO_DIGITS = b"gG/:@`xz-+. \r\x00\x7f\x80\xb0\xff"


def with_byte(digits, place, byte):
    return digits[:place] + bytes([byte]) + digits[place + 1 :]


def bad_rows(digits):
    """Lines that are no row of as many digits, from these good digits."""
    last = len(digits) - 1
    middle = chance.randrange(1, last)
    answer = [
        # 23
        b"", b"\t" + digits, b"Row\t" + digits, b"ROW\t" + digits, b"ro\t" + digits, b"rows\t" + digits, b"row" + digits,
        b"row\r\t" + digits, b"\trow\t" + digits, b"board\t2\t2\t0", b"step\t1",
        # 23 before 24 and 31
        b"Row", b"Row\t" + digits + b"\t", b"Row\t" + digits[:-1],
        # 24
        b"row", b"row\t" + digits + b"\t", b"row\t\t" + digits, b"row\t" + digits[:2] + b"\t" + digits[2:],
        # 24 before 31
        b"row\t" + digits[:-1] + b"\t", b"row\t\t", b"row\tx\ty",
        # 31: their number
        b"row\t", b"row\t" + digits[:-1], b"row\t" + digits[1:], b"row\t" + digits + b"0", b"row\t0" + digits,
        b"row\t" + digits[:-2], b"row\t" + digits + b"00", b"row\t" + digits[: len(digits) // 2], b"row\t" + digits * 2,
        b"row\t" + digits + b"\r", b"row\t" + digits + b"\x00", b"row\t" + digits + b"G",
    ]
    # 31: one of them
    for place in [0, middle, last]:
        answer.append(b"row\t" + with_byte(digits, place, chance.choice(CAPITALS)))
        answer.append(b"row\t" + with_byte(digits, place, chance.choice(NO_DIGITS)))
    return answer


def board_lines(width, height):
    """The lines of a good board; line 0 is the board's line."""
    lines, _ = text_model.lines(board(width, height))
    return lines


def row_digits(lines, at):
    return text_model.fields(lines[at])[1]


for width, height in SHAPES:
    for at in [1, 1 + height // 2, height]:
        lines = board_lines(width, height)
        candidates = bad_rows(row_digits(lines, at))
        # all of them on the smallest board, and of the others not every line at every place
        if width * height > 4:
            candidates = chance.sample(candidates, 6)
        for line in candidates:
            more = chance.choice([b"", b"", b"undo\n"])
            size = width * height + chance.choice([0, 0, 1, -1])
            add_board(text_of_lines(lines[:at] + [line] + lines[at + 1 :]) + more, size)
# every byte that is no digit
for byte in CAPITALS + NO_DIGITS:
    add_board(text_of("board 2 2 0", "row 0123") + b"row\t" + with_byte(b"4567", chance.randrange(4), byte) + b"\n", 4)


# --- Boards of which lines are missing, and memories that are too short ---------------------------

# 32
for first in [LARGEST_FIRST] + FIRSTS:
    add_board(b"", 4, first)
    add_board(text_of("board 2 2 0"), 4, first)
    add_board(text_of("board 2 2 0", "row 0000"), 4, first)
add_board(b"", 0)
for width, height in SHAPES:
    for there in range(1, 1 + height):
        add_board(text_of_lines(board_lines(width, height)[:there]), width * height)
    # 32 before 30
    add_board(text_of_lines(board_lines(width, height)[:-1]), width * height - 1)
    add_board(text_of_lines(board_lines(width, height)[:1]), 0)
for line in ["board 256 64 0", "board 64 256 1", "board 128 128 0", "board 2 256 1", "board 256 2 0"]:
    add_board(text_of(line), 16384)
    add_board(text_of(line), 0)
add_board(text_of("board 2 256 1") + text_of("row 0123") * 255, 512)
add_board(text_of("board 256 64 1") + b"row\t" + b"0f" * 256 + b"\n", 16384)

# 30
for width, height in SHAPES:
    area = width * height
    for size in [0, area // 2, area - 1, area - 1]:
        add_board(board(width, height), size)
        add_board(board(width, height) + behind(), size)
for first in [LARGEST_FIRST] + FIRSTS:
    for size in [0, 1, 3]:
        add_board(text_of("board 2 2 0", "row 0001", "row 0203"), size, first)
add_board(board(2, 256), 511)
add_board(board(256, 2), 511)


# --- Boards with several faults -------------------------------------------------------------------

# each of them with a memory that is long enough, and with one that is too short
for lines in [
    # the lines in their order
    ["board 2 2 0", "row 0000", "row 000"],
    ["board 2 2 0", "row 000", "row 0000"],
    ["board 2 2 0", "row 0000", "Row 0000"],
    ["board 2 2 0", "row 0000", "row 0000 "],
    ["board 2 2 0", "row 00G0", "Row 0000"],
    ["board 2 2 0", "Row 0000", "row 00G0"],
    ["board 2 2 0", "row 0000 ", "Row 0000"],
    ["board 2 4 0", "row 0000", "row 0000", "row 000"],
    ["board 2 4 0", "row 0000", "row 0000", "row 0000", "row"],
    ["board 2 4 0", "row 0000", "row 0000", "row 0000", "undo"],
    ["board 2 4 1", "row 0000", "row 000F"],
    ["board 2 4 1", "row 0000", "row 0000", "step 1"],
    ["board 2 4 1", "row 0000", "", "row 0000", "row 0000"],
    ["board 2 2 2", "row 000"],
    ["board 3 2 0", "row 000"],
    ["board 256 66 0", "Row"],
    ["board x 2 0", "row 000"],
    ["board 2 2"],
    ["board 2 2 9"],
    ["board 3 2 2"],
    ["board 2 x 9"],
    ["Board 2 x 9"],
    ["board 4 2 0", "row 0000", "row 0000"],
    ["board 2 4 0", "row 00000000", "row 00000000"],
    ["board 16 2 0", "row 0000", "Row 0000"],
]:
    text = text_of(*lines)
    add_board(text, 64)
    add_board(text, 3)
    # 21 before all others: the last line is unfinished, or one more that follows
    add_board(chance.choice([text[:-1], text + b"undo"]), chance.choice([0, 64]))
# 21, without another fault
for text in [b"b", b"\x00", b"\t", b"board\t2\t2\t0", b"board\t2\t2\t0\nrow\t0000\nrow\t0000"]:
    for first in [1, 100]:
        add_board(text, 4, first)
for width, height in SHAPES:
    add_board(board(width, height)[:-1], width * height)
    add_board(board(width, height) + behind()[:-1] + b"x", width * height + 1)

for _ in range(60):
    width, height = any_shape()
    lines = board_lines(width, height)
    for _ in range(chance.randrange(2, 4)):
        at = chance.randrange(0, height + 1)
        if at == 0:
            lines[0] = text_of(chance.choice(BAD_BOARD_LINES))[:-1]
        else:
            lines[at] = chance.choice(bad_rows(b"0123456789abcdef"[: 2 * width]))
    text = text_of_lines(lines[: chance.choice([height, height + 1, height + 1])])
    add_board(text, width * height + chance.choice([0, -1, 5]))


# --- Damaged boards -------------------------------------------------------------------------------

for _ in range(6):
    for damage in DAMAGES:
        width, height = any_shape()
        text = board(width, height) + chance.choice([b"", b"", behind()])
        add_board(damaged(text, damage), width * height + chance.choice([0, 0, 0, 3, -1]))


# --- What is printed ------------------------------------------------------------------------------


def input_line(vector):
    kind, first, size, text = vector
    return f"{kind} {first} {size} {text.hex() if text != b'' else '-'}"


def memory_before(size):
    return [7 * k % 256 for k in range(size)]


def blanks_between(fields):
    return " ".join(str(field) for field in fields)


def script_line(text, first):
    records, fault = text_model.check_script(text, first)
    if fault is not None:
        return blanks_between(["fault", *fault])
    return blanks_between(["ok", len(records)])


def board_line(text, first, size):
    answer, memory, fault = text_model.read_board(text, first, memory_before(size))
    if fault is not None:
        return blanks_between(["fault", *fault, digest(memory)])
    width, height, phase, taken = answer
    written = text_model.board_written(Lattice(width, height, phase, memory[: width * height]))
    fields = ["ok", width, height, phase, taken, digest(memory), len(written)]
    if written != text[:taken]:
        fields.append("other")
    return blanks_between(fields)


def output_line(vector):
    kind, first, size, text = vector
    if kind == "script":
        return script_line(text, first)
    return board_line(text, first, size)


if __name__ == "__main__":
    for vector in vectors:
        print(input_line(vector) if sys.argv[1] == "stdin" else output_line(vector))
