"""Files, arguments and output of the program `home_and_mirror`, computed by the model.

With `args` it prints the names of the files, one on a line, in the order of the program's arguments,
and with `stdout` what the program must print for them. With the name of a folder it writes the files
into that folder.
"""

import pathlib
import sys

import job_model


def text_of(*lines):
    """A text of these lines, written with a space for each tab."""
    return b"".join(line.replace(" ", "\t").encode() + b"\n" for line in lines)


# --- Jobs that are done ---------------------------------------------------------------------------

# the worked example of README.md
ONE_CELL = ["map bbm", "board 2 2 0", "row 0100", "row 0000"]
FIRST_LINES = [*ONE_CELL, "step 1", *["open", "flip 0 0 1", "close"], "step -1"]


def drawn_row(signs):
    """A row of single characters: a digit is the cell itself, and a point is 0."""
    return "row " + "".join("00" if sign == "." else "0" + sign for sign in signs)


def drawn_job(name, drawing, *script):
    """A job at phase 0 whose cells are drawn, a line for each row."""
    board = f"board {len(drawing[0])} {len(drawing)} 0"
    return text_of(f"map {name}", board, *[drawn_row(signs) for signs in drawing], *script)


# Two balls, each of two cells one after the other, come from above: the left one runs to the right,
# and the right one to the left. In the fourth step their leading cells meet, and after the seventh both
# balls run on downwards, the left one to the left again and the right one to the right.
COLLISION = drawn_job(
    "bbm",
    [
        "..1..........1..",
        "................",
        "....1......1....",
        "................",
        "................",
        "................",
        "................",
        "................",
        "................",
        "................",
    ],
    "step 4",
    "step 4",
)

# A crowd from which single cells and pairs fly off. The number of steps is even, since each step of
# critters inverts nearly all cells.
GAS = drawn_job(
    "critters",
    [
        "........................",
        "........................",
        "........................",
        "........................",
        "........................",
        "........11.1..1.........",
        "........1.11.1..........",
        ".........1..11..........",
        "........1..1.11.........",
        "..........11.1..........",
        "........................",
        "........................",
        "........................",
        "........................",
        "........................",
        "........................",
    ],
    "step 40",
)

# A single cell, which keeps one block after another from being inverted.
PATTERN = drawn_job(
    "tron",
    [
        "................",
        "................",
        "................",
        ".......1........",
        "................",
        "................",
        "................",
        "................",
    ],
    "step 8",
)

# The glider of Life itself does not last under the lift, since each step brings the pasts in. This is a
# glider of the lift, from a search among presents and pasts of three by three cells: in two steps its
# presents and pasts together move up by a row.
GLIDER = drawn_job(
    "life2",
    [
        "................",
        "................",
        "................",
        "................",
        "................",
        "................",
        "................",
        "................",
        "................",
        "................",
        "................",
        "......131.......",
        "......333.......",
        "......232.......",
        "................",
        "................",
    ],
    "step 20",
)

# all four pairs of present and past, and free bits
MIXED = text_of(
    "map mixed",
    "board 6 4 0",
    "row 010200030001",
    "row 00f1000402fb",
    "row 030001000200",
    "row 800001030040",
    "step 3",
    "open",
    "flip 2 1 3",
    "flip 5 3 66",
    "close",
    "step -1",
)

# In the end the second step is undone. The session that was cleared is no action.
EDITED = text_of(
    "map critters",
    "board 6 4 1",
    "row 000100010000",
    "row 010100000200",
    "row 000000f00100",
    "row 000001010000",
    "step 12",
    "open",
    "flip 2 1 1",
    "flip 5 3 130",
    "flip 2 1 255",
    "close",
    "step -5",
    "open",
    "flip 0 0 3",
    "flip 1 2 1",
    "clear",
    "close",
    "undo",
    "undo",
    "redo",
)


# --- Jobs with a fault: the worked example, except for what the name says -------------------------


def first_with(at, line):
    """The worked example with another line number `at`."""
    return text_of(*FIRST_LINES[: at - 1], line, *FIRST_LINES[at:])


def first_up_to(at):
    """The worked example without what follows line number `at`."""
    return text_of(*FIRST_LINES[:at])


FIRST = text_of(*FIRST_LINES)
OPENING = first_up_to(4)

# one byte longer than a text may be, and otherwise good
TOO_LONG = FIRST + text_of("step 1") + text_of("undo", "redo") * 6545 + text_of("undo")

# Name and bytes, in the order of the program's arguments.
FILES = [
    ("first.job", FIRST),
    ("collision.job", COLLISION),
    ("gas.job", GAS),
    ("pattern.job", PATTERN),
    ("glider.job", GLIDER),
    ("mixed.job", MIXED),
    ("edited.job", EDITED),
    # the text as a whole
    ("too_long.job", TOO_LONG),
    ("no_newline.job", FIRST[:-1]),
    ("no_lines.job", b""),
    # the map line
    ("unknown_word_for_map.job", first_with(1, "Map bbm")),
    ("field_count_on_the_map_line.job", first_with(1, "map bbm critters")),
    ("unknown_map.job", first_with(1, "map life")),
    # the board
    ("no_board.job", first_up_to(1)),
    ("unknown_word_for_board.job", first_with(2, "boards 2 2 0")),
    ("field_count_on_the_board_line.job", first_with(2, "board 2 2")),
    ("no_number_on_the_board.job", first_with(2, "board 2 02 0")),
    ("odd_side.job", first_with(2, "board 3 2 0")),
    ("too_large.job", first_with(2, "board 256 66 0")),
    ("phase_two.job", first_with(2, "board 2 2 2")),
    ("unknown_word_for_row.job", first_with(4, "step 1")),
    ("field_count_on_a_row.job", first_with(4, "row 00 00")),
    ("wrong_digits.job", first_with(3, "row 0A00")),
    ("row_missing.job", first_up_to(3)),
    # the text of the script
    ("unknown_word_in_the_script.job", first_with(9, "back 1")),
    ("field_count_of_a_record.job", first_with(7, "flip 0 0")),
    ("step_in_session.job", first_with(7, "step 1")),
    ("no_number_in_the_script.job", first_with(7, "flip 0 x 1")),
    ("ends_in_session.job", first_up_to(7)),
    # its run
    ("step_of_zero.job", first_with(9, "step 0")),
    ("nothing_to_undo.job", first_with(5, "undo")),
    ("nothing_to_redo.job", FIRST + text_of("redo")),
    ("off_the_lattice.job", first_with(7, "flip 2 0 1")),
    ("mask_of_zero.job", first_with(7, "flip 0 0 0")),
    ("journal_full.job", OPENING + text_of("step 1") * 257),
    # the two flips before the refused one are taken back
    ("refused_in_a_session.job", OPENING + text_of("step 1", "open", "flip 0 0 1", "flip 1 0 2", "flip 0 2 1", "close")),
]


# --- What is printed ------------------------------------------------------------------------------


def printed(name, text):
    return job_model.printed_line("job", name) + job_model.home_and_mirror(text)


if __name__ == "__main__":
    if sys.argv[1] == "args":
        for name, _ in FILES:
            print(name)
    elif sys.argv[1] == "stdout":
        for name, text in FILES:
            sys.stdout.buffer.write(printed(name, text))
    else:
        for name, text in FILES:
            (pathlib.Path(sys.argv[1]) / name).write_bytes(text)
