"""Files, arguments and output of the program `read_texts` (docs/PROGRAMS.md), computed by the model.

With `data` and the name of a folder it writes the files into that folder. With `args` it prints their
names, one on a line, in the order of the program's arguments, and with `stdout` what the program must
print for them.
"""

import pathlib
import sys

import model
import text_model


def text_of(*lines):
    """A text of these lines, written with a space for each tab."""
    return b"".join(line.replace(" ", "\t").encode() + b"\n" for line in lines)


# --- The files ------------------------------------------------------------------------------------

GOOD = text_of(
    "step 10",
    "open",
    "flip 3 0 1",
    "flip 2 5 255",
    "clear",
    "flip 0 0 3",
    "close",
    "undo",
    "redo",
    "step -999999",
)

GLIDER = text_of(
    "board 8 6 0",
    "row 0000000000000000",
    "row 0000010000000000",
    "row 0000000100000000",
    "row 0001010100000000",
    "row 0000000000000000",
    "row 0000000000000000",
)

# each digit once
SMALL = text_of("board 2 4 1", "row 0123", "row 4567", "row 89ab", "row cdef")

# Name and bytes, in the order of the program's arguments.
FILES = [
    ("good.script", GOOD),
    ("empty.script", b""),
    # one byte longer than a text may be
    ("too_long.script", text_of("step 1") * 9361 + text_of("undo") * 2),
    ("no_newline.script", text_of("step 1", "undo") + b"redo"),
    ("unknown_word.script", text_of("step 1", "undo", "stop", "redo")),
    ("carriage_return.script", text_of("undo\r", "redo\r")),
    ("tab_at_the_end.script", text_of("step 1", "undo ", "redo")),
    ("step_in_session.script", text_of("open", "flip 0 0 1", "step 1", "close")),
    ("leading_zero.script", text_of("step 1", "step 01")),
    ("minus_zero.script", text_of("step -1", "step -0")),
    ("nul_byte.script", text_of("open", "flip 0 0\0 1", "close")),
    ("ends_in_session.script", text_of("step 1", "open", "flip 0 0 1")),
    ("glider.board", GLIDER),
    ("board_with_script_behind.board", SMALL + GOOD),
    ("unfinished_behind.board", text_of("board 2 2 0", "row 0000", "row 0000") + b"undo"),
    ("not_a_board.board", text_of("Board 2 2 0", "row 0000", "row 0000")),
    ("no_phase.board", text_of("board 2 2", "row 0000", "row 0000")),
    ("number_too_long.board", text_of("board 2 1000002 0", "row 0000", "row 0000")),
    ("odd_side.board", text_of("board 3 2 0", "row 000000", "row 000000")),
    ("large_area.board", text_of("board 256 66 0")),
    ("phase_2.board", text_of("board 2 2 2", "row 0000", "row 0000")),
    ("not_a_row.board", text_of("board 2 2 0", "row 0000", "step 1")),
    ("two_fields_too_many.board", text_of("board 2 2 0", "row 00 00 00", "row 0000")),
    ("short_row.board", text_of("board 4 2 1", "row 00010203", "row 0001020")),
    ("upper_case.board", text_of("board 2 2 0", "row 0a0B", "row 0000")),
    ("missing_row.board", text_of("board 2 4 0", "row 0000", "row 0000", "row 0000")),
    ("empty.board", b""),
]


# --- What is printed ------------------------------------------------------------------------------

LARGEST_BOARD_TEXT = 34063


def tabs_between(fields):
    return "\t".join(str(field) for field in fields)


def script_lines(text):
    records, fault = text_model.check_script(text, 1)
    if fault is not None:
        return text_model.fault_written(fault) + "\n"
    return tabs_between(["script", len(records)]) + "\n"


def board_lines(text):
    """The line of the board, and after it the board written back."""
    answer, memory, fault = text_model.read_board(text, 1, [0] * model.LARGEST_AREA)
    if fault is not None:
        return text_model.fault_written(fault) + "\n"
    width, height, phase, _ = answer
    lattice = model.Lattice(width, height, phase, memory[: width * height])
    length, written, _ = text_model.write_board(lattice, bytes(LARGEST_BOARD_TEXT))
    return tabs_between(["board", *answer]) + "\n" + written[:length].decode()


def printed(name, text):
    lines = script_lines(text) if name.endswith(".script") else board_lines(text)
    return name + "\t" + lines


if __name__ == "__main__":
    if sys.argv[1] == "data":
        for name, text in FILES:
            (pathlib.Path(sys.argv[2]) / name).write_bytes(text)
    elif sys.argv[1] == "args":
        for name, _ in FILES:
            print(name)
    else:
        for name, text in FILES:
            print(printed(name, text), end="")
