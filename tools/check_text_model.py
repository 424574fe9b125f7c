"""Checks the model of text and boards against what docs/TEXT.md says."""

import random
import re
from collections import Counter

import model
import read_texts
import text_model
import text_vectors
from checks import check, tell_passed
from model import Lattice
from text_model import check_board, check_script, read_board, write_board


def text_of(*lines):
    """A text of these lines, written with a space for each tab."""
    return b"".join(line.replace(" ", "\t").encode("latin-1") + b"\n" for line in lines)


# --- Lines and fields: docs/TEXT.md, "Lines, fields, numbers" -------------------------------------

for text, finished, rest in [
    (b"", [], None),
    (b"\n", [b""], None),
    (b"\n\n", [b"", b""], None),
    (b"a", [], b"a"),
    (b"a\n", [b"a"], None),
    (b"a\nb", [b"a"], b"b"),
    (b"a\n\nb\n", [b"a", b"", b"b"], None),
    (b"\na", [b""], b"a"),
    # other bytes end no line
    (b"a\r\nb\n", [b"a\r", b"b"], None),
    (b"a\x0b\x0c\x00\x85\n", [b"a\x0b\x0c\x00\x85"], None),
    (b"a\r", [], b"a\r"),
]:
    check(f"lines of {text}", text_model.lines(text), (finished, rest))

for line, parts in [
    (b"", [b""]),
    (b"a", [b"a"]),
    (b"\t", [b"", b""]),
    (b"a\t", [b"a", b""]),
    (b"\ta", [b"", b"a"]),
    (b"a\tb", [b"a", b"b"]),
    (b"a\t\tb", [b"a", b"", b"b"]),
    # other bytes end no field
    (b"a b\r\x0b\x00\xff", [b"a b\r\x0b\x00\xff"]),
]:
    check(f"fields of {line}", text_model.fields(line), parts)

# Field by field: docs/TEXT.md, "Reading in place"

for text, first, parts in [
    (b"", 1, []),
    (b"\n", 1, [(b"", 1, 1, "newline")]),
    (b"\t\n", 4, [(b"", 4, 1, "tab"), (b"", 4, 2, "newline")]),
    (b"a", 1, [(b"a", 1, 1, "end of the text")]),
    (b"a\t", 1, [(b"a", 1, 1, "tab"), (b"", 1, 2, "end of the text")]),
    (
        b"a\tbc\n\td",
        5,
        [(b"a", 5, 1, "tab"), (b"bc", 5, 2, "newline"), (b"", 6, 1, "tab"), (b"d", 6, 2, "end of the text")],
    ),
    (b"a\n\nb\n", 9, [(b"a", 9, 1, "newline"), (b"", 10, 1, "newline"), (b"b", 11, 1, "newline")]),
]:
    check(f"all fields of {text}", text_model.all_fields(text, first), parts)


# --- Numbers: docs/TEXT.md, "Lines, fields, numbers" ----------------------------------------------

# Field, the number, and the number as the field of a `step`.
for field, value, step_value in [
    (b"0", 0, 0),
    (b"1", 1, 1),
    (b"9", 9, 9),
    (b"10", 10, 10),
    (b"100000", 100000, 100000),
    (b"999999", 999999, 999999),
    # a minus
    (b"-1", None, -1),
    (b"-10", None, -10),
    (b"-999999", None, -999999),
    # no number
    (b"", None, None),
    (b"-", None, None),
    (b"--1", None, None),
    (b"-0", None, None),
    (b"-00", None, None),
    (b"-01", None, None),
    (b"1-", None, None),
    (b"00", None, None),
    (b"01", None, None),
    (b"000001", None, None),
    (b"1000000", None, None),
    (b"-1000000", None, None),
    (b"0000001", None, None),
    (b"+1", None, None),
    (b"-+1", None, None),
    (b" 1", None, None),
    (b"1 ", None, None),
    (b"1\r", None, None),
    (b"1\x00", None, None),
    (b"\x00", None, None),
    (b"a", None, None),
    (b"1a", None, None),
    (b"1_0", None, None),
    (b"1.0", None, None),
    (b"/", None, None),
    (b":", None, None),
    (b"\xb2", None, None),
    ("\u0663".encode(), None, None),
]:
    check(f"number {field}", text_model.number(field), value)
    check(f"number of a step {field}", text_model.number_of_step(field), step_value)


# --- Scripts that are accepted: docs/TEXT.md, "Scripts" -------------------------------------------

for text, records in [
    (b"", []),
    (b"undo\n", [("undo",)]),
    (b"redo\n", [("redo",)]),
    (b"step\t1\n", [("step", 1)]),
    (b"step\t0\n", [("step", 0)]),
    (b"step\t-1\n", [("step", -1)]),
    (b"step\t999999\nstep\t-999999\n", [("step", 999999), ("step", -999999)]),
    (b"open\nclose\n", [("open",), ("close",)]),
    (b"open\nclear\nclose\n", [("open",), ("clear",), ("close",)]),
    (b"open\nflip\t0\t10\t255\nclose\n", [("open",), ("flip", 0, 10, 255), ("close",)]),
    (b"open\nflip\t999999\t0\t0\nclose\n", [("open",), ("flip", 999999, 0, 0), ("close",)]),
    (b"undo\nundo\nredo\n", [("undo",), ("undo",), ("redo",)]),
    (
        b"step\t2\nopen\nflip\t1\t2\t3\nclear\nflip\t4\t5\t6\nclose\nundo\nredo\nopen\nclose\n",
        [
            ("step", 2), ("open",), ("flip", 1, 2, 3), ("clear",), ("flip", 4, 5, 6), ("close",),
            ("undo",), ("redo",), ("open",), ("close",),
        ],
    ),
]:
    for first in [1, 7, 4294967295]:
        check(f"script {text}", check_script(text, first), (records, None))
    check(f"the writing of {records}", text_model.script_written(records), text)


# --- The faults of a script: docs/TEXT.md, "Checking a script" and "Faults" -----------------------

# 21: the text, the number of the first line, and the fault.
for text, first, fault in [
    (b"undo", 1, (2, 21, 1, 0)),
    (b"undo", 7, (2, 21, 7, 0)),
    (b"undo\nredo", 1, (2, 21, 2, 0)),
    (b"undo\nredo", 100, (2, 21, 101, 0)),
    (b"\t", 1, (2, 21, 1, 0)),
    (b"\r", 1, (2, 21, 1, 0)),
    (b"\n\n\x00", 1, (2, 21, 3, 0)),
    (b"\nundo", 4294967295, (2, 21, 4294967296, 0)),
    # before all that is wrong with a line, and before 26
    (b"stop\nundo", 1, (2, 21, 2, 0)),
    (b"step\tx\n\nundo", 1, (2, 21, 3, 0)),
    (b"open\nclose", 1, (2, 21, 2, 0)),
    (b"open\nflip\t0", 1, (2, 21, 2, 0)),
]:
    check(f"unfinished {text}", check_script(text, first), (None, fault))

# The others: the lines with a space for each tab, the number of the first, and the fault.
for lines, first, fault in [
    # 23: no word
    ([""], 1, (2, 23, 1, 1)),
    (["stop"], 1, (2, 23, 1, 1)),
    (["stop"], 7, (2, 23, 7, 1)),
    (["undo", "stop", "undo"], 1, (2, 23, 2, 1)),
    (["undo", "redo", "Undo"], 1, (2, 23, 3, 1)),
    (["undo", "redo", ""], 100, (2, 23, 102, 1)),
    ([" undo"], 1, (2, 23, 1, 1)),
    ([" "], 1, (2, 23, 1, 1)),
    (["UNDO"], 1, (2, 23, 1, 1)),
    (["undo\r"], 1, (2, 23, 1, 1)),
    (["undo\x00"], 1, (2, 23, 1, 1)),
    (["steps 1"], 1, (2, 23, 1, 1)),
    (["ste 1"], 1, (2, 23, 1, 1)),
    (["row 0000"], 1, (2, 23, 1, 1)),
    (["open", "Close"], 1, (2, 23, 2, 1)),
    # 23 before 24, 25 and 22
    (["stop 1 2 3 4 5"], 1, (2, 23, 1, 1)),
    (["open", "Step x"], 1, (2, 23, 2, 1)),
    # 24: the number of fields
    (["step"], 1, (2, 24, 1, 0)),
    (["step 1 2"], 1, (2, 24, 1, 0)),
    (["step 1 "], 1, (2, 24, 1, 0)),
    (["step  1"], 7, (2, 24, 7, 0)),
    (["undo "], 1, (2, 24, 1, 0)),
    (["undo", "redo 1", "redo"], 1, (2, 24, 2, 0)),
    (["undo", "redo", "open "], 100, (2, 24, 102, 0)),
    (["open", "flip 0 0"], 1, (2, 24, 2, 0)),
    (["open", "flip 0 0 1 1", "close"], 1, (2, 24, 2, 0)),
    (["open", "clear "], 1, (2, 24, 2, 0)),
    (["open", "close close"], 1, (2, 24, 2, 0)),
    # 24 before 25 and 22
    (["flip 0 0"], 1, (2, 24, 1, 0)),
    (["close "], 1, (2, 24, 1, 0)),
    (["open", "step"], 1, (2, 24, 2, 0)),
    (["open", "undo x"], 1, (2, 24, 2, 0)),
    (["step x y"], 1, (2, 24, 1, 0)),
    (["flip x"], 1, (2, 24, 1, 0)),
    # 25: at rest
    (["flip 0 0 1"], 1, (2, 25, 1, 0)),
    (["clear"], 1, (2, 25, 1, 0)),
    (["close"], 7, (2, 25, 7, 0)),
    (["undo", "close", "undo"], 1, (2, 25, 2, 0)),
    (["open", "close", "clear"], 1, (2, 25, 3, 0)),
    (["open", "close", "close"], 100, (2, 25, 102, 0)),
    # 25: in session
    (["open", "step 1"], 1, (2, 25, 2, 0)),
    (["open", "undo"], 1, (2, 25, 2, 0)),
    (["open", "redo", "close"], 1, (2, 25, 2, 0)),
    (["open", "flip 0 0 1", "clear", "open"], 1, (2, 25, 4, 0)),
    # 25 before 22
    (["flip x 0 1"], 1, (2, 25, 1, 0)),
    (["open", "step x"], 1, (2, 25, 2, 0)),
    (["open", "step 01", "close"], 1, (2, 25, 2, 0)),
    # 22: in each field
    (["step x"], 1, (1, 22, 1, 2)),
    (["step "], 1, (1, 22, 1, 2)),
    (["step -0"], 7, (1, 22, 7, 2)),
    (["undo", "step 01", "undo"], 1, (1, 22, 2, 2)),
    (["undo", "undo", "step 1234567"], 100, (1, 22, 102, 2)),
    (["step -"], 1, (1, 22, 1, 2)),
    (["step +1"], 1, (1, 22, 1, 2)),
    (["step 1\r"], 1, (1, 22, 1, 2)),
    (["open", "flip x 0 1", "close"], 1, (1, 22, 2, 2)),
    (["open", "flip 0 x 1", "close"], 1, (1, 22, 2, 3)),
    (["open", "flip 0 0 x", "close"], 1, (1, 22, 2, 4)),
    (["open", "flip -1 0 1", "close"], 1, (1, 22, 2, 2)),
    (["open", "flip 0 -1 1"], 1, (1, 22, 2, 3)),
    (["open", "flip 0 0 -1"], 1, (1, 22, 2, 4)),
    # 22: the leftmost
    (["open", "flip x x x"], 1, (1, 22, 2, 2)),
    (["open", "flip 0 x x"], 1, (1, 22, 2, 3)),
    (["open", "flip   "], 1, (1, 22, 2, 2)),
    (["open", "flip 1  "], 1, (1, 22, 2, 3)),
    # 26
    (["open"], 1, (2, 26, 2, 0)),
    (["open"], 7, (2, 26, 8, 0)),
    (["open"], 4294967295, (2, 26, 4294967296, 0)),
    (["open", "flip 0 0 1"], 1, (2, 26, 3, 0)),
    (["open", "close", "open", "clear"], 100, (2, 26, 104, 0)),
    # several: the first line that has one, and 26 after all lines
    (["step x", "stop"], 1, (1, 22, 1, 2)),
    (["undo ", "stop"], 1, (2, 24, 1, 0)),
    (["close", "stop"], 1, (2, 25, 1, 0)),
    (["open", "stop", "open"], 1, (2, 23, 2, 1)),
    (["open", "flip 0 0 01"], 1, (1, 22, 2, 4)),
]:
    check(f"script {lines}", check_script(text_of(*lines), first), (None, fault))

# 20: the text is too long, whatever stands in it and whichever number its first line has.
# `undo` and its newline are 5 bytes, and `step 1` with its own 7.
longest = text_of("undo") * 6 + text_of("step 1") * 9358
check("the longest text", len(longest), 65536)
check("the longest script", check_script(longest, 1), ([("undo",)] * 6 + [("step", 1)] * 9358, None))
too_long = text_of("undo") * 2 + text_of("step 1") * 9361
check("one byte more", len(too_long), 65537)
for first in [1, 7]:
    check("a script that is too long", check_script(too_long, first), (None, (2, 20, 0, 0)))
    check("too long and unfinished", check_script(too_long + b"undo", first), (None, (2, 20, 0, 0)))
    check("too long and unknown", check_script(b"\n" * 65537, first), (None, (2, 20, 0, 0)))
    unfinished = (2, 21, first + 9363, 0)
    check("as long as it may be, and unfinished", check_script(longest[:-1] + b"x", first), (None, unfinished))
    check("as long as it may be, and unknown", check_script(b"\n" * 65536, first), (None, (2, 23, first, 1)))

check("a fault is printed", text_model.fault_written((1, 22, 4294967296, 3)), "fault\t1\t22\t4294967296\t3")


# --- Boards that are read: docs/TEXT.md, "Boards" -------------------------------------------------

# Text, memory, answer (width, height, phase, bytes) and memory afterwards.
for text, memory, answer, afterwards in [
    (b"board\t2\t2\t0\nrow\t0001\nrow\t02ff\n", [9] * 4, (2, 2, 0, 30), [0, 1, 2, 255]),
    (b"board\t2\t2\t1\nrow\t0001\nrow\t02ff\n", [9] * 4, (2, 2, 1, 30), [0, 1, 2, 255]),
    # the one that weighs 16 comes first
    (b"board\t2\t2\t0\nrow\t10a1\nrow\t1a0f\n", [9] * 4, (2, 2, 0, 30), [16, 161, 26, 15]),
    # a longer memory
    (b"board\t2\t2\t0\nrow\t0001\nrow\t02ff\n", [7, 7, 7, 7, 8, 9], (2, 2, 0, 30), [0, 1, 2, 255, 8, 9]),
    # more text after it, whatever it is
    (b"board\t2\t2\t0\nrow\t0001\nrow\t0203\nundo\n", [9] * 4, (2, 2, 0, 30), [0, 1, 2, 3]),
    (b"board\t2\t2\t0\nrow\t0001\nrow\t0203\n\n", [9] * 4, (2, 2, 0, 30), [0, 1, 2, 3]),
    (b"board\t2\t2\t0\nrow\t0001\nrow\t0203\nrow\t0405\n", [9] * 5, (2, 2, 0, 30), [0, 1, 2, 3, 9]),
    (b"board\t2\t2\t0\nrow\t0001\nrow\t0203\n\x00\xff\n", [9] * 4, (2, 2, 0, 30), [0, 1, 2, 3]),
    # columns and rows
    (b"board\t4\t2\t0\nrow\t00010203\nrow\t04050607\n", [9] * 8, (4, 2, 0, 38), [0, 1, 2, 3, 4, 5, 6, 7]),
    (
        b"board\t2\t4\t0\nrow\t0001\nrow\t0203\nrow\t0405\nrow\t0607\n",
        [9] * 9,
        (2, 4, 0, 48),
        [0, 1, 2, 3, 4, 5, 6, 7, 9],
    ),
]:
    for first in [1, 7]:
        check(f"board {text}", read_board(text, first, memory), (answer, afterwards, None))
        check(f"board {text} checked", check_board(text, first), (answer, None))


# --- The faults of a board: docs/TEXT.md, "Boards" and "Faults" -----------------------------------

# The lines with a space for each tab, the number of the first, and the fault; the memory has 4 cells.
for lines, first, fault in [
    # 32, where there is no line at all
    ([], 1, (2, 32, 1, 0)),
    ([], 7, (2, 32, 7, 0)),
    # 23 on the board's line
    ([""], 1, (2, 23, 1, 1)),
    (["row 0000"], 1, (2, 23, 1, 1)),
    (["Board 2 2 0", "row 0000", "row 0000"], 1, (2, 23, 1, 1)),
    (["boards 2 2 0", "row 0000", "row 0000"], 7, (2, 23, 7, 1)),
    ([" board 2 2 0"], 1, (2, 23, 1, 1)),
    (["Board 2"], 1, (2, 23, 1, 1)),
    # 24
    (["board"], 1, (2, 24, 1, 0)),
    (["board 2 2"], 1, (2, 24, 1, 0)),
    (["board 2 2 0 "], 7, (2, 24, 7, 0)),
    (["board  2 2 0"], 1, (2, 24, 1, 0)),
    (["board x y z 0"], 1, (2, 24, 1, 0)),
    (["board 3 3 3 3"], 1, (2, 24, 1, 0)),
    # 22
    (["board x 2 0"], 1, (1, 22, 1, 2)),
    (["board 2 x 0"], 1, (1, 22, 1, 3)),
    (["board 2 2 x"], 7, (1, 22, 7, 4)),
    (["board x y z"], 1, (1, 22, 1, 2)),
    (["board 2 y z"], 1, (1, 22, 1, 3)),
    (["board -2 2 0"], 1, (1, 22, 1, 2)),
    (["board 2 02 0"], 1, (1, 22, 1, 3)),
    (["board 2 2 "], 1, (1, 22, 1, 4)),
    (["board 2 2 0\r"], 1, (1, 22, 1, 4)),
    (["board 1000000 2 0"], 1, (1, 22, 1, 2)),
    (["board 3 2 -0"], 1, (1, 22, 1, 4)),
    # 1, 2 and 3
    (["board 0 2 0"], 1, (2, 1, 1, 0)),
    (["board 2 3 0"], 7, (2, 1, 7, 0)),
    (["board 258 2 0"], 1, (2, 1, 1, 0)),
    (["board 999999 999999 999999"], 1, (2, 1, 1, 0)),
    (["board 255 999 7"], 1, (2, 1, 1, 0)),
    (["board 256 66 0"], 1, (2, 2, 1, 0)),
    (["board 256 66 2"], 7, (2, 2, 7, 0)),
    (["board 2 2 2"], 1, (2, 3, 1, 0)),
    (["board 256 64 2", "Row"], 7, (2, 3, 7, 0)),
    # 23 on a row
    (["board 2 2 0", "", "row 0000"], 1, (2, 23, 2, 1)),
    (["board 2 2 0", "Row 0000", "row 0000"], 1, (2, 23, 2, 1)),
    (["board 2 2 0", "row 0000", "rows 0000"], 1, (2, 23, 3, 1)),
    (["board 2 2 0", "row 0000", "undo"], 7, (2, 23, 9, 1)),
    (["board 2 2 0", "row 0000", " 0000"], 1, (2, 23, 3, 1)),
    (["board 2 2 0", "Row 000 "], 1, (2, 23, 2, 1)),
    # 24
    (["board 2 2 0", "row", "row 0000"], 1, (2, 24, 2, 0)),
    (["board 2 2 0", "row 0000", "row 0000 "], 7, (2, 24, 9, 0)),
    (["board 2 2 0", "row 0000", "row 00 00"], 1, (2, 24, 3, 0)),
    (["board 2 2 0", "row x "], 1, (2, 24, 2, 0)),
    # 31
    (["board 2 2 0", "row ", "row 0000"], 1, (1, 31, 2, 2)),
    (["board 2 2 0", "row 000", "row 0000"], 1, (1, 31, 2, 2)),
    (["board 2 2 0", "row 00000", "row 0000"], 1, (1, 31, 2, 2)),
    (["board 2 2 0", "row 0000", "row 000"], 7, (1, 31, 9, 2)),
    (["board 2 2 0", "row 0000", "row 00000"], 1, (1, 31, 3, 2)),
    (["board 2 2 0", "row A000", "row 0000"], 1, (1, 31, 2, 2)),
    (["board 2 2 0", "row 0000", "row 000F"], 1, (1, 31, 3, 2)),
    (["board 2 2 0", "row 00g0", "row 0000"], 1, (1, 31, 2, 2)),
    (["board 2 2 0", "row 000/", "row 0000"], 1, (1, 31, 2, 2)),
    (["board 2 2 0", "row :000", "row 0000"], 1, (1, 31, 2, 2)),
    (["board 2 2 0", "row 000`", "row 0000"], 1, (1, 31, 2, 2)),
    (["board 2 2 0", "row 0000\r", "row 0000"], 1, (1, 31, 2, 2)),
    (["board 2 2 0", "row 000\r", "row 0000"], 1, (1, 31, 2, 2)),
    (["board 2 2 0", "row 00\xff0", "row 0000"], 1, (1, 31, 2, 2)),
    (["board 4 2 0", "row 0000"], 1, (1, 31, 2, 2)),
    # 32
    (["board 2 2 0"], 1, (2, 32, 2, 0)),
    (["board 2 2 0", "row 0000"], 1, (2, 32, 3, 0)),
    (["board 2 2 0", "row 0000"], 7, (2, 32, 9, 0)),
    (["board 2 4 0", "row 0000", "row 0000", "row 0000"], 4294967295, (2, 32, 4294967299, 0)),
    (["board 256 64 0"], 1, (2, 32, 2, 0)),
    # the first line that has one
    (["board 2 2 0", "row 000", "Row 0000"], 1, (1, 31, 2, 2)),
    (["board 2 2 0", "row 0000 ", "row 000"], 1, (2, 24, 2, 0)),
    (["board 2 4 0", "row 000"], 1, (1, 31, 2, 2)),
    (["board 2 2 2", "row 000"], 1, (2, 3, 1, 0)),
    # 30, after all others
    (["board 4 2 0", "row 00000000", "row 00000000"], 1, (2, 30, 0, 0)),
    (["board 4 2 0", "row 00000000", "row 00000000", "undo"], 7, (2, 30, 0, 0)),
    (["board 4 2 0", "row 00000000", "row 0000000"], 1, (1, 31, 3, 2)),
    (["board 4 2 0", "row 00000000"], 1, (2, 32, 3, 0)),
]:
    text = text_of(*lines)
    check(f"board {lines}", read_board(text, first, [9, 8, 7, 6]), (None, [9, 8, 7, 6], fault))
    if fault[1] != 30:
        check(f"board {lines} checked", check_board(text, first), (None, fault))
    # 20 and 21 come before all of them, and are about the whole text
    unfinished = (2, 21, first + len(lines), 0)
    check(f"board {lines}, unfinished", read_board(text + b"x", first, [9]), (None, [9], unfinished))
    long = text + b"\n" * 65537
    check(f"board {lines}, too long", read_board(long, first, [9]), (None, [9], (2, 20, 0, 0)))

good = b"board\t2\t2\t0\nrow\t0001\nrow\t0203\n"
for memory in [[], [9], [9, 9, 9]]:
    check("a short memory", read_board(good, 7, memory), (None, memory, (2, 30, 0, 0)))
check("an unfinished row", read_board(good[:-1], 7, [9] * 4), (None, [9] * 4, (2, 21, 9, 0)))
check("unfinished behind the board", read_board(good + b"undo", 1, [9] * 4), (None, [9] * 4, (2, 21, 4, 0)))
check("as long as a text may be", read_board(good + b"\n" * 65506, 1, [9] * 4), ((2, 2, 0, 30), [0, 1, 2, 3], None))
check("one byte more", read_board(good + b"\n" * 65507, 1, [9] * 4), (None, [9] * 4, (2, 20, 0, 0)))


# --- Boards that are written: docs/TEXT.md, "Boards" ----------------------------------------------

small = Lattice(2, 2, 1, [0, 1, 0xA2, 255])
small_text = b"board\t2\t2\t1\nrow\t0001\nrow\ta2ff\n"
check("exactly long enough", write_board(small, b"." * 30), (30, small_text, None))
check("longer", write_board(small, b"." * 33), (30, small_text + b"...", None))
check("too short", write_board(small, b"." * 29), (None, b"." * 29, 30))
check("no memory", write_board(small, b""), (None, b"", 30))
for cells in [[], [1, 2, 3], [1, 2, 3, 4, 5]]:
    part = Lattice(2, 2, 0, cells)
    check("not whole", write_board(part, b"." * 64), (None, b"." * 64, 10))
    check("not whole, and too short", write_board(part, b"."), (None, b".", 10))
wide = Lattice(4, 2, 0, [0, 1, 2, 3, 4, 5, 6, 7])
check("columns and rows", write_board(wide, b"." * 38), (38, b"board\t4\t2\t0\nrow\t00010203\nrow\t04050607\n", None))


def board_length(width, height):
    """What docs/TEXT.md says: H × (2 × W + 5), and the first line."""
    return height * (2 * width + 5) + len(f"board {width} {height} 0 ")


for width, height, length in [(2, 2, 30), (256, 64, 33103), (64, 256, 34063), (128, 128, 33424), (2, 256, 2318)]:
    check(f"the length of {width} by {height}", board_length(width, height), length)
    lattice = Lattice(width, height, 0, [0] * (width * height))
    check(f"the text of {width} by {height}", len(text_model.board_written(lattice)), length)
SIDES = range(2, 257, 2)
shapes = [(width, height) for width in SIDES for height in SIDES if model.start_refusal(width, height, 0) is None]
check("the longest board", max(board_length(width, height) for width, height in shapes), 34063)
check("at most 34,064", max(height * (2 * width + 5) + 16 for width, height in shapes), 34064)


# --- The same results in another way --------------------------------------------------------------

# What is accepted, written as patterns.

NUMBER = rb"(?:0|[1-9][0-9]{0,5})"
STEP_NUMBER = rb"(?:0|-?[1-9][0-9]{0,5})"
IN_SESSION = rb"(?:flip\t" + NUMBER + rb"\t" + NUMBER + rb"\t" + NUMBER + rb"\n|clear\n)"
PART = rb"(?:step\t" + STEP_NUMBER + rb"\n|undo\n|redo\n|open\n" + IN_SESSION + rb"*close\n)"
SCRIPT = re.compile(PART + rb"*", re.DOTALL)
BOARD_LINE = re.compile(rb"board\t(" + NUMBER + rb")\t(" + NUMBER + rb")\t([01])\n", re.DOTALL)


def is_script(text):
    return len(text) <= 65536 and SCRIPT.fullmatch(text) is not None


def board_text_in(text):
    """The part of a text that is a board, or None."""
    found = BOARD_LINE.match(text)
    if len(text) > 65536 or not text.endswith(b"\n") or found is None:
        return None
    width, height = int(found[1]), int(found[2])
    if model.start_refusal(width, height, 0) is not None:
        return None
    rows = re.compile(rb"(?:row\t[0-9a-f]{%d}\n){%d}" % (2 * width, height)).match(text, found.end())
    if rows is None:
        return None
    return text[: rows.end()]


def moved(fault, lines):
    """The fault where the number of the first line is larger by this."""
    layer, number, line, field = fault
    return (layer, number, line if number in [20, 30] else line + lines, field)


def lines_up_to(text, line):
    """The text up to the end of a line."""
    finished, _ = text_model.lines(text)
    return b"".join(part + b"\n" for part in finished[:line])


def check_script_in_other_ways(text):
    records, fault = check_script(text, 1)
    check(f"script {text}: accepted", fault is None, is_script(text))
    for first in [2, 7, 4294967296]:
        there = (records, None) if fault is None else (None, moved(fault, first - 1))
        check(f"script {text} from line {first}", check_script(text, first), there)
    if fault is None:
        check(f"script {text} written", text_model.script_written(records), text)
        check(f"script {text}: a record on each line", len(records), text.count(b"\n"))
    elif fault[1] in [22, 23, 24, 25]:
        # nothing after that line matters, and with nothing wrong before it
        _, _, line, _ = fault
        up_to_it = lines_up_to(text, line)
        check(f"script {text}: the rest of it", check_script(up_to_it, 1), (None, fault))
        check(f"script {text}: more of it", check_script(up_to_it + b"stop\n\t\n", 1), (None, fault))
        _, before = check_script(lines_up_to(text, line - 1), 1)
        check(f"script {text}: before it", before, None if before is None else (2, 26, line, 0))


def check_board_in_other_ways(text):
    answer, fault = check_board(text, 1)
    board = board_text_in(text)
    check(f"board {text}: accepted", fault is None, board is not None)
    for first in [2, 7, 4294967296]:
        there = (answer, None) if fault is None else (None, moved(fault, first - 1))
        check(f"board {text} from line {first}", check_board(text, first), there)
    if fault is None:
        width, height, phase, taken = answer
        area = width * height
        check(f"board {text}: taken", text[:taken], board)
        check(f"board {text}: nothing behind it", check_board(board, 1), (answer, None))
        check(f"board {text}: more behind it", check_board(board + b"stop\n\t\n", 1), (answer, None))
        digits = b"".join(line[4:] for line in board.split(b"\n")[1:])
        cells = list(bytes.fromhex(digits.decode()))
        for memory in [[9] * area, [7] * area + [1, 2, 3]]:
            check(f"board {text} read", read_board(text, 1, memory), (answer, cells + memory[area:], None))
        for size in [0, area - 1]:
            memory = [9] * size
            check(f"board {text}, memory {size}", read_board(text, 1, memory), (None, memory, (2, 30, 0, 0)))
        lattice = Lattice(width, height, phase, cells)
        check(f"board {text} written back", write_board(lattice, b"." * taken), (taken, board, None))
        check(f"board {text} written short", write_board(lattice, b"." * (taken - 1)), (None, b"." * (taken - 1), 30))
    else:
        for memory in [[], [9] * 100]:
            check(f"board {text} refused", read_board(text, 1, memory), (None, memory, fault))
        if fault[1] not in [20, 21, 32]:
            up_to_it = lines_up_to(text, fault[2])
            check(f"board {text}: the rest of it", check_board(up_to_it, 1), (None, fault))
            check(f"board {text}: more of it", check_board(up_to_it + b"stop\n\t\n", 1), (None, fault))
            before = lines_up_to(text, fault[2] - 1)
            check(f"board {text}: before it", check_board(before, 1), (None, (2, 32, fault[2], 0)))


for _, _, _, text in text_vectors.vectors:
    check_script_in_other_ways(text)
    check_board_in_other_ways(text)
for _, text in read_texts.FILES:
    check_script_in_other_ways(text)
    check_board_in_other_ways(text)

# every script of up to three of these lines
SOME_LINES = [
    "", "undo", "redo ", "step 1", "step -0", "step", "stop",
    "open", "flip 0 0 1", "flip 0 x 1", "flip 0 0", "clear", "close",
]
some_scripts = [[]]
for _ in range(3):
    some_scripts += [lines + [line] for lines in some_scripts for line in SOME_LINES]
for lines in some_scripts:
    check_script_in_other_ways(text_of(*lines))


# --- There and back -------------------------------------------------------------------------------

# the same records and lattices in each run
chance = random.Random(2)


def any_number():
    return chance.randrange(10 ** chance.randrange(1, 7))


def any_records(count):
    """Any records, in an order that the check of a script accepts."""
    records = []
    rests = True
    for _ in range(count):
        word = chance.choice(["step", "undo", "redo", "open"] if rests else ["flip", "flip", "clear", "close"])
        if word == "step":
            records.append(("step", chance.choice([1, -1]) * any_number()))
        elif word == "flip":
            records.append(("flip", any_number(), any_number(), any_number()))
        else:
            records.append((word,))
        if word in ["open", "close"]:
            rests = not rests
    if not rests:
        records.append(("close",))
    return records


for count in range(300):
    records = any_records(count)
    text = text_model.script_written(records)
    check(f"written and read: {records}", check_script(text, 1), (records, None))
    check_script_in_other_ways(text)
    # and damaged: where that is accepted, its records are to give it again when they are written
    if count % 5 == 1:
        for damage in text_vectors.DAMAGES:
            check_script_in_other_ways(damage(text))

for width, height in [(2, 2), (2, 4), (4, 2), (6, 4), (16, 10), (10, 16), (256, 2), (2, 256), (128, 128), (64, 256)]:
    for phase in [0, 1]:
        area = width * height
        lattice = Lattice(width, height, phase, [chance.randrange(256) for _ in range(area)])
        length, memory, refusal = write_board(lattice, b"." * 34064)
        check("written", refusal, None)
        check("the bytes after it are left", memory[length:], b"." * (34064 - length))
        for behind in [b"", b"undo\n"]:
            answer = (width, height, phase, length)
            read = read_board(memory[:length] + behind, 1, [9] * (area + 3))
            check(f"{width} by {height}, written and read", read, (answer, lattice.cells + [9, 9, 9], None))
        if area <= 24:
            for damage in text_vectors.DAMAGES * 5:
                check_board_in_other_ways(damage(memory[:length]))


# --- The texts for the programs -------------------------------------------------------------------

check("the vectors differ", len(set(text_vectors.vectors)), len(text_vectors.vectors))
input_lines = [text_vectors.input_line(vector) for vector in text_vectors.vectors]
output_lines = [text_vectors.output_line(vector) for vector in text_vectors.vectors]
check("the vectors are short", sum(len(line) + 1 for line in input_lines + output_lines) < 350000, True)
check("what is written back is what was read", [line for line in output_lines if line.endswith("other")], [])

# kind, number of the cause, and field
causes = Counter()
for (kind, _, _, _), line in zip(text_vectors.vectors, output_lines):
    parts = line.split(" ")
    causes[(kind, "ok") if parts[0] == "ok" else (kind, int(parts[2]), int(parts[4]))] += 1
wanted = [
    ("script", "ok"), ("script", 21, 0), ("script", 22, 2), ("script", 22, 3), ("script", 22, 4), ("script", 23, 1),
    ("script", 24, 0), ("script", 25, 0), ("script", 26, 0),
    ("board", "ok"), ("board", 1, 0), ("board", 2, 0), ("board", 3, 0), ("board", 21, 0), ("board", 22, 2), ("board", 22, 3),
    ("board", 22, 4), ("board", 23, 1), ("board", 24, 0), ("board", 30, 0), ("board", 31, 2), ("board", 32, 0),
]
check("the causes that come", set(causes), set(wanted))
for cause in wanted:
    check(f"at least 10 of {cause}", causes[cause] >= 10, True)

names = [name for name, _ in read_texts.FILES]
check("the names of the files differ", len(set(names)), len(names))
met = set()
for name, text in read_texts.FILES:
    first_line = read_texts.printed(name, text).split("\n")[0].split("\t")
    if first_line[1] == "fault":
        met.add(int(first_line[3]))
# 30 is not met, since the memory of that program is large enough for every board
check("each cause has a file", met, {1, 2, 3, 20, 21, 22, 23, 24, 25, 26, 31, 32})
files = dict(read_texts.FILES)
check("too long by a byte", len(files["too_long.script"]), 65537)
check("good but for its length", SCRIPT.fullmatch(files["too_long.script"]) is not None, True)
for name, printed in [
    ("good.script", "good.script\tscript\t10\n"),
    ("empty.script", "empty.script\tscript\t0\n"),
    ("nul_byte.script", "nul_byte.script\tfault\t1\t22\t2\t3\n"),
    ("missing_row.board", "missing_row.board\tfault\t2\t32\t5\t0\n"),
    (
        "board_with_script_behind.board",
        "board_with_script_behind.board\tboard\t2\t4\t1\t48\n"
        "board\t2\t4\t1\nrow\t0123\nrow\t4567\nrow\t89ab\nrow\tcdef\n",
    ),
]:
    check(f"what is printed for {name}", read_texts.printed(name, files[name]), printed)


tell_passed("text model")
