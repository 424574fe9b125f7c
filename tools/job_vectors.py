"""Prints input and output of the program `job_vectors`, computed by the model.

With the argument `stdin` it prints the lines that the program reads, with `stdout` what it prints for
them. Both are the same in each run.
"""

import sys

import bench_model
import job_model
import jobs
import model
import text_model
import text_vectors
from model import Lattice
from samples import digest
from text_vectors import chance, text_of, text_of_lines

# begun anew, so that the jobs do not depend on how many texts `text_vectors` makes
chance.seed(2)


# --- The lines of the input -----------------------------------------------------------------------

# Size of the cells memory and text; in their order, and none twice.
vectors = []
seen = set()


def add(text, size):
    if (size, text) not in seen:
        seen.add((size, text))
        vectors.append((size, text))


def size_for(area):
    """Mostly as large as the board or larger, sometimes too short."""
    return area + chance.choice([0, 0, 0, 0, 1, 2, 7, 60, 0, -1])


# --- Boards and scripts ---------------------------------------------------------------------------

NAMES = list(model.NAMED_MAPS)


def map_line(name):
    return text_of(f"map {name}")


def any_board(width, height):
    # the free bits of half of the boards are 0
    largest = chance.choice([3, 255])
    cells = [chance.randint(0, largest) for _ in range(width * height)]
    return text_model.board_written(Lattice(width, height, chance.randrange(2), cells))


def any_shape():
    # the larger ones are rarer, for their length
    return chance.choice([2, 2, 2, 4, 4, 6, 8]), chance.choice([2, 2, 2, 4, 4, 6, 8])


def any_opening(width, height):
    """Map line and board."""
    return map_line(chance.choice(NAMES)) + any_board(width, height)


def step():
    return ("step", chance.choice([1, 1, 1, 2, 3, 5, 12, -1, -1, -2, -3, -7]))


def flip(width, height):
    mask = chance.choice([1, 2, 3, 255, chance.randint(1, 255)])
    return ("flip", chance.randrange(width), chance.randrange(height), mask)


def in_session(width, height):
    return [("clear",) if chance.randrange(6) == 0 else flip(width, height) for _ in range(chance.randrange(5))]


def session(width, height):
    return [("open",), *in_session(width, height), ("close",)]


def good_records(width, height, parts):
    """Records that a bench makes: so many parts, of which each is a record or a session."""
    bench = bench_model.new_bench(model.BBM, Lattice(width, height, 0, [0] * (width * height)))
    records = []
    for _ in range(parts):
        choices = [[step()], [step()], session(width, height)]
        if bench.standing:
            choices += [[("undo",)], [("undo",)]]
        if bench.undone:
            # they are rarer otherwise, as most records forget what was undone
            choices += [[("redo",)]] * 3
        part = chance.choice(choices)
        for record in part:
            bench, _, _ = bench_model.call(bench, record, width * height)
        records += part
    return records


def good_script(width, height, parts):
    return text_model.script_written(good_records(width, height, parts))


def any_script(width, height):
    return good_script(width, height, chance.randrange(5))


def good_job(width, height, parts):
    return any_opening(width, height) + good_script(width, height, parts)


# --- The examples, and memories of many sizes -----------------------------------------------------

for name, text in jobs.FILES:
    if len(text) < 10000:
        add(text, 4)
        add(text, chance.choice([384, 400]))
for size in range(7):
    add(jobs.FIRST, size)
    add(jobs.EDITED, 21 + size)
# the longest steps
for count in [9999, 10000, -10000]:
    add(text_of("map bbm", "board 2 2 0", "row 0100", "row 0203", f"step {count}", "step 1"), 5)
    add(text_of("map tron", "board 2 2 1", "row 0100", "row 0000", "step -1", f"step {count}", "undo"), 4)


# --- Jobs that are cut after each of their bytes --------------------------------------------------


def job_to_cut(name):
    return text_of(
        f"map {name}", "board 2 2 1", "row 0100", "row 0283", "step 3", "open", "flip 1 0 3", "close", "undo", "redo",
        "open", "flip 0 1 129", "clear", "close", "step -1", "undo",
    )


for name in NAMES:
    for at in range(1 + len(job_to_cut(name))):
        add(job_to_cut(name)[:at], 5)
# and with a newline after the cut
for at in range(1 + len(job_to_cut("critters"))):
    add(job_to_cut("critters")[:at] + b"\n", 5)


# --- The longest jobs and the largest boards ------------------------------------------------------

# 65,536 bytes
PAIRS = text_of("step 1", "undo") * 5456 + text_of("step 10", "undo") * 2
LONGEST = jobs.OPENING + PAIRS
add(LONGEST, 4)
# a line more, and then a byte more, which is no newline
add(LONGEST + b"\n", 4)
add(LONGEST + b"u", 4)

for which, (width, height) in enumerate([(256, 64), (64, 256), (128, 128)]):
    for other, name in enumerate(["critters", "life2", "mixed"]):
        moved = text_of("step 1" if (which + other) % 2 == 0 else "step -1")
        add(map_line(name) + any_board(width, height) + moved, 16384 + 100 * other)
# 30, but not in `lab`
add(map_line("bbm") + any_board(128, 128) + text_of("step 1"), 16383)


# --- Faults of the text as a whole ----------------------------------------------------------------

for text in [b"m", b"map", b"map\t", b"map\tbbm", b"\t", b"\x00", b"\xff", b"\r", b"map\tlife\nboard", b"map\tbbm\n\t"]:
    add(text, 4)
for parts in range(1, 10):
    width, height = any_shape()
    text = good_job(width, height, parts)
    add(text[:-1], size_for(width * height))
    add(text + b"undo", size_for(width * height))
    # 21 before all others
    add(text_of("map life") + text[:-1], width * height)
    add(text.replace(b"row", b"Row") + b"\r", width * height)


# --- Faults of the map line -----------------------------------------------------------------------

BAD_MAP_LINES = [
    # 23
    "", "Map bbm", "MAP bbm", "ma bbm", "maps bbm", "ap bbm", " map bbm", " map", "map\r bbm", "\x00map bbm",
    "\xffap bbm", "mapbbm", "bbm", "board 2 2 0", "row 0000", "step 1", "open", "\r", "\xef\xbb\xbfmap bbm",
    # 23 before 24 and 9
    "Map", "maps bbm bbm", "Map life", " ", "  ",
    # 24
    "map", "map bbm ", "map  bbm", "map bbm bbm", "map bbm 2 2", "map bbm critters tron life2", "map  ",
    # 24 before 9
    "map life life", "map life ", "map BBM ",
    # 9
    "map ", "map life", "map Bbm", "map BBM", "map bb", "map bbmm", "map bbm\r", "map bbm\x00", "map \x00bbm",
    "map bbm\xa0", "map life\x002", "map life3", "map Life2", "map lif2", "map critter",
    "map critters\r", "map crittersx", "map Critters", "map tro", "map trons", "map mixe", "map mixed2", "map mixed\r",
    "map exchange", "map complement", "map 0", "map \xff", "map \r",
]
for which, line in enumerate(BAD_MAP_LINES):
    width, height = any_shape()
    rest = any_board(width, height) + any_script(width, height)
    add(text_of(line) + rest, size_for(width * height))
    others = [b"", rest[:-2] + b"\n", text_of("board 3 2 0"), rest + text_of("undo undo"), map_line("bbm") + rest]
    add(text_of(line) + others[which % len(others)], 4)


# --- Faults of the board --------------------------------------------------------------------------


def with_line(text, at, line):
    """The text with another line at this place, counted from 0."""
    lines, _ = text_model.lines(text)
    return text_of_lines(lines[:at] + [line] + lines[at + 1 :])


# every other one of them, as `text_vectors` has them all
for line in text_vectors.BAD_BOARD_LINES[::2]:
    rows = text_of("row 0102", "row a0ff")
    text = map_line(chance.choice(NAMES)) + text_of(line) + chance.choice([rows, rows, b""])
    add(text + any_script(2, 2), chance.choice([4, 5, 3]))

for width, height in [(2, 2), (2, 4), (4, 2), (6, 4), (2, 8), (8, 6)]:
    for at in range(2, 2 + height):
        text = any_opening(width, height)
        digits = text_model.fields(text_model.lines(text)[0][at])[1]
        bad_rows = text_vectors.bad_rows(digits)
        for line in chance.sample(bad_rows, 16 if (width, height) == (2, 2) else 4):
            add(with_line(text, at, line) + any_script(width, height), size_for(width * height))

# 32
for width, height in [(2, 2), (4, 4), (2, 8)]:
    lines, _ = text_model.lines(any_opening(width, height))
    for there in range(2 + height):
        add(text_of_lines(lines[:there]), width * height)
        # 23, since the next line is no row
        add(text_of_lines(lines[:there]) + text_of("step 1"), width * height - 1)
for line in ["board 256 64 0", "board 128 128 1", "board 2 256 0"]:
    add(map_line("mixed") + text_of(line), 16384)

# 30
for width, height in [(2, 2), (4, 2), (6, 4), (8, 8)]:
    area = width * height
    for size in [0, 1, area // 2, area - 1]:
        opening = any_opening(width, height)
        add(opening + any_script(width, height), size)
        # before the faults of the script, and after the others of the board
        add(opening + text_of(chance.choice(text_vectors.BAD_AT_REST)), size)
        add(opening + text_of("undo"), size)
        add(with_line(opening, 1 + height, b"row\t0"), size)
add(map_line("tron") + any_board(2, 256), 511)
add(map_line("tron") + any_board(256, 2) + text_of("step 2"), 512)


# --- Faults of the script's text ------------------------------------------------------------------


def opened(width, height):
    """A session that is still open."""
    return [("open",), *in_session(width, height)]


def add_bad_line(line, is_in_session):
    """A line after good records, and sometimes also before others."""
    width, height = any_shape()
    before = good_records(width, height, chance.randrange(4))
    after = good_records(width, height, chance.randrange(4))
    if is_in_session:
        before = before + opened(width, height)
        after = [*in_session(width, height), ("close",)]
    text = any_opening(width, height) + text_model.script_written(before) + text_of(line)
    if chance.randrange(2) == 0:
        text += text_model.script_written(after)
    add(text, size_for(width * height))


for line in text_vectors.BAD_AT_REST:
    add_bad_line(line, False)
for line in text_vectors.BAD_IN_SESSION:
    add_bad_line(line, True)
# 25, and sometimes 22 as well
for _ in range(6):
    for line in ["flip 0 0 1", "flip 0 0 01", "clear", "close"]:
        add_bad_line(line, False)
    for line in ["step 1", "step 01", "undo", "redo", "open"]:
        add_bad_line(line, True)

# 26, also after records that the bench would refuse
for parts in range(8):
    width, height = any_shape()
    text = good_job(width, height, parts) + text_model.script_written(opened(width, height))
    add(text, size_for(width * height))
    add(text + text_of("flip 8 8 0"), width * height)
    add(any_opening(width, height) + text_of("undo", "open"), width * height)


# --- Records that the bench refuses ---------------------------------------------------------------

REFUSED_AT_REST = [
    [("step", 0)], [("step", 10001)], [("step", -10001)], [("step", 999999)], [("step", -999999)],
    # after a step nothing is undone, and after more undos than actions nothing stands
    [("step", 1), ("redo",)], [("step", -1), ("undo",), ("redo",), ("redo",)], [("undo",)] * 12,
    [("step", 2), ("undo",), ("open",), ("close",), ("redo",)], [("redo",)] * 12,
    [("open",), ("flip", 1, 1, 2), ("close",)] + [("undo",)] * 8,
    [("step", 1), ("step", 2), ("undo",)] * 2 + [("undo",)] * 7,
]


def refused_flips(width, height):
    """Each is refused: with 15, with 15 before 16, and with 16."""
    return [
        ("flip", width, 0, 1), ("flip", 0, height, 1), ("flip", width, height, 255), ("flip", 999999, 0, 3),
        ("flip", 0, 999999, 3), ("flip", width, 0, 0), ("flip", 0, height, 256), ("flip", 999999, 999999, 999999),
        ("flip", 0, 0, 0), ("flip", width - 1, height - 1, 256), ("flip", 0, 0, 999999), ("flip", width - 1, 0, 0),
    ]


def add_refused(width, height, records):
    """A job of these records, with good ones around them."""
    before = good_records(width, height, chance.randrange(4))
    script = text_model.script_written(before + records + good_records(width, height, chance.randrange(3)))
    add(any_opening(width, height) + script, width * height + chance.choice([0, 0, 3]))


for records in REFUSED_AT_REST:
    for _ in range(8):
        add_refused(*any_shape(), records)
for _ in range(5):
    for which in range(12):
        # the flips before it are taken back
        width, height = any_shape()
        refused = refused_flips(width, height)[which]
        add_refused(width, height, [*opened(width, height), refused, *in_session(width, height), ("close",)])


# --- A journal that is full -----------------------------------------------------------------------

STEPS = text_of("step 1", "step -1") * 128
FLIPS = text_of("flip 1 1 1", "flip 0 1 255") * 128
FILLED = [
    # 256 entries are taken
    b"",
    text_of("undo", "step 2"),
    text_of("undo", "open", "flip 0 0 1", "close"),
    text_of("undo", "redo", "undo", "undo", "redo"),
    text_of("open", "clear", "close"),
    # 17
    text_of("step 2"),
    text_of("open", "flip 0 0 1", "close"),
    text_of("undo", "open", "flip 0 0 1", "flip 0 0 2", "close"),
    text_of("undo", "redo", "step 1"),
    # 11, 15 and 16 before 17
    text_of("step 0"),
    text_of("open", "flip 2 0 1", "close"),
    text_of("open", "flip 0 0 0", "close"),
    # what was undone is forgotten, so there is nothing to redo
    text_of("undo", "undo", "open", "close", "redo"),
]
for which, more in enumerate(FILLED):
    opening = any_opening(2, 2)
    add(opening + STEPS + more, 4)
    # as one edit, which an undo takes back whole
    add(opening + text_of("open") + FLIPS + text_of("close") + more, 6)
    if which % 3 == 0:
        add(opening + text_of("step 3", "open") + FLIPS + text_of("close"), 5)
        add(opening + text_of("open") + FLIPS + text_of("clear") + FLIPS + text_of("close"), 5)
        add(opening + STEPS[: len(STEPS) // 2] + text_of("open") + FLIPS[: len(FLIPS) // 2] + text_of("close") + more, 4)


# --- Random jobs, good and damaged ----------------------------------------------------------------

# The model makes every step, so jobs in which more of them stand on some line are left out.
MOST_MOVES = 300


def moves_in(text):
    cut = [text_model.fields(line) for line in text.split(b"\n")]
    counts = [text_model.number_of_step(line[1]) or 0 for line in cut if line[0] == b"step" and len(line) == 2]
    return sum(abs(count) for count in counts if abs(count) <= bench_model.LARGEST_COUNT)


for _ in range(65):
    for name in NAMES:
        width, height = any_shape()
        text = map_line(name) + any_board(width, height) + good_script(width, height, chance.randrange(9))
        add(text, size_for(width * height))
for _ in range(10):
    for damage in text_vectors.DAMAGES:
        width, height = any_shape()
        text = text_vectors.damaged(good_job(width, height, chance.randrange(1, 6)), damage)
        if moves_in(text) <= MOST_MOVES:
            add(text, size_for(width * height))


# --- Several faults -------------------------------------------------------------------------------


def any_bad_script(width, height):
    bad = chance.choice([text_vectors.BAD_AT_REST, text_vectors.BAD_IN_SESSION, ["undo", "redo", "step 0", "open"]])
    return any_script(width, height) + text_of(chance.choice(bad))


for _ in range(110):
    width, height = any_shape()
    name = map_line(chance.choice(NAMES))
    lines, _ = text_model.lines(any_board(width, height))
    if chance.randrange(4) == 0:
        name = text_of(chance.choice(BAD_MAP_LINES))
    if chance.randrange(4) == 0:
        lines[0] = text_of(chance.choice(text_vectors.BAD_BOARD_LINES))[:-1]
    if chance.randrange(3) == 0:
        at = chance.randrange(1, 1 + height)
        lines[at] = chance.choice(text_vectors.bad_rows(b"0123456789abcdef"[: 2 * width]))
    script = chance.choice([any_bad_script, any_bad_script, any_script])(width, height)
    add(name + text_of_lines(lines) + script, width * height + chance.choice([0, 1, -1]))


# --- What is printed ------------------------------------------------------------------------------


def input_line(vector):
    size, text = vector
    return f"{size} {text.hex() if text != b'' else '-'}"


def output_line(vector):
    size, text = vector
    memory = text_vectors.memory_before(size)
    done, fault = job_model.run_job(text, memory)
    if fault is not None:
        told = ["fault", *fault]
    else:
        held = bench_model.held(done.bench)
        counts = job_model.of_the_bench(bench_model.counts(done.bench))
        told = ["done", done.made, *counts, held.width, held.height, held.phase]
    printed = job_model.lab(text)
    digests = [digest(memory), len(printed), digest(printed)]
    return text_vectors.blanks_between(told + digests)


if __name__ == "__main__":
    for vector in vectors:
        print(input_line(vector) if sys.argv[1] == "stdin" else output_line(vector))
