"""Checks the model of jobs against what docs/TEXT.md and docs/PROGRAMS.md say."""

import re
from collections import Counter

import bench_model
import job_model
import job_vectors
import jobs
import model
import text_model
import text_vectors
from checks import check, tell_passed
from job_model import home_and_mirror, lab, run_job
from model import Lattice
from text_vectors import text_of

# --- The worked example, by hand ------------------------------------------------------------------

HEAD = ["map bbm", "board 2 2 0", "row 0100", "row 0000"]
EXAMPLE = text_of(*HEAD, "step 1", "open", "flip 0 0 1", "close", "step -1")
check("the worked example has a file", jobs.FIRST, EXAMPLE)
check("lab", lab(EXAMPLE), text_of("done 5 0 3 0", "board 2 2 0", "row 0001", "row 0100"))


def answers(*lines):
    """Lines that end with `yes` or `no`: only the last space of each is a tab."""
    return b"".join("\t".join(line.rsplit(" ", 1)).encode() + b"\n" for line in lines)


SAME = answers("the same cells yes", "the same phase yes", "the same counts yes", "the clock negated yes")
HOME = answers("the opening board yes", "the clock negated yes")
check(
    "home and mirror",
    home_and_mirror(EXAMPLE),
    text_of("done 5 0 3 0", "board 2 2 0", "row 0001", "row 0100", "home 5 0 3 0", *HEAD[1:]) + HOME + text_of("mirror 0 3 0") + SAME,
)
# critters, forward from one cell and then back, as on the page on the maps; an undo that is not redone
undone = text_of("map critters", *HEAD[1:], "step 1", "open", "flip 1 0 128", "close", "undo")
check("lab, undone", lab(undone), text_of("done 5 1 1 1", "board 2 2 1", "row 0001", "row 0101"))
check(
    "home and mirror, undone",
    home_and_mirror(undone),
    text_of("done 5 1 1 1", "board 2 2 1", "row 0001", "row 0101", "home 1 -1 1 0", *HEAD[1:]) + HOME + text_of("mirror -1 1 1") + SAME,
)
empty = text_of("map mixed", "board 2 2 1", "row 01ff", "row 0203")
check("lab, an empty script", lab(empty), text_of("done 0 0 0 0", "board 2 2 1", "row 01ff", "row 0203"))
check(
    "home and mirror, an empty script",
    home_and_mirror(empty),
    text_of("done 0 0 0 0", "board 2 2 1", "row 01ff", "row 0203", "home 0 0 0 0", "board 2 2 1", "row 01ff", "row 0203")
    + HOME
    + text_of("mirror 0 0 0")
    + SAME,
)


# --- Memory and counts of jobs that are done, by hand ---------------------------------------------


def memory_of(hexadecimal):
    return list(bytes.fromhex(hexadecimal))


def check_done(name, script, made, clock, standing, undone, phase, cells):
    """A job over the board 2 2 0 with one cell; four cells of the memory are written, and two are not."""
    text = text_of("map " + name, *HEAD[1:], *script)
    memory = [9] * 6
    done, fault = run_job(text, memory)
    check(f"{script}: fault", fault, None)
    check(f"{script}: made", done.made, made)
    check(f"{script}: counts", bench_model.counts(done.bench), (standing, undone, clock, phase))
    check(f"{script}: memory", memory, memory_of(cells) + [9, 9])
    board = Lattice(2, 2, phase, memory[:4])
    printed = text_of(f"done {made} {clock} {standing} {undone}") + text_model.board_written(board)
    check(f"{script}: lab", lab(text), printed)


for name, script, made, clock, standing, undone, phase, cells in [
    ("bbm", [], 0, 0, 0, 0, 0, "01000000"),
    ("bbm", ["step 1"], 1, 1, 1, 0, 1, "00000001"),
    ("bbm", ["step -1"], 1, -1, 1, 0, 1, "00000001"),
    ("bbm", ["step 2"], 1, 2, 1, 0, 0, "01000000"),
    ("critters", ["step 1"], 1, 1, 1, 0, 1, "00010101"),
    ("critters", ["step -1"], 1, -1, 1, 0, 1, "01010100"),
    ("tron", ["step 1"], 1, 1, 1, 0, 1, "01000000"),
    ("bbm", ["step 1", "undo"], 2, 0, 0, 1, 0, "01000000"),
    ("bbm", ["step 1", "undo", "redo"], 3, 1, 1, 0, 1, "00000001"),
    ("bbm", ["open", "close"], 2, 0, 0, 0, 0, "01000000"),
    ("bbm", ["open", "flip 1 0 255", "flip 1 0 15", "close"], 4, 0, 1, 0, 0, "01f00000"),
    ("bbm", ["open", "flip 1 0 255", "clear", "close"], 4, 0, 0, 0, 0, "01000000"),
    ("bbm", ["open", "flip 0 1 2", "close", "step 1", "undo", "undo"], 6, 0, 0, 2, 0, "01000000"),
    # a session forgets what was undone
    ("bbm", ["step 1", "undo", "open", "clear", "close"], 5, 0, 0, 0, 0, "01000000"),
    # 256 entries, and then one for another
    ("bbm", ["step 1"] * 256, 256, 256, 256, 0, 0, "01000000"),
    ("bbm", ["step 1"] * 256 + ["undo", "step -1"], 258, 254, 256, 0, 0, "01000000"),
]:
    check_done(name, script, made, clock, standing, undone, phase, cells)


# --- Faults, by hand ------------------------------------------------------------------------------


def check_fault(what, text, fault, cells=None, size=6):
    """The four numbers, and the cells at the beginning of the memory where it is written."""
    memory = [9] * size
    check(f"{what}: fault", run_job(text, memory), (None, fault))
    check(f"{what}: memory", memory, [9] * size if cells is None else memory_of(cells) + [9, 9])
    if size >= 4:
        line = text_of("fault " + " ".join(str(part) for part in fault))
        check(f"{what}: lab", lab(text), line)
        check(f"{what}: home and mirror", home_and_mirror(text), line)


# faults of the text: the memory is as before
for lines, fault in [
    # the map line
    ([""], (2, 23, 1, 1)),
    (["Map bbm"], (2, 23, 1, 1)),
    (["map\r bbm"], (2, 23, 1, 1)),
    (["board 2 2 0", *HEAD[2:]], (2, 23, 1, 1)),
    (["map"], (2, 24, 1, 0)),
    (["map bbm "], (2, 24, 1, 0)),
    (["map bbm critters", *HEAD[1:]], (2, 24, 1, 0)),
    (["map life", *HEAD[1:]], (2, 9, 1, 2)),
    (["map BBM", *HEAD[1:]], (2, 9, 1, 2)),
    (["map bbm\r", *HEAD[1:]], (2, 9, 1, 2)),
    (["map ", *HEAD[1:]], (2, 9, 1, 2)),
    (["map exchange", *HEAD[1:]], (2, 9, 1, 2)),
    (["map \xff", *HEAD[1:]], (2, 9, 1, 2)),
    # the board
    (HEAD[:1], (2, 32, 2, 0)),
    (HEAD[:2], (2, 32, 3, 0)),
    (HEAD[:3], (2, 32, 4, 0)),
    (["map bbm", "", *HEAD[1:]], (2, 23, 2, 1)),
    (["map bbm", "map bbm", *HEAD[1:]], (2, 23, 2, 1)),
    (["map bbm", "board 2 2"], (2, 24, 2, 0)),
    (["map bbm", "board x 2 0"], (1, 22, 2, 2)),
    (["map bbm", "board 2 02 0"], (1, 22, 2, 3)),
    (["map bbm", "board 2 2 -0"], (1, 22, 2, 4)),
    (["map bbm", "board 3 2 0"], (2, 1, 2, 0)),
    (["map bbm", "board 256 66 0"], (2, 2, 2, 0)),
    (["map bbm", "board 2 2 2"], (2, 3, 2, 0)),
    ([*HEAD[:2], "Row 0100"], (2, 23, 3, 1)),
    ([*HEAD[:3], "step 1"], (2, 23, 4, 1)),
    ([*HEAD[:3], "row"], (2, 24, 4, 0)),
    ([*HEAD[:2], "row 01 00"], (2, 24, 3, 0)),
    ([*HEAD[:2], "row 010"], (1, 31, 3, 2)),
    ([*HEAD[:3], "row 00F0"], (1, 31, 4, 2)),
    # the script
    ([*HEAD, ""], (2, 23, 5, 1)),
    ([*HEAD, "row 0000"], (2, 23, 5, 1)),
    ([*HEAD, "step 1", "undo 1"], (2, 24, 6, 0)),
    ([*HEAD, "step 1", "close"], (2, 25, 6, 0)),
    ([*HEAD, "open", "step 1", "close"], (2, 25, 6, 0)),
    ([*HEAD, "step 1", "step 01"], (1, 22, 6, 2)),
    ([*HEAD, "open", "flip 0 0 -1", "close"], (1, 22, 6, 4)),
    ([*HEAD, "open", "flip x y 1", "close"], (1, 22, 6, 2)),
    ([*HEAD, "open"], (2, 26, 6, 0)),
    ([*HEAD, "open", "flip 0 0 1"], (2, 26, 7, 0)),
    # the script begins on the line after the last row
    (["map bbm", "board 2 4 0", *["row 0000"] * 4, "stop"], (2, 23, 7, 1)),
    (["map bbm", "board 4 2 0", *["row 00000000"] * 2, "open"], (2, 26, 6, 0)),
]:
    check_fault(lines, text_of(*lines), fault, None, 8)

check_fault("no lines", b"", (2, 32, 1, 0))
check_fault("unfinished, line 1", b"map\tbbm", (2, 21, 1, 0))
check_fault("unfinished, line 2", b"map\tbbm\nboard", (2, 21, 2, 0))
check_fault("unfinished, line 9", EXAMPLE[:-1], (2, 21, 9, 0))
check_fault("unfinished, a tab", EXAMPLE + b"\t", (2, 21, 10, 0))

# faults of the run: what stands is in the memory, and flips of the session are not
for script, line, number, cells in [
    (["step 0"], 5, 11, "01000000"),
    (["step 10001"], 5, 11, "01000000"),
    (["step -10001"], 5, 11, "01000000"),
    (["step 1", "step 0", "step 1"], 6, 11, "00000001"),
    (["undo"], 5, 12, "01000000"),
    (["step 1", "undo", "undo"], 7, 12, "01000000"),
    (["redo"], 5, 13, "01000000"),
    (["step 1", "redo"], 6, 13, "00000001"),
    (["step 1", "undo", "redo", "redo"], 8, 13, "00000001"),
    (["step 1", "undo", "open", "close", "redo"], 9, 13, "01000000"),
    (["open", "flip 2 0 1", "close"], 6, 15, "01000000"),
    (["open", "flip 0 2 1", "close"], 6, 15, "01000000"),
    (["open", "flip 0 0 0", "close"], 6, 16, "01000000"),
    (["open", "flip 0 0 256", "close"], 6, 16, "01000000"),
    (["step 1", "open", "flip 0 0 1", "flip 1 0 2", "flip 0 2 1", "close"], 9, 15, "00000001"),
    (["open", "flip 1 1 255", "close", "open", "flip 0 0 1", "flip 0 0 0", "close"], 10, 16, "010000ff"),
    (["open", "flip 1 1 255", "clear", "flip 0 1 3", "flip 9 9 0", "close"], 9, 15, "01000000"),
    (["step 1"] * 257, 261, 17, "01000000"),
    (["step -1"] * 257 + ["undo"], 261, 17, "01000000"),
    (["step 1"] * 128 + ["open"] + ["flip 1 1 240"] * 129 + ["close"], 262, 17, "01000000"),
    (["open"] + ["flip 1 1 240"] * 255 + ["close", "step 1", "step 1"], 263, 17, "000000f1"),
]:
    check_fault(script, text_of(*HEAD, *script), (3, number, line, 0), cells)


# --- Two faults, and memories of all sizes, by hand -----------------------------------------------

LONG = text_of("step 1", "undo") * 5600
for what, text, fault in [
    ("20 before 21", EXAMPLE + LONG + b"u", (2, 20, 0, 0)),
    ("20 before 9", text_of("map life") + LONG, (2, 20, 0, 0)),
    ("21 before 23", text_of("Map bbm") + b"x", (2, 21, 2, 0)),
    ("21 before 9", text_of("map life") + EXAMPLE[:-1], (2, 21, 10, 0)),
    ("21 before 32", text_of(*HEAD[:3]) + b"row\t0000", (2, 21, 4, 0)),
    ("23 before 24", text_of("Map bbm bbm"), (2, 23, 1, 1)),
    ("23 before 9", text_of("Map life"), (2, 23, 1, 1)),
    ("24 before 9", text_of("map life life"), (2, 24, 1, 0)),
    ("24 before 32", text_of("map"), (2, 24, 1, 0)),
    ("9 before 32", text_of("map life"), (2, 9, 1, 2)),
    ("9 before 1", text_of("map life", "board 3 2 0"), (2, 9, 1, 2)),
    ("9 before 31", text_of("map life", *HEAD[1:3], "row 00"), (2, 9, 1, 2)),
    ("1 before 2 and 3", text_of("map bbm", "board 258 256 2"), (2, 1, 2, 0)),
    ("1 before a row's fault", text_of("map bbm", "board 3 2 0", "row"), (2, 1, 2, 0)),
    ("31 before 23 on a later line", text_of(*HEAD[:2], "row 0", "Row 0000"), (1, 31, 3, 2)),
    ("31 before 32", text_of(*HEAD[:2], "row 0"), (1, 31, 3, 2)),
    ("31 before the script's", text_of(*HEAD[:3], "row 0", "stop"), (1, 31, 4, 2)),
    ("the script's before those of its run", text_of(*HEAD, "undo", "step 0", "stop"), (2, 23, 7, 1)),
    ("26 before those of the run", text_of(*HEAD, "undo", "open"), (2, 26, 7, 0)),
    ("22 before 11", text_of(*HEAD, "step 0", "step 1000000"), (1, 22, 6, 2)),
]:
    check_fault(what, text, fault)
check_fault("15 before 16", text_of(*HEAD, "open", "flip 2 0 0", "close"), (3, 15, 6, 0), "01000000")
check_fault("11 before 17", text_of(*HEAD, *["step 1"] * 256, "step 0"), (3, 11, 261, 0), "01000000")

for size in range(4):
    check_fault(f"30, {size} cells", EXAMPLE, (2, 30, 0, 0), None, size)
    for what, text, fault in [
        ("30 before the script's", text_of(*HEAD, "stop"), (2, 30, 0, 0)),
        ("30 before the run's", text_of(*HEAD, "undo"), (2, 30, 0, 0)),
        ("9 before 30", text_of("map life", *HEAD[1:]), (2, 9, 1, 2)),
        ("31 before 30", text_of(*HEAD[:3], "row 000G"), (1, 31, 4, 2)),
        ("32 before 30", text_of(*HEAD[:3]), (2, 32, 4, 0)),
        ("26 behind 30", text_of(*HEAD, "open"), (2, 30, 0, 0)),
    ]:
        check_fault(f"{what}, {size} cells", text, fault, None, size)
for size in range(4, 9):
    memory = [9] * size
    check(f"{size} cells: fault", run_job(EXAMPLE, memory)[1], None)
    check(f"{size} cells: memory", memory, [0, 1, 1, 0] + [9] * (size - 4))


# --- A second way: patterns for the text, and pictures of the lattice for the run -----------------

AT_REST = rb"(?:step\t(?:0|-?[1-9][0-9]{0,5})|undo|redo)\n"
A_NUMBER = rb"(?:0|[1-9][0-9]{0,5})"
IN_SESSION = rb"(?:flip\t%b\t%b\t%b|clear)\n" % (A_NUMBER, A_NUMBER, A_NUMBER)
SCRIPT = rb"(?:%b|open\n(?:%b)*close\n)*" % (AT_REST, IN_SESSION)
JOB = re.compile(
    rb"map\t(bbm|critters|tron|life2|mixed)\nboard\t(%b)\t(%b)\t([01])\n((?:row\t[0-9a-f]+\n)+)(%b)"
    % (A_NUMBER, A_NUMBER, SCRIPT)
)


def parts_of(text, size):
    """Map, opening and records of a job of which the text has no fault, or None."""
    found = JOB.fullmatch(text)
    if found is None or len(text) > 65536:
        return None
    name, width, height, phase, rows, script = found.groups()
    width, height = int(width), int(height)
    if width not in range(2, 257, 2) or height not in range(2, 257, 2) or width * height > min(size, 16384):
        return None
    rows = [row.removeprefix(b"row\t") for row in rows.splitlines()]
    if [len(row) for row in rows] != [2 * width] * height:
        return None
    opening = Lattice(width, height, int(phase), list(bytes.fromhex(b"".join(rows).decode())))
    records = []
    for line in script.splitlines():
        word, *numbers = line.split(b"\t")
        records.append((word.decode(), *[int(number) for number in numbers]))
    return model.NAMED_MAPS[name.decode()], opening, records


class Pictures:
    """A bench that keeps the whole lattice as it was before each action, which a bench never does."""

    def __init__(self, the_map, opening):
        self.the_map = the_map
        self.lattice = opening
        # of each action: the lattices before and after it, its entries, and what it adds to the clock
        self.stand = []
        self.undone = []
        # the lattice at the beginning of the session, and how many flips it has
        self.session = None
        self.flips = 0

    def used(self):
        return sum(entries for _, _, entries, _ in self.stand) + self.flips

    def book(self, before, entries, count):
        self.stand.append((before, self.lattice, entries, count))
        self.undone = []

    def step(self, count):
        if not 1 <= abs(count) <= 10000:
            return 11
        if self.used() == 256:
            return 17
        before = self.lattice
        for _ in range(abs(count)):
            self.lattice = (self.the_map.forward if count > 0 else self.the_map.backward)(self.lattice)
        self.book(before, 1, count)

    def undo(self):
        if not self.stand:
            return 12
        self.undone.append(self.stand.pop())
        self.lattice = self.undone[-1][0]

    def redo(self):
        if not self.undone:
            return 13
        self.stand.append(self.undone.pop())
        self.lattice = self.stand[-1][1]

    def open(self):
        self.session = self.lattice
        self.undone = []

    def flip(self, col, row, mask):
        width, height = self.lattice.width, self.lattice.height
        if col >= width or row >= height:
            return 15
        if not 1 <= mask <= 255:
            return 16
        if self.used() == 256:
            return 17
        cells = list(self.lattice.cells)
        cells[row * width + col] ^= mask
        self.lattice = Lattice(width, height, self.lattice.phase, cells)
        self.flips += 1

    def clear(self):
        self.lattice = self.session
        self.flips = 0

    def close(self):
        flips, self.flips = self.flips, 0
        if flips > 0:
            self.book(self.session, flips, 0)
        self.session = None

    def run(self, records):
        """The number of the first record that is refused and the cause, or None."""
        for at, (word, *numbers) in enumerate(records):
            cause = getattr(self, word)(*numbers)
            if cause is not None:
                if self.session is not None:
                    self.clear()
                return at, cause
        return None

    def counts(self):
        clock = sum(count for _, _, _, count in self.stand)
        return len(self.stand), len(self.undone), clock, self.lattice.phase


def check_run_by_pictures(what, parts, done, fault, cells):
    the_map, opening, records = parts
    other = Pictures(the_map, opening)
    refused = other.run(records)
    check(f"{what}: the cells", cells, other.lattice.cells)
    if refused is None:
        check(f"{what}: made", (done.made, fault), (len(records), None))
        check(f"{what}: counts", bench_model.counts(done.bench), other.counts())
    else:
        at, cause = refused
        check(f"{what}: refused", (done, fault), (None, (3, cause, 3 + opening.height + at, 0)))


def check_first(what, text, size, fault):
    """That a fault of the text on a line does not depend on the lines after it, and that those before have none."""
    _, _, line, _ = fault
    lines, _ = text_model.lines(text)
    if line > len(lines):
        return
    _, same = run_job(text_vectors.text_of_lines(lines[:line]), [0] * size)
    check(f"{what}: without the lines behind", same, fault)
    before = text_vectors.text_of_lines(lines[: line - 1])
    _, earlier = run_job(before, [0] * size)
    # nothing, a refused record (which comes after the check of the text), or that the text ends too early
    found = earlier is None or earlier[0] == 3 or earlier[1:3] in [(26, line), (32, line)]
    check(f"{what}: only the lines before", found, True)


def check_in_other_ways(what, size, text):
    memory = text_vectors.memory_before(size)
    done, fault = run_job(text, memory)
    parts = parts_of(text, size)
    check(f"{what}: a fault of the text", fault is not None and fault[0] < 3, parts is None)
    if parts is None:
        check(f"{what}: the memory is kept", memory, text_vectors.memory_before(size))
        if fault[1] not in [20, 21, 30]:
            check_first(what, text, size, fault)
        return
    area = parts[1].width * parts[1].height
    check(f"{what}: the memory behind", memory[area:], text_vectors.memory_before(size)[area:])
    check_run_by_pictures(what, parts, done, fault, memory[:area])
    # `lab` prints the same, since its memory is large enough
    printed = lab(text).split(b"\n")
    if fault is not None:
        check(f"{what}: lab", printed, ["\t".join(str(part) for part in ["fault", *fault]).encode(), b""])
    else:
        check(f"{what}: lab", printed[0].split(b"\t")[:2], [b"done", b"%d" % done.made])
        cells = bytes.fromhex(b"".join(line.split(b"\t")[1] for line in printed[2:-1]).decode())
        check(f"{what}: the cells of lab", list(cells), memory[:area])


for size, text in job_vectors.vectors:
    check_in_other_ways(f"{size} {text[:200]}", size, text)


# --- The way back and the mirror ------------------------------------------------------------------


def check_home_and_mirror(what, text):
    """What is printed of a job that is done, computed from the output of `lab` and from the job itself."""
    done = lab(text)
    _, _, clock, standing, undone = done.split(b"\n")[0].split(b"\t")
    lines = text.split(b"\n")
    height = int(lines[1].split(b"\t")[2])
    everything = home_and_mirror(text)
    negated = b"%d" % -int(clock)
    check(f"{what}: what lab prints", everything[: len(done)], done)
    printed = everything[len(done) :].split(b"\n")
    home = printed[0].split(b"\t")
    check(f"{what}: home", (home[0], home[2:]), (b"home", [negated, standing, b"0"]))
    check(f"{what}: the opening board", printed[1 : 2 + height], lines[1 : 2 + height])
    mirror = b"\t".join([b"mirror", negated, standing, undone])
    rest = HOME + mirror + b"\n" + SAME
    check(f"{what}: the answers", b"\n".join(printed[2 + height :]), rest)


causes = Counter()
done_over = Counter()
for size, text in job_vectors.vectors:
    done, fault = run_job(text, text_vectors.memory_before(size))
    causes["done" if fault is None else fault[1]] += 1
    if fault is None:
        done_over[text.split(b"\n")[0]] += 1
        # the model makes every step
        if len(text) < 10000 and abs(bench_model.clock(done.bench)) < 1000:
            check_home_and_mirror(text[:200], text)


# --- The jobs for the programs --------------------------------------------------------------------

check("the vectors differ", len(set(job_vectors.vectors)), len(job_vectors.vectors))
input_length = sum(len(job_vectors.input_line(vector)) + 1 for vector in job_vectors.vectors)
check("the vectors are short", input_length < 2000000, True)
ALL_CAUSES = {1, 2, 3, 9, 11, 12, 13, 15, 16, 17, 20, 21, 22, 23, 24, 25, 26, 30, 31, 32}
check("the causes that come", set(causes), ALL_CAUSES | {"done"})
for cause, count in causes.items():
    check(f"several times {cause}", count >= (2 if cause == 20 else 9), True)
for name in model.NAMED_MAPS:
    check(f"done over {name}", done_over[f"map\t{name}".encode()] >= 60, True)
lengths = [len(text) for _, text in job_vectors.vectors]
check("the longest jobs", [lengths.count(65536), lengths.count(65537)], [1, 2])

names = [name for name, _ in jobs.FILES]
files = dict(jobs.FILES)
check("the names of the files differ", len(files), len(names))
of_files = {name: run_job(text, [0] * 16384)[1] for name, text in jobs.FILES}
check("the first ones are done", [fault is None for fault in of_files.values()], [True] * 7 + [False] * (len(files) - 7))
check("each cause but 30 has a file", {fault[1] for fault in of_files.values() if fault is not None}, ALL_CAUSES - {30})
for name, fault in of_files.items():
    if fault is None:
        check_home_and_mirror(name, files[name])
check("too long by a byte", len(files["too_long.job"]), 65537)
check("good but for its length", JOB.fullmatch(files["too_long.job"]) is not None, True)
printed = b"".join(jobs.printed(name, text) for name, text in jobs.FILES)
check("what is printed is short", printed.count(b"\n") < 300, True)
check("it begins", printed.startswith(text_of("job first.job", "done 5 0 3 0", "board 2 2 0")), True)


# --- What the examples show -----------------------------------------------------------------------


def places(lattice):
    """Column and row of each cell that is present, row after row."""
    return [(k % lattice.width, k // lattice.width) for k, cell in enumerate(lattice.cells) if cell & 1]


def after(name, lattice, count):
    return bench_model.after_steps(model.NAMED_MAPS[name], lattice, count)


def with_cells_at(lattice, wanted):
    cells = [1 if (k % lattice.width, k // lattice.width) in wanted else 0 for k in range(len(lattice.cells))]
    return Lattice(lattice.width, lattice.height, lattice.phase, cells)


def opening_of(name):
    job, _ = job_model.read_job(files[name], [0] * 16384)
    return job.opening


balls = opening_of("collision.job")
left, right = [(2, 0), (4, 2)], [(13, 0), (11, 2)]
check("two balls", sorted(places(balls)), sorted(left + right))
# a ball alone runs straight on
for ball, way in [(left, 1), (right, -1)]:
    for count in range(8):
        moved = sorted((col + way * count, row + count) for col, row in ball)
        alone = places(after("bbm", with_cells_at(balls, ball), count))
        check(f"a ball by itself, step {count}", sorted(alone), sorted((c % 16, r % 10) for c, r in moved))
# together they do so for three steps, then their leading cells meet, and after eight they run away from each other
for count, there in [
    (1, [(3, 1), (12, 1), (5, 3), (10, 3)]),
    (3, [(5, 3), (10, 3), (7, 5), (8, 5)]),
    (4, [(6, 4), (9, 4), (7, 5), (8, 5)]),
    (5, [(7, 4), (8, 4), (6, 5), (9, 5)]),
    (6, [(7, 4), (8, 4), (5, 6), (10, 6)]),
    (7, [(6, 5), (9, 5), (4, 7), (11, 7)]),
    (8, [(5, 6), (10, 6), (3, 8), (12, 8)]),
]:
    check(f"two balls, step {count}", places(after("bbm", balls, count)), there)

glider = opening_of("glider.job")
for count in range(0, 22, 2):
    rows_up = count // 2
    moved = Lattice(16, 16, 0, glider.cells[16 * rows_up :] + glider.cells[: 16 * rows_up])
    check(f"the glider, step {count}", after("life2", glider, count), moved)

gas = opening_of("gas.job")
check("the crowd keeps its cells", len(places(after("critters", gas, 40))), len(places(gas)))


tell_passed("job model")
