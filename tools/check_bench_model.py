"""Checks the model of the bench against what docs/BENCH.md says."""

import random
from collections import Counter
from itertools import product

import bench_model
import model
import text_model
import text_vectors
from bench_model import SMALLEST_COUNT, Entry, call, counts, held, live, new_bench, run
from checks import check, tell_passed
from model import Lattice
from text_model import REST, SESSION


def text_of(*lines):
    """A text of these lines, written with a space for each tab."""
    return b"".join(line.replace(" ", "\t").encode() + b"\n" for line in lines)


def from_hex(width, height, phase, text):
    return Lattice(width, height, phase, list(bytes.fromhex(text)))


# --- A bench by real moves ------------------------------------------------------------------------


class Mover:
    """A bench that goes back by moving its lattice back and by making flips once more.

    Steps and flips are in one list, each an entry, beside which it is noted where each action ends.
    Nothing of it is taken from the ledger or from the model's bench.
    """

    def __init__(self, the_map, opening):
        self.the_map = the_map
        self.lattice = opening
        self.entries = []
        # ends[k] is where action number k ends; the first `at` of them stand
        self.ends = [0]
        self.at = 0
        self.clock = 0
        self.in_session = False

    def counts(self):
        return self.at, len(self.ends) - 1 - self.at, self.clock, self.lattice.phase

    def move(self, count):
        for _ in range(abs(count)):
            self.lattice = (self.the_map.forward if count > 0 else self.the_map.backward)(self.lattice)
        self.clock += count

    def xor(self, col, row, mask):
        cells = list(self.lattice.cells)
        cells[self.lattice.width * row + col] ^= mask
        self.lattice = Lattice(self.lattice.width, self.lattice.height, self.lattice.phase, cells)

    def make(self, entry):
        if len(entry) == 1:
            self.move(*entry)
        else:
            self.xor(*entry)

    def take_back(self, entry):
        if len(entry) == 1:
            self.move(-entry[0])
        else:
            self.xor(*entry)

    def forget_undone(self):
        del self.ends[self.at + 1 :]
        del self.entries[self.ends[-1] :]

    def book(self):
        self.ends.append(len(self.entries))
        self.at += 1

    def used(self):
        return len(self.entries) if self.in_session else self.ends[self.at]

    def permits(self, word):
        return (word in ["flip", "clear", "close"]) == self.in_session

    def cause(self, record, handed):
        """The first cause to refuse a call, in the order of the table, or None."""
        word, *numbers = record
        takes_cells = word not in ["open", "close"]
        causes = [(10, takes_cells and handed != self.lattice.width * self.lattice.height)]
        if word == "step":
            causes += [(11, not 1 <= abs(numbers[0]) <= 10000)]
        if word == "undo":
            causes += [(12, self.at == 0)]
        if word == "redo":
            causes += [(13, self.at == len(self.ends) - 1)]
        if word == "flip":
            col, row, mask = numbers
            causes += [(15, not (0 <= col < self.lattice.width and 0 <= row < self.lattice.height))]
            causes += [(16, not 1 <= mask <= 255)]
        if word in ["step", "flip"]:
            causes += [(17, self.used() >= 256)]
        return next((number for number, met in causes if met), None)

    def call(self, record, handed):
        """The answer (None if refused), and the refusal."""
        cause = self.cause(record, handed)
        if cause is not None:
            return None, cause
        word, *numbers = record
        if word == "step":
            self.forget_undone()
            self.entries.append(tuple(numbers))
            self.make(tuple(numbers))
            self.book()
        elif word == "undo":
            for entry in reversed(self.entries[self.ends[self.at - 1] : self.ends[self.at]]):
                self.take_back(entry)
            self.at -= 1
        elif word == "redo":
            for entry in self.entries[self.ends[self.at] : self.ends[self.at + 1]]:
                self.make(entry)
            self.at += 1
        elif word == "open":
            self.forget_undone()
            self.in_session = True
        elif word == "flip":
            self.entries.append(tuple(numbers))
            self.make(tuple(numbers))
        elif word == "clear":
            for entry in reversed(self.entries[self.ends[-1] :]):
                self.take_back(entry)
            del self.entries[self.ends[-1] :]
        else:
            if len(self.entries) > self.ends[-1]:
                self.book()
            self.in_session = False
        return ("given" if word in ["open", "close"] else self.at), None

    def run(self, handed, text, first):
        """How many records were made (None if there is a fault), and the fault."""
        if handed != self.lattice.width * self.lattice.height:
            return None, (3, 10, 0, 0)
        records, fault = text_model.check_script(text, first)
        if fault is not None:
            return None, fault
        for made, record in enumerate(records):
            _, cause = self.call(record, handed)
            if cause is not None:
                if self.in_session:
                    self.call(("clear",), handed)
                    self.call(("close",), handed)
                return None, (3, cause, first + made, 0)
        return len(records), None


# --- What holds of every bench --------------------------------------------------------------------


def opposite_clock(four):
    standing, undone, clock, phase = four
    return standing, undone, -clock, phase


def records_forth(bench):
    """The records that make what stands, in order."""
    records = []
    for kind, what in bench.standing:
        records += [("step", what)] if kind == "step" else [("open",), *what, ("close",)]
    return records


def check_way_back(bench):
    """The way back leads to the opening, and the way back from there leads to where the first one began."""
    back = bench_model.way_back(bench)
    records, fault = text_model.check_script(back.script, 1)
    check("the reverse script is a script", fault, None)
    check("of the records back", back.script, text_model.script_written(records))
    line_count = back.script.count(b"\n")
    check("a record on each line", len(records), line_count)
    check("the run takes all of it", (back.made, back.fault), (line_count, None))
    check("and ends on the opening", back.held, bench.opening)
    clock_there = counts(bench)[2]
    check("with the clock negated", back.counts, (len(bench.standing), 0, -clock_there, bench.opening.phase))
    check("the script is short", len(back.script) <= 7168, True)
    check("and so is its run", bench_model.entries_used(bench) <= 256, True)
    # and by real moves
    mover = Mover(bench.the_map, held(bench))
    check("the run, by moves", mover.run(bench_model.area(bench), back.script, 1), (line_count, None))
    check("leads home, by moves", (mover.lattice, mover.counts()), (back.held, back.counts))
    # from the opening the reverse script makes what stands, from the first action on
    home, _, _ = run(new_bench(bench.the_map, held(bench)), bench_model.area(bench), back.script, 1)
    there = bench_model.reverse_script(home)
    check("there again", there, text_model.script_written(records_forth(bench)))
    return back


def is_passed_over(mover, entry, second_length):
    """What the model asks by the same name, decided from the mover."""
    word = entry.record[0]
    if not mover.permits(word):
        return True
    cells = mover.lattice.width * mover.lattice.height
    part = None if entry.part is None else len(bytes(second_length)[: entry.part])
    return word not in ["open", "close"] and part is not None and part == cells


met = Counter()


def check_life(name, the_map, opening, second_length, entries, backs=0.0):
    """A life by the ledger, by real moves, and in the mirror; the way back at the end and sometimes before."""
    opening_before = Lattice(opening.width, opening.height, opening.phase, list(opening.cells))
    cells = opening.width * opening.height
    bench = new_bench(the_map, opening)
    mirror = bench_model.mirror_of(bench)
    mover = Mover(the_map, opening)
    check(f"{name} at the opening", (held(bench), counts(bench)), (opening, (0, 0, 0, opening.phase)))
    told_of_all = []
    for entry in entries:
        word = entry.record[0]
        before = bench
        bench, mirror, told = bench_model.after_entry(bench, mirror, entry, second_length)
        told_of_all.append(told)
        check(f"{name} {entry} passed over", told is None, is_passed_over(mover, entry, second_length))
        if told is None:
            check(f"{name} {entry} is no call", bench, before)
            met[word, "passed over for " + ("its state" if not mover.permits(word) else "its cells")] += 1
            continue
        handed = cells if entry.part is None else min(entry.part, second_length)
        of_moves = (*mover.call(entry.record, handed), mover.counts())
        met[word, of_moves[1]] += 1
        check(f"{name} {entry} by moves", told[0], of_moves)
        check(f"{name} {entry} by moves: held", held(bench), mover.lattice)
        check(f"{name} {entry}: state", bench.state == SESSION, mover.in_session)
        if of_moves[1] is not None:
            check(f"{name} {entry} refused: nothing changed", bench, before)
        answer, refusal, four = told[1]
        check(f"{name} {entry} in the mirror", (answer, refusal, opposite_clock(four)), told[0])
        check(f"{name} {entry} in the mirror: held", held(mirror), mover.lattice)
        if bench.state == REST and chance.random() < backs:
            check_way_back(bench)
    life = live(the_map, opening, second_length, entries)
    check(f"{name} lived: told", life.told, told_of_all)
    check(f"{name} lived: the benches", (life.bench, life.mirror.standing), (bench, mirror.standing))
    check(f"{name} lived: held", (life.held, life.mirror_held), (mover.lattice, mover.lattice))
    back = check_way_back(bench) if bench.state == REST else None
    check(f"{name} lived: the way back", life.way_back, back)
    check(f"{name} leaves the opening alone", opening, opening_before)
    return bench, mover


# the same lives in each run
chance = random.Random(3)


# --- By hand --------------------------------------------------------------------------------------

# The first worked cases of docs/MAPS.md, on a bench.

ONE = from_hex(2, 2, 0, "01 00 00 00")

# Word and numbers, answer, what is held then, and the counts.
bench = new_bench(model.BBM, ONE)
for record, answer, cells, four in [
    (("step", 1), 1, "00 00 00 01", (1, 0, 1, 1)),
    (("open",), "given", "00 00 00 01", (1, 0, 1, 1)),
    (("flip", 1, 0, 255), 1, "00 FF 00 01", (1, 0, 1, 1)),
    (("flip", 0, 1, 2), 1, "00 FF 02 01", (1, 0, 1, 1)),
    (("clear",), 1, "00 00 00 01", (1, 0, 1, 1)),
    (("clear",), 1, "00 00 00 01", (1, 0, 1, 1)),
    (("flip", 1, 0, 240), 1, "00 F0 00 01", (1, 0, 1, 1)),
    (("flip", 1, 1, 1), 1, "00 F0 00 00", (1, 0, 1, 1)),
    (("flip", 1, 1, 8), 1, "00 F0 00 08", (1, 0, 1, 1)),
    (("close",), "given", "00 F0 00 08", (2, 0, 1, 1)),
    (("step", -2), 3, "00 F0 00 08", (3, 0, -1, 1)),
    (("undo",), 2, "00 F0 00 08", (2, 1, 1, 1)),
    (("undo",), 1, "00 00 00 01", (1, 2, 1, 1)),
    (("undo",), 0, "01 00 00 00", (0, 3, 0, 0)),
    (("redo",), 1, "00 00 00 01", (1, 2, 1, 1)),
    (("redo",), 2, "00 F0 00 08", (2, 1, 1, 1)),
    (("step", 3), 3, "00 F0 00 08", (3, 0, 4, 0)),
    (("undo",), 2, "00 F0 00 08", (2, 1, 1, 1)),
    # a session without flips: no action, but nothing to redo any more
    (("open",), "given", "00 F0 00 08", (2, 0, 1, 1)),
    (("close",), "given", "00 F0 00 08", (2, 0, 1, 1)),
    (("step", 5), 3, "00 F0 00 08", (3, 0, 6, 0)),
]:
    bench, got, refusal = call(bench, record, 4)
    check(f"by hand: {record}", (got, refusal), (answer, None))
    check(f"by hand: held after {record}", held(bench), from_hex(2, 2, four[3], cells))
    check(f"by hand: counts after {record}", counts(bench), four)

script = text_of("step -5", "open", "flip 1 1 8", "flip 1 1 1", "flip 1 0 240", "close", "step -1")
check("by hand: the reverse script", bench_model.reverse_script(bench), script)
check("by hand: the way back", bench_model.way_back(bench), bench_model.WayBack(script, 7, None, ONE, (3, 0, -6, 0)))

# Critters is not its own inverse, so forward and back differ.
for count, cells, phase in [(1, "00 01 01 01", 1), (-1, "01 01 01 00", 1)]:
    bench, _, _ = call(new_bench(model.CRITTERS, ONE), ("step", count), 4)
    check(f"critters, step {count}", held(bench), from_hex(2, 2, phase, cells))
    mirror, _, _ = call(bench_model.mirror_of(bench), bench_model.mirrored(("step", count)), 4)
    check(f"critters, step {count}, in the mirror", (held(mirror), mirror.standing), (held(bench), (("step", -count),)))

check("the mirror's call", bench_model.mirrored(("step", 5)), ("step", -5))
check("the mirror's call", bench_model.mirrored(("step", 2147483647)), ("step", -2147483647))
check("the mirror's call, with no opposite", bench_model.mirrored(("step", -2147483648)), ("step", -2147483648))
check("the mirror's call of a flip", bench_model.mirrored(("flip", 1, 2, 3)), ("flip", 1, 2, 3))
check("the mirror's call of an undo", bench_model.mirrored(("undo",)), ("undo",))


# --- The order of the causes ----------------------------------------------------------------------


def after_records(bench, records):
    """The bench after these calls, all of which must be accepted."""
    for record in records:
        bench, answer, refusal = call(bench, record, bench_model.area(bench))
        check(f"accepted: {record}", refusal, None)
        check(f"answered: {record}", answer, "given" if record[0] in ["open", "close"] else len(bench.standing))
    return bench


def first_of(*causes):
    return next((number for number, met_here in causes if met_here), None)


def check_call(what, bench, record, handed, refusal):
    """This call is refused so and changes nothing, or is accepted if that is None."""
    after, answer, got = call(bench, record, handed)
    check(what, got, refusal)
    check(f"{what}: no answer if refused", answer is None, refusal is not None)
    if refusal is not None:
        check(f"{what}: nothing changed", (after, held(after), counts(after)), (bench, held(bench), counts(bench)))
    return after


WIDE = Lattice(4, 2, 1, [1, 2, 3, 0, 255, 254, 0, 1])

fresh = new_bench(model.TRON, WIDE)
some = after_records(fresh, [("step", 1), ("open",), ("flip", 3, 1, 7), ("close",), ("undo",)])
full = after_records(fresh, [("step", 1)] * 256)
full_undone = after_records(full, [("undo",)])
all_undone = after_records(full, [("undo",)] * 256)

for bench, handed, count in product(
    [fresh, some, full, full_undone, all_undone],
    [8, 7, 9, 0, 16],
    [1, -1, 2, 10000, -10000, 0, 10001, -10001, 2147483647, -2147483647, SMALLEST_COUNT],
):
    if bench is not fresh and abs(count) == 10000:
        continue
    refusal = first_of((10, handed != 8), (11, count == 0 or not -10000 <= count <= 10000), (17, bench is full))
    check_call(f"step {count}, handed {handed}", bench, ("step", count), handed, refusal)

for bench, handed in product([fresh, some, full, full_undone, all_undone], [8, 7, 9, 0, 16]):
    nothing_stands = bench is fresh or bench is all_undone
    none_undone = bench is fresh or bench is full
    check_call(f"undo, handed {handed}", bench, ("undo",), handed, first_of((10, handed != 8), (12, nothing_stands)))
    check_call(f"redo, handed {handed}", bench, ("redo",), handed, first_of((10, handed != 8), (13, none_undone)))

in_session = after_records(some, [("open",)])
almost_full = after_records(full_undone, [("open",)])
full_session = after_records(almost_full, [("flip", 0, 0, 1)])
full_before = after_records(full, [("open",)])
full_of_flips = after_records(fresh, [("open",)] + [("flip", 0, 0, 1)] * 256)

for bench, handed, col, row, mask in product(
    [in_session, almost_full, full_session, full_before, full_of_flips],
    [8, 7, 9, 0],
    [0, 3, 4, 5, 4294967295],
    [0, 1, 2, 3, 4294967295],
    [0, 1, 255, 256, 257, 4294967295],
):
    is_full = bench in [full_session, full_before, full_of_flips]
    off = col > 3 or row > 1
    refusal = first_of((10, handed != 8), (15, off), (16, not 0 < mask < 256), (17, is_full))
    check_call(f"flip {col} {row} {mask}, handed {handed}", bench, ("flip", col, row, mask), handed, refusal)

for bench, handed in product([in_session, almost_full, full_session, full_of_flips], [8, 7, 9, 0]):
    after = check_call(f"clear, handed {handed}", bench, ("clear",), handed, 10 if handed != 8 else None)
    # clear frees the entries of the session
    if handed == 8:
        check_call("a flip after it", after, ("flip", 3, 1, 9), 8, None)

# how many cells are lent does not matter to open and close
for handed in [0, 7, 8, 9]:
    check("open", call(some, ("open",), handed)[1:], ("given", None))
    check("close", call(in_session, ("close",), handed)[1:], ("given", None))

# the other calls of a state are none
for bench, words in [(some, ["step", "undo", "redo", "open"]), (in_session, ["flip", "clear", "close"])]:
    check("permitted", [word for word in text_model.RECORDS if bench_model.permits(bench, word)], words)


# --- 256 entries ----------------------------------------------------------------------------------

# 256 entries in several ways: the records, and how many entries the last action has.
FILLINGS = [
    ([("step", 1)] * 256, 1),
    ([("step", 1), ("step", -1)] * 128, 1),
    ([("open",), ("flip", 1, 1, 1), ("close",)] * 256, 1),
    ([("open",)] + [("flip", 1, 1, 1)] * 256 + [("close",)], 256),
    ([("step", -1)] * 100 + [("open",)] + [("flip", 2, 0, 128)] * 156 + [("close",)], 156),
    ([("open",)] + [("flip", 2, 0, 128)] * 156 + [("close",)] + [("step", -1)] * 100, 1),
    ([("step", 1), ("open",), ("flip", 0, 0, 1), ("flip", 0, 0, 3), ("flip", 0, 0, 7), ("close",)] * 64, 3),
    # what was undone and what was cleared takes no entry
    ([("step", 1), ("undo",)] * 300 + [("step", 1)] * 256, 1),
    ([("open",)] + [("flip", 1, 1, 1)] * 256 + [("clear",)] + [("flip", 1, 0, 1)] * 256 + [("close",)], 256),
    ([("open",), ("close",)] * 300 + [("step", 1)] * 256, 1),
    ([("step", 1)] * 256 + [("undo",)] * 256 + [("redo",)] * 256, 1),
    ([("step", 1)] * 256 + [("undo",)] * 200 + [("open",), ("close",)] + [("step", 2)] * 200, 1),
]

for name, the_map in model.NAMED_MAPS.items():
    for records, last_entries in FILLINGS:
        bench = after_records(new_bench(the_map, WIDE), records)
        check("256 entries", bench_model.entries_used(bench), 256)
        check_call("the 257th is refused", bench, ("step", 1), 8, 17)
        check_call("and once more", bench, ("step", -1), 8, 17)
        session = after_records(bench, [("open",)])
        check_call("as a flip, too", session, ("flip", 0, 0, 1), 8, 17)
        bench = after_records(session, [("clear",), ("close",)])
        before = held(bench)
        # an undo gives back the entries of its action, and a redo takes them again
        bench = after_records(bench, [("undo",)])
        check("entries after one undo", bench_model.entries_used(bench), 256 - last_entries)
        check_call("a step passes again", bench, ("step", 1), 8, None)
        bench = after_records(bench, [("redo",)])
        check("the undo was undone", held(bench), before)
        check_call("and a step is refused again", bench, ("step", 1), 8, 17)
        bench = after_records(bench, [("undo",)] + [("step", 1)])
        again = after_records(bench, [("step", 1)] * (last_entries - 1))
        check_call("after as many entries", again, ("step", 1), 8, 17)
        check_way_back(again)


# --- Sessions -------------------------------------------------------------------------------------

for name, the_map in model.NAMED_MAPS.items():
    bench = after_records(new_bench(the_map, WIDE), [("step", 2), ("step", -3), ("undo",)])
    there = held(bench)
    stood = bench.standing
    check("one undone", counts(bench), (1, 1, 2, there.phase))

    # nothing between open and close books nothing, but there is nothing to redo any more
    for between in [
        [],
        [("clear",)],
        [("clear",), ("clear",)],
        [("flip", 1, 1, 9), ("clear",)],
        [("flip", 1, 1, 9), ("flip", 1, 1, 8), ("flip", 0, 0, 1), ("clear",), ("clear",)],
    ]:
        after = after_records(bench, [("open",)] + between + [("close",)])
        check(f"nothing booked by {between}", (after.standing, held(after)), (stood, there))
        check(f"the counts after {between}", counts(after), (1, 0, 2, there.phase))
        check_call("nothing to redo", after, ("redo",), 8, 13)

    # flips that take each other back are an edit all the same
    after = after_records(bench, [("open",), ("flip", 1, 1, 9), ("flip", 1, 1, 9), ("close",)])
    check("two flips that cancel", (held(after), counts(after)), (there, (2, 0, 2, there.phase)))

    # what was before a clear is in no edit
    session = after_records(bench, [("open",), ("flip", 0, 0, 1), ("clear",), ("flip", 2, 1, 6), ("flip", 2, 1, 12)])
    check("counts in session", counts(session), (1, 0, 2, there.phase))
    after = after_records(session, [("close",)])
    check("one edit of two flips", after.standing, stood + (("edit", (("flip", 2, 1, 6), ("flip", 2, 1, 12))),))
    cells = list(there.cells)
    cells[6] ^= 10
    check("two flips of one cell", held(after), Lattice(4, 2, there.phase, cells))
    check("undone together", held(after_records(after, [("undo",)])), there)

    # two sessions are two edits
    twice = after_records(after, [("open",), ("flip", 2, 1, 10), ("close",)])
    check("two edits", (held(twice), counts(twice)), (there, (3, 0, 2, there.phase)))

    # undo all, redo all
    records = [("step", 3), ("open",), ("flip", 0, 1, 255), ("flip", 3, 0, 1), ("close",), ("step", -7), ("step", 1)]
    bench = after_records(new_bench(the_map, WIDE), records)
    lattices = [held(bench)]
    for left in [3, 2, 1, 0]:
        bench = after_records(bench, [("undo",)])
        check("undo after undo", counts(bench)[:2], (left, 4 - left))
        lattices.append(held(bench))
    check("all undone: the opening", (held(bench), counts(bench)), (WIDE, (0, 4, 0, 1)))
    check("all undone: an empty script", bench_model.reverse_script(bench), b"")
    check_way_back(bench)
    check_call("nothing to undo", bench, ("undo",), 8, 12)
    for made in [1, 2, 3, 4]:
        bench = after_records(bench, [("redo",)])
        check("redo after redo", (held(bench), counts(bench)[:2]), (lattices[4 - made], (made, 4 - made)))
    check_call("nothing to redo", bench, ("redo",), 8, 13)
    # a refused call empties nothing
    bench = after_records(bench, [("undo",), ("undo",)])
    for record, handed, refusal in [
        (("step", 0), 8, 11),
        (("step", 10001), 8, 11),
        (("step", 1), 7, 10),
        (("undo",), 9, 10),
        (("redo",), 9, 10),
    ]:
        bench = check_call("refused between", bench, record, handed, refusal)
    bench = after_records(bench, [("redo",), ("redo",)])
    check("all redone", held(bench), lattices[0])


# --- The longest script, the largest clock, the memory for the script -----------------------------

AREA = 16384

large = Lattice(128, 128, 0, [chance.randrange(256) for _ in range(AREA)])
edits = []
for _ in range(256):
    flip = ("flip", chance.randrange(100, 128), chance.randrange(100, 128), chance.randrange(100, 256))
    edits += [("open",), flip, ("close",)]
bench = new_bench(model.MIXED, large)
for record in edits:
    bench, _, refusal = call(bench, record, AREA)
    check("accepted", refusal, None)
back = check_way_back(bench)
check("the longest script", len(back.script), 7168)
check("256 lines, three times", back.made, 768)
check_call("no more than that", bench, ("step", 1), AREA, 17)

text = back.script
for size in [0, 1, 7167]:
    memory = b"." * size
    check("too short for the script", bench_model.write_reverse_script(bench, memory), (None, memory, 30))
for more in [0, 1, 1000]:
    expected = (7168, text + b"." * more, None)
    check("the bytes after it are left", bench_model.write_reverse_script(bench, b"." * (7168 + more)), expected)
check("an empty script", bench_model.write_reverse_script(fresh, b""), (0, b"", None))
check("an empty script", bench_model.write_reverse_script(fresh, b".."), (0, b"..", None))

# no other action takes more than the 28 bytes of such an edit for an entry
longest_step = len(text_model.script_written([("step", -10000)]))
check("a step is shorter", longest_step, 12)
for flips in [1, 2, 3, 256]:
    edit = ("edit", (("flip", 127, 127, 255),) * flips)
    written = text_model.script_written(bench_model.records_back(edit))
    check("an edit of more flips is no longer for each", len(written) <= 28 * flips, True)

# a map that leaves all as it is: any two functions with the inverse laws make a map
still = model.Map(forward=lambda lattice: lattice, backward=lambda lattice: lattice)
for count in [10000, -10000]:
    bench = new_bench(still, ONE)
    for _ in range(256):
        bench, _, refusal = call(bench, ("step", count), 4)
        check("accepted", refusal, None)
    check("the largest clock", counts(bench), (256, 0, 256 * count, 0))
    check_call("no more than that", bench, ("step", count), 4, 17)
    check_way_back(bench)


# --- Runs by hand ---------------------------------------------------------------------------------

EDIT = ("edit", (("flip", 1, 1, 9),))
ONE_EDIT = (1, 0, 0)
STEPS = (("step", 1),) * 256
FULL = (256, 0, 256)

# What was done before; how many cells are lent; number of the first line and lines of the
# script; the answer, the fault; the counts afterwards, without the phase, and what stands.
for before, handed, first, lines, made, fault, three, standing in [
    ([], 8, 1, [], 0, None, (0, 0, 0), ()),
    ([("step", 2)], 8, 5, [], 0, None, (1, 0, 2), (("step", 2),)),
    ([], 8, 1, ["step 2", "undo"], 2, None, (0, 1, 0), ()),
    ([], 8, 1, ["open", "flip 1 1 9", "close", "step -4"], 4, None, (2, 0, -4), (EDIT, ("step", -4))),
    ([("step", 2)], 8, 1, ["undo", "redo", "undo"], 3, None, (0, 1, 0), ()),
    ([("step", 2), ("undo",)], 8, 1, ["redo"], 1, None, (1, 0, 2), (("step", 2),)),
    ([("step", 2), ("undo",)], 8, 1, ["open", "clear", "close"], 3, None, (0, 0, 0), ()),
    # 10 is reported first, at line 0, whichever number the first line has
    ([], 7, 1, ["step 2"], None, (3, 10, 0, 0), (0, 0, 0), ()),
    ([], 9, 100, ["step 2"], None, (3, 10, 0, 0), (0, 0, 0), ()),
    ([], 0, 1, [], None, (3, 10, 0, 0), (0, 0, 0), ()),
    ([], 7, 1, ["stop"], None, (3, 10, 0, 0), (0, 0, 0), ()),
    # a fault of the text: nothing is made
    ([], 8, 1, ["step 2", "stop"], None, (2, 23, 2, 1), (0, 0, 0), ()),
    ([("step", 2), ("undo",)], 8, 1, ["step 2", "step"], None, (2, 24, 2, 0), (0, 1, 0), ()),
    ([], 8, 1, ["step 2", "flip 0 0 1"], None, (2, 25, 2, 0), (0, 0, 0), ()),
    ([], 8, 7, ["step 2", "step -0"], None, (1, 22, 8, 2), (0, 0, 0), ()),
    ([], 8, 1, ["step 2", "open"], None, (2, 26, 3, 0), (0, 0, 0), ()),
    # also where the bench would refuse a line above
    ([], 8, 1, ["step 0", "undo", "stop"], None, (2, 23, 3, 1), (0, 0, 0), ()),
    # a record that the bench refuses
    ([], 8, 1, ["step 0"], None, (3, 11, 1, 0), (0, 0, 0), ()),
    ([], 8, 7, ["step 2", "step 10001"], None, (3, 11, 8, 0), (1, 0, 2), (("step", 2),)),
    ([], 8, 1, ["step 2", "step -999999", "step 1"], None, (3, 11, 2, 0), (1, 0, 2), (("step", 2),)),
    ([], 8, 1, ["undo"], None, (3, 12, 1, 0), (0, 0, 0), ()),
    ([("step", 2)], 8, 1, ["undo", "undo", "undo"], None, (3, 12, 2, 0), (0, 1, 0), ()),
    ([], 8, 4294967295, ["step 2", "redo"], None, (3, 13, 4294967296, 0), (1, 0, 2), (("step", 2),)),
    # in a session: it is cleared and closed
    ([], 8, 1, ["open", "flip 4 0 1", "close"], None, (3, 15, 2, 0), (0, 0, 0), ()),
    ([], 8, 1, ["open", "flip 0 2 1", "close"], None, (3, 15, 2, 0), (0, 0, 0), ()),
    ([], 8, 1, ["open", "flip 0 0 1", "flip 0 0 0", "close"], None, (3, 16, 3, 0), (0, 0, 0), ()),
    ([], 8, 1, ["open", "flip 1 1 9", "close", "open", "flip 0 0 256", "close"], None, (3, 16, 5, 0), ONE_EDIT, (EDIT,)),
    ([("step", 2), ("undo",)], 8, 1, ["open", "flip 0 0 1", "flip 0 0 300", "close"], None, (3, 16, 3, 0), (0, 0, 0), ()),
    ([], 8, 1, ["step 1"] * 257, None, (3, 17, 257, 0), FULL, STEPS),
    ([], 8, 1, ["open"] + ["flip 0 0 1"] * 257 + ["close"], None, (3, 17, 258, 0), (0, 0, 0), ()),
    ([("step", 1)] * 256, 8, 3, ["open", "flip 0 0 1", "close"], None, (3, 17, 4, 0), FULL, STEPS),
    ([("step", 1)] * 256, 8, 3, ["undo", "step 1", "step 1"], None, (3, 17, 5, 0), FULL, STEPS),
]:
    for name, the_map in model.NAMED_MAPS.items():
        bench = after_records(new_bench(the_map, WIDE), before)
        bench, got, got_fault = run(bench, handed, text_of(*lines), first)
        check(f"run of {lines}", (got, got_fault), (made, fault))
        check(f"run of {lines}: counts", counts(bench)[:3], three)
        check(f"run of {lines}: what stands", bench.standing, standing)
        check(f"run of {lines}: the session", (bench.state, bench.flips), (REST, ()))
        expected = WIDE
        for action in standing:
            expected = bench_model.after_action(the_map, expected, action)
        check(f"run of {lines}: held", held(bench), expected)

for text, fault in [(b"step\t2\nundo", (2, 21, 2, 0)), (b"undo\n" * 13108, (2, 20, 0, 0))]:
    check("run of a text that is none", run(fresh, 8, text, 1), (fresh, None, fault))


# --- Parts of the second memory -------------------------------------------------------------------

# Record, part, length of the second memory, and the outcome on a fresh bench of 4 by 2.
for record, part, second_length, outcome in [
    (("step", 1), None, 0, None),
    (("step", 1), None, 8, None),
    (("step", 1), 7, 20, 10),
    (("step", 1), 8, 20, "passed over"),
    (("step", 1), 9, 20, 10),
    (("step", 1), 0, 20, 10),
    (("step", 1), 20, 7, 10),
    (("step", 1), 8, 7, 10),
    (("step", 1), 8, 8, "passed over"),
    (("step", 1), 9, 8, "passed over"),
    (("step", 1), 20, 9, 10),
    # skipped, though it would be refused with the cells of the opening, too
    (("step", 0), 8, 8, "passed over"),
    (("undo",), 8, 8, "passed over"),
    (("redo",), 9, 8, "passed over"),
    (("undo",), 7, 8, 10),
    (("redo",), 7, 8, 10),
    # no cells are taken
    (("open",), 8, 8, None),
    (("open",), 7, 8, None),
    # not permitted, with any cells
    (("flip", 0, 0, 1), None, 8, "passed over"),
    (("flip", 0, 0, 1), 7, 8, "passed over"),
    (("clear",), 7, 8, "passed over"),
    (("close",), 7, 8, "passed over"),
]:
    life = live(model.CRITTERS, WIDE, second_length, [Entry(record, part)])
    got = "passed over" if life.told[0] is None else life.told[0][0][1]
    check(f"{record} with {part} of {second_length}", got, outcome)

session = [Entry(("open",)), Entry(("flip", 0, 0, 1), 7), Entry(("clear",), 8), Entry(("step", 1)), Entry(("close",))]
told = [None if pair is None else pair[0] for pair in live(model.CRITTERS, WIDE, 8, session).told]
four = (0, 0, 0, 1)
check("a session of these", told, [("given", None, four), (None, 10, four), None, None, ("given", None, four)])
check("no way back in session", live(model.CRITTERS, WIDE, 8, session[:2]).way_back, None)


# --- Random lives ---------------------------------------------------------------------------------

# Besides the named maps: two that are not their own inverses, and one that changes all bits.


def bytes_forward(lattice):
    cells = lattice.cells[1:] + lattice.cells[:1]
    return Lattice(lattice.width, lattice.height, 1 - lattice.phase, [(cell + 1) % 256 for cell in cells])


def bytes_backward(lattice):
    cells = lattice.cells[-1:] + lattice.cells[:-1]
    return Lattice(lattice.width, lattice.height, 1 - lattice.phase, [(cell - 1) % 256 for cell in cells])


MAPS = dict(model.NAMED_MAPS)
MAPS["lopsided"] = model.block_map([(7 * value + 3) % 16 for value in range(16)])
MAPS["cycle"] = model.cell_map([1, 2, 3, 0])
MAPS["bytes"] = model.Map(forward=bytes_forward, backward=bytes_backward)

SHAPES = [(2, 2), (4, 2), (2, 4), (6, 4), (4, 6), (8, 8)]

WRONG_COUNTS = [0, 0, 10001, -10001, 2147483647, -2147483647, SMALLEST_COUNT]
WRONG_MASKS = [0, 0, 256, 257, 511, 4294967295]


def any_count():
    if chance.random() < 0.15:
        return chance.choice(WRONG_COUNTS)
    return chance.choice([1, -1]) * chance.choice([1, 1, 1, 2, 2, 3, 4, 7])


def any_place(side):
    if chance.random() < 0.07:
        return chance.choice([side, side, side + 1, 256, 4294967295])
    return chance.choice([0, side - 1, chance.randrange(side)])


def any_mask():
    if chance.random() < 0.08:
        return chance.choice(WRONG_MASKS)
    return chance.choice([1, 2, 3, 255, chance.randrange(1, 256), chance.randrange(1, 256)])


def any_record(word, lattice):
    if word == "step":
        return word, any_count()
    if word == "flip":
        return word, any_place(lattice.width), any_place(lattice.height), any_mask()
    return (word,)


def any_part(cells, second_length):
    """Mostly the cells of the opening."""
    if chance.random() < 0.88:
        return None
    return chance.choice([0, 1, cells - 1, cells, cells, cells + 1, second_length, 2 * cells, 4294967295])


# How often each word comes at rest; the last ones often undo everything, and redo all of it.
HABITS = [
    {"step": 6, "undo": 4, "redo": 3, "open": 3},
    {"step": 6, "undo": 1, "redo": 1, "open": 6},
    {"step": 2, "undo": 6, "redo": 6, "open": 1},
    {"step": 3, "undo": 8, "redo": 2, "open": 3},
]
SESSION_HABIT = {"flip": 8, "clear": 2, "close": 3}


def any_word(habit):
    return chance.choices(list(habit), weights=list(habit.values()))[0]


def any_entries(count, lattice, second_length, bursts):
    """So many entries, and in some places many of one word more."""
    cells = lattice.width * lattice.height
    habit = chance.choice(HABITS)
    entries = []
    rests = True
    for _ in range(count):
        word = any_word(habit if rests else SESSION_HABIT)
        if chance.random() < 0.06:
            word = any_word(SESSION_HABIT if rests else habit)
        entries.append(Entry(any_record(word, lattice), any_part(cells, second_length)))
        if word == ("open" if rests else "close"):
            rests = not rests
        if bursts and chance.random() < 3 / count:
            word = chance.choice(["step", "step", "undo", "redo"]) if rests else "flip"
            for _ in range(chance.choice([40, 150, 270])):
                entries.append(Entry(any_record(word, lattice)))
    return entries


def any_lattice(width, height):
    cells = [chance.randrange(256) for _ in range(width * height)]
    return Lattice(width, height, chance.randrange(2), cells)


def any_second_length(cells):
    return chance.choice([0, cells - 1, cells, cells + 1, 3 * cells])


def any_life(width, height, count, bursts):
    """Opening, length of the second memory, entries."""
    opening = any_lattice(width, height)
    second_length = any_second_length(width * height)
    return opening, second_length, any_entries(count, opening, second_length, bursts)


lives = 0
for name, the_map in MAPS.items():
    for width, height in SHAPES:
        # the larger ones are rarer, for the time they take
        for _ in range(16 if width * height <= 8 else 6):
            check_life(name, the_map, *any_life(width, height, chance.choice([5, 20, 40, 60]), False), backs=0.1)
            lives += 1
        for _ in range(2 if width * height <= 8 else 1):
            check_life(name, the_map, *any_life(width, height, 60, True), backs=0.01)
            lives += 1

# the longest steps
for name, the_map in MAPS.items():
    entries = [("step", 10000), ("step", 10001), ("undo",), ("step", -10000), ("step", -10001)]
    # mixed makes 12 moves of other maps in one
    if name != "mixed":
        entries += [("step", 9999), ("undo",), ("redo",), ("step", 1)]
    check_life(name, the_map, any_lattice(2, 2), 0, [Entry(record) for record in entries])
    lives += 1


# --- Random runs ----------------------------------------------------------------------------------


def any_script(count, lattice):
    """A script of these states, with numbers that a text can have."""
    records = []
    rests = True
    habit = chance.choice(HABITS)
    while len(records) < count or not rests:
        word = any_word(habit if rests else SESSION_HABIT)
        record = any_record(word, lattice)
        if any(abs(number) > 999999 for number in record[1:]):
            continue
        # most runs should come further than to the first record that a bench refuses
        if word == "step" and chance.random() < 0.8:
            record = "step", chance.choice([1, -1, 2, -3])
        records.append(record)
        if word in ["open", "close"]:
            rests = not rests
    return text_model.script_written(records)


def last_line_lost(text):
    """A script that ends with a session ends in it then."""
    return text_model.script_written(text_model.check_script(text, 1)[0][:-1])


DAMAGES = text_vectors.DAMAGES + [last_line_lost] * 3

ends = Counter()
for number in range(1500):
    name = chance.choice(list(MAPS))
    width, height = chance.choice([(2, 2), (4, 2), (2, 4), (6, 4)])
    cells = width * height
    opening, second_length, entries = any_life(width, height, chance.choice([0, 5, 20]), number % 50 == 0)
    bench = live(MAPS[name], opening, second_length, entries).bench
    if bench.state == SESSION:
        entries = entries + [Entry(("close",))]
        bench, _, _ = call(bench, ("close",), cells)
    mover = Mover(MAPS[name], opening)
    for entry in entries:
        if not is_passed_over(mover, entry, second_length):
            mover.call(entry.record, cells if entry.part is None else min(entry.part, second_length))
    text = any_script(chance.choice([0, 1, 4, 4, 10, 25]), opening)
    if number % 100 == 1:
        text = text_of(*["step 1"] * 200, "open", *["flip 0 1 1"] * 100, "close")
    if number % 4 == 3 and text != b"":
        text = chance.choice(DAMAGES)(text)
    handed = chance.choice([cells] * 27 + [0, cells - 1, cells + 1])
    first = chance.choice([1, 1, 2, 7, 4294967296])
    before = bench
    bench, made, fault = run(bench, handed, text, first)
    ends["to the end" if fault is None else fault[:2]] += 1
    check("a run by moves", (made, fault), mover.run(handed, text, first))
    check("a run by moves: held", (held(bench), counts(bench)), (mover.lattice, mover.counts()))
    check("a run ends at rest", (bench.state, bench.flips, mover.in_session), (REST, (), False))
    if fault is None:
        check("a run makes the record of each line", made, text.count(b"\n"))
        records, _ = text_model.check_script(text, first)
        check("as the calls of its records", bench, after_records(before, records))
    elif fault[0] != 3 or fault[1] == 10:
        check("a fault before the first record changes nothing", bench, before)
    check_way_back(bench)


# --- What came ------------------------------------------------------------------------------------

# Words and what became of their entries: accepted (None), a refusal, or skipped.
wanted = [(word, None) for word in text_model.RECORDS]
wanted += [(word, 10) for word in ["step", "undo", "redo", "flip", "clear"]]
wanted += [("step", 11), ("step", 17), ("undo", 12), ("redo", 13), ("flip", 15), ("flip", 16), ("flip", 17)]
wanted += [(word, "passed over for its state") for word in text_model.RECORDS]
wanted += [(word, "passed over for its cells") for word in ["step", "undo", "redo", "flip", "clear"]]
check("what came in the lives", set(met), set(wanted))
for outcome in wanted:
    check(f"at least 20 of {outcome}", met[outcome] >= 20, True)

wanted = ["to the end"] + [(3, number) for number in [10, 11, 12, 13, 15, 16, 17]]
wanted += [(2, number) for number in [21, 23, 24, 25, 26]] + [(1, 22)]
check("how the runs ended", set(ends), set(wanted))
for end in wanted:
    check(f"at least 5 of {end}", ends[end] >= 5, True)


tell_passed("bench model")
