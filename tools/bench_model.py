"""A plain model of the bench, written from docs/ alone.

It is meant to be read next to docs/BENCH.md, one section per concept. A bench here is a map, the
lattice of the opening and the ledger, and nothing else. What it holds is made from the opening each
time: an undo only moves an action from one list to the other, and no lattice is ever moved back by
it. No bench is changed in place: the one afterwards is part of the result.

Of the cells that a call is lent only the number is passed on, because a call that is lent a memory
of the right length is lent the cells of the opening.
"""

from dataclasses import dataclass, field, replace

import model
import text_model
from text_model import REST, SESSION

# --- The bench: docs/BENCH.md, "Opening, and the two states" and "Actions and the ledger" ---------

# A flip is a record as in text_model, a tuple ("flip", col, row, mask). An action is a pair: ("step", n),
# or ("edit", flips) with a tuple of flips.


@dataclass(frozen=True)
class Bench:
    the_map: model.Map
    opening: model.Lattice
    # S, oldest first; U, the one that a redo takes next first; Q, in order
    standing: tuple = ()
    undone: tuple = ()
    flips: tuple = ()
    state: str = REST
    # what this map has already made of this opening, for each list of actions; see `after_actions`
    known: dict = field(default_factory=dict, compare=False, repr=False)


def new_bench(the_map, lattice):
    """A bench opened over this map on this whole lattice."""
    return Bench(the_map, lattice)


def area(bench):
    return bench.opening.width * bench.opening.height


# --- What is held: docs/BENCH.md, "The law of every life" -----------------------------------------


def after_steps(the_map, lattice, count):
    if count < 0:
        return model.retreat_by(the_map, lattice, -count)
    return model.advance_by(the_map, lattice, count)


def after_flips(lattice, flips):
    cells = list(lattice.cells)
    for _, col, row, mask in flips:
        cells[model.cell_number(lattice.width, lattice.height, col, row)] ^= mask
    return model.Lattice(lattice.width, lattice.height, lattice.phase, cells)


def after_action(the_map, lattice, action):
    kind, what = action
    if kind == "step":
        return after_steps(the_map, lattice, what)
    return after_flips(lattice, what)


def after_actions(bench, actions):
    """The opening lattice after these actions.

    Kept once made, because it depends on nothing but the map, the opening and the actions.
    """
    if actions == ():
        return bench.opening
    if actions not in bench.known:
        before = after_actions(bench, actions[:-1])
        bench.known[actions] = after_action(bench.the_map, before, actions[-1])
    return bench.known[actions]


def held(bench):
    """What the bench holds, made anew from its opening and its ledger."""
    return after_flips(after_actions(bench, bench.standing), bench.flips)


# --- Counts: docs/BENCH.md, "Actions and the ledger" ----------------------------------------------


def clock(bench):
    """What the steps that stand add up to."""
    return sum(what for kind, what in bench.standing if kind == "step")


def counts(bench):
    """The count call: how many actions stand, how many were undone, the clock, and the phase."""
    return len(bench.standing), len(bench.undone), clock(bench), held(bench).phase


def entries_used(bench):
    """How many entries are in use, by the actions of S and by the flips of Q."""
    of_actions = sum(1 if kind == "step" else len(what) for kind, what in bench.standing)
    return of_actions + len(bench.flips)


# --- Refusals: docs/BENCH.md, "Actions and the ledger" --------------------------------------------

LARGEST_COUNT = 10000
LARGEST_MASK = 255
LARGEST_ENTRIES = 256

# `handed` is how many cells the call is lent.


def cells_refusal(bench, handed):
    """10 if the call is not lent W x H cells, or None."""
    if handed != area(bench):
        return 10
    return None


def full_refusal(bench):
    """17 if all entries are used, or None."""
    if entries_used(bench) >= LARGEST_ENTRIES:
        return 17
    return None


def step_refusal(bench, handed, count):
    """The number of the first cause to refuse a step, or None."""
    if cells_refusal(bench, handed) is not None:
        return 10
    if count == 0 or count > LARGEST_COUNT or count < -LARGEST_COUNT:
        return 11
    return full_refusal(bench)


def undo_refusal(bench, handed):
    """The number of the first cause to refuse an undo, or None."""
    if cells_refusal(bench, handed) is not None:
        return 10
    if bench.standing == ():
        return 12
    return None


def redo_refusal(bench, handed):
    """The number of the first cause to refuse a redo, or None."""
    if cells_refusal(bench, handed) is not None:
        return 10
    if bench.undone == ():
        return 13
    return None


def flip_refusal(bench, handed, col, row, mask):
    """The number of the first cause to refuse a flip, or None."""
    if cells_refusal(bench, handed) is not None:
        return 10
    if col >= bench.opening.width or row >= bench.opening.height:
        return 15
    if mask == 0 or mask > LARGEST_MASK:
        return 16
    return full_refusal(bench)


# --- The seven calls: docs/BENCH.md, "Actions and the ledger" -------------------------------------

# Each returns the bench afterwards, the answer (None if refused), and the refusal (None if accepted).
# The answer is how many actions stand then. For a bench without a number, which `open` and `close`
# return, it is this:
GIVEN = "given"


def stands(bench):
    return bench, len(bench.standing), None


def refused(bench, refusal):
    return bench, None, refusal


def step(bench, handed, count):
    refusal = step_refusal(bench, handed, count)
    if refusal is not None:
        return refused(bench, refusal)
    return stands(replace(bench, standing=bench.standing + (("step", count),), undone=()))


def undo(bench, handed):
    refusal = undo_refusal(bench, handed)
    if refusal is not None:
        return refused(bench, refusal)
    *before, last = bench.standing
    return stands(replace(bench, standing=tuple(before), undone=(last,) + bench.undone))


def redo(bench, handed):
    refusal = redo_refusal(bench, handed)
    if refusal is not None:
        return refused(bench, refusal)
    first, *behind = bench.undone
    return stands(replace(bench, standing=bench.standing + (first,), undone=tuple(behind)))


def open_session(bench):
    return replace(bench, undone=(), state=SESSION), GIVEN, None


def flip(bench, handed, col, row, mask):
    refusal = flip_refusal(bench, handed, col, row, mask)
    if refusal is not None:
        return refused(bench, refusal)
    return stands(replace(bench, flips=bench.flips + (("flip", col, row, mask),)))


def clear(bench, handed):
    refusal = cells_refusal(bench, handed)
    if refusal is not None:
        return refused(bench, refusal)
    return stands(replace(bench, flips=()))


def close_session(bench):
    # a session without flips is no action
    booked = (("edit", bench.flips),) if bench.flips != () else ()
    return replace(bench, standing=bench.standing + booked, flips=(), state=REST), GIVEN, None


WITH_CELLS = {"step": step, "undo": undo, "redo": redo, "flip": flip, "clear": clear}
WITHOUT_CELLS = {"open": open_session, "close": close_session}


def permits(bench, word):
    """Whether the state of the bench has the call of this word."""
    _, permitted, _ = text_model.RECORDS[word]
    return bench.state == permitted


def call(bench, record, handed):
    """The call that a record stands for, which must be one that the state has."""
    word, *numbers = record
    assert permits(bench, word), f"{word} at {bench.state}"
    if word in WITHOUT_CELLS:
        return WITHOUT_CELLS[word](bench)
    return WITH_CELLS[word](bench, handed, *numbers)


# --- The reverse script: docs/BENCH.md, "The reverse script" --------------------------------------


def records_back(action):
    """The records that reverse an action."""
    kind, what = action
    if kind == "step":
        return [("step", -what)]
    return [("open",), *reversed(what), ("close",)]


def reverse_script(bench):
    """The text of the reverse script of a resting bench."""
    records = []
    for action in reversed(bench.standing):
        records += records_back(action)
    return text_model.script_written(records)


def write_reverse_script(bench, memory):
    """The length of the script (None if refused), the memory afterwards, and the refusal."""
    text = reverse_script(bench)
    if len(memory) < len(text):
        return None, memory, 30
    return len(text), text + memory[len(text) :], None


# --- The run of a script: docs/BENCH.md, "The run of a script" ------------------------------------

# The layer of a fault that the bench finds; the other two are in text_model.
BENCH = 3


def cleared_and_closed(bench):
    """The bench at rest. Of a session that is open nothing stays."""
    if bench.state == SESSION:
        bench, _, _ = clear(bench, area(bench))
        bench, _, _ = close_session(bench)
    return bench


def run(bench, handed, text, first):
    """A resting bench after a run, how many records were made (None if there is a fault), and the fault.

    `first` is the number of the first line.
    """
    if cells_refusal(bench, handed) is not None:
        return bench, None, (BENCH, 10, 0, 0)
    records, fault = text_model.check_script(text, first)
    if fault is not None:
        return bench, None, fault
    for at, record in enumerate(records, start=first):
        bench, _, refusal = call(bench, record, handed)
        if refusal is not None:
            return cleared_and_closed(bench), None, (BENCH, refusal, at, 0)
    return bench, len(records), None


# --- The way back: docs/BENCH.md, "The law of every life" -----------------------------------------


@dataclass(frozen=True)
class WayBack:
    script: bytes
    # what the run returns, and its fault
    made: int | None
    fault: tuple | None
    # what the new bench holds at the end, and its four counts
    held: model.Lattice
    counts: tuple


def way_back(bench):
    """The way back from a resting bench: another one, opened where it is now, runs its reverse script."""
    script = reverse_script(bench)
    home = new_bench(bench.the_map, held(bench))
    home, made, fault = run(home, area(bench), script, 1)
    return WayBack(script, made, fault, held(home), counts(home))


# --- The mirror: docs/BENCH.md, "The law of every life" -------------------------------------------

# This step count has no opposite in its type.
SMALLEST_COUNT = -2147483648


def mirror_of(bench):
    """A new bench over the reversed map, on the lattice of the opening."""
    return new_bench(model.reverse(bench.the_map), bench.opening)


def mirrored(record):
    """The call that the mirror gets."""
    if record[0] == "step" and record[1] != SMALLEST_COUNT:
        return "step", -record[1]
    return record


# --- Lives: docs/BENCH.md, "The law of every life" ------------------------------------------------

# A life is a map, an opening and entries. Besides the cells of the opening there is a second memory,
# of which only the length is given. An entry is a call of the life, unless it is skipped.


@dataclass(frozen=True)
class Entry:
    # the call, as a record
    record: tuple
    # None: the call is lent the cells of the opening; a number: so many bytes of the second memory
    part: int | None = None


def handed_over(bench, entry, second_length):
    """How many cells the call is lent. A second memory that is too short is lent whole."""
    if entry.part is None:
        return area(bench)
    return min(entry.part, second_length)


def is_passed_over(bench, entry, second_length):
    """Whether an entry is skipped.

    It is where the state does not have the call, and where a call that takes cells would get
    other cells than those of the opening and could not know it from their number.
    """
    word = entry.record[0]
    if not permits(bench, word):
        return True
    if word in WITHOUT_CELLS or entry.part is None:
        return False
    return handed_over(bench, entry, second_length) == area(bench)


def called(bench, record, handed):
    """The bench after a call, and what is reported of it: answer, refusal, and the four counts."""
    bench, answer, refusal = call(bench, record, handed)
    return bench, (answer, refusal, counts(bench))


def after_entry(bench, mirror, entry, second_length):
    """Bench and mirror after an entry, and what is reported of it.

    That is None if the entry is skipped, and otherwise a pair, for the bench and for the mirror.
    """
    if is_passed_over(bench, entry, second_length):
        return bench, mirror, None
    handed = handed_over(bench, entry, second_length)
    bench, told = called(bench, entry.record, handed)
    mirror, told_of_mirror = called(mirror, mirrored(entry.record), handed)
    return bench, mirror, (told, told_of_mirror)


@dataclass(frozen=True)
class Life:
    # for each entry what `after_entry` reports of it
    told: list
    # bench and mirror at the end, and what they hold
    bench: Bench
    mirror: Bench
    held: model.Lattice
    mirror_held: model.Lattice
    # None if the bench is in session
    way_back: WayBack | None


def live(the_map, opening, second_length, entries):
    """All that is reported of a life."""
    bench = new_bench(the_map, opening)
    mirror = mirror_of(bench)
    told = []
    for entry in entries:
        bench, mirror, told_of_entry = after_entry(bench, mirror, entry, second_length)
        told.append(told_of_entry)
    back = way_back(bench) if bench.state == REST else None
    return Life(told, bench, mirror, held(bench), held(mirror), back)
