"""Prints what the program `bench_lives` prints (docs/PROGRAMS.md), computed by the model."""

import bench_model
import model
import text_model
from bench_model import SMALLEST_COUNT, Entry
from bench_walk import answer_written, opening, show_board, tabs_between

SECOND = 100

LARGEST_COUNT = 2147483647

EVENTS = [
    Entry(("undo",)),
    Entry(("redo",)),
    Entry(("step", 0)),
    Entry(("step", SMALLEST_COUNT)),
    Entry(("step", LARGEST_COUNT)),
    Entry(("step", -10001)),
    Entry(("step", 100)),
    Entry(("step", -7)),
    Entry(("step", 3), 95),
    Entry(("step", 3), 96),
    Entry(("step", 0), 1000),
    Entry(("flip", 0, 0, 1)),
    Entry(("clear",)),
    Entry(("close",)),
    Entry(("undo",)),
    Entry(("undo",), 0),
    Entry(("redo",), 97),
    Entry(("redo",)),
    Entry(("undo",)),
    Entry(("open",), 96),
    Entry(("undo",)),
    Entry(("redo",)),
    Entry(("step", 1)),
    Entry(("open",)),
    Entry(("flip", 3, 2, 5)),
    Entry(("flip", 11, 7, 255)),
    Entry(("flip", 12, 0, 1)),
    Entry(("flip", 0, 8, 0)),
    Entry(("flip", 0, 0, 0)),
    Entry(("flip", 0, 0, 256)),
    Entry(("flip", 0, 0, 1), 95),
    Entry(("clear",)),
    Entry(("clear",), 95),
    Entry(("clear",)),
    Entry(("flip", 3, 2, 5)),
    Entry(("flip", 3, 2, 4)),
    Entry(("flip", 0, 0, 3)),
    Entry(("close",), 0),
    Entry(("redo",)),
    Entry(("step", 20)),
    Entry(("undo",)),
    Entry(("undo",)),
    Entry(("redo",)),
    Entry(("open",)),
    Entry(("close",)),
    Entry(("step", 1)),
    Entry(("step", 2)),
    Entry(("undo",)),
]

OPEN_END = [
    Entry(("step", 5)),
    Entry(("open",)),
    Entry(("flip", 1, 1, 1)),
    Entry(("step", 1)),
]


def lent_written(part):
    return "own" if part is None else f"part {part}"


def told_fields(told):
    """The five fields of a bench: its answer and the four counts."""
    answer, refusal, counts = told
    return [answer_written(answer, refusal), *counts]


def show_events(first_counts, entries, life):
    """A line for each entry. Where one is skipped, the counts are those before it."""
    both = [["passed over", *first_counts], ["passed over", *first_counts]]
    for entry, told in zip(entries, life.told):
        if told is None:
            both = [["passed over", *fields[1:]] for fields in both]
        else:
            both = [told_fields(part) for part in told]
        print(tabs_between([*both[0], *both[1], lent_written(entry.part), *entry.record]))


def show_way_back(back):
    if back is None:
        print("in session")
        return
    print(tabs_between(["script", len(back.script)]))
    print(back.script.decode(), end="")
    answer = ["made", back.made] if back.fault is None else [text_model.fault_written(back.fault)]
    print(tabs_between([*answer, *back.counts]))
    show_board(back.held)


def tell(name, entries):
    the_map = model.NAMED_MAPS[name]
    first = opening()
    print(tabs_between(["map", name]))
    show_board(first)
    life = bench_model.live(the_map, first, SECOND, entries)
    show_events(bench_model.counts(bench_model.new_bench(the_map, first)), entries, life)
    show_board(life.held)
    show_board(life.mirror_held)
    show_way_back(life.way_back)


tell("critters", EVENTS)
print()
tell("mixed", EVENTS)
print()
tell("critters", OPEN_END)
