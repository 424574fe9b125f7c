"""Prints what the program `bench_walk` prints (docs/PROGRAMS.md), computed by the model."""

import bench_model
import model
import text_model
from samples import sown

WIDTH = 12
HEIGHT = 8

# The calls, in their order; all are lent the whole cells.
CALLS = [
    ("undo",),
    ("step", 0),
    ("step", 10001),
    ("step", 100),
    ("open",),
    ("flip", 0, 0, 1),
    ("flip", 11, 7, 3),
    ("flip", 5, 4, 255),
    ("close",),
    ("step", -7),
    ("redo",),
    ("undo",),
    ("undo",),
    ("redo",),
    ("open",),
    ("flip", 12, 0, 1),
    ("flip", 11, 0, 256),
    ("flip", 11, 0, 2),
    ("clear",),
    ("close",),
    ("redo",),
]


def opening():
    return model.Lattice(WIDTH, HEIGHT, 0, sown(WIDTH * HEIGHT))


def tabs_between(fields):
    return "\t".join(str(field) for field in fields)


def answer_written(answer, refusal):
    if refusal is not None:
        return f"refused {refusal}"
    if answer == bench_model.GIVEN:
        return answer
    return f"{answer} stand"


def show_board(lattice):
    print(text_model.board_written(lattice).decode(), end="")


def go_out(bench):
    """The bench after all calls, each of which is printed."""
    for record in CALLS:
        bench, answer, refusal = bench_model.call(bench, record, bench_model.area(bench))
        call = " ".join(str(part) for part in record)
        print(tabs_between([call, answer_written(answer, refusal), *bench_model.counts(bench)]))
    return bench


def walk(name):
    the_map = model.NAMED_MAPS[name]
    first = opening()
    print(tabs_between(["map", name]))
    show_board(first)
    bench = go_out(bench_model.new_bench(the_map, first))
    show_board(bench_model.held(bench))
    back = bench_model.way_back(bench)
    print(tabs_between(["script", len(back.script)]))
    print(back.script.decode(), end="")
    assert back.fault is None, back.fault
    print(tabs_between(["made", back.made, *back.counts]))
    show_board(back.held)
    same = back.held.cells == first.cells and back.held.phase == first.phase
    print(tabs_between(["the opening board", "yes" if same else "no"]))


if __name__ == "__main__":
    walk("critters")
    print()
    walk("mixed")
