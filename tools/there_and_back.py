"""Prints what the program `there_and_back` prints (docs/PROGRAMS.md), computed by the model."""

import model

WIDTH = 48
HEIGHT = 24
STEPS = 200
MORE_STEPS = 5000


def soup(col, row):
    return 16 <= col < 32 and 4 <= row < 20 and (col * col + 3 * row * row + col * row) % 7 < 3


def gas(col, row):
    return col < 24 and (5 * col + 3 * row * row + col * row) % 7 == 0


def start_lattice(holds):
    cells = []
    for row in range(HEIGHT):
        for col in range(WIDTH):
            cells.append(0x01 if holds(col, row) else 0x00)
    return model.Lattice(WIDTH, HEIGHT, 0, cells)


def draw(which, lattice):
    print(f"{which} lattice, phase {lattice.phase}")
    for row in range(HEIGHT):
        line = ""
        for col in range(WIDTH):
            cell = lattice.cells[model.cell_number(WIDTH, HEIGHT, col, row)]
            line += "#" if model.present(cell) else "."
        print(line)


def yes_or_no(answer):
    return "yes" if answer else "no"


def same(one, other):
    return one.cells == other.cells and one.phase == other.phase


def journey(name, holds):
    the_map = model.NAMED_MAPS[name]
    print(f"{name}: {WIDTH} by {HEIGHT} cells, {STEPS} steps forward and {STEPS} back")

    first = start_lattice(holds)
    draw("first", first)
    farthest = model.advance_by(the_map, first, STEPS)
    draw("farthest", farthest)
    last = model.retreat_by(the_map, farthest, STEPS)
    draw("last", last)
    print(f"the last lattice equals the first: {yes_or_no(same(last, first))}")

    away = model.advance_by(the_map, last, MORE_STEPS)
    home = model.retreat_by(the_map, away, MORE_STEPS)
    print(f"and after {MORE_STEPS} steps more, forward and back: {yes_or_no(same(home, first))}")


journey("critters", soup)
print()
journey("bbm", gas)
print()
journey("life2", soup)
print()
journey("mixed", gas)
