"""A plain model of the lattice library, written from docs/ alone.

It is meant to be read next to the documentation, one section per concept. Nothing here changes a
lattice in place: a move makes a new lattice, cell by cell, from the old one. All numbers are taken
to be whole and not negative.
"""

from dataclasses import dataclass
from functools import cache
from typing import Callable


# --- The lattice: docs/LATTICE.md, "Shape" and "A cell" -------------------------------------------


@dataclass(frozen=True)
class Lattice:
    width: int
    height: int
    phase: int
    cells: list[int]


def is_whole(lattice):
    return len(lattice.cells) == lattice.width * lattice.height


def cell_number(width, height, col, row):
    """The number of a cell in the memory; columns and rows go round the torus."""
    return (row % height) * width + (col % width)


def present(cell):
    """Bit 0 of a cell."""
    return cell & 1


def past(cell):
    """Bit 1 of a cell."""
    return (cell >> 1) & 1


def with_present(cell, bit):
    """The cell with bit 0 replaced, all other bits kept."""
    return (cell & 0b11111110) | bit


# --- Start records: docs/LATTICE.md, "Start records" ----------------------------------------------

LARGEST_SIDE = 256
LARGEST_AREA = 16384


def side_is_wrong(side):
    return side % 2 == 1 or side < 2 or side > LARGEST_SIDE


def start_refusal(width, height, phase):
    """The number of the first thing that is wrong with a start record, or None."""
    if side_is_wrong(width) or side_is_wrong(height):
        return 1
    if width * height > LARGEST_AREA:
        return 2
    if phase > 1:
        return 3
    return None


# --- Tables: docs/MAPS.md, "Tables" ---------------------------------------------------------------

BLOCK_SIZE = 16
CELL_SIZE = 4

BLOCK_TABLES = {
    "bbm": [0, 8, 4, 3, 2, 5, 9, 7, 1, 6, 10, 11, 12, 13, 14, 15],
    "critters": [15, 14, 13, 3, 11, 5, 6, 1, 7, 9, 10, 2, 12, 4, 8, 0],
    "tron": [15, 1, 2, 3, 4, 5, 6, 7, 8, 9, 10, 11, 12, 13, 14, 0],
}

CELL_TABLES = {
    "exchange": [0, 2, 1, 3],
    "complement": [1, 0, 3, 2],
}


def new_table(size):
    """The identity."""
    return list(range(size))


def fill_refusal(numbers, size):
    """The number of the first thing that is wrong with a list for a table, or None."""
    if len(numbers) != size:
        return 4
    if any(number >= size for number in numbers):
        return 5
    if len(set(numbers)) != len(numbers):
        return 6
    return None


def fill(table, numbers):
    """The table after a fill from numbers, and the refusal (None if it was filled)."""
    refusal = fill_refusal(numbers, len(table))
    if refusal is not None:
        return table, refusal
    return list(numbers), None


def name_refusal(built_in, name):
    """9 for a name that is not among these (BLOCK_TABLES, CELL_TABLES or NAMED_MAPS), or None."""
    if name not in built_in:
        return 9
    return None


def fill_by_name(table, built_in, name):
    """The table after a fill by name, and the refusal (None if it was filled)."""
    refusal = name_refusal(built_in, name)
    if refusal is not None:
        return table, refusal
    return list(built_in[name]), None


def inverse(table):
    """The inverse permutation."""
    return [table.index(value) for value in range(len(table))]


# --- Maps: docs/MAPS.md, "What a map is" ----------------------------------------------------------


@dataclass(frozen=True)
class Map:
    """Two functions from lattices to lattices."""

    forward: Callable[[Lattice], Lattice]
    backward: Callable[[Lattice], Lattice]


def advance_by(the_map, lattice, moves):
    for _ in range(moves):
        lattice = the_map.forward(lattice)
    return lattice


def retreat_by(the_map, lattice, moves):
    for _ in range(moves):
        lattice = the_map.backward(lattice)
    return lattice


# --- The block map: docs/MAPS.md, "The block map" -------------------------------------------------


def corner_of(width, height, phase, col, row):
    """Column and row of the corner of the block in which this cell lies at this phase."""
    corner_col = col if col % 2 == phase else (col - 1) % width
    corner_row = row if row % 2 == phase else (row - 1) % height
    return corner_col, corner_row


@cache
def block_places(width, height, phase):
    """For each cell: the numbers of the four cells of its block, and which of the four it is.

    The four are ordered by what they count: 1, 2, 4 and 8. Kept once computed, because the places do
    not depend on what is in the cells.
    """
    places = []
    for row in range(height):
        for col in range(width):
            corner_col, corner_row = corner_of(width, height, phase, col, row)
            corner = cell_number(width, height, corner_col, corner_row)
            right = cell_number(width, height, corner_col + 1, corner_row)
            below = cell_number(width, height, corner_col, corner_row + 1)
            right_below = cell_number(width, height, corner_col + 1, corner_row + 1)
            block = [corner, right, below, right_below]
            own_bit = block.index(cell_number(width, height, col, row))
            places.append((corner, right, below, right_below, own_bit))
    return places


def rewritten_blocks(table, lattice, phase):
    """The cells after every block of the given phase was rewritten by the table."""
    old = lattice.cells
    new = []
    places = block_places(lattice.width, lattice.height, phase)
    for cell, (corner, right, below, right_below, own_bit) in zip(old, places):
        value = (
            1 * (old[corner] & 1)
            + 2 * (old[right] & 1)
            + 4 * (old[below] & 1)
            + 8 * (old[right_below] & 1)
        )
        new.append(with_present(cell, (table[value] >> own_bit) & 1))
    return new


def block_forward(table, lattice):
    if not is_whole(lattice):
        return lattice
    cells = rewritten_blocks(table, lattice, lattice.phase)
    return Lattice(lattice.width, lattice.height, 1 - lattice.phase, cells)


def block_backward(table, lattice):
    if not is_whole(lattice):
        return lattice
    turned = 1 - lattice.phase
    cells = rewritten_blocks(inverse(table), lattice, turned)
    return Lattice(lattice.width, lattice.height, turned, cells)


def block_map(table):
    return Map(
        forward=lambda lattice: block_forward(table, lattice),
        backward=lambda lattice: block_backward(table, lattice),
    )


# --- The cell map: docs/MAPS.md, "The cell map" ---------------------------------------------------


def rewritten_cells(table, lattice):
    """The cells after present and past of each were looked up in the table and set to the entry."""
    return [(cell & 0b11111100) | table[cell & 0b11] for cell in lattice.cells]


def cell_forward(table, lattice):
    if not is_whole(lattice):
        return lattice
    cells = rewritten_cells(table, lattice)
    return Lattice(lattice.width, lattice.height, lattice.phase, cells)


def cell_backward(table, lattice):
    if not is_whole(lattice):
        return lattice
    cells = rewritten_cells(inverse(table), lattice)
    return Lattice(lattice.width, lattice.height, lattice.phase, cells)


def cell_map(table):
    return Map(
        forward=lambda lattice: cell_forward(table, lattice),
        backward=lambda lattice: cell_backward(table, lattice),
    )


# --- Local rules: docs/MAPS.md, "Local rules" -----------------------------------------------------

# A local rule is a Python function here, which takes one of the 512 neighbourhood numbers and returns 0 or 1.

RULE_SIZE = 512
LARGEST_MASK = 511

# Columns to the right and rows down, in the order of the bits 0 to 8. Bit 4 is the cell itself.
NEIGHBOURHOOD = [
    (-1, -1), (0, -1), (1, -1),
    (-1, 0), (0, 0), (1, 0),
    (-1, 1), (0, 1), (1, 1),
]
OWN_BIT = 4


def count_rule_refusal(birth, survival):
    """7 if one of the two masks is too large, or None."""
    if birth > LARGEST_MASK or survival > LARGEST_MASK:
        return 7
    return None


def count_rule_answer(birth, survival, number):
    """What the count rule of these masks gives for a neighbourhood number."""
    own = (number >> OWN_BIT) & 1
    neighbours = sum((number >> bit) & 1 for bit in range(9) if bit != OWN_BIT)
    mask = survival if own == 1 else birth
    return (mask >> neighbours) & 1


def count_rule(birth, survival):
    """The count rule of two masks (None if refused), and the refusal (None if it was made)."""
    refusal = count_rule_refusal(birth, survival)
    if refusal is not None:
        return None, refusal
    return lambda number: count_rule_answer(birth, survival, number), None


LIFE_BIRTH = 8
LIFE_SURVIVAL = 12
LIFE, _ = count_rule(LIFE_BIRTH, LIFE_SURVIVAL)


def new_rule_table():
    """The rule table before any fill: all entries 0."""
    return [0] * RULE_SIZE


def rule_fill_refusal(numbers):
    """The number of the first thing that is wrong with a list for a rule table, or None."""
    if len(numbers) != RULE_SIZE:
        return 4
    if any(number > 1 for number in numbers):
        return 5
    return None


def fill_rule_table(table, numbers):
    """The rule table after a fill, and the refusal (None if it was filled)."""
    refusal = rule_fill_refusal(numbers)
    if refusal is not None:
        return table, refusal
    return list(numbers), None


def table_rule(table):
    """The table rule of a rule table: for N it gives entry N."""
    return lambda number: table[number]


@cache
def neighbour_places(width, height):
    """For each cell: the numbers of the nine cells of its neighbourhood, in the order of the bits.

    Kept once computed, because the places do not depend on what is in the cells.
    """
    places = []
    for row in range(height):
        for col in range(width):
            nine = [cell_number(width, height, col + right, row + down) for right, down in NEIGHBOURHOOD]
            places.append(tuple(nine))
    return places


def neighbourhood_numbers(width, height, cells):
    """The neighbourhood number of each cell."""
    presents = [cell & 1 for cell in cells]
    numbers = []
    for nw, n, ne, w, own, e, sw, s, se in neighbour_places(width, height):
        numbers.append(
            1 * presents[nw]
            + 2 * presents[n]
            + 4 * presents[ne]
            + 8 * presents[w]
            + 16 * presents[own]
            + 32 * presents[e]
            + 64 * presents[sw]
            + 128 * presents[s]
            + 256 * presents[se]
        )
    return numbers


# --- The lift: docs/MAPS.md, "The lift" -----------------------------------------------------------


def with_answers_in_pasts(answers, width, height, cells):
    """The cells after the past of each was inverted where the rule gives 1."""
    numbers = neighbourhood_numbers(width, height, cells)
    return [cell ^ (answers[number] << 1) for cell, number in zip(cells, numbers)]


def with_pasts_and_presents_exchanged(cells):
    """The cells after past and present of each changed places."""
    return [(cell & 0b11111100) | ((cell & 1) << 1) | ((cell >> 1) & 1) for cell in cells]


def lift_forward(answers, lattice):
    if not is_whole(lattice):
        return lattice
    altered = with_answers_in_pasts(answers, lattice.width, lattice.height, lattice.cells)
    cells = with_pasts_and_presents_exchanged(altered)
    return Lattice(lattice.width, lattice.height, lattice.phase, cells)


def lift_backward(answers, lattice):
    if not is_whole(lattice):
        return lattice
    exchanged = with_pasts_and_presents_exchanged(lattice.cells)
    cells = with_answers_in_pasts(answers, lattice.width, lattice.height, exchanged)
    return Lattice(lattice.width, lattice.height, lattice.phase, cells)


def lift(rule):
    # a rule gives only 512 values, so each is computed once
    answers = [rule(number) for number in range(RULE_SIZE)]
    return Map(
        forward=lambda lattice: lift_forward(answers, lattice),
        backward=lambda lattice: lift_backward(answers, lattice),
    )


# --- Layers: docs/MAPS.md, "Layers" ---------------------------------------------------------------

LARGEST_COUNT = 1000


def then(one, other):
    """`one` then `other`."""
    return Map(
        forward=lambda lattice: other.forward(one.forward(lattice)),
        backward=lambda lattice: one.backward(other.backward(lattice)),
    )


def reverse(the_map):
    return Map(forward=the_map.backward, backward=the_map.forward)


def conjugate(the_map, by):
    """`the_map` conjugated by `by`."""
    return Map(
        forward=lambda lattice: by.backward(the_map.forward(by.forward(lattice))),
        backward=lambda lattice: by.backward(the_map.backward(by.forward(lattice))),
    )


def times_refusal(count):
    """8 if the count is too large, or None."""
    if count > LARGEST_COUNT:
        return 8
    return None


def times(the_map, count):
    """`the_map` times `count` (None if refused), and the refusal (None if it was made)."""
    refusal = times_refusal(count)
    if refusal is not None:
        return None, refusal
    repeated = Map(
        forward=lambda lattice: advance_by(the_map, lattice, count),
        backward=lambda lattice: retreat_by(the_map, lattice, count),
    )
    return repeated, None


# --- Named maps: docs/MAPS.md, "Named maps" -------------------------------------------------------

BBM = block_map(BLOCK_TABLES["bbm"])
CRITTERS = block_map(BLOCK_TABLES["critters"])
TRON = block_map(BLOCK_TABLES["tron"])
LIFE2 = lift(LIFE)
MIXED, _ = times(then(BBM, conjugate(LIFE2, cell_map(CELL_TABLES["exchange"]))), 3)

NAMED_MAPS = {
    "bbm": BBM,
    "critters": CRITTERS,
    "tron": TRON,
    "life2": LIFE2,
    "mixed": MIXED,
}


def named_map(name):
    """The map of this name (None if refused), and the refusal (None if there is such a map)."""
    refusal = name_refusal(NAMED_MAPS, name)
    if refusal is not None:
        return None, refusal
    return NAMED_MAPS[name], None
