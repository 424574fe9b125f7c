"""Checks the model against what docs/LATTICE.md and docs/MAPS.md say."""

import random
from itertools import combinations

import model
from checks import check, tell_passed
from model import BLOCK_TABLES, CELL_TABLES, Lattice


def from_hex(width, height, phase, text):
    return Lattice(width, height, phase, list(bytes.fromhex(text)))


# --- Start records: docs/LATTICE.md ---------------------------------------------------------------

for width, height, phase, refusal in [
    (2, 2, 0, None),
    (2, 2, 1, None),
    (256, 2, 0, None),
    (2, 256, 1, None),
    (256, 64, 0, None),
    (64, 256, 1, None),
    (128, 128, 1, None),
    # 1: the sides
    (0, 2, 0, 1),
    (2, 0, 0, 1),
    (1, 2, 0, 1),
    (2, 1, 0, 1),
    (3, 4, 0, 1),
    (4, 3, 0, 1),
    (255, 2, 0, 1),
    (2, 255, 0, 1),
    (257, 2, 0, 1),
    (2, 257, 0, 1),
    (258, 2, 0, 1),
    (2, 258, 0, 1),
    # 2: the area
    (256, 66, 0, 2),
    (66, 256, 0, 2),
    (128, 130, 0, 2),
    (256, 256, 0, 2),
    # 3: the phase
    (2, 2, 2, 3),
    (256, 64, 2, 3),
    (2, 2, 255, 3),
    # the order of the tests
    (255, 999, 7, 1),
    (258, 256, 0, 1),
    (3, 2, 2, 1),
    (256, 66, 2, 2),
]:
    check(f"start {width} {height} {phase}", model.start_refusal(width, height, phase), refusal)


# --- Tables: docs/MAPS.md, "Tables" ---------------------------------------------------------------

for size in [16, 4]:
    good = list(range(size))
    check("the identity", model.fill_refusal(good, size), None)
    check("turned round", model.fill_refusal(good[::-1], size), None)
    # 4: the number of entries
    check("no entries", model.fill_refusal([], size), 4)
    check("one too few", model.fill_refusal(good[:-1], size), 4)
    check("one too many", model.fill_refusal(good + [0], size), 4)
    check("too many and too large", model.fill_refusal(good + [size], size), 4)
    check("too few and repeated", model.fill_refusal([0] * (size - 1), size), 4)
    # 5: an entry too large, at each place
    for place in range(size):
        numbers = list(good)
        numbers[place] = size
        check(f"too large at {place}", model.fill_refusal(numbers, size), 5)
    # 6: an entry repeated, at each pair of places
    for place in range(size):
        for other in range(size):
            if place != other:
                numbers = list(good)
                numbers[place] = numbers[other]
                check(f"the same at {place} and {other}", model.fill_refusal(numbers, size), 6)
    # both too large and repeated: 5, wherever they stand
    check("repeated, then large", model.fill_refusal([0, 0] + good[2:-1] + [size], size), 5)
    check("large, then repeated", model.fill_refusal([size] + good[1:-1] + [1], size), 5)
    check("large and repeated", model.fill_refusal([size] * size, size), 5)
    # all or none
    table = model.new_table(size)
    check("a fill", model.fill(table, good[::-1]), (good[::-1], None))
    check("a refused fill", model.fill(table, [0] * size), (good, 6))

for kind, built_in, names, others in [
    ("block", BLOCK_TABLES, ["bbm", "critters", "tron"], ["exchange", "complement"]),
    ("cell", CELL_TABLES, ["exchange", "complement"], ["bbm", "critters", "tron"]),
]:
    check(f"the {kind} tables", list(built_in), names)
    size = 16 if kind == "block" else 4
    identity = model.new_table(size)
    for name in names:
        table = built_in[name]
        check(f"{name} is a table", model.fill_refusal(table, size), None)
        check(f"fill by name {name}", model.fill_by_name(identity, built_in, name), (table, None))
        for wrong in [name.upper(), name.capitalize(), " " + name, name + " "]:
            check(f"name {wrong!r}", model.fill_by_name(identity, built_in, wrong), (identity, 9))
        back = model.inverse(table)
        check(f"{name}, then its inverse", [back[table[v]] for v in range(size)], identity)
        check(f"the inverse of {name}, then it", [table[back[v]] for v in range(size)], identity)
        check(f"{name} is its own inverse", back == table, name != "critters")
    for wrong in others + ["", "life2", "mixed"]:
        check(f"name {wrong!r}", model.name_refusal(built_in, wrong), 9)


# --- Local rules: docs/MAPS.md, "Local rules" -----------------------------------------------------

for birth, survival, refusal in [
    (0, 0, None),
    (8, 12, None),
    (511, 0, None),
    (0, 511, None),
    (511, 511, None),
    # 7: a mask
    (512, 0, 7),
    (0, 512, 7),
    (512, 511, 7),
    (511, 512, 7),
    (512, 512, 7),
    (8 + 512, 12, 7),
    (8, 12 + 512, 7),
    (65535, 0, 7),
    (0, 4294967295, 7),
]:
    check(f"masks {birth} {survival}", model.count_rule_refusal(birth, survival), refusal)
    rule, met = model.count_rule(birth, survival)
    check(f"a rule of {birth} {survival}", (rule is not None, met), (refusal is None, refusal))

# the number of bits that are set, without the bit of the cell itself
OTHERS = 511 - 16
for mask_bit in range(9):
    only_birth, _ = model.count_rule(1 << mask_bit, 0)
    only_survival, _ = model.count_rule(0, 1 << mask_bit)
    for number in range(512):
        neighbours = bin(number & OTHERS).count("1")
        absent = number & 16 == 0
        hit = neighbours == mask_bit
        check(f"birth {mask_bit}, {number}", only_birth(number), 1 if hit and absent else 0)
        check(f"survival {mask_bit}, {number}", only_survival(number), 1 if hit and not absent else 0)

for number, answer in [
    (0, 0),
    (16, 0),
    # two neighbours: north-west and south-east
    (1 + 256, 0),
    (1 + 256 + 16, 1),
    # three neighbours: north, west and east
    (2 + 8 + 32, 1),
    (2 + 8 + 32 + 16, 1),
    # four neighbours: the corners
    (1 + 4 + 64 + 256, 0),
    (1 + 4 + 64 + 256 + 16, 0),
    (511 - 16, 0),
    (511, 0),
]:
    check(f"Life for {number}", model.LIFE(number), answer)

for wrong in [0, 1, 4, 16, 511, 513, 1024]:
    check(f"{wrong} entries", model.rule_fill_refusal([0] * wrong), 4)
    check(f"{wrong} entries, all too large", model.rule_fill_refusal([2] * wrong), 4)
check("all 0", model.rule_fill_refusal([0] * 512), None)
check("all 1", model.rule_fill_refusal([1] * 512), None)
for place in range(512):
    for large in [2, 3, 255]:
        numbers = [1] * 512
        numbers[place] = large
        check(f"{large} at {place}", model.rule_fill_refusal(numbers), 5)

# all or none
empty = model.new_rule_table()
check("at first all 0", empty, [0] * 512)
halves = [0] * 256 + [1] * 256
check("a fill", model.fill_rule_table(empty, halves), (halves, None))
check("a fill over a fill", model.fill_rule_table(halves, halves[::-1]), (halves[::-1], None))
check("a fill with 0 over a fill", model.fill_rule_table(halves, [0] * 512), ([0] * 512, None))
check("refused with 4", model.fill_rule_table(halves, [1] * 511), (halves, 4))
check("refused with 5", model.fill_rule_table(halves, [1] * 511 + [2]), (halves, 5))
check("the old table is left alone", empty, [0] * 512)

check("a new table rule", [model.table_rule(empty)(number) for number in range(512)], [0] * 512)
check("a table rule", [model.table_rule(halves)(number) for number in range(512)], halves)

# Life written out: three of the nine are present, or four with the middle one among them
life_table = [model.LIFE(number) for number in range(512)]
check("Life's table is a table", model.rule_fill_refusal(life_table), None)
for number in range(512):
    all_nine = bin(number).count("1")
    lives = all_nine == 3 or (all_nine == 4 and number & 16 > 0)
    check(f"Life's entry {number}", life_table[number], 1 if lives else 0)

# `crooked` looks at each of the nine, and distinguishes each two of them

CROOKED_TABLE = [(number * number // 13 + number // 5) % 2 for number in range(512)]
check("crooked is a table", model.rule_fill_refusal(CROOKED_TABLE), None)


def with_bits_exchanged(number, one, other):
    if (number >> one) & 1 == (number >> other) & 1:
        return number
    return number ^ (1 << one) ^ (1 << other)


for bit in range(9):
    turned = [CROOKED_TABLE[number ^ (1 << bit)] for number in range(512)]
    check(f"crooked looks at neighbour {bit}", turned != CROOKED_TABLE, True)
for one, other in combinations(range(9), 2):
    swapped = [CROOKED_TABLE[with_bits_exchanged(number, one, other)] for number in range(512)]
    check(f"crooked tells {one} from {other}", swapped != CROOKED_TABLE, True)


# --- Layers and named maps: docs/MAPS.md, the refusals --------------------------------------------

for count, refusal in [
    (0, None),
    (1, None),
    (999, None),
    (1000, None),
    (1001, 8),
    (2000, 8),
    (65536, 8),
    (4294967295, 8),
]:
    check(f"times {count}", model.times_refusal(count), refusal)
    repeated, met = model.times(model.LIFE2, count)
    check(f"a map times {count}", (repeated is not None, met), (refusal is None, refusal))

NAMES = ["bbm", "critters", "tron", "life2", "mixed"]
check("the named maps", list(model.NAMED_MAPS), NAMES)
for name in NAMES:
    check(f"the map {name}", model.named_map(name), (model.NAMED_MAPS[name], None))
    for wrong in [name.upper(), name.capitalize(), " " + name, name + " "]:
        check(f"no map {wrong!r}", model.named_map(wrong), (None, 9))
for wrong in ["", "life", "exchange", "complement", "lopsided"]:
    check(f"no map {wrong!r}", model.named_map(wrong), (None, 9))


# --- Worked cases: docs/MAPS.md, "Worked cases" ---------------------------------------------------

bbm = model.block_map(BLOCK_TABLES["bbm"])
critters = model.block_map(BLOCK_TABLES["critters"])
complement = model.cell_map(CELL_TABLES["complement"])

ball = from_hex(2, 2, 0, "01 00 00 00")
check("bbm 1 forward", model.advance_by(bbm, ball, 1), from_hex(2, 2, 1, "00 00 00 01"))
check("bbm 2 forward", model.advance_by(bbm, ball, 2), from_hex(2, 2, 0, "01 00 00 00"))
check(
    "bbm 1 forward with high bits",
    model.advance_by(bbm, from_hex(2, 2, 0, "F1 00 00 00"), 1),
    from_hex(2, 2, 1, "F0 00 00 01"),
)
check("critters 1 forward", model.advance_by(critters, ball, 1), from_hex(2, 2, 1, "00 01 01 01"))
check("critters 1 back", model.retreat_by(critters, ball, 1), from_hex(2, 2, 1, "01 01 01 00"))
for phase in [0, 1]:
    check(
        "complement 1 forward",
        model.advance_by(complement, from_hex(2, 2, phase, "02 FF FF 02"), 1),
        from_hex(2, 2, phase, "03 FE FE 03"),
    )
    square = from_hex(4, 4, phase, "01 01 00 00  01 01 00 00  00 00 00 00  00 00 00 00")
    for moves, byte in [(1, "03"), (2, "02"), (3, "01")]:
        check(
            f"life2 {moves} forward",
            model.advance_by(model.LIFE2, square, moves),
            from_hex(4, 4, phase, f"{byte} {byte} 00 00  {byte} {byte} 00 00  00 00 00 00  00 00 00 00"),
        )
# The cases that distinguish left from right, above from below and forward from back.
lopsided_blocks = model.block_map([(7 * v + 3) % 16 for v in range(16)])
west_lift = model.lift(lambda number: number >> 3 & 1)
north_lift = model.lift(lambda number: number >> 1 & 1)
check("right counts 2 and below 4", lopsided_blocks.forward(ball), from_hex(2, 2, 1, "00 01 00 01"))
last = from_hex(4, 2, 1, "00 00 00 00  00 00 00 01")
first = from_hex(4, 2, 0, "01 00 00 00  00 00 00 00")
check("blocks of phase 1 reach round both edges", bbm.forward(last), first)
check("back rewrites the blocks of the new phase", bbm.backward(first), last)
check("a neighbour on both sides counts in each", model.neighbourhood_numbers(2, 2, [0, 1, 0, 0])[0], 40)
check("cycle is undone by its inverse", model.inverse([1, 2, 3, 0]), [3, 0, 1, 2])
seen_through_cycle = model.conjugate(model.LIFE2, model.cell_map([1, 2, 3, 0]))
for phase in [0, 1]:
    check(
        "west is the column before",
        west_lift.forward(from_hex(4, 2, phase, "00 01 00 00  00 00 00 00")),
        from_hex(4, 2, phase, "00 02 01 00  00 00 00 00"),
    )
    check(
        "north is the row above",
        north_lift.forward(from_hex(4, 4, phase, "00 00 00 00  00 01 00 00  00 00 00 00  00 00 00 00")),
        from_hex(4, 4, phase, "00 00 00 00  00 02 00 00  00 01 00 00  00 00 00 00"),
    )
    check(
        "life2 goes back",
        model.LIFE2.backward(from_hex(4, 4, phase, "03 03 00 00  03 03 00 00  00 00 00 00  00 00 00 00")),
        from_hex(4, 4, phase, "01 01 00 00  01 01 00 00  00 00 00 00  00 00 00 00"),
    )
    check(
        "a conjugation goes in first",
        seen_through_cycle.forward(from_hex(4, 4, phase, "01 00 00 00  00 00 00 00  00 00 00 00  00 00 00 00")),
        from_hex(4, 4, phase, "00 01 01 01  01 01 01 01  01 01 01 01  01 01 01 01"),
    )
for name in ["bbm", "critters", "tron"]:
    for cells in ["01 00 00 00", "F1 02 03 04", "FD FE FF FC", "01 01 00 01"]:
        for phase in [0, 1]:
            named = model.NAMED_MAPS[name]
            made = model.block_map(BLOCK_TABLES[name])
            lattice = from_hex(2, 2, phase, cells)
            check(f"the map {name} forward", named.forward(lattice), made.forward(lattice))
            check(f"the map {name} back", named.backward(lattice), made.backward(lattice))


# --- Blocks, worked by hand from docs/MAPS.md, "The block map" ------------------------------------

# The built-in tables look the same after a turn or a reflection of the square, so they do not show
# which cell counts what. This one does: it sends 1 to 10, 2 to 1, 4 to 15 and 8 to 11.

LOPSIDED = [(7 * v + 3) % 16 for v in range(16)]
lopsided = model.block_map(LOPSIDED)

for phase, before, after in [
    # the corner is the upper left cell
    (0, "01 00 00 00", "00 01 00 01"),
    (0, "00 01 00 00", "01 00 00 00"),
    (0, "00 00 01 00", "01 01 01 01"),
    (0, "00 00 00 01", "01 01 00 01"),
    # the corner is the lower right cell
    (1, "00 00 00 01", "01 00 01 00"),
    (1, "00 00 01 00", "00 00 00 01"),
    (1, "00 01 00 00", "01 01 01 01"),
    (1, "01 00 00 00", "01 00 01 01"),
]:
    one = from_hex(2, 2, phase, before)
    other = from_hex(2, 2, 1 - phase, after)
    check(f"lopsided forward {before}", model.advance_by(lopsided, one, 1), other)
    check(f"lopsided back {after}", model.retreat_by(lopsided, other, 1), one)

# Width and height are not the same thing: from column 1, row 1 to column 2, row 0 of 4 by 2, and to
# column 0, row 2 of 2 by 4.
check(
    "bbm on 4 by 2",
    model.advance_by(bbm, from_hex(4, 2, 1, "00 00 00 00  00 01 00 00"), 1),
    from_hex(4, 2, 0, "00 00 01 00  00 00 00 00"),
)
check(
    "bbm on 2 by 4",
    model.advance_by(bbm, from_hex(2, 4, 1, "00 00  00 01  00 00  00 00"), 1),
    from_hex(2, 4, 0, "00 00  00 00  01 00  00 00"),
)

# At phase 1 the block with its corner in column 3, row 3 of a 4 by 4 lattice has column 0 on its
# right and row 0 below. `bbm` changes 1 with 8 and 2 with 4.


def one_ball(phase, col, row):
    cells = [0] * 16
    cells[row * 4 + col] = 1
    return Lattice(4, 4, phase, cells)


for name, (col, row), (new_col, new_row) in [
    ("corner to right and below", (3, 3), (0, 0)),
    ("right to below", (0, 3), (3, 0)),
    ("below to right", (3, 0), (0, 3)),
    ("right and below to corner", (0, 0), (3, 3)),
]:
    moved = model.advance_by(bbm, one_ball(1, col, row), 1)
    check(f"round the edge, {name}", moved, one_ball(0, new_col, new_row))
    moved = model.retreat_by(bbm, one_ball(0, col, row), 1)
    check(f"round the edge, back, {name}", moved, one_ball(1, new_col, new_row))

for width, height in [(2, 2), (2, 4), (4, 2), (6, 4), (16, 10)]:
    for phase in [0, 1]:
        # each cell lies in one block, and each of a block's four cells has its own place in it
        members = {}
        for number, place in enumerate(model.block_places(width, height, phase)):
            check("a cell is in its block", place[place[4]], number)
            check("four cells in a block", len(set(place[:4])), 4)
            check("the corner's column", place[0] % width % 2, phase)
            check("the corner's row", place[0] // width % 2, phase)
            members.setdefault(place[:4], []).append(place[4])
        for block, bits in members.items():
            check("each cell of a block names it", sorted(bits), [0, 1, 2, 3])
        check("the number of blocks", len(members), width * height // 4)


# No turn or reflection of the square keeps `lopsided`, and it is not its own inverse. The cells of a
# block count 1, 2, 4 and 8; a turn or a reflection puts the cell of bit `b` where bit `symmetry[b]` was.

for symmetry in [
    [1, 3, 0, 2], [3, 2, 1, 0], [2, 0, 3, 1],  # turns
    [1, 0, 3, 2], [2, 3, 0, 1],  # left with right, top with bottom
    [0, 2, 1, 3], [3, 1, 2, 0],  # along the diagonals
]:
    moved = [sum(((v >> bit) & 1) << symmetry[bit] for bit in range(4)) for v in range(16)]
    for name, table in list(BLOCK_TABLES.items()) + [("lopsided", LOPSIDED)]:
        kept = all(moved[table[v]] == table[moved[v]] for v in range(16))
        check(f"{symmetry} keeps {name}", kept, name != "lopsided")
check("lopsided is its own inverse", model.inverse(LOPSIDED) == LOPSIDED, False)


# --- Neighbourhoods and the lift, worked by hand --------------------------------------------------

# One present cell in the corner of a small torus: what each cell sees of it.

for width, height, seen in [
    # on a side of 2 the present cell is met in several directions
    (2, 2, [16, 8 + 32, 2 + 128, 1 + 4 + 64 + 256]),
    (2, 4, [16, 8 + 32, 2, 1 + 4, 0, 0, 128, 64 + 256]),
    (4, 2, [16, 8, 0, 32, 2 + 128, 1 + 64, 0, 4 + 256]),
    (4, 4, [16, 8, 0, 32, 2, 1, 0, 4, 0, 0, 0, 0, 128, 64, 0, 256]),
]:
    # only bit 0 is looked at
    cells = [0xFF] + [0xFE] * (width * height - 1)
    check(f"one on {width} by {height}", model.neighbourhood_numbers(width, height, cells), seen)
    cells = [0x01] * (width * height)
    numbers = model.neighbourhood_numbers(width, height, cells)
    check(f"all on {width} by {height}", numbers, [511] * (width * height))

# A rule that gives 1 where exactly one of the nine is present, namely a given one: from a single
# present cell in column 3, row 0 of 4 by 6 it gives 1 at one cell alone.

for bit, (col, row) in enumerate([
    (0, 1), (3, 1), (2, 1),  # it lies in the row above this cell: one column before, the same, one after
    (0, 0), (3, 0), (2, 0),  # in the row of this cell
    (0, 5), (3, 5), (2, 5),  # in the row below
]):
    pointing = model.lift(lambda number, bit=bit: 1 if number == 1 << bit else 0)
    for phase in [0, 1]:
        before = [0xFC] * 24
        before[0 * 4 + 3] = 0xFD
        after = [0xFC] * 24
        after[0 * 4 + 3] = 0xFE
        after[row * 4 + col] |= 1
        one = Lattice(4, 6, phase, before)
        other = Lattice(4, 6, phase, after)
        check(f"pointing {bit} forward", pointing.forward(one), other)
        check(f"pointing {bit} back", pointing.backward(other), one)

# With a rule that always gives 0 the lift exchanges; with one that always gives 1 it exchanges after
# inverting the past, and going back it inverts the past after exchanging.

zero = model.lift(lambda number: 0)
one_always = model.lift(lambda number: 1)
for phase in [0, 1]:
    low_bits = from_hex(2, 2, phase, "A0 A1 A2 A3")
    check("answer 0 forward", zero.forward(low_bits), from_hex(2, 2, phase, "A0 A2 A1 A3"))
    check("answer 0 back", zero.backward(low_bits), from_hex(2, 2, phase, "A0 A2 A1 A3"))
    check("answer 1 forward", one_always.forward(low_bits), from_hex(2, 2, phase, "A1 A3 A0 A2"))
    check("answer 1 back", one_always.backward(low_bits), from_hex(2, 2, phase, "A2 A0 A3 A1"))


# --- Layers, worked by hand -----------------------------------------------------------------------

# Cell tables make this short: four cells have the four low values, and what comes out is a table.

exchange = model.cell_map(CELL_TABLES["exchange"])
CYCLE = [1, 2, 3, 0]
cycle = model.cell_map(CYCLE)
# 0 to 1, 1 to 2, 2 to 0; 3 stays
three_cycle = model.cell_map([1, 2, 0, 3])


def made_times(the_map, count):
    repeated, refusal = model.times(the_map, count)
    check(f"times {count} is made", refusal, None)
    return repeated


for name, the_map, forward, backward in [
    ("exchange then complement", model.then(exchange, complement), "1 3 0 2", "2 0 3 1"),
    ("complement then exchange", model.then(complement, exchange), "2 0 3 1", "1 3 0 2"),
    ("reverse of cycle", model.reverse(cycle), "3 0 1 2", "1 2 3 0"),
    ("reverse of reverse of cycle", model.reverse(model.reverse(cycle)), "1 2 3 0", "3 0 1 2"),
    ("exchange conjugated by cycle", model.conjugate(exchange, cycle), "1 0 2 3", "1 0 2 3"),
    ("three_cycle conjugated by cycle", model.conjugate(three_cycle, cycle), "1 3 2 0", "3 0 2 1"),
    ("cycle times 0", made_times(cycle, 0), "0 1 2 3", "0 1 2 3"),
    ("cycle times 1", made_times(cycle, 1), "1 2 3 0", "3 0 1 2"),
    ("cycle times 2", made_times(cycle, 2), "2 3 0 1", "2 3 0 1"),
    ("cycle times 3", made_times(cycle, 3), "3 0 1 2", "1 2 3 0"),
    ("cycle times 999", made_times(cycle, 999), "3 0 1 2", "1 2 3 0"),
    ("cycle times 1000", made_times(cycle, 1000), "0 1 2 3", "0 1 2 3"),
    ("three_cycle times 1000", made_times(three_cycle, 1000), "1 2 0 3", "2 0 1 3"),
    ("(cycle times 7) times 5", made_times(made_times(cycle, 7), 5), "3 0 1 2", "1 2 3 0"),
]:
    for phase in [0, 1]:
        values = Lattice(2, 2, phase, [0xF8 + value for value in range(4)])
        expected = Lattice(2, 2, phase, [0xF8 + int(value) for value in forward.split()])
        check(f"{name} forward", the_map.forward(values), expected)
        expected = Lattice(2, 2, phase, [0xF8 + int(value) for value in backward.split()])
        check(f"{name} back", the_map.backward(values), expected)

# `mixed` is twelve moves, one after another.


def mixed_by_hand(lattice):
    for _ in range(3):
        lattice = bbm.forward(lattice)
        lattice = exchange.forward(lattice)
        lattice = model.LIFE2.forward(lattice)
        lattice = exchange.backward(lattice)
    return lattice


def mixed_by_hand_back(lattice):
    for _ in range(3):
        lattice = exchange.forward(lattice)
        lattice = model.LIFE2.backward(lattice)
        lattice = exchange.backward(lattice)
        lattice = bbm.backward(lattice)
    return lattice


# --- There and back, and the bits that stay -------------------------------------------------------

# the same lattices and tables in each run
chance = random.Random(1)


def shuffled(size):
    table = list(range(size))
    chance.shuffle(table)
    return table


# A name, a map, whether a move turns the phase, whether it keeps the pasts.
maps = []
more_tables = [("(7v + 3) mod 16", LOPSIDED), ("any block table", shuffled(16))]
for name, table in list(BLOCK_TABLES.items()) + more_tables:
    maps.append((name, model.block_map(table), 1, True))
# both built-in cell tables are their own inverses; 1 2 3 0 is not
more_tables = [("1 2 3 0", CYCLE), ("any cell table", shuffled(4))]
for name, table in list(CELL_TABLES.items()) + more_tables:
    maps.append((name, model.cell_map(table), 0, False))

# rules with symmetry and without
RULES = [
    ("Life", model.LIFE),
    ("counted", model.count_rule(74, 300)[0]),
    ("crooked", model.table_rule(CROOKED_TABLE)),
    ("the empty table", model.table_rule(model.new_rule_table())),
    ("all 1", model.table_rule([1] * 512)),
]
for bit in range(9):
    RULES.append((f"the neighbour {bit} alone", lambda number, bit=bit: (number >> bit) & 1))
for which in range(4):
    RULES.append((f"any table rule, {which}", model.table_rule([chance.randrange(2) for _ in range(512)])))
for name, rule in RULES:
    maps.append((f"the lift of {name}", model.lift(rule), 0, False))

crooked = model.lift(model.table_rule(CROOKED_TABLE))
any_lift = model.lift(model.table_rule([chance.randrange(2) for _ in range(512)]))
all_four = made_times(model.reverse(model.conjugate(model.then(lopsided, any_lift), crooked)), 3)
for name, the_map, turns in [
    ("lopsided then crooked", model.then(lopsided, crooked), 1),
    ("crooked then lopsided", model.then(crooked, lopsided), 1),
    ("crooked then any lift", model.then(crooked, any_lift), 0),
    ("lopsided then critters", model.then(lopsided, critters), 0),
    ("reverse of crooked", model.reverse(crooked), 0),
    ("reverse of lopsided then crooked", model.reverse(model.then(lopsided, crooked)), 1),
    ("crooked conjugated by cycle", model.conjugate(crooked, cycle), 0),
    ("cycle conjugated by crooked", model.conjugate(cycle, crooked), 0),
    # where the phase turns between the moves of a conjugation
    ("crooked conjugated by lopsided", model.conjugate(crooked, lopsided), 0),
    ("lopsided conjugated by crooked", model.conjugate(lopsided, crooked), 1),
    ("lopsided conjugated by critters", model.conjugate(lopsided, critters), 1),
    ("lopsided times 0", made_times(lopsided, 0), 0),
    ("lopsided times 1", made_times(lopsided, 1), 1),
    ("crooked times 2", made_times(crooked, 2), 0),
    ("lopsided then crooked, times 5", made_times(model.then(lopsided, crooked), 5), 1),
    ("a stack of all four", all_four, 1),
]:
    maps.append((name, the_map, turns, False))
for name, turns, keeps_pasts in [
    ("bbm", 1, True),
    ("critters", 1, True),
    ("tron", 1, True),
    ("life2", 0, False),
    ("mixed", 1, False),
]:
    maps.append((f"the named map {name}", model.NAMED_MAPS[name], turns, keeps_pasts))


def lattices():
    for width, height in [(2, 2), (2, 4), (4, 2), (6, 4), (16, 10)]:
        area = width * height
        for phase in [0, 1]:
            # bits 2 to 7 all set, and low bits of several kinds
            for factor in [1, 3, 5, 7]:
                low = [(factor * k * k + k // 3 + factor // 2) % 4 for k in range(area)]
                yield Lattice(width, height, phase, [0b11111100 | bits for bits in low])
            # bits 2 to 7 different from cell to cell
            yield Lattice(width, height, phase, [(37 * k + k * k // 2 + 5) % 256 for k in range(area)])
            # every filling of a 2 by 2 lattice's presents
            if area == 4:
                for value in range(16):
                    cells = [0b11111100 | (value >> bit) & 1 for bit in range(4)]
                    yield Lattice(width, height, phase, cells)
            # any cells
            for _ in range(4):
                yield Lattice(width, height, phase, [chance.randrange(256) for _ in range(area)])
            # any low bits, bits 2 to 7 all set
            low = [chance.randrange(4) for _ in range(area)]
            yield Lattice(width, height, phase, [0b11111100 | bits for bits in low])


def kept_bits(lattice, mask):
    return [cell & mask for cell in lattice.cells]


for name, the_map, turns, keeps_pasts in maps:
    for lattice in lattices():
        before = Lattice(lattice.width, lattice.height, lattice.phase, list(lattice.cells))
        forward = the_map.forward(lattice)
        backward = the_map.backward(lattice)
        check(f"{name} leaves the old lattice alone", lattice, before)
        check(f"{name} forward, then back", the_map.backward(forward), lattice)
        check(f"{name} back, then forward", the_map.forward(backward), lattice)
        for moved in [forward, backward]:
            check(f"{name} keeps the sides", (moved.width, moved.height), (lattice.width, lattice.height))
            check(f"{name} keeps the lattice whole", model.is_whole(moved), True)
            check(f"{name} and the phase", moved.phase, (lattice.phase + turns) % 2)
            check(f"{name} keeps bits 2 to 7", kept_bits(moved, 0xFC), kept_bits(lattice, 0xFC))
            if keeps_pasts:
                check(f"{name} keeps the past", kept_bits(moved, 0xFE), kept_bits(lattice, 0xFE))
        for moves in [0, 1, 2, 9]:
            far = model.advance_by(the_map, lattice, moves)
            check(f"{name} {moves} there and back", model.retreat_by(the_map, far, moves), lattice)
            far = model.retreat_by(the_map, lattice, moves)
            check(f"{name} {moves} back and there", model.advance_by(the_map, far, moves), lattice)
    # a lattice that is not whole comes out as it went in
    for phase in [0, 1]:
        for count in [0, 1, 3, 5, 8]:
            part = Lattice(2, 2, phase, [0xFD] * count)
            same = Lattice(2, 2, phase, [0xFD] * count)
            check(f"{name} forward, {count} cells", the_map.forward(part), same)
            check(f"{name} back, {count} cells", the_map.backward(part), same)
            check(f"{name} 3 forward, {count} cells", model.advance_by(the_map, part, 3), same)
            check(f"{name} 3 back, {count} cells", model.retreat_by(the_map, part, 3), same)


# --- The same results in another way --------------------------------------------------------------

# The lift in one step, and without the numbers of the cells kept for a shape: forward a cell's new
# past is its present, and its new present is its past XOR what the rule gives; back its new present is
# its past, and its new past is its present XOR what the rule gives for the pasts around it.


def answer_at(rule, lattice, col, row, bit_of):
    number = 0
    weight = 1
    for down in [-1, 0, 1]:
        for right in [-1, 0, 1]:
            place = model.cell_number(lattice.width, lattice.height, col + right, row + down)
            number += weight * bit_of(lattice.cells[place])
            weight *= 2
    return rule(number)


def lifted_cells(rule, lattice, forward):
    cells = []
    for row in range(lattice.height):
        for col in range(lattice.width):
            cell = lattice.cells[row * lattice.width + col]
            if forward:
                new_present = model.past(cell) ^ answer_at(rule, lattice, col, row, model.present)
                new_past = model.present(cell)
            else:
                new_present = model.past(cell)
                new_past = model.present(cell) ^ answer_at(rule, lattice, col, row, model.past)
            cells.append(cell - cell % 4 + 2 * new_past + new_present)
    return cells


for lattice in lattices():
    for name, rule in RULES:
        the_map = model.lift(rule)
        cells = lifted_cells(rule, lattice, True)
        check(f"the lift of {name} at one blow", the_map.forward(lattice).cells, cells)
        cells = lifted_cells(rule, lattice, False)
        check(f"the lift of {name} back at one blow", the_map.backward(lattice).cells, cells)
    # the exchange reverses a lift: going back is the exchange, the move forward, the exchange
    for name, rule in RULES:
        turned = model.conjugate(model.lift(rule), exchange)
        check(f"the lift of {name}, turned", turned.forward(lattice), model.lift(rule).backward(lattice))
    check("mixed by hand", model.MIXED.forward(lattice), mixed_by_hand(lattice))
    check("mixed by hand, back", model.MIXED.backward(lattice), mixed_by_hand_back(lattice))
    for count in [0, 1, 2, 7]:
        repeated = made_times(model.then(lopsided, crooked), count)
        one_by_one = lattice
        for _ in range(count):
            one_by_one = crooked.forward(lopsided.forward(one_by_one))
        check(f"times {count} one by one", repeated.forward(lattice), one_by_one)


tell_passed("model")
