"""Prints what the program `map_vectors` prints (docs/PROGRAMS.md), computed by the model."""

import model
from samples import digest, sown

# Width and height.
SHAPES = [(2, 2), (2, 4), (4, 2), (6, 4), (2, 256), (256, 2), (16, 10), (128, 128), (256, 64)]

LOPSIDED = model.block_map([(7 * v + 3) % 16 for v in range(16)])
CYCLE = model.cell_map([1, 2, 3, 0])
COUNTED_RULE, _ = model.count_rule(74, 300)
COUNTED = model.lift(COUNTED_RULE)
CROOKED = model.lift(model.table_rule([(number * number // 13 + number // 5) % 2 for number in range(512)]))
THEN = model.then(LOPSIDED, CROOKED)
TIMES, _ = model.times(THEN, 5)
NEVER, _ = model.times(LOPSIDED, 0)

MAPS = [
    ("block", "bbm", model.block_map(model.BLOCK_TABLES["bbm"])),
    ("block", "critters", model.block_map(model.BLOCK_TABLES["critters"])),
    ("block", "tron", model.block_map(model.BLOCK_TABLES["tron"])),
    ("block", "lopsided", LOPSIDED),
    ("cell", "exchange", model.cell_map(model.CELL_TABLES["exchange"])),
    ("cell", "complement", model.cell_map(model.CELL_TABLES["complement"])),
    ("cell", "cycle", CYCLE),
    ("lift", "counted", COUNTED),
    ("lift", "crooked", CROOKED),
    ("stack", "then", THEN),
    ("stack", "reversed", model.reverse(THEN)),
    ("stack", "conjugated", model.conjugate(CROOKED, CYCLE)),
    ("stack", "times", TIMES),
    ("stack", "never", NEVER),
    ("named", "bbm", model.NAMED_MAPS["bbm"]),
    ("named", "critters", model.NAMED_MAPS["critters"]),
    ("named", "tron", model.NAMED_MAPS["tron"]),
    ("named", "life2", model.NAMED_MAPS["life2"]),
    ("named", "mixed", model.NAMED_MAPS["mixed"]),
]


def vector(kind, name, the_map, start):
    one = model.advance_by(the_map, start, 1)
    ten = model.advance_by(the_map, start, 10)
    back = model.retreat_by(the_map, start, 1)
    home = model.retreat_by(the_map, ten, 10)
    came_home = home.cells == start.cells and home.phase == start.phase
    fields = [
        kind, name,
        start.width, start.height, start.phase,
        digest(one.cells), one.phase,
        digest(ten.cells), ten.phase,
        digest(back.cells), back.phase,
        "home" if came_home else "lost",
    ]
    return " ".join(str(field) for field in fields)


for width, height in SHAPES:
    for phase in [0, 1]:
        for kind, name, the_map in MAPS:
            start = model.Lattice(width, height, phase, sown(width * height))
            print(vector(kind, name, the_map, start))
