"""Makes random jobs, good ones and refused ones, so that programs can be compared.

Job number k of a seed has random numbers of its own, so that it does not depend on how many are asked
for. With a seed and a number it prints that job.
"""

import dataclasses
import random
import sys

# --- What a run costs -----------------------------------------------------------------------------

# What a move costs the first model, the slowest of the three, for each cell, if a block map costs 1.
WORK = {b"bbm": 1, b"critters": 1, b"tron": 1, b"life2": 2, b"mixed": 12}
NAMES = list(WORK)

# A move of no cells would cost as much as so many cells.
BESIDES = 8

LARGEST_COUNT = 10000
LARGEST_ENTRIES = 256
LARGEST_TEXT = 65536


def cost_of_move(name, width, height):
    """What a move costs, so that the costs of a run can be bounded before it is made."""
    return WORK[name] * (width * height + BESIDES)


# --- A job in the making --------------------------------------------------------------------------

# A line is a list of its fields here, so that a fault can be planted in one of them.


class Draft:
    """A job before it is written."""

    def __init__(self, name, width, height, phase, cells):
        self.name, self.width, self.height = name, width, height
        # the map line, the board's line and its rows
        self.head = [[b"map", name], [b"board", *map(digits, [width, height, phase])], *rows_of(cells, width)]
        self.script = []


def digits(number):
    return b"%d" % number


def record(word, *numbers):
    return [word, *map(digits, numbers)]


def rows_of(cells, width):
    return [[b"row", cells[first : first + width].hex().encode()] for first in range(0, len(cells), width)]


def written(draft):
    return b"".join(b"\t".join(line) + b"\n" for line in draft.head + draft.script)


# --- Boards ---------------------------------------------------------------------------------------


def even(chance, least, most):
    return 2 * chance.randint(least // 2, most // 2)


def turned(chance, one, other):
    """The two sides, in one order or the other."""
    return chance.choice([(one, other), (other, one)])


def small_shape(chance):
    sides = [2, 2, 2, 4, 4, 6, 8]
    return chance.choice(sides), chance.choice(sides)


def middle_shape(chance):
    return even(chance, 2, 32), even(chance, 2, 32)


def thin_shape(chance):
    return turned(chance, chance.choice([2, 2, 4]), chance.choice([128, 254, 256, even(chance, 2, 256)]))


def large_shape(chance):
    """The largest area in most cases, or just below it."""
    wide = even(chance, 64, 256)
    nearly = 2 * (16384 // wide // 2)
    return chance.choice([(128, 128), turned(chance, 256, 64), turned(chance, wide, nearly)])


def any_shape(chance, is_small):
    # the larger ones are rarer, for their costs
    weights = [980, 15, 5, 0] if is_small else [66, 20, 8, 6]
    return chance.choices([small_shape, middle_shape, thin_shape, large_shape], weights)[0](chance)


def scattered_cells(chance, area):
    """A few cells of any bytes, and else 0."""
    cells = bytearray(area)
    for _ in range(chance.randint(1, 12)):
        cells[chance.randrange(area)] = chance.randrange(256)
    return bytes(cells)


def patterned_cells(chance, width, height):
    """Stripes, or grids, of any direction."""
    right, down, distance = chance.randint(0, 3), chance.randint(0, 3), chance.randint(2, 6)
    on, off = chance.choice([(1, 0), (3, 0), (2, 1), (chance.randrange(256), chance.randrange(256))])
    return bytes(
        on if (right * col + down * row) % distance == 0 else off for row in range(height) for col in range(width)
    )


def any_cells(chance, width, height):
    area = width * height
    kind = chance.randrange(6)
    if kind == 0:
        return scattered_cells(chance, area)
    if kind == 1:
        return patterned_cells(chance, width, height)
    if kind == 2:
        return bytes([chance.choice([0, 1, 2, 3, 255])]) * area
    # all bytes, presents and pasts, presents
    kept = [255, 3, 1][kind - 3]
    return bytes(byte & kept for byte in chance.randbytes(area))


def any_draft(chance, is_small):
    """Map and board."""
    width, height = any_shape(chance, is_small)
    return Draft(chance.choice(NAMES), width, height, chance.randrange(2), any_cells(chance, width, height))


# --- Records that a bench makes -------------------------------------------------------------------


class Keeper:
    """Writes records, and counts what a bench would count, to know which it would make next and at what cost."""

    def __init__(self, cost, budget):
        self.lines = []
        # the entries and the moves of each action; the last one is the next to be undone, or made again
        self.standing, self.undone = [], []
        self.cost, self.budget = cost, budget

    def room(self):
        """How many entries are not used."""
        return LARGEST_ENTRIES - sum(entries for entries, _ in self.standing)

    def affordable(self):
        """How many moves a step can have, or an undo or redo."""
        return min(LARGEST_COUNT, self.budget // self.cost)

    def can_step(self):
        return self.room() > 0 and self.affordable() > 0

    def can_take(self, actions):
        return actions != [] and actions[-1][1] <= self.affordable()

    def put(self, line, moves=0):
        self.lines.append(line)
        self.budget -= moves * self.cost

    def step(self, count):
        self.put(record(b"step", count), abs(count))
        self.standing.append((1, abs(count)))
        self.undone.clear()

    def taken(self, word, actions, others):
        """An undo or a redo: the last one of these actions goes to the others."""
        others.append(actions.pop())
        self.put([word], others[-1][1])

    def session(self, inside, flips):
        """A session with these lines, of which so many flips are left at the end."""
        for line in [[b"open"], *inside, [b"close"]]:
            self.put(line)
        self.undone.clear()
        if flips > 0:
            self.standing.append((flips, 0))


def any_count(chance, most):
    """A step count of either sign, mostly small, and at most so large."""
    sizes = [1, 1, 1, 2, 3, chance.randint(1, 12), chance.randint(1, 100), chance.randint(1, (most + 1) // 2)]
    size = most if chance.randrange(16) == 0 else chance.choice(sizes)
    return chance.choice([1, -1]) * min(size, most)


def any_mask(chance):
    return chance.choice([1, 1, 2, 3, 4, 128, 252, 254, 255, chance.randint(1, 255)])


def any_flip(chance, width, height):
    """A flip anywhere, often at an edge."""
    col = chance.choice([0, width - 1, chance.randrange(width)])
    row = chance.choice([0, height - 1, chance.randrange(height)])
    return record(b"flip", col, row, any_mask(chance))


def any_inside(chance, draft, room, most):
    """Flips and clears of a session, and how many flips are left at the end: never more than there is room for."""
    lines, flips = [], 0
    for _ in range(chance.randint(0, most)):
        if flips == room or chance.randrange(8) == 0:
            lines.append([b"clear"])
            flips = 0
        else:
            lines.append(any_flip(chance, draft.width, draft.height))
            flips += 1
    return lines, flips


@dataclasses.dataclass(frozen=True)
class Style:
    """Of what parts a script is made."""

    # how many there are at most
    parts: int
    # how often each comes: a step, undos, redos, a session
    weights: tuple
    # how many moves a step has at most, and how many records a session
    moves: int
    inside: int


PLAIN = Style(8, (4, 2, 3, 2), LARGEST_COUNT, 4)
EDITING = Style(30, (1, 2, 2, 6), 100, 20)
BACK_AND_FORTH = Style(60, (4, 2, 3, 1), 12, 3)


def add_some(chance, keeper, word, actions, others):
    """One undo or redo, or some, or all that there can be."""
    for _ in range(chance.choice([1, 1, 1, 2, 5, LARGEST_ENTRIES])):
        if keeper.can_take(actions):
            keeper.taken(word, actions, others)


def add_part(chance, keeper, draft, style):
    step, undo, redo, session = style.weights
    possible = [
        step * keeper.can_step(),
        undo * keeper.can_take(keeper.standing),
        redo * keeper.can_take(keeper.undone),
        session,
    ]
    kind = chance.choices(["step", "undo", "redo", "session"], possible)[0]
    if kind == "step":
        keeper.step(any_count(chance, min(style.moves, keeper.affordable())))
    elif kind == "undo":
        add_some(chance, keeper, b"undo", keeper.standing, keeper.undone)
    elif kind == "redo":
        add_some(chance, keeper, b"redo", keeper.undone, keeper.standing)
    else:
        keeper.session(*any_inside(chance, draft, keeper.room(), style.inside))


def fill(chance, keeper, draft):
    """Steps and sessions until the journal is full, or steps alone, or sessions alone."""
    share, inside = chance.choice([0, 0.8, 1]), chance.choice([2, 12, 300])
    while keeper.room() > 0:
        if keeper.can_step() and chance.random() < share:
            keeper.step(any_count(chance, min(2, keeper.affordable())))
        else:
            keeper.session(*any_inside(chance, draft, keeper.room(), inside))


def good_script(chance, draft, is_small):
    """Lines that a bench makes, as many as the budget has."""
    budget = 20_000 if is_small else chance.choices([20_000, 200_000, 2_000_000], [60, 37, 3])[0]
    keeper = Keeper(cost_of_move(draft.name, draft.width, draft.height), budget)
    if chance.randrange(100 if is_small else 10) == 0:
        fill(chance, keeper, draft)
    style = chance.choices([PLAIN, EDITING, BACK_AND_FORTH], [95, 3, 2] if is_small else [65, 20, 15])[0]
    for _ in range(chance.randint(0, style.parts)):
        add_part(chance, keeper, draft, style)
    return keeper.lines


# --- Long texts -----------------------------------------------------------------------------------

# an `open` with its `close`, and a `clear`, in bytes
SESSION_BYTES, CLEAR_BYTES = 11, 6


def idle_lines(chance, length):
    """Lines of just so many bytes, 66 at least, that change nothing: sessions in which nothing is flipped."""
    # so that the rest can be divided into clears
    sessions = -length % CLEAR_BYTES or CLEAR_BYTES
    clears = (length - SESSION_BYTES * sessions) // CLEAR_BYTES
    # as long as these clears is one session for each byte of a clear
    exchanged = chance.randint(0, clears // SESSION_BYTES)
    sessions, clears = sessions + CLEAR_BYTES * exchanged, clears - SESSION_BYTES * exchanged
    lines = []
    for which in range(sessions):
        mine = clears if which == sessions - 1 else chance.randint(0, clears // (sessions - which))
        clears -= mine
        lines += [[b"open"], *[[b"clear"]] * mine, [b"close"]]
    return lines


def lengthen(chance, draft, length):
    """Makes the text so long. A session forgets what was undone, so these come before all redos or after them."""
    short = length - len(written(draft))
    if short >= 66:
        lines = idle_lines(chance, short)
        draft.script = lines + draft.script if chance.randrange(2) == 0 else draft.script + lines


# --- Good jobs ------------------------------------------------------------------------------------


def clock_draft(chance):
    """A clock that goes far, or as far as one can. It costs the first model some seconds, so it is rare."""
    draft = Draft(chance.choice(NAMES[:3]), 2, 2, chance.randrange(2), any_cells(chance, 2, 2))
    keeper = Keeper(1, 10**9)
    sign = chance.choice([1, -1])
    for _ in range(LARGEST_ENTRIES if chance.randrange(4) == 0 else chance.randint(4, 40)):
        keeper.step(sign * LARGEST_COUNT)
    for _ in range(chance.choice([0, 1, 4])):
        add_part(chance, keeper, draft, PLAIN)
    draft.script = keeper.lines
    return draft


def good_draft(chance, is_small):
    if not is_small and chance.randrange(300) == 0:
        return clock_draft(chance)
    draft = any_draft(chance, is_small)
    draft.script = good_script(chance, draft, is_small)
    if chance.randrange(400 if is_small else 60) == 0:
        lengthen(chance, draft, LARGEST_TEXT - chance.choice([0, 0, 0, 1, 2, chance.randrange(20000)]))
    return draft


# --- Words and numbers that are none --------------------------------------------------------------

RECORDS = {b"step": 1, b"undo": 0, b"redo": 0, b"open": 0, b"flip": 3, b"clear": 0, b"close": 0}
AT_REST, IN_SESSION = [b"step", b"undo", b"redo", b"open"], [b"flip", b"clear", b"close"]
WORDS = [b"map", b"board", b"row", *RECORDS]


def any_field(chance):
    """Any bytes that can stand in one field."""
    return chance.randbytes(chance.randint(0, 8)).translate(None, b"\t\n")


def other_word(chance, word):
    """Another word, or bytes that are none."""
    near = [word.upper(), word.capitalize(), word[:-1], word[1:], word[::-1], word + b"s", word + b"\r", b" " + word]
    near += [word + b" ", b"\x00" + word, word + b"\x00", b"\xef\xbb\xbf" + word, b"", b"\r", any_field(chance)]
    return chance.choice([*near, chance.choice([other for other in WORDS if other != word])])


def no_number(chance):
    """Bytes that are no number in any field."""
    right = digits(chance.choice([0, 1, 2, 10, 255, chance.randrange(1000000)]))
    near = [b"0" + right, b"+" + right, b"--" + right, b" " + right, right + b" ", right + b"\r", right + b"-"]
    near += [b"-0" + right, b"-", b"-0", b"00", b"", b"x", b"0x1", b"1e3", b"1_0", b"1.0", b"1/", b":", b"\xb2"]
    near += [b"1000000", b"4294967297", b"-4294967297", b"18446744073709551617", b"%d" % chance.randrange(10**6, 10**7)]
    return chance.choice([*near, b"\x00" + any_field(chance)])


def with_bad_fields(chance, line):
    """The line with one or more of its numbers changed to what is none."""
    numbers = range(1, len(line))
    bad = list(line)
    for place in chance.sample(numbers, min(len(numbers), chance.choice([1, 1, 2, 3]))):
        # only a step can go back
        is_below_zero = line[0] != b"step" and chance.randrange(6) == 0
        bad[place] = digits(-chance.randint(1, 999999)) if is_below_zero else no_number(chance)
    return bad


def with_other_count(chance, line):
    """The line with a field more or less, or some."""
    if len(line) > 1 and chance.randrange(2) == 0:
        return line[: chance.randrange(1, len(line))]
    return [*line, *chance.choice([[b""], [b"0"], [b"", b""], [line[-1]], [any_field(chance)] * chance.randint(1, 9)])]


def sometimes(chance, change, line):
    """The line, at times with a fault, so that another one on the same line is seen to be reported before it."""
    return change(chance, line) if chance.randrange(4) == 0 else line


def with_other_word(chance, line):
    return [other_word(chance, line[0]), *line[1:]]


def with_other_first(chance, line):
    """The line with another word, and at times with other fields as well."""
    return with_other_word(chance, sometimes(chance, with_other_count, line))


def any_record(chance, words, draft):
    """A record of one of these words, good but for its place."""
    word = chance.choice(words)
    if word == b"step":
        return record(word, any_count(chance, 3))
    return any_flip(chance, draft.width, draft.height) if word == b"flip" else [word]


# --- Places in a script ---------------------------------------------------------------------------


def in_sessions(script):
    """For each place before a line, and for the one after the last, whether it is in session."""
    answer = [False]
    for line in script:
        answer.append({b"open": True, b"close": False}.get(line[0], answer[-1]))
    return answer


def place_at_rest(chance, script):
    return chance.choice([place for place, inside in enumerate(in_sessions(script)) if not inside])


def place_in_session(chance, script):
    """If there is no session, one is put into the script."""
    if not any(in_sessions(script)):
        place = chance.randint(0, len(script))
        script[place:place] = [[b"open"], [b"close"]]
    return chance.choice([place for place, inside in enumerate(in_sessions(script)) if inside])


def put_at_rest(chance, draft, *lines):
    place = place_at_rest(chance, draft.script)
    draft.script[place:place] = lines


def put_in_session(chance, draft, *lines):
    place = place_in_session(chance, draft.script)
    draft.script[place:place] = lines


def put_anywhere(chance, draft, line):
    draft.script.insert(chance.randint(0, len(draft.script)), line)


# --- Faults of the run ----------------------------------------------------------------------------

# A fault is a call that plants it in a draft.


def bad_count(chance, draft):
    counts = [0, 0, 10001, -10001, 999999, -999999, chance.randint(10001, 999999), -chance.randint(10001, 999999)]
    put_at_rest(chance, draft, record(b"step", chance.choice(counts)))


def nothing_to_undo(chance, draft):
    place = place_at_rest(chance, draft.script)
    actions = sum(line[0] in (b"step", b"close") for line in draft.script[:place])
    draft.script[place:place] = [[b"undo"]] * (actions + 1)


def nothing_to_redo(chance, draft):
    place = place_at_rest(chance, draft.script)
    undone = sum(line[0] == b"undo" for line in draft.script[:place])
    session = [[b"open"], [b"close"], [b"redo"]]
    draft.script[place:place] = chance.choice([session, [[b"redo"]] * (undone + 1)])


def over(chance, side):
    """A column or a row that is off the lattice."""
    return chance.choice([side, side, side + 1, 2 * side, 999999, chance.randint(side, 999999)])


def any_bad_mask(chance):
    return chance.choice([0, 0, 256, 256, 257, 511, 65536, 999999, chance.randint(256, 999999)])


def off_the_lattice(chance, draft):
    col, row = chance.randrange(draft.width), chance.randrange(draft.height)
    bad_col, bad_row = over(chance, draft.width), over(chance, draft.height)
    col, row = chance.choice([(bad_col, row), (col, bad_row), (bad_col, bad_row)])
    mask = any_mask(chance) if chance.randrange(3) > 0 else any_bad_mask(chance)
    put_in_session(chance, draft, record(b"flip", col, row, mask))


def bad_mask(chance, draft):
    col, row = chance.randrange(draft.width), chance.randrange(draft.height)
    put_in_session(chance, draft, record(b"flip", col, row, any_bad_mask(chance)))


def flips(chance, draft, many):
    return [any_flip(chance, draft.width, draft.height) for _ in range(many)]


def full_in_session(chance, draft):
    put_in_session(chance, draft, *flips(chance, draft, LARGEST_ENTRIES + 1))


def full_at_rest(chance, draft):
    """Just full, and then what is refused with 17, or with what comes before it."""
    col = draft.width
    more = [any_flip(chance, draft.width, draft.height), record(b"flip", col, 0, 1), record(b"flip", 0, 0, 0)]
    refused = [[b"open"], chance.choice(more), [b"close"]]
    refused = chance.choice([refused, [record(b"step", 1)], [record(b"step", 0)]])
    filled = flips(chance, draft, LARGEST_ENTRIES)
    draft.script[:0] = [[b"open"], *filled, [b"close"], *refused]


def full_of_steps(chance, draft):
    # on larger boards it would cost too much
    if cost_of_move(draft.name, draft.width, draft.height) > 500:
        return full_in_session(chance, draft)
    put_at_rest(chance, draft, *[any_record(chance, [b"step"], draft) for _ in range(LARGEST_ENTRIES + 1)])


def journal_full(chance, draft):
    chance.choice([full_in_session, full_at_rest, full_at_rest, full_of_steps])(chance, draft)


# --- Faults of a script's text --------------------------------------------------------------------


def unknown_word(chance, draft):
    put_anywhere(chance, draft, with_other_first(chance, any_record(chance, list(RECORDS), draft)))


def unknown_line(chance, draft):
    """A line that belongs elsewhere, or nowhere."""
    elsewhere = chance.choice([draft.head[0], draft.head[1], draft.head[-1]])
    put_anywhere(chance, draft, chance.choice([elsewhere, [b""], [b"", b""], [any_field(chance), any_field(chance)]]))


def wrong_count(chance, draft):
    line = sometimes(chance, with_bad_fields, any_record(chance, list(RECORDS), draft))
    put_anywhere(chance, draft, with_other_count(chance, line))


def not_permitted(chance, draft):
    put, words = chance.choice([(put_at_rest, IN_SESSION), (put_in_session, AT_REST)])
    put(chance, draft, sometimes(chance, with_bad_fields, any_record(chance, words, draft)))


def no_step_count(chance, draft):
    put_at_rest(chance, draft, with_bad_fields(chance, record(b"step", 1)))


def no_flip_number(chance, draft):
    put_in_session(chance, draft, with_bad_fields(chance, any_flip(chance, draft.width, draft.height)))


def open_at_the_end(chance, draft):
    if chance.randrange(2) == 0:
        draft.script.append([b"open"])
        draft.script += any_inside(chance, draft, LARGEST_ENTRIES, 4)[0]
    else:
        del draft.script[place_in_session(chance, draft.script) :]


# --- Faults of the board --------------------------------------------------------------------------


def other_digits(chance, right):
    """Digits of which there are too few or too many, or of which one is none."""
    place = chance.randint(0, len(right))
    wrong = chance.choice([b"A", b"F", b"g", b"/", b":", b"`", b"@", b"G", b" ", b"\r", b"\x00", b"\xff", b"-"])
    length = [right[:-1], right[:-2], right + b"0", right + b"00", b"", right + right, right[:place], right + b"\r"]
    return chance.choice([right[:place] + wrong + right[place + 1 :], chance.choice(length)])


def with_other_digits(chance, line):
    return line[:1] + [other_digits(chance, right) for right in line[1:2]] + line[2:]


def change_a_row(chance, draft, change):
    which = chance.randrange(2, len(draft.head))
    draft.head[which] = change(chance, draft.head[which])


def row_digits(chance, draft):
    change_a_row(chance, draft, with_other_digits)


def row_fields(chance, draft):
    def change(chance, line):
        return with_other_count(chance, sometimes(chance, with_other_digits, line))

    change_a_row(chance, draft, change)


def row_word(chance, draft):
    change_a_row(chance, draft, with_other_first)


def board_word(chance, draft):
    draft.head[1] = with_other_first(chance, draft.head[1])


def board_fields(chance, draft):
    draft.head[1] = with_other_count(chance, sometimes(chance, with_bad_fields, draft.head[1]))


def board_number(chance, draft):
    draft.head[1] = with_bad_fields(chance, draft.head[1])


def change_shape(chance, draft, width, height):
    """Puts these sides on the board's line, and sometimes gives them their rows and a bad phase."""
    phase = draft.head[1][3] if chance.randrange(3) > 0 else digits(any_bad_phase(chance))
    draft.head[1] = [b"board", digits(width), digits(height), phase]
    if 0 < width * height < 20000 and chance.randrange(3) > 0:
        draft.head[2:] = rows_of(any_cells(chance, width, height), width)


def bad_side(chance):
    return chance.choice([0, 1, 3, 255, 257, 258, 260, 512, 65536, 999999, 2 * chance.randrange(128) + 1])


def board_sides(chance, draft):
    width, height = chance.choice([(bad_side(chance), draft.height), (draft.width, bad_side(chance))])
    change_shape(chance, draft, width, bad_side(chance) if chance.randrange(4) == 0 else height)


def board_area(chance, draft):
    """Too large by a little, or by much."""
    wide = even(chance, 66, 256)
    least = 2 * (16384 // wide // 2) + 2
    change_shape(chance, draft, *turned(chance, wide, chance.choice([least, least, even(chance, least, 256)])))


def any_bad_phase(chance):
    return chance.choice([2, 2, 3, 10, 255, 256, 999999, chance.randint(2, 999999)])


def board_phase(chance, draft):
    draft.head[1] = [*draft.head[1][:3], digits(any_bad_phase(chance))]


# --- Faults of the map line -----------------------------------------------------------------------


def with_other_name(chance, line):
    near = other_word(chance, chance.choice(NAMES))
    return [line[0], chance.choice([near, near, b"life", b"exchange", b"complement", b"0", any_field(chance)])]


def map_name(chance, draft):
    draft.head[0] = with_other_name(chance, draft.head[0])


def map_fields(chance, draft):
    draft.head[0] = with_other_count(chance, sometimes(chance, with_other_name, draft.head[0]))


def map_word(chance, draft):
    draft.head[0] = with_other_first(chance, draft.head[0])


# --- Lines that are missing -----------------------------------------------------------------------


def head_cut(chance, draft):
    """Of map line and board only the first lines are left, and no script in most cases."""
    left = chance.choice([0, 1, 2, len(draft.head) - 1, chance.randrange(len(draft.head))])
    draft.head = draft.head[:left]
    if chance.randrange(8) > 0:
        draft.script = []


# --- Faults of the whole text ---------------------------------------------------------------------


def unfinished(chance, text):
    """Cut in one of its lines, or with something after its last newline."""
    if text == b"" or chance.randrange(3) == 0:
        return text + chance.choice([b"\t", b"\r", b"\x00", b"undo", b"\xff", b" ", b"x"])
    lines = text.split(b"\n")[:-1]
    which = min(len(lines) - 1, chance.choice([0, 1, 2, chance.randrange(len(lines)), len(lines)]))
    line = lines[which]
    return b"".join(line + b"\n" for line in lines[:which]) + line[: chance.randint(min(1, len(line)), len(line))]


def longer(chance, text):
    """Too long by a byte or more, with good lines or with others."""
    length = LARGEST_TEXT + chance.choice([1, 1, 1, 2, 3, 100, 4464, 65536, 140000])
    if length - len(text) >= 66 and chance.randrange(2) == 0:
        return text + b"".join(b"\t".join(line) + b"\n" for line in idle_lines(chance, length - len(text)))
    more = chance.choice([b"undo\n", b"x", b"\n", b"\x00", b"\t", text or b"\r\n"])
    return (text + more * (1 + length // len(more)))[:length]


# --- Refused jobs ---------------------------------------------------------------------------------

# From the end of the job to its beginning, since they are planted in this order.
FAULTS = [
    bad_count, nothing_to_undo, nothing_to_redo, off_the_lattice, bad_mask, journal_full,
    unknown_word, unknown_line, wrong_count, not_permitted, no_step_count, no_flip_number, open_at_the_end,
    row_word, row_fields, row_digits,
    board_area, board_sides, board_phase, board_number, board_fields, board_word,
    map_name, map_fields, map_word,
    head_cut,
]
# and these in what is written then
TEXT_FAULTS = [unfinished, longer]


def refused_job(chance, is_small):
    """The text of a job with one fault, or with two or three of which the first one counts."""
    draft = good_draft(chance, is_small)
    chosen = chance.sample(FAULTS + TEXT_FAULTS, chance.choice([1, 1, 1, 1, 2, 2, 3]))
    for fault in FAULTS:
        if fault in chosen:
            fault(chance, draft)
    if chance.randrange(400 if is_small else 60) == 0:
        lengthen(chance, draft, LARGEST_TEXT - chance.randrange(2))
    text = written(draft)
    for fault in TEXT_FAULTS:
        if fault in chosen:
            text = fault(chance, text)
    return text


# --- Jobs by number -------------------------------------------------------------------------------


def good_job(chance, is_small):
    return written(good_draft(chance, is_small))


def any_job(chance, is_small):
    return chance.choice([good_job, refused_job])(chance, is_small)


def job(seed, number):
    return any_job(random.Random(f"random {seed} {number}"), False)


if __name__ == "__main__":
    sys.stdout.buffer.write(job(int(sys.argv[1]), int(sys.argv[2])))
