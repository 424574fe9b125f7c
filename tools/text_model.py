"""A plain model of script text and boards, written from docs/ alone.

It is meant to be read next to docs/TEXT.md, one section per concept. A text is a `bytes`, and so is a
memory for text; a cells memory is a list of numbers. No memory is changed in place: what it holds
afterwards is part of the result. Every function is given the number of the first line; from there on
the lines are counted, with no upper end.
"""

import model

# --- Lines and fields: docs/TEXT.md, "Lines, fields, numbers" -------------------------------------


def lines(text):
    """The lines without their newlines, and the unfinished line (None if there is none)."""
    *finished, rest = text.split(b"\n")
    return finished, rest if rest != b"" else None


def fields(line):
    """The fields of a line: the first is number 1, and stands at place 0 of the list."""
    return line.split(b"\t")


# --- Numbers: docs/TEXT.md, "Lines, fields, numbers" ----------------------------------------------

LARGEST_DIGITS = 6
DECIMAL_DIGITS = b"0123456789"


def number(field):
    """The number that a field is, or None."""
    if not 1 <= len(field) <= LARGEST_DIGITS:
        return None
    if any(byte not in DECIMAL_DIGITS for byte in field):
        return None
    if field.startswith(b"0") and field != b"0":
        return None
    return int(field)


def number_of_step(field):
    """The number that the field of a `step` is, or None: here there may be a minus in front."""
    if not field.startswith(b"-"):
        return number(field)
    size = number(field[1:])
    if size is None or size == 0:
        return None
    return -size


def number_written(value):
    return str(value).encode()


# --- Reading field by field: docs/TEXT.md, "Reading in place" -------------------------------------


def all_fields(text, first):
    """The fields of a text in order, each with its place and with what comes after it."""
    finished, rest = lines(text)
    ended = [(line, "newline") for line in finished]
    if rest is not None:
        ended.append((rest, "end of the text"))
    answer = []
    for at, (line, end) in enumerate(ended, start=first):
        cut = fields(line)
        for place, field in enumerate(cut, start=1):
            answer.append((field, at, place, "tab" if place < len(cut) else end))
    return answer


# --- Faults: docs/TEXT.md, "Faults" ---------------------------------------------------------------

# A fault is a tuple of four numbers: layer, number, line, field. These are the two layers that text has.

FIELD = 1
RECORD_OR_TEXT = 2


def fault_written(fault):
    return "\t".join(["fault"] + [str(part) for part in fault])


# --- The whole text: docs/TEXT.md, "Checking a script" and "Boards" -------------------------------

LARGEST_TEXT = 65536


def text_fault(text, first):
    """The fault of a text as a whole, 20 or 21, or None."""
    if len(text) > LARGEST_TEXT:
        return RECORD_OR_TEXT, 20, 0, 0
    finished, rest = lines(text)
    if rest is not None:
        return RECORD_OR_TEXT, 21, first + len(finished), 0
    return None


# --- Records: docs/TEXT.md, "Scripts" -------------------------------------------------------------

# A record is a tuple of its word and its numbers, as in ("flip", 0, 1, 3).

REST = "rest"
SESSION = "session"

# For each word: how many fields, the state in which it is permitted, and the state then.
RECORDS = {
    "step": (2, REST, REST),
    "undo": (1, REST, REST),
    "redo": (1, REST, REST),
    "open": (1, REST, SESSION),
    "flip": (4, SESSION, SESSION),
    "clear": (1, SESSION, SESSION),
    "close": (1, SESSION, REST),
}


def record_word(field):
    """The word that a field is, one of the seven, or None."""
    for word in RECORDS:
        if field == word.encode():
            return word
    return None


def read_record(line, at, state):
    """The record on line number `at` (None if there is a fault), and the fault."""
    cut = fields(line)
    word = record_word(cut[0])
    if word is None:
        return None, (RECORD_OR_TEXT, 23, at, 1)
    field_count, permitted, _ = RECORDS[word]
    if len(cut) != field_count:
        return None, (RECORD_OR_TEXT, 24, at, 0)
    if state != permitted:
        return None, (RECORD_OR_TEXT, 25, at, 0)
    record = [word]
    for place, field in enumerate(cut[1:], start=2):
        value = number_of_step(field) if word == "step" else number(field)
        if value is None:
            return None, (FIELD, 22, at, place)
        record.append(value)
    return tuple(record), None


# --- The check of a script: docs/TEXT.md, "Checking a script" -------------------------------------


def check_script(text, first):
    """The records of a script (None if there is a fault), and the first fault."""
    fault = text_fault(text, first)
    if fault is not None:
        return None, fault
    finished, _ = lines(text)
    records = []
    state = REST
    for at, line in enumerate(finished, start=first):
        record, fault = read_record(line, at, state)
        if fault is not None:
            return None, fault
        _, _, state = RECORDS[record[0]]
        records.append(record)
    if state == SESSION:
        return None, (RECORD_OR_TEXT, 26, first + len(finished), 0)
    return records, None


# --- Writing records: docs/TEXT.md, "Scripts" -----------------------------------------------------


def record_written(record):
    word, *numbers = record
    return b"\t".join([word.encode()] + [number_written(value) for value in numbers]) + b"\n"


def script_written(records):
    return b"".join(record_written(record) for record in records)


# --- The lines of a board: docs/TEXT.md, "Boards" -------------------------------------------------

CELL_DIGITS = b"0123456789abcdef"


def read_board_line(line, at):
    """Width, height and phase on line number `at` (None if there is a fault), and the fault."""
    cut = fields(line)
    if cut[0] != b"board":
        return None, (RECORD_OR_TEXT, 23, at, 1)
    if len(cut) != 4:
        return None, (RECORD_OR_TEXT, 24, at, 0)
    numbers = []
    for place, field in enumerate(cut[1:], start=2):
        value = number(field)
        if value is None:
            return None, (FIELD, 22, at, place)
        numbers.append(value)
    width, height, phase = numbers
    refusal = model.start_refusal(width, height, phase)
    if refusal is not None:
        return None, (RECORD_OR_TEXT, refusal, at, 0)
    return (width, height, phase), None


def read_row_line(line, at, width):
    """The cells on line number `at` (None if there is a fault), and the fault."""
    cut = fields(line)
    if cut[0] != b"row":
        return None, (RECORD_OR_TEXT, 23, at, 1)
    if len(cut) != 2:
        return None, (RECORD_OR_TEXT, 24, at, 0)
    digits = cut[1]
    if len(digits) != 2 * width or any(byte not in CELL_DIGITS for byte in digits):
        return None, (FIELD, 31, at, 2)
    values = [CELL_DIGITS.index(byte) for byte in digits]
    return [16 * values[2 * col] + values[2 * col + 1] for col in range(width)], None


def board_line_written(width, height, phase):
    return b"\t".join([b"board", number_written(width), number_written(height), number_written(phase)]) + b"\n"


def row_line_written(cells):
    digits = bytes(CELL_DIGITS[part] for cell in cells for part in [cell // 16, cell % 16])
    return b"row\t" + digits + b"\n"


# --- The board in a text: docs/TEXT.md, "Boards" --------------------------------------------------


def board_in(text, first):
    """The lattice at the beginning of a text and how many bytes it took (both None if there is a fault), and the fault."""
    fault = text_fault(text, first)
    if fault is not None:
        return None, None, fault
    finished, _ = lines(text)
    if len(finished) == 0:
        return None, None, (RECORD_OR_TEXT, 32, first, 0)
    start, fault = read_board_line(finished[0], first)
    if fault is not None:
        return None, None, fault
    width, height, phase = start
    cells = []
    for row in range(height):
        if len(finished) <= 1 + row:
            return None, None, (RECORD_OR_TEXT, 32, first + len(finished), 0)
        row_cells, fault = read_row_line(finished[1 + row], first + 1 + row, width)
        if fault is not None:
            return None, None, fault
        cells += row_cells
    # each line also has a newline
    taken = sum(len(line) + 1 for line in finished[: 1 + height])
    return model.Lattice(width, height, phase, cells), taken, None


def check_board(text, first):
    """Width, height, phase and bytes taken (None if there is a fault), and the fault."""
    lattice, taken, fault = board_in(text, first)
    if fault is not None:
        return None, fault
    return (lattice.width, lattice.height, lattice.phase, taken), None


def read_board(text, first, memory):
    """Width, height, phase and bytes taken (None if there is a fault), the memory afterwards, and the fault."""
    lattice, taken, fault = board_in(text, first)
    if fault is not None:
        return None, memory, fault
    area = lattice.width * lattice.height
    if len(memory) < area:
        return None, memory, (RECORD_OR_TEXT, 30, 0, 0)
    return (lattice.width, lattice.height, lattice.phase, taken), lattice.cells + memory[area:], None


# --- Writing a board: docs/TEXT.md, "Boards" ------------------------------------------------------


def board_written(lattice):
    """The text of a whole lattice."""
    text = board_line_written(lattice.width, lattice.height, lattice.phase)
    for row in range(lattice.height):
        text += row_line_written(lattice.cells[row * lattice.width : (row + 1) * lattice.width])
    return text


def write_board(lattice, memory):
    """The length of the text (None if refused), the memory afterwards, and the refusal."""
    if not model.is_whole(lattice):
        return None, memory, 10
    text = board_written(lattice)
    if len(memory) < len(text):
        return None, memory, 30
    return len(text), text + memory[len(text) :], None
