"""Makes damaged jobs: those of random_jobs.py with one to four damages to their bytes.

Damaged job number k of a seed is the same however many are asked for. With a seed and a number it
prints that job.
"""

import pathlib
import random
import sys

sys.path.insert(0, str(pathlib.Path(__file__).resolve().parent.parent))
import random_jobs
import text_model

# --- What a run costs -----------------------------------------------------------------------------

# A damage can make a step much longer; a job that would cost more than this is damaged in another way.
LARGEST_COST = 400_000


def step_moves(fields):
    """How many moves a step with these fields makes: none if it is refused."""
    count = text_model.number_of_step(fields[1]) if len(fields) == 2 else None
    return abs(count) if count is not None and abs(count) <= random_jobs.LARGEST_COUNT else 0


def moves_in(lines):
    """How many moves a run of these lines makes at most, also those that an undo or a redo makes."""
    standing, undone, flips, moves = [], [], 0, 0
    for fields in map(text_model.fields, lines):
        word = fields[0]
        if word == b"step":
            standing.append(step_moves(fields))
            moves += standing[-1]
        elif word == b"undo" and standing:
            undone.append(standing.pop())
            moves += undone[-1]
        elif word == b"redo" and undone:
            standing.append(undone.pop())
            moves += standing[-1]
        elif word in (b"flip", b"clear"):
            flips = flips + 1 if word == b"flip" else 0
        elif word == b"close" and flips > 0:
            standing.append(0)
            flips = 0
    return moves


def cost(text):
    """What a run of the text can cost, if it is a job at all."""
    lines = text.split(b"\n")
    fields = text_model.fields(lines[0]) + text_model.fields(lines[1]) if len(lines) > 1 else []
    if len(fields) != 6 or fields[1] not in random_jobs.WORK or len(text) > random_jobs.LARGEST_TEXT:
        return 0
    sides = [text_model.number(field) for field in fields[3:5]]
    if None in sides or max(sides) > 256:
        return 0
    return random_jobs.cost_of_move(fields[1], *sides) * moves_in(lines[2:])


# --- Places ---------------------------------------------------------------------------------------

# Every damage takes any text, also one without bytes, and may leave it as it is.


def any_place(chance, text):
    return chance.randint(0, len(text))


def two_places(chance, text):
    """In their order."""
    return sorted([any_place(chance, text), any_place(chance, text)])


def places_of(text, which):
    """The places at which one of these bytes stands."""
    return [place for place, byte in enumerate(text) if byte in which]


def replaced(text, place, byte):
    return text[:place] + bytes([byte]) + text[place + 1 :]


def with_one_changed(chance, text, which, change):
    """The text after a change of one of these bytes: `change` returns what is there then."""
    places = places_of(text, which)
    if not places:
        return text
    place = chance.choice(places)
    return text[:place] + change(text[place : place + 1]) + text[place + 1 :]


# --- Damages of bytes -----------------------------------------------------------------------------

ODD_BYTES = b"\t\n\r\x00\x01 -+.0189afgAFG/:@`\x7f\x80\xb2\xff"


def cut_behind(chance, text):
    return text[: any_place(chance, text)]


def cut_in_front(chance, text):
    return text[any_place(chance, text) :]


def stretch_lost(chance, text):
    begin, end = two_places(chance, text)
    return text[:begin] + text[end:]


def stretch_doubled(chance, text):
    begin, end = two_places(chance, text)
    return text[:end] + text[begin:]


def stretch_moved(chance, text):
    begin, end = two_places(chance, text)
    stretch, rest = text[begin:end], text[:begin] + text[end:]
    place = any_place(chance, rest)
    return rest[:place] + stretch + rest[place:]


def bits_turned(chance, text):
    for _ in range(chance.choice([1, 1, 1, 2, 8]) if text else 0):
        place = chance.randrange(len(text))
        text = replaced(text, place, text[place] ^ 1 << chance.randrange(8))
    return text


def bytes_exchanged(chance, text):
    if not text:
        return text
    one, other = chance.randrange(len(text)), chance.randrange(len(text))
    return replaced(replaced(text, one, text[other]), other, text[one])


def neighbours_exchanged(chance, text):
    place = any_place(chance, text)
    return text[:place] + text[place : place + 2][::-1] + text[place + 2 :]


def bytes_inserted(chance, text):
    """Any of the 256."""
    place = any_place(chance, text)
    return text[:place] + chance.randbytes(chance.choice([1, 1, 1, 2, 5])) + text[place:]


def odd_byte_inserted(chance, text):
    place = any_place(chance, text)
    return text[:place] + bytes([chance.choice(ODD_BYTES)]) + text[place:]


def byte_lost(chance, text):
    place = any_place(chance, text)
    return text[:place] + text[place + 1 :]


def byte_replaced(chance, text):
    place = any_place(chance, text)
    byte = chance.choice([chance.choice(ODD_BYTES), chance.randrange(256)])
    return replaced(text, place, byte)


# --- Damages of line ends and tabs ----------------------------------------------------------------


def returns_in_front(chance, text):
    return text.replace(b"\n", b"\r\n")


def return_in_front(chance, text):
    return with_one_changed(chance, text, b"\n", lambda end: b"\r\n")


def returns_for_newlines(chance, text):
    return text.replace(b"\n", b"\r")


def no_newline(chance, text):
    return text.rstrip(b"\n") if chance.randrange(2) == 0 else text[:-1]


def newline_lost(chance, text):
    return with_one_changed(chance, text, b"\n", lambda end: b"")


def empty_line(chance, text):
    return with_one_changed(chance, text, b"\n", lambda end: end * chance.choice([2, 2, 3]))


def empty_lines(chance, text):
    return text.replace(b"\n", b"\n\n")


def empty_lines_around(chance, text):
    return chance.choice([b"\n" + text, text + b"\n", text + b"\n" * chance.randint(1, 300)])


def blank_for_tab(chance, text):
    return with_one_changed(chance, text, b"\t", lambda tab: b" " * chance.choice([1, 1, 4, 8]))


def blanks_for_tabs(chance, text):
    return text.replace(b"\t", b" ")


def other_for_tab(chance, text):
    return with_one_changed(chance, text, b"\t", lambda tab: chance.choice([b"", b"\n", b"\t\t", b" \t", b"\t "]))


def tab_at_the_end(chance, text):
    return with_one_changed(chance, text, b"\n", lambda end: chance.choice([b"\t\n", b" \n", b"\t\t\n"]))


# --- Damages of fields and numbers ----------------------------------------------------------------


def with_line_changed(chance, text, change):
    """The text after a change of the fields of one line: `change` returns the new ones."""
    lines = text.split(b"\n")
    which = chance.randrange(len(lines))
    lines[which] = b"\t".join(change(text_model.fields(lines[which])))
    return b"\n".join(lines)


def with_field_changed(chance, text, change):
    def with_one(fields):
        place = chance.randrange(len(fields))
        return fields[:place] + [change(fields[place])] + fields[place + 1 :]

    return with_line_changed(chance, text, with_one)


def with_number_changed(chance, text, change):
    """The text after a change of one of the numbers that follow a tab."""
    lines = [text_model.fields(line) for line in text.split(b"\n")]
    places = [(at, place) for at, line in enumerate(lines) for place in range(1, len(line)) if is_number(line[place])]
    if places:
        at, place = chance.choice(places)
        lines[at][place] = change(lines[at][place])
    return b"\n".join(b"\t".join(line) for line in lines)


def is_number(field):
    return text_model.number_of_step(field) is not None


def field_doubled(chance, text):
    def doubled(fields):
        place = chance.randrange(len(fields))
        return fields[: place + 1] + fields[place:]

    return with_line_changed(chance, text, doubled)


def field_dropped(chance, text):
    def dropped(fields):
        place = chance.randrange(len(fields))
        return fields[:place] + fields[place + 1 :]

    return with_line_changed(chance, text, dropped)


def fields_exchanged(chance, text):
    return with_line_changed(chance, text, lambda fields: chance.sample(fields, len(fields)))


def field_emptied(chance, text):
    return with_field_changed(chance, text, lambda field: b"")


def digit_replaced(chance, text):
    return with_one_changed(chance, text, b"0123456789abcdef", lambda digit: b"%x" % chance.randrange(16))


def digits_exchanged(chance, text):
    """Two digits side by side."""
    digits = text_model.CELL_DIGITS
    places = [place for place in places_of(text[:-1], digits) if text[place + 1] in digits]
    if not places:
        return text
    place = chance.choice(places)
    return text[:place] + text[place : place + 2][::-1] + text[place + 2 :]


def zeros_in_front(chance, text):
    return with_number_changed(chance, text, lambda number: b"0" * chance.choice([1, 1, 2, 6]) + number)


def sign_in_front(chance, text):
    return with_number_changed(chance, text, lambda number: chance.choice([b"-", b"-", b"+"]) + number)


def other_number(chance, text):
    """A number at a limit, or with any number of digits."""
    limits = [0, 1, 2, 3, 255, 256, 257, 258, 9999, 10000, 10001, 999999, 1000000, 2**32, 2**64]
    size = chance.choice([chance.choice(limits), chance.randrange(10 ** chance.randint(1, 8))])
    return with_number_changed(chance, text, lambda number: b"%d" % (chance.choice([1, 1, -1]) * size))


def letters_changed(chance, text):
    """Upper case for lower case, in a field or everywhere."""
    if chance.randrange(4) == 0:
        return text.upper()
    return with_field_changed(chance, text, lambda field: chance.choice([field.upper(), field.capitalize()]))


def letter_changed(chance, text):
    return with_one_changed(chance, text, b"abcdefghijklmnopqrstuvwxyz", lambda letter: letter.upper())


# --- Damages of lines -----------------------------------------------------------------------------


def cut_into_lines(text):
    """With their newlines; the last one may have none."""
    finished, rest = text_model.lines(text)
    return [line + b"\n" for line in finished] + ([] if rest is None else [rest])


def lines_swapped(chance, text):
    lines = cut_into_lines(text)
    if not lines:
        return text
    one, other = chance.randrange(len(lines)), chance.randrange(len(lines))
    lines[one], lines[other] = lines[other], lines[one]
    return b"".join(lines)


def line_dropped(chance, text):
    lines = cut_into_lines(text)
    if not lines:
        return text
    del lines[chance.randrange(len(lines))]
    return b"".join(lines)


def line_repeated(chance, text):
    """Once more, or so often that a journal becomes full."""
    lines = cut_into_lines(text)
    if not lines:
        return text
    which = chance.randrange(len(lines))
    more = chance.choice([1, 1, 1, 2, 7, 255, 256, 257, chance.randint(1, 300)])
    return b"".join(lines[:which] + lines[which : which + 1] * more + lines[which:])


def line_brought(chance, text):
    """A line of another job."""
    lines = cut_into_lines(text)
    place = chance.randint(0, len(lines))
    return b"".join(lines[:place] + [chance.choice(cut_into_lines(other_job(chance)) or [b"\n"])] + lines[place:])


# --- Damages of whole jobs ------------------------------------------------------------------------


def other_job(chance):
    return random_jobs.any_job(chance, True)


def spliced(chance, text):
    """The front of a job and the rest of another, cut anywhere or after lines."""
    other = other_job(chance)
    if chance.randrange(2) == 0:
        return text[: any_place(chance, text)] + other[any_place(chance, other) :]
    lines, others = cut_into_lines(text), cut_into_lines(other)
    return b"".join(lines[: chance.randint(0, len(lines))] + others[chance.randint(0, len(others)) :])


def both(chance, text):
    return text + other_job(chance)


def lengthened(chance, text):
    """To a length near the largest one that a job may have, or far beyond it."""
    near = random_jobs.LARGEST_TEXT + chance.choice([-1, 0, 0, 1, 1, 2])
    length = chance.choice([near, near, near, near, 70000, 131072, chance.randint(60000, 200000)])
    short = length - len(text)
    if short >= 66 and chance.randrange(3) > 0:
        return text + b"".join(b"\t".join(line) + b"\n" for line in random_jobs.idle_lines(chance, short))
    more = chance.choice([b"undo\n", b"\n", b"\t", b"\x00", b"x", b"\r\n", text or b"0", text[-40:] or b"1"])
    return (text + more * (1 + length // len(more)))[:length]


# --- Damaged jobs ---------------------------------------------------------------------------------

DAMAGES = [
    cut_behind, cut_in_front, stretch_lost, stretch_doubled, stretch_moved, bits_turned, bytes_exchanged,
    neighbours_exchanged, bytes_inserted, odd_byte_inserted, byte_lost, byte_replaced,
    returns_in_front, return_in_front, returns_for_newlines, no_newline, newline_lost, empty_line, empty_lines,
    empty_lines_around, blank_for_tab, blanks_for_tabs, other_for_tab, tab_at_the_end,
    field_doubled, field_dropped, fields_exchanged, field_emptied, digit_replaced, digits_exchanged, zeros_in_front,
    sign_in_front, other_number, letters_changed, letter_changed,
    lines_swapped, line_dropped, line_repeated, line_brought,
    spliced, both, lengthened,
]


# After these many a job is still good, or is refused only at a record.
GENTLE_DAMAGES = [
    digit_replaced, digits_exchanged, other_number, lines_swapped, line_dropped, line_repeated, line_brought, lengthened,
]


def damaged(chance, text):
    damages = chance.choice([DAMAGES, DAMAGES, GENTLE_DAMAGES])
    for _ in range(chance.choice([1, 1, 1, 1, 2, 2, 3, 4])):
        text = chance.choice(damages)(chance, text)
    return text


def job(seed, number):
    chance = random.Random(f"damaged {seed} {number}")
    # mostly good ones, as a fault hides what comes after it
    whole = random_jobs.refused_job if chance.randrange(5) == 0 else random_jobs.good_job
    text = whole(chance, True)
    answer = damaged(chance, text)
    while cost(answer) > LARGEST_COST:
        answer = damaged(chance, text)
    return answer


if __name__ == "__main__":
    sys.stdout.buffer.write(job(int(sys.argv[1]), int(sys.argv[2])))
