"""Cuts a job over which the programs of compare.py differ down to a small one over which they still do.

Takes the file of the job, and besides it the options of compare.py; prints the small job.
"""

import pathlib
import sys
import tempfile

import compare
import text_model

# --- Smaller jobs ---------------------------------------------------------------------------------


def with_stretch_lost(parts):
    """A list, or bytes, without one of its stretches, long ones first."""
    size = len(parts) // 2
    while size > 0:
        for begin in range(0, len(parts), size):
            yield parts[:begin] + parts[begin + size :]
        size //= 2


def with_smaller_board(lines):
    """Two rows less, or two columns."""
    line = text_model.fields(lines[1]) if len(lines) > 1 else []
    width, height = map(text_model.number, line[1:3]) if len(line) == 4 else (None, None)
    if width is None or height is None:
        return
    map_line, rows, script = lines[0], lines[2 : 2 + height], lines[2 + height :]
    for row in range(0, height - 2, 2):
        yield [map_line, board_line(width, height - 2, line[3]), *rows[:row], *rows[row + 2 :], *script]
    for digit in range(len(b"row\t"), 2 * width, 4):
        narrower = [row[:digit] + row[digit + 4 :] for row in rows]
        yield [map_line, board_line(width - 2, height, line[3]), *narrower, *script]


def board_line(width, height, phase):
    return b"board\t%d\t%d\t%s" % (width, height, phase)


def with_smaller_number(lines):
    """A number that is half as large, or nearer to 0 by one."""
    for at, line in enumerate(lines):
        fields = text_model.fields(line)
        for place, field in enumerate(fields[1:], start=1):
            value = text_model.number_of_step(field) or 0
            for less in [int(value / 2), value - (value > 0) + (value < 0)] if value != 0 else []:
                yield [*lines[:at], b"\t".join([*fields[:place], b"%d" % less, *fields[place + 1 :]]), *lines[at + 1 :]]


def smaller_jobs(job):
    lines = job.split(b"\n")
    for change in [with_stretch_lost, with_smaller_board, with_smaller_number]:
        yield from map(b"\n".join, change(lines))
    yield from with_stretch_lost(job)


# --- The smallest one -----------------------------------------------------------------------------


def differ(programs, job):
    return compare.part(programs, lambda number: job, [0]).differing != []


def shrunk(programs, job):
    """A job that differs, and no longer does if it is made smaller in one of these ways."""
    found = job
    while found is not None:
        job = found
        found = next((smaller for smaller in smaller_jobs(job) if differ(programs, smaller)), None)
    return job


if __name__ == "__main__":
    parser = compare.options()
    parser.add_argument("job", type=pathlib.Path, help="the job")
    given = parser.parse_args()
    with tempfile.TemporaryDirectory() as made:
        programs = compare.programs_in(pathlib.Path(made), given)
        job = given.job.read_bytes()
        if not differ(programs, job):
            sys.exit("they do not differ over this job")
        sys.stdout.buffer.write(shrunk(programs, job))
