"""A plain model of jobs and of the programs that run one, written from docs/ alone.

It is meant to be read next to docs/TEXT.md and docs/PROGRAMS.md, one section per concept. The cells
memory of a job is a list, and a run changes it in place, because which part of it may change is part
of what a job is.

With `lab` or `home_and_mirror` it is that program, and takes a job on standard input.
"""

import sys
from dataclasses import dataclass

import bench_model
import model
import text_model

# --- The map line: docs/TEXT.md, "Jobs" -----------------------------------------------------------


def read_map_line(line, at):
    """The map on line number `at` (None if there is a fault), and the fault."""
    cut = text_model.fields(line)
    if cut[0] != b"map":
        return None, (text_model.RECORD_OR_TEXT, 23, at, 1)
    if len(cut) != 2:
        return None, (text_model.RECORD_OR_TEXT, 24, at, 0)
    # so each byte is a letter, and bytes that are no text have no map
    the_map, refusal = model.named_map(cut[1].decode("latin-1"))
    if refusal is not None:
        return None, (text_model.RECORD_OR_TEXT, refusal, at, 2)
    return the_map, None


# --- The three parts of a job: docs/TEXT.md, "Jobs" -----------------------------------------------


@dataclass(frozen=True)
class Job:
    the_map: model.Map
    opening: model.Lattice
    script: bytes
    # the number of the script's first line
    script_line: int


def read_job(text, memory):
    """The job of a text (None if there is a fault), and the fault. The script is not looked at yet."""
    fault = text_model.text_fault(text, 1)
    if fault is not None:
        return None, fault
    if text == b"":
        return None, (text_model.RECORD_OR_TEXT, 32, 1, 0)
    map_line, _, behind = text.partition(b"\n")
    the_map, fault = read_map_line(map_line, 1)
    if fault is not None:
        return None, fault
    board, filled, fault = text_model.read_board(behind, 2, memory)
    if fault is not None:
        return None, fault
    width, height, phase, taken = board
    opening = model.Lattice(width, height, phase, filled[: width * height])
    return Job(the_map, opening, behind[taken:], 3 + height), None


# --- The run of a job: docs/TEXT.md, "Jobs", and docs/BENCH.md, "The run of a script" -------------


@dataclass(frozen=True)
class Done:
    job: Job
    # the bench at the end, and how many records were made
    bench: bench_model.Bench
    made: int


def run_job(text, memory):
    """What was done (None if there is a fault), and the fault. The cells memory is changed in place."""
    job, fault = read_job(text, memory)
    if fault is not None:
        return None, fault
    bench = bench_model.new_bench(job.the_map, job.opening)
    area = bench_model.area(bench)
    bench, made, fault = bench_model.run(bench, area, job.script, job.script_line)
    # only now, as nothing is wrong with the text, is anything written
    if fault is None or fault[0] == bench_model.BENCH:
        memory[:area] = bench_model.held(bench).cells
    if fault is not None:
        return None, fault
    return Done(job, bench, made), None


# --- `lab`: docs/PROGRAMS.md ----------------------------------------------------------------------


def printed_line(*fields):
    return "\t".join(str(field) for field in fields).encode() + b"\n"


def fault_line(fault):
    return text_model.fault_written(fault).encode() + b"\n"


def of_the_bench(counts):
    """The clock, how many actions stand and how many were undone, in the order of printing."""
    standing, undone, clock, _ = counts
    return clock, standing, undone


def done_line(done):
    return printed_line("done", done.made, *of_the_bench(bench_model.counts(done.bench)))


def lab(text):
    """What the program `lab` prints for a job."""
    done, fault = run_job(text, [0] * model.LARGEST_AREA)
    if fault is not None:
        return fault_line(fault)
    return done_line(done) + text_model.board_written(bench_model.held(done.bench))


# --- `home_and_mirror` ----------------------------------------------------------------------------


def yes_or_no(holds):
    return "yes" if holds else "no"


def home_lines(done):
    """The way back: its run, the board that it ends on, and whether this is the opening again."""
    opening = done.job.opening
    back = bench_model.way_back(done.bench)
    assert back.fault is None, back.fault
    clock, standing, undone = of_the_bench(back.counts)
    same_board = back.held.cells == opening.cells and back.held.phase == opening.phase
    lines = printed_line("home", back.made, clock, standing, undone)
    lines += text_model.board_written(back.held)
    lines += printed_line("the opening board", yes_or_no(same_board))
    lines += printed_line("the clock negated", yes_or_no(clock == -bench_model.clock(done.bench)))
    return lines


def mirror_after(done):
    """The mirror, after the records of the job with their step counts negated."""
    records, _ = text_model.check_script(done.job.script, done.job.script_line)
    mirror = bench_model.mirror_of(done.bench)
    for record in records:
        mirror, _, refusal = bench_model.call(mirror, bench_model.mirrored(record), bench_model.area(mirror))
        assert refusal is None, refusal
    return mirror


def mirror_lines(done):
    """The counts of the mirror, and what it has in common with the bench."""
    bench, mirror = done.bench, mirror_after(done)
    held, held_by_mirror = bench_model.held(bench), bench_model.held(mirror)
    clock, standing, undone = of_the_bench(bench_model.counts(mirror))
    same_counts = (len(bench.standing), len(bench.undone)) == (standing, undone)
    lines = printed_line("mirror", clock, standing, undone)
    lines += printed_line("the same cells", yes_or_no(held.cells == held_by_mirror.cells))
    lines += printed_line("the same phase", yes_or_no(held.phase == held_by_mirror.phase))
    lines += printed_line("the same counts", yes_or_no(same_counts))
    lines += printed_line("the clock negated", yes_or_no(clock == -bench_model.clock(bench)))
    return lines


def home_and_mirror(text):
    """What the program `home_and_mirror` prints for a job."""
    done, fault = run_job(text, [0] * model.LARGEST_AREA)
    if fault is not None:
        return fault_line(fault)
    return lab(text) + home_lines(done) + mirror_lines(done)


PROGRAMS = {"lab": lab, "home_and_mirror": home_and_mirror}

if __name__ == "__main__":
    sys.stdout.buffer.write(PROGRAMS[sys.argv[1]](sys.stdin.buffer.read()))
