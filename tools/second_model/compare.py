"""Compares three programs over random or damaged jobs: `lab`, the first model, the second model.

The first model is tools/job_model.py, and the second one the C++ program lab.cpp, which knows nothing of
the first. All three must print the same bytes for every job. Ends with status 1 if they do not, or if a
cause that a job can meet was not met by 10,000 of them.
"""

import argparse
import collections
import dataclasses
import functools
import hashlib
import multiprocessing
import os
import pathlib
import re
import signal
import subprocess
import sys
import tempfile

HERE = pathlib.Path(__file__).resolve().parent
sys.path.insert(0, str(HERE.parent))
import damaged_jobs
import job_model
import model
import random_jobs
import text_model

LAB = HERE.parent.parent / "crates" / "lab" / "out" / "lab"

# --- The programs ---------------------------------------------------------------------------------


@dataclasses.dataclass(frozen=True)
class Programs:
    # the program that runs another one and reports what it took
    measured: pathlib.Path
    lab: pathlib.Path
    # None if it is left out
    second: pathlib.Path | None
    # how long a run of `lab` may take
    seconds: int


def compiled(folder, source, *command):
    """The program of a source, made in this folder."""
    program = folder / source.stem
    subprocess.run([*command, "-o", program, source], check=True)
    return program


def programs_in(folder, given):
    measured = compiled(folder, HERE / "measured.c", "gcc", "-O2")
    second = None if given.without_second else compiled(folder, given.second, "g++", "-std=c++17", "-O2")
    return Programs(measured, given.lab.resolve(), second, given.seconds)


# --- The answers ----------------------------------------------------------------------------------

HANG, CRASH, ERRORS = b"hang\n", b"crash\t%d\n", b"errors\n"


def judged(status, answer, errors):
    """The answer of a run that ended as it must; for any other run, a text that is no answer of a program."""
    # the signal that `measured` sends when the time is over
    if status == -signal.SIGALRM:
        return HANG
    if status != 0:
        return CRASH % status
    return answer if errors == b"" else ERRORS + errors


@dataclasses.dataclass
class Run:
    answer: bytes
    seconds: float
    kilobytes: int


def run_of_lab(programs, folder, job):
    """A process of its own for the job."""
    told = folder / "told"
    command = [programs.measured, str(programs.seconds), told, programs.lab]
    run = subprocess.run(command, input=job, capture_output=True, check=True)
    status, seconds, kilobytes = told.read_text().split()
    answer = judged(os.waitstatus_to_exitcode(int(status)), run.stdout, run.stderr)
    return Run(answer, float(seconds), int(kilobytes))


def first_answer(job):
    """An error of the model is no answer of a program, so that it differs."""
    try:
        return job_model.lab(job)
    except Exception as error:
        return b"error\t" + repr(error).encode() + b"\n"


def as_list(texts):
    """Texts one after another, each preceded by its length, as the second model reads and writes them."""
    return b"".join(len(text).to_bytes(8, "little") + text for text in texts)


def from_list(texts):
    answer, place = [], 0
    while place < len(texts):
        begin = place + 8
        place = begin + int.from_bytes(texts[place:begin], "little")
        answer.append(texts[begin:place])
    return answer


def run_of_second(programs, arguments, job, seconds):
    """Its answer, or a text that is none."""
    try:
        run = subprocess.run([programs.second, *arguments], input=job, capture_output=True, timeout=seconds)
    except subprocess.TimeoutExpired:
        return HANG
    return judged(run.returncode, run.stdout, run.stderr)


def second_answers(programs, folder, jobs):
    """All of them from one process, for its speed; one by one if that fails, to see which job is to blame."""
    listed = folder / "jobs"
    listed.write_bytes(as_list(jobs))
    answers = from_list(run_of_second(programs, ["--list", listed], b"", 3 * programs.seconds))
    if len(answers) == len(jobs):
        return answers
    alone = [run_of_second(programs, [], job, programs.seconds) for job in jobs]
    if any(answer.startswith((HANG, CRASH[:5], ERRORS)) for answer in alone):
        return alone
    # it is the list that fails, so no job of it has an answer
    return [b"list\t" + answer for answer in alone]


# --- The kinds of answers -------------------------------------------------------------------------


FAULT = re.compile(rb"fault\t(\d+)\t(\d+)\t(\d+)\t(\d+)\n")


def place_of(job, line):
    """The part of the job in which this line is."""
    if line <= 2:
        return ["whole text", "map line", "board line"][line]
    board = [text_model.fields(line) for line in job.split(b"\n")[1:2]]
    height = text_model.number(board[0][2]) if board and len(board[0]) > 2 else None
    return "rows" if line <= 2 + (height or 0) else "script"


def kind_of(job, answer):
    """The first word; of a fault also where it is, its layer, cause and field."""
    fault = FAULT.fullmatch(answer)
    if fault is None:
        return (answer.partition(b"\n")[0].partition(b"\t")[0].decode("latin-1"),)
    layer, cause, line, field = map(int, fault.groups())
    return "fault", place_of(job, line), layer, cause, field


# All that docs/REFUSALS.md and docs/TEXT.md say that a job can meet in `lab`: layer, cause and field, by
# the place of the line. 30 is not met, since its memory is large enough, and 10 is not, since it is whole.
CAUSES = {
    "whole text": [(2, 20, 0)],
    "map line": [(2, 21, 0), (2, 32, 0), (2, 23, 1), (2, 24, 0), (2, 9, 2)],
    "board line": [(2, 21, 0), (2, 32, 0), (2, 23, 1), (2, 24, 0), (1, 22, 2), (1, 22, 3), (1, 22, 4)]
    + [(2, 1, 0), (2, 2, 0), (2, 3, 0)],
    "rows": [(2, 21, 0), (2, 32, 0), (2, 23, 1), (2, 24, 0), (1, 31, 2)],
    "script": [(2, 21, 0), (2, 23, 1), (2, 24, 0), (2, 25, 0), (1, 22, 2), (1, 22, 3), (1, 22, 4), (2, 26, 0)]
    + [(3, 11, 0), (3, 12, 0), (3, 13, 0), (3, 15, 0), (3, 16, 0), (3, 17, 0)],
}
KINDS = [("done",), *[("fault", place, *cause) for place, causes in CAUSES.items() for cause in causes]]

# So many jobs must meet them all.
ENOUGH = 10_000


# --- A part of the jobs ---------------------------------------------------------------------------


@dataclasses.dataclass
class Part:
    """What comes of some jobs that follow one another."""

    jobs: list
    runs: list
    # number, job and the answers of a job whose answers differ
    differing: list


def forget_places():
    """The first model keeps places of cells for each shape, and there are too many shapes to keep them all."""
    model.block_places.cache_clear()
    model.neighbour_places.cache_clear()


def part(programs, make, numbers):
    jobs = [make(number) for number in numbers]
    with tempfile.TemporaryDirectory() as made:
        folder = pathlib.Path(made)
        runs = [run_of_lab(programs, folder, job) for job in jobs]
        answers = {"lab": [run.answer for run in runs], "first": [first_answer(job) for job in jobs]}
        if programs.second is not None:
            answers["second"] = second_answers(programs, folder, jobs)
    forget_places()
    differing = []
    for number, job, *given in zip(numbers, jobs, *answers.values()):
        if len(set(given)) > 1:
            differing.append((number, job, dict(zip(answers, given))))
    return Part(jobs, runs, differing)


# --- All jobs -------------------------------------------------------------------------------------

PART = 50


def all_parts(programs, make, jobs, processes):
    """The parts in the order of the jobs, so that they can be added up the same way each time."""
    numbers = [range(first, min(first + PART, jobs)) for first in range(0, jobs, PART)]
    with multiprocessing.Pool(processes) as pool:
        yield from pool.imap(functools.partial(part, programs, make), numbers)


@dataclasses.dataclass
class Sum:
    """What came of all jobs so far."""

    kinds: collections.Counter = dataclasses.field(default_factory=collections.Counter)
    seconds: float = 0
    kilobytes: int = 0
    differing: int = 0
    # of all jobs, and of all answers of `lab`, each in the form of a list
    jobs_sum: object = dataclasses.field(default_factory=hashlib.sha256)
    answers_sum: object = dataclasses.field(default_factory=hashlib.sha256)


def add(total, one):
    answers = [run.answer for run in one.runs]
    total.kinds.update(map(kind_of, one.jobs, answers))
    total.seconds = max(total.seconds, *[run.seconds for run in one.runs])
    total.kilobytes = max(total.kilobytes, *[run.kilobytes for run in one.runs])
    total.differing += len(one.differing)
    total.jobs_sum.update(as_list(one.jobs))
    total.answers_sum.update(as_list(answers))


def keep(out, number, job, answers):
    """Writes a job whose answers differ into a folder of its own, with the answers."""
    folder = out / str(number)
    folder.mkdir(parents=True, exist_ok=True)
    (folder / "job").write_bytes(job)
    for who, answer in answers.items():
        (folder / who).write_bytes(answer)


# --- What is printed ------------------------------------------------------------------------------


def wrong_kinds(total, jobs):
    """Kinds that no job can meet, and those that were not met by so many jobs."""
    unknown = [kind for kind in total.kinds if kind not in KINDS]
    missing = [kind for kind in KINDS if kind not in total.kinds] if jobs >= ENOUGH else []
    return unknown, missing


def spelled(kind):
    return " ".join(map(str, kind))


def report(total, jobs):
    """Prints what came of it, and returns whether all is well."""
    for kind in [*KINDS, *[kind for kind in total.kinds if kind not in KINDS]]:
        print(f"{total.kinds[kind]:8} {spelled(kind)}")
    unknown, missing = wrong_kinds(total, jobs)
    for kind in unknown:
        print(f"no job can have this answer: {spelled(kind)}")
    for kind in missing:
        print(f"no job had this answer: {spelled(kind)}")
    print(f"jobs     {total.jobs_sum.hexdigest()}")
    print(f"answers  {total.answers_sum.hexdigest()}")
    print(f"lab took at most {total.seconds:.3f} s and {total.kilobytes} KiB")
    print(f"{jobs} jobs, {total.differing} differ")
    return total.differing == 0 and not unknown and not missing


def main(given):
    if not given.lab.is_file():
        sys.exit(f"there is no program {given.lab}")
    module, jobs = (damaged_jobs, 100_000) if given.damaged else (random_jobs, 10_000)
    jobs = jobs if given.jobs is None else given.jobs
    total = Sum()
    with tempfile.TemporaryDirectory() as made:
        programs = programs_in(pathlib.Path(made), given)
        make = functools.partial(module.job, given.seed)
        for one in all_parts(programs, make, jobs, given.processes):
            add(total, one)
            for number, job, answers in one.differing:
                keep(given.out, number, job, answers)
    return report(total, jobs)


def options():
    answer = argparse.ArgumentParser(description="Holds lab and its two models against each other.")
    answer.add_argument("--seed", type=int, default=1, help="the jobs are the same ones for the same seed (1)")
    answer.add_argument("--jobs", type=int, help="how many (10000, and 100000 damaged ones)")
    answer.add_argument("--damaged", action="store_true", help="damaged jobs instead of random ones")
    answer.add_argument("--lab", type=pathlib.Path, default=LAB, help="the program (crates/lab/out/lab)")
    answer.add_argument("--second", type=pathlib.Path, default=HERE / "lab.cpp", help="the second model (lab.cpp)")
    answer.add_argument("--without-second", action="store_true", help="lab and the first model alone")
    answer.add_argument("--out", type=pathlib.Path, default=pathlib.Path("differing"), help="where jobs that differ go")
    answer.add_argument("--processes", type=int, default=os.cpu_count(), help="how many at a time (one per processor)")
    answer.add_argument("--seconds", type=int, default=20, help="how long a run of lab may take (20)")
    return answer


if __name__ == "__main__":
    sys.exit(0 if main(options().parse_args()) else 1)
