"""Times the program `lab` against the plain C of plain.c, on jobs of 10,000 steps.

Takes the path of `lab`, or else the one that `rt run` makes. Whatever is timed must print the same
bytes.
"""

import argparse
import pathlib
import random
import subprocess
import sys
import tempfile
import time

HERE = pathlib.Path(__file__).resolve().parent
LAB = HERE.parent.parent / "crates" / "lab" / "out" / "lab"

# --- The C ----------------------------------------------------------------------------------------

# No -march=native: the code should be for the same processors as that of `lab`.
COMPILE = ["gcc", "-O3"]

# How each goes round the edge, and the option of the compiler for it.
VARIANTS = {
    "remainder": [],
    "comparison": ["-DWRAP_BY_COMPARISON"],
}


def compiled(folder):
    """The programs of the variants, by their names, made in this folder."""
    programs = {}
    for name, options in VARIANTS.items():
        programs[name] = folder / f"plain_{name}"
        subprocess.run([*COMPILE, *options, "-o", programs[name], HERE / "plain.c"], check=True)
    return programs


# --- The jobs -------------------------------------------------------------------------------------

SIDE = 128
STEPS = 10000

# Map, and the share of the presents that are set. Critters is best seen on a thin board.
JOBS = {"critters": 1 / 3, "life2": 1 / 2, "mixed": 1 / 2}


def job_text(name, width, height, phase, cells, steps):
    rows = [bytes(cells[first : first + width]).hex() for first in range(0, width * height, width)]
    lines = [f"map\t{name}", f"board\t{width}\t{height}\t{phase}", *[f"row\t{row}" for row in rows], f"step\t{steps}"]
    return "".join(line + "\n" for line in lines).encode()


def soup(share):
    """Cells with so many of the presents and half of the pasts set, the same ones in each run."""
    chance = random.Random(1)
    return [(chance.random() < share) + 2 * chance.randrange(2) for _ in range(SIDE * SIDE)]


# --- The times ------------------------------------------------------------------------------------

ROUNDS = 5


def timed(program, job):
    """What the program prints for the job in this file, and the seconds from its start to its end."""
    with job.open("rb") as text:
        begin = time.perf_counter()
        run = subprocess.run([program], stdin=text, stdout=subprocess.PIPE, check=True)
        return run.stdout, time.perf_counter() - begin


def best_times(name, programs, job, rounds):
    """The least seconds of each program. They take turns, so that a busy machine is busy for all."""
    best = {}
    first = None
    for _ in range(rounds):
        for who, program in programs.items():
            printed, seconds = timed(program, job)
            first = printed if first is None else first
            if printed != first:
                sys.exit(f"{name}: {who} does not print what {next(iter(programs))} prints")
            best[who] = min(seconds, best.get(who, seconds))
    return best


# --- The table ------------------------------------------------------------------------------------


def row(first, *others):
    return f"{first:10}" + "".join(f"{other:>14}" for other in others)


def heading():
    return row("map", "lab s", *[part for who in VARIANTS for part in (f"{who} s", "ratio")])


def result(name, best):
    others = [part for who in VARIANTS for part in (f"{best[who]:.3f}", f"{best['lab'] / best[who]:.2f}")]
    return row(name, f"{best['lab']:.3f}", *others)


def main(lab, rounds):
    if not lab.is_file():
        sys.exit(f"there is no program {lab}")
    with tempfile.TemporaryDirectory() as made:
        folder = pathlib.Path(made)
        programs = {"lab": lab.resolve()} | compiled(folder)
        print(heading())
        for name, share in JOBS.items():
            job = folder / f"{name}.job"
            job.write_bytes(job_text(name, SIDE, SIDE, 0, soup(share), STEPS))
            print(result(name, best_times(name, programs, job, rounds)), flush=True)


if __name__ == "__main__":
    options = argparse.ArgumentParser(description="Times lab against plain C.")
    options.add_argument("lab", nargs="?", type=pathlib.Path, default=LAB, help="the program (crates/lab/out/lab)")
    # on a busy machine a best of five may have no quiet run in it
    options.add_argument("--rounds", type=int, default=ROUNDS, help="runs of each program, the best counts (5)")
    given = options.parse_args()
    main(given.lab, given.rounds)
