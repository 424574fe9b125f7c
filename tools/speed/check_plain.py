"""Checks that the C of plain.c prints what the model of `lab` prints, on small boards."""

import pathlib
import random
import subprocess
import sys
import tempfile

import compare

sys.path.insert(0, str(compare.HERE.parent))
import job_model
import model

SHAPES = [(2, 2), (2, 4), (4, 2), (6, 4), (8, 8), (16, 10)]
COUNTS = [1, 2, 3, 8]

chance = random.Random(2)


def small_jobs():
    """Every byte can be a cell, so that the free bits are seen to be kept."""
    for name in model.NAMED_MAPS:
        for width, height in SHAPES:
            for phase in (0, 1):
                for steps in COUNTS:
                    cells = [chance.randrange(256) for _ in range(width * height)]
                    yield compare.job_text(name, width, height, phase, cells, steps)


passed = 0
with tempfile.TemporaryDirectory() as folder:
    programs = compare.compiled(pathlib.Path(folder))
    for job in small_jobs():
        expected = job_model.lab(job)
        for who, program in programs.items():
            got = subprocess.run([program], input=job, stdout=subprocess.PIPE, check=True).stdout
            if got != expected:
                raise AssertionError(f"{who}, {job}: got {got}, expected {expected}")
            passed += 1

print(f"plain C: {passed} checks passed")
