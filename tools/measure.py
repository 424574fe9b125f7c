#!/usr/bin/env python3
"""How large each crate is.

    python3 tools/measure.py [ROOT]       ROOT: the top directory (this one, if it is not named)

Counted are lines that are not blank and not only a comment.
code    src/*.rt without the lines of contracts
contr   lines of src/*.rt that begin a clause, a ghost member or a ghost import, or are a tactic
specs   definitions: specs/*.antt whose first line does not say "Assumes nothing"
laws    lemmas that are in specs/ (first line "Assumes nothing"): nothing that must be believed
lemmas  proofs/*.antt
hand    proofs of single functions: Answers.antt and Invariants.antt in the folders below proofs/
edits   files must-fail/*.edit
"""
import re
import sys
from pathlib import Path

CLAUSE = re.compile(r"^\s*(ensures|requires|ghost|#\[tactic|#!\[tactic)")
HEADS = ("crate", "code", "contr", "specs", "laws", "lemmas", "hand", "edits")


def lines(path, comment):
    return [l for l in path.read_text().splitlines() if l.strip() and not l.strip().startswith(comment)]


def measured(crate):
    code = contr = specs = laws = lemmas = hand = 0
    for path in (crate / "src").rglob("*.rt"):
        clauses = sum(1 for l in lines(path, "//") if CLAUSE.match(l))
        code += len(lines(path, "//")) - clauses
        contr += clauses
    for path in (crate / "specs").rglob("*.antt"):
        count = len(lines(path, "--"))
        if "Assumes nothing" in path.read_text().split("\n", 1)[0]:
            laws += count
        else:
            specs += count
    for path in (crate / "proofs").rglob("*.antt"):
        count = len(lines(path, "--"))
        if path.parent.name == "proofs":
            lemmas += count
        else:
            hand += count
    return code, contr, specs, laws, lemmas, hand, len(list((crate / "must-fail").glob("*.edit")))


def row(values):
    return f"{values[0]:<17}" + "".join(f"{value:>8}" for value in values[1:])


if __name__ == "__main__":
    root = Path(sys.argv[1] if len(sys.argv) > 1 else ".")
    crates = sorted(path for path in (root / "crates").iterdir() if path.is_dir())
    table = [(crate.name, *measured(crate)) for crate in crates]
    print(row(HEADS))
    for values in table:
        print(row(values))
    print(row(["all", *(sum(column) for column in list(zip(*table))[1:])]))
