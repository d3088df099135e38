#!/usr/bin/env python3
"""Measures what predeclared functions within one another cost, round a sum of so many terms, beside parentheses.

An assignment of such an expression is run again and again by a replay. Each row has the work at a number of terms and at
twice that number, and the one over the other, near 2 where the work is linear; and how many times that of parentheses
it is. The work is the instructions that valgrind counts, where there is one, and else the least processor time of some
runs, in microseconds. The program is the one of these sources. With --record the rows go to
bench/results/nested.tsv.
"""

import pathlib
import re
import shutil
import subprocess
import sys
import tempfile

import recording
from runs import MOST_STATEMENTS, measured, texts

TOP = pathlib.Path(__file__).resolve().parent.parent
LEVELS, TURNS, TERMS = 30, 3_000, 50
# What opens each level, and what the levels add to the sum.
FORMS = {"parentheses": ("(", 0), "`abs`": ("abs(", 0), "`succ`": ("succ(", LEVELS)}
COUNTED = re.compile(r"Collected : (\d+)")


def nested(terms, opens, more):
    """A specification whose start runs the assignment, and sends what it yields."""
    expression = opens * LEVELS + "+".join(["n"] * terms) + ")" * LEVELS
    return texts(f"""body MB for M;
  var n, s, i: integer;
  initialize begin n := 1; for i := 1 to {TURNS} do s := {expression}; output P.Num(s) end;
end;""", [f"out p.num({terms + more})"], [])


def instructions(command, folder):
    """The instructions that one run takes."""
    program = subprocess.check_output([TOP / "hawkopal", "--program"], text=True).rstrip("\n")
    counting = ["valgrind", "--tool=callgrind", "--callgrind-out-file=/dev/null", program]
    run = subprocess.run([*counting, *command], cwd=folder, capture_output=True, text=True)
    counted = COUNTED.search(run.stderr)
    if run.returncode != 0 or not counted:
        sys.exit(f"{run.stdout[:200]}{run.stderr[-400:]}")
    return int(counted[1])


def work(terms, form, folder):
    """The work of a replay."""
    for name, text in zip(("a.est", "a.trace", "a.explanation"), nested(terms, *FORMS[form])):
        (folder / name).write_text(text)
    command = ["replay", "a.est", "a.trace", "a.explanation", "8", MOST_STATEMENTS]
    if shutil.which("valgrind"):
        return instructions(command, folder)
    return round(measured(command, folder)[0] * 1e6)


def main():
    unit = "Instructions" if shutil.which("valgrind") else "Microseconds"
    print(f"| {LEVELS} levels of | Terms | {unit} | Over half the terms | Over parentheses |\n|---|---|---|---|---|")
    base = None
    with tempfile.TemporaryDirectory() as name:
        for form in FORMS:
            half, whole = (work(terms, form, pathlib.Path(name)) for terms in (TERMS, 2 * TERMS))
            base = base or whole
            cells = [f"{2 * TERMS}", f"{whole:,}", f"{whole / half:.2f}", f"{whole / base:.2f}"]
            print(f"| {form} | {' | '.join(cells)} |", flush=True)
            recording.record("nested", form, cells[0], unit.lower(), *cells[1:])


if __name__ == "__main__":
    main()
