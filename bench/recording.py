"""Keeps what the scripts measure, in the tables of bench/results.

A table is a file NAME.tsv: its first line names the columns, `shown` and `measured` before those of docs/BENCHMARKS.md,
where `docs/generate` puts each row that has `yes` in the first one. A script that is started with --record puts each of its
rows there as soon as it is measured: in place of the one whose first cell on the page is the same, which stays shown or
not, or else at the end, not shown.
"""

import datetime
import pathlib
import sys

FOLDER = pathlib.Path(__file__).resolve().parent / "results"


def rows_of(path):
    """The rows of a table, its columns first."""
    return [line.split("\t") for line in path.read_text().splitlines()]


def words():
    """The words that a script is started with, without --record."""
    return [word for word in sys.argv[1:] if word != "--record"]


def record(name, *cells):
    """Puts a row into a table, where the script is started with --record."""
    if "--record" not in sys.argv[1:]:
        return
    path = FOLDER / f"{name}.tsv"
    columns, *rows = rows_of(path)
    if len(columns) != len(cells) + 2:
        sys.exit(f"{path} has the columns {', '.join(columns)}, and not {len(cells) + 2}")
    found = [row for row in rows if row[2] == cells[0]]
    new = ["yes" if found and found[0][0] == "yes" else "no", str(datetime.date.today()), *cells]
    rows = [new if row in found[:1] else row for row in rows] + ([] if found else [new])
    path.write_text("".join("\t".join(row) + "\n" for row in [columns, *rows]))
