"""Runs the cases of `explain`, `replay`, `selfrun`, `ports` and `watch`. How they are written is told in texts.cases."""

import re

from .answers import Unknown, explained, replayed, self_run
from .port_runs import ported, wrong
from .watch_lines import watched, wrong_watch

ESCAPES = {"n": b"\n", "t": b"\t", "r": b"\r", "s": b" ", "e": b"", "c": b"", "\\": b"\\"}
ESCAPE = re.compile(r"\\(x[0-9A-Fa-f]{2}|.)|\$(\w+)|([^\\$]+)")
# The columns in which the files of a call stand.
FILES = {"a.est": "specification", "b": "trace", "c": "explanation", "-": "input"}
# The most bytes of a trace, and the most events of one that is made, that are looked at here: longer ones take long.
LONGEST, MOST = 100000, 1000
# Columns of what is not looked at here.
LEFT_OUT = {"tokens", "then"}


class Cases:
    """Reads files of cases, whose shared texts stay known."""

    def __init__(self):
        self.texts, self.given, self.columns, self.own = {}, {}, [], None

    def bytes_of(self, cell):
        found = b""
        for escape, name, plain in ESCAPE.findall(cell):
            if name:
                found += self.texts[name]
            elif escape:
                found += bytes([int(escape[1:], 16)]) if escape[0] == "x" else ESCAPES[escape]
            else:
                found += plain.encode("latin-1")
        return found

    def read(self, lines):
        """The cells of each case, by their columns."""
        for line in lines:
            word, _, rest = line.partition(" ")
            if word == ">":
                self.texts[self.own] += rest.encode("latin-1") + b"\n"
            elif word == "case":
                cells = [cell.strip() for cell in rest.split("|")]
                cells = dict(zip(["name", *self.columns], cells))
                yield {column: self.bytes_of(cell) for column, cell in {**self.given, **cells}.items()}
            elif word in ("text", "times", "part", "given", "columns"):
                getattr(self, "note_" + word)(rest)

    def note_text(self, rest):
        name, _, cell = rest.partition(" = ")
        self.own = name.strip()
        self.texts[self.own] = self.bytes_of(cell.strip())

    def note_times(self, rest):
        name, _, cell = rest.partition(" = ")
        count, _, cell = cell.partition(" ")
        self.texts[name] = int(count) * self.bytes_of(cell.strip())

    def note_part(self, rest):
        self.given, self.columns = {}, []

    def note_given(self, rest):
        column, _, cell = rest.partition(" = ")
        self.given[column.strip()] = cell.strip()

    def note_columns(self, rest):
        self.columns = [column.strip() for column in rest.split("|")]


def files_of(words, cells, folder):
    """The texts of the files that a call names."""
    if cells.get("shelf") == b"files":
        return {name: (folder / name).read_bytes() for name in words[1:] if (folder / name).is_file()}
    files = {name: cells.get(column, b"") for name, column in FILES.items()}
    if "old" in cells:
        files["a.est"] = files["a.est"].replace(cells["old"], cells["new"], 1)
    return files


def answer(words, files, explanation=None):
    """(status, report) of a call."""
    if words[0] == "selfrun":
        return self_run(files.get(words[1], b""), *map(int, words[2:]))
    if words[0] == "watch":
        return watched(files.get(words[1], b""), files.get("-", b""), *map(int, words[2:]))
    count = 4 if words[0] == "replay" else 3
    texts, limits = [files.get(name, b"") for name in words[1:count]], map(int, words[count:])
    if words[0] in ("explain", "ports"):
        return (explained if words[0] == "explain" else ported)(*texts, *limits)
    if explanation is not None:
        texts[2] = explanation
    return replayed(*texts, *limits)


def told(status, report):
    return f"{status} {report}".strip()


def difference(cells, folder):
    """What is answered and what is expected, where these differ."""
    words = cells["words"].decode().split()
    files = files_of(words, cells, folder)
    if words[0] in ("ports", "watch"):
        return difference_of_several(words, files, cells)
    status, report = answer(words, files)
    pairs = [(told(status, report), cells["gives"])]
    if "replayed" in cells:
        limits = [words[3], words[5]] if len(words) > 3 else []
        again = answer(["replay", *words[1:3], "", *limits], files, report.encode("latin-1"))
        pairs.append((told(*again), cells["replayed"]))
    differing = [pair for pair in pairs if pair[0] != pair[1].decode().strip()]
    return differing[0] if bool(differing) != (cells.get("expectation") == b"wrong") else None


def difference_of_several(words, files, cells):
    """Why one answer is not right, that of the case or that of the interpreter, and the answer."""
    status, _, report = cells["gives"].decode("latin-1").partition(" ")
    texts, limits = [files.get(name, b"") for name in words[1:3]], words[3:]
    if words[0] == "watch":
        texts, limits = [files.get(name, b"") for name in (words[1], "-")], words[2:]
    given, own = (int(status), report.rstrip("\n") + "\n"), answer(words, files)
    for found, is_to_be_wrong in (given, cells.get("expectation") == b"wrong"), (own, False):
        why = (wrong_watch if words[0] == "watch" else wrong)(found, *texts, *map(int, limits))
        if bool(why) != is_to_be_wrong:
            return why, told(*found)
    return None


def is_looked_at(cells):
    words = cells.get("words", b"").split()
    if not words or words[0] not in (b"explain", b"replay", b"selfrun", b"ports", b"watch") or LEFT_OUT & set(cells):
        return False
    behaviour = cells.get("shelf", b"") + cells.get("sink", b"")
    if b"fails" in behaviour or "specification" not in cells and behaviour != b"files":
        return False
    is_short = len(cells.get("trace", b"") + cells.get("input", b"")) <= LONGEST and (words[0] != b"selfrun" or int(words[3]) <= MOST)
    return is_short and cells["gives"].split()[0] not in (b"7", b"8", b"9", b"10", b"12")


def differences(shared, files):
    """The number of the cases that are looked at, and a line for each that has not its expectation."""
    count, lines = 0, []
    for file in files:
        cases = Cases()
        list(cases.read(shared.read_text("latin-1").splitlines()))
        cases.note_part("")
        for cells in cases.read(file.read_text("latin-1").splitlines()):
            if not is_looked_at(cells):
                continue
            try:
                differing = difference(cells, file.parent)
            except Unknown:
                continue
            count += 1
            if differing:
                lines.append(f"{file.name}: {cells['name'].decode('latin-1')}: {differing[0]!r} for {differing[1]!r}")
    return count, lines
