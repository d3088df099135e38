#!/usr/bin/env python3
"""Counts the instructions that an event takes in explain and in replay, along protocols of examples/, and prints a table.

callgrind (the command valgrind) runs the program of these sources on a trace and on one that is six times as long; the
difference, by events, leaves out what a start takes. The same program and traces give the same counts on any machine and
under any load. SPIN's counts are those that its verifiers took on the same events, in models written by hand
(bench/alternating_bit.pml is one of them); they are no part of a run. The last column has what it takes to read an event.
With --against PROGRAM the same is counted of another program, as one of an earlier commit, and three shares follow, of
explain, replay and reading: the instructions over those of the other one. With --record the rows go to
bench/results/instructions.tsv. With --ports the same events are searched for as lists of `ports`, each at its port, and the
table has the instructions of an event in both searches; with --watch they are watched by `watch`, an event a line. With
--most N the longer trace has up to N events, and not 3,000.
"""

import pathlib
import re
import subprocess
import sys
import tempfile

import recording
from runs import PROGRAM, PROTOCOLS, TOP

SHORT, LONG = 500, 3_000
STORES = """in app.start / in app.enlist(1) / in app.enlist(2) / in app.enlist(3) / in app.commit / out store[1].prepare
/ out store[2].prepare / out store[3].prepare / in store[3].vote(readonly) / in store[1].vote(yes) / in store[2].vote(yes)
/ out app.decided(committed) / out store[1].commit / out store[2].commit / in store[2].done / in store[1].done"""
EVENTS = PROTOCOLS | {"two_phase_commit": [line.strip() for line in STORES.split("/")]}
SPIN = {"alternating_bit": 6_108, "connection": 14_458, "ring_election": 24_872, "sessions": 13_590}


def counted(folder, program, *words, source=None):
    """The instructions of a run, of which standard input may be a text, and what it told."""
    command = ["valgrind", "--tool=callgrind", "--callgrind-out-file=/dev/null", program, *words]
    told = subprocess.run(command, cwd=folder, input=source, capture_output=True, text=True)
    count = re.search(r"Collected : (\d+)", told.stderr)
    if not count:
        sys.exit(f"{' '.join(words)}: {told.stdout[:200]}{told.stderr[-400:]}")
    return int(count.group(1)), told.stdout


def along(folder, program, protocol, turns):
    """The instructions of explain, of replay and of reading along the events of a protocol, so many times over, and their
    number."""
    events = EVENTS[protocol] * turns
    (folder / "a.trace").write_text("trace 1\n" + "\n".join(events) + "\nend\n")
    specification = str(TOP / "examples" / f"{protocol}.est")
    explained, told = counted(folder, program, "explain", specification, "a.trace", "30", "4000000", "10000")
    first, _, explanation = told.partition("\n")
    if "accepted" not in first:
        sys.exit(f"{protocol}: {first}")
    (folder / "a.explanation").write_text(explanation)
    replayed, _ = counted(folder, program, "replay", specification, "a.trace", "a.explanation", "30", "10000")
    (folder / "no.explanation").write_text("explanation 1 yields 0\n")
    read, _ = counted(folder, program, "replay", specification, "a.trace", "no.explanation", "30", "10000")
    return explained, replayed, read, len(events)


def row(folder, program, protocol):
    """The instructions of an event in explain, in replay and where it is read."""
    turns = len(EVENTS[protocol])
    less = along(folder, program, protocol, SHORT // turns)
    more = along(folder, program, protocol, LONG // turns)
    events = more[-1] - less[-1]
    return [round((more[i] - less[i]) / events) for i in (0, 1, 2)]


def listed(event):
    """The same event in lists of `ports`."""
    kind, _, rest = event.partition(" ")
    port, _, item = rest.partition(".")
    return event if kind == "time" else f"port {port} {kind} {item}"


def in_lists(folder, protocol, turns):
    """The instructions of `ports` along the events of a protocol, so many times over."""
    events = EVENTS[protocol] * turns
    (folder / "a.ports").write_text("ports 1\n" + "\n".join(map(listed, events)) + "\nend\n")
    specification = str(TOP / "examples" / f"{protocol}.est")
    count, told = counted(folder, PROGRAM, "ports", specification, "a.ports", "30", "4000000", "10000")
    if "accepted" not in told.partition("\n")[0]:
        sys.exit(f"{protocol}: {told[:100]}")
    return count


def as_it_comes(folder, protocol, turns):
    """The instructions of `watch` along the events of a protocol, so many times over."""
    text = "trace 1\n" + "\n".join(EVENTS[protocol] * turns) + "\nend\n"
    specification = str(TOP / "examples" / f"{protocol}.est")
    count, told = counted(folder, PROGRAM, "watch", specification, "30", "4000000", "10000", source=text)
    if "accepted" not in told.splitlines()[-1]:
        sys.exit(f"{protocol}: {told[-100:]}")
    return count


def compare_with(command, other, folder, chosen):
    """A row for each protocol: the instructions of an event in `explain` and in another command, and how many times they are."""
    print(f"| Protocol | `explain` | `{command}` | times |\n|---|---|---|---|")
    for protocol in chosen:
        turns = len(EVENTS[protocol])
        events = (LONG // turns - SHORT // turns) * turns
        ours = row(folder, PROGRAM, protocol)[0]
        theirs = (other(folder, protocol, LONG // turns) - other(folder, protocol, SHORT // turns)) / events
        print(f"| `{protocol}` | {ours:,} | {theirs:,.0f} | {theirs / ours:.2f} |", flush=True)


def shares(folder, other, protocol, ours):
    """What these instructions are over those of another program."""
    return ", ".join(f"{one / theirs:.3f}" for one, theirs in zip(ours, row(folder, other, protocol)))


def main():
    global LONG
    words, other = recording.words(), None
    if "--against" in words:
        at = words.index("--against")
        other = pathlib.Path(words[at + 1]).resolve()
        del words[at : at + 2]
    if "--most" in words:
        at = words.index("--most")
        LONG = int(words[at + 1])
        del words[at : at + 2]
    others = {"--ports": in_lists, "--watch": as_it_comes}
    compared = [word for word in words if word in others]
    words = [word for word in words if word not in others]
    chosen = words or ["alternating_bit", "connection", "ring_election", "sessions", "two_phase_commit"]
    if compared:
        with tempfile.TemporaryDirectory() as name:
            for word in compared:
                compare_with(word[2:], others[word], pathlib.Path(name), chosen)
        return
    titles = ["Protocol", "`explain`", "`replay`", "SPIN", "read", *(["over the other"] if other else [])]
    print(f"| {' | '.join(titles)} |\n{'|---' * len(titles)}|")
    with tempfile.TemporaryDirectory() as name:
        folder = pathlib.Path(name)
        for protocol in chosen:
            ours = row(folder, PROGRAM, protocol)
            explained, replayed, read = (f"{count:,}" for count in ours)
            spin = SPIN.get(protocol)
            cells = [f"`{protocol}`", explained, replayed, f"{spin:,}" if spin else ""]
            more = [read, *([shares(folder, other, protocol, ours)] if other else [])]
            print(f"| {' | '.join(cells + more)} |", flush=True)
            recording.record("instructions", *cells, read)


if __name__ == "__main__":
    main()
