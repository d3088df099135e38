#!/usr/bin/env python3
"""Times the program on inputs that it makes itself, and prints tables.

Each row of the first table is the best of some runs of one command on one input, in processor time (user
and system), so that other work on the machine changes it little, with the most memory that a run held.
The last column is the time over that of the row above, whose input is half as large: near 2 where the
work is linear. The second table has a row for each kind of declaration that names others, the third
one for each construct of the language alone. With --record the rows at the greatest sizes go to
bench/results/texts.tsv.
"""

import ctypes
import os
import pathlib
import shutil
import subprocess
import sys
import tempfile

import constructs
import declarations
import recording

TOP = pathlib.Path(__file__).resolve().parent.parent
# The program of these sources, built where there is none.
PROGRAM = subprocess.check_output([TOP / "hawkopal", "--program"], text=True).rstrip("\n")
SEED = 20261127
RUNS = 5
KIB, MIB = 1 << 10, 1 << 20
SIZES = [256 * KIB, 512 * KIB, MIB]
# The answer to a sentence that breaks no rule, and to any other text.
GOOD = 0
BROKEN = 2
# The answer to an explanation that is no sentence.
UNREADABLE = 4
# The answer where the budget of a search does not suffice.
OVER = 5

# A process that has lost its parent comes to this one (PR_SET_CHILD_SUBREAPER).
ctypes.CDLL(None).prctl(36, 1, 0, 0, 0)


def started(command, folder):
    """Starts a command by way of a shell that ends at once: a process is charged with the memory of the one
    that started it, and a shell has little."""
    shell = ["sh", "-c", '"$@" >/dev/null 2>&1 & exec echo $!', "sh", *map(str, command)]
    return int(subprocess.run(shell, cwd=folder, stdout=subprocess.PIPE, check=True).stdout)


def measured(command, folder, *statuses):
    """The least processor time of some runs that end with one of these statuses, in seconds, and the most
    memory, in bytes."""
    best, most = None, 0
    for _ in range(RUNS):
        _, ended, used = os.wait4(started(command, folder), 0)
        if os.waitstatus_to_exitcode(ended) not in statuses:
            sys.exit(f"{command} ended with status {os.waitstatus_to_exitcode(ended)}")
        taken = used.ru_utime + used.ru_stime
        best = taken if best is None else min(best, taken)
        most = max(most, used.ru_maxrss * 1024)
    return best, most


def rows(what, sizes, unit, made, status, folder):
    """A row for each size, and the times. `made` writes the inputs of a size, and answers the command and
    how many of the unit there are."""
    before, times = None, []
    for size in sizes:
        command, count = made(size)
        taken, most = measured(command, folder, status)
        ratio = "" if before is None else f"{taken / before:.2f}"
        rate = f"{count / taken / 1e6:.2f} M {unit}/s"
        print(f"| {what} | {count:,} {unit} | {taken * 1000:.1f} | {rate} | {most / MIB:.0f} | {ratio} |", flush=True)
        before = taken
        times.append(taken)
    recording.record("texts", what, f"{count:,} {unit}", f"{taken * 1000:,.0f}", f"{most / MIB:,.0f}")
    return times


def written(folder, name, *what):
    """Has another process write an input, and answers its path and length."""
    path = folder / name
    with open(path, "wb") as file:
        subprocess.run([sys.executable, TOP / "bench" / "inputs.py", *map(str, what)], stdout=file, check=True)
    return path, path.stat().st_size


def checks(folder, kind, command="check"):
    def made(size):
        path, length = written(folder, "large.est", kind, size, SEED)
        return [PROGRAM, command, path], length

    return made


def compiles(folder, kind):
    def made(size):
        path, length = written(folder, "large.pas", kind, size, SEED)
        return ["fpc", "-Cn", path], length

    return made


def replays(folder, trace_of, explanation_of, limits=()):
    """Replays of a number of moves, with the trace and the explanation of these kinds."""

    def made(moves):
        specification, _ = written(folder, "echo.est", "echo")
        trace, _ = written(folder, "long.trace", trace_of, moves)
        explanation, _ = written(folder, "long.explanation", explanation_of, moves)
        return [PROGRAM, "replay", specification, trace, explanation, *limits], moves

    return made


def reads_frames(folder, trace_of):
    """Reads a trace of this kind, of so many frames; no move is made."""

    def made(events):
        specification, _ = written(folder, "frames.est", "frames")
        trace, _ = written(folder, "long.trace", trace_of, events)
        explanation, _ = written(folder, "no.explanation", "no_moves", 0)
        return [PROGRAM, "replay", specification, trace, explanation], events

    return made


def reads_explanation(folder):
    def made(size):
        specification, _ = written(folder, "echo.est", "echo")
        trace, _ = written(folder, "short.trace", "echo_trace", 0)
        explanation, length = written(folder, "long.explanation", "explanation", size, SEED)
        return [PROGRAM, "replay", specification, trace, explanation], length

    return made


def reads_dense_explanation(folder):
    def made(size):
        specification, _ = written(folder, "echo.est", "echo")
        trace, _ = written(folder, "short.trace", "echo_trace", 0)
        explanation, length = written(folder, "long.explanation", "dense_explanation", size)
        return [PROGRAM, "replay", specification, trace, explanation], length

    return made


def fires_the_last(folder):
    """Replays of 4,000 moves, each second one a firing of the last of so many transitions."""

    def made(transitions):
        specification, _ = written(folder, "crowded.est", "crowded", transitions)
        trace, _ = written(folder, "long.trace", "echo_trace", 4000)
        explanation, _ = written(folder, "long.explanation", "crowded_moves", 4000, transitions)
        return [PROGRAM, "replay", specification, trace, explanation], transitions

    return made


def explains(folder, kind, width):
    """Searches along a trace of so many events, by a specification of this kind with so many transitions a state."""

    def made(events):
        specification, _ = written(folder, "station.est", kind, width)
        trace, _ = written(folder, "long.trace", f"{kind}_trace", events, width)
        return [PROGRAM, "explain", specification, trace, "8", "4000000", "10000"], events

    return made


def searches_in_vain(folder):
    """Searches that end at their budget of firings, in a tree that has far more."""

    def made(budget):
        specification, _ = written(folder, "endless.est", "endless")
        trace, _ = written(folder, "short.trace", "echo_trace", 2)
        return [PROGRAM, "explain", specification, trace, "1000", budget, "10000"], budget

    return made


def share(what, ours, others):
    told = ", ".join(f"{one / other:.3f}" for one, other in zip(ours, others))
    print(f"| {what} | | | {told} | | |", flush=True)


def shares(folder):
    """Rows of whole texts, checked and printed, and of Pascal programs of the same content, and the shares of their
    times."""
    ours = rows("check of whole texts, as a user would write them", SIZES, "bytes", checks(folder, "whole"), GOOD, folder)
    prints = rows("`print` of the same", SIZES, "bytes", checks(folder, "whole", "print"), GOOD, folder)
    share("print over check", prints, ours)
    if not shutil.which("fpc"):
        return
    others = rows("`fpc -Cn` of the same in Pascal", SIZES, "bytes", compiles(folder, "whole_pascal"), 0, folder)
    share("check over fpc", ours, others)


def table(folder, what, names, kind, *statuses):
    """A row for each name: the times of three sizes, their ratios, and how many bytes of memory a byte of
    text takes at most, beside what an empty text takes."""
    print(f"| {what} | " + " | ".join(f"ms, {size // KIB} KiB" for size in SIZES) + " | ratios | bytes a byte |")
    print("|---|---|---|---|---|---|")
    (folder / "empty.est").touch()
    _, own = measured([PROGRAM, "check", folder / "empty.est"], folder, BROKEN)
    for number, name in enumerate(names):
        times, most, held = [], 0, 0
        for size in SIZES:
            path, length = written(folder, "large.est", kind, size, number)
            taken, peak = measured([PROGRAM, "check", path], folder, *statuses)
            times.append(taken)
            most, held = max(most, (peak - own) / length), max(held, peak)
        told = " | ".join(f"{taken * 1000:.1f}" for taken in times)
        ratios = ", ".join(f"{later / sooner:.2f}" for sooner, later in zip(times, times[1:]))
        print(f"| {name} | {told} | {ratios} | {most:.0f} |", flush=True)
        figures = f"{taken * 1000:,.0f}", f"{held / MIB:,.0f}"
        recording.record("texts", f"one {what} alone: {name}", f"{size // MIB} MiB", *figures)


def main():
    print("| what | size | ms | rate | peak MiB | ratio |")
    print("|---|---|---|---|---|---|")
    with tempfile.TemporaryDirectory() as name:
        folder = pathlib.Path(name)
        rows("check of transitions", SIZES, "bytes", checks(folder, "skeleton"), 0, folder)
        rows("check of states", SIZES, "bytes", checks(folder, "states"), 0, folder)
        if shutil.which("fpc"):
            rows("`fpc -Cn` of Pascal", SIZES, "bytes", compiles(folder, "pascal"), 0, folder)
        shares(folder)
        many = [50_000, 100_000, 200_000]
        rows("a trace is read", many, "events", replays(folder, "echo_trace", "no_moves"), 0, folder)
        rows("a trace of records that left is read", many, "events", reads_frames(folder, "frames_trace"), 0, folder)
        rows("the same trace, each record seen in part", many, "events", reads_frames(folder, "seen_trace"), 0, folder)
        rows("an explanation is read", [32 * MIB, 64 * MIB, 128 * MIB], "bytes", reads_explanation(folder), 1, folder)
        dense = reads_dense_explanation(folder)
        rows("an explanation of one token a byte, refused", [32 * MIB, 64 * MIB, 128 * MIB], "bytes", dense, UNREADABLE, folder)
        rows("takes and firings", many, "moves", replays(folder, "echo_trace", "echo_moves"), 0, folder)
        rows("arrivals alone", many, "moves", replays(folder, "arrivals_trace", "arrivals_moves"), 0, folder)
        silent = replays(folder, "silent_trace", "silent_moves", ["20", "2"])
        rows("silent firings", [1_050_000, 2_100_000, 4_200_000], "moves", silent, 0, folder)
        rows("2,000 firings of the last", [5_000, 10_000, 20_000], "transitions", fires_the_last(folder), 0, folder)
        for width in [2, 20]:
            found = explains(folder, "station", width)
            rows(f"explained, {width} transitions a state", many, "events", found, 0, folder)
        guessed = explains(folder, "guessing", 20)
        rows("explained, each answer the 20th tried", many, "events", guessed, 0, folder)
        rows("searched in vain", [1_000_000, 2_000_000, 4_000_000], "firings", searches_in_vain(folder), OVER, folder)
        print()
        table(folder, "declaration", declarations.DECLARATIONS, "declarations", GOOD)
        print()
        table(folder, "construct", constructs.CONSTRUCTS, "construct", GOOD, BROKEN)


main()
