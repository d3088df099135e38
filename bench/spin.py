#!/usr/bin/env python3
"""Times explain and replay beside SPIN, on traces of the alternating bit protocol, and prints a table.

SPIN (the command spin, and gcc) checks a model of the protocol and the trace, alternating_bit.pml, which was
written by hand: the run that has all events of the trace is the error that it finds. What it takes to make and to
compile the verifier is told apart, for it is the same for each length. Each time is the least processor time of
some runs. The program is the one of these sources. With --record the rows go to
bench/results/spin.tsv.
"""

import os
import pathlib
import shutil
import subprocess
import sys
import tempfile

import recording

TOP = pathlib.Path(__file__).resolve().parent.parent
MODEL = TOP / "bench" / "alternating_bit.pml"
SPECIFICATION = TOP / "examples" / "alternating_bit.est"
PROGRAM = subprocess.check_output([TOP / "hawkopal", "--program"], text=True).rstrip("\n")
LENGTHS = (1_000, 10_000, 100_000, 199_000)
RUNS = 3
# GNU time starts a program, which else would begin with the memory of this script (Debian's package `time` has it).
TIMED = ["/usr/bin/time", "--quiet", "-f", "%M", "-o", "most"]


def trace(length):
    """So many events: a frame is asked for and sent, and is acknowledged and confirmed."""
    lines = []
    for number in range(length // 4):
        bit = number % 2
        lines += ["in u.sendrequest(7)", f"out n.transfer((data, {bit}, 7))", f"in n.transfer((ack, {bit}, _))",
                  "out u.sendconfirm"]
    return "trace 1\n" + "\n".join(lines) + "\nend\n"


def measured(command, folder, wanted):
    """The least processor time of some runs, in seconds, and the most memory, in MiB."""
    best, most, told = None, 0, ""
    for _ in range(RUNS):
        process = subprocess.Popen([*TIMED, *command], cwd=folder, stdout=subprocess.PIPE, stderr=subprocess.STDOUT)
        told = process.stdout.read().decode()
        _, _, used = os.wait4(process.pid, 0)
        taken = used.ru_utime + used.ru_stime
        best = taken if best is None else min(best, taken)
        most = max(most, int((pathlib.Path(folder) / "most").read_text().split()[-1]) / 1024)
        if wanted not in told:
            sys.exit(f"{' '.join(map(str, command))}: {told[:400]}")
    return best, most, told


def verifier(length, folder):
    """Makes and compiles SPIN's verifier, and tells the time that this takes."""
    made, _, _ = measured(["spin", f"-DLENGTH={length}", "-a", MODEL], folder, "")
    compiled, _, _ = measured(["gcc", "-O2", "-DSAFETY", "-o", "pan", "pan.c"], folder, "")
    return made + compiled


def main():
    if not shutil.which("spin"):
        sys.exit("spin is not there")
    print("| Events | `explain`, s | MiB | `replay`, s | MiB | SPIN, s | MiB | its verifier, s |")
    print("|---|---|---|---|---|---|---|---|")
    with tempfile.TemporaryDirectory() as name:
        folder = pathlib.Path(name)
        for length in LENGTHS:
            (folder / "a.trace").write_text(trace(length))
            explained, e_most, told = measured([PROGRAM, "explain", SPECIFICATION, "a.trace", "8", "4000000", "10000"],
                                               folder, f"accepted: {length} events")
            (folder / "a.explanation").write_text(told.partition("\n")[2])
            replayed, r_most, _ = measured([PROGRAM, "replay", SPECIFICATION, "a.trace", "a.explanation", "8", "10000"],
                                           folder, f"confirmed: all {length} events")
            compiled = verifier(length, folder)
            searched, s_most, _ = measured(["./pan", "-E", "-m2000000"], folder, "assertion violated")
            cells = [f"{length:,}", f"{explained:.3f}", f"{e_most:.0f}", f"{replayed:.3f}", f"{r_most:.0f}",
                     f"{searched:.3f}", f"{s_most:.0f}", f"{compiled:.2f}"]
            print(f"| {' | '.join(cells)} |", flush=True)
            recording.record("spin", *cells)


if __name__ == "__main__":
    main()
