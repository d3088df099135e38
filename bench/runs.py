#!/usr/bin/env python3
"""Times runs of the whole language by the program, on inputs that it makes itself, and prints two tables.

Each row of the first is the least processor time of some runs of one command, at a size and at twice that
size; the last column is the one time over the other, near 2 where the work is linear. The second table
is of searches: first along traces that are made as well, and then a row for each of six protocols of
examples/, along a trace of some 10,000 events, which repeats what the protocol does. Rows follow of `ports`: as many
tries in vain as firings of `explain`, and lists of 100 ports, which are read; and of `watch`: the same protocol as in the
row of its name, and lines with a comment alone, whose bytes come one by one. The program is the one of
these sources. With --record the rows go to bench/results/replays.tsv and searches.tsv.
"""

import os
import pathlib
import subprocess
import sys
import tempfile

import recording

TOP = pathlib.Path(__file__).resolve().parent.parent
PROGRAM = subprocess.check_output([TOP / "hawkopal", "--program"], text=True).rstrip("\n")
RUNS = 3
# GNU time starts the program, which else would begin with the memory of this script (Debian's package `time` has it).
TIMED = ["/usr/bin/time", "--quiet", "-f", "%M", "-o", "most"]
MOST_STATEMENTS = "1000000"

HEAD = """specification Measured;
default individual queue;
channel C(A, B); by A: Go; Ask(n: integer); by B: Num(n: integer);
module M systemactivity; ip P, R: C(B); end;
module K activity; ip Q, R: C(B); end;
"""
TAIL = """
modvar X: M;
initialize begin init X with MB end;
end.
"""


def texts(body, events, moves):
    """A specification with this body MB, a trace, and the explanation of all of it."""
    trace = "trace 1\n" + "\n".join(events) + "\nend\n"
    claim = "\n".join(moves) + f"\nyields {len(events) + 1}\n"
    return HEAD + body + TAIL, trace, "explanation 1\n" + claim


def statements(size):
    turns = size // 4
    last = (turns - 1) // 10 * 10
    return texts(f"""body MB for M;
  var a: array [1..10] of integer; i: integer;
  initialize begin i := 0;
    while i < {turns} do begin a[i mod 10 + 1] := i; i := i + 1 end; output P.Num(a[1]) end;
end;""", [f"out p.num({last})"], [])


def calls(size):
    return texts(f"""body MB for M;
  var s, i: integer;
  procedure Put(n: integer; var t: integer); begin t := n end;
  initialize begin for i := 1 to {size} do Put(i, s); output P.Num(s) end;
end;""", [f"out p.num({size})"], [])


def asked(size, body):
    """A replay in which each arrival is answered by a firing."""
    events = [event for n in range(size) for event in (f"in p.ask({n})", f"out p.num({n})")]
    return texts(body, events, ["take", "fire 1 1 1"] * size)


def firings(size):
    return asked(size, """body MB for M;
  trans when P.Ask begin output P.Num(n) end;
end;""")


def writes(size):
    return asked(size, """body MB for M;
  var a: array [1..60000] of integer;
  trans when P.Ask begin a[n mod 60000 + 1] := n; output P.Num(n) end;
end;""")


def states(size):
    """So many firings, among 10,000 states with a transition each."""
    names = [f"S{n}" for n in range(10_000)]
    body = ["body MB for M;", "  state " + ", ".join(names) + ";", "  initialize to S0 begin end;", "  trans"]
    body += [f"    from S{n} to S{(n + 1) % 10_000} begin output P.Num({n}) end;" for n in range(10_000)] + ["end;"]
    events = [f"out p.num({n % 10_000})" for n in range(size)]
    return texts("\n".join(body), events, [f"fire 1 {n % 10_000 + 1} 1" for n in range(size)])


def queue(size):
    return texts("""body MB for M;
  trans when P.Ask begin output P.Num(n) end;
end;""", [f"in p.ask({n})" for n in range(size)] + [f"out p.num({n})" for n in range(size)],
                 ["take"] * size + ["fire 1 1 1"] * size)


def delays(size):
    """A timer that fires each second, beside 100 that never do."""
    others = "".join(f"  trans delay (1000000 + {n}) begin end;\n" for n in range(100))
    return texts(f"""body MB for M;
  trans delay (1) begin output P.Num(0) end;
{others}end;""", ["time 1", "out p.num(0)"] * size, ["take", "fire 1 1 1"] * size)


def children(size):
    """Each firing begins a child and releases it."""
    return asked(size, """body KB for K; end;
body MB for M;
  modvar V: K;
  trans when P.Ask begin init V with KB; release V; output P.Num(n) end;
end;""")


def answered_later(size, body, firing="fire 1 1 1"):
    """So many arrivals, and then as many firings that each tell one of them."""
    events = [f"in p.ask({n})" for n in range(size)] + [f"out p.num({n})" for n in range(size)]
    return texts(body, events, ["take"] * size + [firing] * size)


def among(children, size):
    """The last of so many children is begun and released by each firing, while items wait at the first."""
    rows = children // 250
    names = ", ".join(f"V{n}" for n in range(1, rows + 1))
    begun = "; ".join(f"init V{n}[i] with KB" for n in range(1, rows + 1))
    events = [f"in p.ask({n})" for n in range(size)] + ["out r.num(0)"] * size
    return texts(f"""body KB for K; end;
body MB for M;
  var i: integer;
  modvar {names}: array [1..250] of K;
  initialize begin for i := 1 to 250 do begin {begun} end; attach P to V1[1].Q end;
  trans begin release V{rows}[250]; init V{rows}[250] with KB; output R.Num(0) end;
end;""", events, ["take"] * size + ["fire 1 1 1"] * size)


def last_of_many(size):
    return among(10_000, size)


def instances(size):
    """250 firings that each begin and release the last of so many children."""
    return among(size, 250)


def levels(depth, size):
    """Arrivals that go down so many attachments, and wait; each is answered up along the same ones."""
    inner = "  trans when Q.Ask begin output Q.Num(n) end;\n"
    for level in range(depth, 0, -1):
        own = "P" if level == 1 else "Q"
        inner = f"""body B{level} for K;
{inner}end;
modvar V: K;
initialize begin init V with B{level}; attach {own} to V.Q end;
"""
    return answered_later(size, f"body MB for M;\n{inner}end;", f"fire {depth + 1} 1 1")


def deep(size):
    return levels(30, size)


def sent_within(size, turn):
    """One firing sends so many items to a child, which takes them one by one."""
    body = f"""body KB for K;
{turn}end;
body MB for M;
  state Begun, Sent;
  var i: integer;
  ip J: C(A);
  modvar V: K;
  initialize to Begun begin init V with KB; connect J to V.Q; attach P to V.R end;
  trans from Begun to Sent begin for i := 1 to {size} do output J.Ask(i) end;
end;"""
    return texts(body, [f"out p.num({n})" for n in range(1, size + 1)], ["fire 1 1 1"] + ["fire 2 1 1"] * size)


def taken(size):
    return sent_within(size, "  trans when Q.Ask begin output R.Num(n) end;\n")


def tried(size):
    """The same for a search, which tries a wrong answer to each item before the right one."""
    return sent_within(size, """  trans when Q.Ask begin output R.Num(0) end;
    when Q.Ask begin output R.Num(n) end;
""")


def moved(size):
    """So many items go to a child and back, twenty times."""
    body = f"""body KB for K; end;
body MB for M;
  var i: integer;
  modvar V: K;
  initialize begin init V with KB end;
  trans begin for i := 1 to 20 do begin attach P to V.Q; detach P end; output R.Num(0) end;
end;"""
    return texts(body, [f"in p.ask({n})" for n in range(size)] + ["out r.num(0)"], ["take"] * size + ["fire 1 1 1"])


def records(size):
    """A trace of so many arrivals with record values, which is read; nothing is replayed."""
    specification = """specification Measured;
default individual queue;
type Small = 0..9; Color = (red, green, blue); Row = array [1..3] of Small;
  Rec = record a: integer; b: boolean; c: Row; d: Color; e: char; f: set of Small end;
channel C(A, B); by A: Ask(r: Rec); by B: Num(n: integer);
module M systemactivity; ip P: C(B); end;
body MB for M; end;
modvar X: M;
initialize begin init X with MB end;
end.
"""
    event = "in p.ask((%d, true, (1, 2, 3), green, 'x', [1, 5, 7]))"
    trace = "trace 1\n" + "\n".join(event % -n for n in range(1, size + 1)) + "\nend\n"
    return specification, trace, "explanation 1\nyields 0\n"


def elements(size):
    """A trace of so many arrivals at 60,000 ports with 10,000 signals each, which is read."""
    signals = " ".join(f"S{n};" for n in range(10_000))
    names = ", ".join(f"P{n}" for n in range(240))
    specification = f"""specification Measured;
default individual queue;
channel C(A, B); by A: {signals} by B: Num(n: integer);
module M systemactivity; ip {names}: array [1..250] of C(B); end;
body MB for M; end;
modvar X: M;
initialize begin init X with MB end;
end.
"""
    trace = "".join(f"in p{n % 240}[{n * 7919 % 250 + 1}].s{n * 6007 % 10_000}\n" for n in range(size))
    return specification, f"trace 1\n{trace}end\n", "explanation 1\nyields 0\n"


MANY_PORTS = f"""specification Measured;
default individual queue;
channel C(A, B); by A: Ask(n: integer); by B: Num(n: integer);
module M systemactivity; ip P: array [1..100] of C(B); end;
body MB for M; end;{TAIL}"""


def at_many_ports(size):
    """A trace of so many arrivals at 100 ports in turn, which is read."""
    trace = "trace 1\n" + "".join(f"in p[{n % 100 + 1}].ask({n})\n" for n in range(size)) + "end\n"
    return MANY_PORTS, trace, "explanation 1\nyields 0\n"


def many_lists(size):
    """Lists of so many arrivals at 100 ports, which are read before the budget ends at once."""
    lists = (f"port p[{port}]\n" + "".join(f"in ask({n})\n" for n in range(size // 100)) for port in range(1, 101))
    return MANY_PORTS, f"ports 1\n{''.join(lists)}end\n", ["ports", "a.est", "a.trace", "8", "0", "10000"]


ROWS = [
    ("statements: `while`, an assignment with a subscript, a comparison", statements, 400_000),
    ("calls of a procedure with two parameters", calls, 150_000),
    ("arrivals, each with a firing", firings, 25_000),
    ("the same, each writing one of 60,000 variables", writes, 25_000),
    ("firings among 10,000 states", states, 25_000),
    ("arrivals that wait in a queue, and are taken", queue, 25_000),
    ("time that passes, each with a firing of one of 101 delays", delays, 5_000),
    ("children that are begun and released", children, 25_000),
    ("the last of 10,000 children released and begun again, with as many items waiting", last_of_many, 1_000),
    ("the last of so many children released and begun again, 250 times", instances, 5_000),
    ("arrivals that go down 30 attachments and wait, each answered up along them", deep, 25_000),
    ("items that one firing sends, each with a firing that takes it", taken, 100_000),
    ("items that wait, attached and detached 20 times", moved, 99_000),
    ("arrivals with record values, read", records, 60_000),
    ("arrivals at 60,000 ports with 10,000 signals, read", elements, 75_000),
    ("arrivals at 100 ports, read", at_many_ports, 100_000),
]

def in_vain(command):
    """A call of the command that ends after so many firings or tries: silent ones, two after each run."""
    specification = HEAD + """body MB for M;
  trans begin end; begin end;
end;""" + TAIL
    first = {"explain": "trace 1\nout p.num(1)\nend\n", "ports": "ports 1\nport p\nout num(1)\nend\n"}[command]
    return lambda size: (specification, first, [command, "a.est", "a.trace", "1000", str(size), MOST_STATEMENTS])


# Calls that end at their budget.
OVER = [
    ("firings of `explain`, in vain", in_vain("explain"), 500_000),
    ("tries of `ports`, in vain", in_vain("ports"), 500_000),
    ("lists of 100 ports, read", many_lists, 100_000),
]


def watched_events(size):
    """So many events of a protocol, each in a line."""
    lines = PROTOCOLS["alternating_bit"]
    return "alternating_bit", "trace 1\n" + "\n".join(lines * (size // len(lines))) + "\nend\n"


def watched_bytes(size):
    """So many bytes of comments in lines of 100 bytes."""
    return "skel", "trace 1\n" + ("{" + 97 * "x" + "}\n") * (size // 100) + "end\n"


WATCHED = [
    ("`alternating_bit`, watched", watched_events, 100_000),
    ("bytes of comments, watched", watched_bytes, 4_000_000),
]

SEARCHES = [
    ("items that one firing sends, each tried with a wrong answer first", tried, 100_000),
]


def alternating_bit():
    half = ["in u.sendrequest(7)", "out n.transfer((data, %d, 7))", "in n.transfer((ack, %d, _))", "out u.sendconfirm"]
    return [line % bit if "%" in line else line for bit in (0, 1) for line in half]


def go_back_n():
    lines = []
    for number in range(8):
        lines += ["in access[1].send(10)", f"out line.data({number}, 1, 10)", f"in line.acknowledge({number})",
                  "out access[1].sent"]
    return lines


PROTOCOLS = {
    "alternating_bit": alternating_bit(),
    "connection": ["in isapini.iconreq", "time 5", "out isapres.iconind", "in isapres.iconresp", "out isapini.iconconf",
                   "in isapres.idisreq", "out isapini.idisind"],
    "go_back_n": go_back_n(),
    "sessions": ["in port[1].read(note)", "out port[1].data(1, true)", "in port[1].ack(1)"],
    "ring_election": ["in user[1].start"] + [f"out user[{n}].elected(40)" for n in (3, 4, 1, 2)],
    "arbiter": ["in port[1].readrequest", "out port[1].granted", "in port[1].done"],
}


def measured(command, folder, wanted=0, source=os.devnull):
    """The least processor time of some runs, in seconds, the most memory, in MiB, and what was told."""
    best, most = None, 0
    for _ in range(RUNS):
        with open(folder / source, "rb") as given:
            process = subprocess.Popen([*TIMED, PROGRAM, *command], cwd=folder, stdin=given, stdout=subprocess.PIPE)
        told = process.stdout.read().decode()
        _, status, used = os.wait4(process.pid, 0)
        if os.waitstatus_to_exitcode(status) != wanted:
            sys.exit(f"{' '.join(command)}: {told[:400]}")
        taken = used.ru_utime + used.ru_stime
        best = taken if best is None else min(best, taken)
        most = max(most, int((folder / "most").read_text().split()[-1]) / 1024)
    return best, most, told


def replayed(folder, made):
    specification, trace, explanation = made
    (folder / "a.est").write_text(specification)
    (folder / "a.trace").write_text(trace)
    (folder / "a.explanation").write_text(explanation)
    command = ["replay", "a.est", "a.trace", "a.explanation", "8", MOST_STATEMENTS]
    taken, most, told = measured(command, folder)
    if not told.startswith("confirmed"):
        sys.exit(told)
    return taken, most


def searched(folder, made):
    specification, trace, _ = made
    (folder / "a.est").write_text(specification)
    (folder / "a.trace").write_text(trace)
    command = ["explain", "a.est", "a.trace", "8", "4000000", MOST_STATEMENTS]
    taken, most, told = measured(command, folder)
    if "accepted" not in told[:40]:
        sys.exit(told[:100])
    return taken, most


def over(folder, made):
    """A call that ends at its budget."""
    specification, trace, command = made
    (folder / "a.est").write_text(specification)
    (folder / "a.trace").write_text(trace)
    return measured(command, folder, 5)[:2]


def along(folder, protocol, turns):
    """A search along the events of a protocol, so many times over."""
    (folder / "a.trace").write_text("trace 1\n" + "\n".join(PROTOCOLS[protocol] * turns) + "\nend\n")
    command = ["explain", str(TOP / "examples" / f"{protocol}.est"), "a.trace", "30", "4000000", "10000"]
    taken, most, told = measured(command, folder)
    if "accepted" not in told[:40]:
        sys.exit(f"{protocol}: {told[:100]}")
    return taken, most


def watched(folder, made):
    """A trace that is watched."""
    specification, trace = made
    (folder / "a.trace").write_text(trace)
    command = ["watch", str(TOP / "examples" / f"{specification}.est"), "30", "4000000", "10000"]
    taken, most, told = measured(command, folder, source="a.trace")
    if "accepted" not in told[-40:]:
        sys.exit(told[-100:])
    return taken, most


def tell(table, what, size, half, whole, most):
    """A row of a table: the times at half the size and at the size, and the memory."""
    cells = [f"{size:,}", f"{whole:.3f}", f"{whole / size * 1e6:.2f}", f"{most:,.0f}"]
    print(f"| {what} | {' | '.join(cells)} | {whole / max(half, 0.001):.1f} |", flush=True)
    recording.record(table, what, *cells)


def compare(table, rows, run, folder):
    """A row for each of these inputs."""
    for what, made, size in rows:
        half, _ = run(folder, made(size))
        tell(table, what, 2 * size, half, *run(folder, made(2 * size)))


def head(what, size):
    print(f"| {what} | {size} | Seconds | Microseconds each | MiB | Over half of that |\n|---|---|---|---|---|---|")


def main():
    with tempfile.TemporaryDirectory() as name:
        folder = pathlib.Path(name)
        head("Replay", "Size")
        compare("replays", ROWS, replayed, folder)
        print()
        head("Search", "Events")
        compare("searches", SEARCHES, searched, folder)
        for protocol, lines in PROTOCOLS.items():
            turns = 10_000 // len(lines)
            half, _ = along(folder, protocol, turns // 2)
            tell("searches", f"`{protocol}`", len(lines) * turns, half, *along(folder, protocol, turns))
        compare("searches", OVER, over, folder)
        compare("searches", WATCHED, watched, folder)


if __name__ == "__main__":
    main()
