#!/usr/bin/env python3
"""Has the built program make hostile runs: those that ask for as much as texts and limits let them.

It is run by hand, and is no part of the gate:

    bench/hostile.py [--record] [PROGRAM [WORD]]

It makes its inputs itself, and prints a table with a row for each run: its status, the processor
time, the most memory, and the time over that of half the size; with WORD only the rows whose name
has it. With --record the rows go to bench/results/hostile.tsv. Each run may take the seconds of the
processor and the memory that stand below. A crash, a limit that is passed, and another status or
report than is written here are told, and their number is the status of the script, or 0 where there
is none.
"""

import os
import pathlib
import resource
import subprocess
import sys
import tempfile
from typing import NamedTuple

import recording

TOP = pathlib.Path(__file__).resolve().parent.parent
SECONDS = 120  # of the processor, for any run
MEMORY = 4 << 30  # bytes, for any run
MOST_FIRINGS = 4_000_000
MOST_STATEMENTS = 1_000_000
ACCEPTED, REFUSED, TOO_LONG, OVER_BUDGET = 0, 1, 6, 5

HEAD = """specification Hostile;
default individual queue;
type Tuple = 0..1023; Row = array [1..256] of integer; Big = array [1..256] of Row;
channel C(A, B); by A: Go; Ask(n: integer); Send(b: Big); by B: Num(n: integer); Sent(b: Big);
module M systemactivity; ip P, R: C(B); end;
module K activity; ip Q, R: C(B); end;
"""
TAIL = """
modvar X: M;
initialize begin init X with MB end;
end.
"""


class Call(NamedTuple):
    """A command with its texts and limits, and how it has to end."""
    command: str
    specification: str
    events: list
    status: int
    report: str
    moves: list = []
    silent: int = 8
    firings: int = MOST_FIRINGS
    statements: int = MOST_STATEMENTS
    drawn: int = 0


class Used(NamedTuple):
    status: int
    report: str
    seconds: float
    memory: float


def of_body(text):
    return HEAD + f"body MB for M;\n{text}\nend;" + TAIL


def explained(text, events, status, report, **limits):
    return Call("explain", of_body(text), events, status, report, **limits)


def replayed(text, events, moves, **limits):
    report = f"confirmed: all {len(events)} events"
    return Call("replay", of_body(text), events, ACCEPTED, report, moves, **limits)


def in_vain(text, report, status, **limits):
    """Explained with a trace of one event that nothing sends."""
    return explained(text, ["out p.num(999)"], status, report, **limits)


def refused(text, **limits):
    return in_vain(text, "{ refused at event 1 of 1 }", REFUSED, **limits)


def passing(text, what, limit):
    """A search that ends at a limit of statements, which this passes."""
    report = f"{{ over budget: {what} passed the limit {limit} after these moves }}"
    return in_vain(text, report, OVER_BUDGET, statements=limit)


def spent(text, firings, **limits):
    """A search that ends at its budget."""
    report = f"{{ over budget: {firings} firings tried }}"
    return in_vain(text, report, OVER_BUDGET, firings=firings, **limits)


# Statements

LOOPS = "for i := 1 to 1000 do for j := 1 to 1000 do for k := 1 to 1000 do n := k"
LOOP_VARIABLES = "var i, j, k, n: integer;"
LONG = f"function Long: integer; {LOOP_VARIABLES} begin {LOOPS}; Long := n end;"


def passes_in_firing(text):
    def made(size):
        return passing(text, "firing 1 1 1", size)
    return made


in_block = passes_in_firing(f"{LOOP_VARIABLES} trans begin {LOOPS} end;")
in_function = passes_in_firing(f"{LOOP_VARIABLES} {LONG} trans begin n := Long end;")
in_calls = passes_in_firing("""var n: integer;
function F(n: integer): integer; begin if n = 0 then F := 0 else F := F(n - 1) + F(n - 1) end;
trans begin n := F(30) end;""")


def in_guard(size):
    return passing(f"{LONG} trans provided Long = 0 begin end;", "a guard", size)


def in_start(size):
    report = f"{{ over budget: the start passed the limit {size} }}"
    text = f"{LOOP_VARIABLES} initialize begin {LOOPS} end;"
    return in_vain(text, report, OVER_BUDGET, statements=size)


def in_replay(size):
    text = of_body(f"{LOOP_VARIABLES} trans begin {LOOPS} end;")
    return Call("replay", text, [], REFUSED, "rejected at move 1: limit", ["fire 1 1 1"],
                statements=size)


def in_many_guards(size):
    """So many guards, each of which stays just within its limit."""
    function = """function F: integer; var i, n: integer;
begin for i := 1 to 490000 do n := i; F := n end;
"""
    return refused(function + "trans provided F = 0 begin end;\n" * size)


def long_expression(size):
    """An expression as long as the text, evaluated so often."""
    terms = "+n-n" * 200_000
    return replayed(f"""var i, n: integer;
trans begin n := 0; for i := 1 to {size} do n := n{terms}; output P.Num(n) end;""",
                    ["out p.num(0)"], ["fire 1 1 1"])


# Choices

def not_enabled(size):
    return refused("trans any x: Tuple do provided x < 0 begin end;\n" * size)


def enabled(size):
    """Each choice of each transition is tried, and nothing after it."""
    return refused("trans any x: Tuple do provided x >= 0 begin end;\n" * size, silent=0)


def enabled_in_row(size):
    """A row of silent firings, after each of which all choices may fire."""
    text = "trans any x: Tuple do provided x >= 0 begin end;\n" * 20
    return spent(text, size, silent=1000)


def first_of_many(size):
    """Before each event of the trace 1,024 firings are possible, of which the first sends it."""
    text = "trans any x: Tuple do begin output P.Num(x) end;"
    report = f"{{ accepted: {size} events }}"
    return explained(text, ["out p.num(0)"] * size, ACCEPTED, report)


# Instances

def children(size):
    """So many children of one parent live, all but the last without a name."""
    return replayed(f"""body KB for K; end;
modvar V: K; var i: integer;
trans begin for i := 1 to {size // 4} do init V with KB; output P.Num(0) end;""",
                    ["out p.num(0)"] * 4, ["fire 1 1 1"] * 4)


def children_of_children(size):
    """Each instance begins two, until there are so many."""
    inner = ""
    levels = size.bit_length() - 2
    for level in range(levels):
        begun = f"init V with B{level - 1}; init W with B{level - 1}" if level else ""
        inner += f"body B{level} for K; modvar V, W: K; initialize begin {begun} end; end;\n"
    last = f"B{levels - 1}"
    return replayed(f"""{inner}modvar V, W: K;
initialize begin init V with {last}; init W with {last}; output P.Num(0) end;""",
                    ["out p.num(0)"], [])


def instances_past_limit(size):
    report = f"{{ over budget: the start passed the limit {size} }}"
    return in_vain("""body KB for K; end;
modvar V: K; var i: integer;
initialize begin for i := 1 to 1000000 do begin init V with KB; release V end end;""",
                   report, OVER_BUDGET, statements=size)


def begun_and_released(size):
    """A million instances in all, one after the other."""
    return replayed(f"""body KB for K; end;
modvar V: K; var i: integer;
trans begin
for i := 1 to {size // 10} do begin init V with KB; release V end; output P.Num(0) end;""",
                    ["out p.num(0)"] * 10, ["fire 1 1 1"] * 10)


def chain(size, end, events, moves):
    """Bodies of which each begins one of the body before it in a firing, and attaches to it."""
    bodies = "body B0 for K; trans when Q.Ask begin output Q.Num(n) end; end;\n"
    for level in range(1, size):
        bodies += (f"body B{level} for K; state I, D; modvar V: K; initialize to I begin end; "
                   f"trans from I to D begin init V with B{level - 1}; attach Q to V.Q end; end;\n")
    text = f"""{bodies}state I, D, E; modvar V: K;
initialize to I begin end;
trans from I to D begin init V with B{size - 1}; attach P to V.Q end;
{end}"""
    begun = [f"fire {number} 1 1" for number in range(1, size + 1)]
    for place in range(900, size, 900):  # time passes, so that few firings in a row are silent
        begun[place] = "take\n" + begun[place]
    passed = ["time 1"] * len(range(900, size, 900))
    return replayed(text, passed + events, begun + moves, silent=1000)


def chain_released(size):
    """A chain of so many instances goes with the first of them."""
    return chain(size, "from D to E when R.Go begin release V; output R.Num(0) end;",
                 ["in r.go", "out r.num(0)"], ["take", "fire 1 2 1"])


def chain_climbed(size):
    """Arrivals go down a chain of so many attachments, and the answers up."""
    events = [f"{event}({number})" for number in range(100) for event in ("in p.ask", "out p.num")]
    return chain(size, "", events, ["take", f"fire {size + 1} 1 1"] * 100)


# Queues and links

def attached(size):
    """Items wait, and all of them go to a child and back, so often in one firing."""
    items = 190_000
    return replayed(f"""body KB for K; end;
modvar V: K; var i: integer;
initialize begin init V with KB end;
trans begin for i := 1 to {size} do begin attach P to V.Q; detach P end; output R.Num(0) end;""",
                    ["in p.go"] * items + ["out r.num(0)"], ["take"] * items + ["fire 1 1 1"])


def one_of_many(size):
    """So many items wait in a common queue; the last one goes to a child and back, 100 times."""
    text = of_body("""body KB for K; end;
modvar V: K; var i: integer;
initialize begin init V with KB end;
trans begin for i := 1 to 100 do begin attach R to V.Q; detach R end; output R.Num(0) end;""")
    text = text.replace("individual", "common")
    events = ["in p.go"] * (size - 1) + ["in r.go", "out r.num(0)"]
    return Call("replay", text, events, ACCEPTED, f"confirmed: all {size + 1} events",
                ["take"] * size + ["fire 1 1 1"])


# Searches

def silent_rows(size):
    """Two silent firings are possible at any time, a thousand in a row."""
    return spent("trans begin end; begin end;", size, silent=1000)


def alternatives(size):
    """Twenty firings send each event of a trace that departs at its end."""
    text = "trans when P.Ask begin output P.Num(0) end;" + " begin output P.Num(0) end;" * 19
    events = ["in p.ask(1)", "out p.num(0)"] * 99_999 + ["in p.ask(1)", "out p.num(1)"]
    report = f"{{ over budget: {size} firings tried }}"
    return explained(text, events, OVER_BUDGET, report, firings=size)


def delays(size):
    """A hundred delays, of which each may have passed at any time."""
    text = "".join(f"trans delay (0, {number}) begin end;\n" for number in range(1000, 1100))
    report = f"{{ over budget: {size} firings tried }}"
    events = ["time 1"] * 100_000 + ["out p.num(999)"]
    return explained(text, events, OVER_BUDGET, report, silent=1000, firings=size)


def large_situations(size):
    """Each firing writes many variables, and each second one begins and releases 100 children."""
    return spent("""body KB for K; end;
var a, b: array [1..120] of Row; i: integer; modvar V: array [1..100] of K;
trans begin a := b; for i := 1 to 100 do init V[i] with KB; all v: K do release v end;
begin b := a end;""", size, silent=1000)


# Depths

def deep_calls(size):
    """A call opens all 32 levels, so often."""
    return replayed(f"""var i, n: integer;
function F(n: integer): integer; begin if n = 0 then F := 0 else F := (((((F(n - 1)))))) end;
trans begin for i := 1 to {size} do n := F(31); output P.Num(n) end;""",
                    ["out p.num(0)"], ["fire 1 1 1"])


def deep_guards(size):
    """So many guards, each of which opens all 32 levels."""
    function = """function F(n: integer): integer;
begin if n = 0 then F := 0 else F := F(n - 1) end;
"""
    return refused(function + "trans provided F(31) = 1 begin end;\n" * size)


def initialize_parts(levels):
    """Bodies of which each begins one of the body before it in its initialize part."""
    bodies = "body B0 for K; end;\n"
    for level in range(1, levels):
        bodies += (f"body B{level} for K; modvar V: K; "
                   f"initialize begin init V with B{level - 1} end; end;\n")
    return f"{bodies}modvar V: K; var i: integer;\n"


def deep_inits(size):
    """A child is begun with all below it, 30 levels deep, and released, so often."""
    return replayed(f"""{initialize_parts(30)}trans begin
for i := 1 to {size} do begin init V with B29; release V end; output P.Num(0) end;""",
                    ["out p.num(0)"], ["fire 1 1 1"])


def too_deep_inits(size):
    text = f"{initialize_parts(size)}trans begin init V with B{size - 1} end;"
    return passing(text, "firing 1 1 1", MOST_STATEMENTS)


def too_deep_calls(size):
    return passing("""var n: integer;
function F(n: integer): integer; begin F := F(n + 1) end;
trans begin n := F(0) end;""", "firing 1 1 1", size)


def deep_values(size):
    """Arrivals with records as deep as types may be, around a set, copied and answered."""
    types = "".join(f" T{n} = record a: T{n - 1} end;" for n in range(1, 32))
    text = of_body("""var v: T31;
trans when P.Take begin v := x; v.a.a.a := x.a.a.a; output P.Give(v) end;""")
    text = text.replace("channel C", f"type T0 = set of 0..63;{types}\nchannel C", 1)
    text = text.replace("by A:", "by A: Take(x: T31);").replace("by B:", "by B: Give(x: T31);")
    value = "(" * 31 + "[" + ", ".join(str(n) for n in range(64)) + "]" + ")" * 31
    events = [f"in p.take({value})", f"out p.give({value})"] * size
    return Call("replay", text, events, ACCEPTED, f"confirmed: all {2 * size} events",
                ["take", "fire 1 1 1"] * size)


# Large values

LARGE = "(" + ",".join(["(" + ",".join(["_"] * 256) + ")"] * 256) + ")"


def copied(size):
    """So many firings copy 65,536 scalars there and back."""
    return replayed("var a: Big; trans var b: Big; begin b := a; a := b; output P.Num(0) end;",
                    ["out p.num(0)"] * size, ["fire 1 1 1"] * size)


def sent_outside(size):
    """So many outputs of 65,536 scalars; 63 of them make a trace of 8 MiB."""
    return replayed("var a: Big; trans begin output P.Sent(a) end;",
                    [f"out p.sent({LARGE})"] * size, ["fire 1 1 1"] * size)


def sent_within(size):
    """One firing sends so many values of 65,536 scalars, which wait at a child."""
    return replayed(f"""body KB for K; end;
modvar V: K; var a: Big; ip J: C(A);
initialize begin init V with KB; connect J to V.Q end;
trans var i: integer; begin for i := 1 to {size} do output J.Send(a); output P.Num(0) end;""",
                    ["out p.num(0)"], ["fire 1 1 1"])


def assigned_alone(size):
    """A scalar of 65,536 is written, so often in one block."""
    return replayed(f"""var a: Big;
trans var i: integer;
begin for i := 1 to {size} do a[i mod 256 + 1, 256] := i; output P.Num(0) end;""",
                    ["out p.num(0)"], ["fire 1 1 1"])


def made_large(size):
    """Arrivals with 65,536 scalars are made until the text of the trace is too long."""
    text = of_body("trans when P.Send begin end;")
    return Call("selfrun", text, [], TOO_LONG, "trace: too long", drawn=size)


ROWS = [
    ("10^9 statements: loops in loops in a block", in_block, MOST_STATEMENTS),
    ("the same, replayed", in_replay, MOST_STATEMENTS),
    ("the same in a function that a block calls", in_function, MOST_STATEMENTS),
    ("the same in a guard", in_guard, MOST_STATEMENTS),
    ("the same in the start", in_start, MOST_STATEMENTS),
    ("a function that calls itself twice, 30 levels deep", in_calls, MOST_STATEMENTS),
    ("guards that each stay just within the limit", in_many_guards, 10),
    ("an expression of 800,000 bytes, evaluated so often", long_expression, 20),
    ("transitions with an `any` of 1,024 tuples, none enabled", not_enabled, 1_000),
    ("the same, all enabled, each fired once", enabled, 200),
    ("20 such transitions, all enabled, after each of so many firings", enabled_in_row, 400),
    ("an `any` of 1,024 tuples, the first one right at each event", first_of_many, 20_000),
    ("children of one parent, all alive", children, 1_000_000),
    ("children of children, two each, so many in all", children_of_children, 32_768),
    ("children begun and released, past the limit", instances_past_limit, MOST_STATEMENTS),
    ("children begun and released, a million in all", begun_and_released, 1_000_000),
    ("a chain of instances, each attached to the next, released", chain_released, 2_000),
    ("100 arrivals along a chain of so many attachments", chain_climbed, 2_000),
    ("190,000 items attached and detached so often", attached, 20),
    ("items in a common queue, the last one attached and detached 100 times", one_of_many, 190_000),
    ("search: two silent firings, a thousand in a row", silent_rows, MOST_FIRINGS),
    ("search: 20 firings for each of 200,000 events, in vain", alternatives, MOST_FIRINGS),
    ("search: 100 delays, a thousand silent firings in a row", delays, 40_000),
    ("search: firings that write 30,720 scalars or begin 100 children", large_situations, 1_000),
    ("calls that open all 32 levels", deep_calls, 15_000),
    ("guards that open all 32 levels", deep_guards, 10_000),
    ("children begun with all below them, 30 deep, and released", deep_inits, 4_000),
    ("initialize parts, more than 32 deep", too_deep_inits, 8_000),
    ("calls without an end", too_deep_calls, MOST_STATEMENTS),
    ("arrivals with values 32 levels deep", deep_values, 10_000),
    ("firings that copy 65,536 scalars twice", copied, 200),
    ("outputs of 65,536 scalars, in a trace of up to 8 MiB", sent_outside, 62),
    ("outputs of 65,536 scalars within, which wait", sent_within, 500),
    ("a scalar among 65,536 written", assigned_alone, 100_000),
    ("`selfrun`: so many events, each third one with 65,536 scalars", made_large, 2_000),
]
# GNU time starts the program, which else would begin with the memory of this script (Debian's package `time` has it).
TIMED = ["/usr/bin/time", "--quiet", "-f", "%M", "-o", "most"]

failed = 0


def limited():
    resource.setrlimit(resource.RLIMIT_CPU, (SECONDS, SECONDS + 1))
    resource.setrlimit(resource.RLIMIT_AS, (MEMORY, MEMORY))


def used(program, call, folder):
    """What a run of the call comes to, with its texts in a folder."""
    moves = ["explanation 1", *call.moves, f"yields {len(call.events) + 1}"]
    (folder / "a.est").write_text(call.specification)
    (folder / "a.trace").write_text("\n".join(["trace 1", *call.events, "end"]))
    (folder / "a.explanation").write_text("\n".join(moves))
    words = {"explain": ["a.trace", call.silent, call.firings, call.statements],
             "replay": ["a.trace", "a.explanation", call.silent, call.statements],
             "selfrun": [7, call.drawn]}[call.command]
    process = subprocess.Popen([*TIMED, program, call.command, "a.est", *map(str, words)], cwd=folder,
                               stdout=subprocess.PIPE, preexec_fn=limited)
    report = process.stdout.read().decode()
    process.stdout.close()
    _, ended, usage = os.wait4(process.pid, 0)
    process.returncode = os.waitstatus_to_exitcode(ended)
    seconds = usage.ru_utime + usage.ru_stime
    most = int((folder / "most").read_text().split()[-1]) / 1024
    return Used(process.returncode, report.partition("\n")[0], seconds, most)


def measured(program, what, call, folder):
    global failed
    run = used(program, call, folder)
    if (run.status, run.report) != (call.status, call.report):
        failed += 1
        print(f"{what}: status {run.status}, {run.report[:80]!r} after {run.seconds:.1f} s with "
              f"{run.memory:.0f} MiB, for {call.status}, {call.report!r}", flush=True)
    return run


def main():
    asks, words = [TOP / "hawkopal", "--program"], recording.words()
    program = words[0] if words else subprocess.check_output(asks, text=True)
    program = pathlib.Path(program.rstrip("\n")).resolve()
    word = words[1] if len(words) > 1 else ""
    print("| Run | Size | Status | Seconds | MiB | Over half the size |")
    print("|---|---|---|---|---|---|")
    with tempfile.TemporaryDirectory() as name:
        for what, made, size in ROWS:
            if word not in what:
                continue
            half = measured(program, what, made(size // 2), pathlib.Path(name))
            whole = measured(program, what, made(size), pathlib.Path(name))
            ratio = whole.seconds / max(half.seconds, 0.001)
            cells = [f"{size:,}", f"{whole.status}", f"{whole.seconds:.2f}", f"{whole.memory:,.0f}"]
            print(f"| {what} | {' | '.join(cells)} | {ratio:.1f} |", flush=True)
            if not failed:
                recording.record("hostile", what, *cells)
    sys.exit(failed)


if __name__ == "__main__":
    main()
