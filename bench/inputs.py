"""Large inputs, made from a seed: the same seed and size give the same bytes.

As a program it writes one of them: `inputs.py NAME NUMBER..`, with the name of a function below or of one
that stands in `whole`, `constructs` or `declarations`.
"""

import random
import sys

from constructs import construct
from declarations import declarations
from whole import whole, whole_pascal


def skeleton(size, seed):
    """A good skeleton specification of about `size` bytes, most of them transitions."""
    draw = random.Random(seed)
    states = [f"S{i}" for i in range(64)]
    head = (
        "specification Large;\n"
        "channel C(A, B);\n  by A: Go;\n  by B: Left; Right;\n"
        "module M systemactivity; ip P: C(B); end;\n"
        "body MB for M;\n  state " + ", ".join(states) + ";\n"
        "  initialize to S0 begin end;\n"
    )
    tail = "end;\nmodvar X: M;\ninitialize begin init X with MB end;\nend.\n"
    parts = [head]
    length = len(head) + len(tail)
    while True:
        one, other = draw.choice(states), draw.choice(states)
        when = "when P.Go " if draw.random() < 0.5 else ""
        signal = draw.choice(["Left", "Right"])
        line = f"  trans from {one} to {other} {when}begin output P.{signal} end;\n"
        if length + len(line) > size:
            break
        parts.append(line)
        length += len(line)
    parts.append("{" + "." * (size - length - 3) + "}\n" if size - length >= 3 else "")
    parts.append(tail)
    return "".join(parts)


def states(size, seed):
    """A good skeleton specification of about `size` bytes, most of them states that are named once
    and used once."""
    draw = random.Random(seed)
    head = (
        "specification Large;\n"
        "channel C(A, B);\n  by A: Go;\n  by B: Left; Right;\n"
        "module M systemactivity; ip P: C(B); end;\n"
        "body MB for M;\n  state "
    )
    count = max(2, (size - 300) // 18)
    names = [f"s{i:07d}" for i in range(count)]
    used = list(names)
    draw.shuffle(used)
    text = [head, ",".join(names), ";\n  initialize to s0000000 begin end;\n  trans from "]
    text += [",".join(used), " begin end;\nend;\nmodvar X: M;\ninitialize begin init X with MB end;\nend.\n"]
    return "".join(text)


def explanation(size, seed):
    """The text of an explanation of at most `size` bytes, whose first firing is not possible."""
    draw = random.Random(seed)
    block = []
    for _ in range(4096):
        if draw.random() < 0.3:
            block.append("take\n")
        else:
            block.append(f"fire {draw.randint(1, 999)} {draw.randint(1, 99)} {draw.randint(1, 9)}\n")
    block = "".join(block)
    head, tail = "explanation 1\nfire 9 9 9\n", "yields 1\n"
    return head + block * ((size - len(head) - len(tail)) // len(block)) + tail


def dense_explanation(size):
    """A text of `size` bytes, each of them after the head a token of its own, and the first one a bad one."""
    head = "explanation 1\n"
    return head + ";" * (size - len(head))


ANSWER = "  trans from S to same when P.Go begin output P.Left end;\n"
SILENT = "  trans from S to same begin end;\n"
ECHO_HEAD = """specification Echo;
channel C(A, B);
  by A: Go;
  by B: Left;
module M systemactivity; ip P: C(B); end;
body MB for M;
  state S;
  initialize to S begin end;
"""
ECHO_TAIL = """end;
modvar X: M;
initialize begin init X with MB end;
end.
"""


def echo():
    """A skeleton that answers each Go with Left, and can fire without an outside event at any time."""
    return ECHO_HEAD + ANSWER + SILENT + ECHO_TAIL


def crowded(transitions):
    """The same with so many transitions, of which the last one answers."""
    return ECHO_HEAD + SILENT * (transitions - 1) + ANSWER + ECHO_TAIL


def crowded_moves(moves, transitions):
    """The explanation of `echo_trace` by the last one of so many transitions."""
    return "explanation 1\n" + f"take\nfire 1 {transitions} 1\n" * (moves // 2) + f"yields {moves + 1}\n"


def echo_trace(events):
    """So many events, each second one an answer to the one before."""
    return "trace 1\n" + "in p.go\nout p.left\n" * (events // 2) + "end\n"


def echo_moves(moves):
    """The explanation of that trace: each second move is a firing."""
    return "explanation 1\n" + "take\nfire 1 1 1\n" * (moves // 2) + f"yields {moves + 1}\n"


def frames():
    """A specification that may send frames, and does nothing."""
    return """specification Frames;
type Frame = record seq: 0..7; last: boolean; data: array [1..4] of 0..255 end;
channel C(A, B);
  by A: Go;
  by B: Put(f: Frame);
module M systemactivity; ip P: C(B); end;
body MB for M; end;
modvar X: M;
initialize begin init X with MB end;
end.
"""


def frames_trace(events):
    """So many frames that left, of which all was seen."""
    return "trace 1\n" + "".join(f"out p.put(({n % 8}, true, (1, 2, 3, {n % 256})))\n" for n in range(events)) + "end\n"


def seen_trace(events):
    """The same frames, each of which was seen but for one number."""
    return "trace 2\n" + "".join(f"out p.put(({n % 8}, true, (1, 2, 3, ?)))\n" for n in range(events)) + "end\n"


def no_moves(_):
    return "explanation 1 yields 0\n"


def arrivals_trace(events):
    """So many arrivals, which all wait."""
    return "trace 1\n" + "in p.go\n" * events + "end\n"


def arrivals_moves(moves):
    return "explanation 1\n" + "take\n" * moves + f"yields {moves + 1}\n"


def silent_trace(moves):
    """The trace of `silent_moves`: time that passes."""
    return "trace 1\n" + "time 1\n" * (moves // 21) + "end\n"


def silent_moves(moves):
    """So many moves: after each take 20 silent firings."""
    takes = moves // 21
    return "explanation 1\n" + ("take\n" + "fire 1 2 1\n" * 20) * takes + f"yields {takes + 1}\n"


STATES = 4


def station(width):
    """A skeleton of the alternating bit kind: four states in a ring, and so many transitions from each, one for each
    thing that may arrive."""
    lines = ["specification Station;", "channel Service(User, Provider);"]
    lines.append("  by User: " + " ".join(f"Send{number};" for number in range(width)))
    lines += ["  by Provider: Done;", "channel Network(Station, Medium);", "  by Station: Put0; Put1;"]
    lines.append("  by Medium: " + " ".join(f"Ack{number};" for number in range(width)))
    lines += ["module M systemactivity; ip U: Service(Provider); N: Network(Station); end;", "body B for M;"]
    lines += ["  state Idle0, Waiting0, Idle1, Waiting1;", "  initialize to Idle0 begin end;"]
    names = ["Idle0", "Waiting0", "Idle1", "Waiting1"]
    for state, name in enumerate(names):
        move = f"  trans from {name} to {names[(state + 1) % STATES]} when "
        for number in range(width):
            if state % 2 == 0:
                lines.append(f"{move}U.Send{number} begin output N.Put{state // 2} end;")
            else:
                lines.append(f"{move}N.Ack{number} begin output U.Done end;")
    lines += ["end;", "modvar X: M;", "initialize begin init X with B end;", "end.", ""]
    return "\n".join(lines)


def station_trace(events, width):
    """So many events of it, each second one an answer."""
    lines = ["trace 1"]
    for step in range(events // 2):
        number = (7 * step + 3) % width
        if step % 2 == 0:
            lines += [f"in u.send{number}", f"out n.put{step // 2 % 2}"]
        else:
            lines += [f"in n.ack{number}", "out u.done"]
    return "\n".join(lines) + "\nend\n"


def guessing(width):
    """A skeleton in which each Go may be answered in so many ways."""
    lines = ["specification Guessing;", "channel C(A, B);", "  by A: Go;"]
    lines.append("  by B: " + " ".join(f"Left{number};" for number in range(width)))
    lines += ["module M systemactivity; ip P: C(B); end;", "body MB for M;"]
    lines += [f"  trans when P.Go begin output P.Left{number} end;" for number in range(width)]
    lines += ["end;", "modvar X: M;", "initialize begin init X with MB end;", "end.", ""]
    return "\n".join(lines)


def guessing_trace(events, width):
    """So many events of it, each answered in the last way."""
    return "trace 1\n" + f"in p.go\nout p.left{width - 1}\n" * (events // 2) + "end\n"


def endless():
    """A skeleton that has two silent firings at any time, and answers nothing."""
    return ECHO_HEAD + SILENT * 2 + ECHO_TAIL


def pascal(size, seed):
    """A Pascal program of about `size` bytes, for a compiler to compare with."""
    draw = random.Random(seed)
    head = "program large;\nvar s, t: integer;\n"
    tail = "begin\nend.\n"
    parts = [head]
    length = len(head) + len(tail)
    number = 0
    while True:
        number += 1
        lines = [f"procedure p{number};\nbegin\n"]
        for _ in range(40):
            lines.append(f"  if s = {draw.randint(0, 63)} then begin t := {draw.randint(0, 63)} end;\n")
        lines.append("end;\n")
        text = "".join(lines)
        if length + len(text) > size:
            break
        parts.append(text)
        length += len(text)
    parts.append(tail)
    return "".join(parts)


if __name__ == "__main__":
    sys.stdout.write(globals()[sys.argv[1]](*map(int, sys.argv[2:])))
