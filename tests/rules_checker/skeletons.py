"""Draws skeletons, small specifications of one module, in which some names are others than they should be."""

from .tokens import WORDS

POOL = "a b c d e f g h i j k integer true".split()


def names(draw, count):
    """Names that differ mostly."""
    return draw.sample(POOL[:-2], count) if draw.random() < 0.9 else draw.choices(POOL, k=count)


def channel(draw, name, roles, signals):
    """A channel, of which each role sends some interactions."""
    half = draw.randrange(1, len(signals))
    first, second = " ; ".join(signals[:half]), " ; ".join(signals[half:])
    return f"channel {name} ( {roles[0]} , {roles[1]} ) ; by {roles[0]} : {first} ; by {roles[1]} : {second} ;", half


def transition(draw, points, signals, half, states):
    """A transition that awaits what the second role sends, and sends what the first does."""
    words = ["trans"]
    if states and draw.random() < 0.7:
        words += ["from", " , ".join(draw.sample(states, draw.randrange(1, len(states) + 1)))]
    if states and draw.random() < 0.7:
        words += ["to", draw.choice([*states, "same"])]
    if draw.random() < 0.7:
        words += ["when", draw.choice(points), ".", draw.choice(signals[half:])]
    sent = [f"{draw.choice(points)} . {draw.choice(signals[:half])}" for _ in range(draw.randrange(3))]
    return " ".join([*words, "begin", f"output {' , '.join(sent)}" if sent else "", "end ;"])


def skeleton(draw):
    """The parts of a skeleton."""
    name, header, body, variable = names(draw, 4)
    inner, own, some = names(draw, draw.randrange(4, 7)), names(draw, draw.randrange(2, 6)), draw.randrange(1, 4)
    roles, signals, points, states = inner[:2], inner[2:], own[:some], own[some:]
    text, half = channel(draw, name, roles, signals)
    first = f"initialize to {states[0]} begin end ;" if states and draw.random() < 0.9 else ""
    return [
        "specification s ;",
        *([channel(draw, draw.choice(POOL), names(draw, 2), names(draw, 2))[0]] if draw.random() < 0.3 else []),
        text,
        f"module {header} systemactivity ; ip {' , '.join(points)} : {name} ( {roles[0]} ) ; end ;",
        f"body {body} for {header} ; {'state ' + ' , '.join(states) + ' ;' if states else ''} {first}",
        *(transition(draw, points, signals, half, states) for _ in range(draw.randrange(4))),
        "end ;",
        f"modvar {variable} : {header} ;",
        f"initialize begin init {variable} with {body} end ; end .",
    ]


def with_other_names(draw, parts):
    """The same with a name or two of the pool in the place of others."""
    tokens = [part.split() for part in parts]
    used = [(i, j) for i, part in enumerate(tokens) for j, token in enumerate(part) if token[0].isalpha() and token not in WORDS]
    for i, j in draw.sample(used[1:], draw.randrange(3)):
        tokens[i][j] = draw.choice(POOL)
    return [" ".join(part) for part in tokens]


def skeletons(draw, count):
    return [with_other_names(draw, skeleton(draw)) for _ in range(count)]
