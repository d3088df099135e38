"""Draws calls of `selfrun`, and of what writes the made traces."""

import dataclasses
import functools
import re

from rules_checker.growing import grown, mutated

from .answers import BUDGET, Unknown, checked, explained, made, self_run
from .comparing import Call
from .search import OverFirings
from .texts import written_trace

# How many firings the interpreter tries before it gives up, and how many statements it enters while it makes a trace,
# before one of fewer events is asked for.
FIRINGS, STATEMENTS = 300, 3000
SEEDS = [0, 1, 2, 42, 2**31, 2**32, 2**63, 2**64 - 1]
# What is known of a report where the interpreter gave up: its first line, and then one of these.
EITHER = rf"accepted: \d+ moves\n|over budget: {BUDGET} firings tried\n"


@functools.lru_cache(20)
def self_run_of(text, seed, count):
    """The answer of `selfrun`, with None as its status where only its first line is known."""
    try:
        return self_run(text, seed, count, FIRINGS)
    except OverFirings as over:
        return None, over.args[0]


@functools.lru_cache(20)
def made_of(text, seed, count):
    return made(text, seed, count)


@dataclasses.dataclass
class SelfRun(Call):
    """A trace is made, and explained."""

    def given(self):
        return self.texts["specification"].encode("latin-1"), *map(int, self.limits)

    def answer(self):
        return self_run_of(*self.given())

    def agrees(self, said, want):
        if want[0] is not None:
            return said == want
        is_told = said[1].startswith(want[1]) and re.fullmatch(EITHER, said[1][len(want[1]) :])
        return bool(is_told) and said[0] == (0 if "accepted" in said[1] else 5)

    def is_made_soon(self):
        """Whether the interpreter enters few statements while it makes the trace."""
        maker, _ = made_of(*self.given())
        return maker is None or maker.world.entered <= STATEMENTS

    def is_soon(self):
        """Whether the interpreter also finds how the trace comes about."""
        return self.is_made_soon() and self.answer()[0] is not None


@dataclasses.dataclass
class Making(SelfRun):
    """A trace is made, and its text written."""

    def answer(self):
        maker, answer = made_of(*self.given())
        return answer or (0, written_trace(maker.world.system, maker.events))

    def agrees(self, said, want):
        return said == want


@dataclasses.dataclass
class Explaining(Call):
    """The text of a trace that was made is explained."""

    def answer(self):
        """The answer of `explain`, with None as its status where the interpreter gives up."""
        texts = [text.encode("latin-1") for text in self.texts.values()]
        status, report = explained(*texts, budget=FIRINGS)
        return (None, "") if status == 5 and report.endswith("firings tried }\n") else (status, report)

    def agrees(self, said, want):
        if want[0] is not None:
            return said == want
        is_accepted = said[0] == 0 and said[1].startswith("{ accepted: ")
        return is_accepted or said == (5, f"{{ over budget: {BUDGET} firings tried }}\n")


def broken(draw):
    """The text of a sentence that breaks a rule, mostly."""
    while True:
        text = "\n".join(mutated(draw, grown(draw)))
        try:
            checked(text.encode("latin-1"))
            return text
        except Unknown:
            continue


def seed_of(draw):
    return draw.choice([*SEEDS, *(draw.getrandbits(bits) for bits in (8, 16, 32, 33, 60, 64, 64, 64))])


def count_of(draw):
    if draw.random() < 0.01:
        return draw.randint(100, 1000)
    return draw.choice([0, 1, 2, 3, 5, 8, 12, 20, 30, 40, 60])


def spelled(draw, number):
    """A number, now and then with zeros in front."""
    zeros = draw.randint(0, 20 - len(str(number))) if draw.random() < 0.1 else 0
    return "0" * zeros + str(number)


def self_run_for(draw, text):
    """A call, mostly with so few events that the interpreter does not take long."""
    most, is_any = count_of(draw), draw.random() < 0.05
    call = SelfRun("selfrun", {"specification": text}, [seed_of(draw), 0])
    for count in [*(each for each in (8, 64) if each < most), most]:
        longer = dataclasses.replace(call, limits=[call.limits[0], count])
        if not (longer.is_made_soon() if is_any else longer.is_soon()):
            break
        call = longer
    return dataclasses.replace(call, limits=[spelled(draw, number) for number in call.limits])


def self_runs(draw, text):
    """Some calls for a specification."""
    for _ in range(10):
        yield self_run_for(draw, text)


def with_traces(call):
    """A call of `selfrun`, one that writes the trace of the same words, and one that explains it."""
    yield call
    making = Making("trace", call.texts, call.limits)
    yield making
    status, text = making.answer()
    if status == 0:
        yield Explaining("explain", {**call.texts, "trace": text}, [])
