"""Draws calls of `ports`: the lists of random walks, spoiled now and then."""

import dataclasses
import re
import subprocess

from .answers import system_of
from .comparing import SECONDS, Call, limits_of
from .port_lists import lists_of, merge_count, written_lists
from .port_runs import ported, wrong
from .walking import TOKEN, VariedWriter, Walker
from .world import World

# The most events and merges of a call, and the most tries of its budget: each merge is looked at.
MOST_EVENTS, MOST_MERGES, MOST_TRIES = 12, 300, 300


@dataclasses.dataclass
class PortsCall(Call):
    """A call of `ports`, of which several answers may be right, and a replay of the two parts of its report."""

    def own_texts(self):
        return [text.encode("latin-1") for text in self.texts.values()]

    def answer(self):
        return ported(*self.own_texts(), *self.limits)

    def said(self, program, folder):
        """What the program says, where what it says of the parts of its report is right, and else that."""
        said = super().said(program, folder)
        trace, mark, explanation = said[1].partition("explanation 1\n")
        if not mark:
            return said
        (folder / "b.trace").write_bytes(trace.encode("latin-1"))
        (folder / "b.explanation").write_bytes((mark + explanation).encode("latin-1"))
        words = ["replay", folder / "a.est", folder / "b.trace", folder / "b.explanation"]
        words += [str(self.limits[0]), str(self.limits[2])]
        run = subprocess.run([program, *words], capture_output=True, timeout=SECONDS)
        replayed = run.returncode, run.stdout.decode("latin-1")
        return said if replayed == (0, confirmed(trace, explanation)) else replayed

    def agrees(self, said, want):
        return wrong(said, *self.own_texts(), *self.limits) is None


def confirmed(trace, explanation):
    """What a replay of the parts of a report is to say, by its claim."""
    total, claim = trace.count("\n") - 3, int(re.search(r"yields (\d+)$", explanation)[1])
    return f"confirmed: {'all' if claim > total else f'first {claim} of'} {total} events\n"


def events_of(draw, walker):
    """The events of a walk, whose end may be cut off or spoiled."""
    events, _ = walker.walk(draw.choice([3, 6, 10, 20]))
    events = events[: draw.randint(0, MOST_EVENTS)]
    return walker.spoiled_events(events) if draw.random() < 0.5 else events


def text_of(draw, walker, lists):
    """A text of the lists, in which a token may be spoiled."""
    text = written_lists(walker.system, lists, VariedWriter(draw))
    if draw.random() < 0.8:
        return text
    tokens = TOKEN.findall(text)
    walker.spoil(tokens)
    return " ".join(tokens) + "\n"


def port_calls(draw, text):
    """Some calls for a specification."""
    limits = limits_of(draw)
    limits[1] = min(limits[1], MOST_TRIES)
    walker = Walker(draw, World(system_of(text.encode("latin-1")), 10000))
    for _ in range(4):
        lists = lists_of(walker.system, events_of(draw, walker))
        if merge_count(lists) <= MOST_MERGES:
            texts = {"specification": text, "trace": text_of(draw, walker, lists)}
            yield PortsCall("ports", texts, limits)
