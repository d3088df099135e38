"""Draws calls of `watch`: the events of random walks in lines, spoiled now and then."""

import dataclasses
import subprocess

from .answers import system_of
from .comparing import SECONDS, Call, limits_of, told_as
from .texts import written_event
from .values import WRITER
from .walking import TOKEN, VariedWriter, Walker
from .watch_lines import watched, wrong_watch
from .world import World

# What may stand between lines, behind one, and at the end of a text.
BETWEEN = ["", "", "\n", " \t\n", "{ a . } (* b *)\r\n", "(* never closed\n", "$\n", "end\n", "trace 1\n"]
BEHIND = ["\n"] * 12 + ["\r\n", " \n", " { c }\n", " {\n", " }\n", "(*x*)\n"]
ENDS = ["end\n"] * 6 + ["end", " END \r\n", "end { x }\nin $ {", "end end\n", "end quiet\n", "", "\n", "in\n"]
BEGINS = ["trace 1"] * 12 + ["TRACE 01", "trace 2", "trace 3", "trace", "trace 1 end", "ports 1", "trace 1 {x}", ""]


@dataclasses.dataclass
class WatchCall(Call):
    """A call of `watch`, of which several answers may be right. Its trace comes from standard input."""

    def own_texts(self):
        return [text.encode("latin-1") for text in self.texts.values()]

    def answer(self):
        return watched(*self.own_texts(), *self.limits)

    def said(self, program, folder):
        specification, text = self.own_texts()
        (folder / "a.est").write_bytes(specification)
        words = [program, "watch", folder / "a.est", *map(str, self.limits)]
        try:
            run = subprocess.run(words, input=text, capture_output=True, timeout=SECONDS)
        except subprocess.TimeoutExpired:
            return None, "out of time"
        return run.returncode, run.stdout.decode("latin-1")

    def agrees(self, said, want):
        return said[0] is not None and wrong_watch(said, *self.own_texts(), *self.limits) is None

    def told(self, want):
        return told_as((want[0], want[1].splitlines()[-1]))

    def words(self, number):
        return " ".join(["watch", f"{number}.est", *map(str, self.limits), "<", f"{number}.trace"])


def spoiled(draw, walker, line):
    """The line, in which a token may be spoiled."""
    if not line or draw.random() < 0.97:
        return line
    tokens = TOKEN.findall(line)
    walker.spoil(tokens)
    return " ".join(tokens)


def text_of(draw, walker, events):
    """A text of these events: some in one line, some after others."""
    writer = VariedWriter(draw) if draw.random() < 0.5 else WRITER
    lines, line = [], draw.choice(BEGINS) if draw.random() < 0.15 else "trace 1"
    for event in events:
        if draw.random() < 0.8:
            lines.append(line)
            line = ""
        line += " " * bool(line) + written_event(walker.system, event, writer)
    lines.append(line)
    is_varied = draw.random() < 0.3
    text = draw.choice(BETWEEN[:5]) if is_varied else ""
    for line in lines:
        text += spoiled(draw, walker, line) + (draw.choice(BEHIND) if is_varied else "\n")
        text += draw.choice(BETWEEN) if is_varied and draw.random() < 0.1 else ""
    return text + draw.choice(ENDS if draw.random() < 0.4 else ENDS[:1])


def watch_calls(draw, text):
    """Some calls for a specification."""
    limits = limits_of(draw)
    walker = Walker(draw, World(system_of(text.encode("latin-1")), 10000))
    for _ in range(4):
        events, _ = walker.walk(draw.choice([3, 6, 10, 20, 60]))
        if draw.random() < 0.5:
            events = events[: draw.randint(0, 12)]
        for _ in range(draw.choice([0, 1, 1, 2, 3])):
            events = walker.spoiled_events(events)
        yield WatchCall("watch", {"specification": text, "trace": text_of(draw, walker, events)}, limits)
