"""Draws calls of `explain` and `replay`, and makes those smaller in which the program says something else."""

import collections
import dataclasses
import re
import subprocess

from rules_checker.growing import grown
from rules_checker.skeletons import skeletons

from .answers import Unknown, checked, explained, replayed, system_of
from .drafting import drafted
from .texts import written_explanation, written_trace
from .themes import themed
from .values import Fault, Limit
from .walking import Walker
from .world import World

NAMES = {"specification": "est", "trace": "trace", "explanation": "explanation"}
SECONDS = 60


@dataclasses.dataclass
class Call:
    """A call: its command, its texts, and its limits."""

    command: str
    texts: dict
    limits: list

    def answer(self):
        """What the program is to say: its status and its report."""
        texts = [text.encode("latin-1") for text in self.texts.values()]
        return (explained if self.command == "explain" else replayed)(*texts, *self.limits)

    def said(self, program, folder):
        """What the program says."""
        words = [program, self.command]
        for name, text in self.texts.items():
            file = folder / f"a.{NAMES[name]}"
            file.write_bytes(text.encode("latin-1"))
            words.append(file)
        try:
            run = subprocess.run([*words, *map(str, self.limits)], capture_output=True, timeout=SECONDS)
        except subprocess.TimeoutExpired:
            return None, "out of time"
        return run.returncode, run.stdout.decode("latin-1")

    def agrees(self, said, want):
        """Whether what the program says is what it is to say."""
        return said == want

    def told(self, want):
        """What is counted of an answer."""
        return told_as(want)

    def differs(self, program, folder):
        """What the program says and what it is to say, where these differ."""
        said, want = self.said(program, folder), self.answer()
        return None if self.agrees(said, want) else (said, want)

    def with_text(self, name, text):
        return dataclasses.replace(self, texts={**self.texts, name: text})

    def words(self, number):
        files = [f"{number}.{NAMES[name]}" for name in self.texts]
        return " ".join([self.command, *files, *map(str, self.limits)])


def limits_of(draw):
    """The limits of a search, small enough that it ends."""
    silent = draw.choice([0, 1, 1, 2, 2, 3, 8])
    budget = draw.choice([0, 1, 5, 30, 200, 200, 200, 200])
    return [silent, budget, draw.choice([20, 100, 500, 500, 10000])]


def specification(draw):
    """The text of a specification that breaks no rule."""
    while True:
        lot = draw.random()
        if lot < 0.55:
            text = themed(draw)
        elif lot < 0.92:
            text = drafted(draw)
        elif lot < 0.95:
            text = "\n".join(grown(draw))
        else:
            text = "\n".join(skeletons(draw, 1)[0])
        if is_good(text) and (does_start(text) or draw.random() < 0.1):
            return text


def is_good(text):
    """Whether the text breaks no rule."""
    try:
        return not checked(text.encode("latin-1"))
    except Unknown:
        return False


def does_start(text):
    try:
        World(system_of(text.encode("latin-1")), 500).start()
    except (Fault, Limit):
        return False
    return True


class Calls:
    """Draws calls for a specification, by random walks."""

    def __init__(self, draw, text):
        self.draw, self.text, self.limits = draw, text, limits_of(draw)
        self.walker = Walker(draw, World(system_of(text.encode("latin-1")), 10000))

    def drawn(self):
        """Some calls for one walk."""
        events, moves = self.walker.walk(self.draw.choice([4, 10, 25, 60, 100]))
        if self.draw.random() < 0.3:
            self.limits[2] = max(1, self.walker.world.most - self.draw.choice([0, 0, 1]))
        claim = len(events) + 1
        yield self.replay(self.walker.seen(events), moves, claim)
        yield from self.searches(events)
        for _ in range(2):
            yield self.replay(events, self.walker.probed(), 0)
        yield self.refused(events)
        if self.draw.random() < 0.5:
            yield self.spoiled(events, moves)

    def replay(self, events, moves, claim, limits=None):
        trace = written_trace(self.walker.system, events, is_quiet=self.walker.is_quiet())
        texts = {"specification": self.text, "trace": trace}
        texts["explanation"] = written_explanation(moves, claim)
        return Call("replay", texts, [1000, self.limits[2]] if limits is None else limits)

    def searches(self, events):
        """A search for the run of a walk, whose end may be cut off or spoiled, and a replay of the report."""
        if self.draw.random() < 0.6:
            events = events[: self.draw.randint(0, 12)]
        if self.draw.random() < 0.5:
            events = self.walker.spoiled_events(events)
        texts = {"specification": self.text, "trace": self.walker.trace(self.walker.seen(events))}
        search = Call("explain", texts, self.limits)
        yield search
        if self.draw.random() < 0.3:
            texts = {**search.texts, "explanation": search.answer()[1]}
            yield Call("replay", texts, [self.limits[0], self.limits[2]])

    def refused(self, events):
        """A replay of no moves, of a trace in which a token is spoiled."""
        at = self.draw.randint(0, len(events))
        events = self.walker.seen(events[at : at + 3])
        texts = {"specification": self.text, "trace": self.walker.spoiled_text(events)}
        return Call("replay", {**texts, "explanation": written_explanation([], 0)}, [])

    def spoiled(self, events, moves):
        """A replay in which the events, the moves, the claim or the texts are spoiled."""
        draw, walker = self.draw, self.walker
        claim = walker.claim(events) if draw.random() < 0.5 else len(events) + 1
        events = walker.spoiled_events(events) if draw.random() < 0.3 else events
        moves = walker.spoiled_moves(moves) if draw.random() < 0.5 else moves
        texts = {"specification": self.text, "trace": walker.trace(walker.seen(events))}
        texts["explanation"] = walker.explanation(moves, claim)
        return Call("replay", texts, draw.choice([[], [self.limits[0], self.limits[2]]]))


def calls(draw, text):
    """Some calls for a specification."""
    for _ in range(2):
        yield from Calls(draw, text).drawn()


def told_as(answer):
    """What is counted of an answer."""
    status, report = answer
    first = re.sub(r"\d+", "N", report.split("\n")[0])
    if found := re.search(r"^(accepted|over budget): \d+", report, re.MULTILINE):
        first += f", {found[1]}"
    fault = re.search(r"\{ fault (.*) in ", report)
    return f"{status} {first}" + (f" with fault {fault[1]}" if fault else "")


class Comparison:
    """Compares a program with the interpreter, and keeps the calls that differ."""

    def __init__(self, program, folder):
        self.program, self.folder = program, folder
        self.told, self.count, self.differing = collections.Counter(), 0, 0

    def compare(self, call):
        self.count += 1
        try:
            want = call.answer()
        except RecursionError:
            self.told["too deep for the interpreter"] += 1
            return
        self.told[call.told(want)] += 1
        if not call.agrees(call.said(self.program, self.folder), want):
            self.keep(call)

    def keep(self, call):
        if self.differing < 20:
            call = self.smaller(call)
        self.differing += 1
        said, want = call.differs(self.program, self.folder)
        for name, text in call.texts.items():
            (self.folder / f"{self.count}.{NAMES[name]}").write_bytes(text.encode("latin-1"))
        print(f"{self.folder}: {call.words(self.count)}: {said} for {want}", flush=True)

    def is_kept(self, call):
        """Whether a smaller call still differs."""
        return is_good(call.texts["specification"]) and bool(call.differs(self.program, self.folder))

    def smaller(self, call):
        for name in ("explanation", "trace", "specification"):
            if name in call.texts:
                call = self.with_fewer(call, name)
        return call

    def with_fewer(self, call, name):
        """The call with as few words in one of its texts as it differs with."""
        parts = re.findall(r"\S+\s*", call.texts[name])
        size = len(parts) // 2
        while size:
            at = 0
            while at < len(parts):
                fewer = parts[:at] + parts[at + size :]
                smaller = call.with_text(name, "".join(fewer))
                if self.is_kept(smaller):
                    parts, call = fewer, smaller
                else:
                    at += size
            size //= 2
        return call
