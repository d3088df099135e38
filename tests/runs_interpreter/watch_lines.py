"""Texts that are watched: their lines, what is answered to each, and which answers are right."""

import dataclasses
import re

from .answers import BUDGET, LENGTHS, SILENT, STATEMENTS, checked, no_start, system_of
from .texts import MOST_EVENTS, TraceReader, line_column, tokens_of
from .values import Fault, Limit
from .watch_runs import IMPOSSIBLE, OVER_ACTION, OVER_FIRINGS, POSSIBLE, Runs
from .world import IN, OUT, TIME, World

STATUSES = {POSSIBLE: 0, IMPOSSIBLE: 1, OVER_FIRINGS: 5, OVER_ACTION: 5}


class RefusedLine(Exception):
    """The column at which a line is refused, and why."""


class LineReader(TraceReader):
    """Reads a line as a text of its own: closed, and where it is not the first one begun."""

    def __init__(self, system, line, is_first, room):
        self.begun = b"" if is_first else b"trace 1\n"
        super().__init__(system, self.begun + line + b"\nend")
        self.line, self.room = line, room

    def refuse(self, why="bad token"):
        at = self.next().at - len(self.begun)
        if at > len(self.line):
            at = tokens_of(self.line)[-1][1]
        raise RefusedLine(line_column(self.line, at)[1], why)

    def events(self):
        self.head("trace")
        found = []
        while not self.may("end"):
            if len(found) == self.room and self.is_next(IN, OUT, TIME):
                self.refuse("too many events")
            found.append(self.event())
        return self.whole(found)


def is_end(line):
    return [token.text for token, _ in tokens_of(line)] == ["end"]


@dataclasses.dataclass
class Answer:
    """A line of the report, and the status where it ends the call."""

    text: str
    status: int = None


class Watch:
    """Answers lines one after another. Of several answers that are right `chosen` takes one."""

    def __init__(self, world, silent, budget, chosen):
        self.world, self.budget, self.chosen = world, budget, chosen
        self.runs = Runs(world, silent)
        self.row, self.is_first = 0, True

    def answers(self, line):
        """The answers to a line without its line feed, up to one that ends the call."""
        self.row += 1
        if not tokens_of(line):
            return
        if not self.is_first and is_end(line):
            yield self.told(True, self.ended)
            return
        try:
            events = LineReader(self.world.system, line, self.is_first, MOST_EVENTS - len(self.runs.events)).events()
        except RefusedLine as refused:
            yield Answer("trace:{}:{}: {}".format(self.row, *refused.args), 3)
            return
        self.is_first = False
        for event in events:
            self.runs.give(event)
            yield self.told(False, self.given)

    def told(self, is_end, written):
        """The answer that is chosen of those that are right."""
        return self.chosen([written(own) for own in self.runs.right(is_end, self.budget)])

    def given(self, answer):
        number = len(self.runs.events)
        if answer == POSSIBLE:
            return Answer(f"possible {number}")
        text = f"refused at event {number}" if answer == IMPOSSIBLE else self.over(answer, number)
        return Answer(text, STATUSES[answer])

    def ended(self, answer):
        total = len(self.runs.events)
        text = {POSSIBLE: f"accepted: {total} events", IMPOSSIBLE: f"refused at the end after {total} events"}
        return Answer(text.get(answer) or self.over(answer, total + 1), STATUSES[answer])

    def over(self, answer, number):
        if answer == OVER_FIRINGS:
            return f"over budget: {self.budget} firings tried"
        return f"over budget: limit {self.world.limit} at event {number}"

    def without_end(self):
        return Answer(f"trace:{self.row + 1}:1: bad token", 3)


def begun(specification, silent, budget, statements, chosen):
    """A watch of a specification, or the status and the report where there is none."""
    if answer := checked(specification):
        return None, answer
    world = World(system_of(specification), statements)
    try:
        return Watch(world, silent, budget, chosen), None
    except (Fault, Limit) as cause:
        return None, no_start(cause, statements)


def each_answer(watch, more):
    """The answers to a text, of which each call of `more` gives bytes that follow, or none at its end."""
    line, taken = bytearray(), 0
    while piece := more():
        taken += len(piece)
        if taken > LENGTHS["trace"]:
            yield Answer("trace: too long", 6)
        if piece != b"\n":
            line += piece
            continue
        yield from watch.answers(bytes(line))
        line.clear()
    if line:
        yield from watch.answers(bytes(line))
    yield watch.without_end()


def until_end(answers):
    """The answers up to one that ends the call."""
    for answer in answers:
        yield answer
        if answer.status is not None:
            return


def pieces_of(text):
    """Calls that give a text: what stands between line feeds, and each line feed."""
    pieces = iter(re.findall(rb"[^\n]+|\n", text[: LENGTHS["trace"]]) + [text[LENGTHS["trace"] :]])
    return lambda: next(pieces, b"")


def watching(specification, more, silent=SILENT, budget=BUDGET, statements=STATEMENTS):
    """Each answer of `watch` with its status, as soon as it is there: of several that are right the first."""
    watch, only = begun(specification, silent, budget, statements, lambda answers: answers[0])
    if only:
        yield only[1], only[0]
        return
    for answer in until_end(each_answer(watch, more)):
        yield answer.text + "\n", answer.status


def watched(specification, text, silent=SILENT, budget=BUDGET, statements=STATEMENTS):
    """An answer of `watch` that is right: of several the first."""
    answers = list(watching(specification, pieces_of(text), silent, budget, statements))
    return answers[-1][1], "".join(text for text, _ in answers)


class Wrong(Exception):
    """What is said, and what would be right."""


def wrong_watch(said, specification, text, silent=SILENT, budget=BUDGET, statements=STATEMENTS):
    """Why an answer of `watch` is not right, or None where it is."""
    status, report = said
    lines = iter(report.splitlines(keepends=True))

    def chosen(answers):
        line = next(lines, "")
        for answer in answers:
            if line == answer.text + "\n":
                return answer
        raise Wrong(f"{line!r} for {' or '.join(repr(answer.text) for answer in answers)}")

    watch, only = begun(specification, silent, budget, statements, chosen)
    if only:
        return None if said == only else f"not {only}"
    try:
        for answer in until_end(each_answer(watch, pieces_of(text))):
            if answer.text.startswith("trace"):
                chosen([answer])
        if next(lines, None) is not None:
            raise Wrong("more lines")
        if answer.status != status:
            raise Wrong(f"status {status} for {answer.status}")
    except Wrong as why:
        return str(why)
    return None
