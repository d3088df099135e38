"""Searches along one trace for each port: how many moves are to be tried, and which answers are right."""

import collections
import dataclasses
import math
import re

from .answers import BUDGET, SILENT, STATEMENTS, checked, no_start, read, system_of
from .port_lists import ListsReader, event_count, is_merge, merges
from .search import Rejected, Replay, Search
from .texts import ExplanationReader, Refused, Trace, TraceReader, written_explanation, written_trace
from .values import Fault, Limit
from .world import IN, World, passing

# A place along the lists: the situation, what is left of the phase and after it, and the last silent firings.
Place = collections.namedtuple("Place", "situation now later times silent")


def used(phase, events):
    """What a phase has after these events, each the next one of its port, or None where one is not."""
    left = list(phase)
    for event in events:
        if left[event.port][:1] != [event]:
            return None
        left[event.port] = left[event.port][1:]
    return left


class PortRuns:
    """Walks the bounded port runs that follow the lists and do not use them up."""

    def __init__(self, world, silent):
        self.world, self.silent = world, silent

    def size(self, lists, most):
        """How many moves are defined after them, each counted once a run; one more than most where there are more."""
        situation, sent = self.world.start()
        now = used(lists.phases[0], sent)
        waiting = [] if now is None else [Place(situation, now, lists.phases[1:], lists.times, 0)]
        found = 0
        while waiting and found <= most:
            place = waiting.pop()
            if any(place.now) or place.times:
                longer = [*self.taken(place), *self.passed(place), *self.fired(place)]
                found += len(longer)
                waiting += [after for after in longer if after]
        return min(found, most + 1)

    def taken(self, place):
        """The places after each arrival that is the next event of its port."""
        for events in place.now:
            if events and events[0].kind == IN:
                situation = self.world.happen(place.situation, events[0])
                yield Place(situation, used(place.now, events[:1]), place.later, place.times, 0)

    def passed(self, place):
        """The place after the time that ends the phase, where the phase is used up."""
        if place.times and not any(place.now):
            situation = self.world.happen(place.situation, passing(place.times[0]))
            yield Place(situation, place.later[0], place.later[1:], place.times[1:], 0)

    def fired(self, place):
        """For each firing that is possible the place after it, or None where it leads to none."""
        try:
            options = self.world.options(place.situation)
        except Limit:
            return
        for firing in options:
            yield self.after(place, firing)

    def after(self, place, firing):
        try:
            situation, sent = self.world.fire(place.situation, firing)
        except (Fault, Limit):
            return None
        now, silent = used(place.now, sent), 0 if sent else place.silent + 1
        if now is None or silent > self.silent:
            return None
        return Place(situation, now, place.later, place.times, silent)


@dataclasses.dataclass
class Judged:
    """What holds of all merges: a run that explains one, the most that is yielded, and what passes a limit."""

    explaining: tuple = None  # the events of a merge, and moves
    most: tuple = None  # a number, the events of a merge, and moves
    passed: tuple = None  # the events of a merge, moves, how many events they have, and a firing or None


def judged(world, lists, silent):
    """Looks at each merge by itself, with the search of `explain`."""
    found = Judged()
    for events in merges(lists):
        search = Search(world, Trace(events, False), silent, math.inf)
        moves = search.found(*world.start())
        if moves is not None:
            found.explaining = events, moves
            return found
        if not found.most or search.most > found.most[0]:
            found.most = search.most, events, search.best
        if search.passed and not found.passed:
            found.passed = (events, *search.passed)
    return found


# Answers. Of several that are right the first one is told.


def begun(specification, text, statements):
    """The world and the lists of a call, or the report that there is none."""
    if answer := checked(specification):
        return None, answer
    system = system_of(specification)
    lists, answer = read(lambda text: ListsReader(system, text).lists(), "trace", text)
    if answer:
        return None, answer
    world = World(system, statements)
    try:
        world.start()
    except (Fault, Limit) as cause:
        return None, no_start(cause, statements)
    return (world, lists), None


def ported(specification, text, silent=SILENT, budget=BUDGET, statements=STATEMENTS):
    """An answer of `ports` that is right."""
    given, answer = begun(specification, text, statements)
    if answer:
        return answer
    world, lists = given
    if PortRuns(world, silent).size(lists, budget) > budget:
        return over_tries(budget)
    found, total = judged(world, lists, silent), event_count(lists)
    if found.explaining:
        events, moves = found.explaining
        return 0, told(world, f"accepted: {total} events", events, moves, total + 1)
    if found.passed:
        events, moves, count, firing = found.passed
        what = "firing {} {} {}".format(*firing) if firing else "a guard"
        first = f"over budget: {what} passed the limit {statements} after these moves"
        return 5, told(world, first, events, moves, count)
    most, events, moves = found.most
    return 1, told(world, f"refused: {most} of {total} events", events, moves, most)


def over_tries(budget):
    return 5, f"{{ over budget: {budget} tries }}\n"


def told(world, first, events, moves, claim):
    return f"{{ {first} }}\n" + written_trace(world.system, events) + written_explanation(moves, claim)


# Which answers are right.


class Wrong(Exception):
    """Why an answer is not right."""


def wrong(answer, specification, text, silent=SILENT, budget=BUDGET, statements=STATEMENTS):
    """Why an answer of `ports` is not right, or None where it is."""
    given, only = begun(specification, text, statements)
    if only:
        return None if answer == only else f"not {only}"
    try:
        Answer(*given, silent, budget).look_at(*answer)
    except Wrong as why:
        return str(why)
    return None


class Answer:
    """Looks whether an answer is right."""

    def __init__(self, world, lists, silent, budget):
        self.world, self.lists, self.silent, self.budget = world, lists, silent, budget
        self.total = event_count(lists)

    def must(self, holds, why):
        if not holds:
            raise Wrong(why)

    def is_over(self):
        return PortRuns(self.world, self.silent).size(self.lists, self.budget) > self.budget

    def look_at(self, status, report):
        if (status, report) == over_tries(self.budget):
            self.must(self.is_over(), "the tries are within the budget")
            return
        first, events, moves, claim = self.parts(report)
        self.must(is_merge(self.world.system, events, self.lists), "no merge")
        if first == f"accepted: {self.total} events":
            self.must(status == 0 and claim == self.total + 1, "another status or claim")
            self.confirm(events, moves, claim)
            return
        self.must(not self.is_over(), "more tries than the budget")
        found = judged(self.world, self.lists, self.silent)
        self.must(not found.explaining, "a run explains a merge")
        if passed := self.passed(first):
            self.must(status == 5, "another status")
            self.look_at_limit(events, moves, claim, passed)
        else:
            self.must(status == 1 and not found.passed, "another status, or something passes its limit")
            self.must(first == f"refused: {claim} of {self.total} events", "another first line")
            self.must(claim == found.most[0], f"the most is {found.most[0]}")
            self.confirm(events, moves, claim)

    def parts(self, report):
        """The first line, the events of the merge, the moves and the claim of a report in its one text."""
        first, _, rest = report.partition("\n")
        trace, mark, rest = rest.partition("explanation 1\n")
        try:
            events = TraceReader(self.world.system, trace.encode("latin-1")).trace().events
            moves, claim = ExplanationReader((mark + rest).encode("latin-1")).explanation()
        except Refused as refused:
            raise Wrong(f"a part of the report: {refused}") from None
        first = first.removeprefix("{ ").removesuffix(" }")
        self.must(report == told(self.world, first, events, moves, claim), "not as reports are written")
        return first, events, moves, claim

    def confirm(self, events, moves, claim):
        try:
            Replay(self.world, Trace(events, False), self.silent, moves, claim).confirm()
        except Rejected as rejected:
            raise Wrong(f"rejected at move {rejected}") from None

    def passed(self, first):
        """What passes its limit by the first line: a firing, or ()."""
        limit = f" passed the limit {self.world.limit} after these moves"
        match = re.fullmatch(r"over budget: (a guard|firing (\d+) (\d+) (\d+))" + limit, first)
        return match and (tuple(map(int, match.groups()[1:])) if match[2] else ("guard",))

    def look_at_limit(self, events, moves, claim, passed):
        """After the moves, which follow the merge, the firing is possible and its block passes its limit."""
        replay = Replay(self.world, Trace(events, False), self.silent, moves, self.total + 1)
        try:
            situation = replay.moved()
        except Rejected as rejected:
            raise Wrong(f"rejected at move {rejected}") from None
        self.must(replay.count == claim, "another claim")
        try:
            options = self.world.options(situation)
        except Limit:
            self.must(passed == ("guard",), "a guard passes its limit")
            return
        self.must(passed in options, "not possible")
        try:
            self.world.fire(situation, options[options.index(passed)])
        except Limit:
            return
        except Fault:
            pass
        raise Wrong("no limit is passed")
