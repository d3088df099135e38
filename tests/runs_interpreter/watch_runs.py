"""What is right to answer of a trace while it is recorded: the runs that yield its events so far, and those behind them."""

import collections

from .search import OverFirings, Search, agrees
from .texts import Trace
from .values import Fault, Limit
from .world import OUT

ANSWERS = POSSIBLE, IMPOSSIBLE, OVER_FIRINGS, OVER_ACTION = "possible", "impossible", "over firings", "over action"
# The trials up to which all runs are kept, and those up to which one is searched for anew where there are more.
KEPT, SEARCHED = 5000, 30000

# A run that yields the events so far: its situation, what it sent beyond them, and its last silent firings.
Yielding = collections.namedtuple("Yielding", "situation beyond silent")


class Yielded(Exception):
    """A run yields all events."""


class Yields(Search):
    """A search that ends where a run yields all events, whatever it sends beyond them."""

    def note(self, count, moves):
        if count == len(self.trace.events):
            raise Yielded


class Runs:
    """All bounded runs along events that are given one by one, as long as they are few."""

    def __init__(self, world, silent):
        self.world, self.silent, self.events = world, silent, []
        # The firings after runs with fewer events than were given, and whether anything passed its limit there.
        self.size, self.is_passed = 0, False
        situation, sent = world.start()
        self.yielding = [Yielding(situation, tuple(sent), 0)]

    def are_kept(self):
        return self.size <= KEPT

    def give(self, event):
        self.events.append(event)
        waiting, found = self.yielding[::-1], []
        while waiting and self.are_kept():
            run = waiting.pop()
            longer = list(self.longer(run, event))
            waiting += [after for after in reversed(longer) if after.silent]
            found += [after for after in longer if not after.silent]
        self.yielding = found

    def longer(self, run, event):
        """The runs that come of one: those that yield the event, and those with one silent firing more."""
        if run.beyond:
            yield from self.agreed(run.situation, run.beyond, event)
            return
        if event.kind != OUT:
            yield Yielding(self.world.happen(run.situation, event), (), 0)
        try:
            options = self.world.options(run.situation)
        except Limit:
            self.is_passed = True
            return
        self.size += len(options)
        for firing in options:
            yield from self.fired(run, firing, event)

    def fired(self, run, firing, event):
        try:
            situation, sent = self.world.fire(run.situation, firing)
        except Fault:
            return
        except Limit:
            self.is_passed = True
            return
        if sent:
            yield from self.agreed(situation, tuple(sent), event)
        elif run.silent < self.silent:
            yield Yielding(situation, (), run.silent + 1)

    def agreed(self, situation, sent, event):
        if agrees(event, sent[0]):
            yield Yielding(situation, sent[1:], 0)

    # What is right.

    def right(self, is_end, budget):
        """The answers that are right to the last event, or at the end."""
        if self.are_kept():
            is_there = any(not (is_end and run.beyond) for run in self.yielding)
            size, is_passed = self.size, self.is_passed
        else:
            is_there, size, is_passed = self.searched(Search if is_end else Yields)
            if is_there is None and size <= budget:
                return ANSWERS
        if size > budget:
            return [OVER_FIRINGS] if is_there is False else [POSSIBLE, OVER_FIRINGS]
        if is_there:
            return [POSSIBLE] if self.are_kept() else [POSSIBLE, OVER_FIRINGS]
        return [OVER_ACTION if is_passed else IMPOSSIBLE]

    def searched(self, search):
        """Whether a run is there, or None where that is not known; how many trials there are at least, all where none is
        there; and whether anything passes its limit on these."""
        search = search(self.world, Trace(self.events, False), self.silent, SEARCHED)
        try:
            is_there = search.found(*self.world.start()) is not None
        except Yielded:
            is_there = True
        except OverFirings:
            is_there = None
        return is_there, max(search.tried, self.size if is_there else 0), bool(search.passed)
