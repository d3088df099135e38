#!/usr/bin/env python3
"""Counts the tries of a walk along one trace for each port, in several orders of its moves, and prints a table.

The lists are cut out of the traces of examples/, each event to its port, and walked by the interpreter of tests/, which is
independent of the program: the counts are of the walk alone, on any machine the same. A walk that tries more than --most
moves is broken off. --front N takes the first N events of each trace.
"""

import argparse
import pathlib
import sys

TOP = pathlib.Path(__file__).resolve().parent.parent
sys.dont_write_bytecode = True
sys.path.insert(0, str(TOP / "tests"))

from runs_interpreter.answers import STATEMENTS, system_of
from runs_interpreter.port_lists import lists_of
from runs_interpreter.port_runs import Place, used
from runs_interpreter.texts import TraceReader
from runs_interpreter.values import Fault, Limit
from runs_interpreter.world import IN, OUT, World, passing

SILENT = 8


class Walk:
    """A depth-first walk, which ends at the first run that uses all up."""

    def __init__(self, world, most):
        self.world, self.most, self.tried = world, most, 0

    def take(self, place, events):
        self.tried += 1
        situation = self.world.happen(place.situation, events[0])
        return Place(situation, used(place.now, events[:1]), place.later, place.times, 0)

    def taken(self, place):
        """The places after each arrival that is next, one after another, and after a time that ends the phase."""
        for events in place.now:
            if events and events[0].kind == IN:
                yield self.take(place, events)
        if place.times and not any(place.now):
            self.tried += 1
            situation = self.world.happen(place.situation, passing(place.times[0]))
            yield Place(situation, place.later[0], place.later[1:], place.times[1:], 0)

    def fired(self, place, wanted=lambda sent: True):
        """The places after each firing, of those that send what is wanted."""
        for firing in self.world.options(place.situation):
            try:
                situation, sent = self.world.fire(place.situation, firing)
            except (Fault, Limit):
                self.tried += 1
                continue
            if not wanted(sent):
                continue
            self.tried += 1
            now, silent = used(place.now, sent), 0 if sent else place.silent + 1
            if now is not None and silent <= SILENT:
                yield Place(situation, now, place.later, place.times, silent)

    def takes_first(self, place):
        yield from self.taken(place)
        yield from self.fired(place)

    def firings_first(self, place):
        yield from self.fired(place)
        yield from self.taken(place)

    def sending_first(self, place):
        """Firings that send something, arrivals, silent firings: what a firing sends is known before it is tried."""
        yield from self.fired(place, bool)
        yield from self.taken(place)
        yield from self.fired(place, lambda sent: not sent)

    def awaited_first(self, place):
        """Firings whose outputs are the next ones of their ports, arrivals, the others: known before they are tried."""

        def is_next(sent):
            return bool(sent) and used(place.now, sent) is not None

        yield from self.fired(place, is_next)
        yield from self.taken(place)
        yield from self.fired(place, lambda sent: not is_next(sent))

    def firings_where_awaited(self, place):
        """Firings first where an output is the next event of some port, and else arrivals first."""
        is_awaited = any(events and events[0].kind == OUT for events in place.now)
        yield from (self.firings_first if is_awaited else self.takes_first)(place)

    def found(self, order, lists):
        """The tries until all is used up: "over N" where there are more, "all N" where no run uses it up."""
        situation, sent = self.world.start()
        branches = [iter([Place(situation, used(lists.phases[0], sent), lists.phases[1:], lists.times, 0)])]
        while branches:
            place = next(branches[-1], None)
            if self.tried > self.most:
                return "-"
            if place is None:
                branches.pop()
            elif not any(place.now) and not place.times:
                return str(self.tried)
            else:
                branches.append(order(self, place))
        return f"all {self.tried}"


ORDERS = [Walk.takes_first, Walk.firings_first, Walk.firings_where_awaited, Walk.sending_first, Walk.awaited_first]


def main():
    words = argparse.ArgumentParser()
    words.add_argument("--most", type=int, default=100000)
    words.add_argument("--front", type=int)
    words.add_argument("names", nargs="*")
    words = words.parse_args()
    names = words.names or sorted(file.stem for file in (TOP / "examples").glob("*.trace"))
    print("| lists of | events | ports | " + " | ".join(order.__name__.replace("_", " ") for order in ORDERS) + " |")
    print("|---" * (len(ORDERS) + 3) + "|")
    for name in names:
        specification = name.removesuffix("_refused").removesuffix("_budget")
        system = system_of((TOP / "examples" / f"{specification}.est").read_bytes())
        events = TraceReader(system, (TOP / "examples" / f"{name}.trace").read_bytes()).trace().events
        events = events[: words.front]
        lists = lists_of(system, events)
        ports = len({event.port for event in events if event.port is not None})
        cells = [Walk(World(system, STATEMENTS), words.most).found(order, lists) for order in ORDERS]
        print(f"| `{name}` | {len(events)} | {ports} | " + " | ".join(cells) + " |", flush=True)


if __name__ == "__main__":
    main()
