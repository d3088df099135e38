"""One trace for each port: how their text is read and written, and the merges that they are the parts of."""

import collections
import itertools
import math

from .texts import MOST_EVENTS, TraceReader
from .values import MOST, WRITER
from .world import IN, OUT, TIME, Event, passing

# Phases in order, each with a list of events for each port, and the units that pass between them.
Lists = collections.namedtuple("Lists", "phases times")


class ListsReader(TraceReader):
    """Reads the lists of the ports of one specification."""

    def lists(self):
        self.head("ports")
        self.read, self.count = Lists([self.no_events()], []), 0
        while not self.may("end"):
            self.look_for(TIME)
            if self.must("port", TIME) == TIME:
                self.count += 1
                self.read.times.append(self.number(0, MOST))
                self.read.phases.append(self.no_events())
            else:
                self.port_part()
        return self.whole(self.read)

    def no_events(self):
        return [[] for _ in self.system.ports]

    def look_for(self, *kinds):
        """Refuses one event more than a text may have."""
        if self.count == MOST_EVENTS and self.is_next(*kinds):
            self.refuse("too many events")

    def port_part(self):
        """A port, and the events that are told of it there."""
        point, number = self.port()
        while True:
            self.look_for(IN, OUT)
            if not self.is_next(IN, OUT):
                return
            kind = self.must(IN, OUT)
            signal = self.signal(kind, point)
            kinds = [own for _, own in signal.params]
            values = self.values("(", kinds, ")") if kinds else ()
            self.count += 1
            self.read.phases[-1][number].append(Event(kind, number, signal.number, values))

    def port(self):
        """The interaction point of a port, and the number of the port."""
        token = self.next()
        points = {port.point.name: port.point for port in self.system.ports}
        if token.kind != "ident" or token.text not in points:
            self.refuse()
        self.place += 1
        point = points[token.text]
        subscripts = self.values("[", point.dims, "]") if point.dims else ()
        return point, self.system.port_numbers[point.name, subscripts]


def lists_of(system, events):
    """The lists of which a trace is a merge."""
    lists = Lists([[[] for _ in system.ports]], [])
    for event in events:
        if event.kind == TIME:
            lists.times.append(event.values)
            lists.phases.append([[] for _ in system.ports])
        else:
            lists.phases[-1][event.port].append(event)
    return lists


def written_port(system, number, writer=WRITER):
    port = system.ports[number]
    subscripts = ", ".join(map(writer.value, port.point.dims, port.subscripts))
    return f"port {port.point.name}" + (f"[{subscripts}]" if subscripts else "")


def written_item(system, event, writer=WRITER):
    """An event as a list has it: without its port."""
    signal = system.ports[event.port].point.channel.interactions[event.signal]
    values = ", ".join(writer.value(kind, value) for (_, kind), value in zip(signal.params, event.values))
    return f"{event.kind} {signal.name}" + (f"({values})" if values else "")


def written_lists(system, lists, writer=WRITER):
    lines = ["ports 1"]
    for number, phase in enumerate(lists.phases):
        if number:
            lines.append(f"time {lists.times[number - 1]}")
        for port, events in enumerate(phase):
            if events:
                lines.append(written_port(system, port, writer))
                lines += [written_item(system, event, writer) for event in events]
    return "\n".join([*lines, "end", ""])


# Merges.


def event_count(lists):
    return sum(len(events) for phase in lists.phases for events in phase) + len(lists.times)


def merge_count(lists):
    """How many merges there are."""
    found = 1
    for phase in lists.phases:
        total = 0
        for events in phase:
            total += len(events)
            found *= math.comb(total, len(events))
    return found


def interleavings(phase):
    """The orders of the events of a phase that keep the order of each port."""
    if not any(phase):
        yield []
    for at, events in enumerate(phase):
        if events:
            rest = [*phase[:at], events[1:], *phase[at + 1 :]]
            for later in interleavings(rest):
                yield [events[0], *later]


def merges(lists):
    """The events of each merge of the lists."""
    for chosen in itertools.product(*map(interleavings, lists.phases)):
        events = list(chosen[0])
        for units, phase in zip(lists.times, chosen[1:]):
            events += [passing(units), *phase]
        yield events


def is_merge(system, events, lists):
    return lists_of(system, events) == lists
