"""The start, the firings that are possible, and what each move makes of a situation."""

import collections
import contextlib

from . import links
from .frames import Frame, Run
from .situations import Situation
from .values import Fault, Limit

Firing = collections.namedtuple("Firing", "instance transition choice")
# A choice that is offered: the firing, whether it is due, and its priority.
Offer = collections.namedtuple("Offer", "firing is_due priority")
# What leaves or arrives: its kind, the numbers of the port and of the interaction, and the values.
Event = collections.namedtuple("Event", "kind port signal values")
IN, OUT, TIME = "in", "out", "time"


def passing(units):
    return Event(TIME, None, None, units)


class World:
    """Runs one specification, with a limit on statements."""

    def __init__(self, system, limit):
        self.system, self.limit = system, limit
        # The most statements that a start or a block has entered, and how many were entered in all.
        self.most = self.entered = 0

    def start(self):
        """The first situation, and what was sent."""
        run = Run(Situation(), self.limit)
        with self.counted(run):
            self.system.start(run, Frame(0))
        self.restamp(run.situation, {}, None)
        return run.situation, self.events(run)

    @contextlib.contextmanager
    def counted(self, run):
        """Counts the statements that a start or a block enters."""
        try:
            yield
        finally:
            self.entered += run.count
        self.most = max(self.most, run.count)

    def events(self, run):
        """What was sent out of the system."""
        return [
            Event(OUT, self.system.port_numbers[at[1:]], interaction.number, values)
            for at, interaction, values in run.sent
        ]

    # Guards.

    def guard(self, situation, frame, part):
        """The value of a guard part, or None where it faults. Each has the limit for itself."""
        run = Run(situation, self.limit)
        try:
            return part(run, frame)
        except Fault:
            return None
        finally:
            self.entered += run.count

    def subscripts(self, situation, frame, when):
        """The subscripts of a `when`: all are evaluated, and None stands for them where one faults."""
        parts = []
        for part, kind in when.subscripts:
            value = self.guard(situation, frame, part)
            parts.append(value if value is not None and kind.low <= value <= kind.high else None)
        return None if None in parts else tuple(parts)

    def awaited(self, situation, row, frame, when):
        """The interaction point of a `when`, where the head of its queue is what is awaited."""
        subscripts = self.subscripts(situation, frame, when)
        if subscripts is None:
            return None
        at = row.number, when.point.name, subscripts
        items = situation.queues.get(links.queue_of(situation, at), ())
        return at if items and items[0][0] == at and items[0][1] is when.interaction else None

    def frame_of(self, row, transition, choice):
        frame = Frame(row.number)
        frame.names.update(transition.choices[choice - 1])
        return frame

    def receive(self, situation, frame, when, at):
        """Puts the values of the interaction that is awaited into the frame."""
        _, _, values = situation.queues[links.queue_of(situation, at)][0]
        frame.names.update(zip(when.params, values))

    def holds(self, situation, frame, provided):
        """Whether a condition holds. An `otherwise` evaluates all conditions to which it refers."""
        if provided.condition:
            return self.guard(situation, frame, provided.condition) == 1
        return 1 not in [self.guard(situation, frame, earlier) for earlier in provided.earlier]

    def enabled(self, situation, row, transition, choice):
        """The bounds of the delay of a choice that is enabled, () without a delay, and else None."""
        if transition.states and row.state not in transition.states:
            return None
        frame = self.frame_of(row, transition, choice)
        if transition.when:
            at = self.awaited(situation, row, frame, transition.when)
            if not at:
                return None
            self.receive(situation, frame, transition.when, at)
        holds = not transition.provided or self.holds(situation, frame, transition.provided)
        bounds = self.bounds(situation, frame, transition.delay) if transition.delay else ()
        return bounds if holds else None

    def bounds(self, situation, frame, delay):
        """(least, most) of a delay, where the most may be endless, or None where one faults."""
        least = self.guard(situation, frame, delay.least)
        most = self.guard(situation, frame, delay.most) if delay.most else float("inf")
        return None if least is None or most is None else (least, most)

    # Firings.

    def offers(self, situation, row):
        """The choices of an instance that are offered, in order."""
        found = []
        for transition in row.body.transitions:
            for choice in range(1, len(transition.choices) + 1):
                bounds = self.enabled(situation, row, transition, choice)
                if bounds is None:
                    continue
                firing = Firing(row.number, transition.number, choice)
                least, most = bounds or (0, 0)
                age = situation.clock - situation.stamps[firing[:2]] if bounds else 0
                if not bounds or age >= least:
                    found.append(Offer(firing, not bounds or age >= most, transition.priority))
        return found

    def options(self, situation):
        """The firings that are possible, in order; a guard may pass the limit."""
        offers = {number: self.offers(situation, row) for number, row in situation.rows.items()}
        due = {number: [own.priority for own in found if own.is_due] for number, found in offers.items()}
        possible = []
        for number, found in offers.items():
            if any(due[above] for above in situation.ancestors(number)):
                continue
            least = min(due[number], default=float("inf"))
            possible += [own.firing for own in found if own.priority <= least]
        return possible

    def is_quiet(self, situation):
        """Whether nothing has to happen: no guard passes the limit, and nothing is due."""
        try:
            return not any(own.is_due for row in situation.rows.values() for own in self.offers(situation, row))
        except Limit:
            return False

    def restamp(self, situation, stamps, fired):
        """Stamps the delay transitions that are enabled: anew where they were not, or were fired."""
        found = {}
        for number, row in situation.rows.items():
            for transition in row.body.transitions:
                if not transition.delay or not self.is_enabled(situation, row, transition):
                    continue
                key = number, transition.number
                is_kept = key in stamps and key != fired
                found[key] = stamps[key] if is_kept else situation.clock
        situation.stamps = found

    def is_enabled(self, situation, row, transition):
        try:
            return self.enabled(situation, row, transition, 1) is not None
        except Limit:
            return False

    # Moves.

    def fire(self, situation, firing):
        """The next situation and what was sent, of a firing that is possible."""
        after = situation.copy()
        row = after.rows[firing.instance]
        transition = row.body.transitions[firing.transition - 1]
        frame = self.frame_of(row, transition, firing.choice)
        if transition.when:
            at = self.awaited(after, row, frame, transition.when)
            self.receive(after, frame, transition.when, at)
            queue = links.queue_of(after, at)
            after.queues[queue] = after.queues[queue][1:]
        run = Run(after, self.limit)
        with self.counted(run):
            transition.block(run, frame)
        if transition.to:
            row.state = transition.to
        self.restamp(after, after.stamps, firing[:2])
        return after, self.events(run)

    def happen(self, situation, event):
        """The situation after an arrival, or after time."""
        after = situation.copy()
        if event.kind == TIME:
            after.clock += event.values
            return after
        port = self.system.ports[event.port]
        interaction = port.point.channel.interactions[event.signal]
        links.put(after, (1, port.point.name, port.subscripts), interaction, event.values)
        return after
