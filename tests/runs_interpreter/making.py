"""Makes a trace of a specification: what it does, and what the outside does, as the words of a generator have it."""

from .values import Fault, Limit, SetOf, is_group, part_kinds
from .world import IN, Event, passing


class LimitPassed(Exception):
    """A guard or a block passes its limit after the start."""


def drawn_value(words, kind):
    """A value of a kind: a word for each ordinal, and for a set one for each value of its base."""
    if is_group(kind):
        return tuple([drawn_value(words, part) for part in part_kinds(kind)])
    if isinstance(kind, SetOf):
        return frozenset([value for value in kind.base.values() if words.word() % 2 == 1])
    return kind.low + words.word() % len(kind.values())


class Maker:
    """Makes a trace, and the moves by which it comes about."""

    def __init__(self, world, words, silent):
        self.world, self.words, self.silent = world, words, silent
        # What may arrive, as (number of a port, interaction); the firings without an event that stand last.
        self.arrivals = [
            (number, interaction)
            for number, port in enumerate(world.system.ports)
            for interaction in port.point.channel.interactions
            if port.point.receives(interaction)
        ]
        self.events, self.moves, self.idle = [], [], 0

    def make(self, count):
        """Draws until there are as many events. The start may raise Fault or Limit."""
        situation, sent = self.world.start()
        self.events += sent
        while len(self.events) < count:
            firing = self.chosen(situation, self.words.word())
            situation = self.fired(situation, firing) if firing else self.happened(situation)

    def chosen(self, situation, word):
        """The firing that a word chooses, or None where it chooses none."""
        if word % 4 == 3 or self.idle >= self.silent:
            return None
        try:
            options = self.world.options(situation)
        except Limit:
            raise LimitPassed from None
        return options[word // 4 % len(options)] if options else None

    def fired(self, situation, firing):
        try:
            situation, sent = self.world.fire(situation, firing)
        except Fault:
            self.idle += 1
            return situation
        except Limit:
            raise LimitPassed from None
        self.moves.append(firing)
        self.events += sent
        self.idle = 0 if sent else self.idle + 1
        return situation

    def happened(self, situation):
        event = self.outside(self.words.word())
        self.moves.append(None)
        self.events.append(event)
        self.idle = 0
        return self.world.happen(situation, event)

    def outside(self, word):
        """What a word has the outside do."""
        if word % 2 == 1 or not self.arrivals:
            return passing(1 + word // 2 % 10)
        number, interaction = self.arrivals[word // 2 % len(self.arrivals)]
        values = tuple([drawn_value(self.words, kind) for _, kind in interaction.params])
        return Event(IN, number, interaction.number, values)
