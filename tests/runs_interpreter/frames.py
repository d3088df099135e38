"""What a block or guard has while it is evaluated: its frames, its places, and its count of statements."""

import dataclasses

from .values import Fault, Limit, with_part

LEVELS = 32


class Run:
    """A block or guard: the situation that it changes, what it sends, and the statements entered."""

    def __init__(self, situation, limit):
        self.situation, self.limit = situation, limit
        self.count, self.sent = 0, []

    def enter(self):
        """Enters a statement, or begins a turn of a loop."""
        if self.count >= self.limit:
            raise Limit
        self.count += 1

    def living(self, number):
        """The row of an instance, which has to live."""
        row = self.situation.rows.get(number)
        if row is None:
            raise Fault("no module")
        return row

    def values_of(self, holder):
        """The values by name of a frame, or of an instance by its number."""
        return self.living(holder).values if isinstance(holder, int) else holder

    def read(self, place):
        value = self.values_of(place.holder)[place.name]
        for at in place.path:
            value = value[at]
        return value

    def write(self, place, value):
        values = self.values_of(place.holder)
        values[place.name] = with_part(values[place.name], place.path, value)


class Frame:
    """The names of a block or of a routine, with the instance whose row lies behind them."""

    def __init__(self, me, level=0):
        self.me, self.level, self.names = me, level, {}

    def deeper(self):
        """The level that a routine or an initialize part opens."""
        if self.level >= LEVELS:
            raise Limit
        return self.level + 1


@dataclasses.dataclass
class Place:
    """A variable, or a part of one."""

    holder: object
    name: object
    path: tuple

    def part(self, path):
        return Place(self.holder, self.name, self.path + path)
