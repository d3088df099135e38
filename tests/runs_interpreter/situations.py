"""Situations: the instances with their values, links, queues and stamps, and the clock."""

from .values import undefined

MOST_NUMBER = 999999999


class Row:
    """A living instance."""

    def __init__(self, number, parent, body):
        self.number, self.parent, self.body, self.state = number, parent, body, None
        self.values = {name: undefined(kind) for name, kind in body.variables}
        # Of each element of a module variable, (name, subscripts), the number that it was given.
        self.children = {}

    def copy(self):
        same = Row.__new__(Row)
        same.number, same.parent, same.body, same.state = self.number, self.parent, self.body, self.state
        same.values, same.children = dict(self.values), dict(self.children)
        return same


class Situation:
    def __init__(self):
        # By number, ascending; both directions of each connection; parents' points and their children's;
        # the items of queues; the stamp of (instance, transition).
        self.rows, self.peer, self.down, self.queues, self.stamps = {}, {}, {}, {}, {}
        self.clock, self.next = 0, 1

    def copy(self):
        same = Situation()
        same.rows = {number: row.copy() for number, row in self.rows.items()}
        same.peer, same.down = dict(self.peer), dict(self.down)
        same.queues, same.stamps = dict(self.queues), dict(self.stamps)
        same.clock, same.next = self.clock, self.next
        return same

    def drop(self, gone):
        """Takes away what instances that died had."""

        def is_kept(at):
            return (at if isinstance(at, int) else at[0]) not in gone

        self.peer = {one: other for one, other in self.peer.items() if is_kept(one) and is_kept(other)}
        self.down = {one: other for one, other in self.down.items() if is_kept(one) and is_kept(other)}
        self.queues = {queue: items for queue, items in self.queues.items() if is_kept(queue)}
        self.stamps = {key: stamp for key, stamp in self.stamps.items() if is_kept(key)}

    def ancestors(self, number):
        """The numbers of the instances above one."""
        found = []
        while number := self.rows[number].parent:
            found.append(number)
        return found
