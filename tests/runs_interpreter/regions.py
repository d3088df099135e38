"""What random texts declare: items in regions, and a way to find those that are in force."""

import dataclasses

from .values import BOOLEAN, CHAR, INTEGER

# What a nested body sees of the bodies around it. Routines are closed there where they stand outside all bodies.
SEEN_WITHIN = ("constant", "type", "channel", "header", "body", "predeclared")
POOL = ["n", "m", "k", "x", "y", "z", "go", "item", "part"]


@dataclasses.dataclass(eq=False)
class Item:
    """What a name declares; of most sorts some of the fields mean nothing."""

    sort: str
    name: str
    kind: object = None
    # Of a variable: whether it may not be written. Of a routine: whether a nested body sees it.
    is_fixed: bool = False
    is_closed: bool = False
    # Of a variable: whether it has a value; of a module variable: whether it has a child.
    is_known: bool = True
    # Of a routine (whether it is a place, kind) of each formal; of a header or interaction (name, kind).
    formals: tuple = ()
    dims: tuple = ()
    channel: object = None
    role: str = ""
    is_external: bool = False
    header: object = None
    # Of a header: its points and exports. Of a channel: its roles and interactions.
    points: tuple = ()
    exports: tuple = ()
    roles: tuple = ()
    interactions: tuple = ()
    senders: tuple = ()


def predeclared():
    found = [Item("type", "integer", INTEGER), Item("type", "boolean", BOOLEAN), Item("type", "char", CHAR)]
    found += [Item("constant", name, BOOLEAN) for name in ("false", "true")]
    found.append(Item("constant", "maxint", INTEGER))
    return found + [Item("predeclared", name) for name in "ord chr succ pred abs odd sqr".split()]


class Region:
    """The items of a region, with the region around it."""

    def __init__(self, outer=None, is_body=False):
        self.outer, self.is_body, self.own, self.names = outer, is_body, {}, set()

    def put(self, item):
        self.names.add(item.name)
        self.own[item.name] = item
        return item

    def items(self):
        """The innermost item of each name that is seen here."""
        if not self.outer:
            return dict(self.own)
        found = self.outer.items()
        if self.is_body:
            found = {
                name: item for name, item in found.items() if item.sort in SEEN_WITHIN or item.is_closed
            }
        found.update(self.own)
        return found

    def of_sort(self, *sorts):
        return [item for item in self.items().values() if item.sort in sorts]

    def is_seen(self, name, sort):
        item = self.items().get(name)
        return item is not None and item.sort == sort

    def fresh(self, draw, prefix):
        """A name that is new in this region, now and then one that is declared further out."""
        for _ in range(20):
            name = draw.choice(POOL) if draw.random() < 0.3 else f"{prefix}{draw.randrange(10)}"
            if name not in self.names:
                self.names.add(name)
                return name
        self.names.add(f"{prefix}{len(self.names) + 10}")
        return f"{prefix}{len(self.names) + 9}"


class OuterRegion(Region):
    """The predeclared names."""

    def __init__(self):
        super().__init__()
        for item in predeclared():
            self.put(item)
