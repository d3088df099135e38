"""What names mean: regions, and the names that are in force in them."""

from .kinds import BOOLEAN, CHAR, INTEGER, MOST, Value


class Declared:
    """What a name declares: its sort, the region, and what else is known of it."""

    kind = None
    header = channel = None
    # Of a variable: whether it may be written at all. Of a routine: whether it is open.
    is_fixed = is_open = False
    # Of an interaction point: whether it is a header's. Of a module variable: whether it is a name of an `all`.
    is_external = is_of_all = False
    # Of a body: whether its text has ended.
    is_ended = False

    def __init__(self, sort, region=None, **known):
        self.sort, self.region = sort, region
        self.__dict__.update(known)

    def within(self, region):
        """The same, declared in a region."""
        return Declared(**{**self.__dict__, "region": region})


PREDECLARED = {
    "integer": Declared("type", kind=INTEGER),
    "boolean": Declared("type", kind=BOOLEAN),
    "char": Declared("type", kind=CHAR),
    "false": Declared("constant", value=Value(BOOLEAN, 0)),
    "true": Declared("constant", value=Value(BOOLEAN, 1)),
    "maxint": Declared("constant", value=Value(INTEGER, MOST)),
}
PREDECLARED.update({name: Declared("function") for name in "ord chr succ pred abs odd sqr".split()})

SEEN_WITHIN = ("constant", "type", "channel", "header", "body")
OF_A_BODY = ("variable", "point", "modvar")


class Region:
    """The names that a region declares, and those of them that are in force. A region of a body is its
    own holder; that of a routine, transition or block is held by the body around it."""

    def __init__(self, outer=None, is_body=False):
        self.outer, self.names, self.in_force = outer, set(), {}
        self.is_body, self.holder = is_body, self if is_body else outer.holder


class Scopes:
    """Finds what names mean, and the pairs of the rules on names."""

    def __init__(self):
        self.pairs = set()
        self.region = Region(is_body=True)
        # The routine whose text is read, and its region.
        self.own_routine = self.inside = None

    def broken(self, token, rule):
        self.pairs.add((token.at, rule))

    def note(self, names, token):
        """Declares a name in a set of names, where it may be declared already: whether it is new."""
        if token.text in names:
            self.broken(token, 2)
            return False
        names.add(token.text)
        return True

    def declare(self, token):
        """Whether the name is new in its region: one that is declared again declares nothing."""
        return self.note(self.region.names, token)

    def put(self, token, declared):
        """From here on the name is in force."""
        declared.region = self.region
        self.region.in_force.setdefault(token.text, declared)

    def meant(self, name):
        """What a name means here, and whether it is seen: (None, True) for nothing."""
        region = self.region
        while region:
            declared = region.in_force.get(name)
            if declared:
                is_seen = (
                    region.holder is self.region.holder
                    or declared.sort in SEEN_WITHIN
                    or declared.sort in ("procedure", "function") and not declared.is_open
                )
                return declared, is_seen
            region = region.outer
        return PREDECLARED.get(name), True

    def used(self, token, *sorts):
        """What the name declares, where it has one of these sorts."""
        declared, is_seen = self.meant(token.text)
        self.open_routine(declared)
        rule = 1 if not declared else 3 if not is_seen else 4 if declared.sort not in sorts else None
        if rule:
            self.broken(token, rule)
            return None
        return declared

    def open_routine(self, declared):
        """A routine is open where its text names a variable, point or module variable of a body, or a
        routine that is open."""
        if self.own_routine and declared and declared.region:
            if declared.is_open or declared.sort in OF_A_BODY and declared.region.is_body:
                self.own_routine.is_open = True
