"""Reads a specification as a tree that keeps all that its runs ask for.

The tree is that of the reader of rules, with a queue discipline behind a point, a direction in a `for`, and
the upper bound of a delay.
"""

from rules_checker.reader import Reader

# Upper bounds of a delay that are no expression.
SAME, NEVER = "same", "never"


class WholeReader(Reader):
    """Reads a specification that breaks no rule."""

    default = None

    def specification(self):
        """The parts; the queue discipline that holds by default is kept beside them."""
        place = self.place
        parts = super().specification()
        self.place = place
        for _ in range(3):
            self.place += 1
        if self.may("default"):
            self.default = self.queue()
        return parts

    def queue(self):
        word = self.must("individual", "common")
        self.must("queue")
        return word.text

    def point(self):
        names = self.names()
        self.must(":")
        dims = self.dims()
        channel = self.name()
        self.must("(")
        role = self.name()
        self.must(")")
        queue = None if self.is_next(";") else self.queue()
        self.must(";")
        return names, dims, channel, role, queue

    def read_for(self, word):
        name = self.name()
        self.must(":=")
        first = self.expr()
        is_down = self.must("to", "downto").text == "downto"
        last = self.expr()
        self.must("do")
        return ("for", word, name, first, is_down, last, self.statement())

    def clause_delay(self):
        self.must("(")
        least, most = self.expr(), SAME
        if self.may(","):
            most = NEVER if self.may("*") else self.expr()
        self.must(")")
        return least, most
