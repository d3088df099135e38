"""Traces and explanations as texts: their tokens, their first bad place, and how they are written."""

import collections

from rules_checker.tokens import TOKEN, WORDS, Token

from .values import CHAR, MOST, UNSEEN, WRITER, SetOf, is_group, is_partial, part_kinds
from .world import IN, OUT, TIME, Event, Firing, passing

MOST_EVENTS = 200000
MOST_NUMBER = 999999999
MOST_CLAIM = 200001
END = Token("end", "", None)
# A trace: its events, and whether it ends quiet.
Trace = collections.namedtuple("Trace", "events is_quiet")


class Refused(Exception):
    """The first bad place of a text, with what is wrong there."""


def tokens_of(text):
    """The tokens of a text with their ends; a bad one is the last."""
    found, at = [], 0
    while at < len(text):
        match = TOKEN.match(text, at)
        kind = match.lastgroup if match else "bad"
        if kind == "bad" or kind == "number" and match.end() - at > 18:
            return [*found, (Token("bad", "", at), at + 1)]
        if kind != "blank":
            spelled = match.group().decode("latin-1")
            spelled = spelled if kind == "character" else spelled.lower()
            if kind == "ident" and spelled in WORDS:
                kind = "word"
            found.append((Token(kind, spelled, at), match.end()))
        at = match.end()
    return found


def line_column(text, at):
    return text.count(b"\n", 0, at) + 1, at - (text.rfind(b"\n", 0, at) + 1) + 1


class TextReader:
    """Takes tokens from left to right, and refuses the first that can not follow."""

    def __init__(self, text):
        self.text, self.tokens, self.place = text, tokens_of(text), 0

    def next(self):
        return self.tokens[self.place][0] if self.place < len(self.tokens) else END

    def refuse(self, why="bad token"):
        at = self.next().at
        if at is None:
            at = self.tokens[-1][1] if self.tokens else 0
        line, column = line_column(self.text, at)
        raise Refused(f"{line}:{column}: {why}")

    def is_next(self, *spelled):
        token = self.next()
        return token.kind in ("word", "ident", "symbol") and token.text in spelled

    def may(self, *spelled):
        is_there = self.is_next(*spelled)
        self.place += is_there
        return is_there

    def must(self, *spelled):
        if not self.is_next(*spelled):
            self.refuse()
        self.place += 1
        return self.tokens[self.place - 1][0].text

    def number(self, low, high):
        token = self.next()
        if token.kind != "number" or not low <= int(token.text) <= high:
            self.refuse()
        self.place += 1
        return int(token.text)

    def head(self, word, last=1):
        """The word that a text begins with, and its version."""
        self.must(word)
        return self.number(1, last)

    def whole(self, result):
        if self.place < len(self.tokens):
            self.refuse()
        return result


class TraceReader(TextReader):
    """Reads a trace of one specification."""

    def __init__(self, system, text):
        super().__init__(text)
        self.system = system
        # The version, and whether a value is read that need not have been seen.
        self.version, self.may_lack = 1, False

    def trace(self):
        self.version = self.head("trace", 3)
        events = []
        while not self.may("end"):
            if len(events) == MOST_EVENTS and self.is_next(IN, OUT, TIME):
                self.refuse("too many events")
            events.append(self.event())
        is_quiet = self.version == 3 and self.may("quiet")
        return self.whole(Trace(events, is_quiet))

    def event(self):
        kind = self.must(IN, OUT, TIME)
        if kind == TIME:
            return passing(self.number(0, MOST))
        ports = collections.defaultdict(list)
        for port in self.system.ports:
            if any(may_pass(kind, port.point, signal) for signal in port.point.channel.interactions):
                ports[port.point.name].append(port)
        token = self.next()
        if token.kind != "ident" or token.text not in ports:
            self.refuse()
        self.place += 1
        point = ports[token.text][0].point
        subscripts = self.values("[", point.dims, "]") if point.dims else ()
        self.must(".")
        signal = self.signal(kind, point)
        kinds = [own for _, own in signal.params]
        self.may_lack = kind == OUT and self.version >= 2
        values = self.values("(", kinds, ")") if kinds else ()
        return Event(kind, self.system.port_numbers[point.name, subscripts], signal.number, values)

    def signal(self, kind, point):
        token = self.next()
        for signal in point.channel.interactions:
            if token.kind == "ident" and signal.name == token.text and may_pass(kind, point, signal):
                self.place += 1
                return signal
        return self.refuse()

    def values(self, opens, kinds, closes):
        """Values in brackets; subscripts are defined."""
        self.must(opens)
        found = []
        for number, kind in enumerate(kinds):
            if number:
                self.must(",")
            found.append(self.ordinal(kind) if opens == "[" else self.value(kind))
        self.must(closes)
        return tuple(found)

    def value(self, kind):
        if self.may_lack and self.may(UNSEEN):
            return UNSEEN
        if is_group(kind):
            return self.values("(", part_kinds(kind), ")")
        if self.may("_"):
            return None
        return self.members(kind.base) if isinstance(kind, SetOf) else self.ordinal(kind)

    def members(self, base):
        self.must("[")
        found = set()
        if not self.may("]"):
            found.add(self.ordinal(base))
            while self.must(",", "]") == ",":
                found.add(self.ordinal(base))
        return frozenset(found)

    def ordinal(self, kind):
        token = self.next()
        if kind.host.names:
            return self.named(kind, token)
        if kind.host == CHAR.host:
            return self.character(kind, token)
        if kind.low < 0 and self.may("-"):
            return -self.number(max(1, -kind.high), -kind.low)
        return self.number(kind.low, kind.high)

    def named(self, kind, token):
        names = kind.host.names[kind.low : kind.high + 1]
        if token.kind != "ident" or token.text not in names:
            self.refuse()
        self.place += 1
        return kind.low + names.index(token.text)

    def character(self, kind, token):
        if self.may("chr"):
            self.must("(")
            code = self.number(kind.low, kind.high)
            self.must(")")
            return code
        if token.kind != "character" or not kind.low <= ord(token.text[1]) <= kind.high:
            self.refuse()
        self.place += 1
        return ord(token.text[1])


def may_pass(kind, point, signal):
    """Whether a point receives or sends an interaction from or to the outside."""
    return point.receives(signal) if kind == IN else point.sends(signal)


class ExplanationReader(TextReader):
    """Reads moves, each None for a take or a firing, and a claim."""

    def explanation(self):
        self.head("explanation")
        moves = []
        while not self.may("yields"):
            is_take = self.must("take", "fire") == "take"
            moves.append(None if is_take else Firing(*(self.number(0, MOST_NUMBER) for _ in range(3))))
        claim = self.number(0, MOST_CLAIM)
        return self.whole((moves, claim))


def written_event(system, event, writer=WRITER):
    if event.kind == TIME:
        return f"time {event.values}"
    port = system.ports[event.port]
    point, signal = port.point, port.point.channel.interactions[event.signal]
    subscripts = ", ".join(map(writer.value, point.dims, port.subscripts))
    values = ", ".join(writer.value(kind, value) for (_, kind), value in zip(signal.params, event.values))
    at = f"{point.name}[{subscripts}]" if subscripts else point.name
    return f"{event.kind} {at}.{signal.name}" + (f"({values})" if values else "")


def written_trace(system, events, writer=WRITER, version=1, is_quiet=False):
    """A text of this version, or else of the first that has what the trace asks for."""
    least = 3 if is_quiet else 2 if any(is_partial(event.values) for event in events) else 1
    lines = [written_event(system, event, writer) for event in events]
    return "\n".join([f"trace {max(version, least)}", *lines, "end quiet" if is_quiet else "end", ""])


def written_explanation(moves, claim):
    lines = ["take" if move is None else "fire {} {} {}".format(*move) for move in moves]
    return "\n".join(["explanation 1", *lines, f"yields {claim}", ""])
