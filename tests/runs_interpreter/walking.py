"""Draws traces and explanations: random walks through a specification, which are then spoiled now and then."""

import re

from .texts import MOST_NUMBER, written_explanation, written_trace
from .values import UNSEEN, WRITER, Fault, Limit, SetOf, Writer, is_group, part_kinds
from .world import IN, OUT, TIME, Event, Firing, passing

TOKEN = re.compile(r"\{[^}]*\}|''''|'.'|\w+|\.\.|[^\w\s]")
OTHERS = """end in out time p0 p1 s0 s1 ( ) [ ] , . _ ? - 0 1 2 9 2147483648 9999999999999999999 true false red green
e0 e1 'a' 'e' 'f' '~' '' chr take fire yields quiet # exist .. := { (* abc""".split()


def value_of(draw, kind, is_defined=False):
    """A value of a kind, some of whose parts may be undefined."""
    if is_group(kind):
        return tuple(value_of(draw, part) for part in part_kinds(kind))
    if not is_defined and draw.random() < 0.06:
        return None
    if isinstance(kind, SetOf):
        return frozenset(value for value in kind.base.values() if draw.random() < 0.4)
    if len(kind.values()) > 1000:
        return draw.choice([0, 1, 2, 3, 4, 5, 7, -1, -4, draw.choice([9, 100, kind.low, kind.high])])
    return draw.choice(kind.values())


def seen_of(draw, value):
    """A value, here and there with a part that was not seen."""
    if draw.random() < 0.3:
        return UNSEEN
    return tuple(seen_of(draw, part) for part in value) if isinstance(value, tuple) else value


class VariedWriter(Writer):
    """Writes values in other texts than their canonical ones, here and there."""

    def __init__(self, draw):
        self.draw = draw

    def members(self, value):
        found = sorted(value) + self.draw.sample(sorted(value), self.draw.randint(0, min(2, len(value))))
        self.draw.shuffle(found)
        return found

    def integer(self, value):
        zeros = "0" * self.draw.choice([0, 0, 0, 1, 3])
        return f"- {zeros}{-value}" if value < 0 else f"{zeros}{value}"

    def character(self, value):
        return f"chr({self.integer(value)})" if self.draw.random() < 0.4 else super().character(value)


class Walker:
    """Draws events and moves of one specification."""

    def __init__(self, draw, world):
        self.draw, self.world, self.system = draw, world, world.system
        # The events and moves of the walk, the situation before each move, and how often it fires where it may.
        self.events, self.moves, self.situations, self.chance = [], [], [], 0
        # How many arrivals, or how much time, are to come before it fires again.
        self.burst = 0

    def interaction(self, kind):
        """A random arrival or departure, or None where there is none."""
        pairs = []
        for number, port in enumerate(self.system.ports):
            may_pass = port.point.receives if kind == IN else port.point.sends
            pairs += [(number, own) for own in port.point.channel.interactions if may_pass(own)]
        if not pairs:
            return None
        if self.draw.random() < 0.5:
            # Each port is as likely as the others, however many interactions it has.
            port = self.draw.choice(sorted({number for number, _ in pairs}))
            pairs = [pair for pair in pairs if pair[0] == port]
        number, signal = self.draw.choice(pairs)
        values = tuple(value_of(self.draw, own) for _, own in signal.params)
        return Event(kind, number, signal.number, values)

    def event(self, kinds):
        kind = self.draw.choice(kinds)
        found = None if kind == TIME else self.interaction(kind)
        return found or passing(self.draw.choice([0, 1, 1, 2, 3, 5, 8]))

    def walk(self, most):
        """The events and the moves of a random walk."""
        try:
            situation, sent = self.world.start()
        except (Fault, Limit):
            self.moves, self.situations = [], []
            self.events = [self.event([IN, OUT, TIME]) for _ in range(self.draw.randint(0, 2))]
            return self.events, self.moves
        self.events, self.moves, self.situations = list(sent), [], []
        self.chance, self.burst = self.draw.choice([0.8, 0.95, 0.98]), self.draw.choice([0, 3, 6])
        for _ in range(self.draw.randint(most // 2, most)):
            after = self.step(situation)
            if after is not situation:
                self.situations.append(situation)
            situation = after
        self.situations.append(situation)
        return self.events, self.moves

    def options(self, situation):
        try:
            return self.world.options(situation)
        except Limit:
            return []

    def step(self, situation):
        options = self.options(situation)
        if not self.burst and self.draw.random() < 0.15:
            self.burst = self.draw.randint(2, 6)
        if not self.burst and options and self.draw.random() < self.chance:
            self.draw.shuffle(options)
            return self.fire(situation, options)
        self.burst = max(0, self.burst - 1)
        for _ in range(4):
            event = self.event([IN, IN, IN, TIME])
            after = self.world.happen(situation, event)
            # What makes nothing possible is often drawn anew.
            if self.draw.random() < 0.4 or self.options(after) != options:
                break
        self.events.append(event)
        self.moves.append(None)
        return after

    def fire(self, situation, options):
        """The situation after the first of some firings that meets no fault, or the same."""
        for firing in options:
            try:
                after, sent = self.world.fire(situation, firing)
            except (Fault, Limit):
                continue
            self.events += sent
            self.moves.append(firing)
            return after
        return situation

    # What is spoiled.

    def spoiled_events(self, events):
        """The same events but for one."""
        events = list(events)
        at = self.draw.randint(0, len(events))
        form = self.draw.choice(["add", "add", "drop", "drop", "change", "change", "swap", "cut"])
        if form == "add" or not events:
            events.insert(at, self.event([IN, OUT, OUT, TIME]))
        elif form == "drop":
            del events[min(at, len(events) - 1)]
        elif form == "swap":
            one, other = self.draw.randrange(len(events)), self.draw.randrange(len(events))
            events[one], events[other] = events[other], events[one]
        elif form == "cut":
            del events[at:]
        else:
            at = min(at, len(events) - 1)
            events[at] = self.changed(events[at])
        return events

    def seen(self, events):
        """The same events, now and then with values of departures that were not seen."""
        if self.draw.random() < 0.6:
            return events
        return [self.seen_event(event) if event.kind == OUT else event for event in events]

    def seen_event(self, event):
        return event._replace(values=tuple(seen_of(self.draw, value) for value in event.values))

    def changed(self, event):
        """An event with other values, or another one."""
        if event.kind == TIME or not event.values or self.draw.random() < 0.3:
            return self.event([IN, OUT, TIME])
        port = self.system.ports[event.port]
        kinds = [kind for _, kind in port.point.channel.interactions[event.signal].params]
        return event._replace(values=tuple(value_of(self.draw, kind) for kind in kinds))

    def probed(self):
        """Some first moves of the walk, and after them a firing, which may be possible or not."""
        at = self.draw.randint(0, len(self.moves))
        return [*self.moves[:at], self.probe(self.situations[at] if self.situations else None)]

    def probe(self, situation):
        """A firing: one that is possible, one that is offered and is not, or another one."""
        form = self.draw.choice(["possible", "possible", "offered", "offered", "living", "any"])
        if situation and form != "any":
            options, offered = self.options(situation), []
            if form == "offered" and options:
                offers = [own for row in situation.rows.values() for own in self.world.offers(situation, row)]
                offered = [own.firing for own in offers if own.firing not in options]
            row = self.draw.choice(list(situation.rows.values()))
            transitions = row.body.transitions
            if offered or form == "possible" and options:
                return self.draw.choice(offered or options)
            if transitions:
                transition = self.draw.choice(transitions)
                return Firing(row.number, transition.number, self.draw.randint(1, len(transition.choices)))
        return Firing(self.draw.randint(0, 4), self.draw.randint(0, 9), self.draw.choice([0, 1, 1, 2]))

    def spoiled_moves(self, moves):
        moves = list(moves)
        at = self.draw.randint(0, len(moves))
        form = self.draw.choice(["take", "fire", "drop", "change", "change", "cut"])
        numbers = [self.draw.choice([1, 1, 1, 2, 2, 3, 4, 0, MOST_NUMBER]) for _ in range(3)]
        if form == "take" or form == "fire" or not moves:
            moves.insert(at, None if form == "take" else Firing(*numbers))
        elif form == "drop":
            del moves[min(at, len(moves) - 1)]
        elif form == "cut":
            del moves[at:]
        else:
            moves[min(at, len(moves) - 1)] = Firing(*numbers)
        return moves

    def claim(self, events):
        return self.draw.choice([len(events) + 1] * 4 + list(range(len(events) + 3)) + [200001])

    # Texts.

    def version(self):
        return self.draw.choice([1, 1, 1, 2, 3])

    def is_quiet(self):
        """Whether a trace ends quiet."""
        return self.draw.random() < 0.25

    def trace(self, events):
        writer = VariedWriter(self.draw) if self.draw.random() < 0.5 else WRITER
        return self.spelled(written_trace(self.system, events, writer, self.version(), self.is_quiet()))

    def explanation(self, moves, claim):
        return self.spelled(written_explanation(moves, claim))

    def spelled(self, text):
        """The text, now and then with other blanks and letters, or with a token that is spoiled."""
        if self.draw.random() < 0.5:
            return text
        tokens = TOKEN.findall(text)
        if self.draw.random() < 0.3:
            self.spoil(tokens)
        found = []
        for token in tokens:
            is_word = token[0].isalpha()
            found.append(token.upper() if is_word and self.draw.random() < 0.2 else token)
            found.append(self.draw.choice([" "] * 8 + ["\n", "\n", "\t", " { a . } ", "(* *)", "\r\n\f"]))
        return "".join(found)

    def spoil_value(self, tokens):
        """Puts another value in the place of one, as it is written."""
        places = [at for at, token in enumerate(tokens) if token.isdigit() or token[0] == "'"]
        if not places:
            return
        at = self.draw.choice(places)
        number = int(tokens[at]) if tokens[at].isdigit() else ord(tokens[at][1])
        number += self.draw.choice([-2, -1, 0, 1, 2])
        signs = self.draw.choice([[], [], ["-"], ["+"]])
        if tokens[at][0] == "'" and 32 <= number <= 126:
            tokens[at : at + 1] = self.draw.choice([[f"'{chr(number)}'"], ["chr", "(", str(number), ")"], ["_"]])
        else:
            tokens[at : at + 1] = [*signs, str(abs(number))]

    def spoiled_text(self, events):
        """The text of some events, with a token that is spoiled."""
        text = written_trace(self.system, events, VariedWriter(self.draw), self.version(), self.is_quiet())
        tokens = TOKEN.findall(text)
        self.spoil(tokens)
        return " ".join(tokens) + "\n"

    def spoil(self, tokens):
        at = self.draw.randrange(len(tokens))
        form = self.draw.choice(["change", "change", "drop", "double", "cut", "like", "near", "near"])
        if form == "drop":
            del tokens[at]
        elif form == "cut":
            del tokens[at:]
        elif form == "double":
            tokens.insert(at, tokens[at])
        elif form == "near":
            self.spoil_value(tokens)
        else:
            tokens[at] = self.draw.choice(tokens if form == "like" else OTHERS)

