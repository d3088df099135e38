"""Runs the cases of tests/runs: starts, and moves. How they are written is told in operators.cases."""

from rules_checker.tokens import tokens_of

from .modules import System
from .values import Fault, Limit
from .world import IN, Event, Firing, World, passing


def shown(value):
    """A value as the cases write it."""
    if value is None:
        return "?"
    if isinstance(value, frozenset):
        return "[" + ",".join(map(str, sorted(value))) + "]"
    if isinstance(value, tuple):
        return "(" + ",".join(map(shown, value)) + ")"
    return str(value)


def shown_interaction(interaction, values):
    given = ",".join(map(shown, values))
    return interaction.name + (f"({given})" if given else "")


def shown_point(name, subscripts):
    return name + (f"[{','.join(map(str, subscripts))}]" if subscripts else "")


def shown_event(system, event, is_by_number=False):
    """What is sent at a port. After moves the element of an array has its number among the ports."""
    port = system.ports[event.port]
    signal = port.point.channel.interactions[event.signal]
    at = shown_point(port.point.name, port.subscripts)
    if is_by_number and port.subscripts:
        at = f"{port.point.name}#{event.port}"
    return f"{at}.{shown_interaction(signal, event.values)}"


def shown_rows(situation):
    rows = situation.rows.values()
    return " ".join(f"{row.number} {row.body.name}{f'.{row.state.name}' if row.state else ''}" for row in rows)


def shown_queues(situation):
    found = []
    for _, items in sorted(situation.queues.items(), key=lambda queue: str(queue[0])):
        if items:
            shown_items = [
                f"{at[0]}.{shown_point(*at[1:])}.{shown_interaction(signal, values)}" for at, signal, values in items
            ]
            found.append(f"[{' '.join(shown_items)}]")
    return " ".join(found)


def started(world):
    """What comes of a start: the situation or None, and how the cases write it."""
    try:
        situation, sent = world.start()
    except Fault as fault:
        return None, str(fault)
    except Limit:
        return None, "limit"
    return situation, " ".join(["done", *(shown_event(world.system, event) for event in sent)])


def start_answer(text, limit):
    """What is sent at the start, and the instances and queues after it."""
    situation, answer = started(World(System(tokens_of(text.encode())), limit))
    return [answer, shown_rows(situation), shown_queues(situation)] if situation else [answer]


def shown_firing(firing):
    return "{} {} {}".format(*firing)


class Moves:
    """Makes moves, one after the other."""

    def __init__(self, text, limit):
        self.system = System(tokens_of(text.encode()))
        self.world = World(self.system, limit)

    def answers(self, moves):
        situation, answer = started(self.world)
        self.stack = [situation]
        if not situation:
            return [answer]
        return [answer] + [getattr(self, "do_" + move[0])(*move[1:]) for move in map(str.split, moves)]

    def do_options(self):
        try:
            found = self.world.options(self.stack[-1])
        except Limit:
            return "unsettled"
        return ", ".join(map(shown_firing, found)) or "none"

    def do_fire(self, *numbers):
        firing, options = Firing(*map(int, numbers)), self.do_options()
        if options == "unsettled":
            return options
        if shown_firing(firing) not in options.split(", "):
            return "not possible"
        try:
            situation, sent = self.world.fire(self.stack[-1], firing)
        except Fault as fault:
            return str(fault)
        except Limit:
            return "limit"
        self.stack.append(situation)
        return " ".join(["done", *(shown_event(self.system, event, is_by_number=True) for event in sent)])

    def do_arrive(self, port, signal, *values):
        port, signal, values = int(port), int(signal), tuple(map(int, values))
        if port >= len(self.system.ports):
            return "not received"
        point = self.system.ports[port].point
        signals = point.channel.interactions
        if signal >= len(signals) or not point.receives(signals[signal]):
            return "not received"
        if len(values) != len(signals[signal].params):
            return "not received"
        self.stack.append(self.world.happen(self.stack[-1], Event(IN, port, signal, values)))
        return "arrived"

    def do_pass(self, units):
        self.stack.append(self.world.happen(self.stack[-1], passing(int(units))))
        return "passed"

    def do_back(self):
        if len(self.stack) == 1:
            return "at the start"
        self.stack.pop()
        return "back"


def cells_of(line):
    return [cell.strip() for cell in line.split("|")]


def cases_of(lines):
    """(word, name, text with its cells, limit, expected cells) of each case of a file."""
    text, limit, is_in_text = "", 1000, False
    for line in lines:
        word, _, rest = line.partition(" ")
        if word == ">":
            text, is_in_text = (text if is_in_text else "") + rest + "\n", True
            continue
        is_in_text = False
        if word == "limit":
            limit = int(rest)
        if word in ("case", "wrong", "moves"):
            name, *cells = cells_of(rest)
            count = text.count("@")
            full = text
            for cell in cells[:count]:
                full = full.replace("@", cell, 1)
            yield word, name, full, limit, cells[count:]


def plain(answer):
    return " ".join(answer.lower().split())


def is_met(word, text, limit, expected):
    """Whether a case has its expectation, and what came."""
    if word == "moves":
        found = Moves(text, limit).answers([move.strip() for move in expected[0].split(";")])
        wanted = expected[1].split(";")
    else:
        found, wanted = start_answer(text, limit), expected[0].split("/")
        found = found[: len(wanted)]
    found = [plain(answer) for answer in found]
    return found == [plain(answer) for answer in wanted], found


def differences(file):
    """The number of the cases of a file, and a line for each that has not its expectation."""
    count, lines = 0, []
    for word, name, text, limit, expected in cases_of(file.read_text().splitlines()):
        count += 1
        is_good, found = is_met(word, text, limit, expected)
        if is_good == (word == "wrong"):
            lines.append(f"{file.name}: {name}: {found} for {expected}")
    return count, lines
