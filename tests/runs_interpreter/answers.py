"""What the program is to say: its status and its report, of the words and the texts of the files."""

import functools

from rules_checker.tokens import tokens_of
from rules_checker.verdict import judged

from .generator import Generator
from .making import LimitPassed, Maker
from .modules import System
from .search import OverFirings, Rejected, Replay, Search
from .texts import ExplanationReader, Refused, TraceReader, written_explanation, written_trace
from .values import Fault, Limit
from .world import World

LENGTHS = {"specification": 1048576, "trace": 8388608, "explanation": 134217728}
# Silent firings in a row, firings tried, and statements, where the words do not tell.
SILENT, BUDGET, STATEMENTS = 8, 1000000, 10000


class Unknown(Exception):
    """The specification is no sentence, of which nothing is known here."""


def too_long(name, text):
    return (6, f"{name}: too long\n") if len(text) > LENGTHS[name] else None


@functools.lru_cache(20)
def system_of(text):
    """What a specification has for its runs."""
    return System(tokens_of(text))


@functools.lru_cache(20)
def checked(text):
    """The report of `check`, where it is no `ok`."""
    if answer := too_long("specification", text):
        return answer
    answer = judged(text)
    if answer is None:
        raise Unknown
    return (answer[0], answer[1] + "\n") if answer[0] else None


def read(reader, name, text):
    """What a text has, or the report of its first bad place."""
    if answer := too_long(name, text):
        return None, answer
    try:
        return reader(text), None
    except Refused as refused:
        return None, (3 if name == "trace" else 4, f"{name}:{refused}\n")


def explained(specification, text, silent=SILENT, budget=BUDGET, statements=STATEMENTS):
    """The answer of `explain`."""
    if answer := checked(specification):
        return answer
    system = system_of(specification)
    trace, answer = read(lambda text: TraceReader(system, text).trace(), "trace", text)
    if answer:
        return answer
    world = World(system, statements)
    try:
        situation, sent = world.start()
    except (Fault, Limit) as cause:
        return no_start(cause, statements)
    search = Search(world, trace, silent, budget)
    try:
        moves = search.found(situation, sent)
    except OverFirings:
        return 5, f"{{ over budget: {budget} firings tried }}\n"
    if moves is not None:
        total = len(trace.events)
        return 0, f"{{ accepted: {total} events }}\n" + written_explanation(moves, total + 1)
    return over_action(search, statements) if search.passed else refused_at(search, len(trace.events))


def no_start(cause, statements=STATEMENTS):
    if isinstance(cause, Fault):
        return 11, f"no start: {cause}\n"
    return 5, f"{{ over budget: the start passed the limit {statements} }}\n"


def over_action(search, statements):
    moves, count, firing = search.passed
    what = "firing {} {} {}".format(*firing) if firing else "a guard"
    first = f"{{ over budget: {what} passed the limit {statements} after these moves }}\n"
    return 5, first + written_explanation(moves, count)


def refused_at(search, total):
    if search.most < total:
        first = f"{{ refused at event {search.most + 1} of {total} }}\n"
    else:
        first = f"{{ refused at the end after {total} events }}\n"
    if search.faulted:
        fault, firing = search.faulted
        first += "{{ fault {} in firing {} {} {} }}\n".format(fault, *firing)
    return 1, first + written_explanation(search.best, search.most)


def replayed(specification, text, explanation, silent=SILENT, statements=STATEMENTS):
    """The answer of `replay`."""
    if answer := checked(specification):
        return answer
    system = system_of(specification)
    trace, answer = read(lambda text: TraceReader(system, text).trace(), "trace", text)
    if answer:
        return answer
    read_explanation, answer = read(
        lambda text: ExplanationReader(text).explanation(), "explanation", explanation
    )
    if answer:
        return answer
    moves, claim = read_explanation
    try:
        Replay(World(system, statements), trace, silent, moves, claim).confirm()
    except Rejected as rejected:
        return 1, "rejected at move {}: {}\n".format(*rejected.args)
    total = len(trace.events)
    return 0, f"confirmed: {f'all {total}' if claim > total else f'first {claim} of {total}'} events\n"


def made(specification, seed, count):
    """What makes a trace, after it was made, and the report where there is none."""
    if answer := checked(specification):
        return None, answer
    maker = Maker(World(system_of(specification), STATEMENTS), Generator(seed), SILENT)
    try:
        maker.make(count)
    except (Fault, Limit) as cause:
        return maker, no_start(cause)
    except LimitPassed:
        return maker, (5, f"limit after {len(maker.moves)} moves\n")
    return maker, None


def self_run(specification, seed, count, budget=BUDGET):
    """The answer of `selfrun`. OverFirings, where the search needs more, has its first line."""
    maker, answer = made(specification, seed, count)
    if answer:
        return answer
    system = maker.world.system
    text = written_trace(system, maker.events).encode("latin-1")
    trace, answer = read(lambda text: TraceReader(system, text).trace(), "trace", text)
    if answer:
        return answer
    first = f"made: {len(maker.events)} events, {len(text)} bytes, {len(maker.moves)} moves\n"
    world = World(system, STATEMENTS)
    try:
        moves = Search(world, trace, SILENT, budget).found(*world.start())
    except OverFirings:
        if budget < BUDGET:
            raise OverFirings(first) from None
        return 5, f"{first}over budget: {budget} firings tried\n"
    return 0, f"{first}accepted: {len(moves)} moves\n"
