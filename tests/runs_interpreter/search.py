"""The search for the first run that explains a trace, and the check of the moves of an explanation."""

import dataclasses

from .values import Fault, Limit, matches
from .world import OUT


@dataclasses.dataclass
class Node:
    """A run that follows the trace and is bounded: its situation, its events, and its last silent firings."""

    situation: object
    count: int
    silent: int


class OverFirings(Exception):
    """More firings than the budget would be tried."""


def agrees(expected, event):
    """Whether an event that is sent is as a trace has it."""
    return expected[:3] == event[:3] and matches(expected.values, event.values)


def agreeing(sent, trace, count):
    """How many events of a trace are there, where some more are sent after the first ones."""
    end = count
    for event in sent:
        if end == len(trace) or not agrees(trace[end], event):
            break
        end += 1
    return end


def ends(world, trace, situation, count):
    """Whether a trace ends in a situation, where so many of its events are there."""
    return count == len(trace.events) and (not trace.is_quiet or world.is_quiet(situation))


class Search:
    """Walks all bounded runs in order, until one explains the trace."""

    def __init__(self, world, trace, silent, budget):
        self.world, self.trace, self.silent, self.budget = world, trace, silent, budget
        self.path, self.tried = [], 0
        # The most events that a run yields, and the first such run; the first fault, as (fault, firing);
        # the first block or guard that passed its limit, as (moves, events, firing or None).
        self.most, self.best, self.faulted, self.passed = 0, [], None, None

    def note(self, count, moves):
        if count > self.most:
            self.most, self.best = count, moves

    def found(self, situation, sent):
        """The run that explains the trace, or None, after a start."""
        count = agreeing(sent, self.trace.events, 0)
        self.note(count, [])
        if count < len(sent):
            return None
        if ends(self.world, self.trace, situation, count):
            return []
        return self.walk(Node(situation, count, 0))

    def walk(self, node):
        branches = [self.branches(node)]
        while branches:
            step = next(branches[-1], None)
            if step is None:
                branches.pop()
                del self.path[max(0, len(branches) - 1) :]
                continue
            move, after = step
            self.path.append(move)
            if ends(self.world, self.trace, after.situation, after.count):
                return self.path
            branches.append(self.branches(after))
        return None

    def branches(self, node):
        """The moves after a run, each with the longer run, where it may lead on."""
        event = self.trace.events[node.count] if node.count < len(self.trace.events) else None
        if event and event.kind != OUT:
            self.note(node.count + 1, [*self.path, None])
            yield None, Node(self.world.happen(node.situation, event), node.count + 1, 0)
        try:
            options = self.world.options(node.situation)
        except Limit:
            self.pass_limit(node, None)
            return
        for firing in options:
            after = self.tried_firing(node, firing)
            if after:
                yield firing, after

    def pass_limit(self, node, firing):
        if not self.passed:
            self.passed = list(self.path), node.count, firing

    def tried_firing(self, node, firing):
        """The run with a firing more, where it leads on."""
        if self.tried == self.budget:
            raise OverFirings
        self.tried += 1
        try:
            situation, sent = self.world.fire(node.situation, firing)
        except Fault as fault:
            self.faulted = self.faulted or (str(fault), firing)
            return None
        except Limit:
            self.pass_limit(node, firing)
            return None
        if not sent and node.silent == self.silent:
            return None
        count = agreeing(sent, self.trace.events, node.count)
        self.note(count, [*self.path, firing])
        is_following = count == node.count + len(sent)
        return Node(situation, count, 0 if sent else node.silent + 1) if is_following else None


class Rejected(Exception):
    """The first check of an explanation that fails: the number of the move, and why."""


class Replay:
    """Makes the moves of an explanation."""

    def __init__(self, world, trace, silent, moves, claim):
        self.world, self.trace, self.silent = world, trace, silent
        self.moves, self.claim = moves, claim
        self.count = self.in_row = 0

    def confirm(self):
        """Raises Rejected unless the moves yield the claim."""
        situation, total = self.moved(), len(self.trace.events)
        if self.claim <= total:
            is_yielded = self.count >= self.claim
        else:
            is_yielded = self.claim == total + 1 and ends(self.world, self.trace, situation, self.count)
        if not is_yielded:
            raise Rejected(len(self.moves) + 1, "not all")

    def moved(self):
        """The situation after the moves, none of which is rejected."""
        try:
            situation, sent = self.world.start()
        except Fault as fault:
            raise Rejected(0, f"no start {fault}") from None
        except Limit:
            raise Rejected(0, "limit") from None
        self.compare(0, sent)
        for number, move in enumerate(self.moves, 1):
            if move is None:
                situation = self.take(number, situation)
            else:
                situation = self.fire(number, situation, move)
        return situation

    def compare(self, number, sent):
        """Compares what is sent with the trace; after the last move only as far as the claim goes."""
        is_last = number == len(self.moves)
        end = self.claim if is_last and self.claim <= len(self.trace.events) else None
        for event in sent:
            if end is not None and self.count >= end:
                return
            if self.count == len(self.trace.events) or not agrees(self.trace.events[self.count], event):
                raise Rejected(number, "wrong output")
            self.count += 1

    def take(self, number, situation):
        if self.count == len(self.trace.events) or self.trace.events[self.count].kind == OUT:
            raise Rejected(number, "no event")
        self.count, self.in_row = self.count + 1, 0
        return self.world.happen(situation, self.trace.events[self.count - 1])

    def fire(self, number, situation, firing):
        try:
            if firing not in self.world.options(situation):
                raise Rejected(number, "not offered")
            situation, sent = self.world.fire(situation, firing)
        except Fault as fault:
            raise Rejected(number, f"fault {fault}") from None
        except Limit:
            raise Rejected(number, "limit") from None
        self.compare(number, sent)
        self.in_row = 0 if sent else self.in_row + 1
        if self.in_row > self.silent:
            raise Rejected(number, "too silent")
        return situation
