"""What is done to instances, links and queues.

An interaction point is (number of its instance, name, subscripts). An item of a queue is (interaction point,
interaction, values).
"""

from .frames import Frame
from .situations import MOST_NUMBER, Row
from .values import Fault, fitted, tuples_of


def external_points(row):
    """The interaction points of the header of an instance, in order."""
    return [
        (row.number, point.name, subscripts)
        for point in row.body.header.points
        for subscripts in tuples_of(point.dims)
    ]


def point_of(situation, at):
    """The declared point of an interaction point."""
    return situation.rows[at[0]].body.points[at[1]]


def queue_of(situation, at):
    """The queue of an interaction point: its own, or the common one of its instance."""
    return at[0] if point_of(situation, at).is_common else at


def up(situation, at):
    """The end of the climb by attachments to parents."""
    parents = {child: parent for parent, child in situation.down.items()}
    while at in parents:
        at = parents[at]
    return at


def bottom(situation, at):
    """The innermost point of an interaction point."""
    while at in situation.down:
        at = situation.down[at]
    return at


def put(situation, at, interaction, values):
    """An interaction enters at an interaction point."""
    last = bottom(situation, at)
    queue = queue_of(situation, last)
    situation.queues[queue] = (*situation.queues.get(queue, ()), (last, interaction, values))


def output(run, at, interaction, values):
    situation = run.situation
    top = up(situation, at)
    if top in situation.peer:
        put(situation, situation.peer[top], interaction, values)
    elif top[0] == 1 and point_of(situation, top).is_external:
        run.sent.append((top, interaction, values))


def move(situation, at, to):
    """The items of an interaction point go behind those of another one's queue, and are its own then."""
    source, target = queue_of(situation, at), queue_of(situation, to)
    items = situation.queues.get(source, ())
    situation.queues[source] = tuple(item for item in items if item[0] != at)
    moved = tuple((to, *item[1:]) for item in items if item[0] == at)
    situation.queues[target] = situation.queues.get(target, ()) + moved


def is_taken(situation, at):
    """Whether an end of a connection, or a child's end of an attachment, is tied already."""
    if at in situation.peer:
        return True
    return point_of(situation, at).is_external and at in situation.down.values()


def connect(run, one, other):
    situation = run.situation
    if one == other:
        raise Fault("self link")
    if is_taken(situation, one) or is_taken(situation, other):
        raise Fault("link taken")
    situation.peer[one] = other
    situation.peer[other] = one


def disconnect(run, at, me):
    other = run.situation.peer.pop(at, None)
    if other is not None:
        del run.situation.peer[other]


def attach(run, own, child):
    situation = run.situation
    if own in situation.down or is_taken(situation, child):
        raise Fault("link taken")
    last = bottom(situation, child)
    situation.down[own] = child
    move(situation, own, last)


def detach(run, at, me):
    """Of an own interaction point its child is taken away, and a child's is taken away from its parent's."""
    situation = run.situation
    own = at
    if at[0] != me:
        own = next((parent for parent, child in situation.down.items() if child == at), None)
    if own in situation.down:
        last = bottom(situation, own)
        del situation.down[own]
        move(situation, last, own)


def begin_child(run, frame, body, element, arguments):
    """`init`: a new instance, its parameters, its initialize part and its first state."""
    situation = run.situation
    number = situation.next
    if number > MOST_NUMBER:
        raise Fault("too many")
    situation.next += 1
    row = situation.rows[number] = Row(number, frame.me, body)
    if frame.me:
        run.living(frame.me).children[element] = number
    for (name, kind), value in zip(body.header.params, arguments):
        row.values[name] = fitted(kind, value)
    if body.first:
        body.first(run, Frame(number, frame.deeper()))
    row.state = body.first_state


def release(run, number):
    situation = run.situation
    parent = situation.rows[number].parent
    for at in external_points(situation.rows[number]):
        detach(run, at, parent)
        disconnect(run, at, parent)
    gone = {number}
    for row in list(situation.rows.values()):
        if row.number in gone or row.parent in gone:
            gone.add(row.number)
            del situation.rows[row.number]
    situation.drop(gone)
