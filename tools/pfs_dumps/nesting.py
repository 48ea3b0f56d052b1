"""Events one inside another, as a script lets them be, and when they start on one clock.

A server lets events cross: a transaction begins inside the statement that opens it and ends inside the one that
commits, and a stage may outlast the start of a nested statement. A script's events are brackets. So an event stands in
the nearest event around it that may hold it, and a transaction in none; its times stay as they are."""
from __future__ import annotations

from collections.abc import Iterator
from dataclasses import dataclass, field

from .events import Event
from .ledger import Ledger
from .limits import MOST_STATEMENTS, MOST_WAITS
from .selection import Selection, Session

MAY_HOLD = {
    "waits": ("waits", "stages", "statements", "transactions"),
    "stages": ("statements",),
    "statements": ("statements", "transactions"),
    "transactions": (),
}
NO_STATEMENT = "its statement is left out"
LOST_STATEMENT = "its statement is not in the dump: it began before, and was not over or no longer in the history"
MOST_DEEP = {"waits": MOST_WAITS, "stages": 1, "statements": MOST_STATEMENTS, "transactions": 1}


@dataclass
class Node:
    """An event with the events inside it, ascending by number. Its start is the server's, moved for waits (see
    `move_waits`), and its rank the order in which events are brought in where a script has no room for all."""

    event: Event
    around: Node | None
    start: int
    depth: int
    inside: list[Node] = field(default_factory=list)
    rank: int = 0

    def end(self) -> int:
        return self.start + self.event.length


@dataclass
class Tree:
    """The events of a session that stand in no other."""

    session: Session
    roots: list[Node]


def holder(event: Event, known: dict[int, Event], nodes: dict[int, Node]) -> Node | None:
    """The nearest event around this one that is brought in and may hold it."""
    number = event.around
    while number in known:
        if number in nodes and known[number].kind in MAY_HOLD[event.kind]:
            return nodes[number]
        number = known[number].around
    return None


def depth_in(event: Event, around: Node | None) -> int:
    """How many events of its kind are open with it, one in another."""
    same = around
    while same and same.event.kind != event.kind:
        same = same.around
    return same.depth + 1 if same else 1


def tree_of(session: Session, selection: Selection, ledger: Ledger) -> Tree:
    """The session's events one inside another; what may not stand where it would is left out."""
    number = session.thread.number
    nodes: dict[int, Node] = {}
    for event in selection.events[number].values():
        around = holder(event, selection.known[number], nodes)
        depth = depth_in(event, around)
        if event.kind == "stages" and around is None:
            ledger.leave(event, NO_STATEMENT if event.around in selection.known[number] else LOST_STATEMENT)
        elif depth > MOST_DEEP[event.kind]:
            ledger.leave(event, f"more than {MOST_DEEP[event.kind]} of its kind are open one in another")
        else:
            nodes[event.number] = Node(event, around, event.start, depth)
            if around:
                around.inside.append(nodes[event.number])
    return Tree(session, [node for node in nodes.values() if node.around is None])


def in_order(nodes: list[Node]) -> Iterator[Node]:
    """These events and those inside them, each before what is inside it."""
    for node in nodes:
        yield node
        yield from in_order(node.inside)


def all_nodes(trees: list[Tree]) -> list[Node]:
    return [node for tree in trees for node in in_order(tree.roots)]


def timed_around(event: Event, known: dict[int, Event]) -> Event | None:
    """The nearest event around this one that is timed by the other clock, whether or not it is brought in."""
    around = known.get(event.around)
    while around and (around.kind == "waits" or not around.is_timed()):
        around = known.get(around.around)
    return around


def needed_move(wait: Event, around: Event | None, moved: int) -> int:
    """How far the wait is moved so that it lies in the event around it, as near to the move before as it can be. One
    that is longer than that event is moved as the one before."""
    if around is None or around.length < wait.length:
        return moved
    latest = around.start + around.length - wait.length
    return min(max(wait.start + moved, around.start), latest) - wait.start


def move(node: Node, by: int) -> None:
    """Moves an event and those in it."""
    for each in in_order([node]):
        each.start += by


def move_waits(trees: list[Tree], selection: Selection) -> None:
    """Servers time waits by another clock than the other kinds, and the two drift apart. Each wait is moved, and with
    it those inside it, by what lets it lie in its event; lengths stay as they are."""
    waits = [node for node in all_nodes(trees) if node.event.kind == "waits" and node.depth == 1]
    moved = 0
    for wait in sorted(waits, key=lambda node: (node.start, node.event.thread, node.event.number)):
        known = selection.known[wait.event.thread]
        moved = needed_move(wait.event, timed_around(wait.event, known), moved)
        move(wait, moved)


def ranked(trees: list[Tree]) -> list[Node]:
    """All events, ordered by their starts; each stands behind the event around it."""
    latest: dict[int, int] = {}
    for node in all_nodes(trees):
        latest[id(node)] = max(node.start, latest[id(node.around)] if node.around else node.start)
    order = sorted(all_nodes(trees), key=lambda node: (latest[id(node)], node.event.thread, node.event.number))
    for rank, node in enumerate(order):
        node.rank = rank
    return order


def trees_of(selection: Selection, ledger: Ledger) -> list[Tree]:
    """The events of all sessions that may be brought in."""
    trees = [tree_of(session, selection, ledger) for session in selection.sessions]
    move_waits(trees, selection)
    return trees
