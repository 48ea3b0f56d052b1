"""The script of a dump: its lines, cut to a script's size at a whole event."""
from __future__ import annotations

import itertools
import pathlib
from collections import Counter
from dataclasses import dataclass, field

from .dump import Place
from .events import Event
from .ledger import Ledger
from .limits import MODULUS, MOST_BYTES, MOST_LINES, MOST_PHASES
from .nesting import Node, Tree, ranked, trees_of
from .opening import class_lines, consumer_lines, instrument_lines
from .selection import Selection, Session, Slice, selected
from .settings import ACTORS, OBJECTS, YES, Rules, actors, changes, connected_with, objects, thread_lines
from .texts import cleaned

BACK = "steps back of a session's clock, for events that cross others on the server"
MOVED = "waits moved into their events, since a server times them by another clock"


class Refused(Exception):
    """What was asked for can't be had of this dump."""


@dataclass
class Pen:
    """The lines of a session by phases, counted from 0, and its clock. A line belongs to the phase in which its time
    lies, or to a later one that has begun."""

    origin: int
    length: int | None
    ledger: Ledger
    clock: int = 0
    phase: int = 0
    blocks: dict[int, list[str]] = field(default_factory=dict)

    def at(self, time: int, place: Place) -> None:
        """Moves the clock to this time of the server's, for an event of this place in the dump."""
        time -= self.origin
        if self.length:
            self.phase = max(self.phase, time // self.length)
        if time != self.clock:
            self.put(f"spend {(time - self.clock) % MODULUS}")
        if time < self.clock:
            self.ledger.change(BACK, place)
        self.clock = time

    def put(self, line: str) -> None:
        self.blocks.setdefault(self.phase, []).append(line)

    def put_after_stage(self, line: str) -> None:
        """A line that ends the open stage itself, so that `stage -` just before it says nothing."""
        lines = self.blocks.get(self.phase, [])
        if lines and lines[-1] == "stage -":
            lines.pop()
        self.put(line)


@dataclass
class Writer:
    """Writes the events that come first in their rank."""

    selection: Selection
    most: int
    ledger: Ledger

    def event(self, node: Node, pen: Pen) -> None:
        """The lines of an event and of those inside it."""
        if node.rank >= self.most:
            return
        pen.at(node.start, node.event.place)
        self.begin(node, pen)
        for inner in node.inside:
            self.event(inner, pen)
        pen.at(node.end(), node.event.place)
        self.end(node, pen)

    def begin(self, node: Node, pen: Pen) -> None:
        event, name = node.event, self.selection.class_of(node.event)
        if event.kind == "stages":
            pen.put_after_stage(f"stage {name}")
        elif event.kind == "transactions":
            pen.put(f"start transaction {'rw' if event.writes else 'ro'}")
        elif event.kind == "statements":
            pen.put(f"start {name} {self.text_of(event)}".rstrip(" "))
        else:
            pen.put(f"start {name} {self.selection.table_of(event)}".rstrip(" "))

    def text_of(self, event: Event) -> str:
        """A statement's text as a script may have it."""
        clean = cleaned(event.text)
        for what, count in clean.changes.items():
            self.ledger.change(what, event.place, count)
        return clean.text

    def end(self, node: Node, pen: Pen) -> None:
        if node.event.kind == "stages":
            pen.put("stage -")
        elif node.event.kind == "statements":
            pen.put_after_stage(f"end {' '.join(map(str, node.event.six))}" if any(node.event.six) else "end")
        else:
            pen.put("end")


@dataclass
class Setup:
    """What stands in a script besides its events: lines before the first phase, and lines of SQL in a phase of their
    own, behind which the other sessions connect by these actors."""

    opening: list[str]
    sql: list[str]
    actors: Rules

    def gets(self, session: Session, is_first: bool) -> tuple[str, ...]:
        """The flags that a session gets as it connects; the first one connects before the SQL."""
        return YES if is_first and self.sql else connected_with(self.actors, session)


def setup_of(folder: pathlib.Path, nodes: list[Node], selection: Selection, ledger: Ledger) -> Setup:
    used = {node.event.name for node in nodes}
    opening = class_lines(selection, used) + instrument_lines(folder, used, ledger) + consumer_lines(folder, ledger)
    rules = actors(folder, ledger)
    sql = changes(ACTORS, rules) + changes(OBJECTS, objects(folder, nodes, selection, ledger))
    return Setup(opening, sql, rules)


@dataclass
class Made:
    """A script, and the events that it brings in."""

    lines: list[str]
    nodes: list[Node]
    selection: Selection

    def text(self) -> str:
        return "".join(f"{line}\n" for line in self.lines)

    def fullness(self) -> float:
        """How much of a script's size it takes; over 1 it is too large."""
        return max(len(self.lines) / MOST_LINES, sum(len(line) + 1 for line in self.lines) / MOST_BYTES)


@dataclass
class Maker:
    """Makes the script of as many of the events as are asked for."""

    folder: pathlib.Path
    selection: Selection
    trees: list[Tree]
    order: list[Node]
    phase: int | None

    def made(self, most: int, ledger: Ledger) -> Made:
        nodes = self.order[:most]
        setup = setup_of(self.folder, nodes, self.selection, ledger)
        origin = min((node.start for node in self.order), default=0)
        writer = Writer(self.selection, most, ledger)
        blocks = [(tree.session, self.blocks_of(tree, origin, writer)) for tree in self.trees]
        head = [f"# made by tools/from_server; the clock's 0 is the server's TIMER_START {origin}", *setup.opening]
        return Made(head + phases(setup, [pair for pair in blocks if pair[1]]), nodes, self.selection)

    def blocks_of(self, tree: Tree, origin: int, writer: Writer) -> dict[int, list[str]]:
        """The lines of a session by phases."""
        pen = Pen(origin, self.phase, writer.ledger)
        for node in tree.roots:
            writer.event(node, pen)
        return pen.blocks

    def fullness(self, most: int) -> float:
        return self.made(most, Ledger()).fullness()

    def most_that_fit(self) -> int:
        """How many of the events fit into a script, the first ones. It is looked for where it would lie if all took
        the same room, and now and then in the middle."""
        fit, more = 0, len(self.order)
        fits, full = 0.0, self.fullness(more)
        if full <= 1:
            return more
        for step in itertools.count():
            if more - fit <= 1:
                return fit
            share = 0.5 if step % 4 == 3 else (1 - fits) / (full - fits)
            middle = min(max(fit + int(share * (more - fit)), fit + 1), more - 1)
            fullness = self.fullness(middle)
            if fullness <= 1:
                fit, fits = middle, fullness
            else:
                more, full = middle, fullness


def phases(setup: Setup, blocks: list[tuple[Session, dict[int, list[str]]]]) -> list[str]:
    """The lines of all phases: one for the SQL if there is any, in which the first session connects, then those of
    the events."""
    connected: set[int] = set()
    lines: list[str] = []
    if setup.sql and blocks:
        first = blocks[0][0]
        lines = ["phase", *session_lines(first, setup, connected), *setup.sql]
    count = 1 + max((phase for _, own in blocks for phase in own), default=-1)
    if count + len(connected) > MOST_PHASES:
        raise Refused(f"--phase gives {count + len(connected)} phases, and a script has at most {MOST_PHASES}")
    for phase in range(count):
        lines.append("phase")
        for session, own in ((session, own[phase]) for session, own in blocks if phase in own):
            lines += session_lines(session, setup, connected) + own
    return lines


def session_lines(session: Session, setup: Setup, connected: set[int]) -> list[str]:
    """The line that begins a block of the session, the first time with what connects it and gives it its flags."""
    if session.number in connected:
        return [f"session {session.number}"]
    gets = setup.gets(session, not connected)
    connected.add(session.number)
    head = [f"# thread {session.thread.number}", f"session {session.number} {session.user} {session.host}"]
    return head + thread_lines(session, gets)


def note_moves(nodes: list[Node], ledger: Ledger) -> None:
    """Says how far waits were moved."""
    moves = [node.start - node.event.start for node in nodes if node.start != node.event.start]
    if moves:
        ledger.change(MOVED, f"by {min(moves)} to {max(moves)} picoseconds", len(moves))


def made_of(folder: pathlib.Path, wanted: Slice, ledger: Ledger) -> Made:
    """The script of a dump, or of the slice of it that is wanted, and what of it was left out."""
    selection = selected(folder, wanted, ledger)
    trees = trees_of(selection, ledger)
    maker = Maker(folder, selection, trees, ranked(trees), wanted.phase)
    most = maker.most_that_fit()
    for node in maker.order[most:]:
        ledger.leave(node.event, f"beyond {MOST_BYTES:,} bytes or {MOST_LINES:,} lines")
    made = maker.made(most, ledger)
    note_moves(made.nodes, ledger)
    return made


def summary_of(made: Made) -> str:
    """What the script has, in one line."""
    counts = Counter(node.event.kind for node in made.nodes)
    kinds = ", ".join(f"{count} {kind}" for kind, count in sorted(counts.items()))
    threads, classes = len({node.event.thread for node in made.nodes}), len({node.event.name for node in made.nodes})
    size = f"{len(made.lines)} lines, {len(made.text())} bytes"
    return f"brought in: {len(made.nodes)} events ({kinds}) of {classes} classes in {threads} sessions; {size}"
