"""Sums of a dump's events by class and user, and whether a report's summaries have exactly these."""
from __future__ import annotations

from collections import defaultdict
from collections.abc import Iterable
from dataclasses import dataclass

from .events import KINDS, Event
from .limits import MODULUS
from .report import Report, Value
from .script import Made

Key = tuple[str, ...]


@dataclass
class Sum:
    """What a summary row has: count, sum, least and greatest of timed events, and the sums of statements' numbers."""

    count: int = 0
    total: int = 0
    least: int = MODULUS - 1
    greatest: int = 0
    six: tuple[int, ...] = (0,) * 6

    def add(self, event: Event) -> None:
        self.count += 1
        self.total += event.length
        self.least = min(self.least, event.length)
        self.greatest = max(self.greatest, event.length)
        if event.six:
            self.six = tuple(sum(pair) for pair in zip(self.six, event.six))

    def five(self) -> tuple[int, ...]:
        """The numbers as a report has them."""
        total = self.total % MODULUS
        return (self.count, total, self.least, total // self.count, self.greatest) if self.count else (0,) * 5


def sum_of(events: Iterable[Event]) -> Sum:
    total = Sum()
    for event in events:
        total.add(event)
    return total


def numbers_of(kind: str, events: list[Event]) -> tuple[int, ...]:
    """The numbers of a summary row of these events, which are of one kind."""
    whole = sum_of(events)
    if kind == "statements":
        return whole.five() + tuple(number % MODULUS for number in whole.six)
    if kind == "transactions":
        writes = sum_of(event for event in events if event.writes)
        reads = sum_of(event for event in events if not event.writes)
        return whole.five() + writes.five() + reads.five()
    return whole.five()


def grouped(made: Made, kind: str, by_user: bool) -> dict[Key, list[Event]]:
    """The events of a kind that were brought in by class, and by user before it where that is wanted."""
    users = {session.thread.number: session.user for session in made.selection.sessions}
    groups: dict[Key, list[Event]] = defaultdict(list)
    for event in (node.event for node in made.nodes if node.event.kind == kind):
        name = made.selection.class_of(event)
        groups[(users[event.thread], name) if by_user else (name,)].append(event)
    return groups


def table_name(kind: str, by_user: bool) -> str:
    return f"events_{kind}_summary_{'by_user' if by_user else 'global'}_by_event_name"


def reported(report: Report, kind: str, by_user: bool) -> dict[Key, tuple[Value, ...]]:
    """The report's rows of this summary by their key."""
    length = 2 if by_user else 1
    return {row[:length]: row[length:] for row in report.tables.get(table_name(kind, by_user), [])}


def differences(made: Made, report: Report) -> list[str]:
    """What differs between the sums of the events brought in and the report, by class and by user and class."""
    lines = []
    for kind, by_user in ((kind, by_user) for kind in KINDS for by_user in (True, False)):
        wanted = {key: numbers_of(kind, events) for key, events in grouped(made, kind, by_user).items()}
        found = reported(report, kind, by_user)
        for key in sorted(wanted.keys() | found.keys()):
            if wanted.get(key) != found.get(key):
                row = f"{table_name(kind, by_user)} {' '.join(key)}"
                lines.append(f"{row}: the dump has {wanted.get(key)}, the report {found.get(key)}")
    return lines


def checked(made: Made, report: Report) -> list[str]:
    """That the report's summaries are the dump's own sums, and its counters of losses; or the lines of what differs."""
    wrong = differences(made, report)
    if wrong:
        return [f"the report differs from the events brought in: {line}" for line in wrong]
    keys = [key for kind in KINDS for key in grouped(made, kind, True)]
    users, classes = {user for user, _ in keys}, {name for _, name in keys}
    of = f"{len(made.nodes)} events of {len(classes)} classes and {len(users)} users"
    exact = f"the report has exactly the dump's own counts, sums, least and greatest, by class and by user: {of}"
    return [exact, *(f"the report lost: {name} {count}" for name, count in report.lost.items())]
