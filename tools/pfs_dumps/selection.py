"""Which events of a dump are brought into a script, in which sessions, and under which names."""
from __future__ import annotations

import pathlib
from collections import Counter
from collections.abc import Iterable
from dataclasses import dataclass

from .dump import Fault
from .events import KINDS, Event, Thread, events_of, history_of, threads_of
from .ledger import Ledger
from .limits import BUILT_IN, MODULUS, MOST_SESSIONS, MOST_TABLES, ROOM, TABLE_KINDS, kind_of
from .names import class_names, host_names, schema_names, table_names, user_names

GONE = "its thread is not in threads.tsv: it had ended"
TWICE = "it stands in the dump already"


@dataclass(frozen=True)
class Slice:
    """What was asked for: times are picoseconds from the dump's first event on, threads the server's numbers."""

    begin: int | None = None
    end: int | None = None
    threads: frozenset[int] | None = None
    phase: int | None = None


@dataclass(frozen=True)
class Session:
    """A session of the script, and the thread that it stands for."""

    number: int
    user: str
    host: str
    thread: Thread


@dataclass
class Selection:
    """The server's threads; sessions and events that may be brought in; all events of the dump; and what classes and
    tables are called in the script."""

    threads: dict[int, Thread]
    sessions: list[Session]
    events: dict[int, dict[int, Event]]
    known: dict[int, dict[int, Event]]
    classes: dict[str, str]
    tables: dict[tuple[str, str], str]

    def class_of(self, event: Event) -> str:
        return self.classes[event.name]

    def table_of(self, event: Event) -> str:
        """The table as a script writes it, for a wait of a kind that has one; else nothing."""
        return self.tables[event.table] if event.table and needs_table(event) else ""


def needs_table(event: Event) -> bool:
    return kind_of(event.name) in TABLE_KINDS


def all_events(folder: pathlib.Path, ledger: Ledger) -> list[Event]:
    """The events of all kinds, each of a thread once. A ring that is read while it is written may give one twice."""
    found: dict[tuple[int, int], Event] = {}
    for event in (event for kind in KINDS for event in events_of(folder, kind)):
        if (event.thread, event.number) in found:
            ledger.leave(event, TWICE)
        elif event.around is not None and event.around >= event.number:
            raise Fault(event.place, f"NESTING_EVENT_ID {event.around} is not below EVENT_ID {event.number}")
        else:
            found[event.thread, event.number] = event
    return list(found.values())


def note_files(folder: pathlib.Path, ledger: Ledger) -> None:
    """Says of which kinds there is no history, or an empty one."""
    for path in (history_of(folder, kind) for kind in KINDS):
        if not path.exists():
            ledger.notes.append(f"{path.name} is not there")
        elif path.stat().st_size == 0:
            ledger.notes.append(f"{path.name} is empty: a table without rows")


def note_threads(threads: dict[int, Thread], events: dict[int, dict[int, Event]], ledger: Ledger) -> None:
    """Says how many threads have a user and no session."""
    count = sum(thread.user is not None and thread.number not in events for thread in threads.values())
    if count:
        ledger.notes.append(f"threads with a user that have no events here, and so no session: {count}")


def most_frequent(counts: Counter, room: int) -> set:
    """As many as there is room for, those with the most events first, then by name."""
    return set(sorted(counts, key=lambda name: (-counts[name], name))[:room])


def with_room(events: list[Event]) -> set[str]:
    """The classes that find room in their kinds: the built-in ones have it."""
    counts = Counter(event.name for event in events if event.name not in BUILT_IN)
    found = set(BUILT_IN)
    for kind, room in ROOM.items():
        own = Counter({name: count for name, count in counts.items() if kind_of(name) == kind})
        built_in = sum(kind_of(name) == kind for name in BUILT_IN)
        found |= most_frequent(own, room - built_in if room is not None else 0)
    return found


def in_slice(events: list[Event], wanted: Slice, ledger: Ledger) -> list[Event]:
    """The ended and timed events whose starts are in the slice asked for."""
    events = ledger.kept(events, lambda event: event.ended, "END_EVENT_ID is NULL: it had not ended")
    events = ledger.kept(events, Event.is_timed, "its times are NULL: its class is not TIMED")
    first = min((event.start for event in events), default=0)
    begin = first + (wanted.begin or 0)
    end = MODULUS if wanted.end is None else first + wanted.end
    asked = wanted.threads
    events = ledger.kept(events, lambda event: event.start >= begin, "it began before --from")
    events = ledger.kept(events, lambda event: event.start < end, "it began at --to or later")
    return ledger.kept(events, lambda event: asked is None or event.thread in asked, "of a thread not in --threads")


def of_users(events: list[Event], threads: dict[int, Thread], ledger: Ledger) -> list[Event]:
    """The events of threads that have a user, as many as may be connected at once: those with the least numbers."""
    users = {number for number, thread in threads.items() if thread.user is not None}
    events = ledger.kept(events, lambda event: event.thread in threads, GONE)
    events = ledger.kept(events, lambda event: event.thread in users, "of a thread in the background, without a user")
    first = set(sorted({event.thread for event in events})[:MOST_SESSIONS])
    return ledger.kept(events, lambda event: event.thread in first, f"of a thread behind the first {MOST_SESSIONS}")


def of_classes(events: list[Event], ledger: Ledger) -> list[Event]:
    """The events of classes that a script may have."""
    events = ledger.kept(events, lambda event: kind_of(event.name) is not None, "a script has no such kind of class")
    room = with_room(events)
    return ledger.kept(events, lambda event: event.name in room, "its class is beyond its kind's limit")


def of_tables(events: list[Event], ledger: Ledger) -> list[Event]:
    """The events but for waits for tables that a script can't have."""
    lost = {event for event in events if needs_table(event) and event.table is None}
    events = ledger.kept(events, lambda event: event not in lost, "a wait for a table that the dump doesn't name")
    tables = most_frequent(Counter(event.table for event in events if needs_table(event)), MOST_TABLES)
    beyond = {event for event in events if needs_table(event) and event.table not in tables}
    why = f"of a table beyond the {MOST_TABLES} with the most waits"
    return ledger.kept(events, lambda event: event not in beyond, why)


def sessions_of(threads: Iterable[Thread], ledger: Ledger) -> list[Session]:
    """A session for each thread, numbered in their order."""
    users, hosts = user_names(ledger), host_names(ledger)
    return [
        Session(number, users.of(thread.user or ""), hosts.of(thread.host or ""), thread)
        for number, thread in enumerate(threads, 1)
    ]


def by_thread(events: Iterable[Event]) -> dict[int, dict[int, Event]]:
    """The events by thread and number, ascending by both."""
    found: dict[int, dict[int, Event]] = {}
    for event in sorted(events, key=lambda event: (event.thread, event.number)):
        found.setdefault(event.thread, {})[event.number] = event
    return found


def class_spelling(events: list[Event], ledger: Ledger) -> dict[str, str]:
    """The classes' names in the script; the built-in ones first, so that no other gets one of theirs."""
    names = class_names(ledger)
    return {name: names.of(name) for name in (*BUILT_IN, *sorted({event.name for event in events}))}


def table_spelling(events: list[Event], ledger: Ledger) -> dict[tuple[str, str], str]:
    schemas, tables = schema_names(ledger), table_names(ledger)
    found = sorted({event.table for event in events if event.table and needs_table(event)})
    return {table: f"{schemas.of(table[0])}.{tables.of(table[1])}" for table in found}


def selected(folder: pathlib.Path, wanted: Slice, ledger: Ledger) -> Selection:
    """What the dump of this folder gives to a script, but for what its nesting and its size don't let in."""
    threads = threads_of(folder)
    note_files(folder, ledger)
    found = all_events(folder, ledger)
    events = of_users(in_slice(found, wanted, ledger), threads, ledger)
    events = of_tables(of_classes(events, ledger), ledger)
    grouped = by_thread(events)
    note_threads(threads, grouped, ledger)
    return Selection(
        threads=threads,
        sessions=sessions_of((threads[number] for number in grouped), ledger),
        events=grouped,
        known=by_thread(found),
        classes=class_spelling(events, ledger),
        tables=table_spelling(events, ledger),
    )
