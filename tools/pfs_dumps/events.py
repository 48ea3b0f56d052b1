"""The events of a dump's histories, and the threads to which they belong."""
from __future__ import annotations

import pathlib
from collections.abc import Iterator
from dataclasses import dataclass

from .dump import Fault, Place, Row, rows

KINDS = ("waits", "stages", "statements", "transactions")
SIX = ("LOCK_TIME", "ERRORS", "WARNINGS", "ROWS_AFFECTED", "ROWS_SENT", "ROWS_EXAMINED")
TABLE_IO = "wait/io/table/sql/handler"
OF_ALL = ("THREAD_ID", "EVENT_ID", "EVENT_NAME", "TIMER_START", "TIMER_WAIT", "NESTING_EVENT_ID")
BEGINNINGS = {"waits": ("wait/", "idle"), "stages": "stage/", "statements": "statement/", "transactions": "transaction"}
NEEDED = {
    "waits": (*OF_ALL, "OBJECT_SCHEMA", "OBJECT_NAME"),
    "stages": OF_ALL,
    "statements": (*OF_ALL, "SQL_TEXT", *SIX),
    "transactions": (*OF_ALL, "ACCESS_MODE"),
}


@dataclass(frozen=True)
class Event:
    """An event as the server recorded it. Its number is its thread's, over all kinds in the order of their starts;
    start and length are None where it was not timed. One wait for a table may stand for several rows, or none."""

    place: Place
    kind: str
    thread: int
    number: int
    name: str
    start: int | None
    length: int | None
    around: int | None
    text: str = ""
    six: tuple[int, ...] = ()
    table: tuple[str, str] | None = None
    rows: int = 1
    writes: bool = True
    ended: bool = True

    def is_timed(self) -> bool:
        return self.start is not None and self.length is not None


@dataclass(frozen=True)
class Thread:
    """A thread of the server; one in the background has no user and no host."""

    number: int
    user: str | None
    host: str | None
    instrumented: bool
    history: bool


def event_of(row: Row, kind: str) -> Event:
    """The event of a row of the history of this kind."""
    class_name, schema, table = (row.text(column) for column in ("EVENT_NAME", "OBJECT_SCHEMA", "OBJECT_NAME"))
    if not (class_name or "").startswith(BEGINNINGS[kind]):
        raise Fault(row.place, f"EVENT_NAME is {class_name}: no event of the kind {kind}")
    rows_read = row.number_or_null("NUMBER_OF_BYTES") if class_name == TABLE_IO else None
    return Event(
        place=row.place,
        kind=kind,
        thread=row.number("THREAD_ID"),
        number=row.number("EVENT_ID"),
        name=class_name or "",
        start=row.number_or_null("TIMER_START"),
        length=row.number_or_null("TIMER_WAIT"),
        around=row.number_or_null("NESTING_EVENT_ID"),
        text=row.text("SQL_TEXT") or "",
        six=tuple(row.number(column) for column in SIX) if kind == "statements" else (),
        table=(schema, table) if schema is not None and table is not None else None,
        rows=1 if rows_read is None else rows_read,
        writes=row.text("ACCESS_MODE") != "READ ONLY",
        ended="END_EVENT_ID" not in row.columns or row.number_or_null("END_EVENT_ID") is not None,
    )


def history_of(folder: pathlib.Path, kind: str) -> pathlib.Path:
    return folder / f"events_{kind}_history_long.tsv"


def events_of(folder: pathlib.Path, kind: str) -> Iterator[Event]:
    """The events of a kind, in the dump's order; none where its history wasn't dumped."""
    path = history_of(folder, kind)
    if path.exists():
        yield from (event_of(row, kind) for row in rows(path, NEEDED[kind]))


def thread_of(row: Row) -> Thread:
    """A thread; where a version has no column HISTORY it is YES."""
    return Thread(
        number=row.number("THREAD_ID"),
        user=row.text("PROCESSLIST_USER"),
        host=row.text("PROCESSLIST_HOST"),
        instrumented=row.text("INSTRUMENTED") != "NO",
        history=row.text("HISTORY") != "NO",
    )


def threads_of(folder: pathlib.Path) -> dict[int, Thread]:
    """The threads by number: those of the dump, and before them those of the dump made before the load, if there is
    one, for threads that have ended since."""
    needed = ("THREAD_ID", "PROCESSLIST_USER", "PROCESSLIST_HOST", "INSTRUMENTED")
    found = {}
    for path in (folder / "before" / "threads.tsv", folder / "threads.tsv"):
        if path.exists() or path.parent == folder:
            found.update((thread.number, thread) for thread in (thread_of(row) for row in rows(path, needed)))
    return found
