"""Small dumps for the tests, in a folder that goes with the test."""
from __future__ import annotations

import pathlib
import tempfile
import unittest

from pfs_dumps.events import NEEDED
from pfs_dumps.ledger import Ledger
from pfs_dumps.script import Made, made_of
from pfs_dumps.selection import Slice

THREADS = ("THREAD_ID", "PROCESSLIST_USER", "PROCESSLIST_HOST", "INSTRUMENTED", "HISTORY")


class DumpTest(unittest.TestCase):
    """A test with a folder of dumps: two users' threads, 7 and 8, and a thread in the background, 1."""

    def setUp(self) -> None:
        room = tempfile.TemporaryDirectory()
        self.addCleanup(room.cleanup)
        self.folder = pathlib.Path(room.name)
        self.ledger = Ledger()
        rows = [(1, None, None, "YES", "YES"), (7, "ann", "localhost", "YES", "YES"), (8, "bob", "web-1", "YES", "NO")]
        self.table("threads", THREADS, rows)

    def table(self, name: str, columns: tuple[str, ...], rows: list[tuple]) -> None:
        """A dump of these rows; None is NULL."""
        lines = ["\t".join("NULL" if field is None else str(field) for field in row) for row in (columns, *rows)]
        path = self.folder / f"{name}.tsv"
        path.parent.mkdir(exist_ok=True)
        path.write_bytes("".join(f"{line}\n" for line in lines).encode("latin-1"))

    def events(self, kind: str, *rows: dict) -> None:
        """A history of these events; what isn't given is 0 for a statement's numbers, and else NULL."""
        six = dict.fromkeys(NEEDED[kind][7:] if kind == "statements" else (), 0)
        found = [tuple({**six, **row}.get(column) for column in NEEDED[kind]) for row in rows]
        self.table(f"events_{kind}_history_long", NEEDED[kind], found)

    def made(self, **wanted) -> Made:
        return made_of(self.folder, Slice(**wanted), self.ledger)

    def lines(self, **wanted) -> list[str]:
        """The script's lines without the comments."""
        return [line for line in self.made(**wanted).lines if not line.startswith("#")]

    def reasons(self) -> list[str]:
        return [why for _, why in self.ledger.left]


def event(thread: int, number: int, name: str, start: int | None, length: int | None, around=None, **more) -> dict:
    """The columns of an event."""
    common = {"THREAD_ID": thread, "EVENT_ID": number, "EVENT_NAME": name, "TIMER_START": start, "TIMER_WAIT": length}
    return {**common, "NESTING_EVENT_ID": around, **more}


def wait(thread: int, number: int, start: int, length: int, around=None) -> dict:
    return event(thread, number, "wait/io/file/sql/binlog", start, length, around)


def select(thread: int, number: int, start: int, length: int, around=None, **more) -> dict:
    return event(thread, number, "statement/sql/select", start, length, around, **more)
