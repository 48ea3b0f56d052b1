"""The SQL that gives a script the server's actors and objects, and each session its thread's flags."""
from __future__ import annotations

import pathlib
import re
from collections.abc import Iterable, Sequence
from dataclasses import dataclass

from .ledger import Ledger
from .limits import MOST_SETUP_ROWS, OBJECT_TYPES, SYSTEM_SCHEMAS
from .nesting import Node
from .opening import flag, setup_rows
from .selection import Selection, Session, needs_table

Key = tuple[str, ...]
Flags = tuple[str, ...]
Rules = dict[Key, Flags]
YES: Flags = ("YES", "YES")
NO: Flags = ("NO", "NO")


@dataclass(frozen=True)
class Table:
    """A setup table of rules: its columns, the rows that it has at first, and the bytes of its names in a script."""

    name: str
    keys: Sequence[str]
    flags: Sequence[str]
    opening: Rules
    allowed: str

    def spelled(self, name: str) -> str:
        return re.sub(f"[^{self.allowed}]", "_", name, flags=re.ASCII)

    def condition(self, key: Key) -> str:
        """What meets the rule of this key alone."""
        return " AND ".join(f"{column} = '{value}'" for column, value in zip(self.keys, key))


ACTORS = Table("setup_actors", ("HOST", "USER", "ROLE"), ("ENABLED", "HISTORY"), {("%", "%", "%"): YES}, r"\w.%-")
OBJECTS = Table(
    "setup_objects",
    ("OBJECT_TYPE", "OBJECT_SCHEMA", "OBJECT_NAME"),
    ("ENABLED", "TIMED"),
    {(of, at, "%"): YES if at == "%" else NO for of in OBJECT_TYPES for at in ("%", *SYSTEM_SCHEMAS)},
    r"\w$%",
)


def rules_of(folder: pathlib.Path, table: Table) -> Rules:
    """The rules as dumped, with names as a script writes them, or the opening ones where they weren't dumped."""
    if not (folder / f"{table.name}.tsv").exists():
        return dict(table.opening)
    return {
        tuple(table.spelled(row.text(key) or "") for key in table.keys): tuple(flag(row, name) for name in table.flags)
        for row in setup_rows(folder, table.name, table.keys)
    }


def within_limits(table: Table, rules: Rules, ledger: Ledger) -> Rules:
    """The rules that a script's table may have."""
    fit = {key: flags for key, flags in rules.items() if table is ACTORS or key[0] in OBJECT_TYPES}
    kept = dict(list(fit.items())[:MOST_SETUP_ROWS])
    for key in rules.keys() - kept.keys():
        ledger.change(f"rows of {table.name} that a script can't have, left out", "/".join(key))
    return kept


def changes(table: Table, wanted: Rules) -> list[str]:
    """The lines of SQL that make the opening rows those that are wanted."""
    gone = [key for key in table.opening if key not in wanted]
    lines = [f"sql DELETE FROM {table.name} WHERE {table.condition(key)}" for key in gone]
    for key, flags in wanted.items():
        if key not in table.opening:
            values = ", ".join(f"'{value}'" for value in (*key, *flags))
            lines.append(f"sql INSERT INTO {table.name} VALUES ({values})")
        elif table.opening[key] != flags:
            pairs = ", ".join(f"{column} = '{value}'" for column, value in zip(table.flags, flags))
            lines.append(f"sql UPDATE {table.name} SET {pairs} WHERE {table.condition(key)}")
    return lines


def decided(rules: Rules, keys: Iterable[Key]) -> Flags:
    """The flags of the first of these keys that has a rule."""
    return next((rules[key] for key in keys if key in rules), NO)


def objects(folder: pathlib.Path, nodes: list[Node], selection: Selection, ledger: Ledger) -> Rules:
    """The server's objects. A table with events was on when they were recorded."""
    rules = rules_of(folder, OBJECTS)
    for table in sorted({selection.table_of(node.event) for node in nodes if needs_table(node.event)}):
        schema, name = table.split(".")
        own = ("TABLE", schema, name)
        if decided(rules, [own, ("TABLE", schema, "%"), ("TABLE", "%", "%")]) != YES:
            ledger.change("tables that are off by setup_objects, taken as on since they have events", table)
            rules = {own: YES, **{key: flags for key, flags in rules.items() if key != own}}
    return within_limits(OBJECTS, rules, ledger)


def actors(folder: pathlib.Path, ledger: Ledger) -> Rules:
    return within_limits(ACTORS, rules_of(folder, ACTORS), ledger)


def connected_with(rules: Rules, session: Session) -> Flags:
    """The flags that a session gets as it connects under these actors: of several roles those of the least."""
    places = [(session.host, session.user), ("%", session.user), (session.host, "%"), ("%", "%")]
    return decided(rules, [key for place in places for key in sorted(rules) if key[:2] == place])


def thread_lines(session: Session, gets: Flags) -> list[str]:
    """What gives the session its thread's flags, where it doesn't get them as it connects. It has events, so its
    thread was instrumented."""
    wanted = ("YES", "YES" if session.thread.history else "NO")
    if gets == wanted:
        return []
    pairs = ", ".join(f"{column} = '{value}'" for column, value in zip(("INSTRUMENTED", "HISTORY"), wanted))
    return [f"sql UPDATE threads SET {pairs} WHERE THREAD_ID = {session.number}"]
