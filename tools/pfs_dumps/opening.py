"""The lines before a script's first phase: the classes, and the flags with which classes and consumers begin."""
from __future__ import annotations

import pathlib
from collections.abc import Sequence

from .dump import Row, rows
from .ledger import Ledger
from .limits import BUILT_IN, CONSUMERS, NEEDED_CONSUMERS
from .selection import Selection


def setup_rows(folder: pathlib.Path, table: str, needed: Sequence[str]) -> list[Row]:
    """The rows of a setup table, or none where it wasn't dumped."""
    path = folder / f"{table}.tsv"
    return list(rows(path, needed)) if path.exists() else []


def flag(row: Row, column: str) -> str:
    """A flag; where a version has no such column it is YES."""
    return "NO" if row.text(column) == "NO" else "YES"


def consumer_lines(folder: pathlib.Path, ledger: Ledger) -> list[str]:
    """The consumers that don't begin as a script's own do."""
    lines = []
    for row in setup_rows(folder, "setup_consumers", ("NAME", "ENABLED")):
        name, enabled = row.text("NAME"), flag(row, "ENABLED")
        if name not in CONSUMERS:
            ledger.change("consumers that a script hasn't, left out", name)
        elif enabled == "NO" and name in NEEDED_CONSUMERS:
            ledger.change("consumers that are off by now, taken as on since they recorded the events", name)
        elif (enabled == "YES") != CONSUMERS[name]:
            lines.append(f"consumer {name} {enabled}")
    return lines


def instrument_lines(folder: pathlib.Path, used: set[str], ledger: Ledger) -> list[str]:
    """The built-in classes that don't begin as a script's own do. One with events was on when they were recorded."""
    own = {name: "YES YES" if on else "NO NO" for name, on in BUILT_IN.items()}
    wanted = dict(own)
    for row in setup_rows(folder, "setup_instruments", ("NAME", "ENABLED", "TIMED")):
        name, flags = row.text("NAME"), f"{flag(row, 'ENABLED')} {flag(row, 'TIMED')}"
        if name in used and flags != "YES YES":
            ledger.change("classes that are off by now, taken as on since they have events", name)
        if name in own:
            wanted[name] = flags
    wanted.update((name, "YES YES") for name in used & own.keys())
    return [f"instrument {pattern(name)} {wanted[name]}" for name in own if wanted[name] != own[name]]


def pattern(name: str) -> str:
    """The pattern that this name alone is LIKE."""
    return name.replace("_", "\\_")


def class_lines(selection: Selection, used: set[str]) -> list[str]:
    """A line for each class with events that isn't built in."""
    return [f"class {selection.classes[name]} YES YES" for name in sorted(used - BUILT_IN.keys())]
