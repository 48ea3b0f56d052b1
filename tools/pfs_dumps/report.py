"""The last tables of a report, read."""
from __future__ import annotations

import pathlib
import re
from dataclasses import dataclass, field

from .dump import Fault, Place

VALUE = re.compile(rb" (?:([0-9]+)|'((?:[^']|'')*)'|(NULL))")
Value = int | str | None


@dataclass
class Report:
    """What stands under a report's last `final`: tables with their rows, and counters of losses."""

    tables: dict[str, list[tuple[Value, ...]]] = field(default_factory=dict)
    lost: dict[str, int] = field(default_factory=dict)


def values_of(place: Place, line: bytes) -> tuple[Value, ...]:
    """The values of a `row` line."""
    values: list[Value] = []
    at = len(b"row")
    while at < len(line):
        found = VALUE.match(line, at)
        if not found:
            raise Fault(place, f"no value of a row at byte {at}")
        number, text, _ = found.groups()
        values.append(int(number) if number else None if text is None else text.decode("ascii").replace("''", "'"))
        at = found.end()
    return tuple(values)


def report_of(path: pathlib.Path) -> Report:
    """The end of a report. Rows of answers stand before it, in the journal."""
    lines = path.read_bytes().split(b"\n")
    if not lines[0].startswith(b"pfs-report ") or lines[-2:] != [b"end", b""]:
        raise Fault(Place(path.name, 1), "no whole report: its first line is `pfs-report 1`, its last one `end`")
    last = max((number for number, line in enumerate(lines) if line == b"final"), default=len(lines))
    report, table = Report(), ""
    for number, line in enumerate(lines[last + 1 : -2], last + 2):
        word, _, rest = line.partition(b" ")
        if word == b"table":
            table = rest.decode("ascii")
        elif word == b"row":
            report.tables.setdefault(table, []).append(values_of(Place(path.name, number), line))
        elif word == b"lost":
            name, _, count = rest.decode("ascii").partition(" ")
            report.lost[name] = int(count)
    return report
