"""The server's own summaries beside those of a report."""
from __future__ import annotations

import pathlib
from collections import Counter, defaultdict
from collections.abc import Iterator
from dataclasses import dataclass, field

from .dump import Fault, Row, rows
from .events import KINDS, SIX, Event
from .ledger import Ledger
from .report import Report
from .script import Made
from .selection import TWICE
from .sums import reported, table_name

# A count, a sum of times, and of statements the sums of their six numbers.
Tally = tuple[int, ...]
# The user, or `(all)`, or None in the background; and the class, as the server writes them.
Key = tuple[str | None, str]
ALL = "(all)"
LOST = "Performance_schema"
VERDICTS = ("equal", "explained", "known", "otherwise")
ROWS = "rows beyond the first of a wait for a table, which the server counts one by one"
# What a server counts otherwise than it records it, by how the class begins. Seen on MariaDB 10.11.
KNOWN = {
    "wait/io/socket/": "the server adds a socket's waits to its thread as the connection ends",
    "wait/io/file/": "the server records no open that fails",
}
TWICE_IDLE = "the server counts each idle wait twice globally"
BACKGROUND = "threads in the background go on between two dumps"


def width(kind: str) -> int:
    return 8 if kind == "statements" else 2


def plus(one: Tally, other: Tally) -> Tally:
    return tuple(a + b for a, b in zip(one, other))


def minus(one: Tally, other: Tally) -> Tally:
    return tuple(a - b for a, b in zip(one, other))


def tally_of(event: Event) -> Tally:
    return (1, event.length or 0, *event.six)


@dataclass
class Compared:
    """A row of the server's summary, the report's, and by reason what the server has beyond the report."""

    key: Key
    server: Tally
    report: Tally
    reasons: dict[str, Tally] = field(default_factory=dict)

    def rest(self) -> Tally:
        """What the server has beyond the dump."""
        rest = minus(self.server, self.report)
        for tally in self.reasons.values():
            rest = minus(rest, tally)
        return rest

    def verdict(self) -> str:
        if any(self.rest()):
            return "otherwise" if self.known() is None else "known"
        return "explained" if self.reasons else "equal"

    def known(self) -> str | None:
        """What is known of servers that may be why this row differs from the dump."""
        user, name = self.key
        if user == ALL and name == "idle":
            return TWICE_IDLE
        otherwise = BACKGROUND if user is None else None
        return next((why for begin, why in KNOWN.items() if name.startswith(begin)), otherwise)


def summary(path: pathlib.Path, kind: str, by_user: bool) -> dict[Key, tuple[Row, Tally]]:
    """The rows of a summary that was dumped."""
    sums = ("COUNT_STAR", "SUM_TIMER_WAIT", *(f"SUM_{name}" for name in SIX))[: width(kind)]
    found = {}
    for row in rows(path, (*(["USER"] if by_user else []), "EVENT_NAME", *sums)):
        user = row.text("USER") if by_user else ALL
        found[user, row.text("EVENT_NAME") or ""] = row, tuple(row.number(name) for name in sums)
    return found


def between(folder: pathlib.Path, kind: str, by_user: bool) -> dict[Key, Tally]:
    """What the server counted between its two dumps, without the rows of nothing."""
    name = f"{table_name(kind, by_user)}.tsv"
    before = summary(folder / "before" / name, kind, by_user)
    found = {}
    for key, (row, tally) in summary(folder / "after" / name, kind, by_user).items():
        grown = minus(tally, before[key][1]) if key in before else tally
        if min(grown) < 0:
            raise Fault(row.place, f"{key[1]} has less than before: was it truncated, or the server restarted?")
        if any(grown):
            found[key] = grown
    return found


def in_report(made: Made, report: Report, kind: str, by_user: bool) -> dict[Key, Tally]:
    """The report's rows under the server's names."""
    selection = made.selection
    users = {session.user: session.thread.user for session in selection.sessions}
    names = {name: raw for raw, name in selection.classes.items()}
    found = {}
    for key, numbers in reported(report, kind, by_user).items():
        user = users[key[0]] if by_user else ALL
        found[user, names[key[-1]]] = (*numbers[:2], *numbers[5:])[: width(kind)]
    return found


def told_apart(made: Made, ledger: Ledger, kind: str) -> Iterator[tuple[Event, str, Tally]]:
    """The events that the server counts and the report doesn't, or not so often, with the reason."""
    every = [*((node.event, None) for node in made.nodes), *ledger.left]
    for event, why in ((event, why) for event, why in every if event.kind == kind and why != TWICE):
        if why is not None:
            yield event, f"left out: {why}", tally_of(event)
        if event.rows != 1:
            yield event, ROWS, (event.rows - 1, 0)


def reasons_of(made: Made, ledger: Ledger, kind: str, by_user: bool) -> dict[Key, dict[str, Tally]]:
    """What the server counts beyond the report, by reason. By user only where the event's thread is known."""
    threads = made.selection.threads
    found: dict[Key, dict[str, Tally]] = defaultdict(dict)
    for event, why, tally in told_apart(made, ledger, kind):
        if not by_user or event.thread in threads:
            reasons = found[threads[event.thread].user if by_user else ALL, event.name]
            reasons[why] = plus(reasons.get(why, (0,) * width(kind)), tally)
    return {key: {why: tally for why, tally in reasons.items() if any(tally)} for key, reasons in found.items()}


def compared(folder: pathlib.Path, made: Made, ledger: Ledger, report: Report) -> Iterator[tuple[str, bool, list]]:
    """For each kind, by user and globally: the rows of any of the three."""
    for kind, by_user in ((kind, by_user) for by_user in (True, False) for kind in KINDS):
        server, own = between(folder, kind, by_user), in_report(made, report, kind, by_user)
        reasons, nothing = reasons_of(made, ledger, kind, by_user), (0,) * width(kind)
        keys = sorted(server.keys() | own.keys() | reasons.keys(), key=lambda key: (key[0] or "", key[1]))
        yield kind, by_user, [
            Compared(key, server.get(key, nothing), own.get(key, nothing), reasons.get(key, {})) for key in keys
        ]


def amount(tally: Tally) -> str:
    return f"{tally[0]} ({tally[1]} ps)"


def row_line(kind: str, row: Compared) -> str:
    """A row that differs, with the reasons that are known."""
    reasons = [f"{amount(tally)} {why}" for why, tally in sorted(row.reasons.items())]
    rest = row.rest()
    if any(rest[:2]):
        because = f": {row.known()}" if row.known() else ""
        reasons.append(f"{amount(rest)} beyond the dump{because}")
    reasons += [f"{name} {number} beyond the dump" for name, number in zip(SIX, rest[2:]) if number]
    both = f"server {amount(row.server)}, report {amount(row.report)}"
    return f"{kind} {row.key[0] or '(background)'} {row.key[1]}: {both}: {'; '.join(reasons)}"


def total_line(kind: str, by_user: bool, found: list[Compared]) -> str:
    """How many rows are equal, explained, or differ otherwise, and how many events each side has."""
    verdicts = Counter(row.verdict() for row in found)
    server, own = sum(row.server[0] for row in found), sum(row.report[0] for row in found)
    numbers = (len(found), *(verdicts[verdict] for verdict in VERDICTS), server, own)
    return f"{'by user' if by_user else 'globally':<9}{kind:<13}" + "".join(f"{number:>11}" for number in numbers)


HEADING = f"{'':<22}" + "".join(
    f"{name:>11}" for name in ("rows", *VERDICTS, "server", "report")
)


def losses(folder: pathlib.Path) -> list[str]:
    """The server's own counters of losses that rose, where they were dumped."""
    paths = [folder / when / "status.tsv" for when in ("before", "after")]
    if not all(path.exists() for path in paths):
        return []
    before, after = (
        {row.text("VARIABLE_NAME") or "": row.number("VALUE") for row in rows(path, ("VARIABLE_NAME", "VALUE"))}
        for path in paths
    )
    grown = {name: count - before.get(name, 0) for name, count in after.items() if name.startswith(LOST)}
    return [f"the server lost: {name} {count}" for name, count in grown.items() if count]


def beside(folder: pathlib.Path, made: Made, ledger: Ledger, report: Report) -> list[str]:
    """The table of both, and the rows that differ."""
    totals, lines = [], []
    for kind, by_user, found in compared(folder, made, ledger, report):
        totals.append(total_line(kind, by_user, found))
        lines += [row_line(kind, row) for row in found if row.verdict() != "equal"]
    return [HEADING, *totals, *lines, *losses(folder)]
