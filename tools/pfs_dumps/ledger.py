"""What was left out of a script, and what stands in it otherwise than in the dump: each with its count."""
from __future__ import annotations

from collections import Counter, defaultdict
from collections.abc import Callable, Iterable
from dataclasses import dataclass, field

from .events import Event

MOST_NAMES = 4


def some(names: Iterable[str]) -> str:
    """The first few names, and how many more there are."""
    names = list(names)
    more = len(names) - MOST_NAMES
    return ", ".join(names[:MOST_NAMES]) + (f" and {more} more" if more > 0 else "")


@dataclass
class Ledger:
    """Events left out, each with the reason; by what was changed how often, with places or examples; and notes."""

    left: list[tuple[Event, str]] = field(default_factory=list)
    notes: list[str] = field(default_factory=list)
    changes: dict[str, list[str]] = field(default_factory=lambda: defaultdict(list))

    def leave(self, event: Event, why: str) -> None:
        self.left.append((event, why))

    def kept(self, events: Iterable[Event], stays: Callable[[Event], bool], why: str) -> list[Event]:
        """The events that stay; the others are left out for this reason."""
        kept = []
        for event in events:
            if stays(event):
                kept.append(event)
            else:
                self.leave(event, why)
        return kept

    def change(self, what: str, example: object, count: int = 1) -> None:
        """Notes that this was changed so often; the example is a place or `old -> new`."""
        self.changes[what].extend([str(example)] * count)

    def told(self) -> list[str]:
        """The lines for standard error, in a fixed order."""
        groups: dict[tuple[str, str], list[Event]] = defaultdict(list)
        for event, why in self.left:
            groups[event.kind, why].append(event)
        lines = [*self.notes]
        lines += [f"left out: {left_line(kind, why, events)}" for (kind, why), events in sorted(groups.items())]
        for what, examples in sorted(self.changes.items()):
            lines.append(f"changed: {what}: {len(examples)} ({some(dict.fromkeys(examples))})")
        return lines


def left_line(kind: str, why: str, events: list[Event]) -> str:
    """What is said of the events of a kind that were left out for one reason."""
    names = Counter(event.name for event in events)
    often = some(f"{name} {count}" for name, count in sorted(names.items(), key=lambda pair: (-pair[1], pair[0])))
    first = min(event.place for event in events)
    return f"{len(events)} {kind}: {why} (first {first}; {often})"
