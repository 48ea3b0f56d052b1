"""Names of the server as a script may have them: other bytes become `_`, and different names stay different."""
from __future__ import annotations

import re
from dataclasses import dataclass, field

from .ledger import Ledger
from .limits import MOST_CLASS_BYTES


@dataclass
class Names:
    """The names of one subject. The allowed bytes are those of a class of a regular expression."""

    subject: str
    allowed: str
    most: int
    ledger: Ledger
    given: dict[str, str] = field(default_factory=dict)
    taken: set[str] = field(default_factory=set)

    def of(self, raw: str) -> str:
        """The script's name for the server's; what differs is noted once."""
        if raw not in self.given:
            name = self.free(self.spelled(raw))
            if name != raw:
                self.ledger.change(f"{self.subject} written with _", f"{raw!r} -> {name}")
            self.taken.add(name)
            self.given[raw] = name
        return self.given[raw]

    def spelled(self, raw: str) -> str:
        """The name with no other bytes, no part of which is empty."""
        name = re.sub(r"(?<![^/])(?=/|\Z)", "_", re.sub(f"[^{self.allowed}]", "_", raw))[: self.most]
        return name[:-1] + "_" if name.endswith("/") else name

    def free(self, name: str) -> str:
        """This name, or where another has it already one with a number behind it."""
        number, free = 1, name
        while free in self.taken:
            number += 1
            free = f"{name[: self.most - 1 - len(str(number))]}_{number}"
        return free


def class_names(ledger: Ledger) -> Names:
    """Real classes have blanks and brackets in their names."""
    return Names("names of classes", r"A-Za-z0-9_:./-", MOST_CLASS_BYTES, ledger)


def user_names(ledger: Ledger) -> Names:
    return Names("users", r"A-Za-z0-9_.-", 32, ledger)


def host_names(ledger: Ledger) -> Names:
    return Names("hosts", r"A-Za-z0-9_.-", 60, ledger)


def schema_names(ledger: Ledger) -> Names:
    return Names("schemas", r"A-Za-z0-9_$", 64, ledger)


def table_names(ledger: Ledger) -> Names:
    return Names("tables", r"A-Za-z0-9_$", 64, ledger)
