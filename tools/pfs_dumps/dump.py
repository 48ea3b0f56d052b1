"""Tab-separated dumps, as `mysql --batch` writes them, read row by row. Texts are kept byte by byte, as latin-1."""
from __future__ import annotations

import pathlib
import re
from collections.abc import Iterator, Sequence
from dataclasses import dataclass

BYTE_ORDER_MARKS = (b"\xef\xbb\xbf", b"\xff\xfe", b"\xfe\xff")
ESCAPES = {"\\t": "\t", "\\n": "\n", "\\0": "\0", "\\\\": "\\"}


class Fault(Exception):
    """What is wrong with a dump, by its file and line."""

    def __init__(self, place: Place, why: str):
        super().__init__(f"{place}: {why}")


@dataclass(frozen=True, order=True)
class Place:
    """A line of a file, counted from 1."""

    path: str
    line: int

    def __str__(self) -> str:
        return f"{self.path}:{self.line}"


@dataclass(frozen=True)
class Row:
    """A row by its columns, as they stand in the dump: NULL is the text NULL."""

    place: Place
    columns: dict[str, str]

    def text(self, column: str) -> str | None:
        """The column's text without the client's escapes, or None for NULL; a column that isn't there is NULL."""
        field = self.columns.get(column, "NULL")
        if field == "NULL":
            return None
        if "\\" not in field:
            return field
        return re.sub(r"\\.", lambda found: ESCAPES.get(found[0], found[0]), field, flags=re.DOTALL)

    def number(self, column: str) -> int:
        """The column's number."""
        number = self.number_or_null(column)
        if number is None:
            raise Fault(self.place, f"{column} is NULL")
        return number

    def number_or_null(self, column: str) -> int | None:
        field = self.columns.get(column, "NULL")
        if field == "NULL":
            return None
        if not (field.isascii() and field.isdigit()) or len(field) > 20 or int(field) >= 2**64:
            raise Fault(self.place, f"{column} is {field[:40]!r}, no number up to 2^64 - 1")
        return int(field)


def heading_of(place: Place, line: bytes, needed: Sequence[str]) -> list[str]:
    """The columns that the heading names; all that are needed have to be among them."""
    if line.startswith(BYTE_ORDER_MARKS) or b"\0" in line:
        raise Fault(place, "a byte order mark or bytes of 0: dump it in UTF-8, with --default-character-set=utf8mb4")
    columns = line.decode("latin-1").upper().split("\t")
    lacking = [column for column in needed if column not in columns]
    if len(lacking) == len(needed):
        raise Fault(place, "no heading of this table: dump it with --batch, and without --skip-column-names")
    if lacking:
        raise Fault(place, f"the heading has no {', '.join(lacking)}: another table, or one of another version")
    return columns


def row_of(place: Place, line: bytes, columns: list[str]) -> Row:
    fields = line.decode("latin-1").split("\t")
    if len(fields) != len(columns):
        why = f"{len(fields)} fields, and the heading has {len(columns)}: was it dumped with --raw?"
        raise Fault(place, why)
    return Row(place, dict(zip(columns, fields)))


def rows(path: pathlib.Path, needed: Sequence[str]) -> Iterator[Row]:
    """The rows of a dump. A file without a byte has none: for an empty table the client writes no heading either."""
    name = f"{path.parent.name}/{path.name}" if path.parent.name in ("before", "after") else path.name
    with open(path, "rb") as file:
        columns: list[str] = []
        for number, line in enumerate(file, 1):
            place = Place(name, number)
            if not line.endswith(b"\n"):
                raise Fault(place, "the last line has no line feed: the dump was cut")
            line = line[:-1].removesuffix(b"\r")
            if number == 1:
                columns = heading_of(place, line, needed)
            else:
                yield row_of(place, line, columns)
