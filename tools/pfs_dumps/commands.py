"""The words of the tools, and what they do."""
from __future__ import annotations

import argparse
import pathlib
import re
import sys

from .dump import Fault
from .ledger import Ledger
from .report import report_of
from .script import Refused, made_of, summary_of
from .selection import Slice
from .server import beside
from .sums import checked, differences

UNITS = {"ps": 1, "ns": 10**3, "us": 10**6, "ms": 10**9, "s": 10**12}


def duration(word: str) -> int:
    """A time in picoseconds."""
    found = re.fullmatch(r"([0-9]+)(ps|ns|us|ms|s)", word)
    if not found:
        raise argparse.ArgumentTypeError(f"{word!r} is no number with ps, ns, us, ms or s behind it")
    return int(found[1]) * UNITS[found[2]]


def length(word: str) -> int:
    """A time over 0 in picoseconds."""
    if duration(word) == 0:
        raise argparse.ArgumentTypeError("a phase has a length")
    return duration(word)


def threads(word: str) -> frozenset[int]:
    """Numbers of threads with commas between them."""
    if not re.fullmatch(r"[0-9]+(,[0-9]+)*", word):
        raise argparse.ArgumentTypeError(f"{word!r} is no list of numbers with commas between them")
    return frozenset(map(int, word.split(",")))


def parser_of(described: str) -> argparse.ArgumentParser:
    """The words that both tools have: a slice and a folder."""
    formatter = argparse.RawDescriptionHelpFormatter
    parser = argparse.ArgumentParser(description=described, formatter_class=formatter, allow_abbrev=False)
    parser.add_argument("--from", type=duration, dest="begin", metavar="T")
    parser.add_argument("--to", type=duration, dest="end", metavar="T")
    parser.add_argument("--threads", type=threads, metavar="N,..")
    parser.add_argument("--phase", type=length, metavar="T")
    parser.add_argument("dumps", type=pathlib.Path, metavar="DUMPS")
    return parser


def slice_of(words: argparse.Namespace) -> Slice:
    return Slice(words.begin, words.end, words.threads, words.phase)


def from_server(described: str) -> int:
    """The script goes to standard output, what is said of it to standard error."""
    words, ledger = parser_of(described).parse_args(), Ledger()
    try:
        made = made_of(words.dumps, slice_of(words), ledger)
    except (Fault, Refused, OSError) as error:
        print(f"from_server: {error}", file=sys.stderr)
        return 1
    for line in (summary_of(made), *ledger.told()):
        print(f"from_server: {line}", file=sys.stderr)
    sys.stdout.write(made.text())
    return 0


def beside_server(described: str) -> int:
    """All goes to standard output; the status is 1 where the report isn't that of the dump."""
    parser, ledger = parser_of(described), Ledger()
    parser.add_argument("report", type=pathlib.Path, metavar="REPORT")
    words = parser.parse_args()
    try:
        made, report = made_of(words.dumps, slice_of(words), ledger), report_of(words.report)
        wrong = differences(made, report)
        print(*(checked(made, report)), sep="\n")
        if (words.dumps / "after").exists() and not wrong:
            print(*beside(words.dumps, made, ledger, report), sep="\n")
    except (Fault, Refused, OSError) as error:
        print(f"beside_server: {error}", file=sys.stderr)
        return 1
    return 1 if wrong else 0
