"""Statement texts as a line of a script may have them."""
from __future__ import annotations

import functools
import re
from collections import Counter
from dataclasses import dataclass

# What a script's reader takes for tokens and blanks; a comment to the end of a line stands by itself.
TOKEN = re.compile(
    r"""(?P<remark> \#[^\n]* | --(?=[\t-\r\ ]|\Z)[^\n]* )
      | (?P<blank> [\t-\r\ ]+ )
      | /\* .*? \*/
      | '(?: [^'\\] | '' | \\. )*'
      | "(?: [^"\\] | "" | \\. )*"
      | `(?: [^`] | `` )*`
      | [A-Za-z0-9_$]+
      | (?P<opening> /\* | ['"`] )
      | [(),.;+\-*/%=<>!&|^~?:@{}]""",
    re.VERBOSE | re.DOTALL,
)
OPEN = "statement texts cut where a quote or a comment is left open"
FEEDS = "texts with line feeds or other ends of lines, written as blanks"
BYTES = "bytes that a script can't have there, written as ?"


@dataclass(frozen=True)
class Clean:
    """A text on one line, of bytes and tokens that a script may have, and how often what was changed for that."""

    text: str
    changes: Counter[str]


@functools.cache
def cleaned(text: str) -> Clean:
    """The text made clean. It is cut where a quote or a comment is left open, as servers cut long texts."""
    changes = Counter({FEEDS: 1} if re.search(r"[\n-\r]", text) else {})
    parts, at = [], 0
    while at < len(text):
        found = TOKEN.match(text, at)
        if found and found.lastgroup == "opening":
            changes[OPEN] += 1
            break
        parts.append(token(found, changes) if found else "?")
        changes[BYTES] += not found
        at = found.end() if found else at + 1
    return Clean("".join(parts).strip(" \t"), +changes)


def token(found: re.Match[str], changes: Counter[str]) -> str:
    """A token with its bytes that a script can't have written as ?, and ends of lines as blanks. A comment to the end
    of its line would take the next lines with it, so one that isn't the text's last is dropped."""
    if found.lastgroup == "remark" and found.end() < len(found.string):
        return ""
    line = re.sub(r"[\n-\r]", " ", found[0])
    clean, count = re.subn(r"[^\t\x20-\x7e]", "?", line)
    changes[BYTES] += count
    return clean
