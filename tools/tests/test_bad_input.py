"""Dumps that are faulty, or have what a script can't have: each is said by its file and line."""
from __future__ import annotations

import unittest

from pfs_dumps.dump import Fault
from pfs_dumps.texts import BYTES, FEEDS, OPEN, cleaned

from .dumps import DumpTest, event, select, wait

WAITS = "events_waits_history_long.tsv"


class BadDump(DumpTest):
    def faulty(self, text: bytes, why: str) -> None:
        """A history of waits of these bytes is refused with these words."""
        (self.folder / WAITS).write_bytes(text)
        with self.assertRaises(Fault) as fault:
            self.made()
        self.assertEqual(str(fault.exception), why)

    def good(self) -> bytes:
        self.events("waits", wait(7, 1, 10, 5))
        return (self.folder / WAITS).read_bytes()

    def test_no_heading(self) -> None:
        row = self.good().split(b"\n", 1)[1]
        why = "no heading of this table: dump it with --batch, and without --skip-column-names"
        self.faulty(row, f"{WAITS}:1: {why}")

    def test_columns_of_another_version(self) -> None:
        text = self.good().replace(b"NESTING_EVENT_ID", b"PARENT_ID").replace(b"TIMER_WAIT", b"WAITED")
        why = "the heading has no TIMER_WAIT, NESTING_EVENT_ID: another table, or one of another version"
        self.faulty(text, f"{WAITS}:1: {why}")

    def test_more_columns_in_another_order(self) -> None:
        heading, row, _ = self.good().split(b"\n")
        turned = [b"\t".join(reversed(line.split(b"\t") + [b"more"])) + b"\n" for line in (heading, row)]
        (self.folder / WAITS).write_bytes(b"".join(turned).lower().replace(b"null", b"NULL"))
        self.assertIn("start wait/io/file/sql/binlog", self.lines())

    def test_text_that_is_not_escaped(self) -> None:
        text = self.good() + b"7\t2\twait/io/file/sql/binlog\n"
        heading = self.good().split(b"\n")[0].count(b"\t") + 1
        self.faulty(text, f"{WAITS}:3: 3 fields, and the heading has {heading}: was it dumped with --raw?")

    def test_no_number(self) -> None:
        for number in ("-10", "1\xb2", ""):
            text = self.good().replace(b"\t10\t", f"\t{number}\t".encode("latin-1"))
            self.faulty(text, f"{WAITS}:2: TIMER_START is {number!r}, no number up to 2^64 - 1")

    def test_number_too_large(self) -> None:
        text = self.good().replace(b"\t10\t", b"\t18446744073709551616\t")
        self.faulty(text, f"{WAITS}:2: TIMER_START is '18446744073709551616', no number up to 2^64 - 1")

    def test_no_event_id(self) -> None:
        self.faulty(self.good().replace(b"\n7\t1\t", b"\n7\tNULL\t"), f"{WAITS}:2: EVENT_ID is NULL")

    def test_cut_dump(self) -> None:
        self.faulty(self.good()[:-1], f"{WAITS}:2: the last line has no line feed: the dump was cut")

    def test_another_table(self) -> None:
        text = self.good().replace(b"wait/io/file/sql/binlog", b"stage/sql/init")
        self.faulty(text, f"{WAITS}:2: EVENT_NAME is stage/sql/init: no event of the kind waits")

    def test_nested_in_a_later_event(self) -> None:
        self.events("waits", wait(7, 1, 10, 5, around=2))
        text = (self.folder / WAITS).read_bytes()
        self.faulty(text, f"{WAITS}:2: NESTING_EVENT_ID 2 is not below EVENT_ID 1")

    def test_wide_characters_and_byte_order_marks(self) -> None:
        why = "a byte order mark or bytes of 0: dump it in UTF-8, with --default-character-set=utf8mb4"
        text = self.good().decode("ascii")
        for encoding in ("utf-16", "utf-16-le", "utf-8-sig"):
            self.faulty(text.encode(encoding), f"{WAITS}:1: {why}")

    def test_ends_of_lines_of_windows(self) -> None:
        text = self.good()
        (self.folder / WAITS).write_bytes(text.replace(b"\n", b"\r\n"))
        self.assertIn("start wait/io/file/sql/binlog", self.lines())

    def test_no_times(self) -> None:
        self.events("waits", wait(7, 1, 10, 5), event(7, 2, "wait/io/file/sql/binlog", None, None))
        self.assertEqual(sum(line.startswith("start") for line in self.lines()), 1)
        told = "1 waits: its times are NULL: its class is not TIMED (first events_waits_history_long.tsv:3; "
        self.assertIn(f"left out: {told}wait/io/file/sql/binlog 1)", self.ledger.told())

    def test_empty_and_lacking_histories_are_told(self) -> None:
        (self.folder / WAITS).write_bytes(b"")
        self.assertEqual(self.lines(), [])
        self.assertIn("events_waits_history_long.tsv is empty: a table without rows", self.ledger.told())
        self.assertIn("events_stages_history_long.tsv is not there", self.ledger.told())


class BadText(DumpTest):
    def told(self, text: str) -> tuple[str, dict[str, int]]:
        """What of a text as the client escapes it stands in the script, and what is said of it."""
        self.events("statements", select(7, 1, 10, 5, SQL_TEXT=text))
        line = next(line for line in self.lines() if line.startswith("start"))
        for places in self.ledger.changes.values():
            self.assertEqual(set(places), {"events_statements_history_long.tsv:2"})
        return line.removeprefix("start statement/sql/select"), {w: len(p) for w, p in self.ledger.changes.items()}

    def test_tabs_and_line_feeds(self) -> None:
        self.assertEqual(self.told("SELECT\\t1,\\n 'a\\\\\\\\b\\nc'"), (" SELECT\t1,  'a\\\\b c'", {FEEDS: 1}))

    def test_remark_before_a_line_feed(self) -> None:
        self.assertEqual(self.told("SELECT 1 -- it's\\nFROM t # the end"), (" SELECT 1  FROM t # the end", {FEEDS: 1}))

    def test_what_is_no_remark(self) -> None:
        self.assertEqual(self.told("SELECT 1--1\\n+2"), (" SELECT 1--1 +2", {FEEDS: 1}))

    def test_letters_of_another_character_set(self) -> None:
        self.assertEqual(self.told("SELECT 'f\xc3\xbcr', gr\xf6\xdfe"), (" SELECT 'f??r', gr??e", {BYTES: 4}))

    def test_bytes_that_begin_no_token(self) -> None:
        self.assertEqual(self.told("SELECT [a] \\\\G \\0"), (" SELECT ?a? ?G ?", {BYTES: 4}))

    def test_text_cut_by_the_server(self) -> None:
        told = self.told("INSERT INTO t VALUES ('it''s', 'lo...")
        self.assertEqual(told, (" INSERT INTO t VALUES ('it''s',", {OPEN: 1}))
        self.assertEqual(cleaned("SELECT 1 /* of").text, "SELECT 1")
        self.assertEqual(cleaned('SELECT "a\\"').text, "SELECT")

    def test_null_and_blank_texts(self) -> None:
        self.assertEqual(self.told(None), ("", {}))
        self.assertEqual(self.told(" \\n"), ("", {FEEDS: 1}))


if __name__ == "__main__":
    unittest.main()
