"""The sums of a dump beside those of a report, and of both beside the server's."""
from __future__ import annotations

from pfs_dumps.dump import Fault
from pfs_dumps.report import Report, report_of
from pfs_dumps.script import Made
from pfs_dumps.server import beside
from pfs_dumps.sums import checked, differences

from .dumps import DumpTest, event, select, wait

GOOD = """pfs-report 1
phase 1
session 1
rows 1
row 'it''s no table'
final
table events_waits_summary_by_user_by_event_name
row 'ann' 'wait/io/file/sql/binlog' 2 16 5 8 11
table events_waits_summary_global_by_event_name
row 'wait/io/file/sql/binlog' 2 16 5 8 11
table events_statements_summary_by_user_by_event_name
row 'ann' 'statement/sql/select' 1 40 40 40 40 3 0 0 0 1 2
table events_statements_summary_global_by_event_name
row 'statement/sql/select' 1 40 40 40 40 3 0 0 0 1 2
table events_transactions_summary_by_user_by_event_name
row 'bob' 'transaction' 2 9 2 4 7 1 7 7 7 7 1 2 2 2 2
table events_transactions_summary_global_by_event_name
row 'transaction' 2 9 2 4 7 1 7 7 7 7 1 2 2 2 2
lost Performance_schema_digest_lost 3
end
"""
COUNTS = ("COUNT_STAR", "SUM_TIMER_WAIT")
SIX = ("LOCK_TIME", "ERRORS", "WARNINGS", "ROWS_AFFECTED", "ROWS_SENT", "ROWS_EXAMINED")


class SumsTest(DumpTest):
    """Two users' events, of which a good report has all but the idle wait."""

    def setUp(self) -> None:
        super().setUp()
        self.events("statements", select(7, 1, 0, 40, LOCK_TIME=3, ROWS_SENT=1, ROWS_EXAMINED=2))
        self.events("waits", wait(7, 2, 1, 5, 1), wait(7, 3, 10, 11, 1), event(7, 4, "idle", 50, 6))
        modes = ("READ WRITE", 0, 7), ("READ ONLY", 8, 2)
        rows = (event(8, 1 + start, "transaction", start, length, ACCESS_MODE=mode) for mode, start, length in modes)
        self.events("transactions", *rows)

    def report(self, text: str = GOOD) -> Report:
        path = self.folder / "report"
        path.write_text(text)
        return report_of(path)


class Sums(SumsTest):
    def test_equal(self) -> None:
        made, report = self.made(), self.report()
        self.assertEqual(differences(made, report), [])
        exact, lost = checked(made, report)
        self.assertTrue(exact.endswith(": 5 events of 3 classes and 2 users"))
        self.assertEqual(lost, "the report lost: Performance_schema_digest_lost 3")

    def test_values_of_a_row(self) -> None:
        table = "table events_statements_summary_by_digest\nrow NULL 'e3b0' 'it''s a''' 12\nlost"
        report = self.report(GOOD.replace("lost", table, 1))
        self.assertEqual(report.tables["events_statements_summary_by_digest"], [(None, "e3b0", "it's a'", 12)])

    def test_each_number_counts(self) -> None:
        made = self.made()
        rows = [line for line in GOOD.splitlines() if line.startswith("row '") and "events" not in line][1:]
        for row in rows:
            for at in (at for at, word in enumerate(row.split(" ")) if word.isdigit()):
                words = row.split(" ")
                words[at] = str(int(words[at]) + 1)
                changed = self.report(GOOD.replace(f"\n{row}\n", f"\n{' '.join(words)}\n"))
                self.assertEqual(len(differences(made, changed)), 1, row)

    def test_rows_that_lack_or_are_too_many(self) -> None:
        made, row = self.made(), "row 'bob' 'transaction' 2 9 2 4 7 1 7 7 7 7 1 2 2 2 2\n"
        self.assertEqual(len(differences(made, self.report(GOOD.replace(row, "")))), 1)
        self.assertEqual(len(differences(made, self.report(GOOD.replace(row, row + row.replace("bob", "eve"))))), 1)

    def test_no_whole_report(self) -> None:
        for text in (GOOD.removesuffix("end\n"), "bad script: line 3 reason 7\n", ""):
            with self.assertRaises(Fault):
                self.report(text)

    def test_a_row_that_is_none(self) -> None:
        with self.assertRaises(Fault) as fault:
            self.report(GOOD.replace("row 'transaction' 2", "row 'transaction 2"))
        self.assertEqual(str(fault.exception), "report:18: no value of a row at byte 3")


class Beside(SumsTest):
    def summaries(self, when: str, waits: list[tuple], statements: list[tuple]) -> None:
        """The server's summaries by user, and globally those of ann; the transactions are those of the dump."""
        six = tuple(f"SUM_{name}" for name in SIX)
        done = [("bob", "transaction", 2, 9)] if when == "after" else []
        for kind, columns, rows in (
            ("waits", COUNTS, waits),
            ("stages", COUNTS, []),
            ("statements", COUNTS + six, statements),
            ("transactions", COUNTS, done),
        ):
            self.table(f"{when}/events_{kind}_summary_by_user_by_event_name", ("USER", "EVENT_NAME", *columns), rows)
            whole = [row[1:] for row in rows]
            self.table(f"{when}/events_{kind}_summary_global_by_event_name", ("EVENT_NAME", *columns), whole)

    def told(self, waits: list[tuple], statements: list[tuple]) -> list[str]:
        self.summaries("before", [("ann", "wait/io/file/sql/binlog", 10, 100)], [])
        self.summaries("after", waits, statements)
        made: Made = self.made()
        lines = beside(self.folder, made, self.ledger, self.report())
        return [line for line in lines if "globally" not in line and "(all)" not in line]

    def test_equal_and_explained(self) -> None:
        waits = [("ann", "wait/io/file/sql/binlog", 12, 116), ("ann", "idle", 1, 6)]
        lines = self.told(waits, [("ann", "statement/sql/select", 1, 40, 3, 0, 0, 0, 1, 2)])
        self.assertEqual(lines[1].split(), ["by", "user", "waits", "2", "1", "1", "0", "0", "3", "2"])
        self.assertEqual(lines[3].split(), ["by", "user", "statements", "1", "1", "0", "0", "0", "1", "1"])
        why = "1 (6 ps) left out: a script has no such kind of class"
        self.assertEqual(lines[5:], [f"waits ann idle: server 1 (6 ps), report 0 (0 ps): {why}"])

    def test_a_row_that_stands_twice_counts_once(self) -> None:
        self.events("waits", wait(7, 2, 1, 5, 1), wait(7, 3, 10, 11, 1), wait(7, 3, 10, 11, 1))
        lines = self.told([("ann", "wait/io/file/sql/binlog", 12, 116)], [])
        self.assertEqual(lines[1].split()[3:8], ["1", "1", "0", "0", "0"])

    def test_otherwise(self) -> None:
        """An event beyond the dump, and the same count with another of the six numbers."""
        idle = ("ann", "idle", 2, 9)
        lines = self.told([idle], [("ann", "statement/sql/select", 1, 40, 4, 0, 0, 0, 1, 2)])
        self.assertEqual(lines[3].split()[3:8], ["1", "0", "0", "0", "1"])
        why = "1 (6 ps) left out: a script has no such kind of class; 1 (3 ps) beyond the dump"
        self.assertIn(f"waits ann idle: server 2 (9 ps), report 0 (0 ps): {why}", lines)
        why = "server 1 (40 ps), report 1 (40 ps): LOCK_TIME 1 beyond the dump"
        self.assertIn(f"statements ann statement/sql/select: {why}", lines)

    def test_rows_of_a_wait_for_a_table(self) -> None:
        io = "wait/io/table/sql/handler"
        columns = ("THREAD_ID", "EVENT_ID", "EVENT_NAME", "TIMER_START", "TIMER_WAIT", "NESTING_EVENT_ID")
        columns += ("OBJECT_SCHEMA", "OBJECT_NAME", "NUMBER_OF_BYTES")
        self.table("events_waits_history_long", columns, [(7, 9, io, 60, 4, None, "shop", "orders", 3)])
        self.summaries("before", [], [])
        self.summaries("after", [("ann", io, 3, 4)], [("ann", "statement/sql/select", 1, 40, 3, 0, 0, 0, 1, 2)])
        text = GOOD.replace("wait/io/file/sql/binlog' 2 16 5 8 11", f"{io}' 1 4 4 4 4")
        lines = beside(self.folder, self.made(), self.ledger, self.report(text))
        why = "2 (0 ps) rows beyond the first of a wait for a table, which the server counts one by one"
        self.assertIn(f"waits ann {io}: server 3 (4 ps), report 1 (4 ps): {why}", lines)
        self.assertEqual(lines[1].split()[3:8], ["1", "0", "1", "0", "0"])

    def test_less_than_before(self) -> None:
        with self.assertRaises(Fault) as fault:
            self.told([("ann", "wait/io/file/sql/binlog", 9, 100)], [])
        why = "wait/io/file/sql/binlog has less than before: was it truncated, or the server restarted?"
        self.assertEqual(str(fault.exception), f"after/events_waits_summary_by_user_by_event_name.tsv:2: {why}")

    def test_what_the_server_lost(self) -> None:
        columns, name = ("Variable_name", "Value"), "Performance_schema_digest_lost"
        self.table("before/status", columns, [(name, 2), ("Performance_schema_users_lost", 0)])
        self.table("after/status", columns, [(name, 5), ("Performance_schema_users_lost", 0)])
        waits = [("ann", "wait/io/file/sql/binlog", 12, 116), ("ann", "idle", 1, 6)]
        lines = self.told(waits, [("ann", "statement/sql/select", 1, 40, 3, 0, 0, 0, 1, 2)])
        self.assertEqual(lines[-1], "the server lost: Performance_schema_digest_lost 3")
