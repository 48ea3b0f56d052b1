"""The columns of a history of statements on MySQL 8.0, by its manual, and on MariaDB 10.11 give the same script."""
from __future__ import annotations

from .dumps import DumpTest

FIRST = """THREAD_ID EVENT_ID END_EVENT_ID EVENT_NAME SOURCE TIMER_START TIMER_END TIMER_WAIT LOCK_TIME SQL_TEXT DIGEST
    DIGEST_TEXT CURRENT_SCHEMA OBJECT_TYPE OBJECT_SCHEMA OBJECT_NAME OBJECT_INSTANCE_BEGIN MYSQL_ERRNO RETURNED_SQLSTATE
    MESSAGE_TEXT ERRORS WARNINGS ROWS_AFFECTED ROWS_SENT ROWS_EXAMINED CREATED_TMP_DISK_TABLES CREATED_TMP_TABLES
    SELECT_FULL_JOIN SELECT_FULL_RANGE_JOIN SELECT_RANGE SELECT_RANGE_CHECK SELECT_SCAN SORT_MERGE_PASSES SORT_RANGE
    SORT_ROWS SORT_SCAN NO_INDEX_USED NO_GOOD_INDEX_USED NESTING_EVENT_ID NESTING_EVENT_TYPE NESTING_EVENT_LEVEL"""
COLUMNS = {
    "MySQL 8.0": f"{FIRST} STATEMENT_ID CPU_TIME MAX_CONTROLLED_MEMORY MAX_TOTAL_MEMORY EXECUTION_ENGINE".split(),
    "MariaDB 10.11": FIRST.split(),
}
ROW = {
    **dict.fromkeys("ERRORS WARNINGS ROWS_AFFECTED".split(), 0),
    **{"THREAD_ID": 7, "EVENT_ID": 1, "END_EVENT_ID": 1, "EVENT_NAME": "statement/sql/select", "SQL_TEXT": "SELECT 1"},
    **{"TIMER_START": 40, "TIMER_END": 49, "TIMER_WAIT": 9, "LOCK_TIME": 2, "ROWS_SENT": 1, "ROWS_EXAMINED": 3},
}


class Versions(DumpTest):
    def test_statements(self) -> None:
        wanted = ["start statement/sql/select SELECT 1", "spend 9", "end 2 0 0 0 1 3"]
        for columns in COLUMNS.values():
            self.table("events_statements_history_long", tuple(columns), [tuple(map(ROW.get, columns))])
            self.assertEqual(self.lines()[2:], wanted)

    def test_still_running(self) -> None:
        columns = COLUMNS["MySQL 8.0"]
        row = {**ROW, "END_EVENT_ID": None}
        self.table("events_statements_history_long", tuple(columns), [tuple(map(row.get, columns))])
        self.assertEqual(self.lines(), [])
        self.assertEqual(self.reasons(), ["END_EVENT_ID is NULL: it had not ended"])
