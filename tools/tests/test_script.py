"""What of a dump is brought into a script, and as which lines."""
from __future__ import annotations

from pfs_dumps.limits import MOST_BYTES
from pfs_dumps.script import BACK, Refused
from pfs_dumps.selection import GONE, TWICE

from .dumps import THREADS, DumpTest, event, select, wait

NAMES = ("NAME", "ENABLED")


class Brought(DumpTest):
    def test_events_one_inside_another(self) -> None:
        self.events("statements", select(7, 1, 100, 50, SQL_TEXT="SELECT 1", LOCK_TIME=3, ROWS_SENT=1))
        self.events("stages", event(7, 2, "stage/sql/init", 110, 10, 1), event(7, 4, "stage/sql/end", 120, 30, 1))
        self.events("waits", wait(7, 3, 112, 3, 2))
        self.assertEqual(
            self.lines(),
            ["phase", "session 1 ann localhost", "start statement/sql/select SELECT 1", "spend 10"]
            + ["stage stage/sql/init", "spend 2", "start wait/io/file/sql/binlog", "spend 3", "end", "spend 5"]
            + ["stage stage/sql/end", "spend 30", "end 3 0 0 0 1 0"],
        )

    def test_transaction_that_crosses_its_statements(self) -> None:
        """BEGIN is 100 to 110, the transaction 105 to 145, COMMIT, inside it, 140 to 150."""
        self.events("statements", select(7, 1, 100, 10), select(7, 3, 140, 10, 2))
        self.events("transactions", event(7, 2, "transaction", 105, 40, 1, ACCESS_MODE="READ ONLY"))
        back = 2**64 - 5
        self.assertEqual(
            self.lines()[2:],
            ["start statement/sql/select", "spend 10", "end", f"spend {back}", "start transaction ro", "spend 35"]
            + ["start statement/sql/select", "spend 10", "end", f"spend {back}", "end"],
        )
        self.assertEqual(len(self.ledger.changes[BACK]), 2)

    def test_waits_of_a_clock_that_lags(self) -> None:
        """Both waits lie before their statements; the move of the first is kept where it fits."""
        self.events("statements", select(7, 1, 1000, 50), select(7, 4, 2000, 50))
        self.events("waits", wait(7, 2, 900, 5, 1), wait(7, 5, 1920, 5, 4))
        self.assertEqual(
            self.lines()[2:],
            ["start statement/sql/select", "start wait/io/file/sql/binlog", "spend 5", "end", "spend 45", "end"]
            + ["spend 950", "start statement/sql/select", "spend 20", "start wait/io/file/sql/binlog", "spend 5", "end"]
            + ["spend 25", "end"],
        )
        self.assertIn("by 100 to 100 picoseconds", self.ledger.told()[-1])

    def test_waits_of_a_clock_that_runs_ahead(self) -> None:
        """The second wait is longer than its statement: it is moved as the first, and the clock set back behind it."""
        self.events("statements", select(7, 1, 1000, 50), select(7, 3, 2000, 50))
        self.events("waits", wait(7, 2, 1100, 5, 1), wait(7, 4, 2070, 60, 3))
        self.assertEqual(
            self.lines()[2:],
            ["start statement/sql/select", "spend 45", "start wait/io/file/sql/binlog", "spend 5", "end", "end"]
            + ["spend 950", "start statement/sql/select", "spend 15", "start wait/io/file/sql/binlog", "spend 60"]
            + ["end", f"spend {2**64 - 25}", "end"],
        )

    def test_a_wait_stays_in_what_is_around_an_event_left_out(self) -> None:
        """Its stage has no room, so it lies in the statement, whose end is the last line."""
        self.events("statements", select(7, 1, 0, 50))
        names = [f"stage/sql/own {n}" for n in range(6)] + [f"stage/sql/own {n}" for n in range(5)]
        self.events("stages", *(event(7, 2 + n, name, 2 * n, 1, 1) for n, name in enumerate(names)))
        self.events("waits", wait(7, 14, 20, 5, 7))
        lines = self.lines()
        self.assertEqual(lines[lines.index("start wait/io/file/sql/binlog") + 2 :][-2:], ["spend 25", "end"])
        self.assertEqual(self.reasons(), ["its class is beyond its kind's limit"])

    def test_what_is_left_out(self) -> None:
        idle = event(7, 1, "idle", 0, 9)
        self.events("waits", idle, wait(1, 1, 0, 9), wait(9, 1, 0, 9), wait(7, 2, 1, 5), wait(7, 2, 1, 5))
        self.events("stages", event(7, 4, "stage/sql/init", 2, 1, 3))
        self.assertEqual(sum(line.startswith("start") for line in self.lines()), 1)
        lost = "its statement is not in the dump: it began before, and was not over or no longer in the history"
        background = "of a thread in the background, without a user"
        self.assertEqual(self.reasons(), [TWICE, GONE, background, "a script has no such kind of class", lost])

    def test_threads_that_have_ended_are_known_from_before(self) -> None:
        self.table("before/threads", THREADS[:4], [(9, "eve", "::1", "YES"), (7, "eve", "::1", "YES")])
        self.events("waits", wait(9, 1, 0, 9), wait(7, 1, 0, 9))
        lines = self.lines()
        self.assertIn("session 1 ann localhost", lines)
        self.assertIn("session 2 eve __1", lines)

    def test_threads_beyond_those_that_may_be_connected(self) -> None:
        self.table("threads", THREADS, [(number, "ann", "h", "YES", "YES") for number in range(40)])
        self.events("waits", *(wait(number, 1, 0, 9) for number in range(40)))
        self.assertEqual(sum(line.startswith("session") for line in self.lines()), 32)
        self.assertEqual(self.reasons(), ["of a thread behind the first 32"] * 8)

    def test_a_stage_needs_a_statement(self) -> None:
        self.events("transactions", event(7, 1, "transaction", 0, 9))
        self.events("stages", event(7, 2, "stage/sql/init", 1, 2, 1))
        self.assertEqual(self.lines()[2:], ["start transaction rw", "spend 9", "end"])
        self.assertEqual(self.reasons(), ["its statement is left out"])

    def test_a_fifth_wait_and_an_eleventh_statement(self) -> None:
        self.events("waits", *(wait(7, n, n, 20 - n, n - 1) for n in range(1, 7)))
        self.events("statements", *(select(8, n, n, 40 - n, n - 1) for n in range(1, 12)))
        self.assertEqual(sum(line.startswith("start") for line in self.lines()), 14)
        four = "more than 4 of its kind are open one in another"
        self.assertEqual(self.reasons(), [four, four, "more than 10 of its kind are open one in another"])

    def test_classes_beyond_a_kind(self) -> None:
        """Three more classes of statements have room: those with the most events."""
        names = ["begin", "commit", "commit", "set option", "set option", "rollback", "rollback"]
        self.events("statements", *(event(7, n, f"statement/sql/{name}", n, 1) for n, name in enumerate(names)))
        classes = [line for line in self.lines() if line.startswith("class")]
        wanted = [f"class statement/sql/{name} YES YES" for name in ("commit", "rollback", "set_option")]
        self.assertEqual(classes, wanted)
        self.assertEqual(self.reasons(), ["its class is beyond its kind's limit"])

    def test_names_stay_different(self) -> None:
        rows = [(7, "a b", "h", "YES", "YES"), (8, "a-b", "h", "YES", "YES"), (9, "a_b", "h", "YES", "YES")]
        self.table("threads", THREADS, rows)
        names = ("stage/sql/a b", "stage/sql/a(b", "stage/sql/a_b", "stage/sql//" + 200 * "c", "stage/")
        self.events("statements", *(select(thread, 1, 0, 9) for thread in (7, 8, 9)))
        self.events("stages", *(event(7, 2 + n, name, 1 + n, 1, 1) for n, name in enumerate(names)))
        lines = self.lines()
        self.assertEqual([line.split()[2] for line in lines if line.startswith("session")], ["a_b", "a-b", "a_b_2"])
        wanted = ["stage/_", "stage/sql/_/" + 116 * "c", "stage/sql/a_b", "stage/sql/a_b_2", "stage/sql/a_b_3"]
        self.assertEqual([line.split()[1] for line in lines if line.startswith("class")], wanted)

    def test_tables(self) -> None:
        io = "wait/io/table/sql/handler"
        rows = [event(7, n, io, n, 1, OBJECT_SCHEMA="shop", OBJECT_NAME=f"t-{n}") for n in range(65)]
        rows += [event(7, 65, io, 65, 1, OBJECT_SCHEMA="shop", OBJECT_NAME="t-64"), event(7, 66, io, 66, 1)]
        self.events("waits", *rows)
        self.assertIn(f"start {io} shop.t_64", self.lines())
        beyond = "of a table beyond the 64 with the most waits"
        self.assertEqual(self.reasons(), ["a wait for a table that the dump doesn't name", beyond])


class Sliced(DumpTest):
    def setUp(self) -> None:
        super().setUp()
        self.events("waits", *(wait(7 + n % 2, n, 1000 * n, 10) for n in range(1, 9)))

    def starts(self, **wanted) -> int:
        return sum(line.startswith("start") for line in self.lines(**wanted))

    def test_times_and_threads(self) -> None:
        self.assertEqual(self.starts(begin=1000, end=3000), 2)
        self.assertEqual(self.reasons(), ["it began before --from"] + ["it began at --to or later"] * 5)
        self.assertEqual(self.starts(threads=frozenset([8])), 4)

    def test_phases(self) -> None:
        lines = self.lines(phase=3000)
        self.assertEqual(lines.count("phase"), 3)
        self.assertEqual(lines.count("session 1"), 2)
        with self.assertRaises(Refused):
            self.made(phase=100)

    def test_a_phase_that_has_begun_stays(self) -> None:
        """The transaction began before the phase in which its statement ends, and stands behind it."""
        self.events("waits")
        self.events("statements", select(7, 1, 0, 150))
        self.events("transactions", event(7, 2, "transaction", 50, 20, 1))
        self.assertEqual(
            self.lines(phase=100),
            ["phase", "session 1 ann localhost", "start statement/sql/select", "phase", "session 1", "spend 150", "end"]
            + [f"spend {2**64 - 100}", "start transaction rw", "spend 20", "end"],
        )

    def test_none_stands_without_the_event_around_it(self) -> None:
        """An event that starts before the one around it by its own times ranks behind it."""
        self.events("waits")
        self.events("statements", select(7, 1, 500, 100), select(7, 2, 100, 50, 1), select(8, 1, 300, 9))
        order = [(node.event.thread, node.event.number) for node in self.made().nodes]
        self.assertEqual(order, [(8, 1), (7, 1), (7, 2)])

    def test_cut_at_a_whole_event(self) -> None:
        text = "x" * 10_000
        self.events("statements", *(select(7, 10 + n, 20_000 + n, 1, SQL_TEXT=text) for n in range(200)))
        made = self.made()
        size = len(made.text())
        self.assertEqual(sum(line.startswith("start") for line in made.lines), len(made.nodes))
        self.assertTrue(MOST_BYTES - 10_100 < size <= MOST_BYTES)
        self.assertEqual(len(made.nodes) + len(self.ledger.left), 208)
        self.assertEqual([node.event.number for node in made.nodes][8:12], [10, 11, 12, 13])
        self.assertEqual(set(self.reasons()), {"beyond 1,048,576 bytes or 200,000 lines"})


class SetUp(DumpTest):
    def test_nothing_is_written_for_a_servers_own_setup(self) -> None:
        self.events("waits", wait(7, 1, 0, 1))
        self.table("setup_actors", ("HOST", "USER", "ROLE", "ENABLED", "HISTORY"), [("%", "%", "%", "YES", "YES")])
        self.assertEqual(self.lines()[:2], ["phase", "session 1 ann localhost"])

    def test_consumers_and_instruments(self) -> None:
        self.events("waits", event(7, 1, "wait/synch/mutex/sql/LOCK_open", 0, 1))
        consumers = [("events_waits_current", "YES"), ("global_instrumentation", "NO"), ("events_statements_cpu", "NO")]
        self.table("setup_consumers", NAMES, [*consumers, ("statements_digest", "YES")])
        rows = [("wait/synch/mutex/sql/LOCK_open", "NO", "NO"), ("stage/sql/init", "NO", "NO")]
        self.table("setup_instruments", (*NAMES, "TIMED"), rows)
        self.assertEqual(
            self.lines()[:3],
            ["instrument wait/synch/mutex/sql/LOCK\\_open YES YES", "instrument stage/sql/init NO NO"]
            + ["consumer events_waits_current YES"],
        )
        self.assertEqual(
            sorted(self.ledger.changes.values()),
            [["events_statements_cpu"], ["global_instrumentation"], ["wait/synch/mutex/sql/LOCK_open"]],
        )

    def test_actors_and_objects(self) -> None:
        """Ann's actor is off by now, but her events are there; table mysql.t is off, and has one too. Bob gets the
        flags of the actor with the least role, and has those of his thread."""
        table = event(7, 1, "wait/io/table/sql/handler", 0, 1, OBJECT_SCHEMA="mysql", OBJECT_NAME="t")
        self.events("waits", table, wait(8, 1, 0, 1))
        rows = [("%", "ann", "%", "NO", "NO"), ("web-1", "%", "b", "NO", "NO"), ("web-1", "%", "a", "YES", "NO")]
        self.table("setup_actors", ("HOST", "USER", "ROLE", "ENABLED", "HISTORY"), rows)
        self.assertEqual(
            [line for line in self.lines() if not line.startswith(("spend", "start", "end"))],
            ["phase", "session 1 ann localhost"]
            + ["sql DELETE FROM setup_actors WHERE HOST = '%' AND USER = '%' AND ROLE = '%'"]
            + ["sql INSERT INTO setup_actors VALUES ('%', 'ann', '%', 'NO', 'NO')"]
            + ["sql INSERT INTO setup_actors VALUES ('web-1', '%', 'b', 'NO', 'NO')"]
            + ["sql INSERT INTO setup_actors VALUES ('web-1', '%', 'a', 'YES', 'NO')"]
            + ["sql INSERT INTO setup_objects VALUES ('TABLE', 'mysql', 't', 'YES', 'YES')"]
            + ["phase", "session 1", "session 2 bob web-1"],
        )

    def test_flags_that_a_session_does_not_get(self) -> None:
        self.events("waits", wait(8, 1, 0, 1))
        update = "sql UPDATE threads SET INSTRUMENTED = 'YES', HISTORY = 'NO' WHERE THREAD_ID = 1"
        self.assertEqual(self.lines()[1:3], ["session 1 bob web-1", update])

    def test_rules_that_a_script_cannot_have(self) -> None:
        self.events("waits", wait(7, 1, 0, 1))
        rows = [("LIBRARY", "%", "%", "YES", "YES"), *(("TABLE", "shop", f"t{n}", "NO", "NO") for n in range(102))]
        self.table("setup_objects", ("OBJECT_TYPE", "OBJECT_SCHEMA", "OBJECT_NAME", "ENABLED", "TIMED"), rows)
        self.assertEqual(sum(line.startswith("sql INSERT") for line in self.lines()), 100)
        left = self.ledger.changes["rows of setup_objects that a script can't have, left out"]
        self.assertEqual(sorted(left), ["LIBRARY/%/%", "TABLE/shop/t100", "TABLE/shop/t101"])
