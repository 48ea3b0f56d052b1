"""What a script may hold: its size, the kinds of classes with their room, and what is built in (docs/MANUAL.md)."""
from __future__ import annotations

import functools

MOST_BYTES = 1_048_576
MOST_LINES = 200_000
MOST_SESSIONS = 32  # thread slots, accounts, users and hosts alike
MOST_TABLES = 64
MOST_PHASES = 64
MOST_WAITS = 4  # open one in another
MOST_STATEMENTS = 10  # open one in another
MOST_SETUP_ROWS = 100
MOST_CLASS_BYTES = 128
MODULUS = 2**64  # of the clock and of all sums

# Of each kind how many classes there may be, the built-in ones among them; None where a script can't add any.
ROOM: dict[str, int | None] = {
    "wait/synch/mutex": 12,
    "wait/synch/rwlock": 8,
    "wait/synch/cond": 8,
    "wait/io/file": 8,
    "wait/io/socket": 4,
    "wait/io/table": None,
    "wait/lock/table": None,
    "stage": 10,
    "statement": 10,
    "transaction": None,
}
TABLE_KINDS = ("wait/io/table", "wait/lock/table")

# The built-in classes, and whether they are ENABLED and TIMED at first.
BUILT_IN = {
    "wait/synch/mutex/sql/LOCK_open": False,
    "wait/synch/mutex/sql/THD::LOCK_thd_data": False,
    "wait/synch/mutex/innodb/trx_mutex": False,
    "wait/synch/rwlock/sql/LOCK_grant": False,
    "wait/synch/rwlock/innodb/dict_operation_lock": False,
    "wait/synch/cond/sql/COND_thread_cache": False,
    "wait/io/file/sql/binlog": True,
    "wait/io/file/innodb/innodb_data_file": True,
    "wait/io/file/innodb/innodb_log_file": True,
    "wait/io/socket/sql/client_connection": False,
    "wait/io/table/sql/handler": True,
    "wait/lock/table/sql/handler": True,
    "stage/sql/init": True,
    "stage/sql/optimizing": True,
    "stage/sql/statistics": True,
    "stage/sql/executing": True,
    "stage/sql/end": True,
    "statement/sql/select": True,
    "statement/sql/insert": True,
    "statement/sql/update": True,
    "statement/sql/delete": True,
    "statement/sql/truncate": True,
    "statement/sql/call_procedure": True,
    "statement/sp/stmt": True,
    "transaction": True,
}

# The consumers, and which of them are YES at first.
CONSUMERS = {
    **{f"events_stages_{ring}": False for ring in ("current", "history", "history_long")},
    **{f"events_statements_{ring}": ring != "history_long" for ring in ("current", "history", "history_long")},
    **{f"events_transactions_{ring}": ring != "history_long" for ring in ("current", "history", "history_long")},
    **{f"events_waits_{ring}": False for ring in ("current", "history", "history_long")},
    "global_instrumentation": True,
    "thread_instrumentation": True,
    "statements_digest": True,
}
# Without these no event would count for its user, as each event of a dump did.
NEEDED_CONSUMERS = ("global_instrumentation", "thread_instrumentation")

OBJECT_TYPES = ("EVENT", "FUNCTION", "PROCEDURE", "TABLE", "TRIGGER")
SYSTEM_SCHEMAS = ("information_schema", "mysql", "performance_schema")


@functools.cache
def kind_of(name: str) -> str | None:
    """The kind of a class by its name, or None where a script has no such kind."""
    if name == "transaction":
        return name
    return next((kind for kind in ROOM if name.startswith(kind + "/") and kind != "transaction"), None)
