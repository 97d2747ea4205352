"""sqlite3 and PostgreSQL over the same tables, with the same unique lists and indexes."""
import csv
import io
import json
import os
import sqlite3
import subprocess
import time
from typing import NamedTuple

from .shapes import rows_of

LONG = 1000  # milliseconds; what takes longer runs once
STEPS = 100_000  # of sqlite3's machine, between two looks at the time
# All join orders are looked at, by the whole search, and a query has one process.
SETTINGS = "SET join_collapse_limit = 20; SET from_collapse_limit = 20; SET geqo_threshold = 14; SET max_parallel_workers_per_gather = 0;"


class Answer(NamedTuple):
    """Rows are None where the time was over."""

    ms: float | None
    rows: list | None
    plan: dict | None = None  # PostgreSQL's


def definitions(tables, schema, kinds):
    """The tables' texts, and those of the indexes that aren't unique lists, which have one anyhow."""
    made, indexes = [], []
    for name, kept in tables.items():
        lines = [f"{column} {kinds[kind]} NOT NULL" for column, kind in kept.columns.items()]
        lines += [f"UNIQUE ({', '.join(key)})" for key in kept.unique]
        made.append(f"CREATE TABLE {name} ({', '.join(lines)})")
        more = [index for index in kept.indexes(schema) if index not in kept.unique]
        indexes += [f"CREATE INDEX {name}_{'_'.join(index)} ON {name} ({', '.join(index)})" for index in more]
    return made, indexes


class Sqlite:
    """In memory, after ANALYZE."""

    def __init__(self, tables, schema, folder, seconds, reps):
        self.seconds, self.reps = seconds, reps
        self.connection = sqlite3.connect(":memory:")
        made, indexes = definitions(tables, schema, {"INT": "INTEGER", "TEXT": "TEXT"})
        for text in made:
            self.connection.execute(text)
        for name, kept in tables.items():
            marks = ", ".join("?" * len(kept.columns))
            self.connection.executemany(f"INSERT INTO {name} VALUES ({marks})", rows_of(folder / f"{name}.csv", kept.columns))
        for text in [*indexes, "ANALYZE"]:
            self.connection.execute(text)

    def once(self, query):
        """Processor milliseconds of this thread, and the rows."""
        begin = time.thread_time()
        self.connection.set_progress_handler(lambda: time.thread_time() - begin > self.seconds, STEPS)
        try:
            rows = self.connection.execute(query).fetchall()
        except sqlite3.OperationalError as fault:
            if "interrupted" not in str(fault):
                raise
            return None, None
        return (time.thread_time() - begin) * 1000, rows

    def answer(self, query):
        ms, rows = self.once(query)
        for _ in range(self.reps - 1):
            if ms is not None and ms < LONG:
                ms = min(ms, self.once(query)[0] or ms)
        return Answer(ms, rows)

    def close(self):
        self.connection.close()


class Postgres:
    """By psql, in a schema of its own that `close` drops."""

    def __init__(self, where, name, tables, schema, folder, seconds, reps):
        self.where = f"host={where} dbname=postgres user=postgres" if os.path.isdir(where) else where
        self.tables, self.seconds, self.reps = tables, seconds, reps
        self.name = f"workloads_{name}_{schema}_{os.getpid()}"
        made, indexes = definitions(tables, schema, {"INT": "bigint", "TEXT": 'text COLLATE "C"'})
        copies = [f"\\copy {table} FROM '{folder / table}.csv' CSV HEADER" for table in tables]
        ends = lambda texts: [f"{text};" for text in texts]
        try:
            self.told([*ends([f"CREATE SCHEMA {self.name}", f"SET search_path = {self.name}", *made]), *copies, *ends([*indexes, "ANALYZE"])])
        except SystemExit:
            self.close()
            raise

    def told(self, lines):
        """What psql prints; None where the time was over."""
        words = ["psql", "-X", "-q", "-A", "-t", "-v", "ON_ERROR_STOP=1", "-d", self.where]
        run = subprocess.run(words, input="\n".join(lines) + "\n", capture_output=True, text=True, check=False)
        if "statement timeout" in run.stderr:
            return None
        if run.returncode:
            raise SystemExit(f"PostgreSQL: {run.stderr.strip()}")
        return run.stdout

    def asked(self, *texts):
        return self.told([f"SET search_path = {self.name}; SET statement_timeout = '{self.seconds:g}s';", SETTINGS, *(f"{text};" for text in texts)])

    def answer(self, query):
        """The least execution time of the server's own account, on the clock, behind a run that isn't counted."""
        printed = self.asked(f"COPY ({query}) TO STDOUT CSV NULL '\\N'")
        if printed is None:
            return Answer(None, None)
        rows = [tuple(row) for row in csv.reader(io.StringIO(printed))]
        printed = self.asked(*[f"EXPLAIN (ANALYZE, TIMING OFF, FORMAT JSON) {query}"] * self.reps)
        if printed is None:
            return Answer(None, rows)
        plans = [json.loads(text) for text in printed.replace("]\n[", "]\0[").split("\0")]
        return Answer(min(plan[0]["Execution Time"] for plan in plans), rows, plans[0][0]["Plan"])

    def close(self):
        self.told(["SET client_min_messages = warning;", f"DROP SCHEMA IF EXISTS {self.name} CASCADE;"])
