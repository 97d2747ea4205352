#!/usr/bin/env python3
"""Tests import/from_postgres.py beside a PostgreSQL of its own: import/test_postgres.py [--program PATH] [--binaries FOLDER] [--rounds N] [--seed N]

Starts a cluster in a temporary folder (as the user postgres where it is run by root), makes ten tables with random rows, imports them, and compares
the program's answer to each report query with the cluster's own. What can't be imported has to be refused, with nothing written. Wants initdb,
pg_ctl and psql; the first difference is shown, with status 1. The last line says what was compared.
"""

import argparse
import collections
import contextlib
import csv
import io
import json
import os
import pathlib
import random
import shutil
import subprocess
import sys
import tempfile

ROOT = pathlib.Path(__file__).resolve().parent.parent
sys.path.insert(0, str(ROOT / "tests/differential"))

import from_postgres
import imported
import shop_reports
from common import Program, Said

BINARIES = "/usr/lib/postgresql/15/bin"
NULL = "(null)"
"""How PostgreSQL is asked to write Null, which no text of these tables is."""
OWN_TABLE = """
CREATE DOMAIN fraction AS NUMERIC(7,3);
CREATE DOMAIN grade AS fraction;
CREATE TABLE event(
  id BIGINT GENERATED ALWAYS AS IDENTITY PRIMARY KEY, at TIMESTAMPTZ, local TIMESTAMP, clock TIME, mark UUID UNIQUE, kind CHAR(6),
  grade GRADE, weight DOUBLE PRECISION, twice SMALLINT GENERATED ALWAYS AS (length(kind) * 2) STORED, tag VARCHAR(20) COLLATE "und-x-icu",
  extra JSONB);
CREATE INDEX partial ON event(kind) WHERE kind IS NOT NULL;
CREATE INDEX included ON event(kind, local DESC) INCLUDE (at);
CREATE INDEX hashed ON event USING hash (tag);
CREATE VIEW shown AS SELECT 1 AS one;
"""
OPTIONS = ["--scale", "event.weight=2", "--skip"]
OWN_QUERIES = [
    ("SELECT id, at, local, clock FROM event ORDER BY at, id", "SELECT id, at AT TIME ZONE 'UTC' AS at, local, clock FROM event ORDER BY at, id"),
    ("SELECT id, local FROM event WHERE local < '2024-06-01 00:00:00' ORDER BY local, id", None),
    (
        "SELECT id, mark, kind, twice FROM event WHERE mark > '80000000-0000-0000-0000-000000000000' ORDER BY mark",
        "SELECT id, mark, kind::text, twice FROM event WHERE mark > '80000000-0000-0000-0000-000000000000' ORDER BY mark",
    ),
    (
        "SELECT kind, COUNT(*) AS n, SUM(twice) AS s FROM event GROUP BY kind ORDER BY kind",
        "SELECT kind::text, COUNT(*) AS n, SUM(twice) AS s FROM event GROUP BY event.kind ORDER BY event.kind",
    ),
    (
        "SELECT kind, MAX(grade) AS g, SUM(weight) AS w FROM event WHERE grade > 12500 GROUP BY kind ORDER BY kind",
        "SELECT kind::text, (1000 * MAX(grade))::bigint AS g, round(100 * SUM(weight)::numeric)::bigint AS w FROM event WHERE grade > 12.5"
        " GROUP BY event.kind ORDER BY event.kind",
    ),
    ("SELECT DISTINCT tag FROM event ORDER BY tag", 'SELECT DISTINCT tag COLLATE "C" AS tag FROM event ORDER BY tag'),
    ("SELECT a.id, b.id FROM event a LEFT JOIN event b ON a.tag = b.tag AND a.local < b.local", None),
]
NOTES = [
    "left out: event.extra is jsonb, which has no counterpart",
    "event.grade: public.grade, as whole numbers: 1000 times the value",
    "event.weight: double precision, as whole numbers: 100 times",
    "event.at: timestamp with time zone, texts as 2024-05-31 12:30:00.5, in UTC",
    "event: index partial left out",
    "customer.active: boolean, 1 where it is true, 0 where false",
    "compared by und-x-icu in the database, by bytes here: event.tag",
    "views and foreign tables are left out: shown",
]
ONE = "CREATE TABLE refused.t(a INTEGER, b {}); INSERT INTO refused.t VALUES (1, {})"
REFUSED = [
    (ONE.format("JSONB", "'{}'"), [], "t.b is jsonb, which has no counterpart"),
    (ONE.format("BYTEA", "'x'"), [], "t.b is bytea"),
    (ONE.format("INTEGER[]", "'{}'"), [], "t.b is integer[]"),
    (ONE.format("INTERVAL", "NULL"), [], "t.b is interval"),
    (ONE.format("MONEY", "'1'"), [], "t.b is money"),
    (ONE.format("TIMETZ", "NULL"), [], "t.b is time with time zone"),
    ("CREATE TYPE refused.mood AS ENUM ('b', 'a'); CREATE TABLE refused.t(b refused.mood)", [], "t.b is refused.mood"),
    ("CREATE TYPE refused.int4 AS (a TEXT); CREATE TABLE refused.t(b refused.int4)", [], "t.b is refused.int4"),
    ("CREATE DOMAIN refused.d AS JSON; CREATE TABLE refused.t(b refused.d)", [], "t.b is refused.d"),
    (ONE.format("REAL", "1.5"), [], "t.b is real, which has no fixed scale; --scale t.b=DIGITS"),
    (ONE.format("NUMERIC", "1.5"), [], "t.b is numeric, which has no fixed scale"),
    (ONE.format("NUMERIC", "1.5"), ["--scale", "t.b=0"], "t.b holds 1.5, which has more than 0 digits behind its point, at ctid (0,1)"),
    (ONE.format("NUMERIC(20,2)", "1e17"), [], "doesn't fit into 64 bits, at ctid (0,1)"),
    (ONE.format("NUMERIC(10,2)", "'NaN'"), [], "t.b holds NaN"),
    (ONE.format("NUMERIC(30,20)", "NULL"), [], "has 20 digits behind the point"),
    (ONE.format("DATE", "'infinity'"), [], "t.b holds infinity, whose text doesn't sort as it does"),
    (ONE.format("DATE", "'0044-03-15 BC'"), [], "t.b holds 0044-03-15 BC"),
    (ONE.format("TIMESTAMP", "'12024-01-01'"), [], "t.b holds 12024-01-01"),
    (ONE.format("TEXT", "'x'"), ["--scale", "t.b=1"], "t.b is text, which has no scale"),
    ("CREATE TABLE refused.t(b JSON)", ["--skip"], "t has 0 columns to import"),
    ('CREATE TABLE refused.t("where" INT)', [], "where is a reserved word; --rename t.where=NAME"),
    ('CREATE TABLE refused."T"(a INT)', [], "T is no name"),
    ("CREATE TABLE refused.t(a INT)", ["--tables", "t,u"], "has no table u; it has t"),
    ("CREATE VIEW refused.t AS SELECT 1", [], "there are 0 tables to import"),
]
"""What is made, with what options it is imported, and a piece of what is said then."""


class Cluster:
    """A cluster in a folder, which nothing but its socket there reaches."""

    def __init__(self, binaries, folder):
        self.binaries, self.folder, self.data = pathlib.Path(binaries), folder, folder / "data"
        self.user = ["runuser", "-u", "postgres", "--"] if os.getuid() == 0 else []
        if self.user:
            shutil.chown(folder, "postgres")
        self.run("initdb", "-D", self.data, "-U", "postgres", "-A", "trust", "-E", "UTF8", "--locale=C", "--no-sync")
        settings = f"-c listen_addresses= -c unix_socket_directories={folder} -c fsync=off"
        self.run("pg_ctl", "-D", self.data, "-w", "-l", folder / "log", "-o", settings, "start")
        self.connection = f"host={folder} user=postgres dbname=postgres"

    def run(self, name, *words):
        subprocess.run(
            [*self.user, self.binaries / name, *words], cwd=self.folder, stdin=subprocess.DEVNULL, stdout=subprocess.DEVNULL, check=True
        )

    def stop(self):
        self.run("pg_ctl", "-D", self.data, "-m", "immediate", "stop")

    def tell(self, statements, connection=None):
        """Runs statements, and gives what they print."""
        words = ["psql", "-X", "-q", "-v", "ON_ERROR_STOP=1", "-d", connection or self.connection]
        return subprocess.run(words, input=statements.encode(), stdout=subprocess.PIPE, check=True).stdout

    def rows(self, query):
        """The rows of a query, as texts and None."""
        text = self.tell(f"COPY ({query}) TO STDOUT WITH (FORMAT csv, NULL '{NULL}', FORCE_QUOTE *);\n").decode()
        return [[None if field == NULL else field for field in row] for row in csv.reader(io.StringIO(text, newline=""))]


def literal(value):
    if value is None or isinstance(value, (bool, int, float)):
        return "NULL" if value is None else str(value)
    return from_postgres.literal(value)


def inserted(table, rows):
    values = ",\n".join(f"({', '.join(map(literal, row))})" for row in rows)
    return f"INSERT INTO {table} VALUES {values};\n" if rows else ""


def events(rng):
    """The rows of the own table."""
    moment = lambda: f"{shop_reports.day(rng, 2024, 2025)} {rng.randrange(24):02}:{rng.randrange(60):02}:00{rng.choice(['', '.5', '.25', '.000001'])}"
    word = lambda: rng.choice(["a", "ab", "b  ", "", "\\x", "Zé", None])
    for _ in range(50):
        mark = f"{rng.getrandbits(128):032X}"
        times = [f"{moment()}{rng.choice(['+00', '+05:30', '-08'])}", moment(), moment()[11:]]
        numbers = [rng.choice([None, "-0.007", "1", "9999.999", "12.5"]), rng.choice([None, 0.5, 1.25, -3.0, 0.07])]
        yield [*(rng.choice([it, it, None]) for it in times), mark, word(), *numbers, word(), "[]"]


def shop_statements(rng):
    """What makes the ten tables anew, with their rows."""
    tables = "".join(f"CREATE TABLE {name}({columns});\n" for name, columns in shop_reports.DEFINITIONS.items())
    indexes = "".join(f"CREATE INDEX ON {over};\n" for over in shop_reports.INDEXES)
    rows = "".join(inserted(name, its) for name, its in shop_reports.contents(rng).items())
    own = inserted("event(at, local, clock, mark, kind, grade, weight, tag, extra)", list(events(rng)))
    return f"SET client_min_messages TO warning; DROP SCHEMA public CASCADE; CREATE SCHEMA public;\n{tables}{indexes}{OWN_TABLE}{rows}{own}"


def nulls_as_here(query):
    """The query with Nulls first, and last under DESC, which is another order than PostgreSQL's own."""
    front, order, keys = query.partition(" ORDER BY ")
    return front + order + ", ".join(f"{key} NULLS {'LAST' if key.endswith(' DESC') else 'FIRST'}" for key in keys.split(", ")) if order else front


def queries():
    """Each query as the program and as PostgreSQL are asked it."""
    for query in shop_reports.QUERIES:
        yield shop_reports.for_program(query), nulls_as_here(shop_reports.for_engine(query, r"(100 * \1)::bigint", r"(\1)::int"))
    for query, engine in OWN_QUERIES:
        yield query, nulls_as_here(engine or query)


def call_script(*words):
    """What the script says, within this process."""
    output, error = io.StringIO(), io.StringIO()
    with contextlib.redirect_stdout(output), contextlib.redirect_stderr(error):
        status = from_postgres.main(list(map(str, words)))
    return Said(status, output.getvalue(), error.getvalue())


def wrong_lists(folder):
    """Where the schema says other lists of the own table than it has."""
    schema = json.loads((folder / "schema.json").read_text(encoding="utf-8"))["tables"]
    event = next(table for table in schema if table["name"] == "event")
    wanted = [["id"], ["mark"]], [["id"], ["mark"], ["tag"], ["kind", "local"]]
    given = event["unique"], sorted(event["indexes"], key=lambda its: (its not in event["unique"], len(its)))
    return "" if given == wanted else f"lists of event\n  wanted: {wanted}\n  given:  {given}"


def shop_faults(cluster, program, at, rng, counts):
    """What is wrong of the import of a shop, and of each query over it."""
    cluster.tell(shop_statements(rng))
    folder = at / "shop"
    said = call_script(cluster.connection, folder, *OPTIONS)
    if said.status or "10 tables" not in said.output:
        yield f"from_postgres.py: {said.status} {said.output} {said.error}"
        return
    missed = [note for note in NOTES if note not in (folder / "import.txt").read_text(encoding="utf-8") or note not in said.error]
    yield f"import.txt and standard error: no {missed} in\n{said.error}" if missed else ""
    yield wrong_lists(folder)
    yield imported.wrong_statistics(folder)
    for query, engine in queries():
        rows = cluster.rows(engine)
        counts["queries"], counts["rows"] = counts["queries"] + 1, counts["rows"] + len(rows)
        yield imported.wrong_answer(program, folder, query, rows)
    shutil.rmtree(folder)


def refusal_fault(at, connection, options, piece, counts):
    """Where an import isn't refused as it has to be, or leaves something."""
    before = sorted(at.iterdir())
    said = call_script(connection, at / "out", *options)
    counts["refusals"] += 1
    if said.status != 1 or piece not in said.error or sorted(at.iterdir()) != before:
        return f"an import with {options}\n  wanted: 1, {piece}\n  given:  {said.status}, {said.error}"
    return ""


def refusal_faults(cluster, at, counts):
    """What is wrong of the imports that have to be refused."""
    for statements, options, piece in REFUSED:
        cluster.tell(f"SET client_min_messages TO warning; DROP SCHEMA IF EXISTS refused CASCADE; CREATE SCHEMA refused; {statements};")
        fault = refusal_fault(at, cluster.connection, ["--schema", "refused", *options], piece, counts)
        yield f"{statements} {fault}" if fault else ""
    raw = cluster.connection.replace("dbname=postgres", "dbname=raw")
    cluster.tell("CREATE DATABASE raw TEMPLATE template0 ENCODING 'SQL_ASCII' LOCALE 'C'")
    cluster.tell("CREATE TABLE t(b TEXT); INSERT INTO t VALUES ('good'), (E'\\xff');", raw)
    yield refusal_fault(at, raw, [], "t.b holds a text that isn't UTF-8, at ctid (0,2)", counts)
    cluster.tell("CREATE DATABASE icu TEMPLATE template0 LOCALE_PROVIDER icu ICU_LOCALE 'da' LOCALE 'C'")
    icu = cluster.connection.replace("dbname=postgres", "dbname=icu")
    cluster.tell('CREATE TABLE t(a TEXT, b TEXT COLLATE "C", c INT)', icu)
    said = call_script(icu, at / "icu")
    yield "" if said.error == "compared by da in the database, by bytes here: t.a\n" else f"a database by ICU: {said}"
    yield refusal_fault(at, cluster.connection, ["--schema", "none"], "there is no schema none in the database", counts)
    yield refusal_fault(at, "host=/nowhere dbname=none", [], "psql: error: connection to server", counts)
    cluster.tell("CREATE ROLE reader LOGIN; GRANT USAGE ON SCHEMA public TO reader; GRANT SELECT ON ALL TABLES IN SCHEMA public TO reader;")
    cluster.tell("ALTER TABLE event ENABLE ROW LEVEL SECURITY;")
    reader = cluster.connection.replace("user=postgres", "user=reader")
    yield refusal_fault(at, reader, OPTIONS, 'event: psql: ERROR:  query would be affected by row-level security policy for table "event"', counts)
    cluster.tell("REVOKE ALL ON event FROM reader; ALTER TABLE event DISABLE ROW LEVEL SECURITY;")
    yield refusal_fault(at, reader, OPTIONS, "event: psql: ERROR:  permission denied for table event", counts)


def skip_fault(cluster, at):
    """Where a column isn't left out for a value that comes when other rows were read."""
    rows = "(1, 1, 'x'), (2, 'NaN', 'y'), (3, 3, NULL)"
    make = "CREATE TABLE refused.t(a INT NOT NULL, b NUMERIC(4,1), c TEXT, UNIQUE (b, c)); CREATE TABLE refused.u(a INT)"
    cluster.tell("SET client_min_messages TO warning; DROP SCHEMA refused CASCADE; CREATE SCHEMA refused;")
    cluster.tell(f"{make}; INSERT INTO refused.t VALUES {rows};")
    said = call_script(cluster.connection, at / "skip", "--schema", "refused", "--skip")
    wanted = "left out: t.b holds NaN, which is no number with digits, at ctid (0,2)\nt: unique list (b, c) left out, as a column of it is\n"
    wanted += "t: index (b, c) left out, as a column of it is\n"
    text = (at / "skip/t.csv").read_text(encoding="utf-8") if said.status == 0 else ""
    return "" if (said.error, text) == (wanted, "a,c\n1,x\n2,y\n3,\\N\n") else f"--skip: {said}, {text!r}"


def first_fault(cluster, program, at, given, counts):
    for number in range(given.rounds):
        for fault in shop_faults(cluster, program, at, random.Random(f"{given.seed} {number}"), counts):
            if fault:
                return fault
    return next(filter(None, refusal_faults(cluster, at, counts)), "") or skip_fault(cluster, at)


def arguments():
    parser = argparse.ArgumentParser(description=__doc__, formatter_class=argparse.RawDescriptionHelpFormatter)
    parser.add_argument("--program", default=ROOT / "release/sqlplan", metavar="PATH", help="the program; without this, that of release/")
    parser.add_argument("--binaries", default=BINARIES, metavar="FOLDER", help=f"where initdb and pg_ctl are; without this, {BINARIES}")
    parser.add_argument("--rounds", type=int, default=1, metavar="N", help="how often the tables are made with other rows")
    parser.add_argument("--seed", type=int, default=66, metavar="N", help="of the random rows")
    return parser.parse_args()


def main():
    given, counts = arguments(), collections.Counter()
    with tempfile.TemporaryDirectory(prefix="import-") as folder, tempfile.TemporaryDirectory() as work:
        cluster = Cluster(given.binaries, pathlib.Path(folder))
        try:
            program = Program(pathlib.Path(given.program).resolve(), work)
            fault = first_fault(cluster, program, pathlib.Path(work), given, counts)
        finally:
            cluster.stop()
    print(fault, end="\n" if fault else "")
    compared = f"{counts['queries']:,} queries with {counts['rows']:,} rows, beside PostgreSQL; {counts['refusals']} imports refused"
    print(f"{given.rounds} imports of 10 tables, {compared}: {'FAILED' if fault else 'ok'}")
    return 1 if fault else 0


if __name__ == "__main__":
    sys.exit(main())
