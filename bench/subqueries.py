#!/usr/bin/env python3
"""Asks subqueries by the command `query`, and has sqlite3 and PostgreSQL do the same with the same rows in the same run.

emp has a million rows and dept 10,000, both with a unique id, and no index. A boss of dept is Null in one of ten. Of sqlplan and sqlite3, into memory, each time
is processor time (user and system) of the whole process with loading, the least of RUNS; sqlite3 is asked without an index and with some (INDEXES, whose making counts),
and is stopped after LIMIT seconds. PostgreSQL's is the time on the clock of one session with COPY into tables that aren't logged, and without an index. Beside
each query stands a join of the same size, which it is to take at most twice as long as. The rows are compared with those of sqlite3 or PostgreSQL, whichever had them.

Wants sqlite3 and GNU time (Debian: sqlite3, time) and the program built; PostgreSQL is left out where it isn't there.

usage: subqueries.py [--rows N] [--runs N] [--program PATH]
"""

import argparse
import json
import pathlib
import random
import subprocess
import tempfile

from joins import ROOT, least, postgres, same_rows

DEPTS, PAIRS, LIMIT = 10_000, 60_000, 20
TARGET, OF_JOIN = 0.1, 2
SCHEMA = """{"tables":[{"name":"emp","columns":[{"name":"id","kind":"INT","not_null":true},
{"name":"dept","kind":"INT","not_null":true},{"name":"pay","kind":"INT","not_null":true}],"unique":[["id"]],"indexes":[]},
{"name":"dept","columns":[{"name":"id","kind":"INT","not_null":true},{"name":"boss","kind":"INT","not_null":false}],"unique":[["id"]],"indexes":[]},
{"name":"a","columns":[{"name":"id","kind":"INT","not_null":true},{"name":"flag","kind":"INT","not_null":true},{"name":"k","kind":"INT","not_null":true}],"unique":[["id"]],"indexes":[]},
{"name":"l","columns":[{"name":"o","kind":"INT","not_null":true},{"name":"k","kind":"INT","not_null":true}],"unique":[],"indexes":[]}]}"""
BY_EMP = "SELECT e.id FROM emp e JOIN dept d ON d.id = e.dept"
BY_DEPT = "SELECT d.id FROM dept d JOIN emp e ON e.dept = d.id"
PAIRED = "SELECT a.id FROM a JOIN l ON l.o = a.id"
CASES = [
    ("EXISTS, of each dept", "SELECT d.id FROM dept d WHERE EXISTS (SELECT * FROM emp e WHERE e.dept = d.id AND e.pay < 100)", BY_DEPT),
    ("EXISTS, of each emp", "SELECT e.id FROM emp e WHERE EXISTS (SELECT * FROM dept d WHERE d.id = e.dept AND d.boss IS NULL)", BY_EMP),
    ("NOT EXISTS, of each dept", "SELECT d.id FROM dept d WHERE NOT EXISTS (SELECT * FROM emp e WHERE e.dept = d.id AND e.pay < 100)", BY_DEPT),
    ("NOT EXISTS, of each emp", "SELECT e.id FROM emp e WHERE NOT EXISTS (SELECT * FROM dept d WHERE d.id = e.dept)", BY_EMP),
    ("IN", "SELECT e.id FROM emp e WHERE e.dept IN (SELECT d.id FROM dept d WHERE d.boss > 500000)", BY_EMP),
    ("NOT IN", "SELECT e.id FROM emp e WHERE e.dept NOT IN (SELECT d.id FROM dept d)", BY_EMP),
    ("NOT IN, of Nulls", "SELECT e.id FROM emp e WHERE e.id NOT IN (SELECT d.boss FROM dept d)", BY_EMP),
    ("NOT IN, of none", "SELECT e.id FROM emp e WHERE e.id NOT IN (SELECT d.boss FROM dept d WHERE d.boss IS NOT NULL)", BY_EMP),
    ("NOT IN, a Null's", "SELECT d.id FROM dept d WHERE d.boss NOT IN (SELECT e.dept FROM emp e)", BY_DEPT),
    (
        "two deep",
        "SELECT d.id FROM dept d WHERE EXISTS (SELECT * FROM emp e WHERE e.dept = d.id AND e.id IN (SELECT x.boss FROM dept x WHERE x.boss IS NOT NULL))",
        BY_DEPT,
    ),
    ("two deep, NOT", "SELECT e.id FROM emp e WHERE e.dept NOT IN (SELECT d.id FROM dept d WHERE NOT EXISTS (SELECT * FROM emp x WHERE x.id = d.boss))", BY_EMP),
    ("IN, 60,000 of 60,000", "SELECT a.id FROM a WHERE a.id IN (SELECT o FROM l)", PAIRED),
    ("NOT IN, 60,000 of 60,000", "SELECT a.id FROM a WHERE a.id NOT IN (SELECT o FROM l)", PAIRED),
    ("EXISTS under OR, 100 values", "SELECT a.id FROM a WHERE a.flag = 1 OR EXISTS (SELECT l.o FROM l WHERE l.k = a.k AND l.o < 50)", PAIRED),
]
INDEXES = "CREATE INDEX by_dept ON emp(dept); CREATE INDEX by_boss ON dept(boss); CREATE INDEX by_o ON l(o); CREATE INDEX by_k ON l(k);"
SQLITE = """CREATE TABLE emp(id INTEGER PRIMARY KEY, dept INTEGER NOT NULL, pay INTEGER NOT NULL);
CREATE TABLE dept(id INTEGER PRIMARY KEY, boss INTEGER);
CREATE TABLE a(id INTEGER PRIMARY KEY, flag INTEGER NOT NULL, k INTEGER NOT NULL);
CREATE TABLE l(o INTEGER NOT NULL, k INTEGER NOT NULL);
.mode csv
{imports}
UPDATE dept SET boss = NULL WHERE boss = '\\N';
{indexes}
.mode list
{query};
"""
POSTGRES = """SET client_min_messages = warning;
DROP TABLE IF EXISTS emp, dept, a, l;
CREATE UNLOGGED TABLE emp(id bigint PRIMARY KEY, dept bigint NOT NULL, pay bigint NOT NULL);
CREATE UNLOGGED TABLE dept(id bigint PRIMARY KEY, boss bigint);
CREATE UNLOGGED TABLE a(id bigint PRIMARY KEY, flag bigint NOT NULL, k bigint NOT NULL);
CREATE UNLOGGED TABLE l(o bigint NOT NULL, k bigint NOT NULL);
{copies}
SET statement_timeout = '{limit}s';
{query};
"""


def write_rows(folder, rows):
    draw = random.Random(1)
    tables = {
        "emp": ("id,dept,pay", (f"{number},{draw.randrange(DEPTS * 11 // 10)},{draw.randrange(10_000)}" for number in range(rows))),
        "dept": ("id,boss", (f"{number},{draw.randrange(rows) if draw.random() < 0.9 else chr(92) + 'N'}" for number in range(DEPTS))),
        "a": ("id,flag,k", (f"{number},{draw.randrange(10)},{draw.randrange(100)}" for number in range(PAIRS))),
        "l": ("o,k", (f"{draw.randrange(2 * PAIRS)},{draw.randrange(100)}" for _ in range(PAIRS))),
    }
    for name, (heading, lines) in tables.items():
        (folder / f"{name}.csv").write_text("\n".join([heading, *lines]) + "\n")


def used(query):
    """The tables that a query names: others aren't loaded."""
    words = query.replace("(", " ").replace(")", " ").split()
    return sorted({after for word, after in zip(words, words[1:]) if word in ("FROM", "JOIN")})


def ours(program, folder, query, runs):
    """What the program takes, by a schema of the tables that the query names: others would be read too."""
    tables = [table for table in json.loads(SCHEMA)["tables"] if table["name"] in used(query)]
    (folder / "schema.json").write_text(json.dumps({"tables": tables}))
    (folder / "query.sql").write_text(query)
    (took, clock, _), written = least(runs, [program, "query", folder / "schema.json", folder / "query.sql", folder], "", folder)
    return took, clock, written.splitlines()[1:]


def sqlite(folder, query, indexes, runs):
    """Its processor time and rows, or none where it was stopped."""
    imports = "\n".join(f".import --skip 1 {folder}/{name}.csv {name}" for name in used(query))
    job = SQLITE.format(imports=imports, indexes=indexes, query=query)
    try:
        (took, _, _), written = least(runs, ["timeout", str(LIMIT), "sqlite3", ":memory:"], job, folder)
    except SystemExit:
        return None, None
    return took, written.splitlines()


def of_postgres(asks, folder, query, runs):
    copies = "\n".join(f"\\copy {name} FROM '{folder}/{name}.csv' CSV HEADER NULL '\\N'" for name in used(query))
    job = POSTGRES.format(copies=copies, query=query, limit=LIMIT)
    try:
        (_, clock, _), written = least(runs, [*asks, "-v", "ON_ERROR_STOP=1"], job, folder)
    except SystemExit:
        return None, None
    return clock, written.splitlines()


def seconds(took):
    return "over" if took is None else f"{took:.3f} s"


def main():
    parser = argparse.ArgumentParser()
    parser.add_argument("--rows", type=int, default=1_000_000)
    parser.add_argument("--runs", type=int, default=3)
    parser.add_argument("--program", default=ROOT / "release/sqlplan")
    wanted = parser.parse_args()
    print("| Subquery | rows | sqlplan | of the join | sqlite3 | with indexes | ratio | PostgreSQL, sqlplan on the clock |\n|---|---|---|---|---|---|---|---|")
    with tempfile.TemporaryDirectory() as name:
        folder = pathlib.Path(name)
        folder.chmod(0o755)
        write_rows(folder, wanted.rows)
        joined = {query: ours(wanted.program, folder, query, wanted.runs)[0] for _, _, query in CASES}
        with postgres(folder) as asks:
            for told, query, join in CASES:
                took, clock, rows = ours(wanted.program, folder, query, wanted.runs)
                plain, others = sqlite(folder, query, "", 1)
                indexed, found = sqlite(folder, query, " ".join(text + ";" for text in INDEXES.split(";") if any(f" {name}(" in text for name in used(query))), wanted.runs)
                beside, theirs = of_postgres(asks, folder, query, wanted.runs) if asks else (None, None)
                known = [other for other in (others, found, theirs) if other is not None]
                verdict = "compared with none" if not known else "the same" if all(same_rows(rows, other) == "the same" for other in known) else "OTHER ROWS"
                best = min([one for one in (plain, indexed) if one is not None], default=LIMIT)
                print(
                    f"| {told} | {len(rows)}, {verdict} | {took:.3f} s | {took / joined[join]:.2f} | {seconds(plain)} | {seconds(indexed)} | {took / best:.3f} "
                    f"| {seconds(beside)}, {clock:.3f} s |",
                    flush=True,
                )


if __name__ == "__main__":
    main()
