#!/usr/bin/env python3
"""Filters, groups, sorts, makes distinct and joins a table, and has sqlite3 do the same with the same rows in the same run.

Prints the seconds of both, each of the whole process with loading the table, the least of three runs. Wants sqlite3 (Debian:
sqlite3) and the program built.

usage: plans.py [ROWS [JOINED_ROWS]]
"""
import pathlib
import random
import subprocess
import sys
import tempfile
import time

ROOT = pathlib.Path(__file__).resolve().parent.parent
PROGRAM = ROOT / "crates/program/sqlplan/out/sqlplan"
SCHEMA = """{"tables":[{"name":"emp","columns":[{"name":"id","kind":"INT","not_null":true},
{"name":"dept","kind":"INT","not_null":true},{"name":"pay","kind":"INT","not_null":true},
{"name":"name","kind":"TEXT","not_null":true}],"unique":[],"indexes":[]}]}"""
QUERIES = {
    "filtered": "SELECT id, name FROM emp WHERE pay > 5000 AND dept <> 7",
    "grouped": "SELECT dept, COUNT(*), SUM(pay), MIN(name) FROM emp GROUP BY dept",
    "many groups": "SELECT pay, COUNT(*), MAX(id) FROM emp GROUP BY pay",
    "sorted": "SELECT id, name, pay FROM emp ORDER BY pay DESC, name",
    "distinct": "SELECT DISTINCT dept, name FROM emp",
}
JOIN = "SELECT a.id, b.id FROM emp a JOIN emp b ON a.pay = b.pay AND a.id < b.id"


def write_rows(folder, rows):
    draw = random.Random(1)
    with open(folder / "emp.csv", "w", newline="\n") as file:
        file.write("id,dept,pay,name\n")
        for number in range(rows):
            file.write(f"{number},{draw.randrange(100)},{draw.randrange(10_000)},n{draw.randrange(1000)}\n")


def seconds(words, job=None):
    best, text = None, ""
    for _ in range(3):
        start = time.perf_counter()
        run = subprocess.run(words, input=job, capture_output=True, text=True, check=True)
        took = time.perf_counter() - start
        best, text = took if best is None else min(best, took), run.stdout
    return best, text


def compare(folder, name, query):
    (folder / "query.sql").write_text(query)
    ours, rows = seconds([PROGRAM, "query", folder / "schema.json", folder / "query.sql", folder])
    job = f"CREATE TABLE emp(id INTEGER NOT NULL, dept INTEGER NOT NULL, pay INTEGER NOT NULL, name TEXT NOT NULL);\n.mode csv\n.import --skip 1 {folder}/emp.csv emp\n{query};\n"
    theirs, others = seconds(["sqlite3", ":memory:"], job)
    mine, other = rows.splitlines()[1:], others.replace("\r", "").splitlines()
    same = mine == other if "ORDER BY" in query else sorted(mine) == sorted(other)
    print(f"{name}: {ours:.3f} s, sqlite3 {theirs:.3f} s, {len(mine)} rows, {'the same' if same else 'ANOTHER ANSWER'}")


def main():
    rows = int(sys.argv[1]) if len(sys.argv) > 1 else 100_000
    joined = int(sys.argv[2]) if len(sys.argv) > 2 else 3_000
    with tempfile.TemporaryDirectory() as name:
        folder = pathlib.Path(name)
        (folder / "schema.json").write_text(SCHEMA)
        write_rows(folder, rows)
        for what, query in QUERIES.items():
            compare(folder, what, query)
        write_rows(folder, joined)
        compare(folder, f"joined with itself, {joined} rows", JOIN)


main()
