#!/usr/bin/env python3
"""Measures joins whose pairs are made a chunk at a time, beside sqlite3 in the same run: time and peak memory of the whole process, against targets.

Two tables of ROWS rows have all pairs with a lesser value of the right side joined, some half of all: they are counted, counted by group, made distinct, left joined
with a third table, and written to a reader that closes the pipe after ten rows. Times are processor time (user and system), the least of RUNS; sqlite3 imports the same rows into memory. Wants
sqlite3 and GNU time (Debian: sqlite3, time) and the program built.

usage: chunks.py [--rows N] [--runs N] [--program PATH]
"""

import argparse
import pathlib
import random
import subprocess
import tempfile
import time

ROOT = pathlib.Path(__file__).resolve().parent.parent
SCHEMA = """{"tables":[{"name":"o","columns":[{"name":"a","kind":"INT","not_null":true},{"name":"c","kind":"INT","not_null":true}],
"unique":[],"indexes":[]},{"name":"l","columns":[{"name":"b","kind":"INT","not_null":true},{"name":"v","kind":"INT","not_null":true}],
"unique":[],"indexes":[]},{"name":"p","columns":[{"name":"k","kind":"INT","not_null":true},{"name":"n","kind":"INT","not_null":true}],
"unique":[["k"]],"indexes":[]}]}"""
SQLITE = """CREATE TABLE o(a INTEGER, c INTEGER);
CREATE TABLE l(b INTEGER, v INTEGER);
CREATE TABLE p(k INTEGER UNIQUE, n INTEGER);
.mode csv
.import --skip 1 {folder}/o.csv o
.import --skip 1 {folder}/l.csv l
.import --skip 1 {folder}/p.csv p
{query};
"""
PAIRS = "FROM o x, l WHERE l.v < x.c"
CASES = [
    ("COUNT(*) of the pairs", f"SELECT COUNT(*) {PAIRS}", 3.0, 30),
    ("the same by 100 groups", f"SELECT x.a, COUNT(*), SUM(l.v) {PAIRS} GROUP BY x.a", None, 30),
    ("10,000 different rows of the pairs", f"SELECT DISTINCT x.a, l.b {PAIRS}", None, 30),
    ("the pairs left joined with 50 rows", "SELECT COUNT(*), SUM(p.n) FROM o x JOIN l ON l.v < x.c LEFT JOIN p ON p.k = l.b AND p.n < x.a", None, 30),
]


def write(folder, rows):
    draw = random.Random(3)
    for name, columns in (("o", "a,c"), ("l", "b,v")):
        lines = (f"{draw.randrange(100)},{draw.randrange(100_000)}\n" for _ in range(rows))
        (folder / f"{name}.csv").write_text(columns + "\n" + "".join(lines))
    (folder / "p.csv").write_text("k,n\n" + "".join(f"{key},{key % 7}\n" for key in range(0, 100, 2)))
    (folder / "schema.json").write_text(SCHEMA)


def once(words, job=""):
    """Processor seconds, megabytes at the peak, and what was printed."""
    with tempfile.NamedTemporaryFile("r") as told:
        timed = ["/usr/bin/time", "-f", "%U %S %M", "-o", told.name, *map(str, words)]
        printed = subprocess.run(timed, input=job, capture_output=True, text=True, check=True).stdout
        user, system, peak = told.read().split()[-3:]
    return float(user) + float(system), int(peak) / 1024, printed


def least(runs, words, job=""):
    """The least of each."""
    tried = [once(words, job) for _ in range(runs)]
    return min(it[0] for it in tried), min(it[1] for it in tried), tried[0][2]


def rows_of(text):
    return sorted(text.replace("\r", "").split("\n")[:-1])


def main():
    parser = argparse.ArgumentParser()
    parser.add_argument("--rows", type=int, default=20_000)
    parser.add_argument("--runs", type=int, default=2)
    parser.add_argument("--program", default=ROOT / "crates/program/sqlplan/out/sqlplan")
    asked = parser.parse_args()
    print("| What | sqlplan | sqlite3 | ratio | peak memory | targets |\n|---|---|---|---|---|---|")
    with tempfile.TemporaryDirectory() as name:
        folder = pathlib.Path(name)
        write(folder, asked.rows)

        def words(query):
            (folder / "query.sql").write_text(query)
            return [asked.program, "query", folder / "schema.json", folder / "query.sql", folder]

        for what, query, seconds, peak in CASES:
            mine, memory, text = least(asked.runs, words(query))
            its, _, other = least(1, ["sqlite3", ":memory:"], SQLITE.format(folder=folder, query=query))
            same = "" if rows_of(text.split("\n", 1)[1]) == rows_of(other) else ", other rows"
            met = memory <= peak and (seconds is None or mine <= seconds)
            print(f"| {what} | {mine:.2f} s{same} | {its:.2f} s | {mine / its:.2f} | {memory:.0f} MB | {seconds or '-'} s, {peak} MB: {'met' if met else 'not met'} |", flush=True)
        load, _, _ = least(asked.runs, words("SELECT a FROM o WHERE a < 0"))
        begun = time.monotonic()
        shown = subprocess.Popen(words(f"SELECT x.a, l.b {PAIRS}"), stdout=subprocess.PIPE)
        taken = b"".join(shown.stdout.readline() for _ in range(11))
        shown.stdout.close()
        status = shown.wait()
        spent = time.monotonic() - begun
        print(f"| the first ten pairs, on the clock | {spent * 1000:.0f} ms, {taken.count(bytes([10]))} lines, status {status} | | | | {load * 1000:.0f} ms to load one table |")


main()
