#!/usr/bin/env python3
"""Joins emp and dept by the command `query`, and has sqlite3 and PostgreSQL do the same with the same rows in the same run.

emp has a million rows and dept 10,000, both with a unique id. Of emp's rows one in twelve and a half has a department (`few`), or each
has (`all`). Left joins are rewritten where a WHERE rejects their padded rows, asks for these, or reads the left side alone, and where nothing of their right side is
read. Of sqlplan and sqlite3, into memory, each time is processor time (user and system) of the whole process with loading, the
least of RUNS. sqlite3's ids are INTEGER PRIMARY KEY, which it finds without an index. PostgreSQL's is the time on the clock of one
session with COPY into tables that aren't logged, at a server that runs: a cluster of the program's own, made and deleted by it.
The rows are compared. Wants sqlite3 and GNU time (Debian: sqlite3, time) and the program built; PostgreSQL is left out where it isn't
there.

The plans that `query` doesn't make yet are measured by join_plans.py.

usage: joins.py [--rows N] [--runs N] [--program PATH]
"""

import argparse
import contextlib
import os
import pathlib
import random
import shutil
import subprocess
import tempfile
import time

ROOT = pathlib.Path(__file__).resolve().parent.parent
DEPTS = 10_000
TARGET, REWRITTEN = 0.25, 0.15
SCHEMA = """{"tables":[{"name":"emp","columns":[{"name":"id","kind":"INT","not_null":true},
{"name":"dept","kind":"INT","not_null":true},{"name":"pay","kind":"INT","not_null":true}],"unique":[["id"]],"indexes":[]},
{"name":"dept","columns":[{"name":"id","kind":"INT","not_null":true},{"name":"name","kind":"TEXT","not_null":true}],
"unique":[["id"]],"indexes":[]}]}"""
INNER = "SELECT e.id, d.name FROM emp e JOIN dept d ON e.dept = d.id"
LEFT = "SELECT e.id, d.name FROM emp e LEFT JOIN dept d ON e.dept = d.id"
UNREAD = "SELECT e.id FROM emp e" + "".join(f" LEFT JOIN dept {name} ON {name}.id = e.dept" for name in "vwxyz")
CASES = [
    ("few", "JOIN", INNER, TARGET),
    ("all", "JOIN", INNER, TARGET),
    ("few", "LEFT JOIN", LEFT, TARGET),
    ("all", "LEFT JOIN", LEFT, TARGET),
    ("few", "LEFT JOIN, WHERE d.name > 'd5'", LEFT + " WHERE d.name > 'd5'", REWRITTEN),
    ("all", "LEFT JOIN, WHERE e.pay < 100", LEFT + " WHERE e.pay < 100", REWRITTEN),
    ("few", "LEFT JOIN, WHERE d.id IS NULL", "SELECT e.id FROM emp e LEFT JOIN dept d ON e.dept = d.id WHERE d.id IS NULL", REWRITTEN),
    ("few", "the same of dept", "SELECT d.id FROM dept d LEFT JOIN emp e ON e.dept = d.id WHERE e.id IS NULL", REWRITTEN),
    ("few", "five LEFT JOINs, none read", UNREAD, REWRITTEN),
    ("few", "no join", "SELECT e.id FROM emp e", REWRITTEN),
]
SQLITE = """CREATE TABLE emp(id INTEGER PRIMARY KEY, dept INTEGER NOT NULL, pay INTEGER NOT NULL);
CREATE TABLE dept(id INTEGER PRIMARY KEY, name TEXT NOT NULL);
.mode csv
.import --skip 1 {folder}/emp.csv emp
.import --skip 1 {folder}/dept.csv dept
.mode list
.separator ,
.nullvalue '\\N'
{query};
"""
POSTGRES = """SET client_min_messages = warning;
DROP TABLE IF EXISTS emp, dept;
CREATE UNLOGGED TABLE emp(id bigint PRIMARY KEY, dept bigint NOT NULL, pay bigint NOT NULL);
CREATE UNLOGGED TABLE dept(id bigint PRIMARY KEY, name text NOT NULL);
\\copy emp FROM '{folder}/emp.csv' CSV HEADER
\\copy dept FROM '{folder}/dept.csv' CSV HEADER
\\pset null '\\\\N'
{query};
"""


def write_rows(folder, rows, which):
    draw = random.Random(1)
    ids = DEPTS if which == "all" else DEPTS * 25 // 2
    folder.mkdir()
    folder.chmod(0o755)
    (folder / "schema.json").write_text(SCHEMA)
    with open(folder / "emp.csv", "w", newline="\n") as file:
        file.write("id,dept,pay\n")
        file.writelines(f"{number},{draw.randrange(ids)},{draw.randrange(10_000)}\n" for number in range(rows))
    with open(folder / "dept.csv", "w", newline="\n") as file:
        file.write("id,name\n")
        file.writelines(f"{number},d{number}\n" for number in range(DEPTS))


def once(words, job, folder):
    """Processor seconds, seconds on the clock, peak memory in bytes and output of a process. GNU time stands between: what a process
    has before its program is loaded would count as its memory too, and Python has much."""
    told = folder / "told"
    with tempfile.TemporaryFile() as given, tempfile.TemporaryFile() as taken:
        given.write(job.encode())
        given.seek(0)
        begin = time.perf_counter()
        process = subprocess.Popen(["/usr/bin/time", "-f", "%M", "-o", told, *map(str, words)], stdin=given, stdout=taken)
        _, status, usage = os.wait4(process.pid, 0)
        took = time.perf_counter() - begin
        process.returncode = os.waitstatus_to_exitcode(status)
        if process.returncode != 0:
            raise SystemExit(f"{words} ended with {process.returncode}")
        taken.seek(0)
        return usage.ru_utime + usage.ru_stime, took, int(told.read_text().split()[-1]) * 1024, taken.read().decode()


def least(runs, words, job, folder):
    results = [once(words, job, folder) for _ in range(runs)]
    return tuple(min(result[place] for result in results) for place in range(3)), results[0][3]


def postgres_tools():
    for folder in sorted(pathlib.Path("/usr/lib/postgresql").glob("*/bin"), reverse=True):
        if (folder / "initdb").exists():
            return folder
    return None


@contextlib.contextmanager
def postgres(folder):
    """A server of its own over a socket in the folder: the words that ask it, or None where there is none. A server doesn't run as
    root, so the user `postgres` has it then."""
    tools = postgres_tools()
    if tools is None or not shutil.which("psql"):
        yield None
        return
    home = folder / "postgres"
    home.mkdir()
    as_owner = []
    if os.geteuid() == 0:
        shutil.chown(home, "postgres")
        as_owner = ["runuser", "-u", "postgres", "--"]

    def run(*words):
        subprocess.run([*as_owner, *map(str, words)], check=True, stdout=subprocess.DEVNULL, cwd="/")

    data = home / "data"
    run(tools / "initdb", "-D", data, "-A", "trust", "-U", "joins")
    run(tools / "pg_ctl", "-D", data, "-w", "-l", home / "log", "-o", f"-c listen_addresses='' -k {home}", "start")
    try:
        yield ["psql", "-q", "-At", "-F", ",", "-h", home, "-U", "joins", "-d", "postgres"]
    finally:
        run(tools / "pg_ctl", "-D", data, "-w", "-m", "fast", "stop")


def same_rows(rows, others):
    return "the same" if sorted(rows) == sorted(others) else "OTHER ROWS"


def main():
    parser = argparse.ArgumentParser()
    parser.add_argument("--rows", type=int, default=1_000_000)
    parser.add_argument("--runs", type=int, default=5)
    parser.add_argument("--program", default=ROOT / "crates/program/sqlplan/out/sqlplan")
    wanted = parser.parse_args()
    print("| Join | rows | sqlplan | sqlite3 | ratio | target | PostgreSQL, sqlplan on the clock |\n|---|---|---|---|---|---|---|")
    with tempfile.TemporaryDirectory() as name:
        top = pathlib.Path(name)
        top.chmod(0o755)
        for which in ("few", "all"):
            write_rows(top / which, wanted.rows, which)
        with postgres(top) as asks:
            for which, join, query, target in CASES:
                folder = top / which
                (folder / "query.sql").write_text(query)
                words = [wanted.program, "query", folder / "schema.json", folder / "query.sql", folder]
                (ours, clock, memory), written = least(wanted.runs, words, "", folder)
                rows = written.splitlines()[1:]
                (its, _, _), others = least(wanted.runs, ["sqlite3", ":memory:"], SQLITE.format(folder=folder, query=query), folder)
                verdict = same_rows(rows, others.splitlines())
                beside = "none"
                if asks:
                    (_, its_clock, _), others = least(wanted.runs, asks, POSTGRES.format(folder=folder, query=query), folder)
                    beside = f"{its_clock:.2f} s, {clock:.2f} s, {same_rows(rows, others.splitlines())}"
                met = "met" if ours / its <= target else "not met"
                print(
                    f"| {join}, {which} | {len(rows)} | {ours:.3f} s, {memory / 2**20:.0f} MB | {its:.3f} s, {verdict} "
                    f"| {ours / its:.2f} | {target}, {met} | {beside} |",
                    flush=True,
                )


if __name__ == "__main__":
    main()
