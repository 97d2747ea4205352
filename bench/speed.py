#!/usr/bin/env python3
"""Measures loading, running and writing beside sqlite3 and a plain C scan, all in one run, against targets.

Each time is processor time (user and system) of the whole process, the least of RUNS; sqlite3 imports the same rows into memory, with
the same unique columns, and answers the same query. The C program reads the same file, keeps its numbers in columns, and writes the
rows of the first query; it checks nothing. Wants sqlite3, gcc, GNU time and valgrind (Debian: sqlite3, gcc, time,
valgrind) and the program built.

usage: speed.py [--rows N] [--runs N] [--program PATH] [NAME..]    names of the table's first column; without any, all
"""

import argparse
import os
import pathlib
import random
import re
import subprocess
import tempfile

ROOT = pathlib.Path(__file__).resolve().parent.parent
NUMBERS = [("id", "INT", True), ("dept", "INT", False), ("pay", "INT", False), ("badge", "INT", False)]
KEYS = [("k", "INT", True), ("v", "INT", True)]
TEXTS = [(f"t{number}", "TEXT", False) for number in range(10)]
C_SCAN = r"""
#include <stdio.h>
#include <stdlib.h>
#include <string.h>
int main(int count, char **words) {
  FILE *file = fopen(words[1], "rb");
  fseek(file, 0, SEEK_END);
  long size = ftell(file);
  rewind(file);
  char *text = malloc(size + 1), *at, *end;
  if (!file || fread(text, 1, size, file) != (size_t)size) return 1;
  text[size] = 0;
  at = strchr(text, '\n') + 1;
  end = text + size;
  long room = size / 4, rows = 0;
  long *columns[4];
  char *known[4];
  for (int c = 0; c < 4; c++) { columns[c] = malloc(room * 8); known[c] = malloc(room); }
  while (at < end) {
    for (int c = 0; c < 4; c++) {
      known[c][rows] = *at != '\\';
      if (*at == '\\') { columns[c][rows] = 0; at += 2; } else {
        int minus = *at == '-';
        at += minus;
        long n = 0;
        while (*at >= '0' && *at <= '9') n = n * 10 + *at++ - '0';
        columns[c][rows] = minus ? -n : n;
      }
      at++;
    }
    rows++;
  }
  puts("id");
  for (long r = 0; r < rows; r++)
    if (known[2][r] && columns[2][r] != 500) printf("%ld\n", columns[0][r]);
  return 0;
}
"""


def schema(columns, unique):
    entries = ",".join(f'{{"name":"{n}","kind":"{k}","not_null":{str(f).lower()}}}' for n, k, f in columns)
    lists = ",".join(f'["{name}"]' for name in unique)
    return f'{{"tables":[{{"name":"emp","columns":[{entries}],"unique":[{lists}],"indexes":[]}}]}}'


def write_numbers(folder, rows, shuffled=False):
    """Our table, and the same rows for sqlite3, which reads no NULL from a CSV file: numbers of their own stand there."""
    draw = random.Random(1)
    numbers = list(range(rows))
    if shuffled:
        draw.shuffle(numbers)
    with open(folder / "emp.csv", "w", newline="\n") as ours, open(folder / "plain.csv", "w", newline="\n") as theirs:
        ours.write("id,dept,pay,badge\n")
        for number in numbers:
            dept, pay = draw.choice([1, 2, 3, None]), draw.choice([500] * 9 + [None, 400])
            badge = 5_000_000 + number if number % 2 == 0 else None
            ours.write(",".join("\\N" if v is None else str(v) for v in (number, dept, pay, badge)) + "\n")
            plain = (number, -1 if dept is None else dept, -1 if pay is None else pay, -number - 1 if badge is None else badge)
            theirs.write(",".join(map(str, plain)) + "\n")


def write_texts(folder, rows):
    draw = random.Random(2)
    with open(folder / "emp.csv", "w", newline="\n") as ours, open(folder / "plain.csv", "w", newline="\n") as theirs:
        ours.write(",".join(name for name, _, _ in TEXTS) + "\n")
        for number in range(rows):
            line = ",".join(f"w{draw.randrange(100_000)}" for _ in TEXTS) + "\n"
            ours.write(line)
            theirs.write(line)


def write_keys(folder, rows):
    """Numbers, nine tenths of which are different, and a value beside each."""
    draw = random.Random(3)
    keys = list(range(rows * 9 // 10))
    keys += [draw.choice(keys) for _ in range(rows - len(keys))]
    draw.shuffle(keys)
    lines = "".join(f"{key},{draw.randrange(1_000_000)}\n" for key in keys)
    (folder / "emp.csv").write_text("k,v\n" + lines)
    (folder / "plain.csv").write_text(lines)


def once(words, job=None):
    """Processor seconds, peak memory in bytes and standard output of a process. GNU time stands between: what a process has before its
    program is loaded would count as its memory too, and Python has much."""
    with tempfile.TemporaryFile() as given, tempfile.TemporaryFile() as taken, tempfile.NamedTemporaryFile() as told:
        given.write((job or "").encode())
        given.seek(0)
        timed = ["/usr/bin/time", "-f", "%M", "-o", told.name, *map(str, words)]
        process = subprocess.Popen(timed, stdin=given, stdout=taken)
        _, status, usage = os.wait4(process.pid, 0)
        process.returncode = os.waitstatus_to_exitcode(status)
        if process.returncode != 0:
            raise SystemExit(f"{words} ended with {process.returncode}")
        taken.seek(0)
        return usage.ru_utime + usage.ru_stime, int(told.read().split()[-1]) * 1024, taken.read().decode()


def least(runs, words, job=None):
    results = [once(words, job) for _ in range(runs)]
    return min(r[0] for r in results), min(r[1] for r in results), results[0][2]


class Bench:
    def __init__(self, folder, asked):
        self.folder, self.rows, self.runs, self.program = folder, asked.rows, asked.runs, asked.program

    def ours(self, columns, unique, query):
        (self.folder / "schema.json").write_text(schema(columns, unique))
        (self.folder / "query.sql").write_text(query)
        return [self.program, "query", self.folder / "schema.json", self.folder / "query.sql", self.folder]

    def theirs(self, columns, unique, query):
        names = ", ".join(f"{n} {'INTEGER' if k == 'INT' else 'TEXT'}{' UNIQUE' if n in unique else ''}" for n, k, _ in columns)
        return f"CREATE TABLE emp({names});\n.mode csv\n.import {self.folder}/plain.csv emp\n{query};\n"

    def beside(self, what, target, query, other=None, columns=NUMBERS, unique=("id", "badge")):
        """A query of both; where NULLs stand as -1 for sqlite3, it is asked another one."""
        mine, memory, rows = least(self.runs, self.ours(columns, unique, query))
        its, _, others = least(self.runs, ["sqlite3", ":memory:"], self.theirs(columns, unique, other or query))
        count, theirs = rows.count("\n") - 1, others.count("\n")
        note = "" if count == theirs else f", but sqlite3 {theirs}"
        size = (self.folder / "emp.csv").stat().st_size
        self.line(what, f"{mine:.3f} s, {count} rows{note}", f"{its:.3f} s", mine / its, target, f"memory {memory / size:.1f} times the file")
        return mine, memory / size

    def line(self, what, ours, theirs, value, target, more=""):
        print(f"| {what} | {ours} | {theirs} | {value:.2f} | {target} | {'met' if value <= target else 'not met'} | {more} |", flush=True)


def instructions(words, folder):
    """As callgrind counts them."""
    command = ["valgrind", "--tool=callgrind", f"--callgrind-out-file={folder}/callgrind.out", *map(str, words)]
    told = subprocess.run(command, capture_output=True, text=True, check=True).stderr
    return int(re.search(r"Collected : (\d+)", told).group(1))


def pairs(bench):
    """A nested loop by hand: so many pairs for each, and the time over that of the empty table."""
    rows = 3_000
    write_numbers(bench.folder, rows)
    query = "SELECT a.id FROM emp a JOIN emp b ON a.id < b.pay AND a.pay = b.id AND a.badge <> b.dept"
    loop, _, _ = least(bench.runs, bench.ours(NUMBERS, (), query))
    load, _, _ = least(bench.runs, bench.ours(NUMBERS, (), "SELECT id FROM emp WHERE id < 0"))
    bench.line("a nested loop, nanoseconds a pair", f"{loop:.3f} s for {rows * rows} pairs", "", (loop - load) / (rows * rows) * 1e9, 10)


def conjuncts(bench):
    """1,024 conditions over no rows, less one condition: reading, binding, framing, checking and running them."""
    write_numbers(bench.folder, 0)
    tests = [f"pay <> {number * 7919 % 1024}" for number in range(1024)]
    many = instructions(bench.ours(NUMBERS, (), "SELECT id FROM emp WHERE " + " AND ".join(tests)), bench.folder)
    one = instructions(bench.ours(NUMBERS, (), "SELECT id FROM emp WHERE pay <> 0"), bench.folder)
    bench.line("1,024 conjuncts, million instructions, text to rows", "", "", (many - one) / 1e6, 10)


def main():
    parser = argparse.ArgumentParser()
    parser.add_argument("--rows", type=int, default=1_000_000)
    parser.add_argument("--runs", type=int, default=5)
    parser.add_argument("--program", default=ROOT / "crates/program/sqlplan/out/sqlplan")
    parser.add_argument("names", nargs="*")
    wanted = parser.parse_args()

    def asked(name):
        return not wanted.names or name in wanted.names

    print("| What | sqlplan | sqlite3 | ratio or value | target | | |\n|---|---|---|---|---|---|---|")
    with tempfile.TemporaryDirectory() as name:
        folder = pathlib.Path(name)
        bench = Bench(folder, wanted)
        write_numbers(folder, wanted.rows)
        if asked("scan"):
            mine, _ = bench.beside("scan", 0.12, "SELECT id FROM emp WHERE pay <> 500", "SELECT id FROM emp WHERE pay <> 500 AND pay <> -1")
            (folder / "scan.c").write_text(C_SCAN)
            subprocess.run(["gcc", "-O2", "-o", folder / "scan", folder / "scan.c"], check=True)
            plain, _, _ = least(wanted.runs, [folder / "scan", folder / "emp.csv"])
            bench.line("the same beside a plain C scan", f"{mine:.3f} s", f"C {plain:.3f} s", mine / plain, 5)
        if asked("group"):
            bench.beside("group", 0.12, "SELECT dept, COUNT(*), SUM(pay) FROM emp GROUP BY dept")
        if asked("groups"):
            write_keys(folder, wanted.rows)
            _, memory = bench.beside("many groups", 0.5, "SELECT k, COUNT(*) FROM emp GROUP BY k", columns=KEYS, unique=())
            bench.line("peak memory, many groups, times the file", "", "", memory, 4)
            _, memory = bench.beside("many groups with sums", 0.5, "SELECT k, COUNT(*), SUM(v) FROM emp GROUP BY k", columns=KEYS, unique=())
            bench.line("peak memory, many groups with sums, times the file", "", "", memory, 4)
            write_numbers(folder, wanted.rows)
        if asked("having"):
            write_keys(folder, wanted.rows)
            grouped = "SELECT k, SUM(v) FROM emp GROUP BY k HAVING"
            bench.beside("many groups, HAVING of a key", 0.2, f"{grouped} k < {wanted.rows // 1_000}", columns=KEYS, unique=())
            bench.beside("many groups, HAVING of an aggregate", 0.5, f"{grouped} COUNT(*) > 2", columns=KEYS, unique=())
            write_numbers(folder, wanted.rows)
        if asked("distinct"):
            bench.beside("distinct", 0.10, "SELECT DISTINCT dept, pay FROM emp")
        if asked("sort"):
            bench.beside("sort", 0.25, "SELECT id, pay FROM emp ORDER BY pay, id DESC")
        if asked("load"):
            load, memory = bench.beside("load in order", 0.12, "SELECT id FROM emp WHERE id < 0")
            bench.line("load in order, nanoseconds a row", f"{load:.3f} s", "", load / wanted.rows * 1e9, 200)
            bench.line("peak memory, numbers, times the file", "", "", memory, 3)
            write_numbers(folder, wanted.rows, shuffled=True)
            load, memory = bench.beside("load in no order", 0.12, "SELECT id FROM emp WHERE id < 0")
            bench.line("load in no order, nanoseconds a row", f"{load:.3f} s", "", load / wanted.rows * 1e9, 200)
        if asked("conditions"):
            write_numbers(folder, 10_000)
            tests = " AND ".join(f"pay <> {number * 7919 % 512 + 1000}" for number in range(512))
            bench.beside("512 conditions on 10,000 rows", 0.7, f"SELECT id FROM emp WHERE {tests}", f"SELECT id FROM emp WHERE {tests} AND pay <> -1")
        if asked("texts"):
            write_texts(folder, wanted.rows // 5)
            _, memory = bench.beside("ten text columns", 0.25, "SELECT t0 FROM emp WHERE t1 = 'w7'", columns=TEXTS, unique=())
            bench.line("peak memory, texts, times the file", "", "", memory, 3)
        if asked("pairs"):
            pairs(bench)
        if asked("conjuncts"):
            conjuncts(bench)


main()
