#!/usr/bin/env python3
"""Checks, writes and reads certificates of many lines: the frame of a query over ten table instances, and behind it filters, facts, joins,
and joins turned round by a rule. The program of certificates/main.rt.txt, in a clone, is proved and built by `rt run`, and then run by
itself. The command `check` is handed the same certificate as a text.

Prints processor time (user and system) and peak memory of the whole process, the least of three runs: of making the certificate, of
making and checking it, of making and writing it, of reading it too, and of the command.

usage: certificates.py [--tree PATH | --command] [COUNT ..]
  --command  the command alone
"""
import os
import pathlib
import shutil
import subprocess
import sys
import tempfile

import crates

ROOT = pathlib.Path(__file__).resolve().parent.parent
NAME = "certificates_bench"
LIBRARIES = "values schema sql_parse query binder algebra laws props rules plain_rules outer_rules semijoin_rules subquery_rules book derivation logs frame physical certificate certificate_text certificate_read checker statistics store costs memo explore seed winners planner anyhow"


def built(tree):
    """The program, built in a tree of the repository."""
    crate = tree / "crates" / NAME
    (crate / "src").mkdir(parents=True, exist_ok=True)
    shutil.copy(ROOT / "bench/certificates/main.rt.txt", crate / "src/main.rt")
    crates.list_crate(tree, NAME, LIBRARIES)
    crates.run(tree, crate)
    return crate / "out" / NAME


TABLES = 10
SCHEMA = """{"tables":[{"name":"t","columns":[{"name":"a","kind":"INT","not_null":true},{"name":"b","kind":"INT","not_null":false}],
"unique":[["a"]],"indexes":[]}]}"""
QUERY = "SELECT s.a FROM t s, t k, t l, t m, t n, t o, t p, t q, t r, t u"


def class_of(table):
    """The class of a table instance, whose Get stands in the frame before the join with those before it."""
    return table if table < 2 else 2 * table - 1


def frame_of():
    lines = ["F get 0", "F get 1", "F join [] 0 1"]
    for table in range(2, TABLES):
        lines += [f"F get {table}", f"F join [] {class_of(table) - 1} {class_of(table)}"]
    return lines + [f"F keep 0 {2 * TABLES - 2}"]


def joins_of(number, first):
    """A filter on a table instance, what is nowhere Null then, a join with another, and the join turned round; numbered from the first."""
    table, other = number % TABLES, (number + 1) % TABLES
    b, on = 2 * table + 1, f"[=(c{2 * table + 1},c{2 * other + 1})]"
    if other == 0:
        on = f"[=(c{b},c1)]"
    return [
        f"F select [=(c{b},i{number})] {class_of(table)}",
        f"L {first} {first} notnull {b}",
        f"F join {on} {first} {class_of(other)}",
        f"A {first + 2} J1 0 {first + 2} - join {on} {class_of(other)} {first}",
    ]


def plan_of(table):
    """The plan of the join of so many table instances."""
    if table == 0:
        return ["scan 0 0"]
    join = 2 if table == 1 else class_of(table) + 1
    return [f"loop {join} inner []"] + plan_of(table - 1) + [f"scan {class_of(table)} {table}"]


def text_of(count):
    lines = frame_of()
    root = len(lines) - 1
    number = 0
    while len(lines) < count:
        lines += joins_of(number, len(lines))
        number += 1
    lines = lines[:count]
    plan = [f"cut {root} 0"] + plan_of(TABLES - 1)
    return "\n".join(["SQLPLAN 1", f"lines {len(lines)}", *lines, f"plan {len(plan)}", *plan, "end", ""])


def command(folder, count):
    """Seconds and MB of one run of the command `check`."""
    files = {"schema.json": SCHEMA, "query.sql": QUERY, "certificate": text_of(count)}
    for name, text in files.items():
        (folder / name).write_text(text, encoding="utf-8")
    child = subprocess.Popen([ROOT / "sqlplan", "check", *(folder / name for name in files)], stdout=subprocess.PIPE)
    answer = child.stdout.read()
    _, status, usage = os.wait4(child.pid, 0)
    assert status == 0 and answer == b"accepted\n", answer
    return usage.ru_utime + usage.ru_stime, usage.ru_maxrss / 1000


def measured(program, word, count):
    """Seconds and MB of one run."""
    reader, writer = os.pipe()
    os.write(writer, f"{word} {count}\n".encode())
    os.close(writer)
    child = subprocess.Popen([program], stdin=reader, stdout=subprocess.PIPE)
    os.close(reader)
    answer = child.stdout.read().decode().split()
    _, status, usage = os.wait4(child.pid, 0)
    assert status == 0 and answer[0] == word and answer[2] == "true", answer
    return usage.ru_utime + usage.ru_stime, usage.ru_maxrss / 1000


def show(word, count, runs):
    print(f"{word:14}{count:9,} lines{min(run[0] for run in runs):8.2f} s{max(run[1] for run in runs):7.0f} MB", flush=True)


def main():
    words = sys.argv[1:]
    counts = [int(word) for word in words if word.isdigit()] or [50_000, 200_000]
    with tempfile.TemporaryDirectory() as name:
        folder = pathlib.Path(name)
        for count in counts:
            show("command check", count, [command(folder, count) for _ in range(3)])
        if words[:1] == ["--command"]:
            return
        tree = folder / "tree"
        if words[:1] == ["--tree"]:
            tree = pathlib.Path(words[1])
        else:
            subprocess.run(["git", "clone", "-q", ROOT, tree], check=True)
        program = built(tree)
        for word in ["make", "check", "write", "read"]:
            for count in counts:
                show(word, count, [measured(program, word, count) for _ in range(3)])


if __name__ == "__main__":
    main()
