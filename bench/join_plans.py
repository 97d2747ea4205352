#!/usr/bin/env python3
"""Runs plans that the command `query` doesn't make yet, merge joins, joins by hash that keep left rows, scans and joins by an index,
sorted groups, nested loops and a load, and has sqlite3 and PostgreSQL answer the same of the same rows in the same run.

The program of join_plans/main.rt.txt runs them, proved and built in a clone by `rt run`. Of it and of sqlite3, into memory, each time is
processor time (user and system) of the whole process with loading, the least of RUNS. sqlite3's ids are INTEGER PRIMARY KEY, which it
finds without an index, and it has the index that a plan reads; its import reads no NULL, so it sets Nulls by an UPDATE. PostgreSQL is
measured as joins.py does it. The rows are compared. Wants sqlite3 and GNU time (Debian: sqlite3, time).

usage: join_plans.py [--rows N] [--runs N] [NAME..]    NAME: the first word of a case; without any, all
       join_plans.py --try TREE    over small tables, by `rt try` in a tree: the rows are compared, and no time is taken
"""
import argparse
import dataclasses
import json
import pathlib
import random
import shutil
import subprocess
import sys
import tempfile

import crates
import joins

ROOT = joins.ROOT
NAME = "join_plans_bench"
LIBRARIES = (
    "values schema store sql_parse query binder algebra laws props rules plain_rules outer_rules semijoin_rules subquery_rules book derivation logs frame physical certificate relations joins checker answer_text pipeline anyhow"
)
DEPTS = 10_000
COLUMNS = {
    "emp": [("id", "INT"), ("dept", "INT"), ("pay", "INT")],
    "dept": [("id", "INT"), ("name", "TEXT")],
    "few": [("id", "INT")],
    "pairs": [("id", "INT"), ("low", "INT"), ("high", "INT")],
    "numbers": [("id", "INT"), ("a", "INT"), ("b", "INT"), ("c", "INT")],
}


@dataclasses.dataclass
class Case:
    """A plan in words, as crates/tests/plan_words/src/plans.rt has them, over the lines of the query's frame; or another way to answer. The
    first word of its name is its own."""

    name: str
    way: str
    tables: dict  # the columns of each table's index, if it has one
    query: str
    plan: str = ""
    sqlite: str = ""  # where it asks otherwise
    data: str = "whole"
    target: float = 0  # of sqlite3's time, or of another case's
    beside: object = None

    def schema(self):
        entry = lambda name, kind: {"name": name, "kind": kind, "not_null": False}
        table = lambda name, index: {
            "name": name,
            "columns": [entry(*column) for column in COLUMNS[name]],
            "unique": [] if self.data == "right_null" and name == "dept" else [["id"]],
            "indexes": [index] if index else [],
        }
        return json.dumps({"tables": [table(name, index) for name, index in self.tables.items()]})

    def asked(self, folder):
        return "\n".join([self.way, str(self.schema_path(folder)), str(folder / self.data), self.query, self.plan]) + "\n"

    def schema_path(self, folder):
        return folder / self.data / f"{self.first_word()}.json"

    def first_word(self):
        return self.name.split()[0].strip(":")


def load_of(case):
    return dataclasses.replace(case, way="load", name=case.first_word() + "-load")


def index_only(case, query, plan):
    """A scan by the index of the case that finds no row: the load, and the sort of the index. It has the tables of the case."""
    return dataclasses.replace(case, way="plan", name=case.first_word() + "-index", query=query, plan=plan)


def by_index_cases():
    """What a scan or a join by an index takes beside the load, or beside the load and the sort of the index."""
    in_order = Case(
        "scan-in-order by an index, 1% of the rows, which stand in its order",
        "plan",
        {"emp": ["id"]},
        "SELECT pay FROM emp WHERE id < {percent}",
        "iscan 1: 0 0 0 | cut 2: 2",
        target=1.05,
    )
    other = Case(
        "scan by an index, 1% of the rows",
        "plan",
        {"emp": ["pay"]},
        "SELECT id FROM emp WHERE pay < 100",
        "iscan 1: 0 0 0 | cut 2: 0",
        target=1.05,
    )
    probe = Case(
        "probe: a join by an index, 1,000 left rows",
        "plan",
        {"few": None, "emp": ["dept"]},
        "SELECT f.id, e.id FROM few f JOIN emp e ON e.dept = f.id",
        "scan 0 0 | iloop 2: 1 1 0 | cut 3: 0 1",
        target=1.05,
    )
    none = "SELECT e.id FROM emp e WHERE e.{} < 0"
    return [
        dataclasses.replace(in_order, beside=load_of(in_order)),
        dataclasses.replace(other, beside=index_only(other, none.format("pay"), other.plan)),
        dataclasses.replace(probe, beside=index_only(probe, none.format("dept"), "iscan 1: 0 0 0 | cut 2: 0")),
    ]


def kept_left_cases():
    """Joins by hash that keep left rows. A NOT IN has the conditions of the join in its second list."""
    at_dept = "(SELECT * FROM dept d WHERE d.id = e.dept)"
    exists, without = (f"SELECT e.id FROM emp e WHERE {word} {at_dept}" for word in ("EXISTS", "NOT EXISTS"))
    not_in = "SELECT e.id FROM emp e WHERE e.dept NOT IN (SELECT d.id FROM dept d)"
    join = "SELECT e.id FROM emp e JOIN dept d ON e.dept = d.id"
    case = lambda name, way, sqlite, data="half": Case(name, way, {"emp": None, "dept": None}, join, "", sqlite, data, 0.1)
    return [
        case("semi join by hash", "semi", exists),
        case("anti join by hash", "anti", without),
        case("not-in by hash", "not in", not_in),
        case("not-in-left by hash, Nulls on the left", "not in", not_in, "left_null"),
        case("not-in-right by hash, a Null on the right", "not in", not_in, "right_null"),
    ]


def cases():
    merged = "SELECT e.id, d.name FROM emp e JOIN dept d ON e.dept = d.id"
    groups = "SELECT dept, COUNT(*), SUM(pay) FROM emp GROUP BY dept"
    pairs = "SELECT a.id, b.id FROM pairs a JOIN pairs b ON a.high < b.low"
    merge = "iscan 0: 0 0 0 | iscan 1: 1 1 0 | merge 2: 1 3 | cut 3: 0 4"
    group = "iscan 0: 0 0 0 | sgroup 1 | cut 2: 1 3 4"
    loop = "scan 0 0 | scan 1 1 | loop 2 | cut 3: 0 3"
    count = "SELECT COUNT(*) FROM numbers"
    load = Case("load: four columns of numbers in no order", "load", {"numbers": None}, "SELECT id FROM numbers", sqlite=count, target=200e-9)
    return [
        Case("merge join over two index scans", "plan", {"emp": ["dept"], "dept": ["id"]}, merged, merge, target=0.25),
        *kept_left_cases(),
        *by_index_cases(),
        Case("group: 10,000 keys, sorted, over an index scan", "plan", {"emp": ["dept"]}, groups, group, target=0.1),
        Case("loop: nested loops of 3,000 x 3,000", "plan", {"pairs": None}, pairs, loop, target=8e-9),
        load,
    ]


# ---- tables


def write_table(folder, name, rows):
    cell = lambda value: "\\N" if value is None else str(value)
    with open(folder / f"{name}.csv", "w", newline="\n") as file:
        file.write(",".join(column for column, _ in COLUMNS[name]) + "\n")
        file.writelines(",".join(map(cell, row)) + "\n" for row in rows)


def write_data(folder, rows, data):
    """Each of emp's rows has a department (`whole`), or half of them, and then one in twenty a Null, or one department."""
    draw = random.Random(3)
    folder.mkdir()
    folder.chmod(0o755)
    ids = DEPTS if data == "whole" else 2 * DEPTS
    dept = lambda: None if data == "left_null" and draw.random() < 0.05 else draw.randrange(ids)
    write_table(folder, "emp", ((number, dept(), draw.randrange(10_000)) for number in range(rows)))
    known = [(number, f"d{number}") for number in range(DEPTS)]
    write_table(folder, "dept", known + ([(None, "none")] if data == "right_null" else []))


def write_others(folder, rows):
    draw = random.Random(4)
    write_table(folder, "few", ((number * 10,) for number in range(1000)))
    write_table(folder, "pairs", ((number, draw.randrange(1000), draw.randrange(1000, 2000)) for number in range(min(rows, 3000))))
    ids = list(range(rows))
    draw.shuffle(ids)
    write_table(folder, "numbers", ((number, *(draw.randrange(1_000_000) for _ in range(3))) for number in ids))


def write_all(top, rows, wanted):
    top.chmod(0o755)
    for data in ["whole", "half", "left_null", "right_null"]:
        write_data(top / data, rows, data)
    write_others(top / "whole", rows)
    for case in wanted:
        case.schema_path(top).write_text(case.schema())
        if case.beside:
            case.beside.schema_path(top).write_text(case.beside.schema())


# ---- the others' words


def sqlite_job(case, folder):
    """The tables are imported and an index is made when they are full; a Null comes as its text, but in no column of ids."""
    lines = []
    for name, index in case.tables.items():
        ids = "INTEGER" if case.data == "right_null" and name == "dept" else "INTEGER PRIMARY KEY"
        kinds = {"INT": "INTEGER", "TEXT": "TEXT"}
        columns = ", ".join(f"{column} {ids if column == 'id' else kinds[kind]}" for column, kind in COLUMNS[name])
        lines += [f"CREATE TABLE {name}({columns});", ".mode csv", f".import --skip 1 {folder / case.data}/{name}.csv {name}"]
    lines += {
        "left_null": ["UPDATE emp SET dept = NULL WHERE dept = '\\N';"],
        "right_null": ["UPDATE dept SET id = NULL WHERE id = '\\N';", "CREATE INDEX dept_id ON dept(id);"],
    }.get(case.data, [])
    lines += [f"CREATE INDEX {name}_by ON {name}({', '.join(index)});" for name, index in case.tables.items() if index and index != ["id"]]
    return "\n".join([*lines, ".mode list", ".separator ,", ".nullvalue '\\N'", f"{case.sqlite or case.query};"]) + "\n"


def postgres_job(case, folder):
    lines = ["SET client_min_messages = warning;", "DROP TABLE IF EXISTS " + ", ".join(case.tables) + ";"]
    for name, index in case.tables.items():
        kinds = {"INT": "bigint", "TEXT": "text"}
        lines.append(f"CREATE UNLOGGED TABLE {name}({', '.join(f'{column} {kinds[kind]}' for column, kind in COLUMNS[name])});")
        lines.append(f"\\copy {name} FROM '{folder / case.data}/{name}.csv' CSV HEADER NULL '\\N'")
        lines.append(f"CREATE INDEX ON {name}({', '.join(index or ['id'])});")
    return "\n".join([*lines, "\\pset null '\\\\N'", f"{case.sqlite or case.query};"]) + "\n"


# ---- the program


def add_crate(tree):
    crate = tree / "crates" / NAME
    (crate / "src").mkdir(parents=True)
    shutil.copy(ROOT / "bench/join_plans/main.rt.txt", crate / "src/main.rt")
    shutil.copy(tree / "crates/tests/plan_words/src/plans.rt", crate / "src/plans.rt")
    proof = crate / "proofs/rows_of_table"
    proof.mkdir(parents=True)
    shutil.copy(ROOT / "bench/join_plans/rows_of_table.antt.txt", proof / "Answers.antt")
    crates.list_crate(tree, NAME, LIBRARIES)
    return crate


def built(tree):
    subprocess.run(["git", "clone", "-q", ROOT, tree], check=True)
    crate = add_crate(tree)
    crates.run(tree, crate)
    return crate / "out" / NAME


def answers_by_try(tree, text):
    """What the program writes, run without a proof; the tree is left as it was."""
    before = (tree / "crates.txt").read_text()
    try:
        crate = add_crate(tree)
        run = subprocess.run([(tree / ".ci/rt").resolve(), "try", "--seconds", "300"], cwd=crate, input=text, capture_output=True, text=True)
        if run.returncode:
            sys.exit(run.stdout[-2000:] + run.stderr[-2000:])
        return run.stdout
    finally:
        (tree / "crates.txt").write_text(before)
        shutil.rmtree(tree / "crates" / NAME)


def rows_in(written):
    """The rows of an answer, whose last line is `end` and whose first has the names."""
    return written.splitlines()[1:-1]


def compare_by_try(tree, wanted):
    with tempfile.TemporaryDirectory() as name:
        top = pathlib.Path(name)
        write_all(top, 300, wanted)
        written = answers_by_try(tree, "".join(case.asked(top) for case in wanted))
        answers = written.split("end\n")
        for case, answer in zip(wanted, answers):
            rows = answer.splitlines()[1:]
            others = joins.once(["sqlite3", ":memory:"], sqlite_job(case, top), top)[3].splitlines()
            verdict = "not compared" if case.way == "load" else joins.same_rows(rows, others)
            print(f"{case.name}: {len(rows)} rows, {verdict}")


# ---- the table


def sizes(case, folder):
    return sum((folder / case.data / f"{name}.csv").stat().st_size for name in case.tables)


def judged(case, ours, memory, its, program, runs, top):
    """The value that is judged, in words and met or not."""
    if case.beside:
        (basis, _, _), _ = joins.least(runs, [program], case.beside.asked(top), top)
        return f"{ours / basis:.2f} of {basis:.3f} s", ours / basis
    if case.way == "load":
        rows = sum(1 for _ in open(top / case.data / "numbers.csv")) - 1
        return f"{ours / rows * 1e9:.0f} ns a row, memory {memory / sizes(case, top):.2f} times the file", ours / rows
    if case.name.startswith("loop"):
        (basis, _, _), _ = joins.least(runs, [program], load_of_loop(case, top), top)
        rows = sum(1 for _ in open(top / case.data / "pairs.csv")) - 1
        return f"{(ours - basis) / rows**2 * 1e9:.1f} ns a pair", (ours - basis) / rows**2
    return f"{ours / its:.2f} of sqlite3", ours / its


def load_of_loop(case, top):
    load = load_of(case)
    load.schema_path(top).write_text(load.schema())
    return load.asked(top)


def line(case, program, runs, top, asks):
    (ours, clock, memory), written = joins.least(runs, [program], case.asked(top), top)
    (its, _, _), others = joins.least(runs, ["sqlite3", ":memory:"], sqlite_job(case, top), top)
    rows, others = rows_in(written), others.splitlines()
    verdict = "the load alone" if case.way == "load" else joins.same_rows(rows, others)
    words, value = judged(case, ours, memory, its, program, runs, top)
    beside = "none"
    if asks:
        (_, its_clock, _), theirs = joins.least(runs, asks, postgres_job(case, top), top)
        same = "" if case.way == "load" else f", {joins.same_rows(rows, theirs.splitlines())}"
        beside = f"{its_clock:.2f} s, {clock:.2f} s{same}"
    target = f"{case.target * 1e9:.0f} ns" if case.target < 1e-3 else f"{case.target}"
    met = "met" if value <= case.target else "not met"
    both = f"{ours:.3f} s, {memory / 2**20:.0f} MB | {its:.3f} s, {verdict}"
    print(f"| {case.name} | {len(rows)} | {both} | {words} | {target}, {met} | {beside} |", flush=True)


def main():
    parser = argparse.ArgumentParser()
    parser.add_argument("--rows", type=int, default=1_000_000)
    parser.add_argument("--runs", type=int, default=3)
    parser.add_argument("--program")
    parser.add_argument("--try", dest="tree")
    parser.add_argument("names", nargs="*")
    asked = parser.parse_args()
    rows = 300 if asked.tree else asked.rows
    wanted = [case for case in cases() if not asked.names or case.first_word() in asked.names]
    for case in wanted:
        case.query = case.query.format(percent=rows // 100)
    if asked.tree:
        return compare_by_try(pathlib.Path(asked.tree).resolve(), wanted)
    print("| Plan | rows | sqlplan | sqlite3 | value | target | PostgreSQL, sqlplan on the clock |\n|---|---|---|---|---|---|---|")
    with tempfile.TemporaryDirectory() as name:
        top = pathlib.Path(name)
        write_all(top, asked.rows, wanted)
        program = asked.program or built(top / "tree")
        with joins.postgres(top) as asks:
            for case in wanted:
                line(case, program, asked.runs, top, asks)


if __name__ == "__main__":
    main()
