#!/usr/bin/env python3
"""Times planning: one table, and chains, stars and cliques of many, beside PostgreSQL in the same run.

Of sqlplan the time on the clock of the whole process `sqlplan plan`, which reads the schema, the text and the statistics and writes the
certificate, explored to 20,000 lines, or with --default as far as `query` does, less that of a process that says its usage alone; and of `sqlplan check` of that certificate, in the same way. Of PostgreSQL what EXPLAIN
tells of its planning, over empty tables whose statistics are set to the same numbers of rows, with join_collapse_limit over the number of
tables and without its genetic search. Of each the least of RUNS, at the first draw of quality.py for that shape, form and size. Where PostgreSQL takes longer than
LIMIT, it is left out. Wants the program built; PostgreSQL is left out where it isn't there.

With --instructions, instead: how many instructions the planner's `plan` and the checker's `check` execute, as callgrind counts them, and the reader of
the certificate's text; and how many these are of those of `plan`. No other work on the machine changes these.

usage: planning.py [--program PATH] [--default] [--runs N | --instructions]
"""
import argparse
import contextlib
import pathlib
import random
import subprocess
import tempfile
import time

from joins import postgres
from quality import draw, schema_of, statistics_of

ROOT = pathlib.Path(__file__).resolve().parent.parent
LIMIT = 60
LINES = ["--limit", "20000"]  # without, exploring ends where it pays no more
CASES = [("chain", "comma", 1, 1), ("chain", "comma", 3, 2), ("chain", "comma", 6, 10), ("chain", "comma", 8, 5), ("star", "comma", 8, 5), ("clique", "comma", 8, 25), ("chain", "on", 8, 5), ("star", "on", 8, 5)]
CASES += [("clique", "on", 8, 25), ("clique", "comma", 11, 200), ("clique", "comma", 16, 200), ("chain", "comma", 24, 200), ("star", "comma", 24, 200)]


def least_clock(runs, words, wanted=0):
    """Milliseconds of a process, and what it wrote."""
    best = float("inf")
    for _ in range(runs):
        begin = time.perf_counter()
        run = subprocess.run(words, capture_output=True, check=False)
        best = min(best, time.perf_counter() - begin)
        assert run.returncode == wanted, run.stderr
    return best * 1000, run.stdout


def instructions(folder, words, names):
    """Millions of instructions within the functions whose names begin so, with all that they call."""
    counts = folder / "callgrind"
    subprocess.run(["valgrind", "--tool=callgrind", f"--callgrind-out-file={counts}", *words], capture_output=True, check=True)
    told = subprocess.run(["callgrind_annotate", "--inclusive=yes", "--threshold=100", counts], capture_output=True, text=True, check=True).stdout
    found = []
    for name in names:
        line = next(line for line in told.splitlines() if f":{name}" in line)
        found.append(int(line.split()[0].replace(",", "")) / 1e6)
    return found


def written(folder, drawn):
    """The files of the schema, the text and the statistics."""
    files = [folder / "schema.json", folder / "query.sql", folder / "stats.json"]
    for file, text in zip(files, (schema_of(drawn), drawn.text, statistics_of(drawn))):
        file.write_text(text)
    return files


def tell_instructions(program, limit):
    print("| Query | lines | plan | check | reading | check of plan | with reading |\n|---|---|---|---|---|---|---|")
    with tempfile.TemporaryDirectory() as name:
        folder = pathlib.Path(name)
        for shape, form, size, _ in CASES:
            files = written(folder, draw(random.Random(40), shape, form, size))
            text = subprocess.run([program, "plan", *files, *limit], capture_output=True, text=True, check=True).stdout
            (folder / "plan.cert").write_text(text)
            (plan,) = instructions(folder, [program, "plan", *files, *limit], ["planner::planned::plan"])
            check, read = instructions(folder, [program, "check", *files[:2], folder / "plan.cert"], ["prepared_query::prepared::PreparedQuery::judged", "certificate_read::reading::read"])
            lines = text.split("\n")[1].split()[1]
            shares = f"{check / plan:.2f} | {(check + read) / plan:.2f}"
            print(f"| {shape} of {size}, {form} | {lines} | {plan:.2f} | {check:.2f} | {read:.2f} | {shares} |", flush=True)


def tables_of(drawn):
    """The tables for PostgreSQL, which takes the numbers of rows from its catalogue."""
    lines = ["SET client_min_messages = warning;", "DROP SCHEMA IF EXISTS public CASCADE; CREATE SCHEMA public;"]
    for place, table in enumerate(drawn.tables):
        columns = ", ".join(f"{name} bigint" + (" PRIMARY KEY" if name == "id" else "") for name in table.columns)
        lines.append(f"CREATE TABLE t{place}({columns}) WITH (autovacuum_enabled = false);")
        lines += [f"CREATE INDEX ON t{place}({name});" for name in table.keys if name != "id"]
    lines.append("SET allow_system_table_mods = on;")
    lines += [f"UPDATE pg_class SET reltuples = {table.rows}, relpages = {table.pages} WHERE relname = 't{place}';" for place, table in enumerate(drawn.tables)]
    return "\n".join(lines) + "\n"


def postgres_planning(asks, drawn, runs):
    """The least milliseconds of planning that EXPLAIN tells; None where it takes too long."""
    if not asks:
        return None
    ask = f"SET join_collapse_limit = 30; SET from_collapse_limit = 30; SET geqo = off; SET statement_timeout = '{LIMIT}s';\n"
    ask += f"EXPLAIN (SUMMARY) {drawn.text};\n" * runs
    run = subprocess.run(asks, input=tables_of(drawn) + ask, capture_output=True, text=True, check=False)
    told = [float(line.split()[2]) for line in run.stdout.splitlines() if line.startswith("Planning Time:")]
    return min(told) if told else None


def main():
    parser = argparse.ArgumentParser()
    parser.add_argument("--runs", type=int, default=9)
    parser.add_argument("--program", default=ROOT / "crates/program/sqlplan/out/sqlplan")
    parser.add_argument("--instructions", action="store_true")
    parser.add_argument("--default", action="store_true")
    wanted = parser.parse_args()
    limit = [] if wanted.default else LINES
    if wanted.instructions:
        tell_instructions(wanted.program, limit)
        return
    print("| Query | plan | lines | target | check | PostgreSQL |\n|---|---|---|---|---|---|")
    with contextlib.ExitStack() as held:
        folder = pathlib.Path(held.enter_context(tempfile.TemporaryDirectory()))
        folder.chmod(0o755)
        asks = held.enter_context(postgres(folder))
        start, _ = least_clock(wanted.runs, [wanted.program], 2)
        for shape, form, size, target in CASES:
            drawn = draw(random.Random(40), shape, form, size)
            files = written(folder, drawn)
            took, certificate = least_clock(wanted.runs, [wanted.program, "plan", *files, *limit])
            (folder / "plan.cert").write_bytes(certificate)
            checked, _ = least_clock(wanted.runs, [wanted.program, "check", *files[:2], folder / "plan.cert"])
            its = postgres_planning(asks, drawn, 3)
            beside = "none" if its is None else f"{its:.1f} ms"
            lines = certificate.split(b"\n")[1].decode().split()[1]
            print(f"| {shape} of {size}, {form} | {took - start:.1f} ms | {lines} | {target} ms | {checked - start:.1f} ms | {beside} |", flush=True)
        print(f"\nThe start alone: {start:.1f} ms")


if __name__ == "__main__":
    main()
