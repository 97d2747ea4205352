#!/usr/bin/env python3
"""Answers the queries of two public benchmarks, TPC-H with reports over its tables and the Star Schema Benchmark, beside sqlite3 and PostgreSQL.

Tables are made for the run, by fixed seeds. Each query runs over two schemas: `keys` has unique lists alone, `indexes` an index for each of them and for
each foreign key too. And in two forms: `comma`, as it is written, and `on`, the same FROM as JOIN .. ON; `-` is a query whose FROM has no comma. sqlite3
and PostgreSQL have the same unique lists and indexes, and both have counted their statistics.

Told of each query:
- rows, and whether they are those of sqlite3 and of PostgreSQL: as bags, and in the order of the keys of ORDER BY that are in the answer;
- planning: processor time of `explain` over the same statistics, which explores as far as `query` does, less that of a trivial query. It is at most what
  `query` took in all;
- execution: processor time of `query` (so with planning), less that of a trivial query over the same files, which is run in turns with it;
- sqlite3: processor time of execute and fetchall, in memory; PostgreSQL: what EXPLAIN ANALYZE tells of its execution, on the clock, in one process;
- the ratio of execution over the better of these, of times that count as 1 ms at least; and peak memory of the process.

Each time is the least of REPS, or that of one run which takes over a second. A query may take so many SECONDS of processor time, with loading, and 4 GB.
Behind the queries stand, for each schema and form, the geometric mean of the ratios of what ended, how many are over 1.5, how many of these took over
20 ms, and what did not end, of all queries and of those without subquery and LEFT JOIN; how many are planned for over 20 ms; and of estimates
(workloads/estimates.py) the median and the 90th percentile of the factor between rows estimated and true rows, of joins of two to six tables. The status is
1 where an answer differs, or fails otherwise than by time or memory. No time is asserted.

usage: workloads.py [--program PATH] [--scale N] [--reps N] [--seconds N] [--pg FOLDER_OR_CONNECTION] [NAME..]
"""
import argparse
import collections
import contextlib
import csv
import io
import math
import pathlib
import sys
import tempfile
from typing import NamedTuple

from workloads import estimates, joined, others, program, queries, rows, shapes

ROOT = pathlib.Path(__file__).resolve().parent.parent
GIGABYTES = 4
LEAST_MS, MUCH, LONG = 1.0, 1.5, 20  # within LONG, a load that takes longer this time may be all that is measured
HEADINGS = ("Query", "form", "schema", "rows", "planning", "execution", "sqlite3", "PostgreSQL", "ratio", "peak", "result")


class Line(NamedTuple):
    """What is told of a query in one form and schema. Times are None where there are none; `result` is `same`, or what else came of it."""

    name: str
    form: str
    schema: str
    rows: int | None
    planning: float | None
    execution: float | None
    sqlite: float | None
    postgres: float | None
    megabytes: float
    result: str
    plain: bool  # without subquery and LEFT JOIN
    factors: list
    postgres_factors: list

    @property
    def ratio(self):
        beside = [ms for ms in (self.sqlite, self.postgres) if ms is not None]
        if self.execution is None or not beside:
            return None
        return max(self.execution, LEAST_MS) / max(min(beside), LEAST_MS)

    def is_wrong(self):
        return self.result.startswith(("DIFFERS", "status"))


# ---- whether rows are the same


def typed(lines, numbers):
    """Rows of texts with numbers as such in these places, and Nulls."""
    cell = lambda text, place: None if text == "\\N" else int(text) if place in numbers else text
    return [tuple(cell(text, place) for place, text in enumerate(line)) for line in lines]


def is_in_order(found, header, order):
    """Whether rows stand in the order of its keys, up to the first that isn't in the answer."""
    keys = []
    for key in order:
        name, falls = key.split()[0].rpartition(".")[2], key.endswith(" DESC")
        if header.count(name) != 1:
            break
        keys.append((header.index(name), falls))
    expected = list(found)
    for place, falls in reversed(keys):
        expected.sort(key=lambda row: (row[place] is not None, row[place]), reverse=falls)
    return expected == found


def judged(query, output, answers):
    """How many rows there are, and whether they are those of the others."""
    header, *lines = csv.reader(io.StringIO(output))
    ours = answers["sqlite3"].rows
    numbers = {place for row in ours or [] for place, cell in enumerate(row) if isinstance(cell, int)}
    if ours is None:
        numbers = {place for place, cells in enumerate(zip(*lines)) if all(cell.lstrip("-").isdigit() or cell == "\\N" for cell in cells)}
    found = typed(lines, numbers)
    known = {name: answer.rows for name, answer in answers.items() if answer.rows is not None}
    if "PostgreSQL" in known:
        known["PostgreSQL"] = typed(known["PostgreSQL"], numbers)
    wrong = [name for name, rows_there in known.items() if collections.Counter(rows_there) != collections.Counter(found)]
    if wrong:
        return len(found), f"DIFFERS from {' and '.join(wrong)}"
    if not is_in_order(found, header, joined.Clauses(query).order):
        return len(found), "DIFFERS in order"
    return len(found), "same" if known else "not compared"


# ---- one query after another


class Setting(NamedTuple):
    """The tables of a shape with one schema, in all that answer."""

    schema: str
    program: program.Program
    others: dict
    counts: estimates.Counts


def line_of(setting, name, form, query):
    run = setting.program.answered(query)
    answers = {engine: other.answer(query) for engine, other in setting.others.items()}
    execution, found = run.ms, None
    if run.status:
        execution, result = None, run.over or f"status {run.status}: {run.fault}"
    else:
        found, result = judged(query, run.output, answers)
    explained = setting.program.explained(query)
    planning, factors = None, []
    if not explained.status:
        planning = explained.ms if execution is None else min(explained.ms, execution)
        factors = list(estimates.factors(explained.output, setting.counts))
    postgres = answers.get("PostgreSQL", others.Answer(None, None))
    beside = list(estimates.postgres_factors(postgres.plan)) if postgres.plan else []
    times = planning, execution, answers["sqlite3"].ms, postgres.ms
    plain = query.count("SELECT") == 1 and "LEFT JOIN" not in query
    return Line(name, form, setting.schema, found, *times, run.megabytes, result, plain, factors, beside)


def forms_of(query, tables):
    by_joins = joined.by_joins(query, tables)
    return {"comma": query, "on": by_joins} if by_joins else {"-": query}


def number(value, places=1):
    return "-" if value is None else f"{value:.{places}f}"


def tell(cells):
    print("| " + " | ".join(cells) + " |", flush=True)


def tell_line(line):
    rows_found = "-" if line.rows is None else str(line.rows)
    times = [number(ms) for ms in (line.planning, line.execution, line.sqlite, line.postgres)]
    tell([line.name, line.form, line.schema, rows_found, *times, number(line.ratio, 2), f"{line.megabytes:.0f} MB", line.result])


def lines_of(asked, shape, folder):
    """The lines of a shape's queries, told as they come."""
    tables = shapes.SHAPES[shape]
    wanted = {name: " ".join(text.split()) for name, text in queries.QUERIES[shape].items() if not asked.names or name in asked.names}
    if not wanted:
        return
    rows.write(folder, shape, asked.scale)
    limits = program.Limits(asked.seconds, GIGABYTES)
    for schema in shapes.SCHEMAS:
        with contextlib.ExitStack() as held:
            ours = program.Program(asked.program, limits, asked.reps, folder, tables, schema, queries.TRIVIAL[shape])
            beside = {"sqlite3": others.Sqlite(tables, schema, folder, asked.seconds, asked.reps)}
            held.callback(beside["sqlite3"].close)
            if asked.pg:
                beside["PostgreSQL"] = others.Postgres(asked.pg, shape, tables, schema, folder, asked.seconds, asked.reps)
                held.callback(beside["PostgreSQL"].close)
            setting = Setting(schema, ours, beside, estimates.Counts(beside["sqlite3"]))
            for name, query in wanted.items():
                for form, text in forms_of(query, tables).items():
                    line = line_of(setting, name, form, text)
                    tell_line(line)
                    yield line


# ---- what they come to


def ratios_told(lines):
    ratios = [line.ratio for line in lines if line.ratio is not None]
    mean = f"{math.exp(sum(map(math.log, ratios)) / len(ratios)):.2f}" if ratios else "-"
    much = [line for line in lines if line.ratio is not None and line.ratio > MUCH]
    not_ended = sum(line.result.startswith("over") for line in lines)
    return [str(len(lines)), mean, f"{len(much)}, {sum(line.execution > LONG for line in much)}", str(not_ended)]


def factors_told(found):
    """How many, their median and their 90th percentile."""
    counted = sorted(factor for factor in found if factor is not None)
    if not counted:
        return ["0", "-", "-"]
    within = lambda percent: counted[(len(counted) * percent - 1) // 100]
    return [str(len(counted)), f"{within(50):,.1f}", f"{within(90):,.1f}"]


def tell_heading(cells):
    print()
    tell(cells)
    tell(["---"] * len(cells))


def tell_summary(lines):
    kinds = sorted({(line.schema, line.form) for line in lines})
    of_kind = {kind: [line for line in lines if (line.schema, line.form) == kind] for kind in kinds}
    columns = ["mean", f"over {MUCH}, these over {LONG} ms", "not ended"]
    tell_heading(["Schema, form", "queries", *columns, "plain", *columns, f"planning over {LONG} ms"])
    for kind, found in of_kind.items():
        slow = sum(line.planning is not None and line.planning > LONG for line in found)
        tell([", ".join(kind), *ratios_told(found), *ratios_told([line for line in found if line.plain]), str(slow)])
    tell_heading(["Schema, form", "joins", "median", "90 in 100 within", "not counted", "PostgreSQL's joins", "median", "90 in 100 within"])
    for kind, found in of_kind.items():
        factors = [factor for line in found for factor in line.factors]
        beside = [factor for line in found for factor in line.postgres_factors]
        tell([", ".join(kind), *factors_told(factors), str(factors.count(None)), *factors_told(beside)])


def tell_worst(lines):
    print()
    for line in sorted(lines, key=lambda line: -(line.ratio or 0)):
        if line.ratio is not None and line.ratio > MUCH:
            print(f"ratio {line.ratio:.2f}: {line.name} {line.form} {line.schema}")
    for line in lines:
        if line.result != "same":
            print(f"{line.result}: {line.name} {line.form} {line.schema}")
    wrong = sum(line.is_wrong() for line in lines)
    print(f"{len(lines)} lines, {wrong} failed or different")
    return wrong


def main():
    known = [name for found in queries.QUERIES.values() for name in found]
    parser = argparse.ArgumentParser()
    parser.add_argument("--program", type=pathlib.Path, default=ROOT / "release/sqlplan")
    parser.add_argument("--scale", type=float, default=1)
    parser.add_argument("--reps", type=int, default=5)
    parser.add_argument("--seconds", type=float, default=60)
    parser.add_argument("--pg")
    parser.add_argument("names", nargs="*", metavar="NAME")
    asked = parser.parse_args()
    if not set(asked.names) <= set(known):
        parser.error(f"queries are {' '.join(known)}")
    tell(HEADINGS)
    tell(["---"] * len(HEADINGS))
    with tempfile.TemporaryDirectory() as name:
        top = pathlib.Path(name)
        top.chmod(0o755)
        lines = [line for shape in shapes.SHAPES for line in lines_of(asked, shape, top / shape)]
    tell_summary(lines)
    return 1 if tell_worst(lines) else 0


if __name__ == "__main__":
    sys.exit(main())
