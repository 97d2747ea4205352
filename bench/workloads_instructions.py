#!/usr/bin/env python3
"""Counts the instructions of the plain queries of workloads.py: what callgrind counts of `query`, less that of a trivial query over the same files.

A load takes some 65 ms, and its noise hides a query of a few; instructions are the same in each run. Told of each query without subquery and LEFT JOIN, by
comma and with ON, are the millions of instructions above the trivial query. With `--beside FILE`, which holds what workloads.py printed, also the least of the
milliseconds of sqlite3 and PostgreSQL, and the ratio of the instructions, at so many MILLIONS a millisecond, over these, of times that count as 1 ms at least.
`--keep FOLDER` leaves there what callgrind_annotate reads. No count is asserted.

usage: workloads_instructions.py [--program PATH] [--scale N] [--schema NAME] [--millions N] [--beside FILE] [--keep FOLDER] [--jobs N] [NAME..]
"""
import argparse
import concurrent.futures
import math
import pathlib
import re
import subprocess
import tempfile

from workloads import joined, program, queries, rows, shapes

ROOT = pathlib.Path(__file__).resolve().parent.parent
LEAST_MS, MUCH = 1.0, 1.5


def counted(words, kept):
    """The instructions that a command takes, in millions."""
    valgrind = ["valgrind", "--tool=callgrind", f"--callgrind-out-file={kept}", *map(str, words)]
    run = subprocess.run(valgrind, stdin=subprocess.DEVNULL, stdout=subprocess.DEVNULL, stderr=subprocess.PIPE, text=True, check=False)
    found = re.search(r"Collected : (\d+)", run.stderr)
    if run.returncode or not found:
        raise SystemExit(f"status {run.returncode}: {run.stderr[-400:]}")
    return int(found[1]) / 1e6


def texts_of(shape, names):
    """The plain queries in their forms, by name and form; with the trivial one, which no name leaves out."""
    found = {("trivial", "-"): queries.TRIVIAL[shape]}
    for name, text in queries.QUERIES[shape].items():
        query = " ".join(text.split())
        if query.count("SELECT") > 1 or "LEFT JOIN" in query or names and name not in names:
            continue
        by_joins = joined.by_joins(query, shapes.SHAPES[shape])
        found |= {(name, "comma"): query, (name, "on"): by_joins} if by_joins else {(name, "-"): query}
    return found


def counts_of(asked, shape, top, pool):
    """Of each query and form of a shape, above the trivial query."""
    texts, folder = texts_of(shape, asked.names), top / shape
    if len(texts) == 1:
        return
    rows.write(folder, shape, asked.scale)
    limits = program.Limits(math.inf, math.inf)
    ours = program.Program(asked.program, limits, 1, folder, shapes.SHAPES[shape], asked.schema, queries.TRIVIAL[shape])
    waited = {}
    for key, text in texts.items():
        stem = ".".join((shape, *key))
        path = top / f"{stem}.sql"
        path.write_text(text)
        waited[key] = pool.submit(counted, [asked.program, "query", ours.schema, path, folder], (asked.keep or top) / f"{stem}.callgrind")
    start = waited.pop(("trivial", "-")).result()
    for key, count in waited.items():
        yield key, count.result() - start


def times_beside(path, schema):
    """The better time of the others by query and form, as workloads.py prints lines."""
    found = {}
    for line in path.read_text().splitlines() if path else []:
        cells = [cell.strip() for cell in line.strip("|").split("|")]
        if len(cells) == 11 and cells[2] == schema:
            times = [float(cell) for cell in cells[6:8] if cell != "-"]
            if times:
                found[cells[0], cells[1]] = min(times)
    return found


def tell(cells):
    print("| " + " | ".join(cells) + " |", flush=True)


def main():
    parser = argparse.ArgumentParser()
    parser.add_argument("--program", type=pathlib.Path, default=ROOT / "release/sqlplan")
    parser.add_argument("--scale", type=float, default=1)
    parser.add_argument("--schema", choices=shapes.SCHEMAS, default="indexes")
    parser.add_argument("--millions", type=float, default=8)
    parser.add_argument("--beside", type=pathlib.Path)
    parser.add_argument("--keep", type=pathlib.Path)
    parser.add_argument("--jobs", type=int, default=2)
    parser.add_argument("names", nargs="*", metavar="NAME")
    asked = parser.parse_args()
    beside, ratios = times_beside(asked.beside, asked.schema), []
    tell(("Query", "form", "millions", "ms by these", "better of the others", "ratio"))
    tell(["---"] * 6)
    with tempfile.TemporaryDirectory() as name, concurrent.futures.ThreadPoolExecutor(asked.jobs) as pool:
        for shape in shapes.SHAPES:
            for key, count in counts_of(asked, shape, pathlib.Path(name), pool):
                ms, other = count / asked.millions, beside.get(key)
                ratio = None if other is None else max(ms, LEAST_MS) / max(other, LEAST_MS)
                ratios += [] if ratio is None else [ratio]
                tell((*key, f"{count:.1f}", f"{ms:.2f}", "-" if other is None else f"{other:.1f}", "-" if ratio is None else f"{ratio:.2f}"))
    if ratios:
        mean = math.exp(sum(map(math.log, ratios)) / len(ratios))
        print(f"\n{len(ratios)} ratios, mean {mean:.2f}, {sum(ratio > MUCH for ratio in ratios)} over {MUCH}")


if __name__ == "__main__":
    main()
