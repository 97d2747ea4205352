"""How often the program asks for memory while it answers by a plan. Scans, filters and projections have to ask equally often, and for equally many bytes, over 4 rows and
over 400,000: the chunk of row numbers is made once with its full room and filled again and again. A join by hash may ask so many times for each 1,024 left rows.

memory_requests.c, put before the program, counts what `run` asks for once it has read the last table, whose one row is always the same; so nothing is counted that
loading rows takes. The answer's text is gathered to 65,536 bytes before it is written, and while it grows asks for room; so the first row has a text that is longer. No
text begins with a backslash: writing such a one asks once more.
"""

import math
import os
import pathlib
import shutil
import subprocess

from certificates import nodes_of, read_certificate
from common import Column, Table
from random_sql import statistics_text

SEED = None
SOURCE = pathlib.Path(__file__).with_suffix(".c")
FEWEST, SIZES = 4, [4_000, 400_000]
CHUNK, MOST_FOR_CHUNK = 1_024, 20
"""How many left rows a join takes at a time, and how often it may ask for memory for these."""
TABLES = [
    Table("emp", [Column("name", "TEXT", True), Column("pay", "INT", False), Column("dept", "INT", True)], [], []),
    Table("dept", [Column("id", "INT", True), Column("label", "INT", True)], [], []),
    Table("last", [Column("id", "INT", True)], [], []),
]
STATISTICS = statistics_text({table.name: {"rows": 4_000, "pages": 40, "indexes": []} for table in TABLES})
LONG_NAME = "x" * 150_000
SELECTING = [
    "SELECT name, dept FROM emp",
    "SELECT name FROM emp WHERE pay <> 500",
    "SELECT name FROM emp WHERE pay = 700",
    "SELECT name FROM emp WHERE pay <> 500 AND name <> 'n5' AND dept < pay",
    "SELECT name FROM emp WHERE pay <> 500 OR pay IS NULL AND NOT name = 'n5'",
]
JOINING = [
    "SELECT e.name, d.label FROM emp e JOIN dept d ON e.dept = d.id",
    "SELECT e.name, d.label FROM emp e LEFT JOIN dept d ON e.dept = d.id",
]


def contents(rows):
    """The tables. Each employee has one department; the first one and one of 3,000 have a pay that each query keeps."""
    employees = [[f"n{number}", [600, 500, None][number % 3] if number % 3_000 else 700, number % 4] for number in range(rows)]
    employees[0][0] = LONG_NAME
    return {"emp": employees, "dept": [[number, number + 7] for number in range(4)], "last": [[1]]}


def unmeasurable(program):
    """Puts the library before the program; why that can't be, if it can't."""
    if not shutil.which("cc"):
        return "there is no C compiler cc"
    subprocess.run(["cc", "-shared", "-fPIC", "-o", program.folder / "requests.so", SOURCE], check=True)
    program.environment = {**os.environ, "LD_PRELOAD": "./requests.so"}
    program.say("--version")
    return "" if (program.folder / "counted").exists() else "the program takes no library before it, as where it is linked statically"


def planned(program, query):
    """The certificate of a plan for the query, which has the operators alone that are measured."""
    said = program.planned("plan", query, STATISTICS, 2_000)
    operators = {"cut", "filter", "scan"} | ({"hash"} if query in JOINING else set())
    if said.status or not operators.issuperset(node["name"] for node in nodes_of(read_certificate(said.output)[1])):
        raise ValueError(f"plan: {query}: no plan of {', '.join(sorted(operators))}\n{said.output}{said.error}")
    return said.output


def asked(program, query, certificate):
    """How often `run` asked for memory, and for how many bytes."""
    program.write("query.sql", query)
    program.write("counted", "")
    said = program.run(certificate)
    numbers = (program.folder / "counted").read_text(encoding="utf-8").split()
    if said.status or not numbers:
        raise ValueError(f"run: {query}: {said.error or 'last.csv was not read to its end'}")
    return tuple(map(int, numbers))


def fault(query, rows, first, its, counts):
    """What is wrong with how often was asked over so many rows, given how often over the fewest."""
    more = its[0] - first[0]
    if query in JOINING:
        counts["joined"] += rows
        counts["joining"] += more
        fits = more <= MOST_FOR_CHUNK * math.ceil(rows / CHUNK)
    else:
        counts["selecting"] += more
        fits = its == first
    shown = [f"over {count:,} rows {requests:,} requests for memory, {size:,} bytes" for count, (requests, size) in ((FEWEST, first), (rows, its))]
    return "" if fits else "\n  ".join([query, *shown])


def cases(program, _, counts):
    """What is wrong of each query over each of the sizes, or nothing."""
    why = unmeasurable(program)
    if why:
        counts[f"left out, since {why}"] += 1
        yield ""
        return
    program.write_tables(TABLES, contents(FEWEST))
    certificates = {query: planned(program, query) for query in SELECTING + JOINING}
    first = {query: asked(program, query, certificate) for query, certificate in certificates.items()}
    for rows in SIZES:
        program.write_tables(TABLES, contents(rows))
        for query, certificate in certificates.items():
            yield fault(query, rows, first[query], asked(program, query, certificate), counts)


def told(counts):
    left_out = [reason for reason in counts if reason.startswith("left out")]
    if left_out:
        return left_out[0]
    many = " and ".join(f"{rows:,}" for rows in SIZES)
    each = counts["joining"] * CHUNK / max(counts["joined"], 1)
    selecting = f"{len(SELECTING)} plans without a join, {counts['selecting']:,} requests for memory more over {many} rows than over {FEWEST}"
    return f"{selecting}; {len(JOINING)} joins by hash, {each:.1f} more for {CHUNK:,} left rows"
