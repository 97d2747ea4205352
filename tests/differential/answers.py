"""The worked queries of crates/tests (plan_words/src/queries.rt, plan_tests/src/answers.rt) over the tables of examples/hr: the answer that stands there, what `query` and
`meaning` write, and sqlite3's answer have to be the same rows.

Rows are compared up to order, and in order where the query has an ORDER BY. A query that is refused there has to be refused by both commands.
"""

import csv
import re

from common import ROOT, agree, rows_in, sqlite_database, sqlite_rows, takes_having_alone, value_of, Column, Table

SEED, ROUND = None, 1
TESTS = [ROOT / f"crates/tests/{path}.rt" for path in ("plan_words/src/queries", "plan_tests/src/answers")]
EXAMPLE = ROOT / "examples/hr"


def worked():
    """The queries, each with its answer: they stand in lines as `query => header;row;row`, or `query => refused CODE at BYTE`."""
    return re.findall(r'^(?:.*r")?(SELECT .*) => (.*?)(?:";)?$', "".join(path.read_text(encoding="utf-8") for path in TESTS), re.MULTILINE)


def company():
    """sqlite3's database with the tables of the example."""
    tables, contents = [], {}
    for path in sorted((EXAMPLE / "data").glob("*.csv")):
        with open(path, newline="", encoding="utf-8") as file:
            header, *rows = csv.reader(file)
        contents[path.stem] = [[value_of(field) for field in row] for row in rows]
        kinds = ["TEXT" if any(isinstance(row[at], str) for row in contents[path.stem]) else "INT" for at in range(len(header))]
        tables.append(Table(path.stem, [Column(*column, False) for column in zip(header, kinds)], [], []))
    return sqlite_database(tables, contents)


def fault(program, database, query, answer, counts):
    """Where the commands or sqlite3 say something else than the answer."""
    program.write("query.sql", query)
    said = {command: program.say(command, EXAMPLE / "schema.json", "query.sql", EXAMPLE / "data") for command in ("query", "meaning")}
    header, *wanted = [text.split(",") for text in answer.split(";")]
    header = ",".join(header)
    for command, its in said.items():
        if header.startswith("refused"):
            is_same = (its.status, its.error) == (2, header)
        else:
            is_same = its.status == 0 and its.output.startswith(f"{header}\n") and agree(query, wanted, rows_in(its.output))
        if not is_same:
            return f"{command}: {query}\n  wanted: {answer}\n  given:  {its.output}{its.error}"
    if header.startswith("refused"):
        counts["refused"] += 1
        return ""
    if " HAVING " in query and " GROUP BY " not in query and not takes_having_alone():
        return ""
    theirs = sqlite_rows(database, query)
    counts["rows"] += len(theirs)
    return "" if agree(query, wanted, theirs) else f"sqlite3: {query}\n  wanted: {answer}\n  given:  {theirs}"


def cases(program, _, counts):
    """What is wrong of each worked query, or nothing."""
    database = company()
    for query, answer in worked():
        counts["queries"] += 1
        yield fault(program, database, query, answer, counts)
    if not counts["queries"]:
        yield f"{TESTS} has no worked query"


def told(counts):
    return f"{counts['queries']:,} worked queries with {counts['rows']:,} rows by query and meaning, beside sqlite3; {counts['refused']} refused"
