"""Random queries over small tables rich in Nulls: what `query` and `meaning` write, beside sqlite3's answer.

The queries have joins and left joins, subqueries two deep, grouping, DISTINCT and ORDER BY. Rows are compared in order where the query has an ORDER
BY.
"""

from common import TOO_LARGE, agree, rows_in, sqlite_database, sqlite_rows, unlike
from random_sql import TABLES, Maker, random_contents

SEED, ROUND = 7, 300


def fault(program, query, contents, wanted, counts):
    """Where one of the commands says something else than sqlite3's rows."""
    answers = {command: program.answer(command, query) for command in ("query", "meaning")}
    if all(said.error == TOO_LARGE for said in answers.values()):
        counts["too large"] += 1
        return ""
    for command, said in answers.items():
        if said.status or not agree(query, wanted, rows_in(said.output)):
            return f"{command}: {unlike(query, contents, wanted, said)}"
    counts["rows"] += len(wanted)
    return ""


def cases(program, rng, counts):
    """What is wrong of each case of a round, or nothing."""
    for _ in range(ROUND):
        contents = random_contents(rng, TABLES)
        query = Maker(rng).select(outermost=True)
        program.write_tables(TABLES, contents)
        counts["queries"] += 1
        yield fault(program, query, contents, sqlite_rows(sqlite_database(TABLES, contents), query), counts)


def told(counts):
    return f"{counts['queries']:,} queries with {counts['rows']:,} rows by query and meaning, beside sqlite3; {counts['too large']} too large"
