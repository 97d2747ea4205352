"""Random queries with HAVING over small tables rich in Nulls: what `query` and `meaning` write, and what `run` gives by the certificate that `plan` writes
and `check` accepts, beside sqlite3's answer.

Most SELECTs have groups, by keys or without, and most of these a HAVING: comparisons and tests for Null of aggregates, of GROUP BY columns and of literals, NULL
among them, under NOT, AND and OR. Subqueries have them too, and each query has one.
"""

from common import sqlite_database, sqlite_rows
from random_sql import TABLES, Maker, random_contents, random_statistics, statistics_text
from subqueries import fault

SEED, ROUND = 83, 150


def drawn(rng):
    """The rows of tables, a query with a HAVING, and sqlite3's rows. Most queries without a row are drawn again."""
    while True:
        contents = random_contents(rng, TABLES, most=10, nulls=rng.choice([0.1, 0.35]))
        query = Maker(rng, equated=rng.choice([0, 0.8]), conditions=0.3, inner=0.2, grouped=0.75, having=0.8).select(outermost=True)
        wanted = sqlite_rows(sqlite_database(TABLES, contents), query) if " HAVING " in query else []
        if wanted or " HAVING " in query and rng.random() < 0.2:
            return contents, query, wanted


def cases(program, rng, counts):
    """What is wrong of each case of a round, or nothing."""
    for _ in range(ROUND):
        contents, query, wanted = drawn(rng)
        program.write_tables(TABLES, contents)
        counts["queries"] += 1
        counts["conditions"] += query.count(" HAVING ")
        yield fault(program, query, contents, wanted, statistics_text(random_statistics(rng, TABLES)), counts)


def told(counts):
    conditions = f"{counts['conditions']:,} HAVINGs, {counts['below groups']:,} plans with a condition below its groups"
    rows = f"{counts['queries']:,} queries with {counts['rows']:,} rows by query, meaning and run, {conditions}, beside sqlite3"
    return f"{rows}; {counts['too large']} too large, {counts['too slow']} without meaning's answer"
