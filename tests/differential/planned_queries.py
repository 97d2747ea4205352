"""Random queries planned by random statistics: `check` has to accept each certificate that `plan` writes, and the rows that `run` gives by it have to
be sqlite3's.

The statistics are of tables of any size, from none to 2^64 - 1 rows, so plans of every kind come up. Half of the queries have joins that equate
columns.
"""

from common import ACCEPTED, TOO_LARGE, agree, rows_in, sqlite_database, sqlite_rows, unlike
from random_sql import TABLES, Maker, random_contents, random_statistics, statistics_text

SEED, ROUND = 40, 200
LIMITS = [2_000] * 15 + [6_000]
"""Of lines of derivation."""


def fault(program, query, statistics, limit, wanted, contents, counts):
    """What is wrong with the plan of a query, if something is."""
    planned = program.planned("plan", query, statistics, limit)
    if planned.status:
        counts["too large"] += planned.error == TOO_LARGE
        return "" if planned.error == TOO_LARGE else f"plan: {query}\n  {statistics}\n  {planned.error}"
    certificate = planned.output
    counts["lines"] += int(certificate.split("\n")[1].split()[1])
    checked = program.check(certificate)
    if checked != ACCEPTED:
        return f"check refuses what plan wrote: {query}\n  {statistics}\n  limit {limit}: {checked.output}{checked.error}"
    said = program.run(certificate)
    if said.status or not agree(query, wanted, rows_in(said.output)):
        return f"run: {unlike(query, contents, wanted, said)}\n{certificate}"
    counts["rows"] += len(wanted)
    return ""


def cases(program, rng, counts):
    """What is wrong of each case of a round, or nothing."""
    for number in range(ROUND):
        contents = random_contents(rng, TABLES)
        query = Maker(rng, equated=0.8 * (number % 2)).select(outermost=True)
        program.write_tables(TABLES, contents)
        statistics = statistics_text(random_statistics(rng, TABLES))
        wanted = sqlite_rows(sqlite_database(TABLES, contents), query)
        counts["queries"] += 1
        yield fault(program, query, statistics, rng.choice(LIMITS), wanted, contents, counts)


def told(counts):
    lines = f"{counts['lines']:,} lines, {counts['rows']:,} rows"
    return f"{counts['queries']:,} queries planned, checked and run, {lines}, beside sqlite3; {counts['too large']} too large"
