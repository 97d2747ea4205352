"""Random queries with subqueries up to four deep over small tables rich in Nulls: what `query` and `meaning` write, and what `run` gives by the
certificate that `plan` writes and `check` accepts, beside sqlite3's answer.

Each block but the innermost asks EXISTS, NOT EXISTS, IN or NOT IN of a further one, most of them as conjuncts, and mostly equates a column of the outer rows. So
semijoins and antijoins of all kinds come up, null-aware ones among them, and subqueries that stay filters.
"""

import subprocess

from common import ACCEPTED, TOO_LARGE, agree, rows_in, sqlite_database, sqlite_rows, unlike
from random_sql import TABLES, Maker, random_contents, random_statistics, statistics_text

SEED, ROUND = 62, 150
JOINED = ("semi", "anti")
LONGEST = 5
"""Seconds that `meaning` may take."""


class Nesting(Maker):
    """Makes queries whose blocks stand in one another."""

    def chain(self, outer):
        return super().chain(outer) if self.rng.random() < 0.2 else self.table()

    def asked(self, columns, depth):
        """A condition with a subquery."""
        negation = self.rng.choice(["", "NOT "])
        if self.rng.random() < 0.5:
            return f"{negation}EXISTS ({self.select(columns, depth - 1)})"
        kind = self.rng.choice(["INT", "INT", "TEXT"])
        return f"{self.term(columns, kind)} {negation}IN ({self.select(columns, depth - 1, kind)})"

    def where(self, chains, own, outer, depth):
        parts = [self.equality(own, outer)] if outer and self.rng.random() < 0.6 else []
        if len(chains) > 1 and self.rng.random() < 0.7:
            parts.append(self.equality(chains[0][1], chains[1][1]))
        if self.rng.random() < 0.15:
            parts.append(self.condition(own + outer, 0))
        for _ in range(self.rng.choice([1, 1, 1, 2]) if depth else 0):
            asked = self.asked(own + outer, depth if len(parts) < 3 else 1)
            form = self.rng.random()
            parts.append(f"({asked} OR {self.test(own, 0)})" if form < 0.12 else f"NOT ({asked})" if form < 0.2 else asked)
        parts = [part for part in parts if part]
        return " WHERE " + " AND ".join(parts) if parts else ""


def answers_of(program, query, counts):
    """What `query` says, and `meaning`, unless that takes too long: it goes through all rows of each block for each row around it."""
    answers = {"query": program.answer("query", query)}
    try:
        answers["meaning"] = program.answer("meaning", query, LONGEST)
    except subprocess.TimeoutExpired:
        counts["too slow"] += 1
    return answers


def fault(program, query, contents, wanted, statistics, counts):
    """Where a command says something else than sqlite3's rows, or a certificate isn't accepted."""
    answers = answers_of(program, query, counts)
    planned = program.planned("plan", query, statistics, 2_000)
    if any(said.error == TOO_LARGE for said in [*answers.values(), planned]):
        counts["too large"] += 1
        return ""
    if planned.status:
        return f"plan: {query}\n  {statistics}\n  {planned.error}"
    checked = program.check(planned.output)
    if checked != ACCEPTED:
        return f"check refuses what plan wrote: {query}\n  {statistics}\n  {checked.output}{checked.error}"
    answers["run"] = program.run(planned.output)
    for command, said in answers.items():
        if said.status or not agree(query, wanted, rows_in(said.output)):
            return f"{command}: {unlike(query, contents, wanted, said)}\n{planned.output}"
    nodes = planned.output.split("\nplan ")[1].split("\n")
    counts["joined"] += any(word in JOINED for node in nodes for word in node.split())
    counts["filters"] += any(node.startswith("filtersub ") for node in nodes)
    counts["below groups"] += " G2 " in planned.output
    counts["rows"] += len(wanted)
    return ""


def cases(program, rng, counts):
    """What is wrong of each case of a round, or nothing."""
    for _ in range(ROUND):
        contents = random_contents(rng, TABLES, most=8, nulls=0.3)
        query = Nesting(rng).select(outermost=True, depth=rng.choice([2, 2, 3, 4]))
        program.write_tables(TABLES, contents)
        statistics = statistics_text(random_statistics(rng, TABLES))
        counts["queries"] += 1
        yield fault(program, query, contents, sqlite_rows(sqlite_database(TABLES, contents), query), statistics, counts)


def told(counts):
    plans = f"{counts['joined']:,} planned with semijoins or antijoins, {counts['filters']:,} with filters by subqueries"
    return f"{counts['queries']:,} queries with {counts['rows']:,} rows by query, meaning and run, {plans}, beside sqlite3; {counts['too large']} too large, {counts['too slow']} without meaning's answer"
