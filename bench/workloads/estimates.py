"""Rows that are estimated of inner joins of two to six tables beside those that there are.

Of the program: each inner join of an explained plan, and each filter over one, below which there are scans, filters without subqueries, projections,
sorts and inner joins alone. The estimate are the rows of its class, and the true number is counted by sqlite3: SELECT COUNT(*) over the tables below with
all conditions at the node and below. Parts that no condition ties together are counted each for itself and multiplied, since a plan may have products that
nobody can count in time. A node whose conditions read a table that isn't below it, as one within a subquery, has no number of its own and is left out.

Of PostgreSQL: EXPLAIN ANALYZE's planned rows over actual ones, at inner joins over inner joins and scans; both are for one run of the node where it runs
more than once, and nodes below a subquery, a semijoin, an antijoin or a merge join, which may stop early, are left out.

A factor is to either side; a number of rows below 1 counts as 1.
"""
import re
from typing import NamedTuple

from .joined import parts_between, without_texts

FEWEST, MOST = 2, 6
# The words of a scan or a join by an index.
TABLE_THEN_CONDITION = re.compile(r"(\w+) (\w+) \([^)]*\) (.*)")
# What stands between PostgreSQL's joins and its scans.
BETWEEN = ("Nested Loop", "Hash Join", "Merge Join", "Hash", "Sort", "Materialize", "Memoize")


class Join(NamedTuple):
    """What stands below a node: the table of each alias, and conditions."""

    tables: frozenset
    conditions: frozenset
    rows: int


class Node(NamedTuple):
    depth: int
    name: str
    words: str
    rows: int


def nodes_of(plan):
    nodes = []
    for line in plan.splitlines():
        before, _, numbers = line.rpartition(" rows=")
        name, _, words = before.strip().partition(" ")
        nodes.append(Node(len(line) - len(line.lstrip()), name, words, int(numbers.split()[0])))
    return nodes


def own_part(node):
    """The tables and conditions that a node adds; None where it isn't one that joins of tables are made of."""
    if node.name in ("cut", "sort"):
        return set(), []
    if node.name == "scan":
        return {tuple(node.words.split())}, []
    if node.name == "filter":
        return set(), [node.words]
    if node.name == "iscan":
        table, alias, condition = TABLE_THEN_CONDITION.fullmatch(node.words).groups()
        return {(table, alias)}, [condition]
    if node.name == "merge":
        left, equals, right, *more = node.words.split(" ", 3)
        return set(), [f"{left} {equals} {right}", *more]
    if node.name in ("loop", "hash", "iloop"):
        kind, _, rest = node.words.partition(" ")
        if kind == "inner" and node.name == "iloop":
            table, alias, condition = TABLE_THEN_CONDITION.fullmatch(rest).groups()
            return {(table, alias)}, [condition]
        return (set(), [rest]) if kind == "inner" else None
    return None


def joined_below(nodes, place):
    """What stands below a node and in it, and the place behind; None for what is no join of tables."""
    tables, conditions, node = set(), [], nodes[place]
    part, place = own_part(node), place + 1
    known = part is not None
    while place < len(nodes) and nodes[place].depth > node.depth:
        below, place = joined_below(nodes, place)
        known = known and below is not None
        if known:
            tables |= below.tables
            conditions += below.conditions
    if not known:
        return None, place
    conjuncts = [conjunct for text in [*conditions, *part[1]] for conjunct in parts_between(text, "AND") if conjunct != "true"]
    return Join(frozenset(tables | part[0]), frozenset(conjuncts), node.rows), place


def aliases_of(condition):
    return set(re.findall(r"(\w+)\.\w", without_texts(condition)))


def joins_of(plan):
    """The joins of a plan that is explained, of two to six tables."""
    nodes = nodes_of(plan)
    for place, node in enumerate(nodes):
        if node.name in ("loop", "hash", "iloop", "merge", "filter"):
            join, _ = joined_below(nodes, place)
            if join and FEWEST <= len(join.tables) <= MOST:
                known = {alias for _, alias in join.tables}
                if all(aliases_of(condition) <= known for condition in join.conditions):
                    yield join


def tied_parts(join):
    """The tables in parts such that no condition is about two of them."""
    parts = [{alias} for _, alias in join.tables]
    for condition in join.conditions:
        tied = [part for part in parts if part & aliases_of(condition)]
        parts = [part for part in parts if part not in tied] + ([set().union(*tied)] if tied else [])
    return parts


class Counts:
    """True rows, counted once for each join; None where that takes too long."""

    def __init__(self, sqlite):
        self.sqlite, self.known = sqlite, {}

    def of(self, join):
        rows = 1
        for part in tied_parts(join):
            tables = ", ".join(sorted(f"{table} {alias}" for table, alias in join.tables if alias in part))
            conditions = " AND ".join(sorted(text for text in join.conditions if aliases_of(text) & part or not aliases_of(text)))
            text = f"SELECT COUNT(*) FROM {tables}" + (f" WHERE {conditions}" if conditions else "")
            if text not in self.known:
                found = self.sqlite.once(text)[1]
                self.known[text] = found and found[0][0]
            if self.known[text] is None:
                return None
            rows *= self.known[text]
        return rows


def factor(estimated, true):
    estimated, true = max(estimated, 1), max(true, 1)
    return max(estimated / true, true / estimated)


def factors(plan, counts):
    """Of each join of the plan; None for one that couldn't be counted."""
    for join in joins_of(plan):
        true = counts.of(join)
        yield None if true is None else factor(join.rows, true)


def has_subplan(plan):
    return any(below["Parent Relationship"] in ("SubPlan", "InitPlan") for below in plan.get("Plans", []))


def inner_tables(plan):
    """How many tables a node of PostgreSQL's joins by inner joins alone; 0 where it does anything else."""
    if has_subplan(plan) or plan.get("Join Type", "Inner") != "Inner":
        return 0
    if "Relation Name" in plan:
        return 1
    if plan["Node Type"] not in BETWEEN:
        return 0
    counts = [inner_tables(below) for below in plan["Plans"]]
    return sum(counts) if all(counts) else 0


def postgres_factors(plan):
    if "Join Type" in plan and FEWEST <= inner_tables(plan) <= MOST and plan["Actual Loops"]:
        yield factor(plan["Plan Rows"], plan["Actual Rows"])
    if plan["Node Type"] != "Merge Join" and plan.get("Join Type") not in ("Semi", "Anti"):
        for below in plan.get("Plans", []):
            if below["Parent Relationship"] not in ("SubPlan", "InitPlan"):
                yield from postgres_factors(below)
