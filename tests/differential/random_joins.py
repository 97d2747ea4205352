"""Random joins of two tables rich in Nulls and equal values, inner and left, by nested loops, by hash, by merging and by each index that fits: all
have to give the rows of definitions of these tests (evaluation.py), cell by cell and in order, and these have to be sqlite3's.

The certificates are written here, lines and plan, and asked of no planner. Conditions are equalities of columns of both sides, of a side and a
literal, `<`, `<>`, IS NULL, OR and NOT, over numbers and texts.

Semijoins, antijoins and joins within a subquery, which read the outer row, are not reached: random_rules.py has those that rules make of queries'
subqueries, and by_driver/random_joins.py runs any, with the toolchain.
"""

import itertools

from certificates import certificate_text, conjuncts
from common import Column, Table, agree, sqlite_database, sqlite_rows
from layout import Layout, Lines
from plan_drawing import Drawing
from random_plans import own_rows, wrong_rows
from random_sql import literal, random_contents

SEED, ROUND = 23, 200
KINDS = ("inner", "left")
COLUMNS = [("a", "INT"), ("b", "INT"), ("c", "TEXT"), ("d", "INT")]
VALUES = {"INT": [0, 1, 2], "TEXT": ["x", "y", ""]}


def random_tables(rng):
    """Two tables of one to four columns, with indexes of one column and of two."""
    tables = []
    for name in ("p", "q"):
        columns = [Column(*column, False) for column in COLUMNS[: rng.randint(1, 4)]]
        names = [column.name for column in columns]
        indexes = [[one] for one in names if rng.random() < 0.6]
        if len(names) > 1 and rng.random() < 0.6:
            indexes.append(rng.sample(names, 2))
        tables.append(Table(name, columns, [], indexes))
    return tables


class Conditions:
    """Draws the conditions of a join, as docs/CERTIFICATES.md has them."""

    def __init__(self, rng, layout):
        self.rng, self.layout = rng, layout

    def other(self, column):
        """A term of the column's kind, mostly of the other side."""
        left, right = self.layout.columns_of(0), self.layout.columns_of(1)
        kind = self.layout.kind(column)
        alike = [its for its in (right if column in left else left) if self.layout.kind(its) == kind]
        if alike and self.rng.random() < 0.85:
            return ("c", self.rng.choice(alike))
        if self.rng.random() < 0.1:
            return ("n", None)
        return ("i" if kind == "INT" else "t", self.rng.choice(VALUES[kind]))

    def branches(self):
        """An OR whose branches have one equality in common, but now and then one of them."""
        column = self.rng.choice(self.layout.columns_of(0) + self.layout.columns_of(1))
        shared = ("compare", "=", ("c", column), self.other(column))
        count = self.rng.choice([2, 2, 3])
        parts = [self.rng.sample([shared, self.condition(0)], 2) if self.rng.random() < 0.9 else [self.condition(0), self.condition(0)] for _ in range(count)]
        return ("or", [("and", part) for part in parts])

    def alone(self, columns):
        """A condition of these columns and literals."""
        column = self.rng.choice(columns)
        if self.rng.random() < 0.2:
            return ("null", ("c", column))
        kind = self.layout.kind(column)
        return ("compare", self.rng.choice(["=", "=", "<", "<>"]), ("c", column), ("i" if kind == "INT" else "t", self.rng.choice(VALUES[kind])))

    def sided(self):
        """An OR whose branches each say something of one side alone, but now and then one of them."""
        columns, count = self.layout.columns_of(self.rng.choice([0, 1, 1])), self.rng.choice([2, 2, 3])
        said = lambda: ("and", self.rng.sample([self.alone(columns), self.condition(0)], 2))
        return ("or", [said() if self.rng.random() < 0.9 else self.condition(0) for _ in range(count)])

    def condition(self, depth=1):
        choice = self.rng.random()
        if depth and self.rng.random() < 0.15:
            return self.sided()
        if depth and self.rng.random() < 0.1:
            return self.branches()
        if depth and choice < 0.08:
            return ("not", self.condition(0))
        if depth and choice < 0.18:
            return (self.rng.choice(["or", "or", "and"]), [self.condition(0), self.condition(0)])
        column = self.rng.choice(self.layout.columns_of(0) + self.layout.columns_of(1))
        if choice < 0.24:
            return ("null", ("c", column))
        terms = self.rng.sample([("c", column), self.other(column)], 2)
        return ("compare", self.rng.choice(["="] * 6 + ["<", "<>"]), *terms)

    def listed(self):
        return [self.condition() for _ in range(self.rng.choice([1, 1, 2, 3]))]


def sql_term(layout, term):
    if term[0] != "c":
        return literal(term[1])
    instance, place = layout.at(term[1])
    return f"{layout.alias(instance)}.{layout.table(instance).columns[place].name}"


def sql_condition(layout, condition):
    """A condition as SQL writes it."""
    kind, *parts = condition
    if kind == "compare":
        return f"{sql_term(layout, parts[1])} {parts[0]} {sql_term(layout, parts[2])}"
    if kind == "null":
        return f"{sql_term(layout, parts[0])} IS NULL"
    if kind == "not":
        return f"NOT ({sql_condition(layout, parts[0])})"
    return "(" + f" {kind.upper()} ".join(sql_condition(layout, part) for part in parts[0]) + ")"


def drawn_join(rng, tables, kind):
    """The text of a join, and the lines of its query."""
    word = "JOIN" if kind == "inner" else "LEFT JOIN"
    layout = Layout(tables, "p AS x, q AS y")
    sure = Conditions(rng, layout).listed()
    names = [sql_term(layout, ("c", column)) for column in range(layout.count)]
    items = ", ".join(f"{name} AS o{place}" for place, name in enumerate(names))
    query = f"SELECT {items} FROM p AS x {word} q AS y ON " + " AND ".join(sql_condition(layout, condition) for condition in sure)
    join = ("join" if kind == "inner" else kind, conjuncts(sure), 0, 1)
    keep = ("keep", list(range(layout.count)), 2)
    return query, Lines(layout, [("F", ("get", 0)), ("F", ("get", 1)), ("F", join), ("F", keep)])


def join_fault(program, rng, kind, counts):
    """What is wrong of a random join by one of its ways, or nothing."""
    tables = random_tables(rng)
    contents = random_contents(rng, tables, most=10, nulls=rng.choice([0, 0.1, 0.4]))
    query, lines = drawn_join(rng, tables, kind)
    program.write_tables(tables, contents)
    program.write("query.sql", query)
    drawing = Drawing(rng, lines)
    node = {"line": 2, "kind": kind, "sure": lines.expression(2)[1], "maybe": None}
    wanted = sqlite_rows(sqlite_database(tables, contents), query)
    for way in drawing.ways(node, 0, 1):
        plan = {"name": "cut", "line": 3, "columns": list(range(lines.layout.count)), "inputs": [drawing.join_by(node, way, 0, 1, 1)]}
        expected = own_rows(lines.layout, contents, plan, lines.layout.outermost(query)[0])
        certificate = certificate_text(lines.all, plan)
        found = wrong_rows(program, certificate, expected)
        if not found and not agree(query, wanted, expected):
            found = f"the rows of the definitions here are not sqlite3's: {expected}, {wanted}"
        if found:
            return f"{way[0]}: {found}\n{query}\n{contents}\n{certificate}"
        counts[kind, way[0]] += 1
        counts["rows"] += len(expected)
    return ""


def cases(program, rng, counts):
    """What is wrong of each join of a round, or nothing."""
    for _, kind in itertools.product(range(ROUND // 2), KINDS):
        counts["joins"] += 1
        yield join_fault(program, rng, kind, counts)


def told(counts):
    ways = ", ".join(f"{sum(counts[kind, way] for kind in KINDS)} by {way}" for way in ("loop", "hash", "merge", "iloop"))
    return f"{counts['joins']:,} joins, {ways}, with {counts['rows']:,} rows, beside definitions of its own and sqlite3"
