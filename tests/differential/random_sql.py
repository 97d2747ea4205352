"""Random queries, and random tables that are small and rich in Nulls and equal values."""

import json

from common import Column, Table, takes_having_alone

TABLES = [
    Table("r", [Column("a", "INT", False), Column("b", "INT", False), Column("t", "TEXT", False)], [], [["a"], ["b", "a"], ["t"]]),
    Table("s", [Column("a", "INT", False), Column("c", "INT", False), Column("u", "TEXT", False)], [], [["a", "c"], ["u"]]),
]
NUMBERS, TEXTS = [0, 1, 2, -1], ["x", "y", "", "x", "y", "it's"]
COMPARISONS = ["=", "<>", "<", "<=", ">", ">="]
SIZES = [0, 1, 2, 10, 100, 5_000, 1_000_000, 2**64 - 1]
"""Of tables, for statistics: nothing ties these to the rows that are there."""


def literal(value):
    if isinstance(value, str):
        return "'" + value.replace("'", "''") + "'"
    return "NULL" if value is None else str(value)


def random_value(rng, kind, nulls):
    if rng.random() < nulls:
        return None
    return rng.choice(NUMBERS if kind == "INT" else TEXTS)


def random_rows(rng, table, most=6, nulls=0.35):
    """Rows that the table's NOT NULL and unique lists allow."""
    rows = []
    names = [column.name for column in table.columns]
    for _ in range(rng.randint(0, most)):
        row = [random_value(rng, column.kind, 0 if column.not_null else nulls) for column in table.columns]
        keys = [[names.index(name) for name in unique] for unique in table.unique]
        if not any(all(row[at] is not None and row[at] == other[at] for at in key) for key in keys for other in rows):
            rows.append(row)
    return rows


def random_contents(rng, tables, **how):
    return {table.name: random_rows(rng, table, **how) for table in tables}


def random_statistics(rng, tables, number=None):
    """Statistics of tables of any size. Of half of the tables the keys of some columns are known."""
    number = number or (lambda: rng.choice(SIZES))
    drawn = {}
    for table in tables:
        entry = {"rows": number(), "pages": number(), "indexes": [{"keys": number(), "pages": number()} for _ in table.indexes]}
        if rng.random() < 0.5:
            entry["columns"] = {column.name: {"keys": number()} for column in table.columns if rng.random() < 0.7}
        drawn[table.name] = entry
    return drawn


def statistics_text(statistics):
    return json.dumps({"tables": statistics})


class Maker:
    """Makes one query. Its table instances have names of their own, so each qualified name means one column.

    `equated` is how often a join's ON equates columns of both sides, `pinned` how often a WHERE compares a column with a literal, and `conditions` how
    often there is any other condition, on top of these. `inner` is how many joins of an ON are inner ones. `grouped` is how many SELECTs have groups, and
    `having` how many of these a HAVING.
    """

    def __init__(self, rng, tables=None, equated=0.0, pinned=0.0, conditions=0.7, inner=0.33, grouped=0.35, having=0.4):
        self.rng, self.tables, self.made = rng, tables or TABLES, 0
        self.equated, self.pinned, self.conditions, self.inner = equated, pinned, conditions, inner
        self.grouped, self.having = grouped, having

    def table(self):
        table, self.made = self.rng.choice(self.tables), self.made + 1
        name = f"{table.name}{self.made}"
        return f"{table.name} AS {name}", [(f"{name}.{column.name}", column.kind) for column in table.columns]

    def term(self, columns, kind):
        mine = [column for column in columns if column[1] == kind]
        if mine and self.rng.random() < 0.7:
            return self.rng.choice(mine)[0]
        return literal(self.rng.choice([None] + (NUMBERS if kind == "INT" else TEXTS)))

    def test(self, columns, depth):
        kind, choice = self.rng.choice(["INT", "INT", "TEXT"]), self.rng.random()
        if depth and choice < 0.2:
            return f"EXISTS ({self.select(columns, depth - 1)})"
        if depth and choice < 0.45:
            negation = self.rng.choice(["", "NOT "])
            return f"{self.term(columns, kind)} {negation}IN ({self.select(columns, depth - 1, kind)})"
        if choice < 0.6:
            return f"{self.term(columns, kind)} IS {self.rng.choice(['', 'NOT '])}NULL"
        return f"{self.term(columns, kind)} {self.rng.choice(COMPARISONS)} {self.term(columns, kind)}"

    def condition(self, columns, depth, size=2):
        if size == 0 or self.rng.random() < 0.4:
            return self.test(columns, depth)
        if self.rng.random() < 0.25:
            return f"NOT ({self.condition(columns, depth, size - 1)})"
        parts = [self.condition(columns, depth, size - 1) for _ in range(2)]
        return "(" + self.rng.choice([" AND ", " OR "]).join(parts) + ")"

    def equality(self, left, right):
        """A column of each side, equated."""
        pairs = [(a, b) for a, kind in left for b, other in right if kind == other]
        return " = ".join(self.rng.sample(self.rng.choice(pairs), 2)) if pairs else ""

    def comparison(self, columns):
        """A column compared with a literal."""
        column, kind = self.rng.choice(columns)
        return f"{column} {self.rng.choice(['=', '=', '<', '<=', '>', '>='])} {literal(random_value(self.rng, kind, 0.05))}"

    def on(self, left, right, outer):
        """The condition of an ON."""
        equal = self.equality(left, right) if self.rng.random() < self.equated else ""
        if equal and self.rng.random() > self.conditions:
            return equal
        condition = self.condition(left + right + outer, 0)
        return f"{equal} AND {condition}" if equal else condition

    def chain(self, outer):
        text, columns = self.table()
        for _ in range(self.rng.choice([0, 0, 1, 1, 2])):
            table, more = self.table()
            kind = "JOIN" if self.rng.random() < self.inner else "LEFT JOIN"
            text += f" {kind} {table} ON {self.on(columns, more, outer)}"
            columns = columns + more
        return text, columns

    def items(self, own, outer, grouped, keys, wanted):
        """The items, one of the wanted kind for a subquery behind IN."""
        shown = [self.rng.choice([wanted] if wanted else ["INT", "TEXT"]) for _ in range(1 if wanted else self.rng.randint(1, 3))]
        return [self.item(own, outer, grouped, keys, kind) for kind in shown]

    def item(self, own, outer, grouped, keys, kind):
        plain = [c[0] for c in (keys if grouped else own) + outer[:2] if c[1] == kind]
        counted = [c[0] for c in own if c[1] == kind]
        if plain and not (grouped and self.rng.random() < 0.6):
            return self.rng.choice(plain)
        return self.aggregate(own, kind) if grouped else self.rng.choice(counted)

    def aggregate(self, own, kind):
        """An aggregate of this kind, of a column of the own FROM."""
        functions = ["MIN", "MAX"] + (["SUM", "COUNT", "*"] if kind == "INT" else [])
        function = self.rng.choice(functions)
        if function == "*":
            return "COUNT(*)"
        return f"{function}({self.rng.choice([name for name, its in own if its == kind or function == 'COUNT'])})"

    def of_group(self, own, keys, kind):
        """A term of a HAVING: an aggregate, a column of the GROUP BY or a literal."""
        if self.rng.random() < 0.5:
            return self.aggregate(own, kind)
        return self.term(keys, kind)

    def test_of_group(self, own, keys):
        """A comparison or a test for Null of a HAVING; often of keys alone."""
        kind = self.rng.choice(["INT", "INT", "TEXT"])
        if keys and self.rng.random() < 0.3:
            return self.comparison(keys)
        left = self.of_group(own, keys, kind)
        if self.rng.random() < 0.25:
            return f"{left} IS {self.rng.choice(['', 'NOT '])}NULL"
        return f"{left} {self.rng.choice(COMPARISONS)} {self.of_group(own, keys, kind)}"

    def condition_of_group(self, own, keys, size=2):
        if size == 0 or self.rng.random() < 0.4:
            return self.test_of_group(own, keys)
        if self.rng.random() < 0.25:
            return f"NOT ({self.condition_of_group(own, keys, size - 1)})"
        parts = [self.condition_of_group(own, keys, size - 1) for _ in range(2)]
        return "(" + self.rng.choice([" AND ", " OR "]).join(parts) + ")"

    def having_of(self, own, keys):
        """The HAVING of a grouped SELECT, if it has one. Mostly its conjuncts stand at the top."""
        if self.rng.random() >= self.having or not (keys or takes_having_alone()):
            return ""
        parts = [self.condition_of_group(own, keys) for _ in range(self.rng.choice([1, 1, 2]))]
        return " HAVING " + " AND ".join(parts)

    def where(self, chains, own, outer, depth):
        """The WHERE, if there is one. Of two chains it mostly equates columns where ONs do."""
        equal = ""
        if len(chains) > 1 and self.rng.random() < self.equated:
            equal = self.equality(chains[0][1], chains[1][1])
        pinned = self.comparison(own) if self.rng.random() < self.pinned else ""
        condition = self.condition(own + outer, depth) if self.rng.random() < self.conditions else ""
        parts = [part for part in (equal, pinned, condition) if part]
        return " WHERE " + " AND ".join(parts) if parts else ""

    def grouping(self, own, outer, wanted):
        """The items, and the GROUP BY with the HAVING."""
        grouped = self.rng.random() < self.grouped
        keys = self.rng.sample(own, self.rng.randint(0, 2)) if grouped else []
        items = self.items(own, outer, grouped, keys, wanted)
        if grouped and not keys and not any("(" in item for item in items):
            items[0] = {"INT": "COUNT(*)", "TEXT": f"MIN({next(c for c, k in own if k == 'TEXT')})"}[wanted or "INT"]
        having = self.having_of(own, keys) if grouped else ""
        return items, (" GROUP BY " + ", ".join(key for key, _ in keys) if keys else "") + having

    def select(self, outer=(), depth=2, wanted=None, outermost=False, of_one=False):
        """A SELECT, within the tables around it, of the wanted kind behind IN; of one table, where that is asked."""
        outer = list(outer)
        chains = [self.table()] if of_one else [self.chain(outer) for _ in range(self.rng.choice([1, 1, 1, 2]))]
        own = [column for _, columns in chains for column in columns]
        where = self.where(chains, own, outer, depth)
        items, group = self.grouping(own, outer, wanted)
        if outermost:
            items = [f"{item} AS o{place}" for place, item in enumerate(items)]
        distinct = "DISTINCT " if self.rng.random() < 0.2 else ""
        text = f"SELECT {distinct}{', '.join(items)} FROM {', '.join(chain for chain, _ in chains)}{where}{group}"
        if outermost and self.rng.random() < 0.5:
            text += " ORDER BY " + ", ".join(f"o{place}{self.rng.choice(['', ' DESC'])}" for place in range(len(items)))
        return text
