#!/usr/bin/env python3
"""Compares the estimated rows of classes, the costs of plans and the text that explains them with the model of cost_model.py, over
random derivations, plans and statistics: classes that are the same among them, and numbers past 64 bits.

The model is written by docs/COSTS.md and knows nothing of the program's code. The program of costs/main.rt.txt reads each case (statistics,
and a certificate as text), and writes the rows of each class and the plan explained. It is run in a clone or a tree whose libraries are
built, by `rt try`, which proves nothing. The seed is fixed, so each run asks the same. It wants the toolchain: `tests/run --toolchain` runs it.

It sees faults, planted in copies: where the division of OR is rounded up, 212 of 2,000 cases differ; where a class that is the same as an
earlier one counts by its own line, 165. README.md has more.

usage: costs.py [--tree PATH] [COUNT [SEED]]
"""
import random
import sys

import drivers
from certificates import certificate_text, conjuncts, nodes_of
from common import Column, Table, schema_text
from cost_model import MILLION, MOST, Model, Shown
from evaluation import named_classes
from layout import Layout, Lines
from random_sql import random_statistics, statistics_text

LIBRARIES = (
    "values schema store statistics sql_parse query binder algebra laws props rules plain_rules outer_rules semijoin_rules subquery_rules book derivation logs frame physical certificate"
    " certificate_text certificate_read costs explain anyhow"
)
BATCH = 1000
NUMBERS = [0, 1, 2, 3, 10, 11, 99, 1000, 999_999, MILLION, 12_345_678, 10**12, 2**32, 2**63, MOST - 1, MOST]
INT, TEXT = "INT", "TEXT"


def table(name, columns, unique, indexes):
    return Table(name, [Column(*column, False) for column in columns], unique, indexes)


TABLES = [
    table("t", [("a", INT), ("b", INT), ("c", TEXT), ("d", INT)], [["a"], ["b", "a"]], [["a"], ["a", "b"], ["c"], ["b", "d"]]),
    table("u", [("e", INT), ("f", TEXT), ("g", INT)], [["e"]], [["e"], ["f"], ["g", "e"], ["f", "g"]]),
    table("v", [("h", INT), ("i", TEXT)], [], [["h"], ["i", "h"]]),
    table("w", [("k", INT)], [], []),
]
QUERY = "SELECT COUNT(*), SUM(x.d), MIN(y.f), MAX(z.b), COUNT(y.g) FROM t x, u y, v, t z, w"
LAYOUT = Layout(TABLES, "t AS x, u AS y, v AS v, t AS z, w AS w")
INSTANCES = range(len(LAYOUT.instances))
AGGREGATES = {
    LAYOUT.count: ("count", None),
    LAYOUT.count + 1: ("sum", LAYOUT.named("x.d")),
    LAYOUT.count + 2: ("min", LAYOUT.named("y.f")),
    LAYOUT.count + 3: ("max", LAYOUT.named("z.b")),
    LAYOUT.count + 4: ("count", LAYOUT.named("y.g")),
}
"""The query's own aggregates, by their columns."""

# ---- random cases


def random_number(draw):
    return draw.choice([*NUMBERS, draw.randrange(MOST), draw.randrange(10**6)])


def drawn_statistics(draw):
    small = draw.random() < 0.5
    number = lambda: draw.randrange(5000) if small else random_number(draw)
    return random_statistics(draw, TABLES, number)


class Derivation:
    """Random lines, each of which may stand behind those before it."""

    def __init__(self, draw):
        self.draw, self.lines, self.columns, self.gets = draw, [], {}, {}
        for o in INSTANCES:
            self.gets[o] = self.found(("get", o), set(LAYOUT.columns_of(o)))
        for _ in range(draw.randrange(3, 16)):
            self.add()

    def found(self, expr, columns):
        self.lines.append(("F", expr))
        self.columns[len(self.lines) - 1] = columns
        return len(self.lines) - 1

    def term(self, kind):
        draw = self.draw
        if draw.random() < 0.6:
            return ("c", draw.choice([c for c in range(LAYOUT.count) if LAYOUT.kind(c) == kind]))
        if draw.random() < 0.2:
            return ("n", None)
        return ("i", draw.choice([0, 5, -3, 2**63 - 1, -(2**63)])) if kind == INT else ("t", draw.choice(["", "ops", "it's", "é'"]))

    def compared(self):
        kind = self.draw.choice([INT, TEXT])
        return ("compare", self.draw.choice(["=", "=", "=", "<>", "<", "<=", ">", ">="]), self.term(kind), self.term(kind))

    def condition(self, depth=0, subqueries=False):
        draw, roll = self.draw, self.draw.random()
        if roll < 0.6 or depth > 2:
            return self.compared()
        if roll < 0.7:
            return ("null", self.term(draw.choice([INT, TEXT])))
        if roll < 0.8:
            return ("not", self.condition(depth + 1, subqueries))
        if subqueries and roll < 0.9:
            g = draw.choice(list(self.columns))
            return ("exists", g) if draw.random() < 0.5 else ("in", self.term(INT), g, draw.randrange(LAYOUT.count))
        return (draw.choice(["and", "or"]), [self.condition(depth + 1, subqueries) for _ in range(draw.randrange(2, 4))])

    def conjuncts(self, subqueries=False):
        return conjuncts([self.condition(0, subqueries) for _ in range(self.draw.randrange(0, 4))])

    def equated(self, a, b):
        """Conditions with, mostly, an equality of a column of each side."""
        C = self.conjuncts()
        left, right = ([c for c in self.columns[g] if c < LAYOUT.count] for g in (a, b))
        pairs = [(c, d) for c in left for d in right if LAYOUT.kind(c) == LAYOUT.kind(d)]
        if pairs and self.draw.random() < 0.7:
            c, d = self.draw.choice(pairs)
            sides = [("c", c), ("c", d)]
            self.draw.shuffle(sides)
            C = conjuncts(C + [("compare", "=", *sides)])
        return C

    def sides(self):
        pairs = [(a, b) for a in self.columns for b in self.columns if not self.columns[a] & self.columns[b]]
        return self.draw.choice(pairs) if pairs else None

    def add(self):
        draw, roll = self.draw, self.draw.random()
        x = draw.choice(list(self.columns))
        cols = self.columns[x]
        if roll < 0.2:
            base = self.gets[draw.randrange(len(INSTANCES))] if draw.random() < 0.5 else x
            self.found(("select", self.conjuncts(draw.random() < 0.3), base), self.columns[base])
        elif roll < 0.6:
            pair = self.sides()
            if pair is None:
                return
            a, b = pair
            kind = draw.choice(["join", "join", "left", "semi", "anti"])
            both = self.columns[a] | self.columns[b]
            if kind == "anti":
                self.found(("anti", self.equated(a, b), self.equated(a, b) if draw.random() < 0.3 else [], a, b), self.columns[a])
            elif kind == "semi":
                self.found(("semi", self.equated(a, b), a, b), self.columns[a])
            else:
                C = self.equated(a, b)
                g = self.found((kind, C, a, b), both)
                if kind == "join" and draw.random() < 0.4:
                    self.lines.append(("A", g, ("J1", 0, [g], []), ("join", C, b, a)))
        elif roll < 0.68:
            kept = sorted(draw.sample(sorted(cols), draw.randrange(0, len(cols) + 1)))
            self.found(("keep", kept, x), set(kept))
        elif roll < 0.74:
            self.found(("distinct", x), cols)
        elif roll < 0.84:
            keys = sorted(draw.sample(sorted(cols), draw.randrange(0, min(3, len(cols)) + 1)))
            own = [c for c, (_, read) in AGGREGATES.items() if (read is None or read in cols) and c not in cols and draw.random() < 0.5]
            self.found(("group", keys, [(c, *AGGREGATES[c]) for c in own], x), set(keys) | set(own))
        elif roll < 0.92:
            self.twin()
        else:
            self.merged()

    def merged(self):
        """A selection of a selection, both as one, and a class of that one: the same class, which would count other rows by its own line."""
        x = self.draw.choice(list(self.columns))
        C, D, cols = self.conjuncts(), self.conjuncts(), self.columns[x]
        below = self.found(("select", D, x), cols)
        top = self.found(("select", C, below), cols)
        one = ("select", conjuncts(C + D), x)
        self.lines.append(("A", top, ("S1", 0, [top, below], []), one))
        self.lines.append(("G", len(self.lines) - 1, self.found(one, cols)))

    def twin(self):
        """A line with the expression of an earlier one, and a line that unites their classes."""
        founding = [i for i, line in enumerate(self.lines) if line[0] == "F"]
        i = self.draw.choice(founding)
        j = self.found(self.lines[i][1], self.columns[i])
        if self.draw.random() < 0.8:
            self.lines.append(("G", i, j) if self.draw.random() < 0.5 else ("G", j, i))


class Planner:
    """Random plans of a class: each node implements a line of it."""

    def __init__(self, draw, derivation, lines):
        self.draw, self.of, self.of_lines = draw, derivation, lines

    def members(self, g):
        root = self.of_lines.roots
        return [i for i, line in enumerate(self.of.lines) if line[0] in "FA" and root[self.of_lines.class_of(i)] == root[g] and i <= g]

    def plan(self, g, depth=0):
        node = self.implementation(self.draw.choice(self.members(g)), depth)
        columns = sorted(self.of.columns[self.of_lines.class_of(node["line"])])
        if columns and self.draw.random() < 0.15:
            keys = [(c, self.draw.random() < 0.5) for c in self.draw.sample(columns, min(len(columns), self.draw.randrange(1, 3)))]
            return {"name": "sort", "keys": keys, "inputs": [node]}
        return node

    def index_of(self, o):
        indexes = LAYOUT.table(o).indexes
        return self.draw.randrange(len(indexes)) if indexes else None

    def instance_under(self, g):
        """The instance whose Get a class is founded by."""
        expr = self.of.lines[g][1]
        return expr[1] if expr[0] == "get" else None

    def implementation(self, line, depth):
        draw, expr = self.draw, self.of.lines[line][-1]
        kind, *parts = expr
        if kind == "get":
            index = self.index_of(parts[0])
            if index is not None and draw.random() < 0.3:
                return {"name": "iscan", "line": line, "get": line, "instance": parts[0], "index": index, "sure": [], "inputs": []}
            return {"name": "scan", "line": line, "instance": parts[0], "inputs": []}
        if kind == "select":
            return self.selection(line, parts, depth)
        if kind in ("join", "left", "semi", "anti"):
            return self.join(line, "inner" if kind == "join" else kind, parts, depth)
        if kind == "keep":
            return {"name": "cut", "line": line, "columns": parts[0], "inputs": [self.plan(parts[1], depth + 1)]}
        if kind == "distinct":
            return {"name": draw.choice(["hdistinct", "sdistinct"]), "line": line, "inputs": [self.plan(parts[0], depth + 1)]}
        group = {"name": draw.choice(["hgroup", "sgroup"]), "line": line, "columns": parts[0], "aggregates": parts[1]}
        return dict(group, inputs=[self.plan(parts[2], depth + 1)])

    def selection(self, line, parts, depth):
        classes = sorted(set(named_classes(parts[0])))
        if classes:
            return {"name": "filtersub", "line": line, "sure": parts[0], "inputs": [self.plan(g, depth + 1) for g in [parts[1], *classes]]}
        o = self.instance_under(parts[1])
        if o is not None and self.index_of(o) is not None and self.draw.random() < 0.7:
            return {"name": "iscan", "line": line, "get": parts[1], "instance": o, "index": self.index_of(o), "sure": parts[0], "inputs": []}
        return {"name": "filter", "line": line, "sure": parts[0], "inputs": [self.plan(parts[1], depth + 1)]}

    def join(self, line, kind, parts, depth):
        draw = self.draw
        C, M, a, b = parts if kind == "anti" else (parts[0], None, *parts[1:])
        node = {"line": line, "kind": kind, "sure": C, "maybe": M}
        o = self.instance_under(b)
        if o is not None and self.index_of(o) is not None and draw.random() < 0.5:
            return dict(node, name="iloop", get=b, instance=o, index=self.index_of(o), inputs=[self.plan(a, depth + 1)])
        inputs = [self.plan(a, depth + 1), self.plan(b, depth + 1)]
        columns = self.of.columns
        if kind == "inner" and columns[a] and columns[b] and draw.random() < 0.3:
            return {"name": "merge", "line": line, "left": min(columns[a]), "right": min(columns[b]), "sure": C, "inputs": inputs}
        return dict(node, name=draw.choice(["loop", "hash"]), inputs=inputs)


def case(draw):
    """The statistics and the certificate of a random case, and what the driver has to write of them."""
    while True:
        derivation, statistics = Derivation(draw), drawn_statistics(draw)
        lines = Lines(LAYOUT, derivation.lines)
        model = Model(lines, statistics)
        root = draw.choice(list(derivation.columns)[-4:])
        plan = Planner(draw, derivation, lines).plan(root)
        if len(list(nodes_of(plan))) <= 60:
            break
    rows = " ".join(str(model.class_rows(lines.class_of(i)) if line[0] in "FA" else 0) for i, line in enumerate(lines.all))
    return statistics_text(statistics), certificate_text(lines.all, plan), f"{rows}\n{Shown(model).text(plan)}"


# ---- the run


def sized(text):
    return f"{len(text.encode())}\n{text}"


def answers(tree, cases):
    """What the driver says of each case."""
    found = []
    with drivers.driver("costs", LIBRARIES, tree) as crate:
        for file in ("specs", "proofs"):
            (crate / file).mkdir()
            (crate / file / "Lib.antt").write_text("", encoding="utf-8")
        for begin in range(0, len(cases), BATCH):
            asked = [sized(statistics) + sized(certificate) for statistics, certificate, _ in cases[begin : begin + BATCH]]
            found += drivers.said(crate, sized(schema_text(TABLES)) + sized(QUERY) + "".join(asked)).split("----\n")[:-1]
    return found


def main():
    asked = drivers.arguments(__doc__, 2000, 39)
    draw = random.Random(asked.seed)
    cases = [case(draw) for _ in range(asked.count)]
    said = answers(asked.tree, cases)
    differ = [place for place, (one, answer) in enumerate(zip(cases, said)) if one[2] != answer]
    for place in differ[:3]:
        print(f"case {place}\n{cases[place][0]}\n{cases[place][1]}wanted\n{cases[place][2]}given\n{said[place]}")
    kinds = {}
    for _, certificate, _ in cases:
        for line in certificate.split("\nplan ")[1].split("\n")[1:-2]:
            kinds[line.split()[0]] = kinds.get(line.split()[0], 0) + 1
    past = sum(1 for *_, wanted in cases if str(MOST) in wanted)
    nodes = f"nodes {dict(sorted(kinds.items()))}"
    print(f"{len(said)} of {asked.count} cases asked, {len(differ)} differ; {nodes}; {past} cases with a number cut to 2^64 - 1")
    return 1 if differ or len(said) != asked.count else 0


if __name__ == "__main__":
    sys.exit(main())
