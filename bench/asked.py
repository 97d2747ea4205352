#!/usr/bin/env python3
"""Compares plans of queries with EXISTS, NOT IN and left joins with the cheapest ones, over random join graphs and statistics.

The queries are those of quality.py with something more: a subquery that is asked of one table or of two, NOT IN, both, these and one more, or a left join, or two, that stand
in the text behind a table, the whole, or a part of the joins. The second search is this script's own: over all bushy trees, and for each subquery and each left
join over all sets of tables of whose rows it may be asked: those that have its columns. A subquery is a filter there, which pays for each row what the subquery's own
plan costs, or a semijoin or an antijoin, by hash, by an index or by nested loops, whichever is least; a left join costs what joining the rows of the set does. Two left joins of one table stay in the order of the text: by O4 and O5 left joins pass inner ones, and so each other
where their tables are joined, but no rule lets two of one table change places. With `--any-order` the second search lets them.

Told are, for each kind, shape and number of tables, the geometric mean and the worst of the planned cost over the least one. The seed is fixed, so
each run asks the same. Wants the program built.

usage: asked.py [--program PATH] [--limit LINES] [--worst] [--any-order] [--kinds KIND,..] [DRAWS [FEWEST MOST [SEED]]]
"""
import json
import math
import pathlib
import random
import re
import subprocess
import sys
import tempfile

import quality
from quality import MILLION, Side, all_of, edge_share, index_scan_cost, per_million, probe_cost, scan_cost, share

ROOT = pathlib.Path(__file__).resolve().parent.parent
KINDS = ("exists", "not_in", "both", "three", "left_table", "left_whole", "left_part", "two_lefts")
HALF = 500_000
ANY_ORDER = "--any-order" in sys.argv


# ---- what is joined


class Leaf:
    """What is joined as one: its trees with the conditions on it alone, the tree without them, and what finds matches of one row by an index."""

    def __init__(self, full, bare, probes):
        self.full, self.bare, self.probes = full, bare, probes

    def sides(self):
        return self.full + ([self.bare] if self.bare else [])


def table_leaf(table, probes):
    sides = quality.leaf_sides(table)
    return Leaf(sides[:1], sides[1] if len(sides) > 1 else None, probes)


# ---- the least cost


def with_asked(trees, extras, whole):
    """Of each set of subqueries and left joins that are asked in a set of tables, the trees; the others by asking one more."""
    for asked in sorted(range(1 << len(extras)), key=lambda bits: bits.bit_count()):
        for place, (owners, ask, later) in enumerate(extras):
            bit = 1 << place
            if asked & bit and not asked & later and owners & whole == owners:
                for one in trees.get(asked & ~bit, []):
                    if one.shares == 1.0:
                        trees.setdefault(asked, []).append(ask(one))
        if asked in trees:
            bare = [one for one in trees[asked] if one.shares != 1.0]
            best = {}
            for one in trees[asked]:
                if one.shares == 1.0:
                    best[one.rows] = min(best.get(one.rows, math.inf), one.cost)
            trees[asked] = quality.undominated(best) + bare
    return trees


def least_trees(leaves, edges, extras):
    """The trees of all leaves with all subqueries and left joins asked, of which none has fewer rows at no more cost. An edge is two places and a share; what is
    asked, the places that it wants, what it makes of a tree, and the bits of what is never asked before it."""
    count = len(leaves)
    near = [0] * count
    for a, b, _ in edges:
        near[a] |= 1 << b
        near[b] |= 1 << a
    sides, around, inner = [None] * (1 << count), [0] * (1 << count), [1.0] * (1 << count)
    for place, leaf in enumerate(leaves):
        sides[1 << place] = with_asked({0: leaf.sides()}, extras, 1 << place)
        around[1 << place] = near[place]
    shares = [(1 << a | 1 << b, part) for a, b, part in edges]
    probes = [leaf.probes for leaf in leaves]
    for whole in range(1, 1 << count):
        low = whole & -whole
        others = whole & ~low
        if not others:
            continue
        around[whole] = around[low] | around[others]
        inner[whole] = inner[others] * math.prod((s for both, s in shares if both & whole == both and both & low), start=1.0)
        trees, part = {}, others
        while part:
            rest = whole & ~part
            between = inner[whole] / inner[part] / inner[rest]
            is_equated = around[part] & rest
            into_rest, into_part = quality.probed_cost(rest, probes, part), quality.probed_cost(part, probes, rest)
            for first, ones in sides[part].items():
                for second, twos in sides[rest].items():
                    if first & second:
                        continue
                    best = trees.setdefault(first | second, {})
                    for one in ones:
                        for two in twos:
                            rows = quality.joined_rows(one, two, between)
                            cost = min(quality.paired_cost(one, two, is_equated), quality.paired_cost(two, one, is_equated))
                            cost = min(cost, one.cost + one.rows * (math.inf if second else into_rest), two.cost + two.rows * (math.inf if first else into_part))
                            best[rows] = min(best.get(rows, math.inf), cost)
            part = (part - 1) & others
        kept = {asked: quality.undominated(best) for asked, best in trees.items()}
        sides[whole] = with_asked(kept, extras, whole)
    return sides[-1][(1 << len(extras)) - 1]


# ---- queries


class Asked:
    """A query: its tables with those of subqueries and left joins behind them, its text, and the least cost."""

    def __init__(self, drawn, text, least):
        self.drawn, self.text, self.least = drawn, text, least


def probes_of(drawn, places):
    """Of each of these tables, the other and what finding the matches of one row costs."""
    probes = {place: [] for place in places}
    for a, column_a, b, column_b in drawn.edges:
        for other, place, column in ((b, a, column_a), (a, b, column_b)):
            if place in probes and other in probes and column in drawn.tables[place].keys:
                probes[place].append((1 << places.index(other), probe_cost(drawn.tables[place], column)))
    return [probes[place] for place in places]


def edges_between(drawn, places):
    return [(places.index(a), places.index(b), edge_share(drawn.tables, (a, x, b, y)) / MILLION) for a, x, b, y in drawn.edges if a in places and b in places]


def extra_table(rng, most):
    rows = int(10 ** rng.uniform(1, most))
    keys = {"id": rows}
    for column in ("v", "k"):
        if rng.random() < 0.5:
            keys[column] = max(2, int(rows ** rng.uniform(0.3, 1)))
    return quality.Table(rows, ["id", "v", "w", "k"], keys, [])


def exists_of(rng, drawn):
    """EXISTS over a further table that is tied to one table, or to two: its text, whose rows it is asked of, and what it makes of a tree."""
    tables = drawn.tables
    inner, number = extra_table(rng, 4), len(tables)
    tables.append(inner)
    count = len(drawn.from_order)
    owners = rng.sample(range(count), 1 if rng.random() < 0.7 else 2)
    tied = [("k", f"t{owners[0]}.v")] + [("v", f"t{owner}.w") for owner in owners[1:]]
    parts = [share(inner.keys[column]) if column in inner.keys else 100_000 for column, _ in tied]
    plans = [scan_cost(inner) + inner.rows]
    for place, (column, _) in enumerate(tied):
        if column in inner.keys:
            plans.append(100 * per_million(inner.index_pages + inner.rows, parts[place]) + 10 * per_million(inner.rows, all_of(parts)))
    text = f"EXISTS (SELECT s{number}.id FROM t{number} s{number} WHERE " + " AND ".join(f"s{number}.{column} = {outer}" for column, outer in tied) + ")"
    each = [min(plans) + 1, scan_cost(inner)] + [probe_cost(inner, column) for column, _ in tied if column in inner.keys]
    return text, sum(1 << owner for owner in owners), asking(min(each), scan_cost(inner) + 2 * inner.rows)


def not_in_of(rng, drawn):
    tables = drawn.tables
    inner, number = extra_table(rng, 3), len(tables)
    tables.append(inner)
    owner = rng.randrange(len(drawn.from_order))
    filters = [("v", "=", 5)] if rng.random() < 0.5 else []
    plans = [scan_cost(inner) + (inner.rows if filters else 0)]
    if filters and "v" in inner.keys:
        plans.append(index_scan_cost(inner, "v", filters))
    where = f" WHERE s{number}.v = 5" if filters else ""
    rows = per_million(inner.rows, share(inner.keys["v"]) if "v" in inner.keys else 100_000) if filters else inner.rows
    return f"t{owner}.w NOT IN (SELECT s{number}.k FROM t{number} s{number}{where})", 1 << owner, asking(min(plans), min(plans) + 2 * rows)


def with_conditions(text, conditions):
    return text + (" AND " if " WHERE " in text else " WHERE ") + " AND ".join(conditions)


def asking(each, built):
    """What a subquery makes of a tree: each row costs so much, or 1 where a hash table was built, which costs so much."""
    return lambda one: Side(per_million(one.rows, HALF), one.cost + min(one.rows * each, built + one.rows), 1.0)


def subquery_draw(rng, kind, drawn):
    count = len(drawn.from_order)
    asked = [exists_of(rng, drawn)] if kind in ("exists", "both", "three") else []
    asked += [not_in_of(rng, drawn)] if kind in ("not_in", "both", "three") else []
    asked += [exists_of(rng, drawn)] if kind == "three" else []
    places = list(range(count))
    leaves = [table_leaf(drawn.tables[place], probes) for place, probes in zip(places, probes_of(drawn, places))]
    trees = least_trees(leaves, edges_between(drawn, places), [(owners, ask, 0) for _, owners, ask in asked])
    return Asked(drawn, with_conditions(drawn.text, [text for text, _, _ in asked]), min(one.cost for one in trees) + 1)


def left_joining(right, column_share, probe):
    """What a left join with a table makes of a tree."""

    def joined(one):
        rows = max(per_million(one.rows * right.rows, column_share), one.rows)
        scan = scan_cost(right)
        cost = min(one.cost + scan + one.rows + 2 * right.rows, one.cost + one.rows * scan)
        if probe is not None:
            cost = min(cost, one.cost + one.rows * probe)
        return Side(rows, cost, 1.0)

    return joined


def left_of(rng, drawn, below):
    """A left join with a further table, tied to one of these: its text, whose rows it joins, and what it makes of a tree."""
    tables, number = drawn.tables, len(drawn.tables)
    right = extra_table(rng, 5)
    tables.append(right)
    owner, column = rng.choice(below), rng.choice(["id", "k"])
    keys = [table.keys[name] for table, name in ((tables[owner], "v"), (right, column)) if name in table.keys]
    part = share(max(keys)) if keys else 100_000
    probe = probe_cost(right, column) if column in right.keys else None
    return f" LEFT JOIN t{number} ON t{number}.{column} = t{owner}.v", 1 << drawn.from_order.index(owner), left_joining(right, part, probe)


def left_extras(lefts):
    """Of each left join, the lowest first, which of those above it are of its table."""
    if ANY_ORDER:
        return [(owners, ask, 0) for owners, ask in lefts]
    above = lambda place, owners: sum(1 << other for other in range(place + 1, len(lefts)) if lefts[other][0] & owners)
    return [(owners, ask, above(place, owners)) for place, (owners, ask) in enumerate(lefts)]


def left_draw(rng, kind, drawn):
    tables, order = drawn.tables, drawn.from_order
    count = len(order)
    splits = {"left_table": lambda: [1], "left_whole": lambda: [count], "left_part": lambda: [rng.randrange(2, count)], "two_lefts": lambda: sorted(rng.choices(range(1, count + 1), k=2))}
    lefts = [(split, left_of(rng, drawn, order[:split])) for split in splits[kind]()]
    # The text: joins by ON, and left joins among them.
    text, seen = f"SELECT t{order[0]}.v, t{order[-1]}.w" + "".join(f", t{count + place}.w" for place in range(len(lefts))) + f" FROM t{order[0]}", {order[0]}
    for step, place in enumerate(order[1:], 1):
        text += "".join(left for split, (left, _, _) in lefts if split == step)
        seen.add(place)
        on = [quality.edge_text(edge) for edge in drawn.edges if place in (edge[0], edge[2]) and {edge[0], edge[2]} <= seen]
        text += f" JOIN t{place} ON " + " AND ".join(on)
    text += "".join(left for split, (left, _, _) in lefts if split == count)
    where = [condition for place in order for condition in quality.filter_texts(place, tables[place])]
    text += (" WHERE " + " AND ".join(where)) if where else ""
    leaves = [table_leaf(tables[place], probes) for place, probes in zip(order, probes_of(drawn, order))]
    trees = least_trees(leaves, edges_between(drawn, order), left_extras([(owners, ask) for _, (_, owners, ask) in lefts]))
    return Asked(drawn, text, min(one.cost for one in trees) + 1)


def fair(rng, kind, shape, count):
    while True:
        drawn = quality.draw(rng, shape, "on" if "left" in kind else rng.choice(quality.FORMS), count)
        if quality.least_cost(drawn)[1] < 1:
            continue
        asked = left_draw(rng, kind, drawn) if "left" in kind else subquery_draw(rng, kind, drawn)
        if asked.least < quality.MOST_COST:
            return asked


def planned_cost(program, limit, asked):
    with tempfile.TemporaryDirectory() as name:
        folder = pathlib.Path(name)
        (folder / "schema.json").write_text(quality.schema_of(asked.drawn))
        (folder / "query.sql").write_text(asked.text)
        (folder / "stats.json").write_text(quality.statistics_of(asked.drawn))
        files = [folder / file for file in ("schema.json", "query.sql", "stats.json")]
        run = subprocess.run([program, "explain", *files, "--limit", limit], capture_output=True, text=True, check=False)
        if run.returncode:
            sys.exit(f"{asked.text}\n{run.stderr}")
        return int(re.search(r" cost=(\d+)", run.stdout)[1]), run.stdout


def main():
    words = sys.argv[1:]
    options = {"--program": str(ROOT / "release/sqlplan"), "--limit": "2000", "--kinds": ",".join(KINDS)}
    for name in options:
        if name in words:
            place = words.index(name)
            options[name] = words[place + 1]
            del words[place : place + 2]
    numbers = [int(word) for word in words if word.isdigit()]
    draws, fewest, most, seed = numbers + [4, 4, 8, 40][len(numbers) :]
    rng, everything = random.Random(seed), []
    for kind in options["--kinds"].split(","):
        for shape in quality.SHAPES:
            for count in range(fewest, most + 1):
                ratios = []
                for _ in range(draws):
                    asked = fair(rng, kind, shape, count)
                    cost, text = planned_cost(options["--program"], options["--limit"], asked)
                    ratios.append(cost / asked.least)
                    if "--worst" in words and ratios[-1] > 1.5:
                        print(asked.text, quality.statistics_of(asked.drawn), f"least {asked.least}", text, sep="\n")
                everything += ratios
                print(f"{kind:10} {shape:7} {count:2} tables: {quality.told(ratios)}", flush=True)
    over = sum(ratio > 1.5 for ratio in everything)
    print(f"all: {quality.told(everything)}, over 1.5: {over} of {len(everything)}")


if __name__ == "__main__":
    main()
