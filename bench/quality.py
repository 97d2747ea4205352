#!/usr/bin/env python3
"""Compares the join trees that are planned with the cheapest ones, over random join graphs and statistics.

A second search, of this script's own: a dynamic program over all bushy trees of a query's tables, with scans, scans and joins by index,
filters before and after joins, hash joins and nested loops, by the costs of docs/COSTS.md, rounded as there. It knows no orders, so no merge
joins. Each join of its trees has the rows that are guessed of its inputs and its conditions. So the same tables have other rows in other trees, and of
each set all trees are kept of which none has fewer rows at no more cost.

Told are, for each shape, form of FROM and number of tables, the geometric mean and the worst of the planned cost over the least one. The planned cost
is what the program says, by which it chooses: there a set of tables is a class, whose rows are guessed once, by the line that founds it. Behind it
stands the same for the plan's own nodes, priced as those of the search: its joins may round otherwise than the lines that found their classes. Where
the canonical plan is taken, the run ends. Wants the program built, or a tree in which the program of quality/main.rt.txt is tried, which proves
nothing. The seed is fixed, so each run asks the same.

usage: quality.py [--tree PATH] [--program PATH] [--limit LINES] [--worst] [DRAWS [FEWEST MOST [SEED]]]
"""
import dataclasses
import json
import math
import pathlib
import random
import re
import shutil
import subprocess
import sys
import tempfile

import crates

ROOT = pathlib.Path(__file__).resolve().parent.parent
NAME = "plan_quality"
LIBRARIES = (
    "values schema store statistics sql_parse query binder algebra laws props rules plain_rules outer_rules semijoin_rules subquery_rules book derivation logs frame physical costs bindings memo closure explore seed winners"
    " certificate trimming certificate_text planner anyhow"
)
BATCH = 60
SHAPES = ("chain", "star", "cycle", "clique")
FORMS = ("comma", "on")
MILLION = 1_000_000
# Costs are cut to 64 bits, where all plans cost the same; queries whose cheapest plan comes near that are not asked.
MOST_COST = 1e13


# ---- queries


@dataclasses.dataclass
class Table:
    rows: int
    columns: list  # names; the first is unique
    keys: dict  # of the columns with an index, how many different keys
    filters: list  # conditions on it alone: column, operator, literal

    @property
    def pages(self):
        return -(-self.rows // 50)

    @property
    def index_pages(self):
        return -(-self.rows // 100)


@dataclasses.dataclass
class Draw:
    tables: list
    edges: list  # place, column, place, column
    text: str
    from_order: list  # places in the order of the text


def joined_pairs(shape, count):
    chain = [(place, place + 1) for place in range(count - 1)]
    if shape == "chain":
        return chain
    if shape == "star":
        return [(0, place) for place in range(1, count)]
    if shape == "cycle":
        return chain + [(0, count - 1)]
    return [(a, b) for a in range(count) for b in range(a + 1, count)]


def table_of(rng, links):
    rows = int(10 ** rng.uniform(1, 6))
    columns = ["id", "v", "w"] + [f"c{link}" for link in links]
    keys = {"id": rows}
    for column in columns[1:]:
        if rng.random() < 0.4:
            keys[column] = max(2, int(rows ** rng.uniform(0.3, 1)))
    filters = []
    for column in ("v", "w"):
        if rng.random() < 0.3:
            filters.append((column, rng.choice(["=", "=", "<", ">="]), rng.randrange(100)))
    return Table(rows, columns, keys, filters)


def edge_text(edge):
    a, column_a, b, column_b = edge
    return f"t{a}.{column_a} = t{b}.{column_b}"


def filter_texts(place, table):
    return [f"t{place}.{column} {operator} {literal}" for column, operator, literal in table.filters]


def connected_order(rng, pairs, count):
    """The tables in an order in which each but the first is joined with one before it."""
    order = [rng.randrange(count)]
    while len(order) < count:
        near = [p for p in range(count) if p not in order and any({p, q} == set(pair) for q in order for pair in pairs)]
        order.append(rng.choice(near))
    return order


def query_text(rng, form, tables, edges, order):
    """`SELECT` of two columns over the tables in this order."""
    items = f"t{order[0]}.v, t{order[-1]}.w"
    if form == "comma":
        conditions = [edge_text(edge) for edge in edges] + [text for p, table in enumerate(tables) for text in filter_texts(p, table)]
        rng.shuffle(conditions)
        where = " WHERE " + " AND ".join(conditions) if conditions else ""
        return f"SELECT {items} FROM " + ", ".join(f"t{place}" for place in order) + where
    text, seen, where = f"SELECT {items} FROM t{order[0]}", {order[0]}, filter_texts(order[0], tables[order[0]])
    for place in order[1:]:
        seen.add(place)
        on = [edge_text(edge) for edge in edges if place in (edge[0], edge[2]) and {edge[0], edge[2]} <= seen]
        for condition in filter_texts(place, tables[place]):
            (on if rng.random() < 0.5 else where).append(condition)
        text += f" JOIN t{place} ON " + " AND ".join(on)
    return text + (" WHERE " + " AND ".join(where) if where else "")


def draw(rng, shape, form, count):
    pairs = joined_pairs(shape, count)
    tables = [table_of(rng, [b if a == place else a for a, b in pairs if place in (a, b)]) for place in range(count)]
    edges, tree = [], set(joined_pairs("star" if shape == "star" else "chain", count))
    for a, b in pairs:
        side = rng.random()
        # mostly a foreign key and the unique column that it refers to; what closes a circle has few keys, so that some rows are left
        if (a, b) not in tree:
            tables[a].keys[f"c{b}"] = rng.randint(1, 2) if shape == "clique" else rng.randint(2, 4)
            tables[b].keys.pop(f"c{a}", None)
            side = 1
        column_a, column_b = (f"c{b}", "id") if side < 0.4 else ("id", f"c{a}") if side < 0.8 else (f"c{b}", f"c{a}")
        edges.append((a, column_a, b, column_b))
    order = connected_order(rng, pairs, count) if form == "on" else rng.sample(range(count), count)
    return Draw(tables, edges, query_text(rng, form, tables, edges, order), order)


def fair(rng, *kind):
    """A draw whose cheapest plan is no giant, and whose joins all have a row at least, so that rounding says little; with that plan's cost."""
    while True:
        drawn = draw(rng, *kind)
        cost, fewest = least_cost(drawn)
        if cost < MOST_COST and fewest >= 1:
            return drawn, cost


def schema_of(drawn):
    column = lambda name: {"name": name, "kind": "INT", "not_null": name == "id"}
    return json.dumps(
        {
            "tables": [
                {"name": f"t{place}", "columns": [column(name) for name in table.columns], "unique": [["id"]], "indexes": [[name] for name in table.keys]}
                for place, table in enumerate(drawn.tables)
            ]
        }
    )


def statistics_of(drawn):
    return json.dumps(
        {
            "tables": {
                f"t{place}": {
                    "rows": table.rows,
                    "pages": table.pages,
                    "indexes": [{"keys": keys, "pages": table.index_pages} for keys in table.keys.values()],
                }
                for place, table in enumerate(drawn.tables)
            }
        }
    )


# ---- the formulas of docs/COSTS.md


def share(keys):
    """Millionths."""
    return -(-MILLION // max(keys, 1))


def per_million(number, part):
    return -(-number * part // MILLION)


def all_of(shares):
    part = MILLION
    for one in shares:
        part = per_million(part, one)
    return part


def passing(rows, shares):
    """Of so many rows those at which conditions are true: one by which a list would keep less than a millionth is asked of what those before it leave."""
    part = MILLION
    for one in shares:
        if part * one < MILLION:
            rows, part = per_million(rows, max(1, part)), one
        else:
            part = per_million(part, one)
    return per_million(rows, max(1, part))


def filter_share(table, condition):
    column, operator, _ = condition
    if operator == "=":
        return share(table.keys[column]) if column in table.keys else 100_000
    return 333_334


def edge_share(tables, edge):
    a, column_a, b, column_b = edge
    keys = [table.keys[column] for table, column in ((tables[a], column_a), (tables[b], column_b)) if column in table.keys]
    return share(max(keys)) if keys else 100_000


def scan_cost(table):
    return 100 * table.pages + 10 * table.rows


def index_scan_cost(table, column, filters):
    """The cost of a scan by the index over a column that finds by these filters."""
    if column == "id" and any(f[0] == column and f[1] == "=" for f in filters):
        return 210
    part = all_of(filter_share(table, f) for f in filters if f[0] == column)
    rows = per_million(table.rows, all_of(filter_share(table, f) for f in filters))
    return 100 * per_million(table.index_pages + table.rows, part) + 10 * rows


def probe_cost(table, column):
    if column == "id":
        return 210
    part = share(table.keys[column])
    return 100 * per_million(table.index_pages + table.rows, part) + 10 * per_million(table.rows, part)


def sort_cost(rows):
    return rows * rows.bit_length()


# ---- the least cost


@dataclasses.dataclass
class Side:
    """A tree of some tables, or a table that stands without its filters, which then are the join's."""

    rows: int
    cost: int
    shares: float  # of its filters, if they are the join's


def leaf_sides(table):
    """A table with its filters, and without."""
    part = all_of(filter_share(table, f) for f in table.filters)
    whole = [scan_cost(table) + (table.rows if table.filters else 0)]
    whole += [index_scan_cost(table, column, table.filters) for column in table.keys if any(f[0] == column for f in table.filters)]
    full = Side(per_million(table.rows, part), min(whole), 1.0)
    return [full] + ([Side(table.rows, scan_cost(table), part / MILLION)] if table.filters else [])


def joined_rows(left, right, part):
    """The rows of two sides joined by conditions of this share. Less than a millionth is counted by several lists, whose rounding is left out here."""
    pairs, whole = left.rows * right.rows, part * left.shares * right.shares
    if whole * MILLION < 1:
        return max(math.ceil(pairs * whole), min(pairs, 1))
    return per_million(pairs, math.ceil(whole * MILLION - 1e-6))


def undominated(trees):
    """Those of which none has fewer rows at no more cost."""
    kept, least = [], math.inf
    for rows, cost in sorted(trees.items()):
        if cost < least:
            kept.append(Side(rows, cost, 1.0))
            least = cost
    return kept


def least_cost(drawn):
    """The least cost, and the rows of the join of some of the tables that has the fewest, before they are rounded."""
    tables, count = drawn.tables, len(drawn.tables)
    near = [0] * count
    for a, _, b, _ in drawn.edges:
        near[a] |= 1 << b
        near[b] |= 1 << a
    probes = [[] for _ in range(count)]  # of each table: the other table, and the cost of finding matches of one row
    for a, column_a, b, column_b in drawn.edges:
        for other, place, column in ((b, a, column_a), (a, b, column_b)):
            if column in tables[place].keys:
                probes[place].append((1 << other, probe_cost(tables[place], column)))
    sides, around, exact, inner = [None] * (1 << count), [0] * (1 << count), [1.0] * (1 << count), [1.0] * (1 << count)
    for place, table in enumerate(tables):
        sides[1 << place] = leaf_sides(table)
        around[1 << place] = near[place]
        exact[1 << place] = table.rows * math.prod((filter_share(table, f) / MILLION for f in table.filters), start=1.0)
    shares = [(1 << edge[0] | 1 << edge[2], edge_share(tables, edge) / MILLION) for edge in drawn.edges]
    for whole in range(1, 1 << count):
        low = whole & -whole
        others = whole & ~low
        if not others:
            continue
        around[whole] = around[low] | around[others]
        new = math.prod((s for both, s in shares if both & whole == both and both & low), start=1.0)
        inner[whole] = inner[others] * new
        exact[whole] = exact[low] * exact[others] * new
        trees, part = {}, others
        while part:
            rest = whole & ~part
            between = inner[whole] / inner[part] / inner[rest]
            is_equated = around[part] & rest
            into_rest, into_part = probed_cost(rest, probes, part), probed_cost(part, probes, rest)
            for one in sides[part]:
                for other in sides[rest]:
                    rows = joined_rows(one, other, between)
                    cost = min(paired_cost(one, other, is_equated), paired_cost(other, one, is_equated))
                    cost = min(cost, one.cost + one.rows * into_rest, other.cost + other.rows * into_part)
                    trees[rows] = min(trees.get(rows, math.inf), cost)
            part = (part - 1) & others
        sides[whole] = undominated(trees)
    return min(tree.cost for tree in sides[-1]) + 1, min(exact[1:])


def paired_cost(left, right, is_equated):
    loops = left.cost + left.rows * right.cost
    return min(loops, left.cost + right.cost + left.rows + 2 * right.rows) if is_equated else loops


def probed_cost(right, probes, left):
    """The least cost of finding the matches of one row in a table by an index."""
    if right & (right - 1):
        return math.inf
    return min((cost for other, cost in probes[right.bit_length() - 1] if other & left), default=math.inf)


# ---- the cost of a plan that was made


def conditions_in(text):
    return [c for c in text[1:-1].split(";") if c]


class Priced:
    """A plan's text by the same formulas."""

    def __init__(self, drawn, nodes):
        self.tables, self.nodes, self.columns = drawn.tables, iter(nodes), []
        for place in drawn.from_order:
            self.columns += [(place, name) for name in drawn.tables[place].columns]
        self.from_order = drawn.from_order

    def share(self, condition):
        operator, first, second = re.fullmatch(r"(\S+?)\((\w[-\w]*),(\w[-\w]*)\)", condition).groups()
        a = self.columns[int(first[1:])] if first[0] == "c" else None
        b = self.columns[int(second[1:])] if second[0] == "c" else None
        if a and b:
            return edge_share(self.tables, (a[0], a[1], b[0], b[1]))
        place, column = a or b
        return filter_share(self.tables[place], (column, operator, 0))

    def passing(self, rows, text):
        return passing(rows, [self.share(c) for c in conditions_in(text)])

    def index_of(self, instance, index):
        table = self.tables[self.from_order[int(instance)]]
        return table, list(table.keys)[int(index)]

    def price(self):
        """Rows and cost of the plan whose node comes next."""
        name, *words = next(self.nodes).split()
        if name == "sort":
            rows, cost = self.price()
            return rows, cost + sort_cost(rows)
        if name == "scan":
            table = self.tables[self.from_order[int(words[1])]]
            return table.rows, scan_cost(table)
        if name == "iscan":
            table, column = self.index_of(words[2], words[3])
            filters = []
            for condition in conditions_in(words[4]):
                operator, first, second = re.fullmatch(r"(\S+?)\((\S+),(\S+)\)", condition).groups()
                filters.append((self.columns[int((first if first[0] == "c" else second)[1:])][1], operator, 0))
            return self.passing(table.rows, words[4]), index_scan_cost(table, column, filters)
        if name == "filter":
            rows, cost = self.price()
            return self.passing(rows, words[1]), cost + rows
        if name == "cut":
            rows, cost = self.price()
            return rows, cost + 1
        if name == "iloop":
            table, column = self.index_of(words[3], words[4])
            rows, cost = self.price()
            return self.passing(rows * table.rows, words[5]), cost + rows * probe_cost(table, column)
        left_rows, left_cost = self.price()
        right_rows, right_cost = self.price()
        rows = self.passing(left_rows * right_rows, words[-1])
        if name == "loop":
            return rows, left_cost + left_rows * right_cost
        if name == "hash":
            return rows, left_cost + right_cost + left_rows + 2 * right_rows
        assert name == "merge", name
        return rows, left_cost + right_cost + left_rows + right_rows


def own_cost(drawn, certificate):
    """The cost of its plan by its own nodes, and how many lines it has."""
    lines, nodes = certificate.split("\nplan ")
    return Priced(drawn, nodes.split("\n")[1:-2]).price()[1], int(lines.split("\n")[1].split()[1])


# ---- both


def tried(tree, draws):
    """The costs and certificates, by the program that is tried in a tree."""
    crate = tree / "crates" / NAME
    (crate / "src").mkdir(parents=True, exist_ok=True)
    shutil.copy(ROOT / "bench/quality/main.rt.txt", crate / "src/main.rt")
    crates.list_crate(tree, NAME, LIBRARIES)
    texts = []
    for start in range(0, len(draws), BATCH):
        parts = [part.encode() for drawn in draws[start : start + BATCH] for part in (schema_of(drawn), drawn.text, statistics_of(drawn))]
        asked = b"".join(b"%d\n%b" % (len(part), part) for part in parts)
        run = subprocess.run([(tree / ".ci/rt").resolve(), "try", "--seconds", "900"], cwd=crate, input=asked, capture_output=True, check=False)
        said = [text.partition("\n") for text in run.stdout.decode().split("----\n")]
        texts += [(int(cost), text) for cost, _, text in said if text.startswith("SQLPLAN")]
        if len(texts) < min(len(draws), start + BATCH):
            sys.exit(run.stdout.decode()[-2000:] + run.stderr.decode()[-3000:])
    return texts


def planned(program, limit, draws):
    texts = []
    with tempfile.TemporaryDirectory() as name:
        folder = pathlib.Path(name)
        for drawn in draws:
            (folder / "schema.json").write_text(schema_of(drawn))
            (folder / "query.sql").write_text(drawn.text)
            (folder / "stats.json").write_text(statistics_of(drawn))
            files = [folder / file for file in ("schema.json", "query.sql", "stats.json")]
            wrote = {word: subprocess.run([program, word, *files, "--limit", limit], capture_output=True, text=True, check=True).stdout for word in ("plan", "explain")}
            cost = re.search(r" cost=(\d+)", wrote["explain"])
            texts.append((int(cost[1]), wrote["plan"]))
    return texts


def told(ratios):
    mean = math.exp(sum(math.log(ratio) for ratio in ratios) / len(ratios))
    return f"mean {mean:.3f}, worst {max(ratios):.3f}"


def main():
    words = sys.argv[1:]
    tree, program = None, ROOT / "crates/program/sqlplan/out/sqlplan"
    if "--tree" in words:
        place = words.index("--tree")
        tree = pathlib.Path(words[place + 1])
        del words[place : place + 2]
    if "--program" in words:
        place = words.index("--program")
        program = pathlib.Path(words[place + 1])
        del words[place : place + 2]
    limit = "20000"
    if "--limit" in words:
        place = words.index("--limit")
        limit = words[place + 1]
        del words[place : place + 2]
    tells_worst = "--worst" in words
    numbers = [int(word) for word in words if word.isdigit()]
    count, fewest, most, seed = numbers + [20, 4, 10, 40][len(numbers) :]
    rng = random.Random(seed)
    kinds = [(shape, form, size) for shape in SHAPES for form in FORMS for size in range(fewest, most + 1)]
    draws, least = zip(*(fair(rng, *kind) for kind in kinds for _ in range(count)))
    plans = tried(tree, draws) if tree else planned(program, limit, draws)
    everything, own_everything = [], []
    for number, kind in enumerate(kinds):
        ratios, own, lines = [], [], []
        for place in range(number * count, (number + 1) * count):
            cost, certificate = plans[place]
            own_price, length = own_cost(draws[place], certificate)
            ratios.append(cost / least[place])
            own.append(own_price / least[place])
            lines.append(length)
            if tells_worst and ratios[-1] > 1.5:
                print(draws[place].text, statistics_of(draws[place]), certificate, sep="\n")
        everything += ratios
        own_everything += own
        print(f"{kind[0]:7} {kind[1]:5} {kind[2]:2} tables: {told(ratios)}; by own nodes {told(own)}; lines {min(lines)} to {max(lines)}")
    over = sum(ratio > 1.5 for ratio in everything)
    print(f"all: {told(everything)}, over 1.5: {over} of {len(everything)}; by own nodes {told(own_everything)}")


if __name__ == "__main__":
    main()
