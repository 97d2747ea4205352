"""The plans that `plan --labels` says to be the cheapest of a search's lines, beside all plans that these lines offer: each goal's label is the least
that a plan of it costs, and the plan costs as much as its own goal's label.

The lines are read from the file, and what they offer and what that costs is found by docs/CERTIFICATES.md, docs/COSTS.md (cost_model.py) and
crates/search/labels/README.md: goals that are met from the query's own, the candidates of each goal, and their costs over the least of their inputs,
until nothing gets less. `check-least` has to accept the file, and to refuse it with a label that says more.
"""

from certificates import read_certificate
from common import ACCEPTED, TOO_LARGE
from cost_model import MOST, Model, cut
from evaluation import named_classes
from layout import Layout, Lines
from random_plans import random_tables
from random_sql import Maker, random_statistics, statistics_text

SEED, ROUND = 41, 100
LIMITS = [2_000, 2_000, 3_000]
"""Of lines of derivation."""
REFUSED = "refused L01"


def rising(columns):
    return tuple((column, False) for column in columns)


def with_others(order, columns):
    """The order, and behind it, rising, the columns by which it has no key."""
    return order + rising(sorted(set(columns) - {column for column, _ in order}))


class Offers:
    """The candidates of goals: a goal is a class that stands for its sames, and an order that is wanted of its rows."""

    def __init__(self, lines):
        self.lines, self.layout, self.members = lines, lines.layout, {}
        for at, line in enumerate(lines.all):
            if line[0] in "FA":
                self.members.setdefault(lines.root(lines.class_of(at)), []).append(at)

    def goal(self, g, order=()):
        return self.lines.root(g), tuple(order)

    def of(self, goal):
        """The nodes that are offered for a goal, each with the goals of its inputs. A sort gives every order."""
        g, order = goal
        if order:
            yield {"name": "sort", "keys": list(order)}, [self.goal(g)]
        for at in self.members[g]:
            kind, *parts = self.lines.expression(at)
            yield from getattr(self, f"of_{kind}")({"line": at}, order, *parts)

    def scans(self, node, instances, sure, order):
        """Scans of table instances by their indexes."""
        for get, instance in instances:
            for index in range(len(self.layout.table(instance).indexes)):
                if rising(self.layout.index_columns(instance, index))[: len(order)] == order:
                    yield dict(node, name="iscan", get=get, instance=instance, index=index, sure=sure), []

    def gets(self, g):
        """The lines of a class that get a table instance, with this."""
        found = [(at, self.lines.expression(at)) for at in self.members[self.lines.root(g)]]
        return [(at, parts[0]) for at, (kind, *parts) in found if kind == "get"]

    def of_get(self, node, order, instance):
        if not order:
            yield dict(node, name="scan", instance=instance), []
        yield from self.scans(node, [(node["line"], instance)], [], order)

    def of_select(self, node, order, sure, g):
        classes = sorted(set(named_classes(sure)))
        name = "filtersub" if classes else "filter"
        yield dict(node, name=name, sure=sure), [self.goal(g, order), *map(self.goal, classes)]
        if not classes:
            yield from self.scans(node, self.gets(g), sure, order)

    def of_keep(self, node, order, columns, g):
        yield dict(node, name="cut", columns=columns), [self.goal(g, order)]

    def of_distinct(self, node, order, g):
        yield dict(node, name="hdistinct"), [self.goal(g, order)]
        yield dict(node, name="sdistinct"), [self.goal(g, with_others(order, self.lines.columns(g)))]

    def of_group(self, node, order, keys, aggregates, g):
        group = dict(node, columns=keys, aggregates=aggregates)
        if not order:
            yield dict(group, name="hgroup"), [self.goal(g)]
        if {column for column, _ in order} <= set(keys):
            yield dict(group, name="sgroup"), [self.goal(g, with_others(order, keys))]

    def of_join(self, node, order, sure, a, b):
        node = dict(node, kind="inner", sure=sure, maybe=None)
        yield from self.joins(node, order, a, b)
        for left, right in self.equalities(sure, a, b):
            if order[:1] in ((), rising([left])) and self.is_of(a, order):
                yield dict(node, name="merge", left=left, right=right), [self.goal(a, order or rising([left])), self.goal(b, rising([right]))]

    def of_left(self, node, order, sure, a, b):
        return self.joins(dict(node, kind="left", sure=sure, maybe=None), order, a, b)

    def of_semi(self, node, order, sure, a, b):
        return self.joins(dict(node, kind="semi", sure=sure, maybe=None), order, a, b)

    def of_anti(self, node, order, sure, maybe, a, b):
        return self.joins(dict(node, kind="anti", sure=sure, maybe=maybe), order, a, b)

    def is_of(self, g, order):
        return {column for column, _ in order} <= set(self.lines.columns(g))

    def joins(self, node, order, a, b):
        """The joins whose rows are in the order of the left side's."""
        if not self.is_of(a, order):
            return
        sure, maybe, both = node["sure"], node["maybe"] or [], [self.goal(a, order), self.goal(b)]
        yield dict(node, name="loop"), both
        if self.equalities(maybe if not sure and len(maybe) == 1 else sure, a, b):
            yield dict(node, name="hash"), both
        for get, instance in self.gets(b):
            for index in range(len(self.layout.table(instance).indexes)):
                if self.equated(sure, instance).issuperset(self.layout.index_columns(instance, index)):
                    yield dict(node, name="iloop", get=get, instance=instance, index=index), both[:1]

    def equalities(self, sure, a, b):
        """The columns of both sides, left and right, that a condition equates."""
        left, right = self.lines.columns(a), self.lines.columns(b)
        pairs = [parts[1:] for kind, *parts in sure if kind == "compare" and parts[0] == "=" and parts[1][0] == parts[2][0] == "c"]
        both = [pair for (_, one), (_, other) in pairs for pair in ((one, other), (other, one))]
        return [(one, other) for one, other in both if one in left and other in right]

    def equated(self, sure, instance):
        """The columns that are equated with what is none of the table instance."""
        own = self.layout.columns_of(instance)
        pairs = [parts[1:] for kind, *parts in sure if kind == "compare" and parts[0] == "="]
        both = [pair for one, other in pairs for pair in ((one, other), (other, one))]
        return {one[1] for one, other in both if one[0] == "c" and not (other[0] == "c" and other[1] in own)}


def least_costs(lines, statistics, root):
    """The least that a plan costs of each goal that is met from a root."""
    offers, model, found, left = Offers(lines), Model(lines, statistics), {}, [root]
    while left:
        goal = left.pop()
        if goal not in found:
            found[goal] = list(offers.of(goal))
            left += [below for _, inputs in found[goal] for below in inputs]
    costs, is_less = {}, True
    while is_less:
        is_less = False
        for goal, candidates in found.items():
            for node, inputs in candidates:
                if all(below in costs for below in inputs):
                    rows = [model.class_rows(g) for g, _ in inputs]
                    cost = cut(model.node_cost(node, [costs[below] for below in inputs], rows))
                    if goal not in costs or cost < costs[goal]:
                        costs[goal], is_less = cost, True
    return costs


def root_goal(lines, plan, query):
    """The goal of the query's plans: the class of this one, in the order of the ORDER BY."""
    while plan["name"] == "sort":
        (plan,) = plan["inputs"]
    return lines.root(lines.class_of(plan["line"])), tuple(lines.layout.outermost(query)[1])


def read_labels(text):
    """What a file with labels has: its lines and its plan, and the cost of each goal."""
    front, _, behind = text.partition("end\n")
    lines, plan = read_certificate(front + "end\n")
    labels = {}
    for row in behind.split("\n")[1:-2]:
        g, order, cost = row.split(" ")
        keys = [] if order == "-" else [(int(key[:-1]), key[-1] == "d") for key in order.split(",")]
        labels[int(g), tuple(keys)] = int(cost)
    return lines, plan, labels


def raised(text, rng):
    """The text with one label that says one more than it did, or None where it can't."""
    head, labels, behind = text.partition("labels ")
    rows = behind.split("\n")
    at = rng.randrange(1, len(rows) - 2)
    front, _, cost = rows[at].rpartition(" ")
    rows[at] = f"{front} {int(cost) + 1}"
    return None if int(cost) == MOST else head + labels + "\n".join(rows)


def unlike(costs, labels):
    """The goals whose labels aren't the least costs."""
    goals = sorted(goal for goal in {*costs, *labels} if costs.get(goal) != labels.get(goal))
    return "\n".join(f"  {goal}: label {labels.get(goal)}, least {costs.get(goal)}" for goal in goals[:10])


def fault(program, query, tables, statistics, limit, rng, counts):
    """What is wrong with the labels of a query's plan, if something is."""
    words = ["schema.json", "query.sql", "stats.json"]
    program.write("query.sql", query)
    program.write("stats.json", statistics_text(statistics))
    planned = program.say("plan", *words, "--labels", "labels.txt", "--limit", limit)
    if planned.status:
        counts["too large"] += planned.error == TOO_LARGE
        return "" if planned.error == TOO_LARGE else f"plan: {planned.error}"
    text = (program.folder / "labels.txt").read_text(encoding="utf-8")
    lines, plan, labels = read_labels(text)
    lines = Lines(Layout(tables, query), lines)
    root, cost = root_goal(lines, plan, query), Model(lines, statistics).cost(plan)
    costs = least_costs(lines, statistics, root)
    if costs != labels:
        return f"labels:\n{unlike(costs, labels)}\n{text}"
    if cost != costs[root]:
        return f"the plan costs {cost}, and others {costs[root]}\n{text}"
    counts.update(plans=1, goals=len(costs), lines=len(lines.all))
    return check_fault(program, words, text, raised(text, rng))


def check_fault(program, words, text, more):
    """What is wrong of what `check-least` says to labels, and to others of which one says more."""
    if (said := program.say("check-least", *words, "labels.txt")) != ACCEPTED:
        return f"check-least: {said.output}{said.error}\n{text}"
    program.write("labels.txt", more or text)
    if more and (said := program.say("check-least", *words, "labels.txt")).error != REFUSED:
        return f"check-least of a label that says more: {said.output}{said.error}\n{more}"
    return ""


def cases(program, rng, counts):
    """What is wrong of each case of a round, or nothing."""
    for number in range(ROUND):
        tables = random_tables(rng)
        program.write_tables(tables, {table.name: [] for table in tables})
        query = Maker(rng, tables, equated=0.8 * (number % 2)).select(outermost=True)
        statistics = random_statistics(rng, tables)
        found = fault(program, query, tables, statistics, rng.choice(LIMITS), rng, counts)
        yield f"{found}\n{query}\n{statistics_text(statistics)}" if found else ""


def told(counts):
    return f"{counts['plans']:,} plans, {counts['goals']:,} goals over {counts['lines']:,} lines, beside all plans that they offer; {counts['too large']} too large"
