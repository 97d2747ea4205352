"""Random plans of a class of a derivation, by every operator and method that docs/CERTIFICATES.md allows of it."""

from evaluation import named_classes
from layout import classes_below

DEEPEST = 12
"""From here down each class is planned by the member that stands on the least."""


class Drawing:
    """Draws plans: each node implements a random member of its class."""

    def __init__(self, rng, lines):
        self.rng, self.lines, self.layout = rng, lines, lines.layout
        self.members = {}
        for at, line in enumerate(lines.all):
            if line[0] in "FA":
                self.members.setdefault(lines.root(lines.class_of(at)), []).append(at)
        self.heights = self.all_heights()

    def all_heights(self):
        """How far the least plan by each line goes down."""
        heights, least, has_grown = {}, {}, True
        while has_grown:
            has_grown = False
            for root, members in self.members.items():
                for at in members:
                    below = [least.get(self.lines.root(g)) for g in classes_below(self.lines.expression(at))]
                    if at not in heights and None not in below:
                        heights[at] = 1 + max(below, default=0)
                        has_grown = True
                least[root] = min((heights[at] for at in members if at in heights), default=None)
        return heights

    def plan(self, g, depth=0):
        """A plan of a class, at times with a sort on top that nobody needs."""
        members = self.members[self.lines.root(g)]
        if depth > DEEPEST:
            line = min(members, key=self.heights.get)
        else:
            line = self.rng.choice(members)
        node = self.implementation(line, depth + 1)
        if self.rng.random() < 0.08:
            return self.sort(node, [(column, self.rng.random() < 0.4) for column in self.some(self.columns(node))])
        return node

    def whole(self, g, order):
        """A plan of the query's class that delivers the order."""
        node = self.plan(g)
        return node if self.order(node)[: len(order)] == order and self.rng.random() < 0.8 else self.sort(node, order)

    def some(self, columns):
        return self.rng.sample(columns, min(len(columns), self.rng.choice([1, 1, 2])))

    def columns(self, node):
        line = node.get("line")
        return self.columns(node["inputs"][0]) if line is None else self.lines.columns(self.lines.class_of(line))

    def sort(self, node, keys):
        return {"name": "sort", "keys": keys, "inputs": [node]}

    # ---- orders

    def order(self, node):
        """The order that a plan delivers: columns, each with whether it falls."""
        name, inputs = node["name"], node["inputs"]
        if name in ("scan", "hgroup"):
            return []
        if name == "iscan":
            return [(column, False) for column in self.layout.index_columns(node["instance"], node["index"])]
        if name == "sort":
            return node["keys"]
        order = self.order(inputs[0])
        if name in ("cut", "sgroup"):
            kept = [column in node["columns"] for column, _ in order] + [False]
            return order[: kept.index(False)]
        return order

    def delivering(self, node, columns):
        """The plan, sorted where it doesn't deliver these columns first, in any sequence."""
        first = [column for column, _ in self.order(node)[: len(columns)]]
        if sorted(first) == sorted(columns) and self.rng.random() < 0.8:
            return node
        return self.sort(node, [(column, self.rng.random() < 0.3) for column in self.rng.sample(columns, len(columns))])

    def rising(self, node, column):
        """The plan, sorted where it doesn't rise by the column."""
        if self.order(node)[:1] == [(column, False)] and self.rng.random() < 0.8:
            return node
        return self.sort(node, [(column, False)])

    # ---- operators

    def implementation(self, line, depth):
        kind, *parts = self.lines.expression(line)
        node = {"line": line}
        if kind == "get":
            return self.access(node, line, parts[0], [], 0.4)
        if kind == "select":
            return self.selection(node, *parts, depth)
        if kind in ("join", "left"):
            return self.join(dict(node, kind="inner" if kind == "join" else kind, sure=parts[0], maybe=None), *parts[1:], depth)
        if kind in ("semi", "anti"):
            return self.join(dict(node, kind=kind, sure=parts[0], maybe=parts[1] if kind == "anti" else None), *parts[-2:], depth)
        below = self.plan(parts[-1], depth)
        if kind == "keep":
            return dict(node, name="cut", columns=parts[0], inputs=[below])
        if kind == "distinct":
            if self.rng.random() < 0.5:
                return dict(node, name="hdistinct", inputs=[below])
            return dict(node, name="sdistinct", inputs=[self.delivering(below, self.columns(below))])
        group = dict(node, columns=parts[0], aggregates=parts[1])
        if self.rng.random() < 0.5:
            return dict(group, name="hgroup", inputs=[below])
        return dict(group, name="sgroup", inputs=[self.delivering(below, parts[0])])

    def access(self, node, get, instance, sure, share):
        """A scan of a table instance by an index, or without one."""
        indexes = self.layout.table(instance).indexes
        if indexes and (sure or self.rng.random() < share):
            index = self.rng.randrange(len(indexes))
            return dict(node, name="iscan", get=get, instance=instance, index=index, sure=sure, inputs=[])
        return dict(node, name="scan", instance=instance, inputs=[])

    def selection(self, node, sure, g, depth):
        classes = sorted(set(named_classes(sure)))
        if classes:
            return dict(node, name="filtersub", sure=sure, inputs=[self.plan(its, depth) for its in [g, *classes]])
        get = self.lines.get_line(g)
        if get and self.layout.table(get[1]).indexes and self.rng.random() < 0.7 and sure:
            return self.access(node, *get, sure, 1)
        return dict(node, name="filter", sure=sure, inputs=[self.plan(g, depth)])

    def equalities(self, sure, a, b):
        """The columns of both sides, left and right, that a condition equates."""
        left, right = self.lines.columns(a), self.lines.columns(b)
        for kind, *parts in sure:
            if kind == "compare" and parts[0] == "=" and parts[1][0] == parts[2][0] == "c":
                for one, other in ((parts[1][1], parts[2][1]), (parts[2][1], parts[1][1])):
                    if one in left and other in right:
                        yield one, other

    def fitting_indexes(self, instance, sure):
        """The indexes of which each column is equated with what is none of the instance."""
        own = self.layout.columns_of(instance)
        equated = set()
        for kind, *parts in sure:
            if kind == "compare" and parts[0] == "=":
                for one, other in ((parts[1], parts[2]), (parts[2], parts[1])):
                    if one[0] == "c" and not (other[0] == "c" and other[1] in own):
                        equated.add(one[1])
        for index in range(len(self.layout.table(instance).indexes)):
            if equated.issuperset(self.layout.index_columns(instance, index)):
                yield index

    def ways(self, node, a, b):
        """How a join may be run: its name, with the columns of a merge or the get and the index of a join by an index."""
        sure, maybe = node["sure"], node["maybe"] or []
        equal = list(self.equalities(maybe if not sure and len(maybe) == 1 else sure, a, b))
        yield "loop", None
        if equal:
            yield "hash", None
        if node["kind"] == "inner":
            for columns in equal:
                yield "merge", columns
        get = self.lines.get_line(b)
        if get:
            for index in self.fitting_indexes(get[1], node["sure"]):
                yield "iloop", (*get, index)

    def join(self, node, a, b, depth):
        ways = list(self.ways(node, a, b))
        names = sorted({name for name, _ in ways})
        name = self.rng.choice(names)
        return self.join_by(node, self.rng.choice([way for way in ways if way[0] == name]), a, b, depth)

    def join_by(self, node, way, a, b, depth):
        """The join of two classes in one of its ways."""
        (name, how), left = way, self.plan(a, depth)
        if name == "iloop":
            get, instance, index = how
            return dict(node, name=name, get=get, instance=instance, index=index, inputs=[left])
        right = self.plan(b, depth)
        if name == "merge":
            return dict(node, name=name, left=how[0], right=how[1], inputs=[self.rising(left, how[0]), self.rising(right, how[1])])
        return dict(node, name=name, inputs=[left, right])
