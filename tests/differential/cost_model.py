"""The model of docs/COSTS.md: selectivities in millionths, the rows of classes, the costs of nodes, and the text that shows a plan.

It is written by that page and knows nothing of the program's code.
"""

from layout import inputs_of, named_classes

MOST = 2**64 - 1
MILLION = 1_000_000


def up(a, b):
    """The quotient, rounded up."""
    return -(-a // b)


def cut(number):
    return min(number, MOST)


def parted(conditions, test):
    """Those that pass a test, and the others."""
    return [it for it in conditions if test(it)], [it for it in conditions if not test(it)]


def with_others(conditions, asked):
    """A list, and what another has besides."""
    return list(conditions) + [it for it in asked if it not in conditions]


def equated(condition):
    """The two different columns that an equality says to be equal, as a set, or None."""
    if condition[:2] == ("compare", "="):
        columns = {term[1] for term in condition[2:] if term[0] == "c"}
        if len(columns) == 2:
            return frozenset(columns)
    return None


def with_equal(sets, columns):
    """Disjoint sets of equal columns, where these columns are equal too."""
    apart = [it for it in sets if not it & columns]
    return apart + [columns.union(*(it for it in sets if it & columns))]


def are_equal(sets, columns):
    return any(columns <= it for it in sets)


class Model:
    """The rows of the classes of a derivation, and the costs of its plans."""

    def __init__(self, lines, statistics):
        self.lines, self.layout, self.statistics, self.rows, self.equal = lines, lines.layout, statistics, {}, {}
        for at, line in enumerate(lines.all):
            if line[0] == "F":
                self.equal[at] = self.equal_in(line[1])
                self.rows[at] = cut(self.of_expression(line[1]))

    def class_rows(self, g, asked=()):
        """The rows of a class at which conditions are true, by the line of the least that is the same. Of no condition they are its cardinality."""
        least = self.lines.root(g)
        return self.of_expression(self.lines.all[least][1], asked) if asked else self.rows[least]

    def table(self, instance):
        return self.statistics[self.layout.table(instance).name]

    # ---- selectivity

    def keys_of(self, column):
        """The keys of the first index over this column alone, or else the column's own where they are known, at least 1; else None."""
        found = self.layout.at(column)
        if found is None:
            return None
        instance, place = found
        for index, statistics in enumerate(self.table(instance)["indexes"]):
            if self.layout.index_columns(instance, index) == [column]:
                return max(1, statistics["keys"])
        known = self.table(instance).get("columns", {}).get(self.layout.table(instance).columns[place].name)
        return max(1, known["keys"]) if known else None

    def equality(self, terms):
        keys = [self.keys_of(term[1]) for term in terms if term[0] == "c"]
        keys = [number for number in keys if number is not None]
        return up(MILLION, max(keys)) if keys else 100_000

    def selectivity(self, condition):
        kind, *parts = condition
        if kind == "compare":
            if parts[0] in ("=", "<>"):
                equal = self.equality(parts[1:])
                return equal if parts[0] == "=" else MILLION - equal
            return 333_334
        if kind == "not":
            return MILLION - self.selectivity(parts[0])
        if kind == "and":
            return self.all_of(parts[0])
        if kind == "or":
            first, *more = map(self.selectivity, parts[0])
            for share in more:
                first = first + share - first * share // MILLION
            return first
        return 100_000 if kind == "null" else 500_000

    def all_of(self, conditions):
        product = MILLION
        for condition in conditions:
            product = up(product * self.selectivity(condition), MILLION)
        return product

    # ---- columns that are equal, as disjoint sets of them

    def equal_of(self, g, asked=()):
        """In the rows of a class at which conditions are true."""
        sets = self.equal[self.lines.root(g)]
        for columns in filter(None, map(equated, asked)):
            sets = with_equal(sets, columns)
        return sets

    def equal_of_both(self, left, right, of_left=(), of_right=()):
        sets = self.equal_of(left, of_left)
        for columns in self.equal_of(right, of_right):
            sets = with_equal(sets, columns)
        return sets

    def equal_in(self, expression):
        """In the rows of an expression."""
        kind, *parts = expression
        if kind == "get":
            return []
        if kind in ("select", "join"):
            sets = self.equal_of(parts[1]) if kind == "select" else self.equal_of_both(*parts[1:])
            for columns in filter(None, map(equated, parts[0])):
                sets = with_equal(sets, columns)
            return sets
        sets = self.equal_of(inputs_of(expression)[0])
        if kind in ("keep", "group"):
            sets = [it & frozenset(parts[0]) for it in sets]
        return [it for it in sets if len(it) > 1]

    # ---- cardinality

    def passing(self, rows, conditions, sets=()):
        """Of so many rows those at which conditions are true. An equality that follows from those before it isn't counted, and a condition by which a list would
        keep less than a millionth begins a list of its own."""
        share, kept = MILLION, lambda: up(rows * max(1, share), MILLION)
        for condition in conditions:
            columns = equated(condition)
            if columns and are_equal(sets, columns):
                continue
            sets = with_equal(sets, columns) if columns else sets
            own = self.selectivity(condition)
            if share * own < MILLION:
                rows, share = kept(), own
            else:
                share = up(share * own, MILLION)
        return kept()

    def of_join(self, conditions, left, right, asked):
        """What names a subquery is asked last; of the rest, what names no column of one side is asked of the other side's rows."""
        is_apart = lambda g: lambda condition: not self.lines.mentions(condition) & set(self.lines.columns(g))
        plain, last = parted(asked, lambda condition: not list(named_classes([condition])))
        of_left, others = parted(plain, is_apart(right))
        of_right, of_pairs = parted(others, is_apart(left))
        pairs = cut(self.class_rows(left, of_left) * self.class_rows(right, of_right))
        sets = self.equal_of_both(left, right, of_left, of_right)
        return self.passing(self.passing(pairs, with_others(conditions, of_pairs), sets), last)

    def of_other(self, expression):
        kind, *parts = expression
        if kind == "get":
            return self.table(parts[0])["rows"]
        first, *others = [self.class_rows(g) for g in inputs_of(expression)]
        if kind == "left":
            return max(self.passing(cut(first * others[0]), parts[0], self.equal_of_both(*inputs_of(expression))), first)
        if kind in ("semi", "anti"):
            return up(first, 2)
        if kind == "keep":
            return first
        return 1 if kind == "group" and not parts[0] else up(first, 10)

    def of_expression(self, expression, asked=()):
        """The rows of an expression at which conditions are true."""
        kind, *parts = expression
        if kind == "select":
            return self.class_rows(parts[1], with_others(parts[0], asked))
        if kind == "join":
            return self.of_join(*parts, asked)
        return self.passing(self.of_other(expression), asked, self.equal_in(expression))

    # ---- cost

    def node_rows(self, node):
        """The cardinality of the class that a node is of; a sort is of its input's."""
        return self.node_rows(node["inputs"][0]) if node["name"] == "sort" else self.class_rows(self.lines.class_of(node["line"]))

    def index(self, node):
        """The columns of a node's index, its statistics, and whether they are, in any order, a unique list."""
        table = self.layout.table(node["instance"])
        is_unique = any(sorted(table.indexes[node["index"]]) == sorted(unique) for unique in table.unique)
        return self.layout.index_columns(node["instance"], node["index"]), self.table(node["instance"])["indexes"][node["index"]], is_unique

    def sign_of(self, condition, column, instance):
        """The sign of a condition that compares the column with a term that is no column of the instance; else None."""
        if condition[0] == "compare":
            _, sign, left, right = condition
            own = self.layout.columns_of(instance)
            for term, other in ((left, right), (right, left)):
                if term == ("c", column) and not (other[0] == "c" and other[1] in own):
                    return sign
        return None

    def index_scan(self, node):
        columns, index, is_unique = self.index(node)
        instance, table = node["instance"], self.table(node["instance"])
        is_equated = lambda column: any(self.sign_of(condition, column, instance) == "=" for condition in node["sure"])
        if is_unique and all(map(is_equated, columns)):
            return 210
        ranged = [condition for condition in node["sure"] if self.sign_of(condition, columns[0], instance) not in (None, "<>")]
        read = up(self.all_of(ranged) * (index["pages"] + table["rows"]), MILLION)
        return 100 * read + 10 * self.node_rows(node)

    def look_up(self, node):
        """What a join by an index costs for each left row."""
        _, index, is_unique = self.index(node)
        table, share = self.table(node["instance"]), up(MILLION, max(1, index["keys"]))
        if is_unique:
            return 210
        return 100 * up(share * (index["pages"] + table["rows"]), MILLION) + 10 * up(share * table["rows"], MILLION)

    def cost(self, node):
        costs = [self.cost(below) for below in node["inputs"]]
        rows = [self.node_rows(below) for below in node["inputs"]]
        return cut(self.node_cost(node, costs, rows))

    def node_cost(self, node, costs, rows):
        name = node["name"]
        if name == "scan":
            table = self.table(node["instance"])
            return 100 * table["pages"] + 10 * table["rows"]
        if name == "iscan":
            return self.index_scan(node)
        own = {
            "filter": lambda: rows[0],
            "filtersub": lambda: rows[0] * (1 + sum(costs[1:])),
            "cut": lambda: 1,
            "loop": lambda: rows[0] * costs[1],
            "iloop": lambda: rows[0] * self.look_up(node),
            "hash": lambda: costs[1] + rows[0] + 2 * rows[1],
            "merge": lambda: costs[1] + rows[0] + rows[1],
            "sort": lambda: rows[0] * rows[0].bit_length(),
            "hgroup": lambda: 2 * rows[0],
            "hdistinct": lambda: 2 * rows[0],
            "sgroup": lambda: rows[0],
            "sdistinct": lambda: rows[0],
        }
        return costs[0] + own[name]()


class Shown:
    """The text that shows a plan with the model's numbers."""

    def __init__(self, model):
        self.model, self.layout = model, model.layout
        self.reads = {}
        for line in model.lines.all:
            expression = line[-1]
            if line[0] in "FA" and expression[0] == "group":
                self.reads.update({column: (name, read) for column, name, read in expression[2]})

    def column(self, column):
        if column in self.reads:
            name, read = self.reads[column]
            return f"{name.upper()}({'*' if read is None else self.column(read)})"
        instance, place = self.layout.at(column)
        return f"{self.layout.alias(instance)}.{self.layout.table(instance).columns[place].name}"

    def columns(self, columns):
        return ",".join(map(self.column, columns)) or "-"

    def term(self, term):
        kind, value = term
        if kind == "c":
            return self.column(value)
        return {"i": str(value), "n": "NULL"}.get(kind) or "'" + value.replace("'", "''") + "'"

    def condition(self, condition):
        kind, *parts = condition
        if kind == "compare":
            return f"{self.term(parts[1])} {parts[0]} {self.term(parts[2])}"
        if kind == "null":
            return f"{self.term(parts[0])} IS NULL"
        if kind == "not":
            return f"NOT ({self.condition(parts[0])})"
        if kind in ("and", "or"):
            return "(" + f" {kind.upper()} ".join(map(self.condition, parts[0])) + ")"
        return f"EXISTS #{parts[0]}" if kind == "exists" else f"{self.term(parts[0])} IN #{parts[1]}"

    def conjuncts(self, conditions):
        return " AND ".join(map(self.condition, conditions)) or "true"

    def lists(self, node):
        """The conditions of a join; an antijoin has two lists."""
        if node["kind"] == "anti":
            return f"sure {self.conjuncts(node['sure'])} maybe {self.conjuncts(node['maybe'])}"
        return self.conjuncts(node["sure"])

    def index(self, node):
        table, columns = self.layout.table(node["instance"]), self.layout.index_columns(node["instance"], node["index"])
        return f"{table.name} {self.layout.alias(node['instance'])} ({self.columns(columns)})"

    def aggregates(self, node):
        return self.columns([column for column, _, _ in node["aggregates"]])

    def node(self, node):
        name = node["name"]
        parameters = {
            "sort": lambda: ",".join(f"{self.column(column)} {'DESC' if down else 'ASC'}" for column, down in node["keys"]),
            "scan": lambda: f"{self.layout.table(node['instance']).name} {self.layout.alias(node['instance'])}",
            "iscan": lambda: f"{self.index(node)} {self.conjuncts(node['sure'])}",
            "filter": lambda: self.conjuncts(node["sure"]),
            "filtersub": lambda: self.conjuncts(node["sure"]),
            "cut": lambda: self.columns(node["columns"]),
            "loop": lambda: f"{node['kind']} {self.lists(node)}",
            "hash": lambda: f"{node['kind']} {self.lists(node)}",
            "iloop": lambda: f"{node['kind']} {self.index(node)} {self.lists(node)}",
            "merge": lambda: f"{self.column(node['left'])} = {self.column(node['right'])} {self.conjuncts(node['sure'])}",
            "hgroup": lambda: f"{self.columns(node['columns'])} {self.aggregates(node)}",
            "sgroup": lambda: f"{self.columns(node['columns'])} {self.aggregates(node)}",
        }.get(name, str)()
        return f"{name} {parameters}".rstrip()

    def label(self, node):
        return f"{self.node(node)} rows={self.model.node_rows(node)} cost={self.model.cost(node)}"

    def text(self, node, depth=0):
        return f"{'  ' * depth}{self.label(node)}\n" + "".join(self.text(below, depth + 1) for below in node["inputs"])

    def json(self, plan):
        """The plan as a JSON array, an object a node in the order of the lines, on which nothing was measured."""
        objects = []

        def add(node, depth):
            words = self.node(node).replace("\\", "\\\\").replace('"', '\\"')
            estimated = f'"estimated_rows":{self.model.node_rows(node)},"cost":{self.model.cost(node)}'
            objects.append(f'{{"depth":{depth},"node":"{words}",{estimated},"rows":null,"microseconds":null}}')
            for below in node["inputs"]:
                add(below, depth + 1)

        add(plan, 0)
        return "[\n" + ",\n".join(objects) + "\n]\n"

    def graph(self, plan):
        """The plan as a graph for Graphviz, its nodes numbered in the order of the lines."""
        lines = []

        def draw(node, number):
            label = self.label(node).replace("\\", "\\\\").replace('"', '\\"')
            lines.append(f'  n{number} [label="{label}"];')
            behind = number + 1
            for below in node["inputs"]:
                lines.append(f"  n{number} -> n{behind};")
                behind = draw(below, behind)
            return behind

        draw(plan, 0)
        return 'digraph plan {\n  node [shape=box fontname="sans-serif"];\n' + "".join(line + "\n" for line in lines) + "}\n"
