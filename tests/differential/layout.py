"""How the table instances, columns and aggregates of a query are numbered, by docs/CERTIFICATES.md; and what is known of the classes of lines."""

import re

from evaluation import named_classes


class Layout:
    """The table instances of a query's text, in which each is written `table AS name`, and their columns."""

    def __init__(self, tables, query):
        by_name = {table.name: table for table in tables}
        found = re.findall(rf"(?<![.\w])({'|'.join(by_name)}) AS (\w+)", query)
        self.instances = [(by_name[table], alias) for table, alias in found]
        self.firsts, self.count = [], 0
        for table, _ in self.instances:
            self.firsts.append(self.count)
            self.count += len(table.columns)
        self.aggregates = re.findall(r"\b(COUNT|SUM|MIN|MAX)\((\*|[\w.]+)\)", query)

    def table(self, instance):
        return self.instances[instance][0]

    def alias(self, instance):
        return self.instances[instance][1]

    def columns_of(self, instance):
        return list(range(self.firsts[instance], self.firsts[instance] + len(self.table(instance).columns)))

    def at(self, column):
        """The table instance of a column and its place there; None of an aggregate's."""
        if column >= self.count:
            return None
        instance = max(at for at, first in enumerate(self.firsts) if first <= column)
        return instance, column - self.firsts[instance]

    def kind(self, column):
        instance, place = self.at(column)
        return self.table(instance).columns[place].kind

    def named(self, name):
        """The column of a qualified name."""
        alias, _, column = name.partition(".")
        instance = [its for _, its in self.instances].index(alias)
        return self.firsts[instance] + [its.name for its in self.table(instance).columns].index(column)

    def index_columns(self, instance, index):
        names = [column.name for column in self.table(instance).columns]
        return [self.firsts[instance] + names.index(name) for name in self.table(instance).indexes[index]]

    def outermost(self, query):
        """The columns of the items, written `name AS o0` or `COUNT(name) AS o0`, and the keys of the ORDER BY, each column once."""
        items, aggregate = [], 0
        for text in re.findall(r"([\w.]+|\w+\([^)]*\)) AS o\d+", query):
            if "(" in text:
                items.append(self.count + aggregate)
                aggregate += 1
            else:
                items.append(self.named(text))
        order = {}
        for place, down in re.findall(r"o(\d+)( DESC)?", query.partition(" ORDER BY ")[2]):
            order.setdefault(items[int(place)], bool(down))
        return items, list(order.items())


class Lines:
    """Lines of a derivation, and what they say of their classes: which are the same, and each one's members and columns."""

    def __init__(self, layout, lines):
        self.layout, self.all, self.roots, self.own_columns, self.own_free, self.facts = layout, [], [], {}, {}, []
        for line in lines:
            self.push(line)

    def push(self, line):
        """Adds a line, and gives its number."""
        number = len(self.all)
        self.all.append(line)
        self.roots.append(number)
        kind, *parts = line
        if kind == "F":
            self.own_columns[number], self.own_free[number] = self.columns_of(parts[0]), self.free_of(parts[0])
        elif kind == "S":
            self.unite(parts[0], parts[1])
        elif kind == "G":
            self.unite(self.class_of(parts[0]), self.class_of(parts[1]))
        elif kind == "L":
            self.facts.append((parts[0], parts[2]))
        return number

    def facts_of(self, g):
        """The facts that are known of a class."""
        return [fact for of, fact in self.facts if self.roots[of] == self.roots[g]]

    def has_strong_key(self, g):
        return any(name == "strong" for name, _ in self.facts_of(g))

    def keys(self, g):
        """The keys that are known of a class, weak and strong ones."""
        return [columns for name, columns in self.facts_of(g) if name != "notnull"]

    def is_not_null(self, g, column):
        return ("notnull", column) in self.facts_of(g)

    def unite(self, g, h):
        low, high = sorted((self.roots[g], self.roots[h]))
        self.roots = [low if root == high else root for root in self.roots]

    def class_of(self, line):
        kind, *parts = self.all[line]
        return parts[0] if kind == "A" else line

    def expression(self, line):
        return self.all[line][-1]

    def root(self, g):
        return self.roots[g]

    def members(self, g):
        """The lines whose expressions are of a class, or of one that is the same."""
        return [at for at, line in enumerate(self.all) if line[0] in "FA" and self.roots[self.class_of(at)] == self.roots[g]]

    def columns(self, g):
        return self.own_columns[g]

    def free(self, g):
        return self.own_free[g]

    def get_line(self, g):
        """A line of the class whose expression is a get, and the instance; None where there is none."""
        found = [at for at in self.members(g) if self.expression(at)[0] == "get"]
        return (found[0], self.expression(found[0])[1]) if found else None

    def columns_of(self, expression):
        kind, *parts = expression
        if kind == "get":
            return self.layout.columns_of(parts[0])
        if kind == "keep":
            return list(parts[0])
        if kind == "group":
            return sorted(parts[0] + [column for column, _, _ in parts[1]])
        if kind in ("join", "left"):
            return sorted(self.columns(parts[1]) + self.columns(parts[2]))
        return self.columns(inputs_of(expression)[0])

    def mentions(self, condition):
        """The columns that a condition mentions: its terms', what its subqueries take from outside, and an IN's column that its subquery lacks."""
        kind, *parts = condition
        if kind in ("and", "or", "not"):
            return set().union(*(self.mentions(part) for part in (parts if kind == "not" else parts[0])))
        if kind == "exists":
            return set(self.free(parts[0]))
        terms = {term[1] for term in parts if isinstance(term, tuple) and term[0] == "c"}
        if kind == "in":
            terms |= self.free(parts[1]) | ({parts[2]} - set(self.columns(parts[1])))
        return terms

    def free_of(self, expression):
        """The columns that an expression reads and has not."""
        inputs = inputs_of(expression)
        read = set()
        for conditions in expression[1:]:
            if isinstance(conditions, list) and expression[0] not in ("keep", "group"):
                read = read.union(*map(self.mentions, conditions))
        own = set().union(*(self.columns(g) for g in inputs))
        if expression[0] == "keep":
            read |= set(expression[1])
        elif expression[0] == "group":
            read |= set(expression[1]) | {column for _, _, column in expression[2] if column is not None}
        return set().union(*(self.free(g) for g in inputs)) | (read - own)


def inputs_of(expression):
    """The classes that an expression stands on, without those that its conditions name."""
    return [] if expression[0] == "get" else [part for part in expression[1:] if isinstance(part, int)]


def classes_below(expression):
    """The classes that an expression stands on, and those that its conditions name."""
    lists = [part for part in expression[1:] if isinstance(part, list)] if expression[0] not in ("keep", "group") else []
    return inputs_of(expression) + [g for conditions in lists for g in named_classes(conditions)]
