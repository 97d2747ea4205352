"""Certificates as values of Python, by docs/CERTIFICATES.md: how they are spelt, and a reader of certificates that are known to be right.

A term is ("c", column), ("i", number), ("t", text) or ("n", None). A condition is ("compare", sign, term, term), ("null", term), ("not", condition),
("and", conditions), ("or", conditions), ("exists", class) or ("in", term, class, column). An expression begins with its word, and ends with the
classes that it stands on; of a get it is ("get", instance). A step is (rule, pick, uses, makes). A line is ("F", expression), ("A", class, step,
expression), ("S", class, class, step), ("G", line, line) or ("L", class, line, fact). A node of a plan is a dictionary with its name, its parameters
and its inputs.
"""

import re

ONE_LIST = ("join", "left", "semi")

# ---- spelling


def term_text(term):
    kind, value = term
    return {"c": f"c{value}", "i": f"i{value}", "n": "n"}.get(kind) or "t" + value.encode().hex()


def condition_text(condition):
    kind, *parts = condition
    if kind == "compare":
        return f"{parts[0]}({term_text(parts[1])},{term_text(parts[2])})"
    if kind == "null":
        return f"null({term_text(parts[0])})"
    if kind == "not":
        return f"not({condition_text(parts[0])})"
    if kind in ("and", "or"):
        return f"{kind}({','.join(map(condition_text, parts[0]))})"
    if kind == "exists":
        return f"exists({parts[0]})"
    return f"in({term_text(parts[0])},{parts[1]},c{parts[2]})"


def conjuncts(conditions):
    """A list of conditions as the format has it: none an AND, each once, in the order of their bytes."""
    flat = []
    for condition in conditions:
        flat += conjuncts(condition[1]) if condition[0] == "and" else [condition]
    by_text = {condition_text(condition).encode(): condition for condition in flat}
    return [by_text[text] for text in sorted(by_text)]


def conjuncts_text(conditions):
    return "[" + ";".join(map(condition_text, conditions)) + "]"


def list_text(parts):
    return ",".join(map(str, parts)) or "-"


def aggregates_text(aggregates):
    return list_text(f"{column}={name}" + ("" if read is None else f":{read}") for column, name, read in aggregates)


def expression_text(expression):
    kind, *parts = expression
    if kind == "select" or kind in ONE_LIST:
        words = [conjuncts_text(parts[0]), *parts[1:]]
    elif kind == "anti":
        words = [conjuncts_text(parts[0]), conjuncts_text(parts[1]), *parts[2:]]
    elif kind == "keep":
        words = [list_text(parts[0]), parts[1]]
    elif kind == "group":
        words = [list_text(parts[0]), aggregates_text(parts[1]), parts[2]]
    else:
        words = parts
    return " ".join(map(str, [kind, *words]))


def step_text(step):
    rule, pick, uses, makes = step
    return f"{rule} {pick} {list_text(uses)} {list_text(makes)}"


def line_text(line):
    kind, *parts = line
    if kind == "F":
        return f"F {expression_text(parts[0])}"
    if kind == "A":
        return f"A {parts[0]} {step_text(parts[1])} {expression_text(parts[2])}"
    if kind == "S":
        return f"S {parts[0]} {parts[1]} {step_text(parts[2])}"
    if kind == "L":
        name, of = parts[2]
        return f"L {parts[0]} {parts[1]} {name} {of if name == 'notnull' else list_text(of)}"
    return f"G {parts[0]} {parts[1]}"


def lists_text(node):
    return f"{conjuncts_text(node['sure'])} {conjuncts_text(node['maybe'])}" if node.get("kind") == "anti" else conjuncts_text(node["sure"])


def node_text(node):
    name, line = node["name"], node.get("line")
    words = {
        "sort": lambda: [list_text(f"{column}{'d' if down else 'a'}" for column, down in node["keys"])],
        "scan": lambda: [line, node["instance"]],
        "iscan": lambda: [line, node["get"], node["instance"], node["index"], conjuncts_text(node["sure"])],
        "filter": lambda: [line, conjuncts_text(node["sure"])],
        "filtersub": lambda: [line, conjuncts_text(node["sure"]), len(node["inputs"]) - 1],
        "cut": lambda: [line, list_text(node["columns"])],
        "loop": lambda: [line, node["kind"], lists_text(node)],
        "hash": lambda: [line, node["kind"], lists_text(node)],
        "merge": lambda: [line, node["left"], node["right"], conjuncts_text(node["sure"])],
        "iloop": lambda: [line, node["get"], node["kind"], node["instance"], node["index"], lists_text(node)],
        "hgroup": lambda: [line, list_text(node["columns"]), aggregates_text(node["aggregates"])],
        "sgroup": lambda: [line, list_text(node["columns"]), aggregates_text(node["aggregates"])],
    }.get(name, lambda: [line])()
    return " ".join(map(str, [name, *words]))


def nodes_of(plan):
    """The nodes, each before its inputs."""
    yield plan
    for below in plan["inputs"]:
        yield from nodes_of(below)


def certificate_text(lines, plan):
    nodes = list(nodes_of(plan))
    text = ["SQLPLAN 1", f"lines {len(lines)}", *map(line_text, lines), f"plan {len(nodes)}", *map(node_text, nodes), "end"]
    return "".join(line + "\n" for line in text)


# ---- reading


class Conditions:
    """Reads the conditions of a list in brackets."""

    def __init__(self, text):
        self.tokens = re.findall(r"(?:<>|<=|>=|[=<>]|[a-z]+)(?=\()|[a-z0-9-]+|[][();,]", text)
        self.at = 0

    def take(self):
        self.at += 1
        return self.tokens[self.at - 1]

    def takes(self, token):
        is_next = self.tokens[self.at] == token
        self.at += is_next
        return is_next

    def term(self):
        word = self.take()
        if word[0] == "t":
            return ("t", bytes.fromhex(word[1:]).decode())
        return ("n", None) if word == "n" else (word[0], int(word[1:]))

    def after_comma(self, read):
        self.take()
        return read()

    def condition(self):
        kind, _ = self.take(), self.take()
        if kind == "null":
            found = (kind, self.term())
        elif kind == "not":
            found = (kind, self.condition())
        elif kind in ("and", "or"):
            parts = [self.condition()]
            while self.takes(","):
                parts.append(self.condition())
            found = (kind, parts)
        elif kind == "exists":
            found = (kind, int(self.take()))
        elif kind == "in":
            found = (kind, self.term(), int(self.after_comma(self.take)), int(self.after_comma(self.take)[1:]))
        else:
            found = ("compare", kind, self.term(), self.after_comma(self.term))
        self.take()
        return found

    def listed(self):
        found = []
        self.take()
        while not self.takes("]"):
            found.append(self.condition())
            self.takes(";")
        return found


def read_conjuncts(word):
    return Conditions(word).listed()


def read_list(word):
    return [] if word == "-" else [int(part) for part in word.split(",")]


def read_aggregates(word):
    found = re.findall(r"(\d+)=([a-z]+)(?::(\d+))?", word)
    return [(int(column), name, int(read) if read else None) for column, name, read in found]


def read_expression(words):
    kind, *parts = words
    if kind == "select" or kind in ONE_LIST:
        return (kind, read_conjuncts(parts[0]), *map(int, parts[1:]))
    if kind == "anti":
        return (kind, read_conjuncts(parts[0]), read_conjuncts(parts[1]), *map(int, parts[2:]))
    if kind == "keep":
        return (kind, read_list(parts[0]), int(parts[1]))
    if kind == "group":
        return (kind, read_list(parts[0]), read_aggregates(parts[1]), int(parts[2]))
    return (kind, int(parts[0]))


def read_line(text):
    kind, *words = text.split(" ")
    step = lambda parts: (parts[0], int(parts[1]), read_list(parts[2]), read_list(parts[3]))
    if kind == "F":
        return (kind, read_expression(words))
    if kind == "A":
        return (kind, int(words[0]), step(words[1:5]), read_expression(words[5:]))
    if kind == "S":
        return (kind, int(words[0]), int(words[1]), step(words[2:]))
    if kind == "L":
        return (kind, int(words[0]), int(words[1]), (words[2], int(words[3]) if words[2] == "notnull" else read_list(words[3])))
    return (kind, int(words[0]), int(words[1]))


def read_lists(words):
    return {"sure": read_conjuncts(words[0]), "maybe": read_conjuncts(words[1]) if len(words) > 1 else None}


def read_node(text):
    """A node without its inputs, and how many it has."""
    name, *words = text.split(" ")
    if name == "sort":
        keys = [] if words[0] == "-" else [(int(key[:-1]), key[-1] == "d") for key in words[0].split(",")]
        return {"name": name, "keys": keys}, 1
    numbers = [int(word) if word.isdigit() else word for word in words]
    node = {"name": name, "line": numbers[0]}
    if name == "scan":
        return dict(node, instance=numbers[1]), 0
    if name == "iscan":
        return dict(node, get=numbers[1], instance=numbers[2], index=numbers[3], sure=read_conjuncts(words[4])), 0
    if name in ("filter", "filtersub"):
        return dict(node, sure=read_conjuncts(words[1])), 1 + (numbers[2] if name == "filtersub" else 0)
    if name == "cut":
        return dict(node, columns=read_list(words[1])), 1
    if name in ("loop", "hash"):
        return dict(node, kind=words[1], **read_lists(words[2:])), 2
    if name == "merge":
        return dict(node, left=numbers[1], right=numbers[2], kind="inner", sure=read_conjuncts(words[3])), 2
    if name == "iloop":
        return dict(node, get=numbers[1], kind=words[2], instance=numbers[3], index=numbers[4], **read_lists(words[5:])), 1
    if name in ("hgroup", "sgroup"):
        return dict(node, columns=read_list(words[1]), aggregates=read_aggregates(words[2])), 1
    return node, 1


def read_plan(texts):
    """The plan whose nodes' texts these are, each before its inputs."""
    node, count = read_node(next(texts))
    return dict(node, inputs=[read_plan(texts) for _ in range(count)])


def read_certificate(text):
    """The lines and the plan of a certificate."""
    rows = text.split("\n")
    count = int(rows[1].split()[1])
    return list(map(read_line, rows[2 : 2 + count])), read_plan(iter(rows[3 + count : -2]))
