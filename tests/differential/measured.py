"""Random queries by `query --explain` and `query --explain=json`: the answer has to be that of `query`, and what is told of the nodes has to fit the answer and the tables.

The root hands over as many rows as the answer has, a scan those of its table, a sort or a projection those of its input; a filter, an antijoin or
a semijoin no more than its input, groups without keys one row, an inner join no more than all pairs, a left join no fewer than its left rows. Nothing is measured of the inputs of a filter by
subqueries behind the first, and of no other node. Text and JSON have to tell the same.
"""

import json
import re

from common import TOO_LARGE, rows_in
from random_sql import TABLES, Maker, random_contents

SEED, ROUND = 64, 150
TIME = re.compile(r" time=\d+us")


def line_of(node):
    """The line of a node, without its time."""
    measured = "" if node["rows"] is None else f" actual={node['rows']}"
    return f"{'  ' * node['depth']}{node['node']} rows={node['estimated_rows']} cost={node['cost']}{measured}"


def inputs_of(nodes, place):
    """The places of a node's inputs."""
    found = []
    for other in range(place + 1, len(nodes)):
        if nodes[other]["depth"] <= nodes[place]["depth"]:
            break
        if nodes[other]["depth"] == nodes[place]["depth"] + 1:
            found.append(other)
    return found


def repeated_places(nodes):
    """The places of the nodes that are run at each row of another one."""
    found = set()
    for place, node in enumerate(nodes):
        behind = inputs_of(nodes, place)
        later = behind if place in found else behind[1:] if node["node"].startswith("filtersub") else []
        found.update(later)
    return found


def fits(words, rows, inputs, contents):
    """Whether a node may hand over so many rows, given those of its inputs and the tables."""
    name, _, rest = words.partition(" ")
    first = inputs[0] if inputs else None
    if name == "scan":
        return rows == len(contents[rest.split()[0]])
    if name == "iscan":
        return rows <= len(contents[rest.split()[0]])
    if name in ("sort", "cut"):
        return rows == first
    if name in ("filter", "filtersub", "hdistinct", "sdistinct"):
        return rows <= first
    if name in ("hgroup", "sgroup"):
        return rows == 1 if rest.startswith("- ") else rows <= first
    if name == "merge":
        return rows <= first * inputs[1]
    kind, _, rest = rest.partition(" ")
    right = len(contents[rest.split()[0]]) if name == "iloop" else inputs[1]
    if kind == "inner":
        return rows <= first * right
    if kind == "left":
        return first <= rows <= first * max(right, 1)
    return rows <= first


def fault(program, query, contents, counts):
    """What is wrong with what is told of a query, if something is."""
    plain = program.answer("query", query)
    if plain.status:
        counts["too large"] += plain.error == TOO_LARGE
        return "" if plain.error == TOO_LARGE else f"query: {query}\n  {plain.error}"
    words = ["query", "schema.json", "query.sql", "."]
    text, told = (program.say(*words, form) for form in ("--explain", "--explain=json"))
    if (text.status, told.status) != (0, 0) or not plain.output == text.output == told.output:
        return f"another answer with --explain: {query}\n  {text}\n  {told}"
    nodes = json.loads(told.error)
    if TIME.sub("", text.error) != "\n".join(map(line_of, nodes)):
        return f"text and JSON differ: {query}\n{text.error}\n{told.error}"
    if nodes[0]["rows"] != len(rows_in(plain.output)):
        return f"the root's rows: {query}\n{text.error}\n{plain.output}"
    repeated = repeated_places(nodes)
    for place, node in enumerate(nodes):
        if (node["rows"] is None) != (place in repeated):
            return f"measured or not, at node {place}: {query}\n{text.error}"
        if node["rows"] is not None:
            inputs = [nodes[other]["rows"] for other in inputs_of(nodes, place)]
            if not fits(node["node"], node["rows"], inputs, contents):
                return f"node {place} can't hand over so many rows: {query}\n{text.error}\n  {contents}"
            counts["nodes"] += 1
    return ""


def cases(program, rng, counts):
    """What is wrong of each case of a round, or nothing."""
    for number in range(ROUND):
        contents = random_contents(rng, TABLES)
        query = Maker(rng, equated=0.5 * (number % 2)).select(outermost=True)
        program.write_tables(TABLES, contents)
        counts["queries"] += 1
        yield fault(program, query, contents, counts)


def told(counts):
    return f"{counts['queries']:,} queries with what was measured of {counts['nodes']:,} nodes; {counts['too large']} too large"
