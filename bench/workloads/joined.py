"""Writes a FROM of commas as JOIN .. ON, as an author would: the first table of the text first, then always one that is joined to those before."""
import re

NAME = re.compile(r"[a-z_][a-z0-9_]*")
EQUATION = re.compile(r"\S+ = \S+")


def parts_between(text, word):
    """What stands before, between and behind the word, where it is in no brackets and in no text of the query."""
    mark, parts, begin, depth, quoted = f" {word} ", [], 0, 0, False
    for place, letter in enumerate(text):
        if letter == "'":
            quoted = not quoted
        elif not quoted:
            depth += {"(": 1, ")": -1}.get(letter, 0)
            if depth == 0 and place >= begin and text.startswith(mark, place):
                parts.append(text[begin:place].strip())
                begin = place + len(mark)
    return [*parts, text[begin:].strip()]


def without_texts(condition):
    return re.sub(r"'[^']*'", "''", condition)


class Clauses:
    """A query's text, taken apart. A subquery's clauses stand in brackets, and so in one part with them."""

    def __init__(self, query):
        text, *order = parts_between(query, "ORDER BY")
        text, *group = parts_between(text, "GROUP BY")
        text, *where = parts_between(text, "WHERE")
        self.items, self.listed = parts_between(text, "FROM")
        self.conjuncts = parts_between(where[0], "AND") if where else []
        self.tail = "".join(f" {word} {found[0]}" for word, found in (("GROUP BY", group), ("ORDER BY", order)) if found)
        self.order = [key.strip() for key in order[0].split(",")] if order else []


def aliases_in(condition, columns):
    """The tables' aliases that a condition names; `columns` has the alias of each column that no other table has."""
    found = set()
    for word in re.findall(r"[a-z_][a-z0-9_.]*", without_texts(condition)):
        alias, _, column = word.rpartition(".")
        if alias or column in columns:
            found.add(alias or columns[column])
    return found


def nearest(waiting, seen, conditions):
    """The first table that an equation joins to those seen; else that any condition does; else the first."""

    def joins(alias, wanted):
        return any(alias in named and named - {alias} and named - {alias} <= seen and wanted(text) for text, named in conditions)

    for wanted in (EQUATION.fullmatch, bool):
        for table, alias in waiting:
            if joins(alias, wanted):
                return table, alias
    return waiting[0]


def by_joins(query, tables):
    """The query with JOIN .. ON; None where its FROM has no comma. A condition on one table, or with a subquery, stays in WHERE."""
    clauses = Clauses(query)
    if "," not in clauses.listed or "JOIN" in clauses.listed:
        return None
    waiting = [(words[0], words[-1]) for words in map(str.split, clauses.listed.split(","))]
    columns = {column: alias for table, alias in waiting for column in tables[table].columns}
    named = [(text, aliases_in(text, columns)) for text in clauses.conjuncts]
    joining = [(text, aliases) for text, aliases in named if len(aliases) > 1 and "SELECT" not in text]
    where = [text for text in clauses.conjuncts if text not in {joined for joined, _ in joining}]
    listed, seen = "", set()
    while waiting:
        table, alias = nearest(waiting, seen, joining) if seen else waiting[0]
        waiting.remove((table, alias))
        seen.add(alias)
        entry = table if table == alias else f"{table} {alias}"
        on = [text for text, aliases in joining if aliases <= seen]
        joining = [pair for pair in joining if pair[0] not in on]
        listed += f" JOIN {entry} ON {' AND '.join(on) or '1 = 1'}" if listed else entry
    return f"{clauses.items} FROM {listed}" + (f" WHERE {' AND '.join(where)}" if where else "") + clauses.tail
