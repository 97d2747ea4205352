#!/usr/bin/env python3
"""Draws the derivation of a certificate as a memo, for Graphviz: a box for each class, with the lines that are its members; an arrow from a
member to each class that it names. Classes that a line says are the same stand in one box. The lines that the plan names are marked.

usage: sqlplan plan SCHEMA QUERY STATS | memo_picture.py | dot -Tsvg
"""
import html
import re
import sys

SHORT = {"J1": "join commutes", "J2": "join associates", "S1": "selections merge", "S2": "selection below join", "S3": "selection into join", "S4": "condition below join"}
SHORT |= {"S5": "selection below semijoin", "K1": "projections merge", "K2": "projection of all", "K3": "projection below join", "D1": "distinct of keyed", "G1": "group is distinct"}


def inputs_of(words):
    """The classes that an expression names as its inputs."""
    kind = words[0]
    if kind == "get":
        return []
    return [int(word) for word in words[-2:]] if kind in ("join", "left", "semi", "anti") else [int(words[-1])]


def main():
    text = sys.stdin.read().split("\n")
    count = int(text[1].split()[1])
    lines, nodes = text[2 : 2 + count], text[3 + count : -2]
    used = {int(node.split()[1]) for node in nodes if not node.startswith("sort")}
    roots, members, facts = {}, {}, {}
    root = lambda g: g if roots[g] == g else root(roots[g])
    for number, line in enumerate(lines):
        kind, *words = line.split()
        if kind == "F":
            roots[number] = number
            members.setdefault(number, []).append((number, words, ""))
        elif kind == "A":
            members.setdefault(int(words[0]), []).append((number, words[5:], SHORT.get(words[1], words[1])))
        elif kind == "L":
            facts.setdefault(int(words[0]), []).append(" ".join(words[2:]))
        else:
            a, b = (root(int(word)) for word in words[:2]) if kind == "S" else (root(g) for g in (int(words[0]), int(words[1])) if g in roots)
            roots[max(a, b)] = min(a, b)
    print('digraph memo {\n  rankdir=TB\n  node [shape=plaintext fontname="sans-serif" fontsize=10]\n  edge [arrowsize=0.5 color="#777777"]')
    for own in sorted({root(g) for g in members}):
        same = [g for g in sorted(members) if root(g) == own]
        rows = [f'<tr><td bgcolor="#dddddd"><b>class {", ".join(map(str, same))}</b></td></tr>']
        for g in same:
            for number, words, why in members[g]:
                colour = ' bgcolor="#cfe8cf"' if number in used else ""
                said = f" <i>{why}</i>" if why else ""
                rows.append(f'<tr><td port="l{number}" align="left"{colour}>{number}: {html.escape(" ".join(words))}{said}</td></tr>')
            rows += [f'<tr><td align="left"><i>{html.escape(fact)}</i></td></tr>' for fact in facts.get(g, [])]
        print(f'  c{own} [label=<<table border="1" cellborder="0" cellspacing="0">{"".join(rows)}</table>>]')
        for g in same:
            for number, words, _ in members[g]:
                for below in inputs_of(words):
                    print(f"  c{own}:l{number} -> c{root(below)}")
    print("}")


if __name__ == "__main__":
    main()
