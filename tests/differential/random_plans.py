"""Random plans of every operator that a query has, handed in as certificates: `check` has to accept each, and `run` has to give, cell by cell and in
order, the rows that definitions of these tests give of it (evaluation.py), which have to be sqlite3's rows of the query.

The lines are those of the certificate that `plan` writes for a random query by random statistics. The plan is drawn here: of each class a random
member, each join by nested loops, by hash, by merging or by an index, each table by an index or without, groups and distinct rows by hash and sorted,
selections of tables by an index, and sorts where an operator needs one and at times where none does.

Semijoins and antijoins are those that the planner makes of subqueries; random_rules.py makes more of them. Not reached are plans that stand for no query,
as groups of groups, and numbers at the ends of 64 bits, of which sqlite3 gives no sums: by_driver/random_plans.py runs these, with the toolchain.
"""

from certificates import certificate_text, nodes_of, read_certificate
from common import ACCEPTED, TOO_LARGE, Column, Table, agree, field_of, rows_in, sqlite_database, sqlite_rows
from evaluation import Evaluator, TooLong
from layout import Layout, Lines
from plan_drawing import Drawing
from random_sql import Maker, random_contents, random_statistics, statistics_text

SEED, ROUND, PLANS = 34, 120, 3
NAMES = {
    "t": [("a", "INT"), ("b", "INT"), ("c", "TEXT"), ("d", "INT")],
    "u": [("e", "INT"), ("f", "TEXT"), ("g", "INT")],
    "v": [("h", "INT"), ("i", "TEXT")],
}
INDEXES = {"t": [["a"], ["b", "a"], ["c"], ["c", "b"]], "u": [["e"], ["f"], ["g", "e"]], "v": [["h"], ["i", "h"]]}


def random_tables(rng):
    """Tables with indexes, of which some columns are never Null and some lists unique."""
    tables = []
    for name, columns in NAMES.items():
        unique = [[columns[0][0]]] if rng.random() < 0.4 else []
        unique += [[column for column, _ in columns[:2]]] if rng.random() < 0.3 else []
        tables.append(Table(name, [Column(*column, rng.random() < 0.25) for column in columns], unique, INDEXES[name]))
    return tables


def drawn_case(rng, ones):
    """Tables, their rows, a query, such a share of one table alone, and sqlite3's rows. Most queries with less than two rows are drawn again."""
    while True:
        tables = random_tables(rng)
        contents = random_contents(rng, tables, most=12, nulls=rng.choice([0.1, 0.35]))
        of_one = rng.random() < ones
        query = Maker(rng, tables, equated=0.9, pinned=0.8 if of_one else 0.4, conditions=0.3, inner=0.6).select(outermost=True, of_one=of_one)
        wanted = sqlite_rows(sqlite_database(tables, contents), query)
        if len(wanted) in range(2, 200) or rng.random() < 0.1:
            return tables, contents, query, wanted


def drawn_query(program, rng, counts, ones=0.3):
    """A case, its lines and the line of its plan's root as `plan` gives them; or None where it is too large."""
    tables, contents, query, wanted = drawn_case(rng, ones)
    program.write_tables(tables, contents)
    said = program.planned("plan", query, statistics_text(random_statistics(rng, tables)), 2_000)
    if said.error == TOO_LARGE:
        counts["too large"] += 1
        return None
    if said.status:
        raise RuntimeError(f"plan says {said.error} to {query}")
    lines, plan = read_certificate(said.output)
    while plan["name"] == "sort":
        plan = plan["inputs"][0]
    return contents, query, wanted, Lines(Layout(tables, query), lines), plan["line"]


def wrong_rows(program, certificate, expected):
    """What is wrong of a certificate: that it is refused, or that its rows aren't these, in this order."""
    checked = program.check(certificate)
    if checked != ACCEPTED:
        return f"check says {checked.output}{checked.error}"
    said = program.run(certificate)
    if said.status:
        return f"run says {said.error}"
    given = rows_in(said.output)
    return "" if given == expected else f"its rows are {given}, and should be {expected}"


def own_rows(layout, contents, plan, items):
    """The rows of a plan, by the definitions of these tests."""
    return [[field_of(row.get(column)) for column in items] for row in Evaluator(layout, contents).rows(plan, {})]


def plan_fault(program, contents, query, lines, plan, wanted, counts):
    """What is wrong of one plan of a query."""
    items, _ = lines.layout.outermost(query)
    try:
        expected = own_rows(lines.layout, contents, plan, items)
    except TooLong:
        counts["too long"] += 1
        return ""
    certificate = certificate_text(lines.all, plan)
    found = wrong_rows(program, certificate, expected)
    if not found and not agree(query, wanted, expected):
        found = f"the plan's rows, by the definitions here, are not sqlite3's: {expected}, {wanted}"
    counts.update(node["name"] for node in nodes_of(plan))
    counts["plans"] += 1
    counts["rows"] += len(expected)
    return f"{found}\n{query}\n{contents}\n{certificate}" if found else ""


def cases(program, rng, counts):
    """What is wrong of each plan of a round, or nothing."""
    for _ in range(ROUND):
        drawn = drawn_query(program, rng, counts)
        if drawn:
            contents, query, wanted, lines, line = drawn
            _, order = lines.layout.outermost(query)
            drawing = Drawing(rng, lines)
            for _ in range(PLANS):
                plan = drawing.whole(lines.class_of(line), order)
                yield plan_fault(program, contents, query, lines, plan, wanted, counts)


OPERATORS = "scan iscan filter filtersub cut loop hash merge iloop hgroup sgroup hdistinct sdistinct sort".split()


def told(counts):
    least = min(OPERATORS, key=counts.__getitem__)
    nodes = f"{sum(counts[name] for name in OPERATORS):,} nodes, {counts[least]} of the least, {least}"
    plans = f"{counts['plans']:,} plans of {nodes}, with {counts['rows']:,} rows"
    return f"{plans}, beside definitions of its own and sqlite3; {counts['too long']} too long"
