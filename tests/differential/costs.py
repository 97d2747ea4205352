"""What `explain` prints of random queries by random statistics, beside a model of docs/COSTS.md (cost_model.py): the nodes with their parameters, the
rows of each and its cost, to the byte, as lines, as a graph and as JSON.

The plan and its lines are read from the certificate that `plan` writes by the same statistics, so both commands have to speak of one plan. The
numbers of the statistics are below 5,000, or any of 64 bits, with 0 and the greatest among them, and past which all are cut.

Only what the planner chooses is seen. Plans that it doesn't choose, semijoins and antijoins and the rows of classes that no plan names are not
reached: by_driver/costs.py has them, with the toolchain.
"""

from certificates import nodes_of, read_certificate
from common import TOO_LARGE
from cost_model import MILLION, MOST, Model, Shown
from layout import Layout, Lines
from random_plans import OPERATORS, random_tables
from random_sql import Maker, random_statistics, statistics_text

SEED, ROUND = 39, 150
NUMBERS = [0, 1, 2, 3, 10, 11, 99, 1000, 999_999, MILLION, 12_345_678, 10**12, 2**32, 2**63, MOST - 1, MOST]


def drawn_statistics(rng, tables):
    if rng.random() < 0.5:
        return random_statistics(rng, tables, lambda: rng.randrange(5000))
    return random_statistics(rng, tables, lambda: rng.choice([rng.choice(NUMBERS), rng.randrange(MOST), rng.randrange(10**6)]))


def fault(program, query, tables, statistics, counts):
    """Where the program's text isn't the model's."""
    text = statistics_text(statistics)
    planned = program.planned("plan", query, text, 2_000)
    if planned.error == TOO_LARGE:
        counts["too large"] += 1
        return ""
    if planned.status:
        return f"plan: {planned.error}"
    lines, plan = read_certificate(planned.output)
    shown = Shown(Model(Lines(Layout(tables, query), lines), statistics))
    for form, wanted in (("text", shown.text(plan)), ("dot", shown.graph(plan)), ("json", shown.json(plan))):
        given = program.say("explain", "schema.json", "query.sql", "stats.json", "--limit", 2_000, "--format", form)
        if (given.status, given.output) != (0, wanted):
            return f"explain --format {form} gives\n{given.output}{given.error}\nand should give\n{wanted}\n{planned.output}"
    counts.update(node["name"] for node in nodes_of(plan))
    counts["past"] += str(MOST) in shown.text(plan)
    return ""


def equated_query(maker, rng):
    """A query of tables with commas or JOIN between them, whose columns are equated so often that some equalities follow from others."""
    made = [maker.table() for _ in range(rng.randint(2, 5))]
    columns = [column for _, own in made for column in own]
    numbers = [name for name, kind in columns if kind == "INT"]
    if len(numbers) < 3:
        return maker.select(outermost=True)
    few = rng.sample(numbers, min(len(numbers), rng.randint(3, 6)))
    conditions = [" = ".join(rng.sample(few, 2)) for _ in range(rng.randint(2, 8))] + [maker.comparison(columns) for _ in range(rng.randint(0, 2))]
    rng.shuffle(conditions)
    shown = ", ".join(rng.sample(numbers, rng.randint(1, 2)))
    begin, end = rng.choice([("", ""), ("DISTINCT ", ""), ("", f" GROUP BY {shown}"), ("", f" ORDER BY {shown}")])
    return f"SELECT {begin}{shown} FROM {', '.join(table for table, _ in made)} WHERE {' AND '.join(conditions)}{end}"


def cases(program, rng, counts):
    """What is wrong of each case of a round, or nothing."""
    for _ in range(ROUND):
        tables = random_tables(rng)
        program.write_tables(tables, {table.name: [] for table in tables})
        maker = Maker(rng, tables, equated=0.8, pinned=0.3, conditions=0.5)
        query = equated_query(maker, rng) if rng.random() < 0.5 else maker.select(outermost=True)
        statistics = drawn_statistics(rng, tables)
        counts["plans"] += 1
        found = fault(program, query, tables, statistics, counts)
        yield f"{found}\n{query}\n{statistics}" if found else ""


def told(counts):
    least = min(OPERATORS, key=counts.__getitem__)
    nodes = f"{sum(counts[name] for name in OPERATORS):,} nodes, {counts[least]} of the least, {least}"
    return f"{counts['plans']:,} plans explained, of {nodes}, beside a model of docs/COSTS.md; {counts['past']} with a number cut to 2^64 - 1"
