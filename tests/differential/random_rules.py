"""Random lines by the rules of docs/RULES.md behind the lines of random queries: `check` has to accept each line that a rule book of these tests
gives (rule_book.py), `run` has to give sqlite3's rows by plans of such lines, and `check` has to refuse what no rule gives, with its code and
line.

To the lines of a query are added lines by rules that fit somewhere; selections, projections and groups that a rule takes back to what is there; and
facts that follow from NOT NULL and UNIQUE. Plans are drawn of all of these (plan_drawing.py). Behind them, one at a time, stand a line by a rule that
doesn't fit, and a line whose result was changed.

Semijoins and antijoins are those that the rules make of the queries' subqueries, and others that no plan names, so that more of their rules' conditions
are met. Classes that read the outer row in other ways than a query's subqueries do are not reached: by_driver/random_rules.py has them, with the toolchain.
"""

from certificates import certificate_text, conjuncts
from evaluation import named_classes
from layout import inputs_of
from plan_drawing import Drawing
from random_plans import drawn_query, plan_fault
from rule_book import BOOK, Unfit, given, has_subquery

SEED, ROUND, PLANS, FAULTS = 19, 100, 2, 4
MOST_LINES = 120
"""A query with more lines than these is left out, for the time that it takes to look for matches in them."""
WEIGHTS = [1, 6, 1, 4, 2, 2, 2, 1, 1, 5, 1, 1, 4, 4, 4, 2, 4, 4, 6, 8, 4, 4, 4, 4, 20, 6, 6, 6, 6, 6, 6, 16]
"""How often each rule is tried, in the order of the book: more often where fewer lines fit."""
NEVER = ("null", ("i", 1))
"""A condition that no query has."""


class Growth:
    """Adds lines to those of a query."""

    def __init__(self, rng, lines, counts):
        self.rng, self.lines, self.counts = rng, lines, counts

    def expressions(self, *kinds):
        """The lines with an expression, or with one of these kinds."""
        found = [at for at, line in enumerate(self.lines.all) if line[0] in "FA"]
        return [at for at in found if not kinds or self.lines.expression(at)[0] in kinds]

    def one(self, places):
        return self.rng.choice(places) if places else None

    def found(self, expression):
        """The class of an expression, and a line of it: at times one that is there, else a new one."""
        there = [at for at in self.expressions(expression[0]) if self.lines.expression(at) == expression]
        if there and self.rng.random() < 0.4:
            line = self.rng.choice(there)
            return self.lines.class_of(line), line
        line = self.lines.push(("F", expression))
        return line, line

    def spelt(self, shape):
        """A shape's outer expression, and the lines of the inner ones: outer before inner, left before right."""
        parts, makes = [], []
        for part in shape[1:]:
            if isinstance(part, tuple):
                expression, inner = self.spelt(part)
                part, line = self.found(expression)
                makes += [line, *inner]
            parts.append(part)
        return (shape[0], *parts), makes

    def apply(self, code, pick, uses, shape):
        """Adds the line that says what a rule gives, as one more member of the class or as a class that is the same."""
        own = self.lines.class_of(uses[0])
        if isinstance(shape, int):
            return self.lines.push(("S", own, shape, (code, pick, uses, [])))
        expression, makes = self.spelt(shape)
        if self.rng.random() < 0.7:
            return self.lines.push(("A", own, (code, pick, uses, makes), expression))
        other, line = self.found(expression)
        return self.lines.push(("S", own, other, (code, pick, uses, [line, *makes])))

    # ---- matches

    def picked(self, code, expression):
        """A pick that a rule may have at an expression, and the class below which its second line is: of a conjunct with a subquery, or a class that is
        named; 0 and the first input where nothing is picked."""
        below = inputs_of(expression)
        if BOOK[code].pick is None or expression[0] != "select":
            return 0, below[0] if below else None
        named = [(place, g) for place, condition in enumerate(expression[1]) for g in named_classes([condition])]
        place, g = self.rng.choice(named) if named else (0, None)
        return g if BOOK[code].pick == "class" and named else place, g

    def match(self, code, tops):
        """A pick, and lines that a rule may be applied to, the first one of these: each other one is of the class that the one above it stands on, or of
        that of the picked subquery."""
        top = self.one(tops)
        if top is None:
            return None
        pick, below = self.picked(code, self.lines.expression(top))
        uses = [top]
        while len(uses) < BOOK[code].count:
            if below is None:
                return None
            uses.append(self.one(self.lines.members(below)))
            below = next(iter(inputs_of(self.lines.expression(uses[-1]))), None)
        return pick, uses

    def given(self, code, pick, uses):
        """What the rule book gives."""
        return given(code, self.lines, pick, map(self.lines.expression, uses))

    def is_applied(self, code, tops):
        """Adds a line by a rule that fits at one of the lines, where that is found soon."""
        for _ in range(20):
            found = self.match(code, tops)
            try:
                shape = self.given(code, *found) if found else None
            except Unfit:
                continue
            if found:
                self.apply(code, *found, shape)
                self.counts[code] += 1
                return True
        return False

    def by_rule(self):
        code = self.rng.choices(list(BOOK), WEIGHTS)[0]
        self.is_applied(code, self.expressions(*BOOK[code].kinds))

    def unnest(self):
        """Takes a projection off a subquery of a selection, and makes a join of a subquery."""
        line = self.one([at for at in self.expressions("select") if any(map(has_subquery, self.lines.expression(at)[1]))])
        if line is not None:
            for codes in (["U6"], ["U7", "U8", "U9", "U10", "U1", "U2", "U3", "U4"]):
                tops = [at for at in self.lines.members(self.lines.class_of(line)) if self.lines.expression(at)[0] == "select"]
                any(self.is_applied(code, tops) for code in self.rng.sample(codes, len(codes)))

    # ---- what a rule takes back to what is there

    def takes_back(self, code, uses, line, inner=()):
        """The class of the first line is that of a line that is there, which the rule gives."""
        self.lines.push(("S", self.lines.class_of(uses[0]), self.lines.class_of(line), (code, 0, uses, [line, *inner])))
        self.counts[code] += 1

    def split_select(self):
        line = self.one([at for at in self.expressions("select") if self.lines.expression(at)[1]])
        if line is not None:
            _, conditions, g = self.lines.expression(line)
            below = self.rng.sample(conditions, self.rng.randint(0, len(conditions)))
            kept = [condition for condition in conditions if condition not in below or self.rng.random() < 0.1]
            lower = self.lines.push(("F", ("select", conjuncts(below), g)))
            self.takes_back("S1", [self.lines.push(("F", ("select", conjuncts(kept), lower))), lower], line)

    def split_keep(self):
        line = self.one(self.expressions("keep"))
        if line is not None:
            _, kept, g = self.lines.expression(line)
            wider = [column for column in self.lines.columns(g) if column in kept or self.rng.random() < 0.5]
            lower = self.lines.push(("F", ("keep", wider, g)))
            self.takes_back("K1", [self.lines.push(("F", ("keep", kept, lower))), lower], line)

    def keep_all(self):
        g = self.lines.class_of(self.one(self.expressions()))
        line = self.lines.push(("F", ("keep", self.lines.columns(g), g)))
        self.lines.push(("S", line, g, ("K2", 0, [line], [])))
        self.counts["K2"] += 1

    def make_distinct(self):
        g = self.one([self.lines.class_of(at) for at in self.expressions() if self.lines.has_strong_key(self.lines.class_of(at))])
        if g is not None:
            line = self.lines.push(("F", ("distinct", g)))
            self.lines.push(("S", line, g, ("D1", 0, [line], [])))
            self.counts["D1"] += 1

    def make_group(self):
        found = []
        for at in self.expressions("distinct"):
            for inner in self.expressions("keep"):
                if self.lines.class_of(inner) == self.lines.expression(at)[1] and self.lines.expression(inner)[1]:
                    found.append((at, inner))
        if found:
            line, inner = self.rng.choice(found)
            _, kept, g = self.lines.expression(inner)
            self.takes_back("G1", [self.lines.push(("F", ("group", kept, [], g)))], line, [inner])

    def told_columns(self, g):
        """The columns of a class that are known to have no Null, or to be a key; all where there are none."""
        facts = self.lines.facts_of(g)
        return [fact if name == "notnull" else fact[0] for name, fact in facts if name == "notnull" or len(fact) == 1] or self.lines.columns(g)

    def semi(self):
        """A semijoin or an antijoin that no plan names, of a table or a join, for U5, U11 and U12; at times a selection over it, for S5."""
        sides = [(a, b) for a in self.expressions("get", "join") for b in self.expressions("get")]
        pairs = [(a, b) for a, b in ((self.lines.class_of(a), b) for a, b in sides) if not set(self.lines.columns(a)) & set(self.lines.columns(b))]
        lists = [self.lines.expression(at)[1] for at in self.expressions("select", "join", "left")]
        plain = [[condition for condition in conditions if not has_subquery(condition)] for conditions in lists]
        if pairs and plain:
            a, b = self.rng.choice(pairs)
            terms = [("c", self.rng.choice(self.told_columns(g))) for g in (a, b)]
            plain += [[("compare", "=", *terms)]] * 2 * len(plain)
            first = [self.rng.choice(plain)] + ([self.rng.choice(plain)] if self.rng.random() < 0.5 else [])
            lower = self.lines.push(("F", ("semi" if len(first) == 1 else "anti", *first, a, b)))
            if self.rng.random() < 0.5:
                self.lines.push(("F", ("select", self.rng.choice(plain), lower)))

    def asking(self):
        """A selection by an IN or EXISTS of a projection, which no plan names: at times of a column that it lacks, where U6's condition fails."""
        pairs = [(a, at) for a in self.expressions("get") for at in self.expressions("keep", "distinct", "select")]
        if pairs:
            a, at = self.rng.choice(pairs)
            g = self.lines.class_of(at)
            below = inputs_of(self.lines.expression(at))[0]
            columns = self.lines.columns(self.rng.choice([g, below])) or [0]
            term = ("c", self.rng.choice(self.lines.columns(a)))
            condition = ("in", term, g, self.rng.choice(columns)) if self.rng.random() < 0.7 else ("exists", g)
            asked = [("not", condition) if self.rng.random() < 0.5 else condition]
            self.lines.push(("F", ("select", conjuncts(asked), a)))

    def unread(self):
        """A projection of a left join's left side, or of rows of it that are asked for a Null of the right side, which no plan names, for O6 and O7."""
        line = self.one(self.expressions("left"))
        if line is None:
            return
        _, _, a, b = self.lines.expression(line)
        kept = [column for column in self.lines.columns(a) if self.rng.random() < 0.7]
        over = self.lines.class_of(line)
        if self.rng.random() < 0.6:
            asked = [("null", ("c", self.rng.choice(self.lines.columns(b))))]
            over = self.lines.push(("F", ("select", asked, over)))
        self.lines.push(("F", ("keep", kept, over)))

    def reading_out(self):
        """A join whose condition reads a column of a third class, below a join with that class, which no plan names: J2's condition fails of it."""
        gets = self.expressions("get")
        if len({self.lines.expression(at) for at in gets}) > 2:
            a, b, c = self.rng.sample(sorted({self.lines.expression(at): at for at in gets}.values()), 3)
            first, third = (("c", self.rng.choice(self.lines.columns(g))) for g in (a, c))
            lower = self.lines.push(("F", ("join", [("compare", "=", first, third)], a, b)))
            self.lines.push(("F", ("join", [], lower, c)))

    # ---- facts

    def facts_by(self, line):
        """The facts that a line gives, by what is known so far."""
        kind, *parts = self.lines.expression(line)
        if kind == "get":
            table, columns = self.lines.layout.table(parts[0]), self.lines.layout.columns_of(parts[0])
            names = [column.name for column in table.columns]
            keys = [sorted(columns[names.index(name)] for name in unique) for unique in table.unique]
            not_null = [column for column, its in zip(columns, table.columns) if its.not_null]
            known = self.lines.facts_of(self.lines.class_of(line))
            strong = [key for key in keys if ("weak", key) in known and all(("notnull", column) in known for column in key)]
            return [("notnull", column) for column in not_null] + [("weak", key) for key in keys] + [("strong", key) for key in strong]
        if kind in ("select", "keep"):
            own = set(self.lines.columns(self.lines.class_of(line)))
            return [fact for fact in self.lines.facts_of(parts[-1]) if own.issuperset([fact[1]] if fact[0] == "notnull" else fact[1])]
        columns = {"distinct": lambda: self.lines.columns(parts[0]), "group": lambda: parts[0]}.get(kind, list)()
        return [("strong", columns)] if 0 < len(columns) <= 4 else []

    def learn(self):
        """One or more facts of a class."""
        for _ in range(4):
            line = self.one(self.expressions("get", "get", "select", "keep", "distinct", "group"))
            g = self.lines.class_of(line)
            for fact in self.facts_by(line):
                if fact not in self.lines.facts_of(g):
                    self.lines.push(("L", g, line, fact))
                    self.counts["facts"] += 1

    def grow(self, steps):
        ways = [self.by_rule] * 10 + [self.learn] * 2 + [self.split_select, self.split_keep, self.keep_all, self.make_distinct, self.make_group]
        ways += [self.semi, self.semi, self.asking, *[self.unnest] * 5, self.reading_out, self.unread, self.unread]
        for _ in range(steps):
            self.rng.choice(ways)()


# ---- what is to be refused


def changed(rng, shape):
    """A shape with a condition less or more, or with one more column dropped; None where it has no list of these."""
    places = [at for at, part in enumerate(shape) if isinstance(part, list) and shape[0] != "group"]
    inner = [at for at, part in enumerate(shape) if isinstance(part, tuple)]
    if not places and not inner:
        return None
    at = rng.choice(places + inner)
    if at in inner:
        part = changed(rng, shape[at])
        if part is None:
            return None
    elif shape[0] == "keep":
        part = shape[at][:-1]
    elif shape[at] and rng.random() < 0.6:
        lost = rng.choice(shape[at])
        part = [condition for condition in shape[at] if condition != lost]
    else:
        part = conjuncts(shape[at] + [NEVER])
    return None if part == shape[at] else (*shape[:at], part, *shape[at + 1 :])


def refused(growth):
    """A last line that is to be refused, and the codes of which one is wanted; None where none is found soon."""
    rng, lines = growth.rng, growth.lines
    for _ in range(200):
        code = rng.choice(list(BOOK))
        found = growth.match(code, growth.expressions())
        if not found:
            continue
        pick, uses = found
        step, top = (code, pick, uses, []), lines.expression(uses[0])
        try:
            shape = growth.given(code, pick, uses)
        except Unfit as unfit:
            if str(unfit) == "K05" or rng.random() < 0.02:
                return ("A", lines.class_of(uses[0]), step, top), [str(unfit)], code
            continue
        other = None if isinstance(shape, int) else changed(rng, shape)
        if other:
            expression, makes = growth.spelt(other)
            return ("A", lines.class_of(uses[0]), (code, pick, uses, makes), expression), ["K03", "K04"], code
    return None


def refusal_fault(program, growth, plan, counts):
    """What is wrong where a line is to be refused, or nothing. The line and what it stands on are taken away again."""
    before = list(growth.lines.all)
    found = refused(growth)
    if found is None:
        return ""
    line, codes, rule = found
    growth.lines.push(line)
    certificate = certificate_text(growth.lines.all, plan)
    said, number = program.check(certificate).error, len(growth.lines.all) - 1
    growth.lines = type(growth.lines)(growth.lines.layout, before)
    counts["refused", codes[0]] += 1
    wanted = [f"refused {code}{f' {rule}' if code == 'K05' else ''} line {number}" for code in codes]
    return "" if said in wanted else f"check says {said!r}, and should say {' or '.join(wanted)}\n{certificate}"


def query_faults(program, rng, drawn, counts):
    """What is wrong of the lines that are added to one query's, for each plan and each refusal."""
    contents, query, wanted, lines, line = drawn
    _, order = lines.layout.outermost(query)
    growth = Growth(rng, lines, counts)
    growth.grow(rng.randint(4, 25))
    drawing = Drawing(rng, lines)
    for _ in range(PLANS):
        plan = drawing.whole(lines.class_of(line), order)
        yield plan_fault(program, contents, query, lines, plan, wanted, counts)
    for _ in range(FAULTS):
        found = refusal_fault(program, growth, plan, counts)
        yield f"{found}\n{query}" if found else ""


def cases(program, rng, counts):
    """What is wrong of each plan and each refusal of a round, or nothing."""
    for _ in range(ROUND):
        drawn = drawn_query(program, rng, counts, ones=0.05)
        if drawn and len(drawn[3].all) <= MOST_LINES:
            yield from query_faults(program, rng, drawn, counts)


def told(counts):
    by_rule = ", ".join(f"{counts[code]} {code}" for code in BOOK)
    wrong = ", ".join(f"{counts['refused', code]} {code}" for code in ("K02", "K03", "K05"))
    plans = f"{counts['plans']:,} plans with {counts['rows']:,} rows, beside sqlite3"
    return f"lines by {by_rule}; {counts['facts']:,} facts; {plans}; refused as they should be: {wrong}"
