"""The rules of docs/RULES.md, written by that page: what each gives of the expressions that it is applied to.

What a rule gives is a shape: an expression whose inputs are classes or shapes, or a bare class. A rule that picks is given the pick before the lines.
"""

import collections
import functools
import itertools

from certificates import conjuncts
from evaluation import named_classes


class Unfit(Exception):
    """The rule doesn't fit: what is matched has another form (K02), or the condition fails (K05)."""


def wants(expression, *kinds):
    if expression[0] not in kinds:
        raise Unfit("K02")


def holds(condition):
    if not condition:
        raise Unfit("K05")


def without(lines, conditions, g):
    """The conditions that mention no column of the class."""
    return [condition for condition in conditions if not lines.mentions(condition) & set(lines.columns(g))]


def less(conditions, moved):
    return [condition for condition in conditions if condition not in moved]


def some(conditions):
    """The conditions, where there are some: a rule that would move nothing has another form."""
    if not conditions:
        raise Unfit("K02")
    return conditions


def selected(conditions, shape):
    return ("select", conditions, shape) if conditions else shape


def join_commutes(_, top):
    wants(top, "join")
    return ("join", top[1], top[3], top[2])


def join_associates(lines, top, below):
    wants(top, "join")
    wants(below, "join")
    (_, d, _, right), (_, c, left, middle) = top, below
    holds(len(without(lines, c, right)) == len(c))
    both = conjuncts(c + d)
    moved = without(lines, both, left)
    return ("join", less(both, moved), left, ("join", moved, middle, right))


def selects_merge(_, top, below):
    wants(top, "select")
    wants(below, "select")
    return ("select", conjuncts(top[1] + below[1]), below[2])


def select_below_join(lines, top, below):
    wants(top, "select")
    wants(below, "join")
    moved = some(without(lines, top[1], below[3]))
    return selected(less(top[1], moved), ("join", below[1], ("select", moved, below[2]), below[3]))


def has_subquery(condition):
    kind, *parts = condition
    return kind in ("exists", "in") or any(map(has_subquery, parts if kind == "not" else parts[0] if kind in ("and", "or") else []))


def select_into_join(_, top, below):
    wants(top, "select")
    wants(below, "join")
    moved = some([condition for condition in top[1] if not has_subquery(condition)])
    return selected(less(top[1], moved), ("join", conjuncts(below[1] + moved), below[2], below[3]))


def condition_below_join(lines, top):
    wants(top, "join")
    moved = some(without(lines, top[1], top[3]))
    return ("join", less(top[1], moved), ("select", moved, top[2]), top[3])


def select_below_semi(_, top, below):
    wants(top, "select")
    wants(below, "semi", "anti")
    return (*below[:-2], ("select", top[1], below[-2]), below[-1])


def keeps_merge(_, top, below):
    wants(top, "keep")
    wants(below, "keep")
    return ("keep", top[1], below[2])


def keep_of_all(lines, top):
    wants(top, "keep")
    holds(top[1] == lines.columns(top[2]))
    return top[2]


def keep_below_join(lines, top, below):
    wants(top, "keep")
    wants(below, "join")
    (_, kept, _), (_, conditions, left, right) = top, below
    read = set(kept).union(*map(lines.mentions, conditions))
    wanted = [column for column in lines.columns(left) if column in read]
    holds(wanted != lines.columns(left))
    return ("keep", kept, ("join", conditions, ("keep", wanted, left), right))


def distinct_of_keyed(lines, top):
    wants(top, "distinct")
    holds(lines.has_strong_key(top[1]))
    return top[1]


def group_is_distinct(_, top):
    wants(top, "group")
    if top[2]:
        raise Unfit("K02")
    holds(top[1])
    return ("distinct", ("keep", top[1], top[3]))


def select_below_group(lines, top, below):
    wants(top, "select")
    wants(below, "group")
    (_, conditions, _), (_, keys, added, input_) = top, below
    moved = some([condition for condition in conditions if not has_subquery(condition) and lines.mentions(condition) <= set(keys)])
    holds(keys)
    return selected(less(conditions, moved), ("group", keys, added, ("select", moved, input_)))


def is_never_true(condition, nulls):
    """Whether the condition can't be true where the columns are Null."""
    return True not in outcomes(condition, nulls)


def outcomes(condition, nulls):
    """The truths that the condition can have where the columns are Null: True, False, and None for unknown."""
    kind, *parts = condition
    is_nulled = lambda term: term[0] == "n" or term[0] == "c" and term[1] in nulls
    if kind == "null":
        return {True} if is_nulled(parts[0]) else {True, False} if parts[0][0] == "c" else {False}
    if kind == "not":
        return {None if truth is None else not truth for truth in outcomes(parts[0], nulls)}
    if kind in ("and", "or"):
        decisive = kind == "or"
        found = [outcomes(part, nulls) for part in parts[0]]
        return {decisive if decisive in truths else None if None in truths else not decisive for truths in itertools.product(*found)}
    if kind == "exists":
        return {True, False}
    if kind == "in":
        return {False, None} if is_nulled(parts[0]) else {True, False, None}
    return {None} if any(map(is_nulled, parts[-2:])) else {True, False, None}


def outer_join_is_inner(lines, top, below):
    wants(top, "select")
    wants(below, "left")
    (_, kept, _), (_, conditions, left, right) = top, below
    holds(any(is_never_true(condition, lines.columns(right)) for condition in kept))
    return ("select", kept, ("join", conditions, left, right))


def select_below_left_join(lines, top, below):
    wants(top, "select")
    wants(below, "left")
    moved = some(without(lines, top[1], below[3]))
    return selected(less(top[1], moved), ("left", below[1], ("select", moved, below[2]), below[3]))


def condition_below_left_join(lines, top):
    wants(top, "left")
    moved = some(without(lines, top[1], top[2]))
    return ("left", less(top[1], moved), top[2], ("select", moved, top[3]))


def change_places(lines, inner, outer, inner_right, outer_right):
    """Neither the outer join's condition mentions the inner join's right side, nor the other way round."""
    return not (less(outer, without(lines, outer, inner_right)) or less(inner, without(lines, inner, outer_right)))


def left_join_below_join(lines, top, below):
    wants(top, "left")
    wants(below, "join")
    (_, d, _, c_side), (_, c, left, right) = top, below
    holds(change_places(lines, c, d, right, c_side))
    return ("join", c, ("left", d, left, c_side), right)


def left_join_above_join(lines, top, below):
    wants(top, "join")
    wants(below, "left")
    (_, c, _, right), (_, d, left, c_side) = top, below
    holds(change_places(lines, c, d, right, c_side))
    return ("left", d, ("join", c, left, right), c_side)


def is_elsewhere(lines, columns, g):
    return not set(columns) & set(lines.columns(g))


def is_single(lines, conditions, g):
    """Whether no row finds two rows of the class with which the conditions hold: they pin a key."""
    own = lines.columns(g)
    is_other = lambda term: term[0] in "it" or term[0] == "c" and term[1] not in own
    equal = [condition[2:] for condition in conditions if condition[:2] == ("compare", "=")]
    pinned = {one[1] for terms in equal for one, other in (terms, terms[::-1]) if one[0] == "c" and is_other(other)}
    return any(set(key) <= pinned for key in lines.keys(g))


def keep_of_left_side(lines, top, below):
    wants(top, "keep")
    wants(below, "left")
    (_, kept, _), (_, conditions, left, right) = top, below
    holds(is_elsewhere(lines, kept, right) and is_single(lines, conditions, right))
    return ("keep", kept, left)


def outer_join_is_anti(lines, top, below, lowest):
    wants(top, "keep")
    wants(below, "select")
    wants(lowest, "left")
    (_, kept, _), (_, asked, _), (_, conditions, left, right) = top, below, lowest
    own = lines.columns(right)
    nulls = [condition for condition in asked if condition[0] == "null" and condition[1][0] == "c" and condition[1][1] in own]
    others = less(asked, nulls)
    is_filled = lambda column: lines.is_not_null(right, column) or any(is_never_true(condition, [column]) for condition in conditions)
    holds(is_elsewhere(lines, kept, right) and without(lines, others, right) == others and any(is_filled(condition[1][1]) for condition in nulls))
    return ("keep", kept, selected(others, ("anti", conditions, [], left, right)))


NONE = ("null", ("n", None))
"""A conjunct that is no subquery."""


def picked(top, pick):
    """The conjunct of a selection at a place, which has to be a subquery, and its class."""
    wants(top, "select")
    condition = top[1][pick] if pick < len(top[1]) else NONE
    kind = condition[1][0] if condition[0] == "not" else condition[0]
    if kind not in ("exists", "in"):
        raise Unfit("K02")
    return condition, next(named_classes([condition]))


def can_join(lines, x, conditions, b):
    """No condition has a subquery, and the class shares no column with the input, and takes none of it from outside."""
    own = set(lines.columns(x))
    return not (any(map(has_subquery, conditions)) or own & set(lines.columns(b)) or own & lines.free(b))


def unnested(kind, is_denied, lines, top, condition, conditions, b):
    """The selection, by its other conjuncts, of the semijoin or antijoin for a conjunct that asks for rows of the class with which the conditions hold."""
    others, asked, x = less(top[1], [condition]), condition[1] if is_denied else condition, top[2]
    if is_denied != (condition[0] == "not") or asked[0] != kind:
        raise Unfit("K02")
    holds(can_join(lines, x, conditions, b))
    equated = []
    if kind == "in":
        _, term, _, column = asked
        holds(column in lines.columns(b) and not (term[0] == "c" and term[1] in lines.columns(b)))
        equated = [("compare", "=", term, ("c", column))]
    lists = [conditions, equated] if is_denied else [conjuncts(conditions + equated)]
    return selected(others, ("anti" if is_denied else "semi", *lists, x, b))


def unnested_class(kind, is_denied, lines, pick, top):
    condition, g = picked(top, pick)
    return unnested(kind, is_denied, lines, top, condition, [], g)


def unnested_select(kind, is_denied, lines, pick, top, below):
    condition, _ = picked(top, pick)
    wants(below, "select")
    return unnested(kind, is_denied, lines, top, condition, below[1], below[2])


def antijoin_of_filled(lines, top):
    wants(top, "anti")
    _, ordinary, null_aware, left, right = top
    is_filled = lambda term: term[0] in "it" or term[0] == "c" and any(lines.is_not_null(g, term[1]) for g in (left, right))
    moved = some([condition for condition in null_aware if condition[0] == "compare" and is_filled(condition[2]) and is_filled(condition[3])])
    return ("anti", conjuncts(ordinary + moved), less(null_aware, moved), left, right)


def with_class(condition, g, other):
    """The condition with another class in place of one."""
    kind, *parts = condition
    if kind == "not":
        return (kind, with_class(parts[0], g, other))
    if kind in ("and", "or"):
        return (kind, [with_class(part, g, other) for part in parts[0]])
    at = {"exists": 1, "in": 2}.get(kind)
    return (*condition[:at], other, *condition[at + 1 :]) if at and condition[at] == g else condition


def asked_columns(condition, g):
    """The columns of the class that an IN compares with its term."""
    kind, *parts = condition
    if kind == "in":
        return {parts[2]} if parts[1] == g else set()
    inner = parts if kind == "not" else parts[0] if kind in ("and", "or") else []
    return set().union(*(asked_columns(part, g) for part in inner))


def subquery_of_input(_, pick, top, below):
    wants(top, "select")
    if pick not in named_classes(top[1]):
        raise Unfit("K02")
    wants(below, "keep", "distinct")
    if below[0] == "keep":
        holds(all(asked_columns(condition, pick) <= set(below[1]) for condition in top[1]))
    return ("select", conjuncts([with_class(condition, pick, below[-1]) for condition in top[1]]), top[2])


def semijoin_below_join(lines, top, below):
    wants(top, "semi", "anti")
    wants(below, "join")
    (kind, *lists, _, z), (_, c, left, right) = top, below
    holds(change_places(lines, c, [condition for conditions in lists for condition in conditions], right, z))
    return ("join", c, (kind, *lists, left, z), right)


def semijoin_is_join(lines, top):
    wants(top, "semi")
    _, conditions, left, right = top
    holds(is_single(lines, conditions, right))
    return ("keep", lines.columns(left), ("join", conditions, left, right))


Rule = collections.namedtuple("Rule", "gives count kinds pick", defaults=[None])
unnesting = lambda gives, kind, is_denied: functools.partial(gives, kind, is_denied)
BOOK = {
    "J1": Rule(join_commutes, 1, ["join"]),
    "J2": Rule(join_associates, 2, ["join"]),
    "S1": Rule(selects_merge, 2, ["select"]),
    "S2": Rule(select_below_join, 2, ["select"]),
    "S3": Rule(select_into_join, 2, ["select"]),
    "S4": Rule(condition_below_join, 1, ["join"]),
    "S5": Rule(select_below_semi, 2, ["select"]),
    "K1": Rule(keeps_merge, 2, ["keep"]),
    "K2": Rule(keep_of_all, 1, ["keep"]),
    "K3": Rule(keep_below_join, 2, ["keep"]),
    "D1": Rule(distinct_of_keyed, 1, ["distinct"]),
    "G1": Rule(group_is_distinct, 1, ["group"]),
    "G2": Rule(select_below_group, 2, ["select"]),
    "O1": Rule(outer_join_is_inner, 2, ["select"]),
    "O2": Rule(select_below_left_join, 2, ["select"]),
    "O3": Rule(condition_below_left_join, 1, ["left"]),
    "O4": Rule(left_join_below_join, 2, ["left"]),
    "O5": Rule(left_join_above_join, 2, ["join"]),
    "O6": Rule(keep_of_left_side, 2, ["keep"]),
    "O7": Rule(outer_join_is_anti, 3, ["keep"]),
    "U1": Rule(unnesting(unnested_class, "exists", False), 1, ["select"], "conjunct"),
    "U2": Rule(unnesting(unnested_class, "exists", True), 1, ["select"], "conjunct"),
    "U3": Rule(unnesting(unnested_class, "in", False), 1, ["select"], "conjunct"),
    "U4": Rule(unnesting(unnested_class, "in", True), 1, ["select"], "conjunct"),
    "U5": Rule(antijoin_of_filled, 1, ["anti"]),
    "U6": Rule(subquery_of_input, 2, ["select"], "class"),
    "U7": Rule(unnesting(unnested_select, "exists", False), 2, ["select"], "conjunct"),
    "U8": Rule(unnesting(unnested_select, "exists", True), 2, ["select"], "conjunct"),
    "U9": Rule(unnesting(unnested_select, "in", False), 2, ["select"], "conjunct"),
    "U10": Rule(unnesting(unnested_select, "in", True), 2, ["select"], "conjunct"),
    "U11": Rule(semijoin_below_join, 2, ["semi", "anti"]),
    "U12": Rule(semijoin_is_join, 1, ["semi"]),
}
"""Of each code what the rule gives, to how many lines it is applied, of which kinds the first of them is, and what its pick means: the place of
a conjunct, or a class that the conjuncts name; None where nothing is picked."""


def given(code, lines, pick, expressions):
    """What the rule of a code gives of expressions."""
    rule = BOOK[code]
    return rule.gives(lines, *([] if rule.pick is None else [pick]), *expressions)
