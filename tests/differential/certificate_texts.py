"""Damaged certificates, handed to `check` and `run`: a byte put to another value, a text that ends early, and random changes of texts with every kind
of line. `check` has to say of each the code and the line that a reader of these tests says (text_reader.py).

A text that is still a certificate's has to be accepted, or refused with a code of its lines; and where it is accepted, `run` has to give the query's
rows.
"""

import itertools

from common import ACCEPTED, ROOT, rows_in
from text_reader import refusal

SEED, ROUND = 38, 1_000
EXAMPLE = ROOT / "examples/hr"
QUERY, HEADER, ROWS = "SELECT DISTINCT badge FROM emp", "badge", [["7"], ["9"], [r"\N"]]
FIRST = """SQLPLAN 1
lines 3
F get 0
F keep 3 0
F distinct 1
plan 3
hdistinct 2
cut 1 3
scan 0 0
end
"""
SECOND = """SQLPLAN 1
lines 15
F get 0
F select [<>(c1,t6f7073);=(c4,i-5)] 1
F join [=(c4,c0);null(c2)] 0 1
F left [exists(3)] 0 1
F semi [in(c4,3,c9);not(or(null(c4),=(n,n),>=(c1,c2)))] 0 1
F anti [=(c4,c0)] [not(and(<(c1,i0),<=(c1,i1)))] 0 1
F keep 0,3,12 0
F distinct 1
F group - 7=count,8=max:5,9=count:2,10=sum:11,11=min:0 2
F group 1,2 - 2
A 2 K1 0 2,1 - keep 3 0
S 2 1 D1 0 2 -
G 3 5
L 0 4 notnull 0
L 0 4 strong 1,7
plan 20
sort 0a,3d
filtersub 5 [exists(2);in(c1,3,c2)] 2
loop 5 left [>(c1,c2)]
iscan 5 3 1 0 [<>(c1,t6f7073)]
merge 2 0 4 [=(c4,c0)]
hgroup 5 1 7=count,8=max:5
scan 3 1
sgroup 5 1 -
hdistinct 5
scan 0 0
filter 5 [null(c1)]
sdistinct 5
iloop 5 3 semi 1 0 [=(c4,c0)]
cut 5 0,3
scan 3 1
hash 7 anti [=(c4,c0)] []
hash 7 inner [=(c4,c0)]
scan 0 0
scan 1 1
scan 2 2
end
"""


BYTES = [b"0", b"1", b",", b";", b" ", b"\n", b"(", b")", b"-", b"c", b"\xc3\xa4"]
NUMBERS = [b"4294967295", b"4294967296", b"9223372036854775808", b"99999999999999999999999", b"0", b"00", b"200001"]


def with_byte(rng, text):
    """The text without a byte, with another one in its place, or with one more."""
    at = rng.randrange(len(text) + 1)
    return text[:at] + rng.choice([b"", bytes([rng.randrange(256)]), rng.choice(BYTES) + text[at : at + 1]]) + text[at + 1 :]


def with_line(rng, text):
    """The text without a line, or with a line once more elsewhere."""
    lines = text.split(b"\n")
    line, to = rng.randrange(len(lines)), rng.randrange(len(lines))
    return b"\n".join(rng.choice([lines[:line] + lines[line + 1 :], lines[:to] + [lines[line]] + lines[to:]]))


def with_words(rng, text):
    """The text with two words in each other's place."""
    words = text.split(b" ")
    a, b = rng.randrange(len(words)), rng.randrange(len(words))
    words[a], words[b] = words[b], words[a]
    return b" ".join(words)


def with_number(rng, text):
    """The text with another number for a digit, as one past a range."""
    digits = [place for place, byte in enumerate(text) if chr(byte).isdigit()]
    if not digits:
        return text
    place = rng.choice(digits)
    return text[:place] + rng.choice(NUMBERS) + text[place + 1 :]


def with_depth(rng, text):
    """The text with deep conditions, or with a deep plan."""
    opened, closed = rng.choice([254, 255, 256, 300]), rng.choice([255, 256])
    deep = rng.choice([1003, 1010, 1023, 1024])
    if rng.random() < 0.5:
        return text.replace(b"[null(c1)]", b"[" + b"not(" * opened + b"null(c1)" + b")" * closed + b"]")
    return text.replace(b"plan 20\n", b"plan %d\n" % (20 + deep) + b"sort 0a\n" * deep)


def damaged(rng, text):
    """The text with a random change or a few."""
    for _ in range(rng.choice([1, 1, 1, 2, 3])):
        text = rng.choice([with_byte, with_byte, with_byte, with_line, with_line, with_words, with_number, with_depth, with_depth])(rng, text)
    return text


def drawn(rng):
    """A damaged text."""
    first, second = FIRST.encode(), SECOND.encode()
    kind = rng.randrange(4)
    if kind == 0:
        place = rng.randrange(len(first))
        return first[:place] + bytes([rng.choice([byte for byte in range(256) if byte != first[place]])]) + first[place + 1 :]
    if kind == 1:
        text = rng.choice([first, second, second])
        return text[: rng.randrange(len(text))]
    return damaged(rng, rng.choice([first, second, second, second]))


def handed(program, command, text, *words):
    """What a command says to a text."""
    (program.folder / "plan.cert").write_bytes(text)
    return program.say(command, EXAMPLE / "schema.json", "query.sql", "plan.cert", *words)


def fault(program, text, counts):
    """What is wrong with what the program says of a text, or nothing."""
    wanted, said = refusal(text), handed(program, "check", text)
    if wanted:
        counts["refused"] += 1
        return "" if tuple(said) == (2, "", wanted) else f"check should say {wanted!r}, and says {said.output}{said.error}"
    if said.status == 2 and said.output == "" and said.error.startswith("refused K0"):
        counts["refused for its lines"] += 1
        return ""
    if said != ACCEPTED:
        return f"the text is a certificate's, and check says {said.output}{said.error}"
    counts["accepted"] += 1
    given = handed(program, "run", text, EXAMPLE / "data")
    is_answer = given.output.startswith(f"{HEADER}\n") and sorted(rows_in(given.output)) == ROWS
    return "" if given.status == 0 and is_answer else f"it is accepted, and run gives {given.output}{given.error}"


def cases(program, rng, counts):
    """What is wrong of each text of a round, or nothing."""
    program.write("query.sql", QUERY)
    assert refusal(FIRST.encode()) is None and refusal(SECOND.encode()) is None, "the reader of these tests refuses its own texts"
    for text in itertools.chain([FIRST.encode(), SECOND.encode()], (drawn(rng) for _ in range(ROUND))):
        counts["texts"] += 1
        found = fault(program, text, counts)
        yield f"{found}\n{text!r}" if found else ""


def told(counts):
    parts = ", ".join(f"{counts[kind]:,} {kind}" for kind in ("refused", "refused for its lines", "accepted"))
    return f"{counts['texts']:,} damaged certificates by check and run, beside a reader of its own ({parts})"
