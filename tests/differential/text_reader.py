"""A reader of certificates' texts by docs/CERTIFICATES.md, that says of any text which line is refused with which code.

It knows nothing of the program's reader: it goes through each line character by character.
"""

from rule_book import BOOK

RANGE = 2**32
MOST_LINES = MOST_NODES = 200_000
MOST_NESTED = 256
MOST_DEEP = 1_024
RULES = list(BOOK)


class Refused(Exception):
    """Another form (C02), or over a limit (C05), from here on."""


class Line:
    """A line that is gone through from left to right."""

    def __init__(self, text):
        self.text, self.at, self.in_range = text, 0, True

    def passes(self, word):
        if not self.text.startswith(word, self.at):
            return False
        self.at += len(word)
        return True

    def expect(self, word):
        if not self.passes(word):
            raise Refused("C02")

    def one_of(self, words):
        for word in sorted(words, key=len, reverse=True):
            if self.passes(word):
                return word
        raise Refused("C02")

    def number(self, least=0, most=RANGE - 1, sign=1):
        begin = self.at
        while self.at < len(self.text) and self.text[self.at] in "0123456789":
            self.at += 1
        digits = self.text[begin : self.at]
        if not digits or (digits[0] == "0" and len(digits) > 1):
            raise Refused("C02")
        number = sign * int(digits)
        self.in_range = self.in_range and least <= number <= most
        return number

    def listed(self, part):
        if self.passes("-"):
            return []
        parts = [part()]
        while self.passes(","):
            parts.append(part())
        return parts

    def rising(self, part):
        numbers = self.listed(part)
        if any(a >= b for a, b in zip(numbers, numbers[1:])):
            raise Refused("C02")

    def aggregate(self):
        column = self.number()
        self.expect("=")
        if self.one_of(["count", "sum", "min", "max"]) != "count" or self.text.startswith(":", self.at):
            self.expect(":")
            self.number()
        return column

    def term(self):
        kind = self.one_of("citn")
        if kind == "c":
            self.number()
        elif kind == "i" and self.passes("-"):
            if self.number(-(2**63), 2**63 - 1, -1) == 0:
                raise Refused("C02")
        elif kind == "i":
            self.number(-(2**63), 2**63 - 1)
        elif kind == "t":
            begin = self.at
            while self.at < len(self.text) and self.text[self.at] in "0123456789abcdef":
                self.at += 1
            try:
                bytes.fromhex(self.text[begin : self.at]).decode()
            except ValueError:
                raise Refused("C02") from None

    def condition(self, depth):
        if depth > MOST_NESTED:
            raise Refused("C05")
        kind = self.one_of(["not(", "and(", "or(", "null(", "exists(", "in(", "=(", "<>(", "<(", "<=(", ">(", ">=("])
        if kind in ["and(", "or("]:
            self.condition(depth + 1)
            self.expect(",")
            self.condition(depth + 1)
            while self.passes(","):
                self.condition(depth + 1)
        elif kind == "not(":
            self.condition(depth + 1)
        elif kind == "null(":
            self.term()
        elif kind == "exists(":
            self.number()
        elif kind == "in(":
            self.term()
            self.expect(",")
            self.number()
            self.expect(",c")
            self.number()
        else:
            self.term()
            self.expect(",")
            self.term()
        self.expect(")")

    def conditions(self):
        self.expect("[")
        before = None
        while not self.passes("]"):
            if before is not None:
                self.expect(";")
            begin = self.at
            self.condition(1)
            text = self.text[begin : self.at]
            if text.startswith("and(") or (before is not None and text <= before):
                raise Refused("C02")
            before = text
            if not self.text.startswith((";", "]"), self.at):
                raise Refused("C02")

    def parts(self, kinds):
        """The parts of a line, by a letter each, with spaces between them."""
        for place, kind in enumerate(kinds):
            if place:
                self.expect(" ")
            {
                "n": self.number,
                "N": lambda: self.listed(self.number),
                "C": lambda: self.rising(self.number),
                "G": lambda: self.rising(self.aggregate),
                "B": self.conditions,
                "R": lambda: self.one_of(RULES),
                "E": self.expression,
                "S": lambda: self.parts("RnNN"),
            }[kind]()

    def expression(self):
        kinds = dict(get="n", select="Bn", join="Bnn", left="Bnn", semi="Bnn", anti="BBnn", keep="Cn", distinct="n", group="CGn")
        kind = self.one_of([kind + " " for kind in kinds])
        self.parts(kinds[kind.strip()])

    def fact(self):
        kinds = {"notnull": "n", "weak": "C", "strong": "C"}
        self.parts(kinds[self.one_of([kind + " " for kind in kinds]).strip()])

    def derivation_line(self):
        kinds = {"F": "E", "A": "nSE", "S": "nnS", "G": "nn"}
        kind = self.one_of("FASGL")
        self.expect(" ")
        if kind == "L":
            self.parts("nn")
            self.expect(" ")
            self.fact()
        else:
            self.parts(kinds[kind])

    def join(self):
        self.expect(" ")
        return "BB" if self.one_of(["inner", "left", "semi", "anti"]) == "anti" else "B"

    def node(self):
        """How many inputs follow."""
        kinds = dict(scan=("nn", 0), iscan=("nnnnB", 0), filter=("nB", 1), cut=("nC", 1), merge=("nnnB", 2), hdistinct=("n", 1), sdistinct=("n", 1))
        kinds.update(hgroup=("nCG", 1), sgroup=("nCG", 1))
        kind = self.one_of([kind + " " for kind in [*kinds, "sort", "filtersub", "loop", "hash", "iloop"]]).strip()
        if kind in kinds:
            self.parts(kinds[kind][0])
            return kinds[kind][1]
        if kind == "sort":
            self.listed(lambda: (self.number(), self.one_of("ad")))
            return 1
        if kind == "filtersub":
            self.parts("nB")
            self.expect(" ")
            return self.number() + 1
        self.parts("nn" if kind == "iloop" else "n")
        lists = self.join()
        self.expect(" ")
        self.parts("nn" + lists if kind == "iloop" else lists)
        return 1 if kind == "iloop" else 2


class Text:
    """A whole text, which is gone through line by line."""

    def __init__(self, data):
        self.lines, self.number = data.split(b"\n"), 0

    def line(self):
        self.number += 1
        if self.number == len(self.lines):
            raise Refused("C04")
        text = self.lines[self.number - 1].decode(errors="replace")
        if self.number > 1 and "\ufffd" in text:
            raise Refused("C02")
        return Line(text)

    def whole_line(self, read):
        """What is read of a line, of which nothing may be left, and whether its numbers are in their ranges."""
        own = self.line()
        found = read(own)
        if own.at < len(own.text):
            raise Refused("C02")
        return found, own.in_range

    def count(self, word, most):
        def read(own):
            own.expect(word + " ")
            return own.number()

        found, _ = self.whole_line(read)
        if found > most:
            raise Refused("C05")
        return found

    def derivation(self):
        for _ in range(self.count("lines", MOST_LINES)):
            _, is_in_range = self.whole_line(Line.derivation_line)
            if not is_in_range:
                raise Refused("C03")

    def plan(self):
        left = self.count("plan", MOST_NODES)
        if left == 0:
            raise Refused("C02")
        wanted = [1]  # How many inputs are still wanted, of each node from the root down.
        while left:
            inputs, is_in_range = self.whole_line(Line.node)
            while wanted[-1] == 0:
                wanted.pop()
            if len(wanted) > MOST_DEEP:
                raise Refused("C05")
            if not is_in_range:
                raise Refused("C03")
            wanted[-1] -= 1
            wanted.append(inputs)
            left -= 1
            if sum(wanted) > left or (sum(wanted) == 0 and left):
                raise Refused("C02")

    def end(self):
        if self.line().text != "end":
            raise Refused("C02")
        if self.lines[self.number :] != [b""]:
            self.number += 1
            raise Refused("C02")


def refusal(data):
    """The code and the line of a text's first fault; nothing of a certificate's."""
    text = Text(data)
    try:
        if text.line().text != "SQLPLAN 1":
            raise Refused("C01")
        text.derivation()
        text.plan()
        text.end()
    except Refused as fault:
        return f"refused {fault} line {text.number}"
    return None
