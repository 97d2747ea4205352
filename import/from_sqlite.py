#!/usr/bin/env python3
"""Imports an SQLite database: import/from_sqlite.py FILE FOLDER [--tables A,B] [option ..]

Writes schema.json, a CSV file a table, stats.json and import.txt into FOLDER, as sqlplan reads them. What a column is comes from the values that
stand in it, since SQLite keeps any value anywhere; a column with no counterpart is refused, or left out with --skip. import/README.md says what
becomes what.
"""

import pathlib
import re
import sqlite3
import sys

from import_folder import Column, Fault, Refusal, Table, chosen, parser_of, run
from import_folder import scaled_field, scaled_note, test_scales, tested_scale, text_field, whole_field

DECIMAL = re.compile(r"\s*(?:DECIMAL|NUMERIC|DEC|NUMBER)\s*\(\s*\d+\s*(?:,\s*(\d+)\s*)?\)", re.IGNORECASE)
DATES = re.compile(r"DATE|TIME", re.IGNORECASE)
REFUSED_TEXTS = re.compile(r"JSON|NUMERIC|DECIMAL|NUMBER", re.IGNORECASE)
ROW_NUMBERS = ("rowid", "_rowid_", "oid")


def quoted(name):
    return '"' + name.replace('"', '""') + '"'


def affinity(declared):
    """The affinity of a column by its declared type (section 3.1 of SQLite's page on datatypes)."""
    words = [(("INT",), "INTEGER"), (("CHAR", "CLOB", "TEXT"), "TEXT"), (("BLOB",), "BLOB"), (("REAL", "FLOA", "DOUB"), "REAL")]
    declared = declared.upper()
    return next((name for parts, name in words if any(part in declared for part in parts)), "NUMERIC" if declared else "BLOB")


def kind_without_values(declared):
    """The kind of a column that holds no value."""
    known = affinity(declared)
    if known == "INTEGER" or "BOOL" in declared.upper():
        return "INT", ""
    if known == "TEXT":
        return "TEXT", ""
    if DATES.search(declared):
        return "TEXT", f"{declared}, which holds no value, as texts"
    raise Fault(f"holds no value, and its type {declared or '(none)'} says neither whole numbers nor texts")


def kind_of_texts(declared):
    known = affinity(declared)
    if known in ("INTEGER", "REAL") or REFUSED_TEXTS.search(declared):
        raise Fault(f"is declared {declared} and holds texts")
    return "TEXT", f"{declared}, the texts as they stand" if known == "NUMERIC" else ""


class Database:
    """An SQLite database, as it stands when the import begins."""

    def __init__(self, path, _options):
        if not pathlib.Path(path).is_file():
            raise Refusal(f"{path}: there is no such file")
        self.about, self.notes, self.collations = f"the SQLite database {path}", [], {}
        try:
            self.connection = sqlite3.connect(f"{pathlib.Path(path).resolve().as_uri()}?mode=ro", uri=True, isolation_level=None)
            self.connection.text_factory = lambda raw: raw.decode("utf-8", "surrogateescape")
            self.ask("BEGIN")
            self.ask("SELECT COUNT(*) FROM sqlite_master")
        except sqlite3.Error as error:
            raise Refusal(f"{path}: {error}") from None

    def close(self):
        self.connection.close()

    def ask(self, query, *values):
        """The rows of a query."""
        try:
            return list(self.connection.execute(query, values))
        except sqlite3.Error as error:
            raise Refusal(f"{self.about}: {error}") from None

    def tables(self, options):
        """The tables that are chosen, in the order in which they were made."""
        made = self.ask("SELECT type, name, sql FROM sqlite_master WHERE type IN ('table', 'view') ORDER BY rowid")
        definitions = {name: sql for kind, name, sql in made if kind == "table" and not name.startswith("sqlite_")}
        views = [name for kind, name, _ in made if kind == "view"]
        self.notes += [f"views are left out: {', '.join(views)}"] if views and options.tables is None else []
        names = chosen(list(definitions), options, self.about)
        virtual = [name for name in names if re.match(r"\s*CREATE\s+VIRTUAL", definitions[name], re.IGNORECASE)]
        if virtual:
            raise Refusal(f"{', '.join(virtual)}: a virtual table can't be imported; --tables chooses others")
        tables = [self.table(name, definitions[name], options) for name in names]
        test_scales(tables, options)
        self.notes += [f"compared by {its} in the database, by bytes here: {', '.join(columns)}" for its, columns in self.collations.items()]
        return tables

    def table(self, name, definition, options):
        """A table with its columns and lists."""
        described = [it for it in self.ask("SELECT name, type, \"notnull\", pk, hidden FROM pragma_table_xinfo(?) ORDER BY cid", name) if it[4] != 1]
        primary = [column for column, _, _, place, _ in sorted(described, key=lambda it: it[3]) if place]
        unique, indexes, has_own_key = self.lists(name)
        if primary and not has_own_key:
            unique, indexes = [primary, *unique], [primary, *indexes]
        key = self.row_number(name, {column.lower() for column, *_ in described}) or list(map(quoted, primary))
        table = Table(name, [], unique, indexes, key)
        collations = self.collations_of(name, definition, [column for column, *_ in described])
        for column, declared, not_null, place, _ in described:
            table.columns.append(self.column(table, column, declared, bool(not_null), bool(place), options))
            if collations.get(column, "BINARY").upper() != "BINARY" and table.columns[-1].kind == "TEXT":
                self.collations.setdefault(collations[column], []).append(f"{name}.{column}")
        return table

    def row_number(self, table, columns):
        """By what a row's number is asked, in a table that numbers its rows."""
        for name in ROW_NUMBERS:
            if name not in columns:
                try:
                    self.connection.execute(f"SELECT {name} FROM {quoted(table)} LIMIT 0")
                    return [name]
                except sqlite3.OperationalError:
                    return None
        return None

    def lists(self, table):
        """The unique lists and the indexes, and whether the primary key has an index of its own. Those of expressions or of some rows are told."""
        unique, indexes, has_own_key = [], [], False
        for name, is_unique, origin, partial in self.ask('SELECT name, "unique", origin, partial FROM pragma_index_list(?) ORDER BY seq DESC', table):
            its = [column for column, in self.ask("SELECT name FROM pragma_index_xinfo(?) WHERE key ORDER BY seqno", name)]
            has_own_key = has_own_key or origin == "pk"
            if partial or None in its:
                self.notes.append(f"{table}: index {name} left out, since it is {'partial' if partial else 'over an expression'}")
                continue
            indexes.append(its)
            unique += [its] if is_unique else []
        return unique, indexes, has_own_key

    def collations_of(self, table, definition, columns):
        """The collation of each column: that of an index over it, in a table that is defined alike."""
        if not re.search(r"\bCOLLATE\b", definition, re.IGNORECASE):
            return {}
        alike, found = sqlite3.connect(":memory:"), {}
        try:
            alike.execute(definition)
            for at, column in enumerate(columns):
                alike.execute(f"CREATE INDEX index{at} ON {quoted(table)}({quoted(column)})")
                found[column] = alike.execute("SELECT coll FROM pragma_index_xinfo(?) WHERE key", (f"index{at}",)).fetchone()[0]
        except sqlite3.Error as error:
            self.notes.append(f"{table}: its collations aren't known ({error}); texts are compared by bytes here")
        alike.close()
        return found

    def column(self, table, name, declared, not_null, is_primary, options):
        """A column, by its declared type and the types of its values; or why it has no counterpart."""
        types = dict(self.ask(f"SELECT typeof({quoted(name)}), COUNT(*) FROM {quoted(table.source)} GROUP BY 1"))
        nulls = types.pop("null", 0)
        scale, found = options.scale.get(f"{table.source}.{name}"), DECIMAL.match(declared)
        if scale is None and found:
            scale = int(found[1] or 0)
        try:
            if scale is None:
                kind, field, note = self.plain(table, name, declared, types)
            else:
                kind, field, note = self.scaled(table, name, declared, types, scale)
        except Fault as fault:
            kind, field, note = "", fault, ""
        return Column(name, kind, not_null or is_primary and not nulls, field, note, None)

    def scaled(self, table, name, declared, types, scale):
        """A column whose numbers have a fixed scale."""
        for other in ("text", "blob"):
            if other in types:
                raise Fault(f"is of numbers with {scale} digits behind the point and holds a {other}, at {self.first(table, name, other)}")
        return "INT", scaled_field(tested_scale(scale)), scaled_note(scale, declared or "numbers")

    def plain(self, table, name, declared, types):
        """A column whose values stand as they are."""
        if not types:
            kind, note = kind_without_values(declared)
            return kind, whole_field if kind == "INT" else text_field, note
        if "real" in types and types.keys() <= {"real", "integer"}:
            place, option = self.first(table, name, "real"), f"--scale {table.source}.{name}=DIGITS"
            raise Fault(f"holds REAL numbers, the first at {place}, which have no fixed scale; {option} gives one")
        if len(types) > 1:
            rare = min(types, key=types.get)
            place = self.first(table, name, rare)
            raise Fault(f"holds values of different types, {' and '.join(sorted(types))}: a value of type {rare} is at {place}")
        if "blob" in types:
            raise Fault(f"holds BLOBs, the first at {self.first(table, name, 'blob')}")
        if "text" in types:
            kind, note = kind_of_texts(declared)
            return kind, text_field, note
        return "INT", whole_field, f"{declared}, the whole numbers as they stand" if DATES.search(declared) else ""

    def first(self, table, name, its_type):
        """Where the first value of a type stands."""
        key = ", ".join(table.details)
        found = self.ask(f"SELECT {key} FROM {quoted(table.source)} WHERE typeof({quoted(name)}) = ? ORDER BY {key} LIMIT 1", its_type)
        return self.place(table, found[0])

    def place(self, table, key):
        return ", ".join(f"{name} {value!r}" for name, value in zip(table.details, key))

    def rows(self, table, columns):
        """The rows by their number, or by the primary key."""
        key, shown = ", ".join(table.details), ", ".join([*table.details, *(quoted(column.source) for column in columns)])
        try:
            for row in self.connection.execute(f"SELECT {shown} FROM {quoted(table.source)} ORDER BY {key}"):
                yield row[: len(table.details)], row[len(table.details) :]
        except sqlite3.Error as error:
            raise Refusal(f"{self.about}, table {table.source}: {error}") from None

    def keys(self, table, columns):
        """How many different values without a Null the rows have at the columns, and how many with one."""
        its = [f"{quoted(column.source)} COLLATE BINARY AS c{at}" for at, column in enumerate(columns)]
        is_null = " OR ".join(f"c{at} IS NULL" for at in range(len(its)))
        different = f"SELECT DISTINCT {', '.join(its)} FROM {quoted(table.source)}"
        return self.ask(f"SELECT COUNT(CASE WHEN {is_null} THEN NULL ELSE 1 END), COUNT(CASE WHEN {is_null} THEN 1 END) FROM ({different})")[0]


def main(words=None):
    return run(parser_of(__doc__, "FILE"), words, Database, folds_names=True)


if __name__ == "__main__":
    sys.exit(main())
