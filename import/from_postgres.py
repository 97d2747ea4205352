#!/usr/bin/env python3
"""Imports a PostgreSQL database: import/from_postgres.py CONNECTION FOLDER [--schema NAME] [--tables A,B] [option ..]

CONNECTION is what psql takes behind -d: a database's name, `host=.. dbname=..` or an address. All is asked by the command psql, in one transaction
that reads; a password comes from PGPASSWORD or ~/.pgpass. Writes schema.json, a CSV file a table, stats.json and import.txt into FOLDER, as sqlplan
reads them. A column with no counterpart is refused, or left out with --skip. import/README.md says what becomes what.
"""

import itertools
import os
import re
import secrets
import subprocess
import sys
import tempfile

from import_folder import Column, Fault, Refusal, Table, chosen, parser_of, run
from import_folder import scaled_field, scaled_note, test_scales, tested_scale, text_field, whole_field

ESCAPES = {"b": "\b", "f": "\f", "n": "\n", "r": "\r", "t": "\t", "v": "\v"}
ISO = re.compile(r"\d{4}-\d\d-\d\d( \d\d:\d\d:\d\d(\.\d+)?)?")
SETTINGS = """
BEGIN ISOLATION LEVEL REPEATABLE READ READ ONLY;
SET LOCAL search_path TO pg_catalog;
SET LOCAL DateStyle TO 'ISO, YMD';
SET LOCAL extra_float_digits TO 1;
SET LOCAL row_security TO off;
SET LOCAL statement_timeout TO 0;
SET LOCAL standard_conforming_strings TO on;
"""
TABLES = """
SELECT c.oid, c.relname, c.relkind IN ('r', 'p'), c.relkind = 'r' AND c.relhassubclass FROM pg_class c JOIN pg_namespace n ON n.oid = c.relnamespace
WHERE n.nspname = {schema} AND c.relkind IN ('r', 'p', 'v', 'm', 'f') AND NOT c.relispartition ORDER BY c.relname COLLATE "C"
"""
COLUMNS = """
WITH RECURSIVE base AS (
  SELECT a.attnum, a.atttypid AS type, a.atttypmod AS modifier FROM pg_attribute a WHERE a.attrelid = {table} AND a.attnum > 0 AND NOT a.attisdropped
  UNION ALL
  SELECT b.attnum, t.typbasetype, CASE WHEN b.modifier = -1 THEN t.typtypmod ELSE b.modifier END FROM base b JOIN pg_type t ON t.oid = b.type
  WHERE t.typtype = 'd')
SELECT a.attname, format_type(a.atttypid, a.atttypmod), CASE WHEN t.typnamespace = 'pg_catalog'::regnamespace THEN t.typname ELSE '' END, b.modifier,
  a.attnotnull, CASE WHEN c.collname = 'default' THEN coalesce(e.j ->> 'daticulocale', e.j ->> 'datlocale', d.datcollate) ELSE c.collname END,
  CASE WHEN c.collname = 'default' THEN d.datcollate IN ('C', 'POSIX') AND coalesce(e.j ->> 'datlocprovider', 'c') = 'c'
    ELSE c.collcollate IN ('C', 'POSIX') AND c.collprovider = 'c' END
FROM base b JOIN pg_type t ON t.oid = b.type AND t.typtype <> 'd' JOIN pg_attribute a ON a.attrelid = {table} AND a.attnum = b.attnum
LEFT JOIN pg_collation c ON c.oid = a.attcollation JOIN pg_database d ON d.datname = current_database() CROSS JOIN to_jsonb(d) AS e(j)
ORDER BY a.attnum
"""
INDEXES = """
SELECT c.relname, i.indisunique, i.indisvalid AND i.indpred IS NULL AND i.indexprs IS NULL AND m.amname IN ('btree', 'hash'), a.attname
FROM pg_index i JOIN pg_class c ON c.oid = i.indexrelid JOIN pg_am m ON m.oid = c.relam
CROSS JOIN unnest(i.indkey) WITH ORDINALITY AS k(number, place) LEFT JOIN pg_attribute a ON a.attrelid = i.indrelid AND a.attnum = k.number
WHERE i.indrelid = {table} AND k.place <= i.indnkeyatts ORDER BY i.indisprimary DESC, c.relname COLLATE "C", k.place
"""


def quoted(name):
    return '"' + name.replace('"', '""') + '"'


def literal(text):
    return "'" + text.replace("'", "''") + "'"


def value_of(field):
    """A value of a line that COPY writes; Null is None."""
    if field == r"\N":
        return None
    return re.sub(r"\\(.)", lambda found: ESCAPES.get(found[1], found[1]), field) if "\\" in field else field


class Session:
    """A psql that is open, in a transaction: one query after another."""

    def __init__(self, connection):
        self.errors, self.mark, self.is_open = tempfile.TemporaryFile(), f"end {secrets.token_hex(16)}".encode() + b"\n", False
        words = ["psql", "-X", "-q", "-w", "-v", "ON_ERROR_STOP=1", "-d", connection]
        environment = {**os.environ, "PGCLIENTENCODING": "UTF8"}
        try:
            self.process = subprocess.Popen(words, stdin=subprocess.PIPE, stdout=subprocess.PIPE, stderr=self.errors, env=environment)
        except FileNotFoundError:
            raise Refusal("there is no command psql, which asks PostgreSQL; it comes with PostgreSQL's client") from None
        self.send(SETTINGS)

    def send(self, text):
        try:
            self.process.stdin.write(text.encode())
            self.process.stdin.flush()
        except BrokenPipeError:
            self.fail()

    def fail(self):
        """Says what psql said last."""
        self.process.wait()
        self.errors.seek(0)
        lines = self.errors.read().decode("utf-8", "backslashreplace").strip().split("\n")
        said = "\n".join(line for line in lines if not re.match(r"LINE \d|\s", line))
        raise Refusal(f"psql: {said or 'ended too early'}".replace("psql: psql: ", "psql: "))

    def rows(self, query):
        """The rows of a query, as lists of texts. What is left of an earlier query is passed over."""
        while self.is_open:
            line = self.process.stdout.readline()
            self.is_open = line not in (self.mark, b"")
        self.send(f"COPY ({query}) TO STDOUT;\n\\echo {self.mark.decode()}")
        self.is_open = True
        for line in self.process.stdout:
            if line == self.mark:
                self.is_open = False
                return
            yield [value_of(field) for field in line[:-1].decode("utf-8", "surrogateescape").split("\t")]
        self.fail()

    def close(self):
        self.process.kill()
        self.process.communicate()
        self.errors.close()


def moment_field(value):
    """The field of a date or a time stamp whose text sorts as it does."""
    if not ISO.fullmatch(value):
        raise Fault(f"holds {value}, whose text doesn't sort as it does: years from 0001 to 9999 do")
    return value


def numeric_scale(modifier):
    """The digits behind the point of a NUMERIC; none where it has no fixed scale."""
    if modifier == -1:
        return None
    scale = (modifier - 4) & 0x7FF
    return max(scale - 0x800 if scale & 0x400 else scale, 0)


PLAIN_TYPES = {
    "int2": ("INT", whole_field, "{}", ""),
    "int4": ("INT", whole_field, "{}", ""),
    "int8": ("INT", whole_field, "{}", ""),
    "bool": ("INT", whole_field, "{}::int", "1 where it is true, 0 where false"),
    "text": ("TEXT", text_field, '{} COLLATE "C"', ""),
    "varchar": ("TEXT", text_field, '{}::text COLLATE "C"', ""),
    "bpchar": ("TEXT", text_field, '{}::text COLLATE "C"', "without the blanks at the end, which don't count there"),
    "date": ("TEXT", moment_field, "{}", "texts as 2024-05-31, which sort as the dates do"),
    "timestamp": ("TEXT", moment_field, "{}", "texts as 2024-05-31 12:30:00.5, which sort as the times do"),
    "timestamptz": ("TEXT", moment_field, "({} AT TIME ZONE 'UTC')", "texts as 2024-05-31 12:30:00.5, in UTC"),
    "time": ("TEXT", text_field, "{}", "texts as 12:30:00.5, which sort as the times do"),
    "uuid": ("TEXT", text_field, "{}", "texts in small hexadecimal digits, which sort as they do"),
}
"""Of each type that stands as it is: the kind, what makes its field, how it is asked, and what is said of it."""
NUMBERS = ("int2", "int4", "int8", "numeric", "float4", "float8")


def plain_or_scaled(declared, its_type, modifier, scale, name):
    """The kind of a column, what makes its fields, how it is asked, and what is said of it."""
    if scale is None and its_type == "numeric":
        scale = numeric_scale(int(modifier))
    if scale is not None:
        if its_type not in NUMBERS:
            raise Fault(f"is {declared}, which has no scale")
        return "INT", scaled_field(tested_scale(scale)), "{}", scaled_note(scale, declared)
    if its_type in NUMBERS and its_type not in PLAIN_TYPES:
        raise Fault(f"is {declared}, which has no fixed scale; --scale {name}=DIGITS gives one")
    if its_type not in PLAIN_TYPES:
        raise Fault(f"is {declared}, which has no counterpart")
    kind, field, asked, note = PLAIN_TYPES[its_type]
    return kind, field, asked, f"{declared}, {note}" if note else ""


class Database:
    """A PostgreSQL database, as it stands when the import begins."""

    def __init__(self, connection, options):
        self.session, self.schema = Session(connection), options.schema
        if self.ask("SELECT current_setting('server_encoding')") == [["SQL_ASCII"]]:
            self.session.send("SET client_encoding TO SQL_ASCII;\n")
        self.about = f"schema {self.schema} of the PostgreSQL database {self.ask('SELECT current_database()')[0][0]}"
        self.notes, self.collations = [], {}
        if not self.ask(f"SELECT 1 FROM pg_namespace WHERE nspname = {literal(self.schema)}"):
            raise Refusal(f"there is no schema {self.schema} in the database")

    def close(self):
        self.session.close()

    def ask(self, query):
        return list(self.session.rows(query))

    def tables(self, options):
        """The tables that are chosen, by name."""
        there = self.ask(TABLES.format(schema=literal(self.schema)))
        others = [name for _, name, is_table, _ in there if is_table == "f"]
        self.notes += [f"views and foreign tables are left out: {', '.join(others)}"] if others and options.tables is None else []
        known = {name: (number, has_heirs) for number, name, is_table, has_heirs in there if is_table == "t"}
        names = chosen(list(known), options, self.about)
        tables = [self.table(name, *known[name], options) for name in names]
        test_scales(tables, options)
        self.notes += [f"compared by {its} in the database, by bytes here: {', '.join(columns)}" for its, columns in self.collations.items()]
        return tables

    def table(self, name, number, has_heirs, options):
        """A table with its columns and lists."""
        columns = [self.column(name, *its, options) for its in self.ask(COLUMNS.format(table=number))]
        unique, indexes = self.lists(name, number)
        if has_heirs == "t":
            self.notes.append(f"{name}: the rows of tables that inherit from it are among its rows, so it has no unique list")
        return Table(name, columns, [] if has_heirs == "t" else unique, indexes, None)

    def column(self, table, name, declared, its_type, modifier, not_null, collation, is_by_bytes, options):
        """A column by its type, or why it has no counterpart. A domain is what it is made of."""
        key = f"{table}.{name}"
        try:
            kind, field, asked, note = plain_or_scaled(declared, its_type, modifier, options.scale.get(key), key)
        except Fault as fault:
            kind, field, asked, note = "", fault, "{}", ""
        if kind and collation is not None and is_by_bytes != "t":
            self.collations.setdefault(collation, []).append(key)
        return Column(name, kind, not_null == "t", field, note, asked.format(quoted(name)))

    def lists(self, table, number):
        """The unique lists and the indexes. Those of expressions, of some rows or of other methods are told."""
        unique, indexes = [], []
        for name, its in itertools.groupby(self.ask(INDEXES.format(table=number)), key=lambda it: it[0]):
            its = list(its)
            if its[0][2] == "f":
                self.notes.append(f"{table}: index {name} left out, since it is partial, over an expression, invalid, or neither btree nor hash")
                continue
            indexes.append([it[3] for it in its])
            unique += [indexes[-1]] if its[0][1] == "t" else []
        return unique, indexes

    def place(self, _table, key):
        return f"ctid {key}"

    def table_name(self, table):
        return f"{quoted(self.schema)}.{quoted(table.source)}"

    def rows(self, table, columns):
        """The rows as they stand in the table, by their ctid."""
        shown = ", ".join(["ctid", *(column.details for column in columns)])
        try:
            for row in self.session.rows(f"SELECT {shown} FROM {self.table_name(table)}"):
                yield row[0], row[1:]
        except Refusal as refusal:
            raise Refusal(f"{table.source}: {refusal}") from None

    def keys(self, table, columns):
        """How many different values without a Null the rows have at the columns, and how many with one."""
        its = [f"{column.details} AS c{at}" for at, column in enumerate(columns)]
        is_null = " OR ".join(f"c{at} IS NULL" for at in range(len(its)))
        different = f"SELECT DISTINCT {', '.join(its)} FROM {self.table_name(table)}"
        counted = self.ask(f"SELECT COUNT(*) FILTER (WHERE NOT ({is_null})), COUNT(*) FILTER (WHERE {is_null}) FROM ({different}) AS d")
        return tuple(map(int, counted[0]))


def main(words=None):
    parser = parser_of(__doc__, "CONNECTION")
    parser.add_argument("--schema", default="public", metavar="NAME", help="the schema whose tables are imported; without this, public")
    return run(parser, words, Database, folds_names=False)


if __name__ == "__main__":
    sys.exit(main())
