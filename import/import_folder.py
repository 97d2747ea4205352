"""What both imports share: names, values as fields, and the folder that they write: schema.json, a CSV file a table, stats.json and import.txt.

A database is an object with `about`, `notes`, and these functions: `tables(options)` gives its tables, `rows(table, columns)` the key and the values
of each row, `place(table, key)` where that row stands, in words, `keys(table, columns)` how many different values the rows have at columns, those
without a Null and those with one, and `close()` ends it.
"""

import argparse
import collections
import decimal
import json
import os
import pathlib
import re
import shlex
import shutil
import sys
import tempfile

RESERVED = frozenset(
    "and as asc by count cross desc distinct exists from full group having in inner is join left max min natural not null on or order outer right "
    "select sum where".split()
)
NAME = re.compile(r"[a-z_][a-z0-9_]{0,62}")
UNQUOTED = re.compile(r'[^,"\n\r]+').fullmatch
CONTROLS = re.compile(r"[\x00-\x09\x0b-\x1f\x7f-\x9f]")
LARGEST = 2**63 - 1
MOST = {"tables": 64, "columns": 64, "unique": 16, "indexes": 16, "listed": 8, "rows": 1_000_000, "scale": 18, "bytes": 64 << 20}
"""What the program reads at most (docs/REFUSALS.md: S05, T07, and the bytes of a record)."""
ROWS_OF_A_PAGE, ENTRIES_OF_A_PAGE = 50, 100
"""As the program counts pages (crates/base/statistics)."""
EXACT = decimal.Context(prec=2_000, traps=[decimal.InvalidOperation, decimal.Inexact])

Table = collections.namedtuple("Table", "source columns unique indexes details")
"""A table of the database: its columns, and lists of their names in the database."""
Column = collections.namedtuple("Column", "source kind not_null field note details")
"""A column: `field` makes the field of a value, or raises a Fault. `details` are the database's own."""


class Refusal(Exception):
    """Why nothing is imported: sentences, a line each."""


class Fault(Exception):
    """What is wrong with a column or with a value of it: the end of a sentence that begins with its name."""


class BadValue(Exception):
    """A column, by its place, that has to be left out for a value."""

    def __init__(self, column, why):
        super().__init__(why)
        self.column, self.why = column, why


def whole_field(value):
    """The field of a whole number, which every one of 64 bits is."""
    return str(value)


def text_field(value):
    """The field of a text; bytes that are no UTF-8 stand in it as surrogates."""
    if "\0" in value:
        raise Fault("holds a text with the character NUL")
    try:
        value.encode("utf-8")
    except UnicodeEncodeError:
        raise Fault("holds a text that isn't UTF-8") from None
    return "\\" + value if value.startswith("\\") else value


def scaled_field(scale):
    """What makes the field of a number with so many digits behind its point: the whole number that is 10^scale times as much."""

    def field(value):
        try:
            number = decimal.Decimal(str(value))
            number = number.scaleb(scale, EXACT) if number.is_finite() else None
        except decimal.DecimalException:
            number = None
        if number is None:
            raise Fault(f"holds {value}, which is no number with digits")
        whole = int(number)
        if whole != number:
            raise Fault(f"holds {value}, which has more than {how_many(scale, 'digit')} behind its point")
        if not -LARGEST - 1 <= whole <= LARGEST:
            raise Fault(f"holds {value}, and {10**scale} times as much doesn't fit into 64 bits")
        return str(whole)

    return field


def scaled_note(scale, declared):
    """What is said of a column of scaled numbers."""
    return f"{declared}, as whole numbers: {10**scale} times the value" if scale else f"{declared}, as whole numbers"


def tested_scale(scale):
    if scale > MOST["scale"]:
        raise Fault(f"has {scale} digits behind the point, and 64 bits hold {MOST['scale']} at most")
    return scale


def repeated(names):
    """The names that come more than once."""
    return sorted(name for name, times in collections.Counter(names).items() if times > 1)


def visible(text):
    """The text without control characters but line feeds, since a name may have some that steer a terminal."""
    return CONTROLS.sub(lambda found: f"\\x{ord(found[0]):02x}", text)


def how_many(count, what):
    return f"{count:,} {what}{'' if count == 1 else 's'}"


class Names:
    """The names of the import: those of the database, but where --rename gives others."""

    def __init__(self, options):
        self.renamed, self.used, self.folds = options.rename, set(), options.folds_names

    def name_of(self, source, *table):
        """The name of a table, or of a column of a table."""
        key = ".".join([*table, source])
        self.used.update({key} & set(self.renamed))
        name = self.renamed.get(key, source.lower() if self.folds and source.isascii() else source)
        if name in RESERVED or not NAME.fullmatch(name):
            why = "is a reserved word" if name in RESERVED else "is no name: small letters, digits and _, at most 63, and no digit in front"
            raise Fault(f"{key}: {name} {why}; --rename {shlex.quote(f'{key}=NAME')} gives another")
        return name

    def unused(self):
        return [f"--rename {key}: there is no such table or column, or it is left out" for key in self.renamed if key not in self.used]


def csv_line(fields):
    """A record. A field is quoted where it has to be, and where it is empty: the line of a single empty field would be blank."""
    return ",".join([it if UNQUOTED(it) else '"' + it.replace('"', '""') + '"' for it in fields]) + "\n"


def fields_of(table, row, columns, place):
    """The fields of a row. `place` says in words where it stands."""
    for at, (column, value) in enumerate(zip(columns, row)):
        try:
            if value is None and column.not_null:
                raise Fault("is NOT NULL and holds Null")
            yield r"\N" if value is None else column.field(value)
        except Fault as fault:
            raise BadValue(at, f"{table.source}.{column.source} {fault}, at {place()}") from None


def write_rows(path, database, table, columns, names):
    """Writes a table's file, and gives how many rows it has."""
    count = 0
    with open(path, "w", encoding="utf-8", newline="") as file:
        file.write(csv_line(names))
        for key, row in database.rows(table, columns):
            count += 1
            line = csv_line(fields_of(table, row, columns, lambda key=key: database.place(table, key)))
            if len(line) * 4 > MOST["bytes"] and len(line.encode()) > MOST["bytes"]:
                place = database.place(table, key)
                raise Refusal(f"{table.source} has a row of more than {MOST['bytes']:,} bytes, at {place}, which the program doesn't read")
            if count > MOST["rows"]:
                raise Refusal(f"{table.source} has more than {MOST['rows']:,} rows, the most that the program reads")
            file.write(line)
    return count


class Import:
    """An import under way: into a folder that nobody sees yet."""

    def __init__(self, database, options, folder):
        self.database, self.options, self.folder = database, options, folder
        self.notes, self.rows, self.schema, self.statistics = [], 0, [], {}

    def leave_out(self, why):
        """A column is left out for a value, if that is allowed."""
        if not self.options.skip:
            raise Refusal(f"{why}\n--skip leaves this column out")
        self.notes.append(f"left out: {why}")

    def usable(self, tables):
        """The tables without the columns that have no counterpart."""
        is_usable = lambda column: not isinstance(column.field, Fault)
        faults = [f"{table.source}.{column.source} {column.field}" for table in tables for column in table.columns if not is_usable(column)]
        if faults and not self.options.skip:
            raise Refusal("\n".join([*faults, f"--skip leaves {'this column' if len(faults) == 1 else f'these {len(faults)} columns'} out"]))
        self.notes += [f"left out: {it}" for it in faults]
        return [table._replace(columns=list(filter(is_usable, table.columns))) for table in tables]

    def named(self, tables):
        """The tables' names, each with those of its columns."""
        names, named, wrong = Names(self.options), [], []
        for table in tables:
            given = []
            for key in [[table.source], *([column.source, table.source] for column in table.columns)]:
                try:
                    given.append(names.name_of(*key))
                except Fault as fault:
                    wrong.append(str(fault))
            wrong += [f"{table.source}: two columns would have the name {it}" for it in repeated(given[1:])]
            named.append((given[0] if given else "", given[1:]))
        wrong += [f"two tables would have the name {it}" for it in repeated(its[0] for its in named)] if not wrong else []
        if wrong or names.unused():
            raise Refusal("\n".join([*wrong, *names.unused()]))
        return named

    def write_table(self, table, name, named):
        """Writes a table's file, and keeps its entries. A column that has to be left out for a value begins it again."""
        columns, named = list(table.columns), list(named)
        while True:
            if not 0 < len(columns) <= MOST["columns"]:
                raise Refusal(f"{table.source} has {len(columns)} columns to import; the program reads 1 to {MOST['columns']} of a table")
            try:
                count = write_rows(self.folder / f"{name}.csv", self.database, table, columns, named)
                break
            except BadValue as bad:
                self.leave_out(bad.why)
                del columns[bad.column], named[bad.column]
        self.rows += count
        self.notes += [f"{name}.{its}: {column.note}" for its, column in zip(named, columns) if column.note]
        self.keep(table._replace(columns=columns), name, named, count)

    def keep(self, table, name, named, count):
        """The table's entries in the schema and in the statistics."""
        unique, indexes = self.lists(table, "unique"), self.lists(table, "indexes")
        names = {column.source: its for column, its in zip(table.columns, named)}
        spelled = lambda lists: [[names[it] for it in its] for its in lists]
        columns = [{"name": its, "kind": it.kind, "not_null": it.not_null} for it, its in zip(table.columns, named)]
        self.schema.append({"name": name, "columns": columns, "unique": spelled(unique), "indexes": spelled(indexes)})
        keys = {column.source: self.database.keys(table, [column]) for column in table.columns}
        by_source = {column.source: column for column in table.columns}
        entries = [keys[its[0]] if len(its) == 1 else self.database.keys(table, [by_source[it] for it in its]) for its in indexes]
        self.statistics[name] = {
            "rows": count,
            "pages": -(-count // ROWS_OF_A_PAGE),
            "indexes": [{"keys": sum(its), "pages": -(-count // ENTRIES_OF_A_PAGE)} for its in entries],
            "columns": {names[source]: {"keys": its[0]} for source, its in keys.items()},
        }

    def lists(self, table, which):
        """The unique lists or the indexes that the schema can have; the others are told."""
        there, kept = {column.source for column in table.columns}, []
        for its in map(list, map(dict.fromkeys, getattr(table, which))):
            told = f"{table.source}: {'unique list' if which == 'unique' else 'index'} ({', '.join(its)}) left out"
            if not there.issuperset(its):
                self.notes.append(f"{told}, as a column of it is")
            elif its not in kept and (len(its) > MOST["listed"] or len(kept) == MOST[which]):
                self.notes.append(f"{told}: the program reads {MOST[which]} of a table, with {MOST['listed']} columns each")
            elif its not in kept:
                kept.append(its)
        return kept

    def write_all(self):
        """Writes all files."""
        tables = self.usable(self.database.tables(self.options))
        if not 0 < len(tables) <= MOST["tables"]:
            raise Refusal(f"there are {len(tables)} tables to import; the program reads 1 to {MOST['tables']}, and --tables chooses")
        named = self.named(tables)
        for table, (name, its) in zip(tables, named):
            self.write_table(table, name, its)
        self.notes += self.database.notes
        (self.folder / "schema.json").write_text(schema_text(self.schema), encoding="utf-8")
        (self.folder / "stats.json").write_text(statistics_text(self.statistics), encoding="utf-8")
        lines = [f"imported from {self.database.about}", *self.notes]
        (self.folder / "import.txt").write_text("".join(f"{visible(it)}\n" for it in lines), encoding="utf-8", errors="backslashreplace")


def schema_text(tables):
    """The schema, a line a column."""
    parts = []
    for table in tables:
        columns = ",\n               ".join(map(json.dumps, table["columns"]))
        rest = f'"unique": {json.dumps(table["unique"])}, "indexes": {json.dumps(table["indexes"])}'
        parts.append(f'  {{"name": {json.dumps(table["name"])},\n   "columns": [{columns}],\n   {rest}}}')
    return '{"tables": [\n' + ",\n".join(parts) + "\n]}\n"


def statistics_text(tables):
    """The statistics, a line a table."""
    return '{"tables": {\n' + ",\n".join(f"  {json.dumps(name)}: {json.dumps(its)}" for name, its in tables.items()) + "\n}}\n"


def tested_folder(folder):
    """The folder that is to be written, which may be there if it is empty."""
    path = pathlib.Path(os.path.abspath(folder))
    if path.is_symlink() or path.exists() and not path.is_dir():
        raise Refusal(f"{folder} is there, and is {'a link' if path.is_symlink() else 'no folder'}")
    if path.is_dir() and any(path.iterdir()):
        raise Refusal(f"{folder} is not empty")
    if path == pathlib.Path.cwd():
        raise Refusal(f"{folder} is the current folder; name one that can be made")
    if not path.parent.is_dir():
        raise Refusal(f"{folder}: there is no folder {path.parent}")
    return path


def pairs(option, kind=str):
    """What reads OLD=NEW, once or more, into a dictionary."""

    class Pairs(argparse.Action):
        def __call__(self, parser, options, value, option_string=None):
            old, _, new = value.rpartition("=")
            try:
                getattr(options, self.dest)[old] = kind(new)
            except ValueError:
                old = ""
            if not old:
                parser.error(f"{option_string} {value}: {option} is wanted")

    return Pairs


def digits(text):
    if not re.fullmatch(r"\d{1,2}", text) or int(text) > MOST["scale"]:
        raise ValueError
    return int(text)


def parser_of(description, source):
    """The command line of an import: what both have."""
    parser = argparse.ArgumentParser(description=description, formatter_class=argparse.RawDescriptionHelpFormatter)
    parser.add_argument("source", metavar=source)
    parser.add_argument("folder", metavar="FOLDER", help="is made; it may be there if it is empty")
    parser.add_argument("--tables", metavar="A,B", help="the tables to import; without this, all")
    parser.add_argument(
        "--rename", metavar="OLD=NEW", default={}, action=pairs("TABLE=NAME or TABLE.COLUMN=NAME"), help="a name, of a table or of table.column"
    )
    parser.add_argument(
        "--scale", metavar="TABLE.COLUMN=DIGITS", default={}, action=pairs("TABLE.COLUMN=DIGITS, 0 to 18,", digits), help="digits behind the point"
    )
    parser.add_argument("--skip", action="store_true", help="leave out the columns that have no counterpart, which are refused else")
    return parser


def chosen(there, options, about):
    """The tables that are to be imported, of those that are there; without --tables, all."""
    if options.tables is None:
        return there
    wanted = dict.fromkeys(it.strip() for it in options.tables.split(","))
    fold = str.lower if options.folds_names else str
    known = {fold(it): it for it in there}
    unknown = [it for it in wanted if fold(it) not in known]
    if unknown:
        raise Refusal(f"{about} has no table {', '.join(unknown)}; it has {', '.join(there) or 'none'}")
    return [it for it in there if fold(it) in set(map(fold, wanted))]


def test_scales(tables, options):
    """Refuses a --scale of a column that isn't there."""
    there = {f"{table.source}.{column.source}" for table in tables for column in table.columns}
    unknown = [f"--scale {key}: there is no such column, by its name in the database" for key in options.scale if key not in there]
    if unknown:
        raise Refusal("\n".join(unknown))


def import_into(path, open_database, options):
    """Imports into a temporary folder beside the one that is wanted, which takes its name when all is written."""
    database = open_database(options.source, options)
    temporary = pathlib.Path(tempfile.mkdtemp(prefix=f".{path.name}-", dir=path.parent))
    try:
        done = Import(database, options, temporary)
        done.write_all()
        mask = os.umask(0)
        os.umask(mask)
        temporary.chmod(0o777 & ~mask)
        temporary.rename(path)
        return done
    finally:
        database.close()
        shutil.rmtree(temporary, ignore_errors=True)


def run(parser, words, open_database, folds_names):
    """Runs an import by the words of its command line, and gives the status."""
    options = parser.parse_args(words)
    options.folds_names = folds_names
    try:
        done = import_into(tested_folder(options.folder), open_database, options)
    except Refusal as refusal:
        print(visible(str(refusal)), file=sys.stderr)
        return 1
    except KeyboardInterrupt:
        print("broken off", file=sys.stderr)
        return 130
    except OSError as error:
        print(f"{error.filename or options.folder}: {error.strerror or error}", file=sys.stderr)
        return 1
    for note in done.notes:
        print(visible(note), file=sys.stderr)
    print(f"{options.folder}: {how_many(len(done.schema), 'table')}, {how_many(done.rows, 'row')}")
    return 0
