"""What the differential tests share: the program that is asked, tables with random rows, sqlite3's answers, and how rows are compared."""

import collections
import csv
import json
import pathlib
import subprocess

ROOT = pathlib.Path(__file__).resolve().parents[2]
SECONDS = 60
"""What one call of the program may take. Each takes some milliseconds."""

Column = collections.namedtuple("Column", "name kind not_null")
Table = collections.namedtuple("Table", "name columns unique indexes")
Said = collections.namedtuple("Said", "status output error")


class Program:
    """The program, and a folder with the files that it is handed: schema.json, query.sql, stats.json, plan.cert and a CSV file a table."""

    def __init__(self, path, folder):
        self.path, self.folder = str(path), pathlib.Path(folder)
        self.environment = None
        """The variables of the environment that the program gets; those of these tests, if there are none."""

    def say(self, command, *words, seconds=SECONDS):
        """What the program says to a command, run in the folder."""
        ended = subprocess.run(
            [self.path, command, *map(str, words)],
            cwd=self.folder,
            env=self.environment,
            stdin=subprocess.DEVNULL,
            capture_output=True,
            timeout=seconds,
            check=False,
        )
        return Said(ended.returncode, ended.stdout.decode("utf-8", "backslashreplace"), ended.stderr.decode("utf-8", "backslashreplace").strip())

    def write(self, name, text):
        (self.folder / name).write_text(text, encoding="utf-8")

    def write_tables(self, tables, contents):
        """Writes the schema and the rows of each table, by its name."""
        self.write("schema.json", schema_text(tables))
        for table in tables:
            lines = [[column.name for column in table.columns], *(map(field_of, row) for row in contents[table.name])]
            self.write(f"{table.name}.csv", "".join(",".join(line) + "\n" for line in lines))

    def answer(self, command, query, seconds=SECONDS):
        """What `query` or `meaning` says to a query over the files of the folder."""
        self.write("query.sql", query)
        return self.say(command, "schema.json", "query.sql", ".", seconds=seconds)

    def planned(self, command, query, statistics, limit):
        """What `plan` or `explain` says to a query by statistics, within a limit of lines."""
        self.write("query.sql", query)
        self.write("stats.json", statistics)
        return self.say(command, "schema.json", "query.sql", "stats.json", "--limit", limit)

    def check(self, certificate):
        """What `check` says to a certificate of the last query."""
        self.write("plan.cert", certificate)
        return self.say("check", "schema.json", "query.sql", "plan.cert")

    def run(self, certificate):
        """What `run` says to a certificate of the last query."""
        self.write("plan.cert", certificate)
        return self.say("run", "schema.json", "query.sql", "plan.cert", ".")


ACCEPTED = Said(0, "accepted\n", "")
TOO_LARGE = "refused B10 at 0"
"""What is said to a query with more parts than one may have, which some random queries are."""


def schema_text(tables):
    """The schema as JSON."""
    entries = [
        {
            "name": table.name,
            "columns": [{"name": column.name, "kind": column.kind, "not_null": column.not_null} for column in table.columns],
            "unique": table.unique,
            "indexes": table.indexes,
        }
        for table in tables
    ]
    return json.dumps({"tables": entries})


def field_of(value):
    return r"\N" if value is None else str(value)


def value_of(field):
    """The value of a field of a CSV file; what looks like a number is one."""
    if field == r"\N":
        return None
    return int(field) if field.lstrip("-").isdigit() else field


def rows_in(text):
    """The rows of an answer, as lists of fields."""
    return list(csv.reader(text.splitlines()[1:]))


def sqlite_database(tables, contents):
    """sqlite3's database with these tables, in memory. The module is asked for here, so that where it is missing only these parts fail."""
    import sqlite3

    database = sqlite3.connect(":memory:")
    for table in tables:
        columns = ", ".join(f"{column.name} {'INTEGER' if column.kind == 'INT' else 'TEXT'}" for column in table.columns)
        database.execute(f"CREATE TABLE {table.name}({columns})")
        marks = ", ".join("?" * len(table.columns))
        database.executemany(f"INSERT INTO {table.name} VALUES ({marks})", contents[table.name])
    return database


def takes_having_alone():
    """Whether sqlite3 takes a HAVING without GROUP BY, which it does from 3.39 on."""
    import sqlite3

    return sqlite3.sqlite_version_info >= (3, 39)


def sqlite_rows(database, query):
    """sqlite3's answer, as lists of fields."""
    return [list(map(field_of, row)) for row in database.execute(query)]


def agree(query, wanted, given):
    """Whether these are the rows; in their order if the query asks for one. Nulls are first under ASC with both, and texts go by bytes."""
    return given == wanted if "ORDER BY" in query else sorted(given) == sorted(wanted)


def unlike(query, contents, wanted, said):
    """A difference in words: the query, the tables, the rows that are wanted and what the program says."""
    tables = "".join(f"\n  {name}: {rows}" for name, rows in contents.items())
    given = said.error if said.status else rows_in(said.output)
    return f"{query}{tables}\n  wanted: {wanted}\n  given:  {given}"
