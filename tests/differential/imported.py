"""SQLite files with eleven tables, by import/from_sqlite.py: report queries over what it writes, beside sqlite3's answer over its own file.

What can't be imported has to be refused, with nothing written. The statistics are compared with the files that were written, and what
import/README.md shows with what is printed.
"""

import contextlib
import csv
import io
import json
import pathlib
import re
import shlex
import subprocess
import sys
import tempfile

import shop_reports
from common import ROOT, Said, agree

SEED = 66
SCRIPT = ROOT / "import/from_sqlite.py"
PAGE = ROOT / "import/README.md"
SECONDS = 60
OWN_TABLES = """
CREATE TABLE "Order"("Group" TEXT NOT NULL, "key" BIGINT, Weight REAL, stored BLOB, PRIMARY KEY ("Group", "key")) WITHOUT ROWID;
CREATE TABLE loose(id, worded CLOB UNIQUE, counted, at DATETIME, price DECIMAL(19,4) NOT NULL DEFAULT 0.0005);
CREATE INDEX partial ON loose(at) WHERE at IS NOT NULL;
CREATE UNIQUE INDEX expression ON loose(id, counted + 1);
CREATE VIEW shown AS SELECT 1;
"""
OPTIONS = ["--rename", "Order=orders", "--rename", "Order.Group=groups", "--scale", "Order.Weight=3", "--skip"]
OWN_QUERIES = [
    "SELECT groups, key, weight FROM orders ORDER BY groups DESC, key",
    "SELECT groups, COUNT(*) AS n, MIN(key) AS least, MAX(weight) AS most FROM orders WHERE weight > 500 GROUP BY groups ORDER BY groups",
    "SELECT a.worded, b.id, a.price FROM loose a LEFT JOIN loose b ON a.counted = b.id AND a.price > b.price",
    "SELECT id, at FROM loose WHERE at > '2024-02-28 12:00:00' ORDER BY at, id",
]
NOTES = [
    "left out: Order.stored holds BLOBs",
    "orders.weight: REAL, as whole numbers: 1000 times",
    "loose.price: DECIMAL(19,4), as whole numbers: 10000 times",
    "loose.at: DATETIME, the texts as they stand",
    "index partial left out",
    "index expression left out",
    "views are left out: shown",
]
ONE = "CREATE TABLE t(a INTEGER, b {}); INSERT INTO t VALUES (1, {})"
REFUSED = [
    (ONE.format("REAL", "1.5"), [], "t.b holds REAL numbers, the first at rowid 1"),
    (ONE.format("", "1), (2, 'x'), (3, 4"), [], "t.b holds values of different types, integer and text: a value of type text is at rowid 2"),
    (ONE.format("BLOB", "x'00'"), [], "t.b holds BLOBs"),
    (ONE.format("TEXT", "CAST(x'610062' AS TEXT)"), [], "t.b holds a text with the character NUL, at rowid 1"),
    (ONE.format("TEXT", "CAST(x'ff' AS TEXT)"), [], "t.b holds a text that isn't UTF-8, at rowid 1"),
    (ONE.format("JSON", "'{}'"), [], "t.b is declared JSON and holds texts"),
    (ONE.format("INTEGER", "'x'"), [], "t.b is declared INTEGER and holds texts"),
    (ONE.format("DECIMAL(10,2)", "1.5), (2, 1.125"), [], "t.b holds 1.125, which has more than 2 digits behind its point, at rowid 2"),
    (ONE.format("DECIMAL(10,2)", "1e17"), [], "doesn't fit into 64 bits"),
    (ONE.format("DECIMAL(10,2)", "9e999"), [], "t.b holds inf"),
    (ONE.format("DECIMAL(10,2)", "'x'"), [], "and holds a text, at rowid 1"),
    (ONE.format("DECIMAL(30,20)", "1"), [], "has 20 digits behind the point"),
    (ONE.format("REAL", "1.25"), ["--scale", "t.b=1"], "more than 1 digit behind"),
    (ONE.format("REAL", "NULL"), [], "t.b holds no value, and its type REAL says neither"),
    ("CREATE TABLE t(a BLOB NOT NULL); INSERT INTO t VALUES (x'00')", ["--skip"], "t has 0 columns to import"),
    ("CREATE TABLE t(\"where\" INT)", [], "where is a reserved word; --rename t.where=NAME"),
    ("CREATE TABLE \"t u\"(a INT)", [], "t u is no name"),
    ("CREATE TABLE t(ø INT)", [], "ø is no name"),
    ("CREATE TABLE t(a INT, b INT)", ["--rename", "t.a=b"], "t: two columns would have the name b"),
    ("CREATE TABLE t(a INT); CREATE TABLE u(a INT)", ["--rename", "t=u"], "two tables would have the name u"),
    ("CREATE TABLE t(a INT)", ["--rename", "t.x=y"], "--rename t.x: there is no such table or column"),
    ("CREATE TABLE t(a INT)", ["--scale", "t.x=1"], "--scale t.x: there is no such column"),
    ("CREATE TABLE t(a INT)", ["--tables", "t,u"], "has no table u; it has t"),
    ("CREATE VIEW t AS SELECT 1", [], "there are 0 tables to import"),
    ('CREATE TABLE "t\x1b[31m"(a INT)', [], "t\\x1b[31m is no name"),
    (";".join(f"CREATE TABLE t{at}(a INT)" for at in range(65)), [], "there are 65 tables to import"),
]
"""What is made, with what options it is imported, and a piece of what is said then."""


def make(path, statements):
    """An SQLite file by statements. The module is asked for here, so that where it is missing only this part fails."""
    import sqlite3

    database = sqlite3.connect(path)
    database.executescript(f"PRAGMA synchronous = OFF; BEGIN; {statements}; COMMIT")
    return database


def make_shop(path, rng):
    """The file of a shop, with its rows."""
    tables = "".join(f"CREATE TABLE {name}({columns});\n" for name, columns in shop_reports.DEFINITIONS.items())
    indexes = "".join(f"CREATE INDEX index{at} ON {over};\n" for at, over in enumerate(shop_reports.INDEXES))
    database = make(path, tables + indexes + OWN_TABLES)
    contents = shop_reports.contents(rng)
    keys = [(word, at) for word in ("a", "Z", "\\x", "") for at in rng.sample([-(2**63), -1, 0, 5, 2**63 - 1], 4)]
    contents['"Order"'] = [(*key, rng.choice([None, 0.0, 0.125, 12.5, rng.randrange(10**6) / 1000]), b"\0" * rng.randint(0, 2)) for key in keys]
    moment = lambda: f"{shop_reports.day(rng, 2023, 2025)} {rng.randrange(24):02}:00:00"
    contents["loose"] = [(at, f"w{at}", rng.choice([None, at // 2]), rng.choice([None, moment()]), rng.randrange(10**8) / 10**4) for at in range(30)]
    for name, rows in contents.items():
        if rows:
            database.executemany(f"INSERT INTO {name} VALUES ({', '.join('?' * len(rows[0]))})", rows)
    database.commit()
    return database


def run_script(*words):
    """What the script says, run by itself."""
    ended = subprocess.run(
        [sys.executable, "-B", SCRIPT, *words], stdin=subprocess.DEVNULL, capture_output=True, timeout=SECONDS, check=False, encoding="utf-8"
    )
    return Said(ended.returncode, ended.stdout, ended.stderr)


def call_script(*words):
    """The same, within this process, which takes some milliseconds."""
    sys.path.insert(0, str(SCRIPT.parent))
    import from_sqlite

    output, error = io.StringIO(), io.StringIO()
    with contextlib.redirect_stdout(output), contextlib.redirect_stderr(error):
        try:
            status = from_sqlite.main(list(map(str, words)))
        except SystemExit as ended:
            status = ended.code
    sys.path.remove(str(SCRIPT.parent))
    return Said(status, output.getvalue(), error.getvalue())


def rows_in(text):
    """The rows behind the header, with line breaks in them."""
    return list(csv.reader(io.StringIO(text, newline="")))[1:]


def wrong_statistics(folder):
    """Where stats.json says something else than the files that stand beside it."""
    schema, statistics = (json.loads((folder / f"{name}.json").read_text(encoding="utf-8"))["tables"] for name in ("schema", "stats"))
    for table in schema:
        names = [column["name"] for column in table["columns"]]
        rows = rows_in((folder / f"{table['name']}.csv").read_bytes().decode())
        values = lambda its: {tuple(row[names.index(it)] for it in its) for row in rows}
        wanted = {
            "rows": len(rows),
            "pages": (len(rows) + 49) // 50,
            "indexes": [{"keys": len(values(its)), "pages": (len(rows) + 99) // 100} for its in table["indexes"]],
            "columns": {name: {"keys": len(values([name]) - {(r"\N",)})} for name in names},
        }
        if statistics[table["name"]] != wanted:
            return f"stats.json: {table['name']}\n  wanted: {wanted}\n  given:  {statistics[table['name']]}"
    return ""


def engine_queries():
    """Each query as the program and as sqlite3 are asked it."""
    for query in shop_reports.QUERIES:
        engine = shop_reports.for_engine(query, r"CAST(ROUND(100 * \1) AS INTEGER)", r"\1")
        yield shop_reports.for_program(query), engine
    scaled = {"weight": "CAST(ROUND(1000 * weight) AS INTEGER)", "MAX(weight)": "CAST(ROUND(1000 * MAX(weight)) AS INTEGER)"}
    for query in OWN_QUERIES:
        engine = query.replace("MAX(weight)", scaled["MAX(weight)"]) if "MAX" in query else query.replace(" weight ", f" {scaled['weight']} ")
        engine = engine.replace("weight > 500", "weight > 0.5").replace("groups", '"Group"').replace("FROM orders", 'FROM "Order"')
        yield query, engine.replace(" a.price FROM", " CAST(ROUND(10000 * a.price) AS INTEGER) FROM")


def wrong_answer(program, folder, query, rows):
    """Where the program answers otherwise, or makes no plan by the statistics."""
    program.write("query.sql", query)
    said = program.say("query", folder / "schema.json", "query.sql", folder)
    wanted = list(map(shop_reports.fields_of, rows))
    if said.status or not agree(query, wanted, rows_in(said.output)):
        return f"{query}\n  wanted: {wanted}\n  given:  {said.error if said.status else rows_in(said.output)}"
    planned = program.say("explain", folder / "schema.json", "query.sql", folder / "stats.json")
    return f"explain: {query}\n  {planned.error}" if planned.status else ""


def wrong_refusal(at, statements, options, piece, counts):
    """Where an import isn't refused as it has to be, or leaves something."""
    make(at / "t.db", statements).close()
    said = call_script(at / "t.db", at / "out", *options)
    counts["refusals"] += 1
    if said.status != 1 or piece not in said.error:
        return f"{statements} {options}\n  wanted: 1, {piece}\n  given:  {said.status}, {said.error}"
    left = [it.name for it in at.iterdir() if it.name != "t.db"]
    return f"{statements} {options}: {left} is left" if left else ""


def other_refusals(at, counts):
    """What is wrong of the refusals of files, folders and command lines."""
    make(at / "good.db", "CREATE TABLE t(a INT)").close()
    (at / "bad.db").write_text("no database, but a text that is long enough to be one" * 50, encoding="utf-8")
    (at / "full").mkdir()
    (at / "full" / "kept").write_text("", encoding="utf-8")
    cases = [
        (["none.db", "out"], 1, "none.db: there is no such file"),
        (["bad.db", "out"], 1, "file is not a database"),
        (["good.db", "full"], 1, "full is not empty"),
        (["good.db", "good.db"], 1, "good.db is there, and is no folder"),
        (["good.db", "none/out"], 1, "there is no folder"),
        (["good.db", "out", "--scale", "t.a=x"], 2, "TABLE.COLUMN=DIGITS"),
        (["good.db"], 2, "FOLDER"),
    ]
    there = sorted(it.name for it in at.iterdir())
    for words, status, piece in cases:
        said = call_script(*(at / word for word in words[:2]), *words[2:])
        counts["refusals"] += 1
        if said.status != status or piece not in said.error or sorted(it.name for it in at.iterdir()) != there:
            yield f"{words}\n  wanted: {status}, {piece}\n  given:  {said.status}, {said.error}"
        else:
            yield ""


ODD_TABLES = """
CREATE TABLE t(a INTEGER PRIMARY KEY, b TEXT, c TEXT COLLATE NOCASE, D TEXT, UNIQUE (d, a));
CREATE TABLE u(k TEXT PRIMARY KEY, v INT NOT NULL);
CREATE TABLE other(b BLOB);
CREATE INDEX lost ON t(b);
INSERT INTO t VALUES (1, 'x', 'a', NULL), (2, CAST(x'00' AS TEXT), 'A', 'y');
INSERT INTO u VALUES (NULL, 1), ('k', 2);
"""
ODD_SCHEMA = {
    "t": ([("a", "INT", True), ("c", "TEXT", False), ("d", "TEXT", False)], [["a"], ["d", "a"]], [["a"], ["d", "a"]]),
    "u": ([("k", "TEXT", False), ("v", "INT", True)], [["k"]], [["k"]]),
}
"""What the schema has of the tables above: columns, unique lists, indexes."""


def wrong_odd_tables(at):
    """Where keys, Nulls in keys, a collation, or a column that is left out for a value become something else than they have to."""
    make(at / "t.db", ODD_TABLES).close()
    said = call_script(at / "t.db", at / "out", "--skip", "--tables", "U,t")
    schema = json.loads((at / "out/schema.json").read_text(encoding="utf-8"))["tables"]
    given = {it["name"]: ([tuple(column.values()) for column in it["columns"]], it["unique"], it["indexes"]) for it in schema}
    text = (at / "out/t.csv").read_text(encoding="utf-8")
    notes = [note for note in ("index (b) left out, as a column", "t.b holds a text with the character NUL", "NOCASE") if note not in said.error]
    if given != ODD_SCHEMA or text != "a,c,d\n1,a,\\N\n2,A,y\n" or notes:
        return f"odd tables:\n  wanted: {ODD_SCHEMA}\n  given:  {given}, {text!r}, {said}"
    return wrong_statistics(at / "out")


def wrong_example(program, at, counts):
    """Where the page of the scripts shows something else than what is printed."""
    for kind, name, text in re.findall(r"^```(\w+)(?: (\S+))?\n(.*?)^```$", PAGE.read_text(encoding="utf-8"), re.MULTILINE | re.DOTALL):
        if name:
            (at / name).write_text(text, encoding="utf-8")
        for command, printed in re.findall(r"^\$ (.*)\n((?:[^$].*\n)*)", text, re.MULTILINE) if kind == "console" else []:
            counts["shown"] += 1
            if command == "sqlite3 shop.db <shop.sql":
                make(at / "shop.db", (at / "shop.sql").read_text(encoding="utf-8")).close()
                continue
            command = command.replace("./sqlplan", shlex.quote(program.path)).replace("import/", f"{shlex.quote(sys.executable)} -B {SCRIPT.parent}/")
            both = {"stdout": subprocess.PIPE, "stderr": subprocess.STDOUT}
            given = subprocess.run(["bash", "-c", command], cwd=at, stdin=subprocess.DEVNULL, timeout=SECONDS, check=False, **both).stdout.decode()
            if given != printed:
                return f"{PAGE}: {command}\n  the page says: {printed}\n  is printed:    {given}"
    return "" if counts["shown"] else f"{PAGE} shows no command"


def wrong_single_column(program, at):
    """Where the texts of a table with one column don't come back: the line of an empty one would be blank."""
    texts = ["", None, "\\N", "\\\\N", '"', "", "\r"]
    database = make(at / "t.db", "CREATE TABLE t(a TEXT)")
    database.executemany("INSERT INTO t VALUES (?)", [(text,) for text in texts])
    database.commit()
    said = call_script(at / "t.db", at / "out")
    program.write("query.sql", "SELECT a FROM t ORDER BY a")
    answer = program.say("query", at / "out/schema.json", "query.sql", at / "out")
    wanted = "\n".join(["a", "\\N", '""', '""', '"\r"', '""""', "\\\\N", "\\\\\\N", ""])
    return "" if answer == Said(0, wanted, "") else f"one column:\n  wanted: {wanted!r}\n  given:  {answer}, {said}"


def shop_cases(program, at, rng, counts):
    """What is wrong of the import of a shop, and of each query over it."""
    database, folder = make_shop(at / "shop.db", rng), at / "shop"
    said = run_script(at / "shop.db", folder, *OPTIONS)
    if said.status or not said.output.endswith("rows\n") or "11 tables" not in said.output:
        yield f"from_sqlite.py: {said.status} {said.output} {said.error}"
        return
    counts["shops"] += 1
    kept = (folder / "import.txt").read_text(encoding="utf-8").partition("\n")[2]
    is_told = kept == said.error and all(note in kept for note in NOTES)
    yield "" if is_told else f"import.txt:\n{kept}\nwanted: {NOTES}\nstandard error:\n{said.error}"
    yield wrong_statistics(folder)
    for query, engine in engine_queries():
        rows = list(database.execute(engine))
        counts["queries"], counts["rows"] = counts["queries"] + 1, counts["rows"] + len(rows)
        yield wrong_answer(program, folder, query, rows)
    database.close()


def cases(program, rng, counts):
    """What is wrong of each case of a round, or nothing. The refusals are of the first round."""
    if not counts["refusals"]:
        for refused in REFUSED:
            with tempfile.TemporaryDirectory(dir=program.folder) as folder:
                yield wrong_refusal(pathlib.Path(folder), *refused, counts)
        with tempfile.TemporaryDirectory(dir=program.folder) as folder:
            yield from other_refusals(pathlib.Path(folder), counts)
        with tempfile.TemporaryDirectory(dir=program.folder) as folder:
            yield wrong_single_column(program, pathlib.Path(folder))
        with tempfile.TemporaryDirectory(dir=program.folder) as folder:
            yield wrong_odd_tables(pathlib.Path(folder))
            yield wrong_example(program, pathlib.Path(folder), counts)
    with tempfile.TemporaryDirectory(dir=program.folder) as folder:
        yield from shop_cases(program, pathlib.Path(folder), rng, counts)


def told(counts):
    shops = f"{counts['shops']:,} SQLite files imported, {counts['queries']:,} queries over them with {counts['rows']:,} rows, beside sqlite3"
    return f"{shops}; {counts['refusals']} imports refused"
