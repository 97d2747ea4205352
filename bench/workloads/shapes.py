"""The tables of both shapes, as TPC-H and the Star Schema Benchmark have them.

The language has no arithmetic and no dates: a product that a query of the benchmark computes of a row, as the revenue of an item, is a column of
its own here, and a date is a number as yyyymmdd. No column holds a Null.
"""
import csv
import json
from typing import NamedTuple

SCHEMAS = ("keys", "indexes")
# As `query` counts pages: so many rows of a table, and so many entries of an index.
ROWS_OF_PAGE, ENTRIES_OF_PAGE = 50, 100


class Table(NamedTuple):
    columns: dict  # the kind of each name
    unique: list
    foreign: list  # lists of columns that refer to a unique list elsewhere

    def indexes(self, schema):
        """None where the schema has unique lists alone; else one for each of these, and one for each foreign key."""
        return self.unique + self.foreign if schema == "indexes" else []


def table(columns, key, *foreign):
    """A column whose name ends with * holds texts, others numbers."""
    kinds = {name.rstrip("*"): "TEXT" if name.endswith("*") else "INT" for name in columns.split()}
    return Table(kinds, [key.split()], [columns.split() for columns in foreign])


TPCH = {
    "region": table("r_regionkey r_name*", "r_regionkey"),
    "nation": table("n_nationkey n_name* n_regionkey", "n_nationkey", "n_regionkey"),
    "supplier": table("s_suppkey s_name* s_nationkey s_phone* s_acctbal s_complaint", "s_suppkey", "s_nationkey"),
    "part": table(
        "p_partkey p_color* p_color2* p_mfgr* p_brand* p_type* p_type1* p_type3* p_size p_container* p_retailprice",
        "p_partkey",
    ),
    "partsupp": table("ps_partkey ps_suppkey ps_availqty ps_supplycost ps_value", "ps_partkey ps_suppkey", "ps_partkey", "ps_suppkey"),
    "customer": table("c_custkey c_name* c_nationkey c_phone* c_cntrycode c_acctbal c_mktsegment*", "c_custkey", "c_nationkey"),
    "orders": table(
        "o_orderkey o_custkey o_orderstatus* o_totalprice o_orderdate o_year o_orderpriority* o_shippriority o_special",
        "o_orderkey",
        "o_custkey",
    ),
    "lineitem": table(
        "l_orderkey l_partkey l_suppkey l_linenumber l_quantity l_extendedprice l_discount l_tax l_revenue l_returnflag* l_linestatus*"
        " l_shipdate l_shipyear l_commitdate l_receiptdate l_shipinstruct* l_shipmode*",
        "l_orderkey l_linenumber",
        "l_orderkey",
        "l_partkey",
        "l_suppkey",
        "l_partkey l_suppkey",
    ),
}
SSB = {
    "date": table("d_datekey d_year d_yearmonthnum d_yearmonth* d_weeknuminyear d_month*", "d_datekey"),
    "customer": table("c_custkey c_name* c_city* c_nation* c_region* c_mktsegment*", "c_custkey"),
    "supplier": table("s_suppkey s_name* s_city* s_nation* s_region*", "s_suppkey"),
    "part": table("p_partkey p_mfgr* p_category* p_brand1* p_color*", "p_partkey"),
    "lineorder": table(
        "lo_orderkey lo_linenumber lo_custkey lo_partkey lo_suppkey lo_orderdate lo_quantity lo_extendedprice lo_discount lo_extdisc"
        " lo_revenue lo_supplycost lo_profit",
        "lo_orderkey lo_linenumber",
        "lo_custkey",
        "lo_partkey",
        "lo_suppkey",
        "lo_orderdate",
    ),
}
SHAPES = {"tpch": TPCH, "ssb": SSB}


def schema_text(tables, schema):
    """The schema as the program reads it."""
    entry = lambda name, kept: {
        "name": name,
        "columns": [{"name": column, "kind": kind, "not_null": True} for column, kind in kept.columns.items()],
        "unique": kept.unique,
        "indexes": kept.indexes(schema),
    }
    return json.dumps({"tables": [entry(name, kept) for name, kept in tables.items()]})


def rows_of(file, columns):
    """The rows of a CSV file, numbers as such."""
    with open(file, newline="") as text:
        lines = csv.reader(text)
        next(lines)
        for line in lines:
            yield [int(cell) if kind == "INT" else cell for cell, kind in zip(line, columns.values())]


def statistics_text(tables, schema, folder):
    """The statistics that `explain` reads, counted as `query` counts them for itself; of columns without an index of their own the different values exactly."""
    found = {}
    for name, kept in tables.items():
        rows = list(rows_of(folder / f"{name}.csv", kept.columns))
        names = list(kept.columns)
        indexes = []
        for index in kept.indexes(schema):
            places = [names.index(column) for column in index]
            keys = len({tuple(row[place] for place in places) for row in rows})
            indexes.append({"keys": keys, "pages": -(-len(rows) // ENTRIES_OF_PAGE)})
        own = {column for (column,) in (index for index in kept.indexes(schema) if len(index) == 1)}
        columns = {column: {"keys": len({row[place] for row in rows})} for place, column in enumerate(names) if column not in own}
        found[name] = {"rows": len(rows), "pages": -(-len(rows) // ROWS_OF_PAGE), "indexes": indexes, "columns": columns}
    return json.dumps({"tables": found})
