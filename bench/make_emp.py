#!/usr/bin/env python3
"""Writes a large emp.csv (columns id, dept, pay, badge) beside the example's dept.csv, and the same rows for sqlite3.

usage: make_emp.py FOLDER [ROWS]

sqlite3 has no spelling of NULL in a CSV file, so plain.csv has a number of its own in each of these places: -1 in dept and
pay, and a different one in each badge, which is UNIQUE.
"""

import pathlib
import random
import sys


def main() -> None:
    folder = pathlib.Path(sys.argv[1])
    rows = int(sys.argv[2]) if len(sys.argv) > 2 else 1_000_000
    folder.mkdir(parents=True, exist_ok=True)
    example = pathlib.Path(__file__).resolve().parent.parent / "examples" / "hr" / "data"
    (folder / "dept.csv").write_bytes((example / "dept.csv").read_bytes())
    draw = random.Random(1)
    with open(folder / "emp.csv", "w", newline="\n") as ours, open(folder / "plain.csv", "w", newline="\n") as theirs:
        ours.write("id,dept,pay,badge\n")
        theirs.write("id,dept,pay,badge\n")
        for number in range(rows):
            dept = draw.choice([1, 2, 3, None])
            pay = draw.choice([500] * 9 + [None, 400])
            badge = 5_000_000 + number if number % 2 == 0 else None
            ours.write(",".join("\\N" if v is None else str(v) for v in (number, dept, pay, badge)) + "\n")
            plain = (number, -1 if dept is None else dept, -1 if pay is None else pay, -number if badge is None else badge)
            theirs.write(",".join(map(str, plain)) + "\n")


main()
