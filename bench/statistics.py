#!/usr/bin/env python3
"""Times `Statistics::of` beside the load of the same tables: a million employees with four indexes, and dept; and the same with numbers that lie far apart. The
program of statistics/main.rt.txt, in a clone, is proved and built by `rt run`, and then run by itself, once loading alone and once counting too.

Prints processor time (user and system) and peak memory of the whole process, the least of twelve runs, and what counting adds. What is
counted is compared with counts of this script's own.

usage: statistics.py [--tree PATH] [ROWS]
"""
import csv
import json
import os
import pathlib
import shutil
import subprocess
import sys
import tempfile

import crates

ROOT = pathlib.Path(__file__).resolve().parent.parent
NAME = "statistics_bench"
FAR = 1_000_003
# By name: what each number is multiplied by, what is unique, and the indexes. The first has an index that holds a unique list without Nulls, which needs no pass.
SCHEMAS = {
    "one index a column": (1, [["id"]], [["id"], ["dept"], ["pay"], ["badge"]]),
    "no key for free": (1, [["badge"]], [["dept"], ["pay"], ["badge"], ["dept", "pay"]]),
    "far apart, all different": (FAR, [], [["id"]]),
    "far apart, half of them Null": (FAR, [], [["badge"]]),
    "far apart, three values": (FAR, [], [["pay"]]),
}
RUNS = 12


def schema(unique, indexes):
    column = lambda name: {"name": name, "kind": "INT", "not_null": name == "id"}
    emp = {"name": "emp", "columns": [column(name) for name in ("id", "dept", "pay", "badge")], "unique": unique, "indexes": indexes}
    return json.dumps({"tables": [emp]})


def built(tree):
    """The program, built in a tree of the repository."""
    crate = tree / "crates" / NAME
    (crate / "src").mkdir(parents=True)
    shutil.copy(ROOT / "bench/statistics/main.rt.txt", crate / "src/main.rt")
    crates.list_crate(tree, NAME, "values schema store statistics anyhow")
    crates.run(tree, crate)
    return crate / "out" / NAME


def measured(program, way, file, folder):
    """Seconds, MB and the answer of one run."""
    reader, writer = os.pipe()
    os.write(writer, f"{way}\n{file}\n{folder}\n".encode())
    os.close(writer)
    child = subprocess.Popen([program], stdin=reader, stdout=subprocess.PIPE)
    os.close(reader)
    answer = child.stdout.read().decode()
    _, status, usage = os.wait4(child.pid, 0)
    assert status == 0, answer
    return usage.ru_utime + usage.ru_stime, usage.ru_maxrss / 1000, answer


def multiplied(folder, factor):
    """The folder of the same tables with each number of emp so many times as great."""
    if factor == 1:
        return folder
    other = folder.parent / f"times{factor}"
    if not other.exists():
        other.mkdir()
        with open(folder / "emp.csv", newline="") as file, open(other / "emp.csv", "w", newline="") as copy:
            header, *rows = csv.reader(file)
            csv.writer(copy, lineterminator="\n").writerows([header, *([cell if cell == "\\N" else int(cell) * factor for cell in row] for row in rows)])
    return other


def counted(folder, indexes):
    """The lines that the program writes, by this script."""
    with open(folder / "emp.csv", newline="") as file:
        header, *rows = csv.reader(file)
    lines = [f"{len(rows)} {-(-len(rows) // 50)}"]
    for index in indexes:
        places = [header.index(name) for name in index]
        keys = {tuple(row[place] for place in places) for row in rows}
        lines.append(f"{len(keys)} {-(-len(rows) // 100)}")
    return "".join(line + "\n" for line in lines)


def main():
    words = sys.argv[1:]
    rows = next((word for place, word in enumerate(words) if word.isdigit() and (place == 0 or words[place - 1] != "--tree")), "1000000")
    with tempfile.TemporaryDirectory() as room:
        room = pathlib.Path(room)
        tree = room / "tree"
        if "--tree" in words:
            shutil.copytree(words[words.index("--tree") + 1], tree, symlinks=True)
        else:
            subprocess.run(["git", "clone", "-q", ROOT, tree], check=True)
        program = built(tree)
        data = room / "data"
        subprocess.run([sys.executable, ROOT / "bench/make_emp.py", data, rows], check=True)
        answers = []
        for name, (factor, unique, indexes) in SCHEMAS.items():
            folder = multiplied(data, factor)
            file = room / "schema.json"
            file.write_text(schema(unique, indexes), encoding="utf-8")
            load = [measured(program, "load", file, folder) for _ in range(RUNS)]
            count = [measured(program, "count", file, folder) for _ in range(RUNS)]
            column = [measured(program, "columns", file, folder) for _ in range(RUNS)]
            answers.append((count[0][2], folder, indexes))
            loading, counting = min(run[0] for run in load), min(run[0] for run in count)
            columns = min(run[0] for run in column)
            memory = [min(run[1] for run in runs) for runs in (load, count, column)]
            print(f"{name}: load {loading:.3f} s {memory[0]:.0f} MB; with counting {counting:.3f} s {memory[1]:.0f} MB; {(counting - loading) / loading:.2f} of the load more, {(counting - loading) * 1e9 / int(rows) / len(indexes):.0f} ns a row and index")
            print(f"  with the keys of all columns {columns:.3f} s {memory[2]:.0f} MB; {(columns - counting) * 1e9 / int(rows):.0f} ns a row more; {' '.join(line for line in column[0][2].splitlines() if 'column' in line)}")
        # Last, since a process that is started counts the memory of the one that starts it.
        for answer, folder, indexes in answers:
            assert answer == counted(folder, indexes), answer


if __name__ == "__main__":
    main()
