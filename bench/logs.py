#!/usr/bin/env python3
"""Pushes many lines to a log of the crate `logs`: joins of ten table instances with the lines that turn them round, lines that unite
classes, and facts of one class. The program of logs/main.rt.txt, in a clone, is proved and built by `rt run`, and then run by itself.

Prints processor time (user and system) and peak memory of the whole process, the least of three runs.

usage: logs.py [COUNT ..]
"""
import os
import pathlib
import shutil
import subprocess
import sys
import tempfile

import crates

ROOT = pathlib.Path(__file__).resolve().parent.parent
NAME = "logs_bench"
KINDS = ["joins", "unites", "facts"]


def built(tree):
    """The program, built in a clone of the repository."""
    subprocess.run(["git", "clone", "-q", ROOT, tree], check=True)
    crate = tree / "crates" / NAME
    (crate / "src").mkdir(parents=True)
    shutil.copy(ROOT / "bench/logs/main.rt.txt", crate / "src/main.rt")
    crates.list_crate(tree, NAME, "values schema query algebra laws props rules plain_rules outer_rules semijoin_rules subquery_rules book derivation logs anyhow")
    crates.run(tree, crate)
    return crate / "out" / NAME


def measured(program, kind, count):
    """Seconds and MB of one run."""
    reader, writer = os.pipe()
    os.write(writer, f"{kind} {count}\n".encode())
    os.close(writer)
    child = subprocess.Popen([program], stdin=reader, stdout=subprocess.PIPE)
    os.close(reader)
    answer = child.stdout.read().decode().split()
    _, status, usage = os.wait4(child.pid, 0)
    assert status == 0 and answer[0] == kind and answer[2] == "true", answer
    return usage.ru_utime + usage.ru_stime, usage.ru_maxrss / 1000


def main():
    counts = [int(word) for word in sys.argv[1:]] or [50_000, 200_000]
    with tempfile.TemporaryDirectory() as folder:
        program = built(pathlib.Path(folder) / "tree")
        for kind in KINDS:
            for count in counts:
                runs = [measured(program, kind, count) for _ in range(3)]
                print(f"{kind:8}{count:9,} lines{min(run[0] for run in runs):8.2f} s{min(run[1] for run in runs):7.1f} MB")


if __name__ == "__main__":
    main()
