"""The crate of a measurement in a tree of the repository: listed in its crates.txt, built and run by its `.ci/rt`."""

import pathlib
import subprocess
import sys

ROOT = pathlib.Path(__file__).resolve().parent.parent
sys.path.append(str(ROOT / "tests/differential/by_driver"))

from drivers import with_rooms


def list_crate(tree, name, libraries):
    """Adds a row for the crate, unless the tree has one, with the project's libraries by the rooms that they stand in."""
    listed = tree / "crates.txt"
    rows = listed.read_text(encoding="utf-8")
    if f"\n{name}:" not in rows:
        listed.write_text(f"{rows}{name}: {with_rooms(rows, libraries)}\n", encoding="utf-8")


def run(tree, crate):
    """Proves, builds and runs the crate in this folder of the tree, with nothing to read."""
    subprocess.run([(tree / ".ci/rt").resolve(), "run"], cwd=crate, check=True, stdin=subprocess.DEVNULL, stdout=subprocess.DEVNULL)
