"""Drivers in Rattle, which ask the project's libraries what no command of the program does. `rt try` of the toolchain runs them, which proves
nothing."""

import argparse
import contextlib
import pathlib
import shutil
import subprocess
import sys
import tempfile

ROOT = pathlib.Path(__file__).resolve().parents[3]
HERE = pathlib.Path(__file__).resolve().parent
sys.path.insert(0, str(HERE.parent))
ROOM = "tests"
"""Where a driver's crate stands while it runs."""


def arguments(about, count, seed):
    """What the command line of a driver's script says: the tree, how many cases, and the seed of the random numbers."""
    parser = argparse.ArgumentParser(description=about, formatter_class=argparse.RawDescriptionHelpFormatter)
    parser.add_argument("--tree", metavar="PATH", help="a tree whose libraries are built; without this, a clone, which builds them")
    parser.add_argument("count", nargs="?", type=int, default=count, help=f"how many cases are asked ({count})")
    parser.add_argument("seed", nargs="?", type=int, default=seed, help=f"of the random cases ({seed})")
    return parser.parse_args()


def with_rooms(listing, libraries):
    """The libraries as crates.txt names them: one of the project by its room and name, one of the kit by its name."""
    paths = [line.partition(":")[0].strip() for line in listing.splitlines() if ":" in line and not line.startswith("#")]
    rooms = {path.rpartition("/")[2]: path for path in paths}
    return " ".join(rooms.get(library, library) for library in libraries.split())


@contextlib.contextmanager
def driver(name, libraries, tree=None, files=()):
    """The folder of the driver's crate, NAME/main.rt.txt and more files, in a tree whose libraries are built, or a clone. The tree is left as it was."""
    if not shutil.which("rt"):
        sys.exit("this wants the toolchain: there is no command rt on the path")
    with tempfile.TemporaryDirectory() as folder:
        if tree is None:
            tree = pathlib.Path(folder) / "tree"
            subprocess.run(["git", "clone", "-q", ROOT, tree], check=True)
        crate, listed = pathlib.Path(tree).resolve() / "crates" / ROOM / f"{name}_driver", pathlib.Path(tree) / "crates.txt"
        before = listed.read_text(encoding="utf-8")
        (crate / "src").mkdir(parents=True)
        try:
            shutil.copy(HERE / name / "main.rt.txt", crate / "src/main.rt")
            for file in files:
                shutil.copy(ROOT / file, crate / "src")
            listed.write_text(before + f"{ROOM}/{crate.name}: {with_rooms(before, libraries)}\n", encoding="utf-8")
            yield crate
        finally:
            listed.write_text(before, encoding="utf-8")
            shutil.rmtree(crate)


def said(crate, text, seconds=900):
    """What a driver writes, given a text."""
    ended = subprocess.run([crate.parents[2] / ".ci/rt", "try", "--seconds", str(seconds)], cwd=crate, input=text.encode(), capture_output=True, check=False)
    if ended.returncode:
        sys.exit(ended.stdout.decode()[-3000:] + ended.stderr.decode()[-3000:])
    return ended.stdout.decode()


def answers(name, libraries, cases, tree=None, files=(), head="", batch=2_000):
    """The line that a driver writes of each case, a line too. It is given so many at once, as `rt try` gives no more than 1 MiB of output."""
    given = []
    with driver(name, libraries, tree, files) as crate:
        for start in range(0, len(cases), batch):
            asked = cases[start : start + batch]
            given += said(crate, head + "\n".join(asked) + "\n").splitlines()[: len(asked)]
    if len(given) != len(cases):
        sys.exit(f"the driver wrote {len(given)} lines of {len(cases)} cases")
    return given
