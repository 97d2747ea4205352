"""The toolchain's command `rt` as a module, for the scripts of this folder, and what crates.txt lists.

The plain command asks for the sum of a crate's sources along each way that leads to the crate, which takes minutes above some thirty crates. Here each
crate is asked once within one question; the next question asks again, so a source that changed meanwhile is seen.
"""

import functools
import importlib.machinery
import importlib.util
import os
import shutil
import sys
import threading
from typing import NamedTuple

ROOT = os.path.dirname(os.path.dirname(os.path.realpath(__file__)))
HERE = os.path.join(ROOT, ".ci")
ASKED_ONCE = ("stamp", "below")
"""The methods of the kit's crates that ask themselves of all crates below."""

MOST_MEMORY = 4_500_000_000
"""What one check takes at most, in bytes: the dearest that was seen, the program's own, took 4.3 GB."""


def path():
    """The toolchain's `rt`: the first of the path that isn't this folder's."""
    for folder in os.environ.get("PATH", "").split(os.pathsep):
        found = shutil.which("rt", path=folder)
        if found and os.path.dirname(os.path.realpath(found)) != HERE:
            return os.path.realpath(found)
    sys.exit("rt: the toolchain's command is not on the path")


def asked_once(method):
    """The method: within one call of it from outside, it is asked once of each crate."""
    within = threading.local()

    @functools.wraps(method)
    def asked(crate):
        answers = getattr(within, "answers", None)
        if answers is not None:
            if id(crate) not in answers:
                answers[id(crate)] = method(crate)
            return answers[id(crate)]
        within.answers = {}
        try:
            return method(crate)
        finally:
            within.answers = None

    return asked


@functools.cache
def command():
    """The command `rt` as a module, which asks each crate once. A kit that names things otherwise is left as it is."""
    loader = importlib.machinery.SourceFileLoader("rt", path())
    rt = importlib.util.module_from_spec(importlib.util.spec_from_loader("rt", loader))
    sys.modules["rt"] = rt
    loader.exec_module(rt)
    try:
        for name in ASKED_ONCE:
            setattr(rt.rtlib.Crate, name, asked_once(getattr(rt.rtlib.Crate, name)))
    except AttributeError as missing:
        print(f"rt: this kit names things otherwise ({missing}): going on by its plain command, which is slower", file=sys.stderr)
    return rt


def lanes():
    """How many checks may run side by side: one a processor, as far as free memory holds them."""
    with open("/proc/meminfo", encoding="ascii") as lines:
        free = next(int(line.split()[1]) * 1024 for line in lines if line.startswith("MemAvailable"))
    return max(1, min(len(os.sched_getaffinity(0)), free // MOST_MEMORY))


class Listed(NamedTuple):
    """A crate as crates.txt has it: the room that it stands in, its name, and the crates and the kit's libraries that it names."""

    room: str
    name: str
    crates: list
    of_kit: list

    @property
    def folder(self):
        return f"{ROOT}/crates/{self.room}/{self.name}"


@functools.cache
def listed():
    """The crates of crates.txt by their names."""
    with open(f"{ROOT}/crates.txt", encoding="utf-8") as lines:
        rows = [line.partition("#")[0].partition(":") for line in lines]
    found = {}
    for path_of_crate, _, uses in rows:
        if path_of_crate.strip():
            room, _, name = path_of_crate.strip().rpartition("/")
            used = [use.rpartition("/") for use in uses.split()]
            found[name] = Listed(room, name, [it for at, _, it in used if at], [it for at, _, it in used if not at])
    return found


def lowest_first(names=None):
    """The named crates, or all, and those that they stand on, each behind these."""
    found = {}

    def visit(name):
        if name not in found:
            for below in listed()[name].crates:
                visit(below)
            found[name] = listed()[name]

    for name in listed() if names is None else names:
        visit(name)
    return list(found.values())
