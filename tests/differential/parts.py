"""The parts of tests/run: scripts that take a program, and modules of differential tests.

A module has SEED, `cases` (what is wrong of each case of a round, or nothing, by a source of random numbers) and `told` (what was compared, in
words). A part with a seed goes on, round by round, until its time is used, but through its first round in any case. The source of a round is of the
seed and the round's number, so each round asks the same again.
"""

import collections
import itertools
import pathlib
import random
import re
import subprocess
import sys
import tempfile
import time

from common import ROOT, Program

SCRIPT_SECONDS = 3_600
"""What a script may take."""
MOST_SHOWN = 40
"""Of a difference's lines."""

Outcome = collections.namedtuple("Outcome", "told fault")


def headline(text):
    """What stands before the first colon or the first end of a sentence."""
    return re.split(r": |:\n|\.\s", text, maxsplit=1)[0].replace("\n", " ")


class Script:
    """A script that takes the program as --program, says on its last line what it compared, and fails where something differs."""

    is_random = False

    def __init__(self, name, path, takes_program=True):
        self.name, self.path, self.takes_program = name, ROOT / path, takes_program
        self.about = self.described()

    def described(self):
        """The first line of the script's documentation."""
        return headline(self.path.read_text(encoding="utf-8").partition('"""')[2])

    def run(self, program, _seconds, _seed):
        words = ["--program", program] if self.takes_program else []
        ended = subprocess.run(
            [sys.executable, self.path, *words],
            stdin=subprocess.DEVNULL,
            stdout=subprocess.PIPE,
            stderr=subprocess.STDOUT,
            timeout=SCRIPT_SECONDS,
            check=False,
        )
        printed = ended.stdout.decode("utf-8", "backslashreplace").rstrip().split("\n")
        return Outcome(printed[-1], "\n".join(printed[:-1]) or printed[-1] if ended.returncode else "")


class Differential:
    """A module of differential tests."""

    def __init__(self, name, module):
        self.name, self.module = name, module
        self.is_random = module.SEED is not None
        self.about = headline(module.__doc__)

    def run(self, program, seconds, seed):
        counts, deadline = collections.Counter(), time.monotonic() + seconds
        with tempfile.TemporaryDirectory() as folder:
            fault = self.first_fault(Program(program, folder), counts, deadline, self.module.SEED if seed is None else seed)
        return Outcome(self.module.told(counts), fault)

    def first_fault(self, program, counts, deadline, seed):
        """What is wrong of the first case of which something is, until the deadline and through the first round in any case."""
        for number in itertools.count():
            for fault in self.module.cases(program, random.Random(f"{self.name} {seed} {number}"), counts):
                counts["cases"] += 1
                if fault:
                    return fault
                if number and time.monotonic() > deadline:
                    break
            if not self.is_random or time.monotonic() > deadline:
                break
        return self.too_few(counts)

    def too_few(self, counts):
        """What is wrong where next to nothing was compared, as by a program that refuses most queries as too large."""
        left_out = counts["too large"] + counts["too long"]
        cases = f"{left_out} queries were left out as too large or too long, and {counts['cases']} cases compared"
        return "" if counts["cases"] > 10 * left_out else cases


def outcome(part, program, seconds, seed):
    """What comes of a part. One that breaks off has failed, with what it said last."""
    try:
        return part.run(program, seconds, seed)
    except Exception as error:  # pylint: disable=broad-except
        return Outcome("broke off", f"{type(error).__name__}: {error}")


def shown(fault, most):
    """A difference, indented, without its end where it is long."""
    lines = fault.rstrip().split("\n")
    more = [f".. and {len(lines) - most} lines more"] if len(lines) > most else []
    return "".join(f"    {line}\n" for line in lines[:most] + more)


def run_all(parts, program, seconds, seed, most_shown=MOST_SHOWN):
    """Runs the parts, a line each, and gives how many failed. The seconds are shared out among those that can go on."""
    failed, until, program = 0, seconds, str(pathlib.Path(program).resolve())
    for place, part in enumerate(parts):
        share = until / max(1, sum(its.is_random for its in parts[place:]))
        begin = time.monotonic()
        told, fault = outcome(part, program, share, seed)
        took = time.monotonic() - begin
        until -= took if part.is_random else 0
        failed += bool(fault)
        print(f"{part.name:9} {told}: {took:.1f} s, {'FAILED' if fault else 'ok'}", flush=True)
        print(shown(fault, most_shown) if fault else "", end="", flush=True)
    print(f"{len(parts) - failed} passed, {failed} failed", flush=True)
    return failed
