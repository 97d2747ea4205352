"""Runs the program under limits of processor time and memory, and times it behind what it takes to load."""
import math
import os
import pathlib
import resource
import signal
import subprocess
import tempfile
from typing import NamedTuple

from .shapes import schema_text, statistics_text

LONG = 1000  # milliseconds; what takes longer runs once


class Run(NamedTuple):
    status: int
    ms: float
    megabytes: float
    output: str
    fault: str

    @property
    def over(self):
        """What it ran out of, or none."""
        return {128 + signal.SIGXCPU: "over time", 3: "over memory" if self.fault == "memory" else None}.get(self.status)


class Limits(NamedTuple):
    seconds: float
    gigabytes: float

    def set(self):
        seconds = math.ceil(self.seconds)
        resource.setrlimit(resource.RLIMIT_CPU, (seconds, seconds + 5))
        resource.setrlimit(resource.RLIMIT_AS, (int(self.gigabytes * 2**30),) * 2)
        resource.setrlimit(resource.RLIMIT_CORE, (0, 0))


def once(words, limits):
    """GNU time stands between: what a process has before its program is loaded would count as its memory too, and Python has much."""
    with tempfile.TemporaryFile() as taken, tempfile.TemporaryFile() as faults, tempfile.NamedTemporaryFile() as told:
        words = ["/usr/bin/time", "-q", "-f", "%M", "-o", told.name, *map(str, words)]
        process = subprocess.Popen(words, stdin=subprocess.DEVNULL, stdout=taken, stderr=faults, preexec_fn=limits.set)
        _, status, usage = os.wait4(process.pid, 0)
        process.returncode = os.waitstatus_to_exitcode(status)
        taken.seek(0)
        faults.seek(0)
        peak = int(told.read().split()[-1]) / 1024
        text, fault = taken.read().decode(), faults.read().decode(errors="replace").strip()
    return Run(process.returncode, (usage.ru_utime + usage.ru_stime) * 1000, peak, text, fault)


class Program:
    """The program over the tables of one shape, with one schema."""

    def __init__(self, path, limits, reps, folder, tables, schema, trivial):
        self.path, self.limits, self.reps = path, limits, reps
        self.data, self.schema = folder, pathlib.Path(f"{folder}.{schema}.json")
        self.statistics, self.text, self.trivial = (pathlib.Path(f"{folder}.{name}") for name in (f"{schema}.stats", "sql", "trivial.sql"))
        self.schema.write_text(schema_text(tables, schema))
        self.statistics.write_text(statistics_text(tables, schema, folder))
        self.trivial.write_text(trivial)

    def run(self, command, text, *more):
        files = self.schema, text, self.data if command == "query" else self.statistics
        return once([self.path, command, *files, *more], self.limits)

    def behind_trivial(self, command, query, *more):
        """The run with the least time, that of the trivial query taken off, both run in turns."""
        self.text.write_text(query)
        least, start = None, math.inf
        for _ in range(self.reps):
            trivial = self.run(command, self.trivial, *more)
            if trivial.status:
                raise SystemExit(f"the trivial query: status {trivial.status}, {trivial.fault}")
            start = min(start, trivial.ms)
            found = self.run(command, self.text, *more)
            least = found if least is None or found.ms < least.ms else least
            if found.status or found.ms > LONG:
                least = found
                break
        return least._replace(ms=max(0.0, least.ms - start))

    def answered(self, query):
        return self.behind_trivial("query", query)

    def explained(self, query):
        """The plan with the rows of its nodes, explored as far as `query` does, and the time of it."""
        return self.behind_trivial("explain", query)
