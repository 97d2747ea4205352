"""Wrong bodies tried together: edits that change different functions, in one check of the crate.

A function is proved from its own body and the contracts of what it calls, so a wrong body in one function changes nothing of the verdict on another. An edit is
refused where the check says of a function that the edit changes that it isn't proved, or of its proof.
"""

import os
import re
from typing import NamedTuple

FUNCTION = re.compile(r"^(\s*)(?:pub(?:\([^)]*\))? )?(?:const )?fn (\w+)")
OF_A_CONTRACT = re.compile(r"\b(requires|ensures|invariant|ghost)\b|#\[")
REPORTED = re.compile(r"^(?:note: )?(?:\./)?((?:src|proofs)/\S+?):(\d+):\d+:(?= error|.* not proved)")


class Body(NamedTuple):
    """A function of a file, with its first and last line, counted from 1."""

    file: str
    name: str
    first: int
    last: int


def pairs_of(edit):
    """The pairs of an edit: the file, the old text and the new one."""
    path = old = ""
    with open(edit, encoding="utf-8") as lines:
        for line in lines.read().split("\n"):
            word, _, rest = line.partition(":")
            if word == "file":
                path = rest.strip()
            elif word == "old":
                old = rest[1:]
            elif word == "new":
                yield path, old, rest[1:]


def body_at(file, lines, at):
    """The function whose body has the line of this index, or None."""
    for first in range(at, -1, -1):
        begun = FUNCTION.match(lines[first])
        if begun:
            end = next((it for it in range(first, len(lines)) if lines[it] == f"{begun[1]}}}"), first)
            return Body(file, begun[2], first + 1, end + 1) if first < at <= end else None
    return None


def bodies_of(edit, folder):
    """The functions whose bodies an edit changes; None where it changes anything else, or can't be made so."""
    texts, found = {}, set()
    for path, old, new in pairs_of(edit):
        if not path.startswith("src/") or OF_A_CONTRACT.search(f"{old} {new}") or not os.path.isfile(f"{folder}/{path}"):
            return None
        if path not in texts:
            with open(f"{folder}/{path}", encoding="utf-8") as file:
                texts[path] = file.read()
        if texts[path].count(old) != 1:
            return None
        at = texts[path][: texts[path].index(old)].count("\n")
        body = body_at(path, texts[path].split("\n"), at)
        if not body:
            return None
        found.add(body)
        texts[path] = texts[path].replace(old, new)
    return found or None


def batches(edits, folder):
    """The edits in groups, each edit with the functions that it changes: no two of a group change functions of one name, and an edit that changes
    anything but bodies stands alone."""
    together, alone = [], []
    for edit in edits:
        bodies = bodies_of(edit, folder)
        if bodies is None:
            alone.append([(edit, set())])
            continue
        names = {it.name for it in bodies}
        group = next((it for it in together if not any(body.name in names for _, of in it for body in of)), None)
        if group is None:
            group = []
            together.append(group)
        group.append((edit, bodies))
    return together + alone


def texts_of(edits, folder):
    """The texts that the edits make together, by their paths; None where one of them can't be made behind the others."""
    texts = {}
    for edit in edits:
        for path, old, new in pairs_of(edit):
            if path not in texts:
                with open(f"{folder}/{path}", encoding="utf-8") as file:
                    texts[path] = file.read()
            if texts[path].count(old) != 1:
                return None
            texts[path] = texts[path].replace(old, new)
    return texts


def report_on(bodies, lines):
    """The first line that says of one of these functions, or of its proof, that it isn't proved; None without one."""
    for line in lines:
        said = REPORTED.match(line)
        for body in bodies if said else ():
            if said[1].startswith("proofs/") and body.name in said[1].split("/") or said[1] == body.file and body.first <= int(said[2]) <= body.last:
                return line
    return None
