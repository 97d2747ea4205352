"""Which wrong bodies were seen refused, and at what: the file .ci/tried.txt, which only `.ci/more` writes.

A row has a crate, the folder of its edits and two sums. The first is of what decides whether a contract refuses a body: the crate's src/ and specs/ and the
edits themselves. The second is of all that a check reads: these, the crate's proofs/, and the same of every crate below.
"""

import functools
import hashlib
import os
from typing import NamedTuple

import kit

FILE = f"{kit.HERE}/tried.txt"
FOLDERS = ("must-fail", "must-fail-more")
"""The edits that the gate tries, and those that `.ci/more` alone tries."""

OWN = ("src", "specs")
DIGITS = 16


class Sums(NamedTuple):
    own: str
    whole: str


def files_of(folder):
    """The files below a folder, in one order on every machine."""
    return sorted(os.path.join(at, name) for at, _, names in os.walk(folder) for name in names)


def digest(parts):
    total = hashlib.sha256()
    for part in parts:
        total.update(len(part).to_bytes(8, "big") + part)
    return total.hexdigest()[:DIGITS]


def contents(crate, folders):
    """The names and bytes of the crate's files in these of its folders."""
    for folder in folders:
        for file in files_of(f"{crate.folder}/{folder}"):
            yield os.path.relpath(file, crate.folder).encode()
            with open(file, "rb") as read:
                yield read.read()


@functools.cache
def sources_sum(name):
    """The sum of a crate's sources, and of those of all crates below it."""
    crate = kit.listed()[name]
    below = [sources_sum(it).encode() for it in sorted(crate.crates)]
    return digest([*contents(crate, (*OWN, "proofs")), *sorted(it.encode() for it in crate.of_kit), *below])


def sums(crate, folder):
    """The two sums of a crate's edits in this folder as they are now; None where it has no edits there."""
    if not any(name.endswith(".edit") for name in files_of(f"{crate.folder}/{folder}")):
        return None
    own = digest(contents(crate, (*OWN, folder)))
    return Sums(own, digest([own.encode(), sources_sum(crate.name).encode()]))


def rows():
    """What the file says: the sums by crate and folder."""
    if not os.path.isfile(FILE):
        return {}
    with open(FILE, encoding="utf-8") as lines:
        words = [line.split() for line in lines if line.strip() and not line.startswith("#")]
    return {(name, folder): Sums(own, whole) for name, folder, own, whole in words}


def note(name, folder, seen):
    """Writes that the edits of this crate in this folder were refused at these sums."""
    kept = {(crate.name, of): rows().get((crate.name, of)) for crate in kit.lowest_first() for of in FOLDERS}
    kept[name, folder] = seen
    with open(f"{FILE}.new", "w", encoding="utf-8") as out:
        out.write("# Wrong bodies that were refused: the crate, the folder of its edits, the sum of its code, definitions and edits, the sum of all below too.\n")
        out.writelines(f"{crate} {of} {it.own} {it.whole}\n" for (crate, of), it in kept.items() if it)
    os.replace(f"{FILE}.new", FILE)


def drawn(names, commit):
    """A tenth of these names, at least one of any, by a commit: the same ones each time, others for another commit."""
    ranked = sorted(names, key=lambda name: hashlib.sha256(f"{commit} {name}".encode()).hexdigest())
    return set(ranked[: -(-len(ranked) // 10)])


def left_alone(commit):
    """The crates whose edits the gate may leave alone at this commit: their own code, definitions and edits are those at which the edits were refused,
    and they aren't among the tenth that is drawn of such crates."""
    seen = rows()
    same = []
    for crate in kit.listed().values():
        now, was = sums(crate, FOLDERS[0]), seen.get((crate.name, FOLDERS[0]))
        if now and was and now.own == was.own:
            same.append(crate.name)
    return set(same) - drawn(same, commit)
