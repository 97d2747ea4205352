#!/usr/bin/env bash
# Times the program on texts of 65,536 bytes, the longest that are read: bench/long_text.sh
# The first is read whole and refused for its number of tests, the second is bound and answered, and the third is too long.
set -euo pipefail
here=$(cd "$(dirname "$0")/.." && pwd)
work=$(mktemp -d)
trap 'rm -rf "$work"' EXIT
python3 - "$work" <<'PYTHON'
import pathlib
import sys

LONGEST = 65536
folder = pathlib.Path(sys.argv[1])


def full(text):
    """The text, made as long as may be."""
    return text + " " * (LONGEST - len(text))


head, part, tail = "SELECT id FROM emp WHERE ", "(pay < 400 OR NOT dept IS NULL) AND ", "id = 1"
many = (LONGEST - len(head) - len(tail)) // len(part)
(folder / "many_tests.sql").write_text(full(head + part * many + tail))

tests = 1024
room = LONGEST - len("SELECT id FROM dept WHERE ") - tests * len("name <> '' AND ")
test = "name <> '{}'".format("x" * (room // tests))
bound = full("SELECT id FROM dept WHERE " + " AND ".join([test] * tests))
(folder / "bound.sql").write_text(bound)
(folder / "too_long.sql").write_text(bound + " ")
PYTHON
program="$here/crates/program/sqlplan/out/sqlplan"
[ -x "$program" ] || { echo "build the program first, by ./sqlplan" >&2; exit 1; }
for text in many_tests bound too_long; do
  echo "== $text"
  /usr/bin/time -f '%e s, %M KB' "$program" meaning "$here/examples/hr/schema.json" "$work/$text.sql" "$here/examples/hr/data" || true
done
