"""Wrong programs, each a script that goes on as the right one where it isn't wrong; and whether the parts that have to find one do."""

import pathlib
import shlex
import tempfile

from parts import run_all

WITH_ROWS = ["tutorial", "answers", "queries", "planned", "texts", "plans", "joins", "rules", "imported"]
OF_QUERIES = ["answers", "queries", "planned", "plans", "costs", "rules", "imported"]
IN_ORDER = ["answers", "queries", "planned", "plans", "joins", "rules", "imported"]
WRONG_PROGRAMS = [
    ("drops the last row of an answer", 'case $1 in query|run) "$P" "$@" | sed "2,\\${\\$d}"; exit ${PIPESTATUS[0]};; esac', WITH_ROWS),
    ("swaps the first two rows", 'case $1 in query|run) "$P" "$@" | sed "2{\\$!{h;d}};3G"; exit ${PIPESTATUS[0]};; esac', IN_ORDER),
    ("accepts each certificate", 'if [ "$1" = check ]; then echo accepted; exit 0; fi', ["texts", "rules"]),
    ("accepts all labels", 'if [ "$1" = check-least ]; then echo accepted; exit 0; fi', ["least"]),
    ("refuses each query as too large", 'case $1 in query|meaning|plan) echo "refused B10 at 0" >&2; exit 2;; esac', OF_QUERIES),
    ("counts a row too many", 'if [ "$1" = query ]; then "$P" "$@" 2> >(sed "s/actual=0/actual=1/;s/\"rows\":0/\"rows\":1/" >&2); status=$?; wait; exit $status; fi', ["measured"]),
    ("runs no plan and answers by the meaning", 'if [ "$1" = run ]; then exec "$P" meaning "$2" "$3" "$5"; fi', ["requests"]),
    ("tells other costs", 'if [ "$1" = explain ]; then "$P" "$@" | sed "s/cost=1/cost=2/"; exit 0; fi', ["costs"]),
]
"""What a wrong program does, what it does in bash before it goes on as the right one, and the parts that have to fail for it."""


def missed(program, parts):
    """Puts wrong programs in the place of the program, and gives how many of the parts that have to fail for one don't."""
    count = 0
    for name, does, wanted in WRONG_PROGRAMS:
        with tempfile.TemporaryDirectory() as folder:
            wrong = pathlib.Path(folder) / "sqlplan"
            wrong.write_text(f'#!/usr/bin/env bash\nP={shlex.quote(str(program))}\n{does}\nexec "$P" "$@"\n', encoding="utf-8")
            wrong.chmod(0o755)
            print(f"a program that {name}:", flush=True)
            count += len(wanted) - run_all([parts[its] for its in wanted], wrong, 1, None, most_shown=4)
    print(f"of {len(WRONG_PROGRAMS)} wrong programs, {count} parts passed that had to fail")
    return count
