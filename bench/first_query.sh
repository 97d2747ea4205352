#!/usr/bin/env bash
# Loads a table of a million rows and answers the first query, and has sqlite3 do the same with the same rows.
# Prints seconds and peak memory of both. Wants sqlite3 and GNU time (Debian: sqlite3, time), and the program built.
#
# usage: first_query.sh [ROWS]
set -euo pipefail
cd "$(dirname "$0")/.."
rows="${1:-1000000}"
program=crates/program/sqlplan/out/sqlplan
[ -x "$program" ] || { echo "build the program first, by ./sqlplan" >&2; exit 1; }
work=$(mktemp -d)
trap 'rm -rf "$work"' EXIT
python3 bench/make_emp.py "$work" "$rows"
echo "$rows rows, $(stat -c %s "$work/emp.csv") bytes"

/usr/bin/time -f 'sqlplan: %e s, %M KiB' \
  "$program" query examples/hr/schema.json examples/hr/first.sql "$work" > "$work/ours.csv"

cat > "$work/job.sql" <<SQL
CREATE TABLE emp(id INTEGER NOT NULL UNIQUE, dept INTEGER, pay INTEGER, badge INTEGER UNIQUE);
.mode csv
.import --skip 1 $work/plain.csv emp
.headers on
SELECT id FROM emp WHERE pay <> 500 AND pay <> -1;
SQL
/usr/bin/time -f 'sqlite3 on disk: %e s, %M KiB' sqlite3 "$work/emp.db" < "$work/job.sql" > "$work/disk.csv"
/usr/bin/time -f 'sqlite3 in memory: %e s, %M KiB' sqlite3 :memory: < "$work/job.sql" > "$work/memory.csv"

for theirs in disk memory; do
  diff <(tr -d '\r' < "$work/$theirs.csv") "$work/ours.csv" > /dev/null && echo "same answer ($theirs)"
done
