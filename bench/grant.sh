#!/usr/bin/env bash
# Times a grant's commit on a real file against the same statements through the C library, looks into the file with the stock
# tool, and leaves it as bench.db at the top of the repository. Wants gcc, libsqlite3-dev and sqlite3. Takes a few minutes: the
# program is proved before it is built. Where valgrind is there, the instructions are counted too, which no other work on the
# machine disturbs; a `rep stosb` counts as one for each byte.
# The file lies in the folder that is named, /dev/shm without one: there a sync costs nothing, so that what is compared is
# the work of the statements and not the disk.
set -eu
. "$(dirname "$0")/tables.sh"
need gcc
gcc -O2 -o "$work/grant_c" "$root/bench/grant.c" -lsqlite3 || stop "bench/grant.c was not built: libsqlite3-dev is wanted"
build grant "${1:-/dev/shm}"
granted() {
  expect 'SELECT count(*), min(id), max(id) FROM attempt' '2000|1|2000'
  expect 'SELECT count(*), min(status), max(status) FROM board' '2000|2|2'
}
for _ in 1 2 3 4 5; do
  rm -f bench.db*
  "$program"
  granted
  "$work/grant_c" bench.db
  granted
done
if command -v valgrind > /dev/null; then
  count="valgrind --tool=callgrind --callgrind-out-file=/dev/null"
  rm -f bench.db*
  $count --toggle-collect='bench_grant::grants*' "$program" 2>&1 | sed -n 's/.*Collected : /ci_store_sqlite, instructions of all grants: /p'
  $count --toggle-collect=main "$work/grant_c" bench.db 2>&1 | sed -n 's/.*Collected : /C sqlite, instructions of all grants: /p'
fi
rm -f bench.db*
"$program" > /dev/null
granted
sqlite3 bench.db .schema 'PRAGMA integrity_check'
leave
