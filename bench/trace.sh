#!/usr/bin/env bash
# Times the commits of the first and of the last quarter of the greatest trace on a real file, in pieces of 1 KiB and of 64 KiB, and the look-up of the live
# attempts before and after 4,096 have ended; leaves the file as bench.db at the top of the repository. Wants sqlite3. Takes a
# few minutes: the program is proved before it is built.
# The file lies in the folder that is named, /dev/shm without one: there a sync costs nothing, so that what is measured is
# the work of the statements and not the disk.
set -eu
. "$(dirname "$0")/tables.sh"
build trace "${1:-/dev/shm}"
for _ in 1 2 3; do
  rm -f bench.db*
  "$program"
  expect 'SELECT count(*) FROM attempt' '4098'
  expect 'SELECT count(*), min(length(bytes)), max(length(bytes)) FROM piece' '512|16384|16384'
done
leave
