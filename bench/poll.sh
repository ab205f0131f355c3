#!/usr/bin/env bash
# Times, on a real file, a poll with nothing pending, a grant, and a final state in a pipeline of three jobs: with 10 and with
# 100,000 jobs that have finished, and with 10 and 100,000 pending ones later in the queue. Takes a few minutes: the program is proved
# before it is built.
# The file lies in the folder that is named, /dev/shm without one: there a sync costs nothing.
set -eu
. "$(dirname "$0")/tables.sh"
build poll "${1:-/dev/shm}" ci_server
for _ in 1 2 3; do
  rm -f ./*.db*
  "$program"
done
