#!/usr/bin/env bash
# Times, on a real file, what a server does in vain: a poll of a runner that may be given none of the pending jobs, and a sweep that
# finds nothing; with 10 and with 10,000 pending jobs that ask for a tag or wait for a resource group, finished pipelines, and live
# attempts. A poll goes through the pending jobs, and a sweep through the live attempts and the unfinished pipelines, of which the
# pending jobs and the live attempts make one for each 100; nothing else makes either dearer. Takes some ten minutes: the program is proved
# before it is built. The files lie in the folder that is named, /dev/shm without one: there a sync costs nothing.
set -eu
. "$(dirname "$0")/tables.sh"
build idle "${1:-/dev/shm}" ci_server
for _ in 1 2 3; do
  rm -f ./*.db*
  "$program"
done
