#!/usr/bin/env bash
# Times, on a real file, the creation of a pipeline of 100 jobs with 4,500 pairs, and of one of 100 jobs with 100 variables of the
# request, of the project and of the file and 60 of each job: the least of ten. Then it counts the rows of one of them. Wants
# sqlite3. Takes a few minutes: the program is proved before it is built.
# The files lie in the folder that is named, /dev/shm without one: there a sync costs nothing.
set -eu
. "$(dirname "$0")/tables.sh"
build create "${1:-/dev/shm}" ci_server
# What a creation runs in its commit: a look-up of the next job, an UPDATE that finds no pipeline, and a statement for each record, for each
# of two next numbers and for each row of a status.
counted() {
  local rows jobs variables needs statuses
  rows=$(sqlite3 "$1" 'SELECT count(*) FROM job WHERE pipeline = 1;
    SELECT count(*) FROM jobvar WHERE job IN (SELECT id FROM job WHERE pipeline = 1);
    SELECT count(*) FROM need WHERE job IN (SELECT id FROM job WHERE pipeline = 1);
    SELECT count(*) FROM board WHERE job IN (SELECT id FROM job WHERE pipeline = 1);' | tr '\n' ' ')
  read -r jobs variables needs statuses <<< "$rows"
  echo "$1: $jobs jobs, $variables variables of jobs, $needs needs, $statuses rows of statuses; $((jobs + variables + needs + statuses + 5)) statements"
}
for _ in 1 2 3; do
  rm -f ./*.db*
  "$program"
done
counted pairs.db
counted variables.db
