#!/bin/sh
# Copies the file of a server, which may go on serving meanwhile, and tests the copy:
#
#     backup.sh FILE COPY [PID]
#
# COPY is then one file of all that was answered before, and maybe of what was asked meanwhile; it holds the tokens, so its owner alone may read it.
# `ciserver`, or the program that CISERVER names, has opened it, read all of it and tested each row. How many tries it took is printed.
# PID 0, which systemctl shows of a unit that doesn't run, is no process.
#
# The file is read first and its log after it, each from its beginning to its end: what the server meanwhile brings from the log into the file is still in
# the log that is read. Once it is all in the file, the log begins anew with another header. So where the header isn't the same before and after, both are
# read again, TRIES times at most (20). Where PID is the server's process, that stands still while they are read.
#
# Exit status: 0 COPY is there; 1 ciserver refused it; 2 the words are others; 3 a file can't be read or written, or COPY or COPY-wal is there already;
# 4 the log began anew in each try. But for 0, no COPY is made.
set -u
umask 077
fail() {
  echo "backup.sh: $2" >&2
  exit "$1"
}
case $# in 2 | 3) ;; *) fail 2 'the words are FILE COPY [PID]' ;; esac
copy=$2 pid=${3:-} ciserver=${CISERVER:-ciserver}
case $pid in
  0) pid='' ;; # For kill it is the group of whoever calls.
  0* | *[!0-9]*) fail 2 "PID is the number of a process, and not $pid" ;;
esac
file=$(realpath "$1") || exit 3
command -v "$ciserver" > /dev/null || fail 3 "there is no $ciserver"
for name in "$copy" "$copy-wal"; do
  [ ! -e "$name" ] || fail 3 "$name is there"
done
room=$(mktemp -d "$copy.XXXXXX") || exit 3
trap 'server CONT; rm -rf "$room"' EXIT
trap 'exit 3' HUP INT QUIT PIPE TERM

# Sends the server a signal, where its process is known.
server() {
  [ -z "$pid" ] || kill -s "$1" "$pid"
}
# The header of the log: how often it began anew, and random numbers. Where there is no log, nothing.
header() {
  [ ! -e "$file-wal" ] || od -An -tx1 -N32 "$file-wal"
}
# Reads both: was the log the same before and after?
copied() {
  before=$(header) && cat "$file" > "$room/ci.db" && : > "$room/ci.db-wal" || exit 3
  [ -z "$before" ] || cat "$file-wal" > "$room/ci.db-wal" || exit 3
  after=$(header) && [ "$before" = "$after" ]
}

tries=1
server STOP || exit 3
until copied; do
  [ "$tries" -lt "${TRIES:-20}" ] || fail 4 "the log began anew in each of $tries tries"
  tries=$((tries + 1))
done
server CONT
said=$("$ciserver" migrate --db "$room/ci.db" 2>&1) || fail 1 "the copy is refused: $said"
# The program has joined it with its log: less than a frame is left of that.
[ "$(wc -c < "$room/ci.db-wal")" -lt 56 ] || fail 3 'the copy was not joined with its log'
sync "$room/ci.db" || exit 3
# From here on no signal ends it: there is a copy, or there is none.
trap '' HUP INT QUIT PIPE TERM
mv -nT "$room/ci.db" "$copy" || exit 3
[ ! -e "$room/ci.db" ] || fail 3 "$copy is there"
sync "$(dirname "$copy")" || {
  rm "$copy"
  exit 3
}
echo "tries: $tries" || :
