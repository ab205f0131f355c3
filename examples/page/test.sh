#!/usr/bin/env bash
# Has examples/page.py write pages of a file that was written by hand (.ci/version1, made one of version 2 by the program, and rows.sql behind it): each is a whole page that fetches and
# runs nothing, its statuses are those that the program reports, and what a page is to show stands in it. Then of files and words that are refused.
#
#   examples/page/test.sh [CISERVER]        as in: examples/page/test.sh bin/ciserver
#
# It ends with 0 where all passed. It wants python3 and sqlite3.
set -u
here=$(realpath "$(dirname "$0")")
ciserver=$(realpath "${1-$here/../../bin/ciserver}")
if [ ! -x "$ciserver" ]; then
  echo "there is no bin/ciserver: make build" >&2
  exit 1
fi
work=$(mktemp -d)
server=
trap '[ -z "$server" ] || kill "$server" 2> /dev/null; rm -rf "$work"' EXIT
# shellcheck source=examples/server.sh
. "$here/../server.sh"
passed=0
failed=0
# passes WHAT WORD..: the command ends with 0.
passes() {
  if "${@:2}"; then
    passed=$((passed + 1))
  else
    failed=$((failed + 1))
    echo "$1"
  fi
}
has() { [[ $(< "$work/page") == *"$1"* ]]; }
lacks() { ! has "$1"; }
# written STATUS WORD..: the page is written with these words, and ends so; where it is refused something is said, and no page is there.
written() {
  python3 "$here/../page.py" "${@:2}" > "$work/page" 2> "$work/said"
  ended=$?
  if [ "$ended" != "$1" ]; then return 1; fi
  if [ "$1" = 0 ]; then [ -s "$work/page" ] && [ ! -s "$work/said" ]; else [ ! -s "$work/page" ] && [ -s "$work/said" ]; fi
}
reads() { python3 "$here/read.py" < "$work/page" > "$work/shown"; }
# reported PIPELINE..: the statuses that the program says of these pipelines are those of the page.
reported() {
  for pipeline in "$@"; do
    "$ciserver" report --db "$db" --kind pipeline --pipeline "$pipeline" | awk '
      NR == 1 { for (i = 1; i < NF; i++) if ($i == "status") status = $(i + 1); print "pipeline", $2, status }
      NR > 2 { print "job", $1, $2 }'
  done > "$work/wanted"
  diff "$work/wanted" "$work/shown"
}

db=$work/ci.db
"$here/../../.ci/version1" "$db"
passes 'a file of version 1' written 0 "$db" 1
passes 'it is made one of version 2' "$ciserver" migrate --db "$db"
passes 'the first page' written 0 "$db" 1
passes 'the first page is whole' reads
passes 'its statuses' reported 1
passes 'its trace' has 'shipped</pre>'
passes 'its attempts' has 'Attempt 1, set aside by a retry: <span class="chip failed">✗ failed</span> script failure, exit code 2, granted 1970-01-01 00:16:50 to <bdi>shell</bdi>, heard of for 5 s'
passes 'no tokens' lacks 00000000000000000000000000000001
passes 'no tokens of attempts' lacks 0000000000000000000000000005
passes 'no values of variables' lacks world

sqlite3 "$db" < "$here/rows.sql"
passes 'the second page' written 0 "$db" 2
passes 'the second page is whole' reads
passes 'all statuses' reported 10 9 8 7 6 5 4 3 2
passes 'how many' has '9 of 9 pipelines'
passes 'a name' has '&lt;script&gt;alert(&quot;2&quot;)&lt;/script&gt; &amp; co'
passes 'a trace' has "&lt;/pre&gt;&lt;script&gt;alert(4)&lt;/script&gt;"
passes 'a terminal, a line that was written over, and bytes that are no text' has $'\nred\n100%\n\xef\xbf\xbd\xef\xbf\xbd\xef\xbf\xbd</pre>'
passes 'a long trace' has 'trace, 32,775 bytes'
passes 'a time' has '· ≥ 2 h 0 min'
passes 'the last day' has '9999-12-31 23:59:59'
passes 'an allowed failure' has 'failed · ≥ 2 h 0 min · allowed'
passes 'nine lines, and the tip of their arrows' [ "$(grep -o '<path d="M[^"]*"' "$work/page" | wc -l)" = 10 ]
passes 'the last pipeline alone' written 0 --last 1 --trace 3 "$db" 2
passes 'it is whole' reads
passes 'its statuses' reported 10
passes 'how many' has '1 of 9 pipelines'
passes 'the end of a trace' written 0 --trace 3 "$db" 2
passes 'what is cut' has 'The first 32,772 bytes are left out.</p><pre>end</pre>'
passes 'no trace' written 0 --trace 0 "$db" 2
passes 'no trace at all' has 'The first 32,775 bytes are left out.</p><pre></pre>'
passes 'a project without pipelines' written 0 "$db" 3
passes 'it is whole' reads
passes 'it says so' has 'no pipeline yet'

passes 'groups with a mode' written 0 "$db" 4
passes 'it is whole' reads
passes 'its statuses' reported 13 12 11
passes 'who waits' [ "$(grep waiting "$work/shown" | sort | paste -sd ,)" = 'job 25 waiting_for_resource,job 26 waiting_for_resource,job 28 waiting_for_resource' ]
passes 'a name of wide letters fits its box' has 'class="name">名前の長い仕事がここ…</text>'

passes 'no such project' written 1 "$db" 5
passes 'no words' written 2
passes 'no project' written 2 "$db"
passes 'a project that is no number' written 2 "$db" 01
passes 'none of the last' written 2 --last 0 "$db" 1
passes 'no file' written 3 "$work/none.db" 1
passes 'it is not made' [ ! -e "$work/none.db" ]
echo 'no database, but long enough to be looked at as one' > "$work/text.db"
passes 'no database' written 3 "$work/text.db" 1
sqlite3 "$work/other.db" 'CREATE TABLE meta (key TEXT, num INTEGER)'
passes 'a database of others' written 3 "$work/other.db" 1
cp "$db" "$work/later.db"
sqlite3 "$work/later.db" "UPDATE meta SET num = 3 WHERE key = 'version'"
passes 'a later version' written 3 "$work/later.db" 1
before=$(sha256sum < "$db")
passes 'it is read' written 0 "$db" 1
passes 'and not written' [ "$(sha256sum < "$db")" = "$before" ]
serve_file "$db" 1000
passes 'a file that is served' written 3 "$db" 1
passes 'which it says' grep -q 'is in use: stop the server, or give a copy' "$work/said"
kill "$server"
wait "$server" 2> /dev/null
server=
# What a killed server left, with its log.
passes 'the file of a killed server' written 0 "$db" 1
echo "$passed passed, $failed failed"
[ "$failed" = 0 ]
