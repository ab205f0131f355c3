#!/usr/bin/env bash
# Kills the server twenty times at random moments, in the middle of pipelines that two runners run, and starts it again each time. Then it cuts
# the line of a runner, in the middle of a job, until that job's lease is over and the other runner has it. Then it looks into the server's file
# for what a stop must not do.
#
#   examples/killed.sh [CISERVER] [TIMES] [SECONDS]        as in: examples/killed.sh bin/ciserver 20 130
#
# It says so and ends with 1 where a job ran twice at once, by the marks that jobs leave while they run, or has two live attempts, where an
# answer that a runner got doesn't stand in the file, or where an attempt ended though neither its runner said so nor its lease was over.
# It needs bash, curl, jq and sqlite3.
set -eu
for tool in curl jq sqlite3; do command -v "$tool" > /dev/null || { echo "there is no $tool" >&2; exit 3; }; done
here=$(realpath "$(dirname "$0")")
ciserver=$(realpath "${1-$here/../bin/ciserver}")
times=${2-20} cut=${3-130}
work=$(mktemp -d)
server='' runners=()
trap 'for p in "${runners[@]}" $server; do kill "$p" 2> /dev/null || :; done; rm -rf "$work"' EXIT
trap 'exit 130' INT TERM
db=$work/ci.db
mkdir "$work/bin" "$work/project"
: > "$work/marks"

# The runners' curl: the stock one, and a line of what each call of it was answered; while there is a file of the runner's name, nothing.
cat > "$work/bin/curl" <<EOF
#!/usr/bin/env bash
[ ! -e "$work/cut-\$RUNNER" ] || { printf 000; exit 7; }
answer=\$($(command -v curl) "\$@")
ended=\$?
method= head= body= data= range=
while [ \$# -gt 1 ]; do
  case \$1 in
    -X) method=\$2 ;; -D) head=\$2 ;; -o) body=\$2 ;; --data-binary) data=\$2 ;;
  esac
  shift
done
id=\${1##*/jobs/} id=\${id%%/*} said=-
case \$method\$1 in
  POST*) kind=ask; [ "\$answer" != 201 ] || id=\$(jq .id "\$body") ;;
  PUT*) kind=state said=\$(jq -r .state "\${data#@}") ;;
  PATCH*) kind=piece said=\$(sed -n 's/\r\$//; s/^Range: 0-//p' "\$head") ;;
esac
echo "\$kind \$id \${said:--} \$answer" >> "$work/answers"
printf %s "\$answer"
exit \$ended
EOF
chmod +x "$work/bin/curl"

# Each job leaves marks while it runs, with its attempt, and some fail once. The long one is in a pipeline of its own.
job() { # NAME STAGE RULE MARKS LINE
  # shellcheck disable=SC2016
  printf '%s:\n  stage: %s\n  retry: 1\n  rules:\n    - if: $CI_COMMIT_BRANCH %s "long"\n  script: |\n    for mark in $(seq %s); do echo "$CI_PIPELINE_ID-$CI_JOB_NAME $CI_JOB_ID $RUNNER" >> "$MARKS"; sleep 0.05; done\n    %s\n' "$@"
}
# shellcheck disable=SC2016
{
  echo 'stages: [build, test, deploy]'
  job a build != 2 'echo a'; job b build != 2 'test $((CI_JOB_ID % 2)) = 1'; job c test != 2 'seq 2000'; job d test != 2 'echo d'
  job e deploy != 2 'echo e'; job long build == 10000 'echo long'
} > "$work/ci.yml"

"$ciserver" init --db "$db"
token=$("$ciserver" project-add --db "$db" --name p | jq -r .token)
one=$("$ciserver" runner-add --db "$db" --name one --untagged | jq -r .token)
two=$("$ciserver" runner-add --db "$db" --name two --untagged | jq -r .token)

# shellcheck source=examples/server.sh
. "$here/server.sh"

# Asks the server for something of the project, again until it answers.
api() {
  until curl -s --fail -X "$1" -H 'Expect:' -H "PRIVATE-TOKEN: $token" "${@:3}" "http://127.0.0.1:$port/api/v4/projects/1$2"; do
    sleep 0.1
  done
}

serve_file "$db" 1000000
api PUT /ci_file --data-binary "@$work/ci.yml" > /dev/null
count=0
create() { # [REF]
  count=$((count + 1))
  api POST /pipeline --data "{\"ref\":\"${1-r$count}\",\"variables\":[{\"key\":\"MARKS\",\"value\":\"$work/marks\"}]}"
}
create > /dev/null; create > /dev/null
for runner in "$one" "$two"; do
  PATH=$work/bin:$PATH RUNNER=${runner%%-*} RUNNER_TOKEN=$runner "$here/runner.sh" "http://127.0.0.1:$port" "$work/project" > /dev/null 2>&1 &
  runners+=($!)
done
for ((kill = 1; kill <= times; kill++)); do
  sleep "$(printf '0.%03d' $((RANDOM % 900 + 50)))"
  kill -KILL "$server"
  wait "$server" 2> /dev/null || :
  serve_file "$db" 1000000 "$port"
  create > /dev/null
done
sleep 10
# The runner of the long job hears nothing, and must have ended it before the other one begins with it.
create long > /dev/null
until grep -q -- '-long ' "$work/marks"; do sleep 0.1; done
alone=$(awk '/-long / { print $3; exit }' "$work/marks")
touch "$work/cut-$alone"
sleep "$cut"
rm "$work/cut-$alone"
sleep 5
for p in "${runners[@]}"; do kill "$p"; wait "$p" 2> /dev/null || :; done
runners=()
kill "$server"
wait "$server" 2> /dev/null || :
server=''

failed=0
fail() { failed=1; echo "$*"; }
query() { sqlite3 -readonly "$db" "$1"; }
# Marks of an attempt behind those of a later one of the same job.
twice=$(awk '$2 < last[$1] { print $1 } { last[$1] = $2 }' "$work/marks" | sort -u)
[ -z "$twice" ] || fail "jobs that ran twice at once: $twice"
tries=$(grep -- '-long ' "$work/marks" | sort -u | wc -l)
[ "$cut" -lt 125 ] || [ "$tries" = 2 ] || fail "attempts of the long job that ran: $tries, and not 2"
[ "$(query 'PRAGMA integrity_check')" = ok ] || fail "the file is not sound"
live=$(query 'SELECT job FROM attempt WHERE state = 0 GROUP BY job HAVING count(*) > 1')
[ -z "$live" ] || fail "jobs with two live attempts: $live"
passed=$(query 'SELECT a.id FROM attempt a JOIN attempt b ON b.job = a.job AND b.id > a.id WHERE a.state = 0')
[ -z "$passed" ] || fail "live attempts before others of their jobs: $passed"

# Each answer stands: a grant is an attempt, a piece is in the trace, a final state is the attempt's.
while read -r kind id said code; do
  case $kind-$code in
    ask-201) [ "$(query "SELECT count(*) FROM attempt WHERE id = $id")" = 1 ] || fail "grant $id is lost" ;;
    piece-202)
      size=$(query "SELECT coalesce(sum(length(bytes)), 0) FROM piece WHERE attempt = $id")
      [ "$size" -ge "$said" ] || fail "the trace of attempt $id has $size bytes, and not $said" ;;
    state-200)
      state=$(query "SELECT state FROM attempt WHERE id = $id")
      case $said-$state in running-* | success-1 | failed-2) ;; *) fail "attempt $id: $said was accepted, and it is $state" ;; esac ;;
  esac
done < "$work/answers"

# Each attempt that has ended did so as its runner said, or its lease was over.
now=$(date +%s)
while IFS='|' read -r id state seen; do
  case $state in
    1) grep -q "^state $id success " "$work/answers" || fail "attempt $id is a success that nobody told" ;;
    2) grep -q "^state $id failed " "$work/answers" || [ $((seen + 120)) -le "$now" ] || fail "attempt $id failed, and nobody told" ;;
  esac
done < <(query 'SELECT id, state, seen FROM attempt WHERE state <> 0')
query "SELECT 'stops: $times, attempts: ' || count(*) || ', live still: ' || coalesce(sum(state = 0), 0) FROM attempt"
exit "$failed"
