#!/usr/bin/env bash
# A whole pipeline: makes a server's file, serves it on a free port, sends the CI file of examples/project, makes a pipeline of it,
# has examples/runner.sh run its jobs, plays the manual job, and prints the pipeline with its statuses and the trace of its first job.
#
#   examples/demo.sh [CISERVER]        as in: examples/demo.sh bin/ciserver
#
# It ends with 0 where the pipeline succeeds. It needs bash, curl and jq, and for the jobs of the project make and cc.
set -eu
here=$(realpath "$(dirname "$0")")
ciserver=$(realpath "${1-$here/../bin/ciserver}")
work=$(mktemp -d)
server=
trap '[ -z "$server" ] || kill "$server" 2> /dev/null || :; rm -rf "$work"' EXIT
trap 'exit 130' INT TERM
db=$work/ci.db
# shellcheck source=examples/server.sh
. "$here/server.sh"

# api METHOD PATH [WORD OF CURL..]: asks the server for something of the project, and prints the body of its reply.
api() {
  curl -sS --fail-with-body -X "$1" -H 'Expect:' -H "PRIVATE-TOKEN: $token" "${@:3}" "$url/api/v4/projects/1$2"
}

"$ciserver" init --db "$db"
token=$("$ciserver" project-add --db "$db" --name hello | jq -r .token)
runner=$("$ciserver" runner-add --db "$db" --name shell --untagged | jq -r .token)
serve_file "$db" 1000000
url=http://127.0.0.1:$port
api PUT /ci_file --data-binary "@$here/project/.gitlab-ci.yml"
echo
number=$(api POST /pipeline --data '{"ref":"main"}' | jq .id)
RUNNER_TOKEN=$runner "$here/runner.sh" --once "$url" "$here/project"
job=$(api GET "/pipelines/$number" | jq '.jobs[] | select(.status == "manual") | .id')
echo "job $job is played"
api POST "/jobs/$job/play" --data '' > "$work/played"
RUNNER_TOKEN=$runner "$here/runner.sh" --once "$url" "$here/project"
echo
api GET "/pipelines/$number" | tee "$work/pipeline" | jq -r '
  "pipeline \(.id) of \(.ref): \(.status)", (.jobs[] | "  \(.id) \(.stage) \(.name): \(.status)")'
echo
first=$(jq '.jobs[0].id' "$work/pipeline")
echo "the trace of job $first:"
api GET "/jobs/$first/trace"
[ "$(jq -r .status "$work/pipeline")" = success ]
echo
echo "to look at a project: bin/ciserver serve .., examples/web.sh PORT (it wants nginx), and open the address that it prints with the project's token"
