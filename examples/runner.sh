#!/usr/bin/env bash
# A runner: asks a server for jobs, runs their scripts, and sends their traces and how they ended.
#
#   RUNNER_TOKEN=r1-.. examples/runner.sh [--once] URL [PROJECT]        as in: examples/runner.sh http://127.0.0.1:8080 examples/project
#
# Each job runs in a copy of the folder PROJECT (else of the current one), in one shell that stops at the first line of the script that
# fails. What its script leaves running is killed when it ends. The job itself is killed at its timeout, and before the server has heard
# nothing of it for 120 seconds: from then on it may run elsewhere. With --once the runner ends when the server has no job for it. A signal ends
# it, and the server is told. It needs bash, curl, jq and setsid.
set -u
umask 077
# So long the runner holds a job on to what it last heard: a call takes a second more than it may, and a clock tells whole seconds.
held=117
once=; [[ ${1-} != --once ]] || { once=1; shift; }
[[ $# =~ ^[12]$ && $1 != -* && ${RUNNER_TOKEN-} ]] || { echo "usage: RUNNER_TOKEN=.. runner.sh [--once] URL [PROJECT]" >&2; exit 2; }
[[ -d ${2-.} ]] || { echo "there is no folder $2" >&2; exit 2; }
api=$1/api/v4 project=$(realpath -- "${2-.}") runner=$RUNNER_TOKEN id='' pid=''
work=$(mktemp -d) || exit 3
unset RUNNER_TOKEN
trap end_runner EXIT; trap 'exit 130' INT TERM

# Ends what runs, and says so.
end_runner() { stop_job; lease=$((SECONDS + 5)); [[ -z $id ]] || put_state failed runner_system_failure; rm -rf "$work"; }

# call METHOD PATH SECONDS [WORD OF CURL..]: sets $code, and $status and $size as the reply says; its body is in $work/reply. Fails where none
# comes within so many seconds; 0 is no limit.
call() {
    : > "$work/head"
    code=$(curl -s --connect-timeout 10 -m "$3" -X "$1" -H 'Expect:' -o "$work/reply" -D "$work/head" -w '%{http_code}' "${@:4}" "$api$2")
    status=$(sed -n 's/\r$//; s/^Job-Status: //p' "$work/head")
    size=$(sed -n 's/\r$//; s/^Range: 0-//p' "$work/head")
    [[ $code != 000 && $code != 503 ]] || { echo "no answer from $api ($code)" >&2; sleep 1; false; }
}

# report METHOD PATH [WORD OF CURL..]: the same of the attempt, again until the server answers. Fails where the lease is over before.
report() {
    local begun left
    while begun=$SECONDS left=$((lease - SECONDS)); ((left > 0)); do
        is_late
        [[ -z $pid || $reason ]] || ((limit - begun >= left)) || left=$((limit - begun))
        if call "$1" "$2" $((left < 30 ? left : 30)) "${@:3}"; then
            [[ $code != 20[02] ]] || lease=$((begun + held)) heard=$begun
            return
        fi
    done
    false
}

# put_state STATE [REASON [EXIT CODE]]: says how the attempt stands.
put_state() {
    TOKEN=$token jq -nc --arg state "$1" --arg reason "${2-}" --argjson code "${3-null}" '{token: env.TOKEN, state: $state}
        + if $reason == "" then {} else {failure_reason: $reason} end + if $code == null then {} else {exit_code: $code} end' > "$room/state"
    report PUT "/jobs/$id" --data-binary "@$room/state"
}

# Sends what the trace has more, in pieces. Fails where the server takes nothing of this attempt any more.
send_trace() {
    local end
    while tail -c "+$((sent + 1))" "$room/trace" | head -c 65536 > "$room/piece"; [[ -s $room/piece && -z $full ]]; do
        end=$((sent + $(stat -c %s "$room/piece")))
        report PATCH "/jobs/$id/trace" -H "@$room/header" -H "Content-Range: $sent-$((end - 1))" --data-binary "@$room/piece" || return
        case $code in
            202) sent=$end ;;
            416) sent=$size ;; # this piece came before, and its reply was lost
            413) full=1 ;;     # the trace is at its limit: the rest isn't sent
        esac
        [[ $code =~ ^(202|416|413)$ && $status != canceled ]] || return
    done
}

# Kills the job with all that it has started, but for what left its group.
kill_job() { [[ -z $pid ]] || kill -KILL -- "-$pid" 2> /dev/null; }
stop_job() { kill_job; [[ -z $pid ]] || wait "$pid" 2> /dev/null; pid=; }

# Kills a job whose timeout is over.
is_late() { [[ -z $pid || $reason ]] || ((SECONDS < limit)) || { reason=job_execution_timeout; kill_job; }; }

# Has the job of the grant in $work/reply begin, in a copy of the project. Its variables are no words of its shell: some are bash's own.
begin_job() {
    printf 'JOB-TOKEN: %s\n' "$token" > "$room/header"
    jq -j '.variables[] | "\(.key)=\(.value)\u0000"' "$work/reply" > "$room/variables" && : > "$room/trace" && cp -r "$project" "$room/copy" || return
    # shellcheck disable=SC2016
    jq -r '"while read -r -d \"\"; do set -- \"$@\" \"$REPLY\"; done < \"$1\"; shift; unset REPLY; command export -- \"$@\" &> /dev/null; set --",
        "set -eo pipefail", (.script[] | "printf \"$ %s\\n\" \(@sh)", "eval \(@sh)")' "$work/reply" > "$room/job.sh" || return
    (cd "$room/copy" && exec setsid bash "$room/job.sh" "$room/variables") < /dev/null >> "$room/trace" 2>&1 &
    pid=$!
}

# Runs the job of the grant in $work/reply, which was asked for at the second $1.
run_job() {
    local name result sent=0 full='' running=1
    IFS=$'\t' read -r id token timeout name < <(jq -r '[.id, .token, .timeout, .job_info.name] | @tsv' "$work/reply")
    lease=$(($1 + held)) limit=$(($1 + timeout)) heard=$1 reason='' room=$work/$id
    mkdir "$room"
    begin_job || { put_state failed runner_system_failure; echo "attempt $id of $name: no copy of $project" >&2; return; }
    while sleep 0.2; [[ $running ]]; do
        is_late
        kill -0 "$pid" 2> /dev/null || { running=; kill_job; }
        status=running
        ((SECONDS - heard < 10)) || put_state running || status='given up'
        if [[ $status != running ]] || ! send_trace; then
            stop_job; echo "attempt $id of $name: ${status:-over}"; return
        fi
    done
    wait "$pid" 2> /dev/null; result=$? pid=
    if ((result == 0)) && [[ -z $reason ]]; then put_state success '' 0; else put_state failed "${reason:-script_failure}" "$result"; fi
    echo "attempt $id of $name: ${status:-over}, exit code $result"
}

TOKEN=$runner jq -nc '{token: env.TOKEN}' > "$work/ask"
while :; do
    asked=$SECONDS
    # It waits as long as it takes: a grant whose reply nobody reads is lost to its job.
    call POST /jobs/request 0 --data-binary "@$work/ask" || { echo "a poll was given up" >&2; continue; }
    case $code in
        201) run_job "$asked"; rm -rf "${room:?}"; id= ;;
        204) [[ -z $once ]] || exit 0; sleep 1 ;;
        *) echo "the server refuses: $code $(< "$work/reply")" >&2; exit 1 ;;
    esac
done
