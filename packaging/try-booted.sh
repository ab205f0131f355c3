#!/usr/bin/env bash
# What packaging/try.sh has run in its Debian once systemd runs there, as root: the units with their users and walls, a kill, a stop, an upgrade, a removal.
set -u
cd /trial || exit 1
passed=0 failed=0
# is WHAT SAID WANTED
is() {
  if [ "$2" = "$3" ]; then
    passed=$((passed + 1))
    echo "ok: $1"
  else
    failed=$((failed + 1))
    echo "FAILED: $1: $2, and not $3"
  fi
}
as() { runuser -u "$1" -- "${@:2}"; }
db=/var/lib/ciserver/ci.db
port=$((20000 + RANDOM % 12000))
api=http://127.0.0.1:$port/api/v4

apt-get install -qq -y ./ciserver_"$VERSION"_amd64.deb ./ciserver-runner_"$VERSION"_all.deb > apt 2>&1
is 'an installation starts nothing' "$(systemctl is-active ciserver ciserver-runner | xargs)" 'inactive inactive'
rm -rf /var/lib/ciserver-runner/* /srv/hello.git clone
as ciserver ciserver init --db $db > /dev/null
project=$(as ciserver ciserver project-add --db $db --name hello | jq -r .token)
as ciserver ciserver runner-add --db $db --name shell --untagged | jq -r .token > token
install -m 640 -g ciserver-runner token /etc/ciserver-runner/token
sed -i "s/^PORT=.*/PORT=$port/" /etc/default/ciserver
sed -i "s|^url = .*|url = \"http://127.0.0.1:$port\"|" /etc/ciserver-runner/config.toml
printf '[projects.1]\nrepository = "/srv/hello.git"\n' >> /etc/ciserver-runner/config.toml
git config --system --replace-all safe.directory /srv/hello.git
git init --quiet --bare --initial-branch main /srv/hello.git
git init --quiet --initial-branch main clone
echo 'hello from a commit' > clone/greeting
cat > clone/.gitlab-ci.yml <<'FILE'
build:
  stage: build
  variables:
    CI_JOB_ARTIFACTS: made
    CI_JOB_CACHE: "key\tpull-push\tkept"
  script:
    - tr a-z A-Z < greeting > made
    - echo kept > kept
test:
  stage: test
  script:
    - cat made
    - id -un
    - '! cat /var/lib/ciserver/ci.db'
    - touch /etc/mine || echo "nothing is written there"
FILE
git -C clone add --all && git -C clone -c user.name=you -c user.email=you@example.com commit --quiet -m 'A greeting'
git -C clone push --quiet /srv/hello.git main
systemctl enable --quiet --now ciserver ciserver-runner
ask() { curl -s --retry 10 --retry-connrefused --retry-delay 1 --fail-with-body -H "PRIVATE-TOKEN: $project" "$@"; }
# comes WANTED PATH: the status of a pipeline or job once it is the one that is wanted, or what it is after half a minute.
comes() {
  local status=
  for _ in {1..60}; do
    status=$(ask "$api/projects/1/$2" | jq -r .status)
    if [ "$status" = "$1" ]; then break; fi
    sleep 0.5
  done
  echo "$status"
}
# sleeping: how many processes of a job that sleeps there are, once there is one, or after a minute: it is granted before its shell has begun.
sleeping() {
  for _ in {1..120}; do pgrep -u ciserver-runner sleep > /dev/null && break; sleep 0.5; done
  pgrep -u ciserver-runner -c sleep
}
pid() { systemctl show -p MainPID --value "$1"; }
if ! ask -X PUT --data-binary @clone/.gitlab-ci.yml "$api/projects/1/ci_file" > /dev/null; then
  systemctl --no-pager status ciserver
  exit 1
fi
ask --data '{"ref":"main"}' "$api/projects/1/pipeline" > /dev/null
is 'a pipeline succeeds, by both units' "$(comes success pipelines/1)" success
trace=$(ask "$api/projects/1/jobs/2/trace")
for line in 'HELLO FROM A COMMIT' ciserver-runner 'nothing is written there'; do is "the trace has $line" "$(grep -c "^$line" <<< "$trace")" 1; done
for unit in ciserver ciserver-runner; do is "the user of $unit" "$(ps -o user:20= -p "$(pid $unit)" | xargs)" $unit; done

killed=$(pid ciserver)
kill -9 "$killed"
is 'a server that was killed is started again' "$(comes success pipelines/1) $([ "$(pid ciserver)" != "$killed" ] && echo another)" 'success another'
printf 'long:\n  script: sleep 300\n' > long.yml
ask -X PUT --data-binary @long.yml "$api/projects/1/ci_file" > /dev/null
ask --data '{"ref":"main"}' "$api/projects/1/pipeline" > /dev/null
is 'a job runs' "$(comes running jobs/3) $(sleeping)" 'running 1'
kill -9 "$(pid ciserver)"
sleep 15
is 'it runs on over a kill of the server' "$(comes running jobs/3) $(pgrep -u ciserver-runner -c sleep)" 'running 1'
ask -X POST -d '' "$api/projects/1/jobs/3/cancel" > /dev/null
for _ in {1..40}; do pgrep -u ciserver-runner sleep > /dev/null || break; sleep 0.5; done
is 'a job that was cancelled is gone' "$(pgrep -u ciserver-runner -c sleep)" 0
ask -X POST -d '' "$api/projects/1/jobs/3/retry" > /dev/null
is 'it runs again' "$(comes running jobs/3) $(sleeping)" 'running 1'
systemctl stop ciserver-runner
is 'a runner that is stopped ends its jobs, and says so' "$(comes failed jobs/3) $(pgrep -u ciserver-runner -c sleep)" 'failed 0'
systemctl start ciserver-runner

before="$(pid ciserver) $(pid ciserver-runner)"
apt-get install -qq -y ./ciserver_"$VERSION"+later_amd64.deb ./ciserver-runner_"$VERSION"+later_all.deb > apt 2>&1
after="$(pid ciserver) $(pid ciserver-runner)"
is 'an upgrade starts both again' "$([ "${before% *}" != "${after% *}" ] && [ "${before#* }" != "${after#* }" ] && systemctl is-active ciserver ciserver-runner | xargs)" 'active active'
is 'the server serves the same file' "$(comes success pipelines/1)" success

printf 'PORT=%s\n' $((port + 1)) > /etc/default/ciserver-red
install -d -m 700 -o ciserver -g ciserver /var/lib/ciserver/red
as ciserver ciserver init --db /var/lib/ciserver/red/ci.db > /dev/null
systemctl enable --quiet --now ciserver@red
is 'one of several servers' "$(curl -s --retry 20 --retry-connrefused --retry-delay 1 -o /dev/null -w '%{http_code}' --data '{"token":"x"}' "http://127.0.0.1:$((port + 1))/api/v4/jobs/request")" 403

apt-get remove -qq -y ciserver ciserver-runner > apt 2>&1
is 'a removal stops all' "$(systemctl is-active ciserver ciserver@red ciserver-runner | xargs) $(pgrep -c -u ciserver,ciserver-runner)" 'inactive inactive inactive 0'
apt-get purge -qq -y ciserver ciserver-runner > apt 2>&1
is 'a purge leaves nothing enabled' "$(find /etc/systemd/system -name 'ciserver*' | wc -l)" 0
is 'and the file' "$(sqlite3 $db 'PRAGMA integrity_check')" ok

printf '\n%s\n' "$passed passed, $failed failed"
[ "$failed" = 0 ]
