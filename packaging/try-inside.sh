#!/usr/bin/env bash
# What packaging/try.sh has run in its Debian, as root: installation, a pipeline by curl and one by a push, the page by nginx, a
# copy, upgrades of files and of the packages and the way back, removal, purge.
set -u
cd /trial || exit 1
passed=0 failed=0 processes=()
trap 'kill "${processes[@]}" 2> /dev/null' EXIT
# passes WHAT WORD..: the command ends with 0.
passes() {
  if "${@:2}" > said 2>&1; then
    passed=$((passed + 1))
    echo "ok: $1"
  else
    failed=$((failed + 1))
    echo "FAILED: $1: ${*:2}: $(head -c 2000 said)"
  fi
}
is() { passes "$1" [ "$2" = "$3" ]; }
as() { runuser -u "$1" -- "${@:2}"; }
# begins USER UNIT: in the place of this shell, as the unit would begin it.
begins() {
  local command
  command=$(sed -n 's/^ExecStart=//p' "/usr/lib/systemd/system/$2.service")
  command=${command/\$\{PORT\}/$(sed -n 's/^PORT=//p' /etc/default/ciserver)}
  # shellcheck disable=SC2086
  exec setpriv --reuid "$1" --regid "$1" --init-groups -- $command
}
# listens PROCESS: waits until it has said so in the file serving; ends with 1 where it ends before that.
listens() {
  until grep -q listening serving; do
    kill -0 "$1" 2> /dev/null || return 1
    sleep 0.1
  done
}
step() { printf '\n%s\n' "== $1"; }
db=/var/lib/ciserver/ci.db

step 'installation'
apt-get update -qq
apt-get install -qq -y ./ciserver_"$VERSION"_amd64.deb ./ciserver-runner_"$VERSION"_all.deb curl dbus jq procps sqlite3 systemd systemd-sysv > apt 2>&1
is 'both are installed' "$(dpkg-query -W -f '${db:Status-Abbrev}' ciserver ciserver-runner)" 'ii ii '
grep '^ciserver' apt
is "the program is dist's to the byte" "$(sha256sum < /usr/bin/ciserver)" "$PROGRAM  -"
is 'the folder of the server' "$(stat -c '%a %U %G' /var/lib/ciserver)" '700 ciserver ciserver'
is 'the folder of the runner' "$(stat -c '%a %U %G' /var/lib/ciserver-runner)" '700 ciserver-runner ciserver-runner'
is 'the folder of its tokens' "$(stat -c '%a %U %G' /etc/ciserver-runner)" '750 root ciserver-runner'
is 'nothing is enabled' "$(find /etc/systemd/system -name 'ciserver*' | wc -l)" 0
is 'no file was made' "$(ls /var/lib/ciserver)" ''
is 'the configuration' "$(dpkg-query -W -f '${Conffiles}\n' ciserver ciserver-runner | awk '{ print $1 }' | xargs)" '/etc/default/ciserver /etc/ciserver-runner/config.toml'
passes 'dpkg finds each file as it was packed' dpkg --verify ciserver ciserver-runner
passes 'systemd-analyze verify' systemd-analyze verify --man=no ciserver.service ciserver@red.service ciserver-runner.service
is 'and it says nothing' "$(cat said)" ''
systemd-analyze security --offline=true ciserver.service ciserver@red.service ciserver-runner.service 2> /dev/null | grep -i 'overall'

step 'a pipeline through the server by curl and the runner'
passes 'init, as its user' as ciserver ciserver init --db $db
project=$(as ciserver ciserver project-add --db $db --name hello | jq -r .token)
umask 077
as ciserver ciserver runner-add --db $db --name shell --untagged | jq -r .token > /etc/ciserver-runner/token
chmod 640 /etc/ciserver-runner/token && chgrp ciserver-runner /etc/ciserver-runner/token
umask 022
for _ in {1..20}; do
  port=$((20000 + RANDOM % 12000))
  sed -i "s/^PORT=.*/PORT=$port/" /etc/default/ciserver
  : > serving
  begins ciserver ciserver >> serving &
  server=$!
  processes+=("$server")
  if listens "$server"; then break; fi
done
cat serving
api=http://127.0.0.1:$port/api/v4
sed -i "s|^url = .*|url = \"http://127.0.0.1:$port\"|" /etc/ciserver-runner/config.toml
printf '[projects.1]\nrepository = "/srv/hello.git"\n' >> /etc/ciserver-runner/config.toml
git config --system --add safe.directory /srv/hello.git
begins ciserver-runner ciserver-runner 2> running &
runner=$!
processes+=("$runner")

git init --quiet --bare --initial-branch main /srv/hello.git
git init --quiet --initial-branch main clone
echo 'hello from a commit' > clone/greeting
cat > clone/.gitlab-ci.yml <<'FILE'
build:
  stage: build
  variables:
    CI_JOB_ARTIFACTS: made
  script: tr a-z A-Z < greeting > made
test:
  stage: test
  script:
    - cat made
    - id -un
FILE
git -C clone add --all && git -C clone -c user.name=you -c user.email=you@example.com commit --quiet -m 'A greeting'
git -C clone push --quiet /srv/hello.git main
ask() { curl -sS --fail-with-body -H "PRIVATE-TOKEN: $project" "$@"; }
# ended PIPELINE: waits for its end, half a minute at most, and says its status.
ended() {
  local status=
  for _ in {1..60}; do
    status=$(ask "$api/projects/1/pipelines/$1" | jq -r .status)
    case $status in success | failed | canceled | skipped) break ;; esac
    sleep 0.5
  done
  echo "$status"
}
is 'the file is taken' "$(ask -X PUT --data-binary @clone/.gitlab-ci.yml "$api/projects/1/ci_file")" '{"jobs":2}'
is 'a pipeline is made' "$(ask --data '{"ref":"main"}' "$api/projects/1/pipeline" | jq -c '[.id, .status]')" '[1,"pending"]'
is 'it succeeds' "$(ended 1)" success
trace=$(ask "$api/projects/1/jobs/2/trace")
passes 'its trace has the artifact of the job before' grep -q 'HELLO FROM A COMMIT' <<< "$trace"
passes 'and the user of the runner' grep -q '^ciserver-runner' <<< "$trace"

step 'a push, with a file of GitLab that the hook has written out'
cp /usr/share/ciserver/post-receive /srv/hello.git/hooks/
echo "$project" > /srv/hello.token
for pair in "url http://127.0.0.1:$port" 'project 1' 'tokenFile /srv/hello.token' 'convert /usr/bin/ciserver-convert'; do
  git -C /srv/hello.git config "ciserver.${pair%% *}" "${pair#* }"
done
cat > clone/.gitlab-ci.yml <<'FILE'
default:
  before_script: [echo first]
.base: &base
  script: cat greeting
greet:
  <<: *base
FILE
git -C clone -c user.name=you -c user.email=you@example.com commit --quiet --all -m 'In the manner of GitLab'
git -C clone push /srv/hello.git main 2>&1 | grep '^remote'
is 'its pipeline succeeds' "$(ended 2)" success
passes 'its trace has both scripts' grep -q 'hello from a commit' <<< "$(ask "$api/projects/1/jobs/3/trace")"
step 'the page and the server, by nginx with the site of the package'
# nginx is begun here alone, and not where systemd runs: its port would be one of the machine's.
printf '#!/bin/sh\nexit 101\n' > /usr/sbin/policy-rc.d && chmod 755 /usr/sbin/policy-rc.d
systemctl mask --quiet nginx
apt-get install -qq -y nginx openssl > apt 2>&1
rm /usr/sbin/policy-rc.d /etc/nginx/sites-enabled/default
openssl req -x509 -newkey rsa:2048 -nodes -days 1 -subj /CN=ci.example.com -addext subjectAltName=DNS:ci.example.com -keyout /etc/nginx/ci.key -out /etc/nginx/ci.pem 2> /dev/null
for _ in {1..20}; do
  front=$((20000 + RANDOM % 12000))
  sed "s|listen 443|listen 127.0.0.1:$front|; s|127.0.0.1:8080|127.0.0.1:$port|" /usr/share/doc/ciserver/examples/nginx.conf > /etc/nginx/conf.d/ciserver.conf
  nginx > said 2>&1 && break
done
passes 'nginx takes the site' nginx -t
at=https://ci.example.com:$front
front() { curl -sS --cacert /etc/nginx/ci.pem --resolve "ci.example.com:$front:127.0.0.1" "$@"; }
front -D head "$at/" > index
passes 'its first file is the page' cmp index /usr/share/ciserver/web/index.html
wrong=0
for file in $(cd /usr/share/ciserver/web && find . -type f); do front "$at/$file" | cmp -s - "/usr/share/ciserver/web/$file" || wrong=$((wrong + 1)); done
is 'each of its files is served' "$wrong" 0
header() { sed -n "s/^$1: //Ip" head | tr -d '\r'; }
is 'the policy' "$(header content-security-policy)" \
  "default-src 'none'; script-src 'self'; style-src 'self'; connect-src 'self'; img-src 'self' data:; base-uri 'none'; form-action 'none'; frame-ancestors 'none'"
is 'the other headers' "$(header x-content-type-options) $(header referrer-policy) $(header cache-control)" 'nosniff no-referrer no-cache'
is 'a module is a script' "$(front -o module -w '%{content_type}' "$at/js/main.js")" application/javascript
is 'it is only read' "$(front -o index -w '%{http_code}' -X POST -d x "$at/")" 403
is 'the project' "$(front -H "PRIVATE-TOKEN: $project" "$at/api/v4/projects/1" | jq -c '[.id, .name]')" '[1,"hello"]'
is 'without its token' "$(front -o refused -w '%{http_code}' "$at/api/v4/projects/1")" 401
is 'a part of a trace' "$(front -H "PRIVATE-TOKEN: $project" -H 'Range: bytes=5-' -o part -w '%{http_code}' "$at/api/v4/projects/1/jobs/2/trace") $(tail -c +6 <<< "$trace" | cmp -n "$(wc -c < part)" part - && echo same)" '206 same'
is 'whether it is open' "$(front -o index -w '%{http_code}' "$at/-/health")" 200
nginx -s stop 2> said
/usr/share/doc/ciserver/examples/web.sh "$port" > address &
trial=$!
processes+=("$trial")
for _ in {1..100}; do [ -s address ] || sleep 0.1; done
passes 'a trial of it without a certificate' cmp <(curl -sS "$(cat address)") /usr/share/ciserver/web/index.html
kill "$trial"

step 'a copy while it serves, and back to it'
is 'a copy' "$(ciserver-backup $db /root/monday.db)" 'tries: 1'
is 'it is whole' "$(sqlite3 /root/monday.db 'PRAGMA integrity_check' 'SELECT count(*) FROM pipeline' | xargs)" 'ok 2'
is 'a pipeline after it' "$(ask --data '{"ref":"main"}' "$api/projects/1/pipeline" | jq -c .id)" 3
kill "$server" "$runner"
wait "$server" "$runner" 2> /dev/null
away=$(mktemp -d /root/away.XXXXXX) && mv /var/lib/ciserver/ci.db* "$away" &&
  install -m 600 -o ciserver -g ciserver /root/monday.db $db
is 'that pipeline is no more' "$(as ciserver ciserver report --db $db --kind pipeline --pipeline 3)" 'refused: M3'
as ciserver ciserver report --db $db --kind pipeline --pipeline 2
passes 'a page' ciserver-page $db 1

step 'files of version 1'
for name in rows live; do
  install -m 600 -o ciserver -g ciserver $name.db /var/lib/ciserver/$name.db
  is "$name.db is migrated" "$(as ciserver ciserver migrate --db /var/lib/ciserver/$name.db)" 'migrated: 1 to 2'
  is "$name.db is whole" "$(sqlite3 /var/lib/ciserver/$name.db 'PRAGMA integrity_check' "SELECT num FROM meta WHERE key = 'version'" | xargs)" 'ok 2'
done
: > serving
as ciserver ciserver serve --db /var/lib/ciserver/live.db --port "$port" --requests 1 >> serving &
server=$!
passes 'it is served' listens "$server"
is 'a pipeline of it is served' "$(curl -s -H 'PRIVATE-TOKEN: p1-abababababababababababababababab' "$api/projects/1/pipelines/1" | jq -r '.jobs[0].name')" ship
wait "$server"

step 'an upgrade of the packages'
sum=$(sha256sum < $db)
apt-get install -qq -y ./ciserver_"$VERSION"+later_amd64.deb ./ciserver-runner_"$VERSION"+later_all.deb > apt 2>&1
is 'both are the later ones' "$(dpkg-query -W -f '${Version} ' ciserver ciserver-runner)" "$VERSION+later $VERSION+later "
is 'the configuration stayed' "$(grep -c "PORT=$port" /etc/default/ciserver) $(grep -c /srv/hello.git /etc/ciserver-runner/config.toml)" '1 1'
is 'the file stayed' "$(sha256sum < $db)" "$sum"
is 'nothing was asked or said' "$(grep -c '^ciserver' apt)" 0
apt-get install -qq -y --allow-downgrades ./ciserver_"$VERSION"_amd64.deb > apt 2>&1
is 'back to the earlier one' "$(dpkg-query -W -f '${Version}' ciserver)" "$VERSION"
is 'it opens the file' "$(as ciserver ciserver migrate --db $db)" 'version: 2'
sum=$(sha256sum < $db)
apt-get install -qq -y ./ciserver_"$VERSION"+later_amd64.deb > apt 2>&1

step 'removal'
apt-get remove -qq -y ciserver ciserver-runner > apt 2>&1
is 'the file stayed' "$(sha256sum < $db)" "$sum"
passes 'and the configuration' test -e /etc/default/ciserver -a -e /etc/ciserver-runner/config.toml
is 'the programs went, with what Python made' "$(ls -d /usr/bin/ciserver* /usr/share/ciserver* /usr/lib/systemd/system/ciserver* 2> /dev/null)" ''
apt-get install -qq -y ./ciserver_"$VERSION"+later_amd64.deb > apt 2>&1
is 'installed again it opens the file' "$(as ciserver ciserver report --db $db --kind pipeline --pipeline 1 | head -n 1 | cut -d ' ' -f 1-10)" 'pipeline 1 project 1 ref main source api status success'

step 'purge'
apt-get purge -qq -y ciserver ciserver-runner > apt 2>&1
grep -A 2 '^ciserver' apt
is 'the configuration went' "$(ls -d /etc/default/ciserver /etc/ciserver-runner/config.toml 2> /dev/null)" ''
is 'the file stayed' "$(stat -c '%a %U' $db)" '600 ciserver'
is 'the token that lay beside the configuration stayed' "$(ls /etc/ciserver-runner)" token
is 'dpkg knows neither' "$(dpkg-query -W -f '${Package}' ciserver ciserver-runner 2> /dev/null)" ''
rm -r /var/lib/ciserver && deluser --system --quiet ciserver
apt-get install -qq -y ./ciserver_"$VERSION"_amd64.deb > apt 2>&1
apt-get purge -qq -y ciserver > apt 2>&1
grep '^ciserver' apt
is 'where there is no file its folder goes' "$(ls -d /var/lib/ciserver 2> /dev/null)" ''

printf '\n%s\n' "$passed passed, $failed failed"
[ "$failed" = 0 ]
