#!/usr/bin/env bash
# Three servers behind one nginx (examples/nginx-teams.conf), each with a project and a runner: a pipeline of each goes through, by its part of the path and by its name, the page is
# served at both, and a token of one server is refused by another. Then how many polls and grants a second one server takes and all three at once, straight and through nginx, and how far a file grows.
#
#   bench/teams.sh [CISERVER] [REQUESTS]        as in: bench/teams.sh bin/ciserver 4000       REQUESTS is a multiple of 200
#
# It ends with 0 where each pipeline succeeded and each answer was as it should be. It wants ab (apache2-utils), curl, jq, nginx, openssl and python3. The files are in TMPDIR: in /dev/shm a commit waits for no disk.
set -eu
here=$(realpath "$(dirname "$0")/..")
ciserver=$(realpath "${1-$here/bin/ciserver}")
requests=${2-4000}
work=$(mktemp -d)
PATH=$PATH:/usr/sbin
teams=(red blue green)
declare -A ports projects runners
processes=()
server=''
end() {
  kill "${processes[@]}" 2> /dev/null || :
  wait
  rm -rf "$work"
}
trap end EXIT
trap 'exit 130' INT TERM
# shellcheck source=examples/server.sh
. "$here/examples/server.sh"

# The servers.
for team in "${teams[@]}"; do
  "$ciserver" init --db "$work/$team.db" > /dev/null
  projects[$team]=$("$ciserver" project-add --db "$work/$team.db" --name "$team" | jq -r .token)
  runners[$team]=$("$ciserver" runner-add --db "$work/$team.db" --name "$team" --untagged | jq -r .token)
  serve_file "$work/$team.db" 4294967295
  processes+=("$server")
  ports[$team]=$port
  jq -nc --arg token "${runners[$team]}" '{token: $token}' > "$work/$team.poll"
  echo "${runners[$team]}" > "$work/$team.token"
done

# nginx, by the example with other ports and a certificate of its own.
front=$((20000 + RANDOM % 12000))
while (: < "/dev/tcp/127.0.0.1/$front") 2> /dev/null; do front=$((20000 + RANDOM % 12000)); done
openssl req -x509 -newkey rsa:2048 -nodes -days 1 -subj /CN=ci.example.com -addext 'subjectAltName=DNS:ci.example.com,DNS:*.ci.example.com,IP:127.0.0.1' \
  -keyout "$work/ci.key" -out "$work/ci.pem" 2> /dev/null
{
  [ "$(id -u)" != 0 ] || echo 'user root;'
  printf 'daemon off; pid %s/nginx.pid; error_log %s/nginx.log; worker_processes 2; events { worker_connections 1024; }\nhttp { include /etc/nginx/mime.types; access_log off; keepalive_requests 1000000;\n' "$work" "$work"
  for part in client_body proxy fastcgi uwsgi scgi; do printf '%s_temp_path %s/nginx-%s;\n' $part "$work" $part; done
  sed "s|listen 443|listen 127.0.0.1:$front|; s|/etc/nginx/ci|$work/ci|; s|/usr/local/share/ciserver/web|$here/web|; s|:8081|:${ports[red]}|; s|:8082|:${ports[blue]}|; s|:8083|:${ports[green]}|" "$here/examples/nginx-teams.conf"
  echo '}'
} > "$work/nginx.conf"
nginx -e "$work/nginx.log" -c "$work/nginx.conf" &
processes+=($!)
by_path() { curl -sS --cacert "$work/ci.pem" "${@:2}" "https://127.0.0.1:$front/$1"; }
by_name() { curl -sS --cacert "$work/ci.pem" --resolve "$1.ci.example.com:$front:127.0.0.1" "${@:3}" "https://$1.ci.example.com:$front/$2"; }
until by_path none > /dev/null 2>&1; do kill -0 $!; sleep 0.1; done

# A runner for each server, by the part of the path.
for team in "${teams[@]}"; do
  printf 'url = "https://127.0.0.1:%s/%s"\nca_file = "%s"\ntoken_file = "%s"\nfolder = "%s"\nlongest_pause_seconds = 1\n[projects.1]\nrepository = "%s"\n' \
    "$front" "$team" "$work/ci.pem" "$work/$team.token" "$work/$team-runner" "$work" > "$work/$team.toml"
  "$here/runner/ciserver-runner" --config "$work/$team.toml" 2> "$work/$team.log" &
  processes+=($!)
done
# shellcheck disable=SC2016
printf 'build:\n  stage: build\n  variables:\n    GIT_STRATEGY: none\n  script: echo "built for $TEAM"\nship:\n  stage: deploy\n  variables:\n    GIT_STRATEGY: none\n  script: echo shipped\n' > "$work/file.yml"
for team in "${teams[@]}"; do
  by_path "$team/api/v4/projects/1/ci_file" -X PUT -H "PRIVATE-TOKEN: ${projects[$team]}" --data-binary "@$work/file.yml" > /dev/null
  jq -nc --arg team "$team" '{ref: "main", variables: [{key: "TEAM", value: $team}]}' > "$work/asked"
  by_name "$team" api/v4/projects/1/pipeline -H "PRIVATE-TOKEN: ${projects[$team]}" --data-binary "@$work/asked" > /dev/null
done
succeeded=0
for team in "${teams[@]}"; do
  for _ in {1..100}; do
    said=$(by_name "$team" api/v4/projects/1/pipelines/1 -H "PRIVATE-TOKEN: ${projects[$team]}" | jq -r .status)
    case $said in success | failed | canceled | skipped) break ;; esac
    sleep 0.2
  done
  trace=$(by_path "$team/api/v4/projects/1/jobs/1/trace" -H "PRIVATE-TOKEN: ${projects[$team]}" | grep '^built')
  echo "$team: project 1, pipeline 1: $said; job 1: $trace"
  if [ "$said" = success ] && [ "$trace" = "built for $team" ]; then succeeded=$((succeeded + 1)); fi
done
# answered WHAT WANTED SAID: says it, and ends all where it isn't what is wanted.
answered() {
  echo "$1: $3"
  [ "$2" = "$3" ]
}
for team in "${teams[@]}"; do
  answered "the page of $team, by path and by name" 'same same' "$(by_path "$team/" | cmp - "$here/web/index.html" && echo same) $(by_name "$team" '' | cmp - "$here/web/index.html" && echo same)"
done
answered 'a module of the page' 'application/javascript 200' "$(by_path red/js/main.js -o /dev/null -w '%{content_type} %{http_code}')"
answered 'its policy' 1 "$(by_path red/ -o /dev/null -D - | grep -ic "^content-security-policy: default-src 'none'; script-src 'self';")"
answered "red's project token at blue" '{"code":"M1"} 401' "$(by_path blue/api/v4/projects/1/pipelines/1 -H "PRIVATE-TOKEN: ${projects[red]}" -w ' %{http_code}')"
answered "red's runner at blue" '{"code":"M4"} 403' "$(by_path blue/api/v4/jobs/request --data-binary "@$work/red.poll" -w ' %{http_code}')"
answered 'an address that names no server' 404 "$(by_path api/v4/jobs/request --data-binary "@$work/red.poll" -o /dev/null -w '%{http_code}')"
answered 'a path of a server that is none of its routes' 404 "$(by_path red/none -o /dev/null -w '%{http_code}')"
[ "$succeeded" = 3 ]
for at in 4 5 6; do kill "${processes[at]}"; done
for at in 4 5 6; do wait "${processes[at]}" || :; done
# An attempt of red's and one of blue's that have one number.
for team in red blue; do
  by_path "$team/api/v4/projects/1/pipeline" -H "PRIVATE-TOKEN: ${projects[$team]}" --data '{"ref":"next"}' > /dev/null
  by_path "$team/api/v4/jobs/request" --data-binary "@$work/$team.poll" > "$work/$team.grant"
done
jq -c '{token: .token, state: "success"}' "$work/red.grant" > "$work/red.end"
[ "$(jq .id "$work/red.grant")" = "$(jq .id "$work/blue.grant")" ]
ends() { by_path "$1/api/v4/jobs/$(jq .id "$work/red.grant")" -X PUT --data-binary "@$work/red.end" -w ' %{http_code}'; }
answered "red's attempt at blue" '{"code":"M5"} 403' "$(ends blue)"
answered "red's attempt at red" ' 200' "$(ends red)"

# rate ADDRESS TEAM: the requests a second of polls of a team's runner, by four connections at a time.
rate() { ab -q -k -n "$requests" -c 4 -T application/json -p "$work/$2.poll" "$1/api/v4/jobs/request" 2>&1 | tee "$work/$2.ab" | sed -n 's/^Requests per second: *\([0-9]*\).*/\1/p'; }
straight() { echo "http://127.0.0.1:${ports[$1]}"; }
fronted() { echo "https://127.0.0.1:$front/$1"; }
# rates HOW TEAM..: all at once, and their sum.
rates() {
  local team waited=()
  for team in "${@:2}"; do
    rate "$("$1" "$team")" "$team" > "$work/$team.rate" &
    waited+=($!)
  done
  wait "${waited[@]}"
  for team in "${@:2}"; do
    if grep -q 'Non-2xx' "$work/$team.ab" || ! grep -q "^Complete requests: *$requests$" "$work/$team.ab"; then
      echo "not all were answered as they should: $(grep 'Non-2xx\|Complete' "$work/$team.ab")" >&2
      return 1
    fi
  done
  for team in "${@:2}"; do cat "$work/$team.rate"; done | awk '{ sum += $1; said = said " " $1 } END { print sum " a second in all:" said }'
}
polls() {
  echo "polls that get nothing, straight, one server: $(rates straight red)"
  echo "polls that get nothing, straight, three servers: $(rates straight "${teams[@]}")"
  echo "polls that get nothing, by nginx and TLS, one server: $(rates fronted red)"
  echo "polls that get nothing, by nginx and TLS, three servers: $(rates fronted "${teams[@]}")"
}
uptime
polls

# Grants: pipelines of 200 jobs each, for as many polls; and what they add to a file.
for number in {1..200}; do printf 'job%s:\n  script: make\n' "$number"; done > "$work/many.yml"
fill() {
  local number
  curl -sS -o /dev/null -X PUT -H "PRIVATE-TOKEN: ${projects[$1]}" --data-binary "@$work/many.yml" "$(straight "$1")/api/v4/projects/1/ci_file"
  for ((number = 0; number * 200 < requests; number++)); do
    curl -sS -o /dev/null -H "PRIVATE-TOKEN: ${projects[$1]}" --data "{\"ref\":\"$2-$number\"}" "$(straight "$1")/api/v4/projects/1/pipeline"
  done
}
bytes() { cat "$work/$1.db" "$work/$1.db-wal" 2> /dev/null | wc -c; }
before=$(bytes red)
fill red first
echo "a pending job takes $((($(bytes red) - before) / requests)) bytes of the file and its log, a pipeline of 200 jobs at a time"
status() { curl -sS -o /dev/null -w '%{http_code}' --data-binary "@$work/$1.poll" "$(straight "$1")/api/v4/jobs/request"; }
echo "grants, straight, one server: $(rates straight red)"
[ "$(status red)" = 204 ] # So each of them was one.
for team in "${teams[@]}"; do fill "$team" second; done
echo "grants, straight, three servers: $(rates straight "${teams[@]}")"
for team in "${teams[@]}"; do [ "$(status "$team")" = 204 ]; done
