#!/usr/bin/env bash
# From a push to a job that builds: makes a bare Git repository with the hook examples/post-receive, a server with nginx in front of it, and two
# runners; pushes the C project of examples/project, and prints what the push said, the pipeline and its traces. The first job builds the program
# and keeps it as an artifact; the second one, by the other runner, runs it: in a container where podman runs one here, else in the shell.
#
#   examples/from-push.sh [CISERVER]        as in: examples/from-push.sh bin/ciserver
#
# It ends with 0 where the pipeline succeeds. It needs bash, curl, jq, git, python3, cc and make; where there are nginx and openssl, the runners
# speak TLS with nginx, else HTTP with the server; where there are podman and a static busybox, the second job has a container.
set -eu
here=$(realpath "$(dirname "$0")")
ciserver=$(realpath "${1-$here/../bin/ciserver}")
work=$(mktemp -d)
server='' image='' processes=()
end() {
  for process in "${processes[@]}" $server; do kill "$process" 2> /dev/null || :; done
  wait
  [ -z "$image" ] || podman image rm --force "$image" > /dev/null
  rm -rf "$work"
}
trap end EXIT
trap 'exit 130' INT TERM
# shellcheck source=examples/server.sh
. "$here/server.sh"
export GIT_CONFIG_GLOBAL=/dev/null

# A server, with a project and two runners: the second one takes the jobs that say `tags: [second]`.
"$ciserver" init --db "$work/ci.db"
token=$("$ciserver" project-add --db "$work/ci.db" --name hello | jq -r .token)
"$ciserver" runner-add --db "$work/ci.db" --name first --untagged | jq -r .token > "$work/first.token"
"$ciserver" runner-add --db "$work/ci.db" --name second --tags second | jq -r .token > "$work/second.token"
serve_file "$work/ci.db" 1000000
direct=http://127.0.0.1:$port url=http://127.0.0.1:$port

# nginx, by examples/nginx.conf with another port, name and certificate.
if PATH=$PATH:/usr/sbin command -v nginx > /dev/null && command -v openssl > /dev/null; then
  openssl req -x509 -newkey rsa:2048 -nodes -days 1 -subj /CN=localhost -addext subjectAltName=IP:127.0.0.1 \
    -keyout "$work/ci.key" -out "$work/ci.pem" 2> /dev/null
  front=$((port + 1))
  # Its paths are below the folder, whose own may have blanks.
  {
    echo 'daemon off; pid nginx.pid; events {} http { access_log off;'
    for part in client_body proxy fastcgi uwsgi scgi; do echo "${part}_temp_path nginx-$part;"; done
    sed "s|listen 443|listen 127.0.0.1:$front|; s|/etc/nginx/ci|ci|; s|:8080|:$port|" "$here/nginx.conf"
    echo '}'
  } > "$work/nginx.conf"
  PATH=$PATH:/usr/sbin nginx -p "$work" -e nginx.log -c nginx.conf &
  processes+=($!)
  url=https://127.0.0.1:$front
  until curl -s --cacert "$work/ci.pem" "$url" > /dev/null; do kill -0 $!; sleep 0.1; done
  echo "nginx is in front of the server: $(curl -s --cacert "$work/ci.pem" -w '%{http_code} %{ssl_verify_result}' -o /dev/null "$url/api/v4/none")"
fi

# An image with busybox alone, if podman runs one.
if command -v podman > /dev/null && command -v busybox > /dev/null; then
  mkdir -p "$work/image/bin"
  cp "$(command -v busybox)" "$work/image/bin/busybox"
  for name in sh cat ls; do ln -s busybox "$work/image/bin/$name"; done
  tar -C "$work/image" -c . | podman import - localhost/from-push > /dev/null 2>&1 || :
  if podman run --rm localhost/from-push ls > /dev/null 2>&1; then
    image=localhost/from-push
  else
    podman image rm --force localhost/from-push > /dev/null 2>&1 || :
  fi
fi
printf 'jobs of the second runner run in %s\n' "${image:-the shell}"

runner() { # NAME [LINE..]
  {
    printf 'url = "%s"\ntoken_file = "%s"\nfolder = "%s"\nname = "%s"\n' "$url" "$work/$1.token" "$work/$1" "$1"
    [ "$url" = "$direct" ] || printf 'ca_file = "%s"\n' "$work/ci.pem"
    printf '%s\n' "${@:2}"
    printf '[artifacts]\nfolder = "%s"\n[projects.1]\nrepository = "%s"\n' "$work/artifacts" "$work/hello.git"
  } > "$work/$1.toml"
  "$here/../runner/ciserver-runner" --config "$work/$1.toml" 2> "$work/$1.log" &
  processes+=($!)
}
runner first
if [ -n "$image" ]; then runner second 'where = "container"' '[container]' "image = \"$image\"" 'network = "none"'; else runner second; fi

# The repository, with its hook, and a clone with the project.
git init --quiet --bare --initial-branch main "$work/hello.git"
cp "$here/post-receive" "$work/hello.git/hooks/"
echo "$token" > "$work/project.token"
git -C "$work/hello.git" config ciserver.url "$direct"
git -C "$work/hello.git" config ciserver.project 1
git -C "$work/hello.git" config ciserver.tokenFile "$work/project.token"
git init --quiet --initial-branch main "$work/clone"
cd "$work/clone"
cp "$here/project/hello.c" "$here/project/Makefile" .
cat > .gitlab-ci.yml << 'END'
stages: [build, test]

build:
  stage: build
  variables:
    CFLAGS: -O2 -Wall -Wextra -Werror -static
    CI_JOB_ARTIFACTS: hello
  script: make hello

greet:
  stage: test
  tags: [second]
  variables:
    CI_JOB_DEPENDENCIES: build
  script: ./hello "$CI_COMMIT_REF_NAME" "$CI_COMMIT_SHORT_SHA"
END
git add --all
git -c user.name=you -c user.email=you@example.com commit --quiet -m 'A program that greets'
git remote add origin "$work/hello.git"
echo '$ git push origin main'
git push origin main

# Until the pipeline is finished, a minute at most.
api() { curl -sS --fail-with-body -H "PRIVATE-TOKEN: $token" "$direct/api/v4/projects/1$1"; }
for _ in {1..600}; do
  api /pipelines/1 > "$work/pipeline"
  case $(jq -r .status "$work/pipeline") in success | failed | canceled | skipped) break ;; esac
  sleep 0.1
done
echo
jq -r '"pipeline \(.id) of \(.ref): \(.status)", (.jobs[] | "  \(.id) \(.stage) \(.name): \(.status)")' "$work/pipeline"
for job in 1 2; do
  printf '\nthe trace of job %s:\n' $job
  api "/jobs/$job/trace"
done
[ "$(jq -r .status "$work/pipeline")" = success ]
