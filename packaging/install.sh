#!/usr/bin/env bash
# Lays the files of an installation: `server` is the program with its unit, pages, completion, examples and the commands ciserver-backup,
# ciserver-convert and ciserver-page; `runner` is ciserver-runner with its unit. make install calls it for both, and make deb once for each package.
#
#   packaging/install.sh server|runner        as in: PREFIX=/usr/local packaging/install.sh server
#
# PREFIX is /usr/local where it isn't given; DESTDIR stands before each path; SYSCONFDIR is /etc, but below another PREFIX than /usr and /usr/local its etc.
# A file of the configuration that is there stays as it is. PROGRAM is the program, bin/ciserver where it isn't given.
set -euo pipefail
cd "$(dirname "$0")/.."
part=${1-}
prefix=${PREFIX:-/usr/local}
prefix=${prefix%/}
case $prefix in
  /usr | /usr/local) config=${SYSCONFDIR:-/etc} ;;
  /*[!a-zA-Z0-9/._+-]* | [!/]*)
    echo "PREFIX is a path from the root on, of letters, digits and /._+- alone, and not $prefix" >&2
    exit 2
    ;;
  *) config=${SYSCONFDIR:-$prefix/etc} ;;
esac
# What is laid is for all.
umask 022
root=${DESTDIR-}
program=${PROGRAM:-bin/ciserver}
bin=$prefix/bin share=$prefix/share units=$prefix/lib/systemd/system
room=$(mktemp -d)
trap 'rm -rf "$room"' EXIT

# put MODE FROM TO: copies a file, with the folders that it needs.
put() { install -D -m "$1" "$2" "$root$3"; }
# script FROM TO: a program in Python, by the system's own python3.
script() {
  sed '1s|^#!/usr/bin/env python3$|#!/usr/bin/python3|' "$2" > "$room/script"
  put "$1" "$room/script" "$3"
}
# settled FROM TO: a text with the paths of this installation, but in its comments.
settled() {
  sed -E "/^#/! { s#/usr/local/bin/#$bin/#; s#/usr/local/lib/ciserver-runner/#$share/ciserver-runner/#; s#/usr/local/share/ciserver/#$share/ciserver/#; s#/etc/(default|ciserver-runner)#$config/\\1# }" "$1" > "$room/text"
  put 644 "$room/text" "$2"
}
# kept FROM TO: a file of the configuration.
kept() { [ -e "$root$2" ] || settled "$1" "$2"; }
# command NAME TO: a command that is a script in a folder of its own.
command_to() {
  mkdir -p "$root$bin"
  ln -sfn "../share/$2" "$root$bin/$1"
}
# pages NAME..: the manual's pages that are named.
pages() {
  packaging/pages.py --ciserver "$program" "$room/pages"
  for page in "$@"; do
    gzip -9n "$room/pages/$page"
    put 644 "$room/pages/$page.gz" "$share/man/man${page##*.}/$page.gz"
  done
}

server() {
  local file
  put 755 "$program" "$bin/ciserver"
  pages ciserver.1 ciserver-backup.1 ciserver-convert.1 ciserver-page.1 ciserver-gitlab-ci.5
  settled examples/ciserver.service "$units/ciserver.service"
  # The same for one of several servers: ciserver@NAME, with a folder and a port of its own.
  sed 's|^Description=.*|&, %i|; s|^StateDirectory=ciserver$|&/%i|; s|/var/lib/ciserver/ci.db|/var/lib/ciserver/%i/ci.db|; /^Environment=PORT=/d
       s|^EnvironmentFile=-/etc/default/ciserver$|EnvironmentFile=/etc/default/ciserver-%i|' examples/ciserver.service > "$room/unit"
  settled "$room/unit" "$units/ciserver@.service"
  kept packaging/default "$config/default/ciserver"
  put 644 packaging/ciserver.bash "$share/bash-completion/completions/ciserver"
  script 755 examples/convert.py "$share/ciserver/convert.py"
  for file in examples/convert/*.py; do
    case $file in */test_*) continue ;; esac
    put 644 "$file" "$share/ciserver/convert/${file##*/}"
  done
  script 755 examples/page.py "$share/ciserver/page.py"
  put 755 examples/backup.sh "$share/ciserver/backup.sh"
  put 755 examples/post-receive "$share/ciserver/post-receive"
  # The page that nginx serves, without its tests.
  for file in web/index.html web/icon.svg web/css/*.css web/js/*.js; do put 644 "$file" "$share/ciserver/$file"; done
  command_to ciserver-backup ciserver/backup.sh
  command_to ciserver-convert ciserver/convert.py
  command_to ciserver-page ciserver/page.py
  for file in README.md CHANGELOG.md SECURITY.md docs/*.md docs/*.png; do put 644 "$file" "$share/doc/ciserver/$file"; done
  for file in nginx.conf nginx-teams.conf; do settled "examples/$file" "$share/doc/ciserver/examples/$file"; done
  put 644 web/README.md "$share/doc/ciserver/web/README.md"
  for file in project/Makefile project/hello.c project/.gitlab-ci.yml; do
    put 644 "examples/$file" "$share/doc/ciserver/examples/$file"
  done
  for file in runner.sh web.sh; do put 755 "examples/$file" "$share/doc/ciserver/examples/$file"; done
}

runner() {
  local file
  pages ciserver-runner.1
  settled runner/ciserver-runner.service "$units/ciserver-runner.service"
  # The projects of the example are none of this runner: they stand behind a #.
  sed '/^\[projects\./,$ { s/^\([^#]\)/# \1/ }' runner/config.example.toml > "$room/config.toml"
  kept "$room/config.toml" "$config/ciserver-runner/config.toml"
  script 755 runner/ciserver-runner "$share/ciserver-runner/ciserver-runner"
  for file in runner/ciserver_runner/*.py; do put 644 "$file" "$share/ciserver-runner/ciserver_runner/${file##*/}"; done
  command_to ciserver-runner ciserver-runner/ciserver-runner
  put 644 packaging/ciserver-runner.bash "$share/bash-completion/completions/ciserver-runner"
  put 644 runner/README.md "$share/doc/ciserver-runner/README.md"
  put 644 runner/config.example.toml "$share/doc/ciserver-runner/examples/config.toml"
}

case $part in
  server | runner) "$part" ;;
  *)
    echo 'packaging/install.sh server|runner' >&2
    exit 2
    ;;
esac
