#!/usr/bin/env bash
# Starts nginx by nginx.conf on a free port, without TLS, in front of a server on this machine: the page for a trial.
#   examples/web.sh [PORT OF THE SERVER]        as in: examples/web.sh 8080
# It prints the address to open, and ends by Ctrl-C. It needs nginx. PAGE is a folder with another page than web/, or than that of nginx.conf where it is installed.
set -eu
here=$(realpath "$(dirname "$0")") PATH=$PATH:/usr/sbin
page=${PAGE:-$here/../web}
[ -n "${PAGE-}" ] || [ -e "$page/index.html" ] || page=$(sed -n 's/^ *root \(.*\);$/\1/p' "$here/nginx.conf")
[ -e "$page/index.html" ] || { echo "there is no page in $page" >&2; exit 3; }
command -v nginx > /dev/null || { echo 'there is no nginx' >&2; exit 3; }
room=$(mktemp -d)
trap 'rm -rf "$room"' EXIT
trap 'exit 130' INT TERM
ln -s "$(realpath "$page")" "$room/page"
port=$((20000 + RANDOM % 12000))
while (: < "/dev/tcp/127.0.0.1/$port") 2> /dev/null; do port=$((20000 + RANDOM % 12000)); done
# Its paths are below the room, whose own may have blanks.
{
  [ "$(id -u)" != 0 ] || echo 'user root;'
  echo 'daemon off; worker_processes 1; pid pid; events {} http { include /etc/nginx/mime.types; access_log asked;'
  for part in client_body proxy fastcgi uwsgi scgi; do echo "${part}_temp_path $part;"; done
  sed "s|listen 443 ssl|listen 127.0.0.1:$port|; /ssl_cert/d; s|127.0.0.1:8080|127.0.0.1:${1-8080}|; s|root /.*;|root page;|" "$here/nginx.conf"
  echo '}'
} > "$room/nginx.conf"
nginx -p "$room" -e faults -c nginx.conf &
trap 'kill $! 2> /dev/null || :; wait; rm -rf "$room"' EXIT
until (: < "/dev/tcp/127.0.0.1/$port") 2> /dev/null; do kill -0 $! 2> /dev/null || exit 1; sleep 0.05; done
echo "http://127.0.0.1:$port/"
wait
