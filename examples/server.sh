# shellcheck shell=bash disable=SC2154,SC2034
# For the scripts that source it, which have $ciserver, the program, and $work, a folder of their own.

# serve_file FILE REQUESTS [PORT]: serves the server's file, on a port that nobody listens on, or on this one; sets $server, the
# process, and $port. What it prints is in $work/said.
serve_file() {
  local wanted
  for _ in {1..50}; do
    wanted=${3:-$((20000 + RANDOM % 12000))}
    : > "$work/said"
    "$ciserver" serve --db "$1" --port "$wanted" --requests "$2" > "$work/said" &
    server=$!
    until [ -s "$work/said" ] || ! kill -0 "$server" 2> /dev/null; do sleep 0.02; done
    if [ "$(< "$work/said")" = "listening on 127.0.0.1:$wanted" ]; then
      port=$wanted
      return
    fi
    wait "$server" || :
    server=
    sleep 0.1
  done
  echo "the server doesn't start: $(< "$work/said")" >&2
  exit 1
}
