# shellcheck shell=bash disable=SC2034
# For the scripts beside it, which source it: a folder $work for what is built, which goes at the end, `need`, `build`, `expect`
# and `leave`.
root=$(cd "$(dirname "$0")/.." && pwd)
work=$(mktemp -d)
trap 'rm -rf "$work"' EXIT

stop() {
  echo "$0: $*" >&2
  exit 1
}

# Stops unless each of these tools is there.
need() {
  local tool
  for tool in "$@"; do
    command -v "$tool" > /dev/null || stop "there is no $tool"
  done
}

# Prints the repository's crates that this one stands on, and itself.
below() {
  local low line
  line=$(grep "^$1:" "$root/crates.txt") || return 0
  for low in ${line#*:}; do below "$low"; done
  echo "$1"
}

# Builds the program bench/NAME.rt.txt over the crates of the tables, and over those that are named third and behind, as $program, and
# goes to a new folder in the one that is named second, where the program's file is to lie. Takes a few minutes: the program is proved before it is built.
build() {
  local crate="$work/crates/bench_$1" low part
  [ -d "$2" ] || stop "there is no folder $2"
  need rt sqlite3
  mkdir -p "$crate/src" "$crate/specs"
  for low in $(for part in ci_store_sqlite "${@:3}"; do below "$part"; done | sort -u); do
    cp -r "$root/crates/$low" "$work/crates/"
    grep "^$low:" "$root/crates.txt" >> "$work/crates.txt"
  done
  echo "bench_$1: ci_board ci_machine ci_store ci_store_sqlite ${*:3} sqlite anyhow" >> "$work/crates.txt"
  cp "$root/bench/$1.rt.txt" "$crate/src/main.rt"
  sed -n 's/^mod \(.*\);$/\1/p' "$crate/src/main.rt" | while read -r part; do
    cp "$root/bench/$part.rt.txt" "$crate/src/$part.rt"
  done
  : > "$crate/specs/Lib.antt"
  cd "$crate" || exit 1
  rt run > build.log 2>&1 || { tail -20 build.log >&2; stop "bench/$1.rt.txt was not built"; }
  program=$crate/out/bench_$1
  place=$(mktemp -d "$2/$1.XXXXXX")
  trap 'rm -rf "$work" "$place"' EXIT
  cd "$place" || exit 1
}

# Stops unless a query of bench.db answers this.
expect() {
  local answer
  answer=$(sqlite3 bench.db "$1") || stop "bench.db can't be read"
  [ "$answer" = "$2" ] || stop "$1: $answer, and not $2"
}

# Leaves bench.db at the top of the repository, and says so.
leave() {
  rm -f "$root"/bench.db*
  cp bench.db* "$root/"
  echo "left: $root/bench.db"
}
