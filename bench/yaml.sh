#!/usr/bin/env bash
# Times `ciserver check` on texts of 60 KB and of 30 KB beside a C program that reads the same with libyaml: the
# microseconds of a whole process, the least of many runs, and the instructions of one. The first key of each text is a
# keyword that is left out, so `check` has no more to do once the text is read. Wants bin/ciserver (make build), gcc,
# libyaml-dev, python3 and valgrind.
set -eu
export LC_ALL=C
root=$(cd "$(dirname "$0")/.." && pwd)
work=$(mktemp -d)
trap 'rm -rf "$work"' EXIT
runs=${1:-300}
ours=$root/bin/ciserver
theirs=$work/yaml_c

stop() {
  echo "$0: $*" >&2
  exit 1
}

for tool in gcc python3 valgrind; do
  command -v "$tool" > /dev/null || stop "there is no $tool"
done
[ -x "$ours" ] || stop "there is no bin/ciserver: make build"
gcc -O2 -o "$theirs" "$root/bench/yaml.c" -lyaml || stop "bench/yaml.c was not built: libyaml-dev is wanted"

# says TEXT PROGRAM WORD..: stops unless this is what the program says
says() {
  local want=$1 said
  shift
  said=$("$@" 2>&1) || true
  [ "$said" = "$want" ] || stop "$*: $said, and not $want"
}

# the least time of a run, in microseconds
micros() {
  local best=1000000000 start took
  for ((i = 0; i < runs; i++)); do
    start=${EPOCHREALTIME/./}
    "$@" > /dev/null || true
    took=$((${EPOCHREALTIME/./} - start))
    if ((took < best)); then best=$took; fi
  done
  echo "$best"
}

# the instructions of a run, in thousands
instructions() {
  local count
  count=$(valgrind --tool=callgrind --callgrind-out-file=/dev/null "$@" 2>&1 > /dev/null | sed -n 's/.*Collected : //p')
  [ -n "$count" ] || stop "$*: valgrind counted nothing"
  echo $((count / 1000))
}

printf '%-14s %6s | %10s %10s | %12s %12s\n' text bytes 'ours us' 'libyaml us' 'ours kinstr' 'libyaml kinstr'
row() {
  local ours_us theirs_us ours_count theirs_count
  says 'refused: K2 image' "$ours" check "$2"
  says read "$theirs" "$2"
  ours_us=$(micros "$ours" check "$2")
  theirs_us=$(micros "$theirs" "$2")
  ours_count=$(instructions "$ours" check "$2")
  theirs_count=$(instructions "$theirs" "$2")
  printf '%-14s %6d | %10d %10d | %12d %12d\n' "$1" "$(stat -c %s "$2")" "$ours_us" "$theirs_us" "$ours_count" "$theirs_count"
}
printf 'image: x\na: 1\n' > "$work/small.yml"
row small "$work/small.yml"
for size in 30000 60000; do
  mkdir "$work/$size"
  python3 "$root/bench/yaml_texts.py" "$work/$size" "$size"
  for text in ordinary flow_list nested_maps literal_block double_quoted short_keys; do
    row "$text" "$work/$size/$text.yml"
  done
done
