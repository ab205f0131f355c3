#!/usr/bin/env bash
# Times `plan` on CI files of 25, 50 and 100 jobs in ten stages: the microseconds of one plan, by the number of its pairs. Takes a few
# minutes: the program is proved before it is built.
set -eu
. "$(dirname "$0")/tables.sh"
need rt
crate=$work/crates/bench_layout
mkdir -p "$crate/src" "$crate/specs"
for low in $(for top in ci_graph_layout ci_config_reader ci_yaml; do below "$top"; done | sort -u); do
  [ -d "$root/crates/$low" ] || continue
  cp -r "$root/crates/$low" "$work/crates/"
  grep "^$low:" "$root/crates.txt" >> "$work/crates.txt"
done
echo "bench_layout: ci_graph_layout ci_config_reader ci_yaml anyhow" >> "$work/crates.txt"
cp "$root/bench/layout.rt.txt" "$crate/src/main.rt"
: > "$crate/specs/Lib.antt"
cd "$crate"
rt run > run.log 2>&1 || { tail -20 run.log >&2; stop "bench/layout.rt.txt was not built"; }
out/bench_layout
