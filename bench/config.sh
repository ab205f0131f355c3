#!/usr/bin/env bash
# Times `read` and `config` on CI files of some 15, 30 and 60 KB: the microseconds of each, without rules, with rules whose
# expressions hold no pattern, and with rules that each hold one. Takes a few minutes: the program is proved before it is built.
set -eu
. "$(dirname "$0")/tables.sh"
need rt
crate=$work/crates/bench_config
mkdir -p "$crate/src" "$crate/specs"
for low in $(for top in ci_config_reader ci_yaml; do below "$top"; done | sort -u); do
  [ -d "$root/crates/$low" ] || continue
  cp -r "$root/crates/$low" "$work/crates/"
  grep "^$low:" "$root/crates.txt" >> "$work/crates.txt"
done
echo "bench_config: ci_config_reader ci_yaml anyhow" >> "$work/crates.txt"
cp "$root/bench/config.rt.txt" "$crate/src/main.rt"
: > "$crate/specs/Lib.antt"
cd "$crate"
rt run > run.log 2>&1 || { tail -20 run.log >&2; stop "bench/config.rt.txt was not built"; }
out/bench_config
