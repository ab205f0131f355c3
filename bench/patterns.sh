#!/usr/bin/env bash
# Times what the patterns of a CI file cost, and the most memory that each run takes: files of as many rules as one may have, no two with
# the same pattern or all with one, read and, where they aren't refused, planned; and files that are planned on the longest value that their patterns may be looked for in.
# Wants python3. Takes a few minutes: the program is proved before it is built.
set -eu
. "$(dirname "$0")/tables.sh"
need rt python3
crate=$work/crates/bench_patterns
mkdir -p "$crate/src" "$crate/specs"
for low in $(for top in ci_graph_layout ci_config_reader ci_yaml ci_expr; do below "$top"; done | sort -u); do
  [ -d "$root/crates/$low" ] || continue
  cp -r "$root/crates/$low" "$work/crates/"
  grep "^$low:" "$root/crates.txt" >> "$work/crates.txt"
done
echo "bench_patterns: ci_config ci_config_reader ci_expr ci_graph_layout ci_yaml anyhow" >> "$work/crates.txt"
cp "$root/bench/patterns.rt.txt" "$crate/src/main.rt"
: > "$crate/specs/Lib.antt"
cd "$crate"
rt run > run.log 2>&1 || { tail -20 run.log >&2; stop "bench/patterns.rt.txt was not built"; }

# a run of one kind: what it prints, its processor time and the most memory that it had
row() {
  printf '%-10s ' "$1"
  python3 -c 'import resource, subprocess, sys
said = subprocess.run(sys.argv[1:], capture_output=True, text=True)
used = resource.getrusage(resource.RUSAGE_CHILDREN)
print((said.stdout + said.stderr).strip(), f"- {used.ru_utime + used.ru_stime:.2f} s, {used.ru_maxrss // 1024} MiB")' out/bench_patterns "$1"
}
echo "files of at most 65,536 bytes"
for kind in many versions names equal hundred large sets letters folds; do row "$kind"; done
echo "creations that cost as much as they may"
for kind in optional looks repeat words anew checked both; do row "$kind"; done
