#!/usr/bin/env bash
# Times `Graph::new` with `Board::build` of 200 jobs in ten stages (18,000 pairs), the least of fifty; and one `apply` at the end of a
# chain of 10 and of 200 jobs. Takes a few minutes: the program is proved before it is built.
set -eu
. "$(dirname "$0")/tables.sh"
need rt
crate=$work/crates/bench_board
tests=$root/crates/ci_tests
mkdir -p "$crate/src" "$crate/specs" "$crate/proofs"
for low in $(below ci_board | sort -u); do
  cp -r "$root/crates/$low" "$work/crates/"
  grep "^$low:" "$root/crates.txt" >> "$work/crates.txt"
done
echo "bench_board: ci_values ci_graph ci_board anyhow" >> "$work/crates.txt"
cp "$root/bench/board.rt.txt" "$crate/src/main.rt"
: > "$crate/specs/Lib.antt"
# the tests of positions, with their proofs, are those of the tests
cp "$tests/src/board/within.rt" "$crate/src/"
cp -r "$tests/proofs/board/within" "$crate/proofs/"
sed -i 's/ci_tests\.proofs\.board/bench_board.proofs/' "$crate"/proofs/within/*/*.antt
# the ledger of a graph is the blank's
pick() {
  mkdir -p "$crate/proofs/$1"
  cat > "$crate/proofs/$1/Invariants.antt" <<END
use Rattle.bench_board.proofs.$1.Given as goal

abbrev pub ghosts-$2 : goal.ghosts-$2
ghosts-$2 a = record { name = a.blank.name; parts = a.blank.parts }
END
}
pick time_build build_once
pick time_change change_end
cd "$crate"
rt run > run.log 2>&1 || { tail -20 run.log >&2; stop "bench/board.rt.txt was not built"; }
out/bench_board
