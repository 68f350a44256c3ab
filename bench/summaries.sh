#!/bin/sh
# How the cost of summaries grows with the graph:
#
#   bench/summaries.sh [PROGRAM]
#
# PROGRAM is a built bench/summaries: the argument, or else one that is proved and built now, in a folder of its own.
# bench/README.md says what is measured and how to read it.
set -eu
top=$(cd "$(dirname "$0")/.." && pwd)
dir=$(mktemp -d)
trap 'rm -rf "$dir"' EXIT

build() { # build FOLDER: a repository of the crates that `solve` needs, with bench/summaries as a program
  mkdir -p "$1/crates"
  for crate in ck_base ck_states ck_rows ck_graph ck_summary; do
    cp -R "$top/crates/$crate" "$1/crates/"
    grep "^$crate:" "$top/crates.txt" >> "$1/crates.txt"
  done
  mkdir -p "$1/crates/bench_summaries/src" "$1/crates/bench_summaries/proofs/edges_to"
  cp "$top/bench/summaries/main.rt.txt" "$1/crates/bench_summaries/src/main.rt"
  cp "$top/bench/summaries/edges_to.antt.txt" "$1/crates/bench_summaries/proofs/edges_to/Invariants.antt"
  echo "bench_summaries: ck_base ck_states ck_rows ck_graph ck_summary" >> "$1/crates.txt"
  cp "$top/HANDLES" "$1/"
  (cd "$1" && git init -q .)
  (cd "$1/crates/bench_summaries" && rt run -- forward 1 solve) > "$1/log" 2>&1 || true
  [ -x "$1/crates/bench_summaries/out/bench_summaries" ] || { tail -5 "$1/log" >&2; echo "summaries.sh: the program wasn't built" >&2; exit 1; }
}

if [ $# -gt 0 ]; then
  program=$(cd "$(dirname "$1")" && pwd)/$(basename "$1")
else
  command -v rt >/dev/null || { echo "summaries.sh: the toolchain's command rt isn't on the PATH; name a built program" >&2; exit 1; }
  build "$dir/repository"
  program=$dir/repository/crates/bench_summaries/out/bench_summaries
fi
[ -x "$program" ] || { echo "summaries.sh: $program is no program" >&2; exit 1; }

instructions() { # instructions WORD..: how many the program executes with these words
  valgrind --tool=callgrind --callgrind-out-file="$dir/callgrind" "$program" "$@" 2> "$dir/counted" > "$dir/printed" || { cat "$dir/counted" >&2; exit 1; }
  awk '/Collected *:/ { print $NF }' "$dir/counted"
}
measure() { # measure SHAPE N: what `solve` costs on this graph
  whole=$(instructions "$1" "$2" solve)
  before=$(instructions "$1" "$2" build)
  points=$(sed -n 's/^points //p' "$dir/printed")
  awk -v shape="$1" -v n="$2" -v points="$points" -v whole="$whole" -v before="$before" 'BEGIN {
    cost = whole - before
    printf "%s %d: %d points, instructions %.0f, per point %.0f\n", shape, n, points, cost, cost / points }'
}

command -v valgrind >/dev/null || { echo "summaries.sh: valgrind isn't installed" >&2; exit 1; }
measure forward 400000
measure backward 400000
measure calls 1000
measure calls 8000
measure loops 400000
measure recursion 8163
measure table 600
