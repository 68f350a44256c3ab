#!/bin/sh
# What paths to alarms and the report of them cost beside the summaries that find the alarms:
#
#   bench/paths.sh [PROGRAM]
#
# PROGRAM is a built bench/paths: the argument, or else one that is proved and built now, in a folder of its own.
# bench/README.md says what is measured and how to read it.
set -eu
top=$(cd "$(dirname "$0")/.." && pwd)
dir=$(mktemp -d)
trap 'rm -rf "$dir"' EXIT

share() { # share FROM TO: what looks whether a project meets what a report requires, as the tests of the texts have it
  cp "$1/src/fitting.rt" "$2/src/"
  cp "$1/specs/Fitting.antt" "$1/specs/Lib.antt" "$2/specs/"
  cp "$1/proofs/FitLemmas.antt" "$1/proofs/Lib.antt" "$2/proofs/"
  cp -R "$1/proofs/fitting" "$2/proofs/"
  find "$2" -type f -exec sed -i 's/ck_texts_tests/bench_paths/g' {} +
}
build() { # build FOLDER: a repository of the crates that `report_text` needs, with bench/paths as a program
  mkdir -p "$1/crates"
  for crate in ck_base ck_states ck_rows ck_graph ck_summary ck_segments ck_lexer ck_kernel ck_texts ck_paths; do
    cp -R "$top/crates/$crate" "$1/crates/"
    grep "^$crate:" "$top/crates.txt" >> "$1/crates.txt"
  done
  to=$1/crates/bench_paths
  mkdir -p "$to/src" "$to/specs" "$to/proofs/edges_to" "$to/proofs/measured" "$to/proofs/book/book_for"
  cp "$top/bench/paths/main.rt.txt" "$to/src/main.rt"
  cp "$top/bench/paths/book.rt.txt" "$to/src/book.rt"
  cp "$top/bench/paths/edges_to.antt.txt" "$to/proofs/edges_to/Invariants.antt"
  cp "$top/bench/paths/measured.antt.txt" "$to/proofs/measured/Answers.antt"
  cp "$top/bench/paths/book_for.antt.txt" "$to/proofs/book/book_for/Answers.antt"
  share "$top/crates/ck_texts_tests" "$to"
  echo "bench_paths: ck_base ck_states ck_rows ck_graph ck_summary ck_segments ck_lexer ck_kernel ck_texts ck_paths" >> "$1/crates.txt"
  cp "$top/HANDLES" "$1/"
  (cd "$1" && git init -q .)
  (cd "$1/crates/bench_paths" && rt run -- forward 1 paths) > "$1/log" 2>&1 || true
  [ -x "$1/crates/bench_paths/out/bench_paths" ] || { tail -5 "$1/log" >&2; echo "paths.sh: the program wasn't built" >&2; exit 1; }
}

if [ $# -gt 0 ]; then
  program=$(cd "$(dirname "$1")" && pwd)/$(basename "$1")
else
  command -v rt >/dev/null || { echo "paths.sh: the toolchain's command rt isn't on the PATH; name a built program" >&2; exit 1; }
  build "$dir/repository"
  program=$dir/repository/crates/bench_paths/out/bench_paths
fi
[ -x "$program" ] || { echo "paths.sh: $program is no program" >&2; exit 1; }

instructions() { # instructions WORD..: how many the program executes with these words
  valgrind --tool=callgrind --callgrind-out-file="$dir/callgrind" "$program" "$@" 2> "$dir/counted" > "$dir/printed" || { cat "$dir/counted" >&2; exit 1; }
  awk '/Collected *:/ { print $NF }' "$dir/counted"
}
printed() { sed -n "s/^$1 //p" "$dir/printed"; }
measure() { # measure SHAPE N: what paths to all alarms of this graph and the report of them cost, beside `solve`
  "$program" "$1" "$2" pairs > "$dir/printed"
  pairs=$(printed pairs)
  before=$(instructions "$1" "$2" build)
  solved=$(instructions "$1" "$2" solve)
  found=$(instructions "$1" "$2" alarms)
  whole=$(instructions "$1" "$2" paths)
  named=$(instructions "$1" "$2" book)
  reported=$(instructions "$1" "$2" report)
  [ "$(printed bytes)" -gt 0 ] || { echo "paths.sh: no report was made of $1 $2" >&2; exit 1; }
  awk -v shape="$1" -v n="$2" -v pairs="$pairs" -v alarms="$(printed alarms)" -v steps="$(printed steps)" \
    -v bytes="$(printed bytes)" -v solve="$((solved - before))" -v paths="$((whole - found))" \
    -v report="$((reported - named))" 'BEGIN {
    printf "%s %d: %d pairs, %d alarms, %d steps; instructions: solve %.0f, paths %.0f, per pair %.0f, ", shape, n, pairs, alarms, steps, solve, paths, paths / pairs
    printf "per pair and step %.0f, ratio to solve %.2f\n", paths / (pairs + steps), paths / solve
    printf "%s %d: a report of %d bytes; instructions: report %.0f, per byte %.1f, ", shape, n, bytes, report, report / bytes
    printf "ratio of paths and report to solve %.2f\n", (paths + report) / solve }'
}

command -v valgrind >/dev/null || { echo "paths.sh: valgrind isn't installed" >&2; exit 1; }
measure forward 400000
measure many 100
measure many 1000
measure behind 1000
measure behind 8000
measure inside 8000
