#!/bin/sh
# What finding the targets of calls costs, by rules:
#
#   bench/targets.sh [PROGRAM]
#
# PROGRAM is a built bench/targets: the argument, or else one that is proved and built now, in a folder of its own.
# bench/README.md says what is measured and how to read it.
set -eu
top=$(cd "$(dirname "$0")/.." && pwd)
dir=$(mktemp -d)
trap 'rm -rf "$dir"' EXIT

build() { # build FOLDER: a repository of the crates that `solve` needs, with bench/targets as a program
  mkdir -p "$1/crates"
  for crate in ck_base ck_rows ck_reaching; do
    cp -R "$top/crates/$crate" "$1/crates/"
    grep "^$crate:" "$top/crates.txt" >> "$1/crates.txt"
  done
  proofs=$1/crates/bench_targets/proofs
  mkdir -p "$1/crates/bench_targets/src" "$proofs/callees" "$proofs/fill"
  cp "$top/bench/targets/main.rt.txt" "$1/crates/bench_targets/src/main.rt"
  cp "$top/bench/targets/callees_invariants.antt.txt" "$proofs/callees/Invariants.antt"
  cp "$top/bench/targets/callees_answers.antt.txt" "$proofs/callees/Answers.antt"
  cp "$top/bench/targets/fill_invariants.antt.txt" "$proofs/fill/Invariants.antt"
  echo "bench_targets: ck_base ck_rows ck_reaching" >> "$1/crates.txt"
  cp "$top/HANDLES" "$1/"
  (cd "$1" && git init -q .)
  (cd "$1/crates/bench_targets" && rt run -- chain 1 solve) > "$1/log" 2>&1 || true
  [ -x "$1/crates/bench_targets/out/bench_targets" ] || { tail -5 "$1/log" >&2; echo "targets.sh: the program wasn't built" >&2; exit 1; }
}

if [ $# -gt 0 ]; then
  program=$(cd "$(dirname "$1")" && pwd)/$(basename "$1")
else
  command -v rt >/dev/null || { echo "targets.sh: the toolchain's command rt isn't on the PATH; name a built program" >&2; exit 1; }
  build "$dir/repository"
  program=$dir/repository/crates/bench_targets/out/bench_targets
fi
[ -x "$program" ] || { echo "targets.sh: $program is no program" >&2; exit 1; }

seconds() { # seconds WORD..: how long the program takes with these words, from its start to its end
  start=$(date +%s.%N)
  "$program" "$@" > "$dir/printed" || { echo "targets.sh: $* failed" >&2; exit 1; }
  end=$(date +%s.%N)
  awk -v start="$start" -v end="$end" 'BEGIN { printf "%.2f", end - start }'
}
instructions() { # instructions WORD..: how many the program executes with these words
  valgrind --tool=callgrind --callgrind-out-file="$dir/callgrind" "$program" "$@" 2> "$dir/counted" > "$dir/printed" || { cat "$dir/counted" >&2; exit 1; }
  awk '/Collected *:/ { print $NF }' "$dir/counted"
}
measure() { # measure SHAPE N: what `solve` costs on these rules
  took=$(seconds "$1" "$2" solve)
  grep -q true "$dir/printed" || { echo "targets.sh: $* doesn't reach its last parameter" >&2; exit 1; }
  whole=$(instructions "$1" "$2" solve)
  before=$(instructions "$1" "$2" build)
  awk -v shape="$1" -v n="$2" -v took="$took" -v whole="$whole" -v before="$before" 'BEGIN {
    cost = whole - before
    printf "%s %d: %s seconds in all, instructions of solve %.0f, over N %.0f\n", shape, n, took, cost, cost / n }'
}

command -v valgrind >/dev/null || { echo "targets.sh: valgrind isn't installed" >&2; exit 1; }
measure chain 1000
measure chain 16384
measure shared 4000
measure table 400
measure table 4000
measure member 1000
measure member 100000
