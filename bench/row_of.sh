#!/bin/sh
# How many processor instructions a call of `row_of` takes, which finds the row of a kernel call's name:
#
#   bench/row_of.sh [TESTS]
#
# TESTS is the program of the built tests: the argument, or else what `rt test` in crates/ck_words_tests leaves. Three of its
# tests are run, each one kind of name, and the calls of `row_of` in them are counted.
# bench/README.md says what is measured and how to read it.
set -eu
top=$(cd "$(dirname "$0")/.." && pwd)
tests=${1:-$top/crates/ck_words_tests/out/ck_words_tests_tests}
[ -x "$tests" ] || { echo "row_of.sh: $tests is no program; run 'rt test' in crates/ck_words_tests, or name one" >&2; exit 1; }
command -v valgrind >/dev/null || { echo "instructions per call: not measured, valgrind isn't installed"; exit 0; }
tests=$(cd "$(dirname "$tests")" && pwd)/$(basename "$tests")

dir=$(mktemp -d)
trap 'rm -rf "$dir"' EXIT
cd "$dir"

count() { # count TEST WORDS: the calls of row_of in a test, and their instructions with those of what they call
  valgrind --tool=callgrind --callgrind-out-file=counts "$tests" "kernel::$1" > said 2>&1 || { cat said >&2; exit 1; }
  # a callee is named in full where it is met first, as `cfn=(12) ck_kernel::names::row_of`, and by its number from then
  # on; the line after it has the number of calls, and the one after that a place and the instructions
  awk -v words="$2" '
    / ck_kernel::names::row_of$/ { row_of = $1; sub(/^c?fn=/, "", row_of) }
    /^cfn=/ { callee = $1; sub(/^cfn=/, "", callee) }
    /^calls=/ {
      number = $1; sub(/^calls=/, "", number)
      getline
      if (row_of != "" && callee == row_of) { calls += number; taken += $NF }
    }
    END {
      if (calls == 0) { print "row_of.sh: no call of row_of was met" > "/dev/stderr"; exit 1 }
      printf "instructions per call, %s: %.0f (%d calls)\n", words, taken / calls, calls
    }' counts
}
count names_of_all_rows 'the name of each row'
count names_outside_the_table 'names like those of rows'
count names_of_no_kernel_call 'other names'
