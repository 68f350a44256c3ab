#!/bin/sh
# The tests of the tools that are run around the checker, and of the examples with a Makefile:
# tools/tests/NAME/test_*.py; and that the scripts in tools/ are well formed. Where python3 is missing, or older than
# 3.8, the tests are skipped, and so is what needs the program where RTCHECK_PROGRAM doesn't name it.
set -eu
top=$(cd "$(dirname "$0")/.." && pwd)
cd "$top"
failed=0
dir=$(mktemp -d)
trap 'rm -rf "$dir"' EXIT

says() { # says STATUS LINE: the line, as a success where the status is 0; else the file $dir/said goes after it
  if [ "$1" -eq 0 ]; then
    echo "own check: $2"
  else
    failed=$((failed + 1))
    echo "own check: FAILED: $2"
    cat "$dir/said"
  fi
}

status=0
for script in tools/*.sh bench/*.sh; do sh -n "$script" >> "$dir/said" 2>&1 || status=1; done
says "$status" "the scripts of tools/ and bench/ are well formed"

if python3 -c 'import sys; sys.exit(sys.version_info < (3, 8))' 2>/dev/null; then
  for test in tools/tests/*/test_*.py; do
    status=0
    python3 -B "$test" > "$dir/said" 2>&1 || status=1
    count=$(sed -n 's/^Ran \([0-9]*\) tests.*/\1 tests/p; s/^OK (\(.*\))/\1/p' "$dir/said" | paste -sd' ' -)
    says "$status" "$test: $count"
  done
else
  echo "own check: skipped: the tests of the tools, since there is no python3 of 3.8 or later"
fi
[ "$failed" -eq 0 ]
