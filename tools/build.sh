#!/bin/sh
# Proves and builds the program where it is older than its sources, and prints its path.
#
# `rt run` proves the crates that aren't proved yet, builds the program as crates/ck_program/out/ck_program and runs it;
# `rt ci` leaves it at the same path. `rt run` ends with the status of what it ran, so whether the build went well is told
# by the file, which is removed first.
set -eu
top=$(cd "$(dirname "$0")/.." && pwd)
program=$top/crates/ck_program/out/ck_program

newer() { # the sources that changed after the program was built
  find "$top/crates.txt" "$top/crates" \( -name out -o -name '*_tests' -o -name must-fail \) -prune -o \
    -type f \( -name '*.rt' -o -name '*.antt' -o -name crates.txt \) -newer "$program" -print
}

if [ ! -x "$program" ] || [ -n "$(newer)" ]; then
  command -v rt >/dev/null || { echo "build.sh: the toolchain's command rt isn't on the PATH" >&2; exit 1; }
  rm -f "$program"
  (cd "$top/crates/ck_program" && rt run -- check) </dev/null >/dev/null || true
  [ -x "$program" ] || { echo "build.sh: the program wasn't built" >&2; exit 1; }
fi
printf '%s\n' "$program"
