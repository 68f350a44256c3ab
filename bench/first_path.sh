#!/bin/sh
# How fast `rtcheck check` reads one large file:
#
#   bench/first_path.sh [PROGRAM]
#
# PROGRAM is the built program: the argument, or else $RTCHECK, or else what `make build` leaves.
# bench/README.md says what is measured and how to read it.
set -eu
top=$(cd "$(dirname "$0")/.." && pwd)
program=${1:-${RTCHECK:-$top/crates/ck_program/out/ck_program}}
[ -x "$program" ] || { echo "first_path.sh: $program is no program; run 'make build', or name one" >&2; exit 1; }
program=$(cd "$(dirname "$program")" && pwd)/$(basename "$program")

dir=$(mktemp -d)
trap 'rm -rf "$dir"' EXIT
cd "$dir"

# half prototypes, half calls, and never past the most that a file may have
awk 'BEGIN {
  most = 1048576
  count = split("chSysInit chSysDisable chSysSuspend chSysEnable chSysLock chSysUnlock", name, " ")
  for (k = 0; size < most / 2; k++) {
    line = "void " name[k % count + 1] "(void);"; print line; size += length(line) + 1
  }
  head = "int main(void) {\n  chSysInit();"; print head; size += length(head) + 1
  line = "  chSysLock(); chSysUnlock();"
  while (size + length(line) + 1 + 2 <= most) { print line; size += length(line) + 1 }
  print "}"
}' > main.i
bytes=$(wc -c < main.i)
status=0
"$program" check > report || status=$?
echo "main.i: $((bytes)) bytes; $(sed -n 2p report), status $status"
[ "$status" -eq 0 ] || { echo "first_path.sh: this file has to be accepted" >&2; exit 1; }

if command -v valgrind >/dev/null; then
  valgrind --tool=callgrind --callgrind-out-file=callgrind "$program" check > report 2> counted || { cat counted >&2; exit 1; }
  awk -v bytes="$bytes" '/Collected *:/ { printf "instructions per byte: %.1f (%.0f in all)\n", $NF / bytes, $NF }' counted
else
  echo "instructions per byte: not measured, valgrind isn't installed"
fi

nanoseconds() { # nanoseconds COMMAND..: the wall time that the command takes
  from=$(date +%s%N)
  "$@" > report
  upto=$(date +%s%N)
  echo $((upto - from))
}
median() { # the third of the five numbers in a file
  sort -n "$1" | sed -n 3p
}
if command -v gcc >/dev/null; then
  for _ in 1 2 3 4 5; do
    nanoseconds "$program" check >> ours
    nanoseconds gcc -fsyntax-only -x c main.i >> theirs
  done
  awk -v ours="$(median ours)" -v theirs="$(median theirs)" 'BEGIN {
    printf "wall time, median of five: rtcheck %.1f ms, gcc %.1f ms\n", ours / 1000000, theirs / 1000000
    printf "ratio to gcc -fsyntax-only: %.2f\n", ours / theirs }'
else
  echo "ratio to gcc -fsyntax-only: not measured, gcc isn't installed"
fi
