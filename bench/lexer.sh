#!/bin/sh
# How fast a file is cut into tokens and places, over four kinds of text:
#
#   bench/lexer.sh [PROGRAM]
#
# PROGRAM is the built program: the argument, or else $RTCHECK, or else what `make build` leaves.
# bench/README.md says what is measured and how to read it.
set -eu
top=$(cd "$(dirname "$0")/.." && pwd)
program=${1:-${RTCHECK:-$top/crates/ck_program/out/ck_program}}
[ -x "$program" ] || { echo "lexer.sh: $program is no program; run 'make build', or name one" >&2; exit 1; }
program=$(cd "$(dirname "$program")" && pwd)/$(basename "$program")

dir=$(mktemp -d)
trap 'rm -rf "$dir"' EXIT
cd "$dir"

make_text() { # make_text KIND: about a megabyte of C, which gcc accepts
  awk -v kind="$1" '
  function put(line) { if (size + length(line) + 20 < most) { print line; size += length(line) + 1; return 1 } return 0 }
  BEGIN {
    most = 1000000
    if (kind == "ordinary")
      for (k = 0; put("static int step_" k "(int count, const char *name)\n{\n  /* one step */\n  int total = 0x1F + count;\n  for (int i = 0; i < count; i++) {\n    if (name[i] == 0x20)\n      total += i * 2 - 1;\n  }\n  return total;\n}\n"); k++);
    if (kind == "comments")
      for (k = 0; put("/* " k ": a comment of some lines, which says in many words what the one declaration behind it is good\n * for, where it comes from, and why nobody ever changed it: it is * neither / long nor short. */\nint c" k ";"); k++);
    if (kind == "identifiers")
      for (k = 0; put("int an_identifier_of_many_words_that_goes_on_and_on_until_its_reader_falls_asleep_at_last_" k ";"); k++);
    if (kind == "punctuators") {
      put("void f(int a)\n{")
      while (put("a=-(~a*!a)+(a<<(a&7))^a|a&a;a+=(a>=a)-(a!=a);a<<=1;"));
      print "}"
    }
  }' > main.i
}
nanoseconds() { # nanoseconds COMMAND..: the wall time that the command takes
  from=$(date +%s%N)
  "$@" > report 2> said || true
  upto=$(date +%s%N)
  echo $((upto - from))
}
median() { # the third of the five numbers in a file
  sort -n "$1" | sed -n 3p
}
for kind in ordinary comments identifiers punctuators; do
  make_text "$kind"
  bytes=$(wc -c < main.i)
  status=0
  "$program" check > report || status=$?
  [ "$status" -eq 2 ] && grep -q '^unsupported U7 ' report || { echo "lexer.sh: $kind: this file has to be cut whole" >&2; cat report >&2; exit 1; }
  counted=not\ measured
  if command -v valgrind >/dev/null; then
    valgrind --tool=callgrind --callgrind-out-file=callgrind "$program" check > report 2> said || true
    counted=$(awk -v bytes="$bytes" '/Collected *:/ { printf "%.1f", $NF / bytes }' said)
  fi
  ratio=not\ measured
  if command -v gcc >/dev/null; then
    rm -f ours theirs
    for _ in 1 2 3 4 5; do
      nanoseconds "$program" check >> ours
      nanoseconds gcc -fsyntax-only -x cpp-output main.i >> theirs
    done
    ratio=$(awk -v ours="$(median ours)" -v theirs="$(median theirs)" 'BEGIN { printf "%.2f (%.1f ms to %.1f ms)", ours / theirs, ours / 1000000, theirs / 1000000 }')
  fi
  echo "$kind: $((bytes)) bytes; instructions per byte: $counted; ratio to gcc -fsyntax-only: $ratio"
done
