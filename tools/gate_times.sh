#!/bin/sh
# What each crate takes of the gate: lines, minutes and processor minutes, the slowest first.
#
#   tools/stamp.py rt ci > gate.log
#   tools/gate_times.sh gate.log
#
# `rt ci` prints a crate's lines when its check has ended, and no processor times; so the log is written by
# tools/stamp.py, which also writes a line when each check of a crate has ended, with the time that it took.
#
# lines       lines of the crate's src/*.rt, as they stand now, comments and contracts included
# minutes     how long at least one check of the crate ran: its proof, that of its tests, its must-fail edits. Crates are
#             checked side by side, so these add up to more than the whole
# processor   processor minutes of these checks; up to half a second of each check is missing
# per 1000    processor minutes per 1,000 lines
# the rest    the whole command less the crates: rt itself, linking, running the programs and tests, what is missing
# total       lines of all crates; minutes and processor minutes of the whole command, by the system's own count
#
# A mark * stands at a crate of more than 10 processor minutes, or of more than 5 per 1,000 lines: docs/DECISIONS.md has to
# say why. Crates below half a processor minute get no mark: a check takes 5 to 15 seconds however small the crate is.
set -eu
[ $# -eq 1 ] || { echo "usage: tools/gate_times.sh GATE.LOG" >&2; exit 2; }
[ -r "$1" ] || { echo "gate_times.sh: $1 can't be read" >&2; exit 2; }
top=$(cd "$(dirname "$0")/.." && pwd)
grep -q '^[0-9.]* all ' "$1" || {
  echo "gate_times.sh: $1 isn't whole, or wasn't made by 'tools/stamp.py rt ci > LOG'" >&2
  exit 2
}

log=$(mktemp)
trap 'rm -f "$log"' EXIT
# the checks in the order in which they began, so that what overlaps is counted once
awk '$2 == "work" && NF == 6 { print $4, $5, $6, $3 }' "$1" | sort -n > "$log"

lines() { # lines CRATE: the lines of its code
  find "$top/crates/$1/src" -name '*.rt' -exec cat {} + 2>/dev/null | wc -l
}

printf '%-16s %7s %9s %10s %9s\n' crate lines minutes processor 'per 1000'
for crate in $(awk '{ print $4 }' "$log" | sort -u); do
  awk -v crate="$crate" -v lines="$(lines "$crate")" '
    $4 == crate {
      from = $1 > upto ? $1 : upto
      if ($2 > from) { ran += $2 - from; upto = $2 }
      used += $3
    }
    END {
      per = lines ? used / 60 / lines * 1000 : 0
      mark = used > 600 || (used > 30 && per > 5) ? " *" : ""
      printf "%-16s %7d %9.1f %10.1f %9.1f%s\n", crate, lines, ran / 60, used / 60, per, mark
    }' "$log"
done | sort -k4,4nr -k3,3nr
awk -v lines="$(find "$top/crates" -path '*/src/*' -name '*.rt' ! -path '*/out/*' -exec cat {} + 2>/dev/null | wc -l)" '
  $2 == "work" && NF == 6 { used += $6 }
  $2 == "all" { ran = $4 - $3; all = $5 }
  END {
    rest = all - used
    printf "%-16s %7s %9s %10.1f\n", "the rest", "", "", (rest > 0 ? rest : 0) / 60
    printf "%-16s %7d %9.1f %10.1f\n", "total", lines, ran / 60, all / 60
  }' "$1"
grep '^[0-9.]* | [0-9]* passed, [0-9]* failed$' "$1" | sed 's/^[0-9.]* | //' | tail -n 1
