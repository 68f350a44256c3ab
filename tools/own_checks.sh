#!/bin/sh
# Our own checks, which the gate runs after `rt ci`:
#
# - each example that has a `report`, and each folder of projects/: the built program, run there, writes that report byte for
#   byte and ends with its status;
# - the program through a pipe, into a closed pipe and onto a full device, in a folder and on a file that it may not read, on
#   words that are no command, and on an accepted file of a megabyte;
# - the stub headers, docs/KERNEL.md and the table of kernel calls agree (tools/check_header.sh), the drivers' headers serve
#   applications (tools/check_drivers.sh), and tools/preprocess.sh does what it says (tools/check_preprocess.sh);
# - tools/rtcheck-build and tools/rtcheck-report do what docs/PREPROCESSING.md and docs/CI.md say, and each example with a
#   Makefile goes from its build to the folder that is checked (tools/check_tools.sh);
# - docs/PROMISES.md speaks of what is there (tools/check_promises.sh), no public contract reaches a private definition, and README
#   says how many lines the program's contract reaches (tools/trusted.sh);
# - no .rt or .antt file of the repository has more than 800 lines, and no crate of tests more than 60 functions.
#
# It takes the program that `rt ci` or `rt run` left, and builds it where there is none or where that one is older than its
# sources. What a machine has no means for is skipped, and told.
set -eu
top=$(cd "$(dirname "$0")/.." && pwd)
cd "$top"
failed=0

dir=$(mktemp -d)
trap 'chmod -R u+rwx "$dir"; rm -rf "$dir"' EXIT
mkdir "$dir/run" "$dir/bare"

says() { # says STATUS LINE: the line, as a success where the status is 0; else the files $dir/run/* go after it
  if [ "$1" -eq 0 ]; then
    echo "own check: $2"
  else
    failed=$((failed + 1))
    echo "own check: FAILED: $2"
    tail -n 20 "$dir"/run/*
  fi
}
run() { # run FOLDER WORD..: the program in the folder: its report, what it says on standard error, and its status
  (
    cd "$1"
    shift
    status=0
    "$program" "$@" > "$dir/run/report" 2> "$dir/run/said" || status=$?
    echo "$status" > "$dir/run/status"
  )
}
ended() { # ended STATUS REPORT LINE: the last run had this status, the report of that file, and this line on standard error
  [ "$(cat "$dir/run/status")" = "$1" ] && cmp "$dir/run/report" "$2" && [ "$(cat "$dir/run/said")" = "$3" ]
} > "$dir/compared" 2>&1
check() { # check LINE STATUS REPORT SAID: whether the last run ended so
  if ended "$2" "$3" "$4"; then says 0 "$1"; else says 1 "$1: wanted status $2 and the report of $3"; fi
}

examples() {
  for folder in examples/*/; do
    folder=${folder%/}
    [ ! -e "$folder/Makefile" ] || continue # tools/check_tools.sh builds these
    if [ ! -e "$folder/report" ]; then
      echo "own check: $folder isn't run: it has no report yet"
    elif tools/run_example.sh "$program" "$folder" > "$dir/run/report" 2>&1; then
      says 0 "$folder: the report as it must be, $(tail -n 1 "$dir/run/report")"
    else
      says 1 "$folder"
    fi
  done
}

projects() { # whole projects: each folder has its report and status
  right=0
  for folder in projects/*/; do
    folder=${folder%/}
    run "$folder" check
    if ended "$(cat "$folder/status")" "$folder/report" ''; then
      right=$((right + 1))
    else
      says 1 "$folder: its report and status are others"
    fi
  done
  [ "$right" -gt 0 ] || says 1 'there are no projects'
  echo "own check: $right of the projects in projects/ have their reports and statuses"
}

words() {
  run "$dir/bare"
  check 'no word is no command' 3 /dev/null 'usage: rtcheck check'
  run "$dir/bare" check check
  check 'two words are no command' 3 /dev/null 'usage: rtcheck check'
}

outputs() { # where the report goes
  folder=$top/examples/double-lock
  (
    cd "$folder"
    {
      status=0
      "$program" check 2> "$dir/run/said" || status=$?
      echo "$status" > "$dir/run/status"
    } | cat > "$dir/run/report"
  )
  check 'the report through a pipe' 1 "$folder/report" ''

  # the reader closes its end before the program is started
  rm -f "$dir/closed"
  (
    cd "$folder"
    {
      while [ ! -e "$dir/closed" ]; do sleep 0.1; done
      status=0
      "$program" check 2> "$dir/run/said" || status=$?
      echo "$status" > "$dir/run/status"
    } | {
      exec < /dev/null
      touch "$dir/closed"
    }
  )
  : > "$dir/run/report"
  check 'the report into a closed pipe is a write fault' 6 /dev/null ''

  if [ -c /dev/full ]; then
    (
      cd "$folder"
      status=0
      "$program" check > /dev/full 2> "$dir/run/said" || status=$?
      echo "$status" > "$dir/run/status"
    )
    check 'the report onto a full device is a write fault' 6 /dev/null ''
  else
    echo 'own check: skipped: no report onto a full device, since there is no /dev/full'
  fi
}

unreadable() { # what the program may not read, or can't
  mkdir "$dir/bare/main.i"
  run "$dir/bare" check
  check 'a folder called main.i is a read fault' 5 /dev/null 'rtcheck: read fault'

  # as nobody where this runs as root, whom nothing is forbidden
  mkdir "$dir/file" "$dir/folder"
  echo 'int main(void) {}' | tee "$dir/file/main.i" > "$dir/folder/main.i"
  cp "$program" "$dir/program"
  as=
  if [ "$(id -u)" -eq 0 ]; then
    as='setpriv --reuid=65534 --regid=65534 --clear-groups'
    chmod 755 "$dir/program" "$dir/file" && chmod 711 "$dir"
    chmod 600 "$dir/file/main.i" && chmod 711 "$dir/folder"
  else
    chmod 000 "$dir/file/main.i" && chmod 100 "$dir/folder"
  fi
  for what in file folder; do
    if ! (cd "$dir/$what" && $as true) 2> "$dir/run/said"; then
      echo "own check: skipped: no $what without permission, since no user but root could be taken"
      continue
    fi
    (
      cd "$dir/$what"
      status=0
      $as "$dir/program" check > "$dir/run/report" 2> "$dir/run/said" || status=$?
      echo "$status" > "$dir/run/status"
    )
    check "no permission on the $what is a read fault" 5 /dev/null 'rtcheck: read fault'
  done
}

megabyte() { # an accepted file of the greatest size: prototypes again and again, and then calls
  mkdir "$dir/megabyte"
  awk 'BEGIN {
    prototypes = "void chSysLock(void);\nvoid chSysUnlock(void);\n"
    calls = "  chSysLock();\n  chSysUnlock();\n"
    head = "void chSysInit(void);\n"
    body = "int main(void) {\n  chSysInit();\n"
    left = 1048576 - length(head) - length(body) - 2
    printf "%s", head
    for (half = left / 2; left > half; left -= length(prototypes)) printf "%s", prototypes
    printf "%s", body
    for (; left >= length(calls); left -= length(calls)) printf "%s", calls
    for (; left > 0; left--) printf " "
    printf "}\n"
  }' > "$dir/megabyte/main.i"
  run "$dir/megabyte" check
  check "a file of $(wc -c < "$dir/megabyte/main.i") bytes is accepted" 0 examples/lock-and-unlock/report ''
}

if program=$(tools/build.sh); then
  program=$(cd "$(dirname "$program")" && pwd)/$(basename "$program")
  examples
  projects
  words
  outputs
  unreadable
  megabyte
else
  failed=$((failed + 1))
  echo "own check: FAILED: there is no program to run the examples with"
fi

tools/check_header.sh || failed=$((failed + 1))
tools/check_drivers.sh || failed=$((failed + 1))
tools/check_preprocess.sh || failed=$((failed + 1))
RTCHECK_PROGRAM=${program:-} tools/check_tools.sh || failed=$((failed + 1))
tools/check_promises.sh || failed=$((failed + 1))

# no private definition is reached by a public contract, and README says how much the program's contract reaches
if tools/trusted.sh > "$dir/trusted" 2>&1; then
  sums=$(tools/trusted.sh ck_cli | awk 'END { print $1 " lines in " $4 " files" }')
  if grep -q "$sums" README.md; then
    echo "own check: the program's contract reaches $sums of definitions, as README says"
  else
    failed=$((failed + 1))
    echo "own check: FAILED: the program's contract reaches $sums of definitions, and README says otherwise"
  fi
else
  failed=$((failed + 1))
  echo "own check: FAILED: $(grep '^trusted' "$dir/trusted")"
fi

large=$(
  find crates -name out -prune -o -type f \( -name '*.rt' -o -name '*.antt' \) \
    -exec awk 'END { if (NR > 800) print FILENAME ": " NR " lines" }' {} \;
  for crate in crates/*_tests; do
    find "$crate/src" -name '*.rt' -exec cat {} + | awk -v crate="$crate" '/^ *(pub )?fn / { count++ } END { if (count > 60) print crate ": " count " functions" }'
  done
)
if [ -z "$large" ]; then
  echo "own check: no .rt or .antt file has more than 800 lines, and no crate of tests more than 60 functions"
else
  failed=$((failed + 1))
  echo "own check: FAILED: files of more than 800 lines, or crates of tests of more than 60 functions:"
  printf '%s\n' "$large"
fi

[ "$failed" -eq 0 ] || { echo "own checks: $failed failed"; exit 1; }
echo "own checks: all well"
