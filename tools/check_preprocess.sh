#!/bin/sh
# Whether tools/preprocess.sh does what docs/PREPROCESSING.md says, with each compiler that is here, gcc and clang:
#
# - it makes of the C sources of each example without a Makefile a text that the compiler accepts and that has no path of this machine;
# - texts of sources that are gone are removed, and no other files;
# - a folder of --headers is searched before the stub headers, and one of -I after them;
# - carriage returns at the ends of lines are taken out;
# - attributes are left out, but those that make code run are refused;
# - what the compiler refuses is passed on, with status 1, and the folder stays as it was.
set -eu
top=$(cd "$(dirname "$0")/.." && pwd)
cd "$top"
failed=0
dir=$(mktemp -d)
trap 'rm -rf "$dir"' EXIT

right() { # right LINE: the line, as a success
  echo "own check: $1"
}
wrong() { # wrong LINE: the line, as a failure, and what was said
  failed=$((failed + 1))
  echo "own check: FAILED: $1"
  cat "$dir/said"
}
run() { # run WORD..: preprocess.sh with these words; its status in $status, what it says in the file said
  status=0
  CC=$compiler tools/preprocess.sh "$@" > "$dir/said" 2>&1 || status=$?
}
files() { # files FOLDER: its .i files
  (cd "$1" && ls -- *.i 2>/dev/null | tr '\n' ' ')
}

examples() {
  for folder in examples/*/; do
    folder=${folder%/}
    set -- "$folder"/*.c
    [ -e "$1" ] && [ ! -e "$folder/Makefile" ] || continue
    run "$@" --out "$dir/$folder"
    [ "$status" -ne 0 ] || for text in "$dir/$folder"/*.i; do
      "$compiler" -std=c99 -fsyntax-only -x cpp-output "$text" || status=1
    done > "$dir/said" 2>&1
    if [ "$status" -eq 0 ] && [ "$(ls "$dir/$folder" | wc -l)" -eq $# ] && ! grep -n -F "$top" "$dir/$folder"/*.i > "$dir/said"; then
      right "$folder: preprocessed, and $compiler accepts the text"
    else
      wrong "$folder, preprocessed with $compiler"
    fi
  done
}

sources_that_are_gone() {
  for name in one two three; do echo "int $name;" > "$dir/$name.c"; done
  run "$dir/one.c" "$dir/two.c" "$dir/three.c" --out "$dir/out"
  echo 'int mine;' > "$dir/out/mine.i"
  echo 'int changed;' >> "$dir/out/three.i"
  run "$dir/one.c" --out "$dir/out"
  if [ "$status" -eq 0 ] && [ "$(files "$dir/out")" = 'mine.i one.i three.i ' ] && grep -q '/mine\.i is of no source' "$dir/said" &&
    grep -q '/three\.i is of no source' "$dir/said" && [ "$(wc -l < "$dir/said")" -eq 2 ]; then
    right "texts of sources that are gone are removed, and no others ($compiler)"
  else
    files "$dir/out" >> "$dir/said"
    wrong "texts of sources that are gone ($compiler)"
  fi
}

headers_of_ones_own() {
  mkdir "$dir/own headers" "$dir/src"
  printf '#include "rtcheck_ch.h"\ntypedef struct { int state; } OwnDriver;\n' > "$dir/own headers/hal.h"
  printf '#include "ch.h"\n#include "hal.h"\nOwnDriver driver;\n' > "$dir/src/main.c"
  run "$dir/src/main.c" --out "$dir/after" "-I$dir/own headers"
  after=$status
  run "$dir/src/main.c" --out "$dir/before" --headers "$dir/own headers"
  if [ "$after" -eq 1 ] && [ "$status" -eq 0 ] && [ ! -e "$dir/after" ] && grep -q 'chSysLock' "$dir/before/main.i"; then
    right "headers of one's own are found before the stub headers ($compiler)"
  else
    wrong "headers of one's own: status $status before the stub headers, $after after them ($compiler)"
  fi
}

carriage_returns() {
  cat > "$dir/with_returns" <<END
#!/bin/sh
case "\$*" in *-fsyntax-only*) exec $compiler "\$@" ;; esac
$compiler "\$@" | awk '{ printf "%s\\r\\n", \$0 }'
END
  chmod +x "$dir/with_returns"
  printf 'int a;\r\nint b;\r\n' > "$dir/returns.c"
  plain=$compiler compiler=$dir/with_returns
  run "$dir/returns.c" --out "$dir/returned"
  compiler=$plain
  if [ "$status" -eq 0 ] && grep -q 'int b;' "$dir/returned/returns.i" && [ "$(tr -cd '\r' < "$dir/returned/returns.i" | wc -c)" -eq 0 ]; then
    right "carriage returns at the ends of lines are taken out ($compiler)"
  else
    wrong "carriage returns ($compiler)"
  fi
}

attributes() { # those that only place or describe are left out, and those that make code run are refused
  printf '#define AT __attribute__\nint a AT((aligned(4),\n  section(".ram")));\nvoid f(void) __attribute__((weak));\n' > "$dir/placed.c"
  run "$dir/placed.c" --out "$dir/placed"
  placed=$status
  grep -q attribute "$dir/placed/placed.i" && placed=2
  refused=0
  for attribute in constructor __destructor__ 'section(".x"), cleanup(g)' 'weak, alias("g")'; do
    printf "void g(void);\\nvoid f(void) __attribute__((%s));\\n" "$attribute" > "$dir/run.c"
    run "$dir/run.c" --out "$dir/runs"
    [ "$status" -eq 1 ] && [ ! -e "$dir/runs" ] && grep -q 'take them out' "$dir/said" && refused=$((refused + 1))
  done
  if [ "$placed" -eq 0 ] && [ "$refused" -eq 4 ]; then
    right "attributes are left out, and those that make code run are refused ($compiler)"
  else
    wrong "attributes ($compiler): $placed where they may be left out, $refused of 4 refused"
  fi
}

refusals() {
  printf 'int main(void) {\n  return 0\n}\n' > "$dir/broken.c"
  echo '#include "no_such_header.h"' > "$dir/lost.c"
  run "$dir/one.c" --out "$dir/kept"
  run "$dir/two.c" "$dir/broken.c" "$dir/lost.c" --out "$dir/kept"
  if [ "$status" -eq 1 ] && [ "$(files "$dir/kept")" = 'one.i ' ] && grep -q 'broken\.c:[23]:.*error' "$dir/said" &&
    grep -q 'no_such_header' "$dir/said" && grep -q '2 of the sources refused' "$dir/said"; then
    right "what $compiler refuses is passed on, and the folder stays as it was"
  else
    wrong "what $compiler refuses: status $status"
  fi
}

for compiler in gcc clang; do
  command -v "$compiler" >/dev/null || {
    echo "own check: nothing is preprocessed with $compiler, which isn't installed"
    continue
  }
  rm -rf "${dir:?}"/*
  examples
  sources_that_are_gone
  headers_of_ones_own
  carriage_returns
  attributes
  refusals
done
[ "$failed" -eq 0 ]
