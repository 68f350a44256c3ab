#!/bin/sh
# Whether the stub headers serve applications:
#
# - each header by itself, with every driver switched on, is taken without a warning by each compiler that is here,
#   gcc and clang, and so are the sources of tools/tests/headers, which use each macro that stands for a call;
# - what tools/preprocess.sh makes of these sources has no kernel name that isn't in the table, no word that the
#   checked C hasn't, no bit-field and no definition with `...`;
# - a pool's provider of the application's own is refused by the compiler;
# - the headers, include/hal.toml, include/callbacks.toml and docs/PREPROCESSING.md agree (tools/check_classes.py).
set -eu
top=$(cd "$(dirname "$0")/.." && pwd)
cd "$top"
tests=tools/tests/headers
failed=0
dir=$(mktemp -d)
trap 'rm -rf "$dir"' EXIT

says() { # says STATUS LINE: the line, as a success where the status is 0; else the file $dir/said goes after it
  if [ "$1" -eq 0 ]; then
    echo "own check: $2"
  else
    failed=$((failed + 1))
    echo "own check: FAILED: $2"
    cat "$dir/said"
  fi
}
warnings() { # warnings WORD..: the compiler's warnings on these; int and pointers have 32 bits where it can
  bits=-m32
  "$compiler" "$bits" -fsyntax-only -x c /dev/null 2>/dev/null || bits=-Wno-pointer-to-int-cast
  "$compiler" "$bits" -std=c99 -Wall -Wextra -pedantic -Werror -funsigned-char -fno-builtin -fsyntax-only \
    -undef -nostdinc -include include/rtcheck_forced.h -I include -I "$tests" "$@"
}

headers() {
  status=0
  for header in include/*.h; do
    echo "#include \"$(basename "$header")\"" > "$dir/one.c"
    echo 'int main(void) { return 0; }' >> "$dir/one.c"
    warnings "$dir/one.c" >> "$dir/said" 2>&1 || status=1
  done
  says "$status" "$compiler takes each header of include/ by itself without a warning"
}

uses() {
  status=0
  warnings "$tests/kernel.c" > "$dir/said" 2>&1 || status=1
  warnings "$tests/drivers.c" >> "$dir/said" 2>&1 || status=1
  says "$status" "$compiler takes sources that use the stub headers' macros without a warning"
}

checked_c() { # the names of the table are those of rtcheck_ch.h, which tools/check_header.sh compares
  status=0
  set -- "$tests/kernel.c" "$tests/drivers.c"
  CC=$compiler tools/preprocess.sh "$@" --out "$dir/out" "-I$tests" > "$dir/said" 2>&1 || status=1
  [ "$status" -ne 0 ] || {
    sed 's/"[^"]*"//g' "$dir"/out/*.i > "$dir/text"
    grep -o '\bch[A-Z][A-Za-z0-9_]*\|\bCH_IRQ_[A-Z]*' "$dir/text" | sort -u > "$dir/names"
    grep -o '\bch[A-Z][A-Za-z0-9_]*\|\bCH_IRQ_[A-Z]*' include/rtcheck_ch.h | sort -u > "$dir/table"
    comm -23 "$dir/names" "$dir/table" > "$dir/said"
    grep -n -w 'float\|double\|union\|asm\|__asm__\|__attribute__\|typeof\|_Complex' "$dir/text" >> "$dir/said" || true
    grep -n '^ *[a-z_0-9 ]* [a-z_A-Z0-9]* *: *[0-9]' "$dir/text" | grep -v 'case\|?' >> "$dir/said" || true
    grep -n '\.\.\. *) *{' "$dir/text" >> "$dir/said" || true
    [ ! -s "$dir/said" ] && [ -s "$dir/names" ] || status=1
  }
  says "$status" "what is preprocessed with $compiler against the stub headers keeps to the table and to the checked C"
}

providers() {
  printf '#include "ch.h"\nvoid *own(size_t size, unsigned int align);\nmemory_pool_t pool;\n' > "$dir/pool.c"
  echo 'void start(void) { chPoolObjectInit(&pool, 16, own); }' >> "$dir/pool.c"
  status=0
  if CC=$compiler tools/preprocess.sh "$dir/pool.c" --out "$dir/pools" > "$dir/said" 2>&1; then status=1; fi
  grep -q RTCHECK_PROVIDER_own "$dir/said" || status=1
  says "$status" "$compiler refuses a pool's provider of the application's own"
}

for compiler in gcc clang; do
  command -v "$compiler" >/dev/null || {
    echo "own check: the drivers' headers aren't tried with $compiler, which isn't installed"
    continue
  }
  : > "$dir/said"
  headers
  uses
  checked_c
  providers
done

if command -v python3 >/dev/null; then
  status=0
  python3 tools/check_classes.py > "$dir/said" 2>&1 || status=1
  if [ "$status" -eq 0 ]; then says 0 "$(cat "$dir/said")"; else says 1 "the classes of the stub headers' functions"; fi
else
  echo "own check: skipped: the classes of the stub headers' functions, since there is no python3"
fi
[ "$failed" -eq 0 ]
