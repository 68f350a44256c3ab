#!/bin/sh
# Whether the stub header, docs/KERNEL.md and the table of ck_kernel say the same of the kernel calls, and whether the stub
# headers are C:
#
# - each compiler that is here, gcc and clang, takes rtcheck_ch.h and all that include/ has without a warning;
# - the header's prototypes and the table's rows are the same calls in the same order, with the same numbers of parameters
#   and the same entry parameters;
# - the rows of docs/KERNEL.md are the table's, by number, name and op, and their prototypes are the header's.
#
# The table's facts are read where the program has them, in crates/ck_kernel/src/calls.rt, which is proved to be the
# definition. The header's are told by its types: a tfunc_t is a thread's function, a vtfunc_t a timer's, and a pointer to a
# thread_descriptor_t a descriptor.
set -eu
top=$(cd "$(dirname "$0")/.." && pwd)
cd "$top"
table=crates/ck_kernel/src/calls.rt
header=include/rtcheck_ch.h
page=docs/KERNEL.md
failed=0
dir=$(mktemp -d)
trap 'rm -rf "$dir"' EXIT

says() { # says STATUS LINE: the line, as a success where the status is 0; else the file $dir/said goes after it
  if [ "$1" -eq 0 ]; then
    echo "own check: $2"
  else
    failed=$((failed + 1))
    echo "own check: FAILED: $2"
    cat "$dir/said"
  fi
}
same() { # same ONE OTHER LINE: two lists are the same, and not empty
  status=0
  diff "$dir/$1" "$dir/$2" > "$dir/said" || status=1
  [ -s "$dir/$1" ] || { status=1; echo "there is nothing in the list '$1'" >> "$dir/said"; }
  says "$status" "$3"
}

# every header at once, as an application includes them; memcpy and its like aren't the compiler's own here
for name in include/*.h; do printf '#include "%s"\n' "$(basename "$name")"; done > "$dir/all.c"
echo 'int main(void) { return 0; }' >> "$dir/all.c"
cc=
for compiler in gcc clang; do
  if command -v "$compiler" >/dev/null; then
    cc=$compiler
    status=0
    "$compiler" -std=c99 -Wall -Wextra -pedantic -Werror -fsyntax-only -x c "$header" > "$dir/said" 2>&1 || status=1
    says "$status" "$compiler takes $header without a warning"
    status=0
    "$compiler" -std=c99 -Wall -Wextra -pedantic -Werror -fno-builtin -fsyntax-only -nostdinc -I include "$dir/all.c" \
      > "$dir/said" 2>&1 || status=1
    says "$status" "$compiler takes all headers of include/ without a warning"
  else
    echo "own check: the stub headers aren't tried with $compiler, which isn't installed"
  fi
done

# the table: lines '    "NAME" OP PARAMETERS ENTRY;', as NUMBER NAME OP PARAMETERS ENTRY
awk '/^    "[A-Za-z_]*" [A-Za-z]* [0-9]* [A-Za-z0-9()]*;$/ {
  gsub(/[";]/, "")
  print rows++, $1, $2, $3, $4
}' "$table" > "$dir/rows"
rows=$(sed -n 's/^pub static CALLS: \[Call; \([0-9]*\)\].*/\1/p' "$table")
status=0
[ "$(wc -l < "$dir/rows")" -eq "${rows:-0}" ] || status=1
echo "$table has ${rows:-no} rows, and $(wc -l < "$dir/rows") were read" > "$dir/said"
says "$status" "all ${rows:-} rows of $table are read"

# docs/KERNEL.md: lines '| NUMBER | `PROTOTYPE` | OP | WAKES |', as NUMBER NAME OP, and the prototypes
awk -F' *[|] *' '/^[|] [0-9]+ [|] `/ {
  gsub(/`/, "", $3)
  name = $3; sub(/\(.*/, "", name); sub(/.*[ *]/, "", name)
  print $2, name, $4 > "'"$dir"'/page.rows"
  print $3 > "'"$dir"'/page.prototypes"
}' "$page"
cut -d' ' -f1-3 "$dir/rows" > "$dir/table.rows"
touch "$dir/page.rows" "$dir/page.prototypes"
same table.rows page.rows "$page has the table's rows, with their names and ops"

# the header: its prototypes without the typedefs, one a line
if [ -n "$cc" ]; then
  "$cc" -E -P -std=c99 -nostdinc "$header" | tr '\n' ' ' | tr ';' '\n' | tr -s ' ' | sed 's/^ //' | grep -v '^typedef \|^}\|^[^(]*$' \
    > "$dir/header.prototypes"
  awk '{
    name = $0; sub(/\(.*/, "", name); sub(/.*[ *]/, "", name)
    inside = $0; sub(/^[^(]*\(/, "", inside); sub(/\) *$/, "", inside)
    count = inside == "void" ? 0 : split(inside, parameter, / *, */)
    entry = "Absent"
    for (k = 1; k <= count; k++) {
      if (parameter[k] ~ /(^| )tfunc_t$/) entry = entry == "Absent" ? "Thread(" k ")" : "several"
      if (parameter[k] ~ /(^| )vtfunc_t$/) entry = entry == "Absent" ? "Timer(" k ")" : "several"
      if (parameter[k] ~ /thread_descriptor_t/) entry = entry == "Absent" ? "Descriptor" : "several"
    }
    print NR - 1, name, count, entry
  }' "$dir/header.prototypes" > "$dir/header.rows"
  cut -d' ' -f1,2,4,5 "$dir/rows" > "$dir/table.parameters"
  same table.parameters header.rows "$header has the table's calls, with their parameters and entry parameters"
  same header.prototypes page.prototypes "$page has the prototypes of $header"
else
  echo "own check: the prototypes of $header aren't compared, since no compiler is installed"
fi
[ "$failed" -eq 0 ]
