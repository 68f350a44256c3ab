#!/bin/sh
# Whether docs/PROMISES.md speaks of what is there:
#
# - each row has five cells, and says its promise in at most 25 words;
# - `CRATE::FUNCTION` is a function of that crate, also as a method (`CRATE::TYPE::FUNCTION`), and the words after it, up to the next
#   one, are names of clauses of that crate;
# - each file of the fourth cell is there, and so is each word `NAME` beside it, in that file;
# - each edit of the last cell is a wrong body of one of the row's crates, which the gate has seen refused;
# - each library crate of crates.txt has a row, or, where it has definitions and lemmas alone, a sentence.
set -eu
top=$(cd "$(dirname "$0")/.." && pwd)
cd "$top"
page=docs/PROMISES.md
failed=0
wrong() {
  failed=$((failed + 1))
  echo "promises: $*"
}

rows=$(mktemp)
trap 'rm -f "$rows"' EXIT
grep '^| ' "$page" | grep -vE '^\| (Promise|---|\*\*)' > "$rows" || true
[ -s "$rows" ] || { echo "promises: $page has no row"; exit 1; }

cell() { # cell LINE NUMBER: the text of a cell
  printf '%s\n' "$1" | awk -F ' *\\| *' -v n="$2" '{ print $(n + 1) }'
}
quoted() { # quoted TEXT: what stands between ` and `, a line each
  printf '%s\n' "$1" | grep -o '`[^`]*`' | tr -d '`' || true
}

while IFS= read -r row; do
  title=$(cell "$row" 1)
  cells=$(printf '%s\n' "$row" | awk -F '|' '{ print NF - 2 }')
  [ "$cells" -eq 5 ] || { wrong "$title: $cells cells, not 5"; continue; }
  words=$(cell "$row" 2 | wc -w)
  [ "$words" -le 25 ] || wrong "$title: $words words, more than 25"

  crates=
  clauses=$(cell "$row" 3)
  for part in $(printf '%s\n' "$clauses" | tr -d ',;'); do
    case $part in
      '`'*::*'`')
        name=$(printf '%s' "$part" | tr -d '`')
        crate=${name%%::*} function=${name##*::}
        crates="$crates $crate"
        grep -qE "fn $function\b" "crates/$crate/src/"*.rt 2>/dev/null || wrong "$title: $crate has no function $function"
        ;;
      *)
        grep -qE "(ensures|requires) $part \{" "crates/${crate:-none}/src/"*.rt 2>/dev/null ||
          wrong "$title: ${crate:-no crate} has no clause $part"
        ;;
    esac
  done
  [ -n "$crates" ] || wrong "$title: no function carries it"

  file=
  for part in $(quoted "$(cell "$row" 4)"); do
    case $part in
      */*.antt)
        file=crates/$part
        [ -f "$file" ] || wrong "$title: there is no $file"
        ;;
      *)
        grep -qE "\b$part\b" "${file:-/dev/null}" 2>/dev/null || wrong "$title: ${file:-no file} has no $part"
        ;;
    esac
  done

  for edit in $(quoted "$(cell "$row" 5)"); do
    found=
    for crate in $crates; do
      [ ! -f "crates/$crate/must-fail/$edit.edit" ] || found=yes
    done
    [ -n "$found" ] || wrong "$title: none of$crates has the edit $edit"
  done
done < "$rows"

for crate in $(sed -E 's/#.*//; /^[[:space:]]*$/d; s/[ :].*//' crates.txt); do
  case $crate in
    ck_program | *_tests) ;;
    *) grep -q "\`$crate::" "$rows" || grep -qE "\b$crate('s|/specs)" "$page" || wrong "nothing speaks of $crate" ;;
  esac
done

[ "$failed" -eq 0 ] || { echo "promises: $failed wrong"; exit 1; }
echo "promises: $(wc -l < "$rows") rows of $page, each clause, definition and edit is there"
