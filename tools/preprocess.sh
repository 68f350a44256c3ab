#!/bin/sh
# Preprocesses an application's C sources for the checker, against the stub headers of include/:
#
#   tools/preprocess.sh APP_SOURCES.. --out FOLDER [--headers FOLDER].. [-IFOLDER] [-DNAME=VALUE] ..
#
# Each source NAME.c becomes FOLDER/NAME.i. The compiler is $CC, or gcc where that isn't set; its own headers and
# predefined macros are left out, and include/rtcheck_forced.h goes before each source. Headers are looked for in the
# folders of --headers, then in include/, then in those of -I. Words that begin with - go to the preprocessor.
#
# The compiler is shown each text first. Where it refuses a source, its messages are passed on, the status is 1, and
# the folder stays as it was; so it is where an attribute makes code run that the source doesn't call. Else the texts go into the folder, and those that an earlier run made there of sources
# that aren't named any more are removed: FOLDER/.preprocessed lists what was made, each with its checksum, so that no
# file of another origin is removed, and none that was changed since.
#
# Line markers name a source as it is named here, and the stub headers as include/.. wherever the checker stands.
# Carriage returns at the ends of lines are taken out. Status 2 is for wrong words.
set -eu
usage() {
  echo 'usage: tools/preprocess.sh APP_SOURCES.. --out FOLDER [--headers FOLDER].. [-IFOLDER] [-DNAME=VALUE] ..' >&2
  exit 2
}
RTCHECK_INCLUDE=$(cd "$(dirname "$0")/.." && pwd)/include
export RTCHECK_INCLUDE
compiler=${CC:-gcc}

out=
left=$#
while [ "$left" -gt 0 ]; do
  word=$1
  shift
  left=$((left - 1))
  case $word in
    --out | --headers)
      [ "$left" -gt 0 ] || usage
      if [ "$word" = --out ]; then out=$1; else set -- "$@" "--headers=$1"; fi
      shift
      left=$((left - 1))
      ;;
    -I | -D | -U | -include) usage ;; # written as one word with what follows, so that it isn't taken for a source
    -* | *.c) set -- "$@" "$word" ;;
    *)
      echo "preprocess.sh: $word isn't a .c file" >&2
      exit 2
      ;;
  esac
done
[ -n "$out" ] || usage
command -v "$compiler" >/dev/null || { echo "preprocess.sh: there is no compiler $compiler; name one by CC" >&2; exit 1; }
work=$(mktemp -d)
trap 'rm -rf "$work"' EXIT
mkdir "$work/texts"
made=$out/.preprocessed

# int and pointers have 32 bits for the checker too
bits=-m32
"$compiler" "$bits" -fsyntax-only -x c /dev/null 2>/dev/null || bits=-w

preprocess() { # preprocess SOURCE WORD..: what the preprocessor makes of the source, with those words that begin with -
  source=$1
  shift
  left=$#
  for word in "$@"; do
    case $word in --headers=*) set -- "$@" "-I${word#--headers=}" ;; esac
  done
  set -- "$@" "-I$RTCHECK_INCLUDE"
  while [ "$left" -gt 0 ]; do
    word=$1
    shift
    left=$((left - 1))
    case $word in
      --headers=*) ;;
      -*) set -- "$@" "$word" ;;
    esac
  done
  "$compiler" -E -std=c99 -undef -nostdinc -include "$RTCHECK_INCLUDE/rtcheck_forced.h" "$@" -x c "$source"
}
accepts() { # accepts TEXT: the compiler takes the text as C; else it says why
  "$compiler" "$bits" -std=c99 -w -funsigned-char -fno-builtin -fsyntax-only -x cpp-output "$1"
}

attributes() { # attributes TEXT: those that make code run which isn't called, or give a function the body of another
  tr '\n' ' ' < "$1" | grep -o '__attribute__ *(([^;{}]*))' |
    grep -E '[^A-Za-z0-9_](__)?(constructor|destructor|cleanup|alias|ifunc|weakref)(__)?[^A-Za-z0-9_]'
}

failed=0 names=:
for source in "$@"; do
  case $source in -*) continue ;; esac
  name=$(basename "$source" .c).i
  case $names in
    *:"$name":*)
      echo "preprocess.sh: two sources would become $name" >&2
      exit 1
      ;;
  esac
  names=$names$name:
  if preprocess "$source" "$@" > "$work/text"; then
    awk 'BEGIN { long = ENVIRON["RTCHECK_INCLUDE"] "/" }
      { sub(/\r+$/, "") }
      substr($0, 1, 1) == "#" && (at = index($0, "\"" long)) { $0 = substr($0, 1, at) "include/" substr($0, at + 1 + length(long)) }
      { print }' "$work/text" > "$work/texts/$name"
    preprocess "$source" "$@" -DRTCHECK_KEEP_ATTRIBUTES > "$work/kept" 2>/dev/null || true
    if attributes "$work/kept" >&2; then
      echo "preprocess.sh: $source: without these attributes the text is another program; take them out" >&2
      failed=$((failed + 1))
    else
      accepts "$work/texts/$name" || failed=$((failed + 1))
    fi
  else
    failed=$((failed + 1))
  fi
done
[ "$names" != : ] || usage
[ "$failed" -eq 0 ] || { echo "preprocess.sh: $failed of the sources refused; $out is as it was" >&2; exit 1; }

# what an earlier run made and this one doesn't
mkdir -p "$out"
[ ! -e "$made" ] || while read -r sum size name; do
  case $name in */*) continue ;; esac
  if [ -f "$out/$name" ] && [ ! -e "$work/texts/$name" ] && [ "$(cksum < "$out/$name")" = "$sum $size" ]; then
    rm "$out/$name"
  fi
done < "$made"

for text in "$work"/texts/*.i; do
  cp "$text" "$out/"
  echo "$(cksum < "$text") $(basename "$text")"
done > "$work/made"
cp "$work/made" "$made"
for text in "$out"/*.i; do
  [ -e "$work/texts/$(basename "$text")" ] ||
    echo "preprocess.sh: $text is of no source that was named, and wasn't made here or was changed since; it is checked too" >&2
done
