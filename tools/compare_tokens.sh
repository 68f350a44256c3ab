#!/bin/sh
# Compares the tokens of real C text with those of another lexer, token by token:
#
#   tools/compare_tokens.sh [MOST]
#
# It takes the machine's C sources and headers, at most MOST of them (400), preprocesses each with `gcc -E`, cuts the text by
# ck_lexer (a small program, built beside a copy of the crates) and by `clang -dump-tokens`, and compares the texts of all
# tokens. Words that the subset has no use for are taken out by macros, so that more
# files lie in it. It prints how many files and tokens agree, and each difference. It needs rt, gcc, clang and python3, and
# is no part of the gate.
set -eu
top=$(cd "$(dirname "$0")/.." && pwd)
most=${1:-400}
for tool in rt gcc clang python3; do
  command -v "$tool" >/dev/null || { echo "compare_tokens.sh: skipped, $tool isn't installed"; exit 0; }
done
dir=$(mktemp -d)
trap 'rm -rf "$dir"' EXIT

mkdir -p "$dir/crates/token_dump/src" "$dir/crates/token_dump/data" "$dir/run"
for crate in ck_base ck_io ck_lexer; do
  mkdir -p "$dir/crates/$crate"
  (cd "$top/crates/$crate" && tar cf - --exclude=out .) | (cd "$dir/crates/$crate" && tar xf -)
done
cat > "$dir/crates/token_dump/src/main.rt" <<'END'
//! Prints the tokens of the file `input.i` of the current folder: a line `KIND START END` each, or the
//! line `fault NUMBER START END`.
#![tactic(auto)]

use ck_base::{Fault, Spot, TokenKind, number};
use ck_io::{RealFolder, read_all};
use ck_lexer::lex;
use std::process::ExitCode;

fn kind_name(kind: TokenKind) -> &'static str {
    match kind {
        TokenKind::Word => "word",
        TokenKind::Key => "key",
        TokenKind::Number => "number",
        TokenKind::Char => "char",
        TokenKind::Text => "text",
        TokenKind::Mark => "mark",
    }
}

fn main(rt: HostRuntime) -> ExitCode {
    let mut folder = RealFolder::here(&rt);
    let Ok(bytes) = read_all(rt.alloc(), &mut folder, "input.i", 1_048_576) else {
        return ExitCode::from(5);
    };
    match lex(rt.alloc(), 0, &bytes) {
        Ok(tokens) => {
            for token in &tokens {
                let (start, end) = (token.span.start, token.span.end);
                let kind = kind_name(token.kind);
                let _ = println!(&rt; "{kind} {start} {end}");
            }
            ExitCode::from(0)
        }
        Err(Fault::Unsupported(refusal)) => {
            let kind = number(&refusal.kind);
            if let Spot::At(span) = refusal.at {
                let (start, end) = (span.start, span.end);
                let _ = println!(&rt; "fault {kind} {start} {end}");
            }
            ExitCode::from(2)
        }
        Err(Fault::Memory) => ExitCode::from(7),
    }
}
END
cp "$top/HANDLES" "$dir/HANDLES"
printf 'ck_base:\nck_io: ck_base\nck_lexer: ck_base\ntoken_dump: ck_base ck_io ck_lexer\n' > "$dir/crates.txt"
: > "$dir/crates/token_dump/data/input.i"
(cd "$dir/crates/token_dump" && rt run) > "$dir/built" 2>&1 || true
dump=$dir/crates/token_dump/out/token_dump
[ -x "$dump" ] || { cat "$dir/built"; echo "compare_tokens.sh: the dump wasn't built" >&2; exit 1; }

exec python3 "$top/tools/compare_tokens.py" "$dump" "$most" "$dir/run"
