"""Compares ck_lexer's tokens of preprocessed files with clang's. tools/compare_tokens.sh calls it."""
import collections
import pathlib
import re
import subprocess
import sys

DUMP, MOST, FOLDER = sys.argv[1], int(sys.argv[2]), pathlib.Path(sys.argv[3])

# What is taken out or replaced, so that more of the machine's files lie in the subset.
MACROS = [
    "-D__attribute__(x)=", "-D__extension__=", "-D__asm__(x)=", "-D__asm(x)=", "-Dasm(x)=", "-Dfloat=int",
    "-Ddouble=int", "-Dunion=struct", "-D_Complex=", "-D__typeof__(x)=int", "-Dtypeof(x)=int", "-D__restrict=restrict",
]
LINE = re.compile(rb"^(\S+) '(.*)'\t.*Loc=<(.*):(\d+):(\d+)(?: <Spelling=.*>)?>$", re.S)


def sources():
    """The machine's C sources first, then its headers, in the order of their paths."""
    for pattern in ("/usr/share/doc/*/examples/**/*.c", "/usr/share/cmake-*/**/*.c", "/usr/include/**/*.c",
                    "/usr/include/**/*.h", "/usr/lib/gcc/**/include/*.h"):
        root, rest = pattern.split("*", 1)
        base = pathlib.Path(root).parent if not root.endswith("/") else pathlib.Path(root)
        yield from sorted(base.glob(pattern[len(str(base)) + 1:]))


def preprocessed(path):
    command = ["gcc", "-E", "-std=c99", "-w", *MACROS, str(path)]
    try:
        done = subprocess.run(command, capture_output=True, timeout=20)
    except subprocess.TimeoutExpired:
        return None
    text = done.stdout
    return text if done.returncode == 0 and 0 < len(text) <= 1048576 else None


def ours(text):
    (FOLDER / "input.i").write_bytes(text)
    done = subprocess.run([DUMP], cwd=FOLDER, capture_output=True, timeout=60)
    lines = done.stdout.split(b"\n")[:-1]
    if done.returncode == 2:
        return lines[0].decode().split()[1:], None
    return None, [tuple(int(word) for word in line.split()[1:]) for line in lines]


def theirs(text):
    (FOLDER / "clang.i").write_bytes(text)
    command = ["clang", "-std=c99", "-w", "-fsyntax-only", "-x", "cpp-output", "-Xclang", "-dump-tokens", "clang.i"]
    done = subprocess.run(command, cwd=FOLDER, capture_output=True, timeout=60)
    tokens = []
    for line in re.split(rb"\n(?=\S+ '|eof)", done.stderr):
        found = LINE.match(line)
        if found and found.group(1) != b"eof":
            tokens.append((found.group(2), found.group(3), int(found.group(4)), int(found.group(5))))
    return tokens


def main():
    counts, faults, shown = collections.Counter(), collections.Counter(), 0
    for path in sources():
        if counts["agree"] + counts["differ"] >= MOST:
            break
        text = preprocessed(path)
        if text is None:
            counts["not preprocessed"] += 1
            continue
        fault, spans = ours(text)
        if fault is not None:
            counts["outside the subset"] += 1
            start, end = int(fault[1]), int(fault[2])
            faults[f"U{fault[0]} {text[start:end][:30]!r}"] += 1
            continue
        cut = [text[start:end] for start, end in spans]
        other = [token[0] for token in theirs(text)]
        if cut == other:
            counts["agree"] += 1
            counts["tokens"] += len(cut)
            continue
        counts["differ"] += 1
        at = next((i for i, (a, b) in enumerate(zip(cut, other)) if a != b), min(len(cut), len(other)))
        if shown < 20:
            shown += 1
            print(f"differs: {path}: token {at}: ours {cut[at:at + 3]}, theirs {other[at:at + 3]}")
    print(f"files that agree: {counts['agree']}, with {counts['tokens']} tokens; files that differ: {counts['differ']}")
    print(f"outside the subset: {counts['outside the subset']}; not preprocessed: {counts['not preprocessed']}")
    for fault, count in faults.most_common(12):
        print(f"  {count} at {fault}")
    return 1 if counts["differ"] else 0


sys.exit(main())
