#!/bin/sh
# Which definitions have to be trusted: the files of specs/ that public contracts reach.
#
#   tools/trusted.sh           of all crates together
#   tools/trusted.sh CRATE     of one crate's public contracts
#
# A public contract is one of a function, method or trait that the crate's src/lib.rt has or re-exports. It reaches the files
# that its words are imported from by `ghost use`, and those that these files import in turn, over all crates. The number
# before a file is that of its lines without imports, comments and blank lines; the last line has the sums.
#
# It fails where a file under the heading `-- Private` of a specs/Lib.antt is reached, and says from where.
set -eu
cd "$(dirname "$0")/.."
exec python3 - "$@" << 'PYTHON'
import re
import sys
from pathlib import Path

CRATES = Path("crates")
STRING = re.compile(r'"(?:\\.|[^"\\])*"' r"|b?'(?:\\.|[^'\\])'", re.S)
WORD = re.compile(r"[^\W\d][\w]*")
IMPORT = re.compile(r"\b(?:ghost )?use +Rattle\.(\w+)\.specs\.([\w.]+?)(?:\.\{([^}]*)\}| +as +(\w+))?\s*(?:;|\n|$)")
ITEM = re.compile(r"(?:\bpub(\([^)]*\))?\s+)?(?:const\s+|unsafe\s+|async\s+)*\b(fn|impl|trait|struct|enum|static|const)\b")
CLAUSE = re.compile(r"(?:\b(?:requires|ensures)\*?(?:\s+\w+)?|\bghost\s+\w+\s*[:=])\s*$")


def bare(source):
    """The source without comments and without what its literals say."""
    lines = [line.split("//")[0] for line in STRING.sub('""', source).splitlines()]
    return "\n".join(lines)


def after_block(text, start):
    """The place after the block that opens at start."""
    depth = 0
    for place in range(start, len(text)):
        depth += {"{": 1, "}": -1}.get(text[place], 0)
        if depth == 0:
            return place + 1
    raise SystemExit("trusted: a brace isn't closed")


def imports(text):
    """The words that these lines import, each with the module that it comes from."""
    words = {}
    for crate, path, names, alias in IMPORT.findall(text):
        module = (crate, path)
        if alias:
            words[alias] = module
        elif names:
            for name in names.split(","):
                words[name.split(" as ")[-1].strip()] = module
        else:
            words[path.split(".")[-1]] = module
    return words


def head(text, start):
    """The clauses between start and a body or a semicolon, and the places where the head and the item end."""
    clauses, depth, place = [], 0, start
    while place < len(text):
        if text[place] == "{":
            end = after_block(text, place)
            if not CLAUSE.search(text[start:place]):
                return clauses, place, end
            clauses.append(text[place:end])
            place = end
            continue
        depth += {"(": 1, "[": 1, ")": -1, "]": -1}.get(text[place], 0)
        if text[place] == ";" and depth == 0:
            return clauses, place, place + 1
        place += 1
    return clauses, place, place


def ghost_members(block):
    return [block[m.end() - 1:after_block(block, m.end() - 1)] for m in re.finditer(r"\bghost\s+\w+\s*[:=]\s*\{", block)]


def public_clauses(text, exported, known, every=False):
    """Each public clause, with the imports that hold where it is."""
    place = 0
    while item := ITEM.search(text, place):
        kind = item.group(2)
        clauses, middle, place = head(text, item.end())
        opening = text[item.end():middle]
        is_pub = item.group().startswith("pub") and item.group(1) is None
        if kind == "fn":
            name = WORD.search(opening).group()
            if every or (is_pub and (exported is None or name in exported)):
                yield from ((clause, known) for clause in clauses)
        elif kind in ("impl", "trait"):
            block = text[middle + 1:place - 1]
            ours = {**known, **imports(block)}
            plain = re.sub(r"<[^<>]*>", "", re.sub(r"<[^<>]*(?:<[^<>]*>[^<>]*)*>", "", opening))
            names = WORD.findall(plain)
            of = names[names.index("for") + 1] if "for" in names else names[0]
            if of not in exported:
                continue
            is_whole = kind == "trait" or "for" in names
            if is_whole:
                yield from ((member, ours) for member in ghost_members(block))
            yield from public_clauses(block, None, ours, is_whole)


def exports(crate):
    """The names that a crate's lib.rt has or re-exports."""
    text = bare((crate / "src/lib.rt").read_text())
    names = set()
    for path in re.findall(r"\bpub use ([^;]*);", text):
        names.update(word for word in WORD.findall(path) if word != "as")
    names.update(re.findall(r"\bpub (?:const )?(?:fn|struct|enum|trait|const|type) (\w+)", text))
    return names


def spec_file(crate, path):
    """The file of a module, or of the module that a path ends in; none where it is no module of this repository."""
    parts = path.split(".")
    while parts and parts[0] not in ("declared", "contracts"):
        file = CRATES / crate / "specs" / ("/".join(parts) + ".antt")
        if file.exists():
            return file
        parts.pop()
    return None


def whole_imports(text):
    """The text with each import on one line."""
    return re.sub(r"\{[^}]*\}", lambda braces: " ".join(braces.group().split()), text)


def reached_by(crate):
    """The specs files that a crate's public contracts name, each with the place of such a contract."""
    found = {}
    exported = exports(crate)
    for source in sorted((crate / "src").glob("**/*.rt")):
        text = bare(source.read_text())
        for clause, known in public_clauses(text, exported, imports(text_level(text))):
            for word in WORD.findall(clause):
                file = spec_file(*known[word]) if word in known else None
                if file:
                    found.setdefault(file, source)
    return found


def text_level(text):
    """What is in no block but that of an import: the imports of the whole file."""
    out, place = [], 0
    for block in re.finditer(r"\{", text):
        if block.start() < place:
            continue
        is_import = re.search(r"\buse\s+[\w.:]+$", text[place:block.start()])
        end = after_block(text, block.start())
        out.append(text[place:end if is_import else block.start()])
        place = end
    return "".join(out) + text[place:]


def private_files():
    """The files under a heading of private definitions."""
    found = set()
    for lib in CRATES.glob("*/specs/**/Lib.antt"):
        heading = ""
        for line in lib.read_text().splitlines():
            if line.startswith("--"):
                heading = line
            elif line.startswith("pub mod ") and heading.startswith("-- Private"):
                found.add(lib.parent / (line.split()[2] + ".antt"))
    return found


def size(file):
    text = re.sub(r"(?m)^(?:pub )?use [^\n]*$", "", whole_imports(file.read_text()))
    return sum(1 for line in text.splitlines() if line.strip() and not line.strip().startswith("--"))


def main():
    asked = sys.argv[1:]
    crates = [CRATES / name for name in asked] or sorted(lib.parent.parent for lib in CRATES.glob("*/src/lib.rt"))
    cause = {}
    for crate in crates:
        if not (crate / "src/lib.rt").exists():
            raise SystemExit(f"trusted: {crate.name} is no library of this repository")
        if not crate.name.endswith("_tests"):
            for file, source in reached_by(crate).items():
                cause.setdefault(file, source)
    todo = list(cause)
    while todo:
        file = todo.pop()
        for crate, path, _, _ in IMPORT.findall(whole_imports(file.read_text())):
            other = spec_file(crate, path)
            if other and other not in cause:
                cause[other] = file
                todo.append(other)
    for file in sorted(cause):
        print(f"{size(file):6}  {file}")
    print(f"{sum(map(size, cause)):6}  lines in {len(cause)} files")
    wrong = sorted(private_files() & set(cause))
    for file in wrong:
        print(f"trusted: {file} is private, and is reached from {cause[file]}")
    return 1 if wrong else 0


sys.exit(main())
PYTHON
