#!/usr/bin/env python3
"""Copies an example into a folder, with one of its bugs planted:

    tools/plant_bug.py examples/NAME/bugs/BUG.edit FOLDER

An edit has the lines `kind: KIND`, the alarm that it is an example of, `file: SOURCE`, and then pairs of `old: TEXT` and
`new: TEXT`. Each old text is a whole line of the source, and is there once; it is replaced on its line, so that places
stay. FOLDER must not be there yet.
"""
import shutil
import sys
from pathlib import Path
from typing import List, Tuple


class NotAnEdit(Exception):
    """The edit has another form, or doesn't fit its source."""


def read_edit(path: Path) -> Tuple[str, str, List[Tuple[str, str]]]:
    """The kind, the source's name, and the pairs of lines."""
    rows = [line.partition(":")[::2] for line in path.read_text().split("\n") if line]
    names = [name for name, _ in rows]
    texts = [text[1:] for _, text in rows]
    count = len(rows) // 2 - 1
    if names != ["kind", "file"] + ["old", "new"] * count or count < 1:
        raise NotAnEdit(f"{path} has another form than kind, file, and pairs of old and new")
    return texts[0], texts[1], list(zip(texts[2::2], texts[3::2]))


def planted(source: str, pairs: List[Tuple[str, str]]) -> str:
    """The source with the bug."""
    lines = source.split("\n")
    for old, new in pairs:
        if lines.count(old) != 1:
            raise NotAnEdit(f"the line {old!r} is there {lines.count(old)} times")
        lines[lines.index(old)] = new
    return "\n".join(lines)


def plant(edit: Path, folder: Path) -> str:
    """Makes the folder; the answer is the kind of the alarm."""
    kind, name, pairs = read_edit(edit)
    shutil.copytree(edit.parent.parent, folder, ignore=shutil.ignore_patterns("bugs", "build", "check"))
    (folder / name).write_text(planted((folder / name).read_text(), pairs))
    return kind


def main():
    if len(sys.argv) != 3:
        print("usage: tools/plant_bug.py examples/NAME/bugs/BUG.edit FOLDER", file=sys.stderr)
        return 2
    try:
        kind = plant(Path(sys.argv[1]), Path(sys.argv[2]))
    except (OSError, NotAnEdit) as why:
        print(f"plant_bug.py: {why}", file=sys.stderr)
        return 1
    print(f"{sys.argv[2]} has an example of {kind}")
    return 0


if __name__ == "__main__":
    sys.exit(main())
