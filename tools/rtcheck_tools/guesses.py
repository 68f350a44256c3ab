"""What the settings of a project may be, as far as its sources and texts show it."""

import re
from dataclasses import dataclass, field
from pathlib import Path
from typing import Dict, List, Tuple

from .reading import Texts, placed_lines, read, tokens_of

INCLUDE = Path(__file__).resolve().parents[2] / "include"
HANDLERS = r"\b((?:CH|OSAL|PORT)_(FAST_)?IRQ_HANDLER)\s*\("
NAMED = r"\bvoid\s+(Vector[0-9A-F]{2,3}|\w+_IRQHandler)\s*\(\s*void\s*\)\s*(?:\{|$)"


@dataclass
class Vector:
    function: str
    fast: bool
    why: str


@dataclass
class Guesses:
    """Vectors; callbacks (struct, member) of drivers, and members that are given functions and called nowhere;
    outside functions with their entries of hal.toml, or none, and where they are called; and what is called and
    declared nowhere."""

    vectors: List[Vector] = field(default_factory=list)
    callbacks: List[Tuple[str, str]] = field(default_factory=list)
    maybe: List[Tuple[str, str]] = field(default_factory=list)
    outside: Dict[str, Tuple[str, str]] = field(default_factory=dict)
    undeclared: Dict[str, str] = field(default_factory=dict)


def guess(texts: Dict[str, str], root: Path) -> Guesses:
    """The guesses from texts by their names; the sources' names start from `root`."""
    found, everything, own = Guesses(), Texts(), []
    for name, text in sorted(texts.items()):
        read(everything, tokens_of(text, name))
        own += [row for file, _, row in placed_lines(text, name) if not file.startswith(("include/", "<"))]
        found.vectors += vectors_of(text, name, root)
    guess_callbacks(found, everything, "\n".join(own))
    guess_outside(found, everything)
    return found


def vectors_of(text, name, root):
    """The functions at whose line the source has a handler's macro, and those that are called as vectors are."""
    sources = {}
    for file, number, row in placed_lines(text, name):
        if file.startswith(("include/", "<")):
            continue
        if file not in sources:
            path = root / file
            sources[file] = path.read_text("utf-8", "replace").split("\n") if path.is_file() else []
        source = sources[file][number - 1] if number <= len(sources[file]) else ""
        macro = re.search(HANDLERS, source)
        function = re.search(r"\bvoid\s+(\w+)\s*\(\s*void\s*\)", row)
        named = re.search(NAMED, row)
        if macro and function:
            yield Vector(function[1], macro[2] is not None, f"{file}:{number}, {macro[1]}")
        elif named:
            yield Vector(named[1], False, f"{file}:{number}, by its name")


def guess_callbacks(found, everything, own):
    """Callbacks of drivers whose structs the application names; and members of its own that are called nowhere."""
    known = re.findall(r'struct = "(\w+)"\nmember = "(\w+)"', (INCLUDE / "callbacks.toml").read_text())
    for struct, member in known:
        if struct in everything.members and is_given(struct, member, own):
            found.callbacks.append((struct, member))
    drivers = {struct for struct, _ in known}
    for struct, members in sorted(everything.members.items()):
        for member in sorted(members - everything.called_members):
            if struct not in drivers and re.search(rf"\b{struct}\b[^;()]*=|(?:\.|->)\s*{member}\s*=[^=]", own):
                found.maybe.append((struct, member))


def is_given(struct, member, own):
    """Whether it looks as if a driver's member were given a function: it is assigned, which of a configuration needs its
    type, or it may be in an initialiser, which either names it or goes by positions."""
    if struct == "palevent_t":
        return "rtcheck_palevent" in own
    is_named = struct.endswith("Driver") or re.search(rf"\b{struct}\b", own)
    if is_named and re.search(rf"\b{member}\s*=[^=]", own):
        return True
    initialisers = re.findall(rf"\b{struct}\b[^;(){{}}=]*=\s*\{{\s*(.)", own)
    return any(first != "." for first in initialisers)


def guess_outside(found, everything):
    classes = outside_classes()
    for name, place in sorted(everything.called.items()):
        if re.match(r"ch[A-Z]|CH_IRQ_", name) or name in everything.defined:
            continue
        if name in everything.declared:
            found.outside[name] = (classes.get(name, ""), place)
        elif name in classes:
            found.undeclared[name] = place


def outside_classes():
    """The entries of hal.toml by name: their lines after the name."""
    entries = (INCLUDE / "hal.toml").read_text().split("[[function]]\n")[1:]
    found = {}
    for entry in entries:
        name, *lines = [line for line in entry.split("\n") if re.match(r"\w+ = ", line)]
        found[name.split('"')[1]] = "\n".join(lines)
    return found
