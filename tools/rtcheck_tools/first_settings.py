"""A first rtcheck.toml from guesses, and what one that is there lacks of them (docs/SETTINGS.md)."""

import re

from .guesses import Guesses

KERNEL = 2
REGULAR = 6
HEAD = """\
# Written by rtcheck-build, which won't change it again. Look at each guess: the priorities, and each class "?", with
# which the checker takes no settings. docs/SETTINGS.md says what each line means.
"""


def first_settings(found: Guesses) -> str:
    out = [HEAD + "version = 1", f"kernel_priority = {KERNEL} # guessed: handlers below it make no kernel call"]
    for vector in found.vectors:
        fast = "guessed: a fast handler, below kernel_priority"
        priority = f"{KERNEL - 1} # {fast}" if vector.fast else f"{REGULAR} # guessed: that of its interrupt"
        out += ["", f"# {vector.why}", "[[vector]]", f'function = "{vector.function}"', f"priority = {priority}"]
    for struct, member in found.callbacks:
        out += ["", *callback(struct, member)]
    for struct, member in found.maybe:
        out += ["", "# is given a function and called nowhere: does a handler call it?"]
        out += ["# " + line for line in callback(struct, member)]
    for name, (lines, place) in found.outside.items():
        known = lines or 'class = "?" # neutral, normal, I, S or X: what does it do?'
        out += ["", f"# {place}", "[[function]]", f'name = "{name}"', known]
    return "\n".join(out) + "\n"


def callback(struct, member):
    yield "[[callback]]"
    yield f'struct = "{struct}"'
    yield f'member = "{member}"'
    yield f"priority = {REGULAR} # guessed: that of the driver's interrupt"


def lacking(found: Guesses, settings: str):
    """What settings don't name of the guesses, a line each."""
    settings = re.sub(r"^\s*#.*$", "", settings, flags=re.M)
    for vector in found.vectors:
        if f'function = "{vector.function}"' not in settings:
            yield f"no vector {vector.function} ({vector.why})"
    pairs = re.findall(r'struct = "(\w+)"\s*(?:,\s*)?member = "(\w+)"', settings)
    for struct, member in found.callbacks:
        if (struct, member) not in pairs:
            yield f"no callback {struct}.{member}"
    for name, (_, place) in found.outside.items():
        if f'name = "{name}"' not in settings:
            yield f"no function {name} ({place})"
