#!/usr/bin/env python3
"""Whether the stub headers, include/hal.toml, include/callbacks.toml and docs/PREPROCESSING.md say the same:

    tools/check_classes.py [--write]

- each function that a stub header declares without a body, beside the kernel calls of rtcheck_ch.h, is under a comment
  that says its class, and has an entry of that class in hal.toml, in the order of the headers; hal.toml has no others;
- each member of callbacks.toml is a member of that struct in a header;
- each kernel call that rtcheck_kernel.h maps has a row in docs/PREPROCESSING.md, which names what it becomes and, where
  that is an outside function, its class.

With --write it writes hal.toml anew from the headers. Status 0 where all hold, else 1 with a line for each fault.
"""
import re
import sys
from pathlib import Path

TOP = Path(__file__).resolve().parent.parent
INCLUDE = TOP / "include"
CLASSES = [  # what a comment says, the class in the settings, and whether the call may wake
    ("No kernel call", "neutral", False),
    ("Normal class", "normal", False),
    ("I-class that may wake", "I", True),
    ("I-class", "I", False),
    ("S-class that may wake", "S", True),
    ("S-class", "S", False),
    ("X-class", "X", False),
]
HEAD = """\
# The classes of the functions that the stub headers declare and that have no body, for `function` of rtcheck.toml
# (docs/SETTINGS.md). All of them may be copied, since an entry that nothing declares is allowed. Each class is that of
# the driver's documentation, or neutral where the function makes no kernel call that has a check
# (docs/PREPROCESSING.md).
"""


def class_of(comment):
    """The class that a comment says for the prototypes after it, or None."""
    for words, name, wakes in CLASSES:
        if re.search(r"(^|[.;] )" + re.escape(words) + r"\b", comment):
            return name, wakes
    return None


def prototypes(header):
    """The functions that a header declares without a body: (name, class or None), in order."""
    text = re.sub(r"\\\n", " ", header.read_text())
    found, current = [], None
    for piece in re.finditer(r"/\*(.*?)\*/|^([A-Za-z_][^\n#]*\);)$", text, re.S | re.M):
        if piece[1] is not None:
            current = class_of(re.sub(r"\s*\n\s*\*?\s*|\s+", " ", piece[1]).strip())
        elif not re.match(r"(typedef|extern|static)\b", piece[2]):
            found.append((re.match(r"[^(]*?(\w+)\(", piece[2])[1], current))
    return found


def settings_of(headers):
    """hal.toml as the headers have it."""
    out = HEAD
    for header, functions in headers:
        out += f"\n# {header.name}\n" if functions else ""
        for name, known in functions:
            kind, wakes = known or ("?", False)
            out += f'[[function]]\nname = "{name}"\nclass = "{kind}"\n' + ("wakes = true\n" if wakes else "")
    return out


def unknown_callbacks(text):
    """The lines of callbacks.toml whose member isn't in that struct of the headers."""
    headers = "".join(h.read_text() for h in sorted(INCLUDE.glob("*.h")))
    for struct, member in re.findall(r'struct = "(\w+)"\nmember = "(\w+)"', text):
        whole = rf"struct[^{{}};]*\{{([^{{}}]*)\}}\s*{struct};|struct {struct} \{{([^{{}}]*)\}}"
        bodies = re.findall(whole, headers)
        if not any(re.search(r"\b" + member + ";", body) for pair in bodies for body in pair):
            yield f"include/callbacks.toml: no header has the member {member} of {struct}"


def rows_of_the_page(classes):
    """What docs/PREPROCESSING.md lacks of the calls that rtcheck_kernel.h maps, or says otherwise."""
    page = (TOP / "docs/PREPROCESSING.md").read_text()
    rows = {}
    for calls, what in re.findall(r"^\| (`ch[^|]*) \| ([^|]*) \|", page, re.M):
        rows.update({call: what for call in re.findall(r"`(ch\w+)`", calls)})
    kernel = (INCLUDE / "rtcheck_kernel.h").read_text()
    table = (INCLUDE / "rtcheck_ch.h").read_text()
    mapped = dict(re.findall(r"^#define (ch[A-Z]\w*)(?:\([^)]*\))?[ \\]+(?:\n *)?(.*)$", kernel, re.M))
    for call, body in mapped.items():
        what = rows.pop(call, None)
        outside = re.search(r"\brtcheck_ch\w+", body)
        if what is None:
            yield f"docs/PREPROCESSING.md has no row for {call}"
        elif outside and what != class_words(classes.get(outside[0])):
            known = class_words(classes.get(outside[0]))
            yield f"docs/PREPROCESSING.md says '{what}' of {call}, which becomes {outside[0]} of {known}"
        elif re.search(rf"\b{call}\(", table):
            yield f"{call} is in the table of kernel calls and mapped as well"
    for call in rows:
        yield f"docs/PREPROCESSING.md has a row for {call}, which rtcheck_kernel.h doesn't map"


def class_words(known):
    return "no class" if known is None else f"`{known[0]}`" + (", `wakes`" if known[1] else "")


def main():
    headers = [(h, prototypes(h)) for h in sorted(INCLUDE.glob("*.h")) if h.name != "rtcheck_ch.h"]
    names = [f for _, functions in headers for f in functions]
    faults = [f"{name} is under no comment that says its class" for name, known in names if known is None]
    faults += [f"{name} is declared twice" for name in {n for n, _ in names} if [n for n, _ in names].count(name) > 1]
    if sys.argv[1:] == ["--write"]:
        (INCLUDE / "hal.toml").write_text(settings_of(headers))
    if (INCLUDE / "hal.toml").read_text() != settings_of(headers):
        faults.append("include/hal.toml isn't what the headers say (tools/check_classes.py --write writes it anew)")
    faults += unknown_callbacks((INCLUDE / "callbacks.toml").read_text())
    faults += rows_of_the_page(dict(names))
    for fault in faults:
        print(fault)
    if not faults:
        print(f"{len(names)} functions without a body have their classes, and each mapped kernel call has its row")
    return 1 if faults else 0


if __name__ == "__main__":
    sys.exit(main())
