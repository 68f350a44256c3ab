"""What preprocessed texts declare, define and call, as far as settings are guessed from it. No verdict depends on
this."""

import re
from dataclasses import dataclass, field
from typing import Dict, Iterator, List, Set, Tuple

TOKEN = re.compile(r'"(?:[^"\\]|\\.)*"|\'(?:[^\'\\]|\\.)*\'|[A-Za-z_]\w*|\d[\w.]*|->|\.\.\.|[^\s\w]')
WORDS = set(
    "auto break case char const continue default do else enum extern for goto if inline int long register restrict "
    "return short signed sizeof static struct switch typedef unsigned void volatile while _Bool".split()
)


@dataclass(frozen=True)
class Token:
    text: str
    file: str
    line: int


@dataclass
class Texts:
    """Of all texts together: functions that are declared and defined, calls by name with their first place, and the
    members of function pointer type as struct -> members."""

    declared: Set[str] = field(default_factory=set)
    defined: Set[str] = field(default_factory=set)
    called: Dict[str, str] = field(default_factory=dict)
    members: Dict[str, Set[str]] = field(default_factory=dict)
    called_members: Set[str] = field(default_factory=set)
    pointers: Set[str] = field(default_factory=set)


def placed_lines(text: str, name: str) -> Iterator[Tuple[str, int, str]]:
    """The lines with the file and the number that the markers give them."""
    file, number = name, 1
    for line in text.split("\n"):
        marker = re.match(r'\s*#\s*(\d+)\s*"((?:[^"\\]|\\.)*)"', line)
        if marker:
            file, number = marker[2], int(marker[1])
        elif line.lstrip().startswith("#"):
            number += 1
        else:
            yield file, number, line
            number += 1


def tokens_of(text: str, name: str) -> List[Token]:
    return [Token(t, file, line) for file, line, row in placed_lines(text, name) for t in TOKEN.findall(row)]


def read(found: Texts, tokens: List[Token]):
    """Adds what a text has. At file scope what is between two semicolons or bodies is one declaration."""
    start, at = 0, 0
    while at < len(tokens):
        text = tokens[at].text
        if text == "{":
            end = closing(tokens, at)
            head = tokens[start:at]
            if head and head[-1].text == ")" and head[0].text != "typedef":
                found.defined.add(function_of(head))
                read_body(found, tokens[at + 1 : end])
                start = end + 1
            at = end
        elif text == ";":
            read_declaration(found, tokens[start:at])
            start = at + 1
        at += 1


def closing(tokens, at):
    """The brace that closes the one at a place."""
    depth = 0
    for k in range(at, len(tokens)):
        depth += {"{": 1, "}": -1}.get(tokens[k].text, 0)
        if depth == 0:
            return k
    return len(tokens) - 1


def function_of(head):
    """The name that is declared as a function: the one before the first parenthesis; or nothing."""
    for k, token in enumerate(head):
        if token.text == "(":
            name = head[k - 1].text if k else ""
            return name if re.match(r"[A-Za-z_]", name) and name not in WORDS else ""
        if token.text in ("=", "{"):
            return ""
    return ""


def read_declaration(found, tokens):
    texts = [t.text for t in tokens]
    if "{" in texts:
        read_members(found, tokens)
    elif texts[:1] == ["typedef"]:
        pointer = re.search(r"\( \* (\w+) \) \(", " ".join(texts))
        if pointer:
            found.pointers.add(pointer[1])
    elif texts:
        found.declared.add(function_of(tokens))
        found.declared.discard("")


def read_members(found, tokens):
    """The members of function pointer type of a struct, under its typedef name, its tag, or both."""
    texts = [t.text for t in tokens]
    if "struct" not in texts:
        return
    opening = texts.index("{")
    end = closing(tokens, opening)
    names = set(texts[opening - 1 : opening]) - {"struct"}
    if texts[0] == "typedef":
        names |= set(texts[end + 1 :])
    members = set()
    for member in " ".join(texts[opening + 1 : end]).split(";"):
        pointer = re.search(r"\( \* (\w+) (?:\[ \w* \] )?\) \(", member)
        words = member.split()
        if pointer:
            members.add(pointer[1])
        elif len(words) >= 2 and found.pointers & set(words[:-1]):
            members.add(words[-1])
    for name in names:
        if re.match(r"[A-Za-z_]", name):
            found.members.setdefault(name, set()).update(members)


def read_body(found, tokens):
    for before, token, after in zip([None, *tokens], tokens, [*tokens[1:], None]):
        if after is not None and after.text == "(" and re.match(r"[A-Za-z_]", token.text) and token.text not in WORDS:
            if before is not None and before.text in (".", "->"):
                found.called_members.add(token.text)
            else:
                found.called.setdefault(token.text, f"{token.file}:{token.line}")
