"""What a build compiles: the C sources with the words for their preprocessor, from `make -n` or a compilation
database."""

import json
import os
import re
import shlex
from dataclasses import dataclass
from typing import Dict, Iterator, List, Tuple


@dataclass
class Source:
    """A source by its whole path, and its words -D, -U, -I and -include, each written as one word, with whole
    paths."""

    path: str
    words: List[str]


class Unreadable(Exception):
    """The compilation database isn't one."""


# words with a value after them that names no source
VALUED = {"-o", "-x", "-MF", "-MT", "-MQ", "-Xlinker", "-Xassembler", "-T", "-arch", "-target", "--param"}
# commands that only say what a compiler's line is, as ChibiOS's rules do
SAYING = {"echo", "printf", "true", "false", ":", "test", "["}
FOLDERS = ("-I", "-isystem", "-iquote", "-idirafter")


def of_make(text: str, here: str) -> Iterator[Tuple[str, List[str]]]:
    """The commands of `make -n`, each with the folder that it is run in."""
    folders = [here]
    for line in text.replace("\\\n", " ").split("\n"):
        moved = re.match(r"^\S*make\S*: (Entering|Leaving) directory [`'\"](.*)['\"]$", line)
        if moved and moved[1] == "Entering":
            folders.append(moved[2])
        elif moved:
            folders = folders[:-1] or [here]
        else:
            yield from commands_of_line(line, folders[-1])


def commands_of_line(line, folder):
    """The commands of a shell's line, where `cd FOLDER` moves those after it."""
    words = shlex.shlex(line, posix=True, punctuation_chars=";&|()<>")
    words.whitespace_split = True
    words.commenters = ""
    command = []
    try:
        for word in [*words, ";"]:
            if word and set(word) <= set(";&|()"):
                if command[:1] == ["cd"] and len(command) == 2:
                    folder = os.path.join(folder, command[1])
                elif command:
                    yield folder, command
                command = []
            else:
                command.append(word)
    except ValueError:  # a quote without its end, as in a message that is echoed
        return


def of_database(text: str) -> Iterator[Tuple[str, List[str]]]:
    """The commands of a compile_commands.json, each with its folder."""
    try:
        for entry in json.loads(text):
            words = entry["arguments"] if "arguments" in entry else shlex.split(entry["command"])
            yield entry["directory"], words
    except (ValueError, KeyError, TypeError) as why:
        raise Unreadable(str(why)) from why


def sources_of(commands: Iterator[Tuple[str, List[str]]]) -> Tuple[Dict[str, Source], List[str]]:
    """The C sources that the commands compile, the first command of each, and the sources that are compiled again
    otherwise."""
    found, again = {}, []
    for folder, words in commands:
        if "-c" not in words or os.path.basename(words[0]) in SAYING:
            continue
        flags, names = flags_of(words[1:], folder)
        for name in names:
            path = whole(name, folder)
            source = Source(path, flags)
            if path in found and found[path] != source:
                again.append(path)
            found.setdefault(path, source)
    return found, again


def whole(name, folder):
    return os.path.normpath(os.path.join(folder, name))


def flags_of(words, folder):
    """The preprocessor's words of a command, and the names of its C sources."""
    flags, names, rest = [], [], list(words)
    while rest:
        word = rest.pop(0)
        option = next((o for o in (*FOLDERS, "-include", "-D", "-U") if word.startswith(o)), None)
        if option is not None:
            value = word[len(option) :] or (rest.pop(0) if rest else "")
            if option in FOLDERS:
                flags.append("-I" + whole(value, folder))
            elif option == "-include":
                at = whole(value, folder)
                flags.append("-include" + (at if os.path.exists(at) else value))
            else:
                flags.append(option + value)
        elif word in VALUED:
            rest[:1] = []
        elif word.endswith(".c") and not word.startswith("-"):
            names.append(word)
    return flags, names
