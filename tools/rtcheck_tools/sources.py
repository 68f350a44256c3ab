"""The sources that a report's places are in, as far as they are at hand."""

import re
from pathlib import Path

from .report import Place


def file_name(name):
    """The file's own name of one that is printed as a line marker has it: a backslash takes the next byte along, or
    three octal digits."""

    def plain(found):
        return bytes([int(found[1], 8) & 255]) if len(found[1]) == 3 else found[1]

    raw = re.sub(rb"\\([0-7]{3}|.)", plain, name.encode("utf-8", "surrogateescape"), flags=re.S)
    return raw.decode("utf-8", "surrogateescape")


class Sources:
    """Sources below a folder. One that isn't there has no lines, and its columns stay as they are."""

    def __init__(self, root="."):
        self.root = Path(root)
        self.read = {}

    def line(self, place):
        """The bytes of a place's line, or None."""
        if place.name not in self.read:
            try:
                self.read[place.name] = (self.root / file_name(place.name)).read_bytes().split(b"\n")
            except (OSError, ValueError):
                self.read[place.name] = []
        lines = self.read[place.name]
        return lines[place.line - 1].rstrip(b"\r") if 1 <= place.line <= len(lines) else None

    def text(self, place):
        """A place's line as it is shown, tabs as single blanks; None where it isn't at hand."""
        line = self.line(place)
        return None if line is None else line.decode("utf-8", "replace").replace("\t", " ")

    def column(self, place):
        """The column in characters of `text`, from 1."""
        line = self.line(place) or b""
        before = line[: place.column - 1]
        return len(before.decode("utf-8", "replace")) + (place.column - len(before))

    def utf16_column(self, place):
        """The column in units of UTF-16, from 1."""
        line = self.line(place) or b""
        before = line[: place.column - 1]
        units = len(before.decode("utf-8", "replace").encode("utf-16-le")) // 2
        return units + (place.column - len(before))

    def byte_place(self, place):
        """The place in bytes of one whose column is in units of UTF-16."""
        line = self.line(place)
        column = place.column
        for at in range(1, len(line) + 2 if line is not None else 1):
            if self.utf16_column(Place(place.name, place.line, at)) == place.column:
                column = at
                break
        return Place(place.name, place.line, column)
