"""The report of `rtcheck check` as a value, exactly by docs/REPORT.md: `parse` and `unparse` are inverses, and
whatever isn't a whole report is a NotWhole."""

import re
from dataclasses import dataclass, field
from typing import List, Optional, Tuple, Union

from .texts import KINDS, REFUSALS, SETTINGS_KINDS


class NotWhole(Exception):
    """What was read isn't a whole report."""


@dataclass(frozen=True)
class Place:
    """A place in a source; the column counts bytes."""

    name: str
    line: int
    column: int

    def __str__(self):
        return f"{self.name}:{self.line}:{self.column}"


@dataclass
class Step:
    """What a step does (act, choose, call, enter, return or alarm), where, to what, and a call's segment from 1."""

    what: str
    place: Optional[Place] = None
    name: str = ""
    segment: int = 0


@dataclass
class Segment:
    function: str
    steps: List[Step] = field(default_factory=list)


@dataclass
class Alarm:
    kind: str
    place: Optional[Place]
    name: str
    entry: str
    segments: List[Segment]


@dataclass
class Accepted:
    files: int
    functions: int
    entries: int


@dataclass
class Rejected:
    alarms: List[Alarm]


@dataclass
class Refused:
    """The number of the refusal, and its place: a place in a file, the name of a whole file, or None."""

    number: int
    at: Union[Place, str, None]


@dataclass
class Settings:
    key: str
    kind: str


Report = Union[Accepted, Rejected, Refused, Settings]
STATUS = {Accepted: 0, Rejected: 1, Refused: 2, Settings: 4}

NUMBER = r"(?:0|[1-9][0-9]{0,18})"
NAME = r"[A-Za-z_][A-Za-z0-9_]*"
PLACE = rf"(-|.*:{NUMBER}:{NUMBER})"
ENTRY = rf"(main|timer|(?:thread|vector) {NAME}|callback {NAME}\.{NAME})"
CALLED = rf"({NAME}|thread return)"
STEPS = {
    "act": rf"  act {PLACE} {CALLED}",
    "choose": rf"  choose {PLACE} (true|false|default|(?:case |order )?{NUMBER})",
    "call": rf"  call {PLACE} ({NAME}) ({NUMBER})",
    "enter": rf"  enter {PLACE} ({NAME})",
}
ALARM = rf"alarm ({NUMBER}) (\S+) {PLACE} {CALLED}"
COUNTS = rf"files ({NUMBER}) functions ({NUMBER}) entries ({NUMBER})"


def place_of(text):
    """The place that is printed so; None for -."""
    if text == "-":
        return None
    name, line, column = text.rsplit(":", 2)
    return Place(name, int(line), int(column))


def show(place):
    return "-" if place is None else str(place)


class Lines:
    """The lines of a report, one after the other."""

    def __init__(self, raw: bytes):
        text = raw.decode("utf-8", "surrogateescape")
        if not text.endswith("\n"):
            raise NotWhole("it doesn't end with a line feed")
        self.lines = text[:-1].split("\n")
        self.next = 0

    def peek(self):
        return self.lines[self.next] if self.next < len(self.lines) else None

    def take(self, pattern, what) -> Tuple[str, ...]:
        line = self.peek()
        found = None if line is None else re.fullmatch(pattern, line, re.S)
        if not found:
            raise NotWhole(f"line {self.next + 1} has to be {what}")
        self.next += 1
        return found.groups()


def parse(raw: bytes) -> Report:
    lines = Lines(raw)
    lines.take("rtcheck 1", "`rtcheck 1`")
    head = lines.peek() or ""
    if head.startswith("unsupported "):
        report = refused(lines)
    elif head.startswith("settings "):
        report = Settings(*lines.take(rf"settings (.+) ({'|'.join(SETTINGS_KINDS)})", "a fault of the settings"))
    elif head.startswith("rejected "):
        report = rejected(lines)
    else:
        lines.take("accepted", "a verdict")
        report = Accepted(*map(int, lines.take(COUNTS, "the counts")))
    if lines.peek() is not None:
        raise NotWhole(f"line {lines.next + 1} is after its end")
    return report


def refused(lines):
    number, rest = lines.take(rf"unsupported U({NUMBER}) (.*)", "a refusal")
    words = REFUSALS.get(int(number), ("",))[0]
    if not words or not rest.endswith(" " + words):
        raise NotWhole(f"U{number} has other words")
    at = rest[: -len(words) - 1]
    if re.fullmatch(PLACE, at, re.S):
        return Refused(int(number), place_of(at))
    return Refused(int(number), at)


def rejected(lines):
    (count,) = lines.take(rf"rejected ([1-9][0-9]{{0,18}})", "the number of alarms")
    return Rejected([alarm(lines, number) for number in range(1, int(count) + 1)])


def alarm(lines, number):
    told, kind, place, name = lines.take(ALARM, f"alarm {number}")
    if int(told) != number or kind not in KINDS:
        raise NotWhole(f"line {lines.next} has another number or kind")
    (entry,) = lines.take(f"entry {ENTRY}", "the entry")
    segments = []
    while not segments or segments[-1].steps[-1].what != "alarm":
        segments.append(segment(lines, segments))
    check_cited(segments)
    return Alarm(kind, place_of(place), name, entry, segments)


def segment(lines, before):
    """The next segment, up to its return, its enter or its alarm. Finished ones are before the others."""
    (function,) = lines.take(rf"segment {len(before) + 1} ({NAME}|\[(?:{ENTRY[1:-1]})\])", f"segment {len(before) + 1}")
    found = Segment(function)
    while not found.steps or found.steps[-1].what not in ("return", "enter", "alarm"):
        found.steps.append(step(lines, before))
    if found.steps[-1].what == "return" and any(s.steps[-1].what != "return" for s in before):
        raise NotWhole(f"line {lines.next} ends a segment after those that lead to the alarm")
    return found


def step(lines, before):
    line = lines.peek() or ""
    if line in ("  return", "  alarm"):
        lines.next += 1
        return Step(line.strip())
    what = line[2:].split(" ", 1)[0]
    if what not in STEPS:
        raise NotWhole(f"line {lines.next + 1} has to be a step")
    place, name, *rest = lines.take(STEPS[what], f"a step `{what}`")
    cited = int(rest[0]) if rest else 0
    if what == "call" and not (1 <= cited <= len(before) and before[cited - 1].steps[-1].what == "return"):
        raise NotWhole(f"line {lines.next} cites a segment that isn't finished before it")
    return Step(what, place_of(place), name, cited)


def check_cited(segments):
    cited = {s.segment for part in segments for s in part.steps if s.what == "call"}
    for number, part in enumerate(segments, 1):
        if part.steps[-1].what == "return" and number not in cited:
            raise NotWhole(f"segment {number} of an alarm is cited nowhere")


def unparse(report: Report) -> bytes:
    """The report's text."""
    lines = ["rtcheck 1"]
    if isinstance(report, Accepted):
        lines += ["accepted", f"files {report.files} functions {report.functions} entries {report.entries}"]
    elif isinstance(report, Settings):
        lines.append(f"settings {report.key} {report.kind}")
    elif isinstance(report, Refused):
        at = "-" if report.at is None else str(report.at)
        lines.append(f"unsupported U{report.number} {at} {REFUSALS[report.number][0]}")
    else:
        lines.append(f"rejected {len(report.alarms)}")
        for number, found in enumerate(report.alarms, 1):
            lines += alarm_lines(number, found)
    return "".join(line + "\n" for line in lines).encode("utf-8", "surrogateescape")


def alarm_lines(number, found):
    yield f"alarm {number} {found.kind} {show(found.place)} {found.name}"
    yield f"entry {found.entry}"
    for k, part in enumerate(found.segments, 1):
        yield f"segment {k} {part.function}"
        for s in part.steps:
            if s.what in ("return", "alarm"):
                yield f"  {s.what}"
            else:
                yield f"  {s.what} {show(s.place)} {s.name}" + (f" {s.segment}" if s.what == "call" else "")
