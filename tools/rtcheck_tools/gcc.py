"""A report as a compiler's messages, so that editors jump to its places: a line for each alarm, a note for each
step."""

import re

from .report import CALLED, ENTRY, PLACE, Accepted, Refused, Rejected, Settings, place_of
from .texts import KINDS, REFUSALS, SETTINGS_KINDS
from .way import way

TOOL = "rtcheck"
MESSAGE = re.compile(rf"(?:{TOOL}|{PLACE}): error: (\S+) at {CALLED}, from {ENTRY}: .*", re.S)


def gcc(report):
    """The lines. What has no place is at `rtcheck`."""
    if isinstance(report, Rejected):
        for alarm in report.alarms:
            yield f"{at(alarm.place)}: error: {alarm.kind} at {alarm.name}, from {alarm.entry}: {KINDS[alarm.kind]}"
            for step in way(alarm):
                yield f"{at(step.place)}: note: step {step.number}: {'  ' * step.depth}{step.words}"
    elif isinstance(report, Refused):
        words, hint = REFUSALS[report.number]
        yield f"{at(report.at)}: error: U{report.number} {words}"
        yield f"{at(report.at)}: note: {hint}"
    elif isinstance(report, Settings):
        yield f"rtcheck.toml: error: {report.key} {report.kind}"
        yield f"rtcheck.toml: note: {SETTINGS_KINDS[report.kind]}"
    elif isinstance(report, Accepted):
        counts = f"files {report.files} functions {report.functions} entries {report.entries}"
        yield f"{TOOL}: note: accepted: {counts}"


def at(place):
    return TOOL if place is None else str(place)


def alarms_of(lines):
    """The alarms that such lines tell, as (kind, place, name, entry)."""
    for line in lines:
        found = MESSAGE.fullmatch(line)
        if found:
            place, kind, name, entry = found.groups()
            yield kind, None if place is None else place_of(place), name, entry
