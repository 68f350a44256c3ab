"""The way to an alarm, step by step as it happens."""

from dataclasses import dataclass
from typing import Iterator, Optional

from .report import Alarm, Place


@dataclass
class Happening:
    """A step as it happens: its number from 1, how many calls are open, its words, and the function that it is in."""

    number: int
    depth: int
    what: str
    place: Optional[Place]
    words: str
    function: str


def words_of(step):
    """What a step says, but for a call."""
    if step.what == "enter":
        return f"calls {step.name}"
    if step.what == "act":
        return {"return": "returns", "thread return": "the thread returns", "entry": "begins"}.get(
            step.name, f"calls {step.name}"
        )
    first, _, number = step.name.partition(" ")
    if first in ("true", "false"):
        return f"takes the test as {first}"
    if first in ("case", "order"):
        return f"takes {first} {number}"
    if first == "default":
        return "takes the default"
    return "calls back no more" if first == "0" else f"calls back function {first}"


def way(alarm: Alarm) -> Iterator[Happening]:
    """The steps in order. A finished segment is unfolded where it is first called; a later call says where that
    was. So there are as many steps as the report has, however often a segment is cited."""
    unfolded, number = {}, 0
    leading = [k for k, part in enumerate(alarm.segments) if part.steps[-1].what != "return"]
    for depth, first in enumerate(leading):
        stack = [(iter(alarm.segments[first].steps), alarm.segments[first].function)]
        while stack:
            steps, function = stack[-1]
            step = next(steps, None)
            if step is None:
                stack.pop()
                continue
            if step.what in ("return", "alarm"):
                continue
            number += 1
            words = words_of(step) if step.what != "call" else f"calls {step.name}, which returns"
            if step.what == "call" and step.segment in unfolded:
                words += f" as in step {unfolded[step.segment]}"
            yield Happening(number, depth + len(stack) - 1, step.what, step.place, words, function)
            if step.what == "call" and step.segment not in unfolded:
                unfolded[step.segment] = number
                called = alarm.segments[step.segment - 1]
                stack.append((iter(called.steps), called.function))


def final_depth(alarm: Alarm) -> int:
    """How many calls are open at the alarm."""
    return sum(1 for part in alarm.segments if part.steps[-1].what != "return") - 1
