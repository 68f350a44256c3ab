"""A report for a reader: in a terminal, and as one page of HTML that needs nothing else."""

import html
from dataclasses import dataclass

from .gcc import gcc
from .report import Accepted, Place, Refused, Rejected
from .texts import KINDS
from .way import final_depth, way

WIDTH = 64


@dataclass
class Row:
    """A step with its source: what it is, its place, the file where that changes, the source's line, words, depth."""

    what: str
    place: object
    file: str
    source: str
    words: str
    depth: int


def rows_of(alarm, sources):
    """The way to an alarm, and the alarm."""
    file = ""
    steps = [(s.what, s.place, s.words, s.depth) for s in way(alarm)]
    steps.append(("alarm", alarm.place, f"{alarm.name}: {alarm.kind}", final_depth(alarm)))
    for what, place, words, depth in steps:
        source, told = "", ""
        if place is not None:
            source = (sources.text(place) or "").strip()
            if place.name != file:
                file = told = place.name
        yield Row(what, place, told, source, words, depth)


def heading(number, alarm):
    return f"{number}. {alarm.kind} at {alarm.name}, from {alarm.entry}"


def term(report, sources):
    """The lines of the terminal's view."""
    if not isinstance(report, Rejected):
        yield from gcc(report)
        yield from pointed(report, sources)
        return
    for number, alarm in enumerate(report.alarms, 1):
        if number > 1:
            yield ""
        yield heading(number, alarm)
        yield f"   {KINDS[alarm.kind]}"
        for row in rows_of(alarm, sources):
            if row.file:
                yield f"   --- {row.file}"
            line = "" if row.place is None else str(row.place.line)
            mark = ">" if row.what == "alarm" else " "
            yield f"{mark}{line:>6} | {'  ' * row.depth + row.source:<{WIDTH}} {row.words}".rstrip()


def pointed(report, sources):
    """The source's line of a refusal, with a mark under its column."""
    if isinstance(report, Refused) and isinstance(report.at, Place):
        text = sources.text(report.at)
        if text is not None:
            yield f"{report.at.line:>6} | {text}"
            yield f"       | {' ' * (sources.column(report.at) - 1)}^"


STYLE = """
:root { color-scheme: light dark; --line: #8885; --dim: #777; --bad: #c00; --way: #06c; }
@media (prefers-color-scheme: dark) { :root { --bad: #ff7b72; --way: #79c0ff; --dim: #999; } }
body { font: 15px/1.5 system-ui, sans-serif; margin: 2rem auto; max-width: 75rem; padding: 0 1rem; }
h1 { font-size: 1.4rem; } h2 { font-size: 1.1rem; margin-bottom: 0; color: var(--bad); }
section { border-top: 1px solid var(--line); margin-top: 1.5rem; }
.scroll { overflow-x: auto; }
table { border-collapse: collapse; font: 13px/1.5 ui-monospace, monospace; width: 100%; }
td { padding: .1rem .6rem; vertical-align: top; white-space: pre; }
td.line { color: var(--dim); text-align: right; user-select: none; }
td.words { white-space: normal; min-width: 14rem; }
tr.file td { color: var(--dim); padding-top: .6rem; }
tr.choose td.words { color: var(--way); }
tr.alarm td { font-weight: bold; } tr.alarm td.words { color: var(--bad); }
pre { font: 13px/1.5 ui-monospace, monospace; }
"""


def title_of(report):
    if isinstance(report, Accepted):
        return "accepted"
    if isinstance(report, Rejected):
        return f"rejected: {len(report.alarms)} alarm" + ("s" if len(report.alarms) > 1 else "")
    return "not checked"


def page(report, sources):
    """The lines of the page. It has no script and fetches nothing."""
    title = html.escape(f"rtcheck: {title_of(report)}")
    yield "<!doctype html>"
    yield '<html lang="en">'
    yield f'<head><meta charset="utf-8"><title>{title}</title>'
    yield f'<meta name="viewport" content="width=device-width"><style>{STYLE}</style></head>'
    yield f"<body><h1>{title}</h1>"
    if isinstance(report, Rejected):
        for number, alarm in enumerate(report.alarms, 1):
            yield from section(number, alarm, sources)
    else:
        lines = list(gcc(report)) + list(pointed(report, sources))
        yield "<pre>" + html.escape("\n".join(lines)) + "</pre>"
    yield "</body></html>"


def section(number, alarm, sources):
    yield f'<section id="alarm-{number}"><h2>{html.escape(heading(number, alarm))}</h2>'
    yield f"<p>{html.escape(KINDS[alarm.kind])}</p>"
    yield '<div class="scroll"><table>'
    for row in rows_of(alarm, sources):
        if row.file:
            yield f'<tr class="file"><td></td><td colspan="2">{html.escape(row.file)}</td></tr>'
        line = "" if row.place is None else str(row.place.line)
        code = html.escape("  " * row.depth + row.source)
        yield (
            f'<tr class="{row.what}"><td class="line">{line}</td><td>{code}</td>'
            f'<td class="words">{html.escape(row.words)}</td></tr>'
        )
    yield "</table></div></section>"
