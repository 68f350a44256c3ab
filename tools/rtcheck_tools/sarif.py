"""A report as SARIF 2.1.0, which code hosts show. Section numbers are those of the OASIS standard."""

import hashlib
from urllib.parse import quote, unquote_to_bytes

from .report import Accepted, Place, Rejected, Settings
from .sources import file_name
from .texts import KINDS, REFUSALS, SETTINGS_KINDS
from .way import final_depth, way

SCHEMA = "https://json.schemastore.org/sarif-2.1.0.json"
BASE = "SRCROOT"


def sarif(report, sources):
    """The log. A refusal is a failed execution without `results` (3.14.23): a host can't take it for no alarms."""
    run = {
        "tool": {"driver": {"name": "rtcheck", "rules": [rule(kind) for kind in KINDS]}},
        "columnKind": "utf16CodeUnits",
        "originalUriBaseIds": {BASE: {"description": {"text": "the folder that the sources' names start from"}}},
        "invocations": [{"executionSuccessful": isinstance(report, (Accepted, Rejected))}],
    }
    if isinstance(report, Rejected):
        prints = fingerprints(report.alarms)
        run["results"] = [result(alarm, prints[k], sources) for k, alarm in enumerate(report.alarms)]
    elif isinstance(report, Accepted):
        run["results"] = []
    else:
        run["invocations"][0]["toolExecutionNotifications"] = [notification(report, sources)]
    return {"$schema": SCHEMA, "version": "2.1.0", "runs": [run]}


def rule(kind):
    return {
        "id": kind,
        "shortDescription": {"text": KINDS[kind]},
        "defaultConfiguration": {"level": "error"},
        "help": {"text": f"{kind}: {KINDS[kind]}. See docs/STATES.md of rtcheck."},
    }


def result(alarm, fingerprint, sources):
    """A result (3.27). A host shows nothing that has no place, so where the alarm has none it is shown at the last
    step that has one, and the property `placed` says so."""
    steps = list(way(alarm))
    function = alarm.segments[-1].function
    shown = alarm.place or next((s.place for s in reversed(steps) if s.place), None)
    return {
        "ruleId": alarm.kind,
        "ruleIndex": list(KINDS).index(alarm.kind),
        "level": "error",
        "message": {"text": f"{alarm.name}: {KINDS[alarm.kind]} (from {alarm.entry})"},
        "locations": [location(shown, sources, function)],
        # the second is the one that GitHub goes by
        "partialFingerprints": {"rtcheckAlarm/v1": fingerprint, "primaryLocationLineHash": f"{fingerprint}:1"},
        "codeFlows": [{"threadFlows": [{"locations": list(flow(alarm, steps, sources))}]}],
        "properties": {"name": alarm.name, "entry": alarm.entry, "placed": alarm.place is not None},
    }


def flow(alarm, steps, sources):
    """The locations of a thread flow (3.38): the steps, and the alarm."""
    function = alarm.segments[-1].function
    happenings = [(s.place, s.function, s.words, s.depth) for s in steps]
    happenings.append((alarm.place, function, f"{alarm.kind} at {alarm.name}", final_depth(alarm)))
    for number, (place, inside, words, depth) in enumerate(happenings, 1):
        where = location(place, sources, inside, words)
        yield {"location": where, "executionOrder": number, "nestingLevel": depth}


def location(place, sources, function=None, words=None):
    """A location (3.28). Where there is no place it has its function alone."""
    found = {}
    if isinstance(place, str):
        found["physicalLocation"] = {"artifactLocation": artifact(place)}
    elif place is not None:
        region = {"startLine": place.line, "startColumn": sources.utf16_column(place)}
        found["physicalLocation"] = {"artifactLocation": artifact(place.name), "region": region}
    if function is not None:
        found["logicalLocations"] = [{"name": function, "kind": "function"}]
    if words is not None:
        found["message"] = {"text": words}
    return found


def artifact(name):
    """Where a file is: below the base, or at its own absolute name."""
    raw = file_name(name).encode("utf-8", "surrogateescape")
    if name.startswith("/"):
        return {"uri": "file://" + quote(raw, safe="/")}
    return {"uri": quote(raw, safe="/"), "uriBaseId": BASE}


def notification(report, sources):
    """A notification (3.58) of a refusal or a fault of the settings."""
    if isinstance(report, Settings):
        number, text = "settings", f"{report.key} {report.kind}: {SETTINGS_KINDS[report.kind]}"
        places = [location("rtcheck.toml", sources)]
    else:
        words, hint = REFUSALS[report.number]
        number, text = f"U{report.number}", f"{words}: {hint}"
        places = [] if report.at is None else [location(report.at, sources)]
    found = {"descriptor": {"id": number}, "level": "error", "message": {"text": text}}
    if places:
        found["locations"] = places
    return found


def fingerprints(alarms):
    """What an alarm is known by from run to run: its kind, file, function and call, and its number among such.
    Lines and paths may change."""
    seen, found = {}, []
    for alarm in alarms:
        file = "" if alarm.place is None else alarm.place.name
        key = "\0".join((alarm.kind, file, alarm.segments[-1].function, alarm.name))
        seen[key] = seen.get(key, 0) + 1
        text = f"{key}\0{seen[key]}".encode("utf-8", "surrogateescape")
        found.append(hashlib.sha256(text).hexdigest()[:32])
    return found


def alarms_of(log, sources):
    """The alarms that such a log tells, as (kind, place, name, entry), with the files' own names."""
    for found in log["runs"][0].get("results", []):
        told, place = found["properties"], None
        if told["placed"]:
            physical = found["locations"][0]["physicalLocation"]
            uri = physical["artifactLocation"]["uri"]
            raw = unquote_to_bytes(uri[len("file://") :] if uri.startswith("file://") else uri)
            region = physical["region"]
            place = Place(raw.decode("utf-8", "surrogateescape"), region["startLine"], region["startColumn"])
            place = sources.byte_place(place)
        yield found["ruleId"], place, told["name"], told["entry"]
