"""The structure of SARIF 2.1.0 (OASIS), as far as rtcheck-report writes it: each object's properties with their
types, those that have to be there, and what may stand in them. Any other property is a fault, as in the standard's
schema."""

import re

LEVELS = {"none", "note", "warning", "error"}
MESSAGE = {"text": (str, True)}
# type -> property -> (what it is, whether it has to be there); a list [x] is an array of x, {str: x} a map
TYPES = {
    "log": {"$schema": (str, False), "version": ({"2.1.0"}, True), "runs": (["run"], True)},
    "run": {
        "tool": ("tool", True),
        "columnKind": ({"utf16CodeUnits", "unicodeCodePoints"}, False),
        "originalUriBaseIds": ({str: "artifact"}, False),
        "invocations": (["invocation"], False),
        "results": (["result"], False),
    },
    "tool": {"driver": ("component", True)},
    "component": {"name": (str, True), "rules": (["rule"], False)},
    "rule": {
        "id": (str, True),
        "shortDescription": ("message", False),
        "defaultConfiguration": ("configuration", False),
        "help": ("message", False),
    },
    "configuration": {"level": (LEVELS, False)},
    "invocation": {"executionSuccessful": (bool, True), "toolExecutionNotifications": (["notification"], False)},
    "notification": {
        "message": ("message", True),
        "descriptor": ("reference", False),
        "level": (LEVELS, False),
        "locations": (["location"], False),
    },
    "reference": {"id": (str, True)},
    "result": {
        "message": ("message", True),
        "ruleId": (str, False),
        "ruleIndex": (int, False),
        "level": (LEVELS, False),
        "locations": (["location"], False),
        "partialFingerprints": ({str: str}, False),
        "codeFlows": (["flow"], False),
        "properties": (dict, False),
    },
    "flow": {"threadFlows": (["thread"], True)},
    "thread": {"locations": (["step"], True)},
    "step": {"location": ("location", False), "executionOrder": (int, False), "nestingLevel": (int, False)},
    "location": {
        "physicalLocation": ("physical", False),
        "logicalLocations": (["logical"], False),
        "message": ("message", False),
    },
    "physical": {"artifactLocation": ("artifact", True), "region": ("region", False)},
    "logical": {"name": (str, False), "kind": (str, False)},
    "artifact": {"uri": (str, False), "uriBaseId": (str, False), "description": ("message", False)},
    "region": {"startLine": (int, False), "startColumn": (int, False)},
    "message": MESSAGE,
}
NOT_EMPTY = {("flow", "threadFlows"), ("thread", "locations"), ("log", "runs")}
URI = re.compile(r"(?:file://)?(?:[A-Za-z0-9._~!$&'()*+,;=@/-]|%[0-9A-F]{2})*")


def faults(value, kind="log", at="log"):
    """What is wrong with a value of a type, each with its place."""
    if isinstance(kind, str):
        yield from object_faults(value, kind, at)
    elif isinstance(kind, list):
        if not isinstance(value, list):
            yield f"{at} is no array"
            return
        for k, element in enumerate(value):
            yield from faults(element, kind[0], f"{at}[{k}]")
    elif isinstance(kind, dict):
        for name, element in value.items():
            yield from faults(element, kind[str], f"{at}.{name}")
    elif isinstance(kind, set):
        if value not in kind:
            yield f"{at} may not be {value!r}"
    elif not isinstance(value, kind) or (kind is int and (isinstance(value, bool) or value < 0)):
        yield f"{at} is of another type"


def object_faults(value, kind, at):
    if not isinstance(value, dict):
        yield f"{at} is no object"
        return
    for name, (inside, needed) in TYPES[kind].items():
        if name in value:
            yield from faults(value[name], inside, f"{at}.{name}")
            if (kind, name) in NOT_EMPTY and not value[name]:
                yield f"{at}.{name} is empty"
        elif needed:
            yield f"{at}.{name} isn't there"
    for name in value.keys() - TYPES[kind].keys():
        yield f"{at}.{name} isn't in the standard's object"
    if kind == "region" and min(value.values()) < 1:
        yield f"{at} counts from 0"
    if kind == "artifact" and "uri" in value and not URI.fullmatch(value["uri"]):
        yield f"{at} is no reference to a URI"
    if kind == "run":
        yield from run_faults(value, at)


def run_faults(run, at):
    """What the parts of a run have to say of each other."""
    rules = [rule["id"] for rule in run["tool"]["driver"].get("rules", [])]
    if len(set(rules)) < len(rules):
        yield f"{at} has two rules of one id"
    for k, result in enumerate(run.get("results", [])):
        if rules[result["ruleIndex"]] != result["ruleId"]:
            yield f"{at}.results[{k}] has the index of another rule"
    bases = run.get("originalUriBaseIds", {})
    for base in bases_of(run.get("results", [])) | bases_of(run.get("invocations", [])):
        if base not in bases:
            yield f"{at} has no base {base}"


def bases_of(value):
    """All uriBaseIds in a value."""
    if isinstance(value, dict):
        own = {value["uriBaseId"]} if "uriBaseId" in value else set()
        return own.union(*map(bases_of, value.values()))
    return set().union(*map(bases_of, value)) if isinstance(value, list) else set()
