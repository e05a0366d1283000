"""Holds a JSON value to the schema that stands on docs/PLANNER.md, by the few words that it uses."""
import json
import os
import re

from .common import ROOT

TYPES = {"object": dict, "array": list, "string": str, "boolean": bool, "null": type(None)}


def schema():
    """The schema of the page."""
    with open(os.path.join(ROOT, "docs", "PLANNER.md"), encoding="utf-8") as page:
        return json.loads(re.search(r"```json\n(\{\n *\"\$schema\".*?)```", page.read(), re.S)[1])


def is_a(value, name):
    """Whether a value is of a type of JSON."""
    if name in ("number", "integer"):
        return not isinstance(value, bool) and isinstance(value, int if name == "integer" else (int, float))
    return isinstance(value, TYPES[name])


def faults(value, rule, whole, at):
    """Where a value is not as a rule says."""
    if "$ref" in rule:
        rule = whole["$defs"][rule["$ref"].removeprefix("#/$defs/")]
    types = rule.get("type", [])
    if types and not any(is_a(value, name) for name in ([types] if isinstance(types, str) else types)):
        return [f"{at} is no {types}: {value!r}"]
    found = [f"{at} is not one of its values: {value!r}"] * (value not in rule.get("enum", [value]))
    if isinstance(value, dict):
        known = rule.get("properties", {})
        found += [f"{at} has no {name}" for name in rule.get("required", []) if name not in value]
        found += [f"{at} has {name}, which is not told" for name in value if name not in known]
        found += [fault for name in value if name in known for fault in faults(value[name], known[name], whole, f"{at}.{name}")]
    if isinstance(value, list) and "items" in rule:
        found += [fault for k, item in enumerate(value) for fault in faults(item, rule["items"], whole, f"{at}[{k}]")]
    return found


def check(test, value, name):
    """Holds the answer of a command, or a refusal, to its part of the schema."""
    whole = schema()
    test.assertEqual(faults(value, whole["$defs"][name], whole, name), [])
    test.assertEqual(name, "refusal" if "refused" in value else value["command"])
