#!/usr/bin/env python3
"""Rows of test_check_rows whose builds are counted: python3 tools/reference_rows.py KIND N [unchecked|map]

It prints a row, on one line, of a schema with N definitions, spelled out. Each is referred to once from a member of `properties`: by a
`pointer`, by a `name`, each definition having an `$anchor`, or by an `identifier`, each having an `$id` and an `$anchor`. In a `chain` each
is a pointer to the next. The row asks for the errors of an instance that the first two definitions refuse; for a chain there are
none. With `unchecked` the meta validators do not check the schema. With `map` the map of the schema's validators is built, and the
row asks for the draft of its entry for the root.
"""

import json
import sys


def reference(kind, number):
    """The reference to a definition."""
    if kind == "pointer":
        return f"#/$defs/d{number}"
    if kind == "name":
        return f"#a{number}"
    return f"http://x/d{number}#a"


def definition(kind, number):
    """A definition."""
    if kind == "chain":
        return {"$ref": f"#/$defs/d{number + 1}"}
    if kind == "name":
        return {"$anchor": f"a{number}", "type": "integer"}
    if kind == "identifier":
        return {"$id": f"http://x/d{number}", "$anchor": "a", "type": "integer"}
    return {"type": "integer"}


def schema(kind, count):
    """The schema with so many definitions, and one more behind them that all accept."""
    referred = range(0 if kind == "chain" else count)
    members = {f"p{number}": {"$ref": reference(kind, number)} for number in referred}
    members["p"] = {"$ref": "#/$defs/d0"}
    definitions = {f"d{number}": definition(kind, number) for number in range(count)}
    definitions[f"d{count}"] = {}
    return {"properties": members, "$defs": definitions}


def error(kind, number, text):
    """The error of a member. Its schema path begins at the definition where this has an `$id`."""
    name, at = f"p{number}", "" if kind == "identifier" else f"/$defs/d{number}"
    return [f"/{name}", f"{at}/type", f"/properties/{name}/$ref/type", f'"{text}" is not of type "integer"']


def row(kind, count, way):
    """The row."""
    made = {"name": "_".join(["references", kind, str(count), *way]), "schema": schema(kind, count)}
    if way == ["map"]:
        return {**made, "call": "map_draft", "entry": "#", "want": 2020}
    errors = [error(kind, 0, "a"), error(kind, 1, "b")]
    wanted = [] if kind == "chain" else errors[:count]
    made |= {"call": "iter_errors", "instance": {"p0": "a", "p1": "b"}, "want": wanted}
    return {**made, "check": False} if way else made


def main(words):
    kinds, ways = ["pointer", "name", "identifier", "chain"], ([], ["unchecked"], ["map"])
    if len(words) < 2 or words[0] not in kinds or not words[1].isdigit() or words[2:] not in ways:
        sys.exit(__doc__)
    print(json.dumps(row(words[0], int(words[1]), words[2:]), separators=(",", ":")))


main(sys.argv[1:])
