#!/usr/bin/env python3
"""The schemas and instances that docs/PERFORMANCE.md counts and measures: python3 tools/cases.py [NAME SIZE]

Without words it lists the names and the sizes that are counted. With a name and a size it prints the schema, the instance and, where
there is one, the fourth word of engine_bench, a line each. The cases of STANDARD_CASES are for test_check_rows: their keywords are the
standard's, which engine_bench has not. Those of REAL_CASES are written from what people validate, and for the command.
"""

import json
import sys

# Linux gives a program no word that is longer
LONGEST_WORD = 131071


def text_of(value):
    """The value as JSON without spaces."""
    return json.dumps(value, separators=(",", ":"))


class Case:
    """A schema, an instance, an instance of its kind with nothing in it, and the words that engine_bench takes after an instance.
    `apart` names the modes that it is not counted in."""

    def __init__(self, schema, instance, empty, more=(), apart=()):
        self.schema = text_of(schema)
        self.instance = text_of(instance)
        self.empty = text_of(empty)
        self.more = list(more)
        self.apart = frozenset(apart)

    def words(self):
        return [self.schema, self.instance, *self.more]

    def too_long(self):
        """Whether a word does not fit into a call of a program."""
        return any(len(word.encode()) > LONGEST_WORD for word in self.words())


def records_under_one_schema(size, value, beside={}):
    """An array of records, with the member `v` that `value` gives for a record's number; `beside` are more keywords of the array's schema."""
    entry = {
        "type": "object",
        "required": ["id", "name", "tags"],
        "properties": {
            "id": {"type": "integer"},
            "name": {"type": "string", "minLength": 1},
            "tags": {"type": "array", "items": {"type": "string"}},
            "v": {"anyOf": [{"type": "string"}, {"type": "integer"}]},
        },
    }
    schema = {"type": "array", "items": {"$ref": "#/$defs/e"}, **beside, "$defs": {"e": entry}}
    instance = [{"id": k, "name": f"n{k}", "tags": ["a", "b"], "v": value(k)} for k in range(size)]
    return Case(schema, instance, [])


def objects(size):
    """Records under one schema that is referred to, all accepted."""
    return records_under_one_schema(size, lambda k: k if k % 2 else "x")


def objects_one(size):
    """The same, with one keyword in the schema that is not monotone."""
    return records_under_one_schema(size, lambda k: k if k % 2 else "x", {"oneOf": [{"minItems": 1}, {"type": "object"}]})


def objects_refused(size):
    """The same, with every tenth record refused."""
    return records_under_one_schema(size, lambda k: None if k % 10 == 0 else k if k % 2 else "x")


def wide(size):
    """An object of so many members, each with a schema of its own."""
    members = [f"p{k}" for k in range(size)]
    return Case({"properties": {name: {"type": "integer"} for name in members}}, {name: 1 for name in members}, {})


def names(size):
    """The names of so many members, each asked."""
    return Case({"propertyNames": {"minLength": 1}}, {f"p{k}": 1 for k in range(size)}, {})


def deep(size):
    """A schema that refers to itself, and an instance so deep."""
    instance = {}
    for _ in range(size):
        instance = {"n": instance}
    return Case({"properties": {"n": {"$ref": "#"}}}, instance, {})


def tree(size):
    """A schema that refers to itself, and so many nodes, each with a list of at most three of them."""
    nodes = [{} for _ in range(size)]
    for k in range(1, size):
        nodes[(k - 1) // 3].setdefault("nodes", []).append(nodes[k])
    return Case({"type": "object", "properties": {"nodes": {"type": "array", "items": {"$ref": "#"}}}}, nodes[0], {})


def refusing(size):
    """An instance with an array of 200 numbers that so many alternatives, one inside another, refuse."""
    schema = {"type": "string"}
    for _ in range(size):
        schema = {"anyOf": [schema, {"type": "null"}]}
    return Case(schema, {"a": list(range(200))}, {})


def unfinished(size):
    """So many texts, each of which asks a match that stays unfinished and is accepted all the same."""
    schema = {"items": {"anyOf": [{"pattern": "P"}, {"type": "string"}]}}
    return Case(schema, [f"s{k}" for k in range(size)], [], [text_of(["P"])])


def chain(size):
    """So many definitions, each with a member that refers to the next; they are built, and asked of 1."""
    definitions = {f"c{k}": {"properties": {"x": {"$ref": f"#/$defs/c{k + 1}"}}} for k in range(size)}
    definitions[f"c{size}"] = {}
    return Case({"$ref": "#/$defs/c0", "$defs": definitions}, 1, 1)


def records(size):
    """Small records, each refused through two references."""
    schema = {
        "type": "array",
        "items": {"$ref": "#/$defs/entry"},
        "$defs": {
            "entry": {"type": "object", "properties": {"value": {"$ref": "#/$defs/leaf"}}},
            "leaf": {"type": "integer"},
        },
    }
    return Case(schema, [{"value": "no"}] * size, [])


# where every way through the definitions shows, a list has one for each; and no instance makes them cost nothing
ONE_VERDICT = ("list", "run-allocations")
ONE_REFUSAL = ("errors", *ONE_VERDICT)


def around(size, keyword, beside=(), also=()):
    """So many definitions, each with references to all of them under a keyword, the first of which is referred to."""
    each = {keyword: [{"$ref": f"#/$defs/d{k}"} for k in range(size)] + list(also), **dict(beside)}
    return {"$ref": "#/$defs/d0", "$defs": {f"d{k}": each for k in range(size)}}


def cycles(size):
    """So many definitions, each of which is all of them; they accept."""
    return Case(around(size, "allOf"), "x", "", apart=ONE_VERDICT)


def cycles_object(size):
    """The same, with an object without members."""
    return Case(around(size, "allOf"), {}, {}, apart=ONE_VERDICT)


def cycles_typed(size):
    """The same, each with a type that refuses beside."""
    return Case(around(size, "allOf", {"type": "integer"}), "x", "", apart=ONE_REFUSAL)


def cycles_last(size):
    """The same, with the type in the last one alone."""
    schema = around(size, "allOf")
    schema["$defs"][f"d{size - 1}"] = {**schema["$defs"]["d0"], "type": "integer"}
    return Case(schema, "x", "", apart=ONE_REFUSAL)


def cycles_items(size):
    """So many texts, each asked of sixteen definitions, each of which is all of them."""
    schema = around(16, "allOf")
    schema["items"] = {"$ref": schema.pop("$ref")}
    return Case(schema, [f"t{k}" for k in range(size)], [], apart=("list",))


def cycles_any(size):
    """So many definitions, each of which is any of them or a string, with an object, which they accept."""
    return Case(around(size, "anyOf", also=[{"type": "string"}]), {}, {}, apart=ONE_VERDICT)


def cycles_any_typed(size):
    """The same, each with a type that refuses beside."""
    return Case(around(size, "anyOf", {"type": "integer"}), "x", "", apart=ONE_REFUSAL)


def ladder(size):
    """So many definitions, each of which refers twice to the next, and the last to a string."""
    rungs = {f"d{k}": {"allOf": [{"$ref": f"#/$defs/d{k + 1}"}] * 2} for k in range(size)}
    schema = {"$ref": "#/$defs/d0", "$defs": {**rungs, f"d{size}": {"type": "string"}}}
    return Case(schema, "x", "", apart=("errors", *ONE_VERDICT, "allocations"))


def ladder_one(size):
    """The same, each by a keyword that is not monotone."""
    rungs = {}
    for k in range(size):
        following = {"$ref": f"#/$defs/d{k + 1}"}
        rungs[f"d{k}"] = {"oneOf": [following, {"allOf": [following, False]}]}
    schema = {"$ref": "#/$defs/d0", "$defs": {**rungs, f"d{size}": {"type": "string"}}}
    return Case(schema, "x", "", apart=("errors", *ONE_VERDICT, "allocations"))


def enumeration(size):
    """So many texts, each among a hundred."""
    texts = [f"t{k}" for k in range(100)]
    return Case({"items": {"enum": texts}}, [texts[k % 100] for k in range(size)], [])


def unique_numbers(size):
    """So many numbers that differ, in no order."""
    return Case({"uniqueItems": True}, [k * 7919 % 10007 for k in range(size)], [])


def unique_texts(size):
    """So many texts that differ, in no order."""
    return Case({"uniqueItems": True}, [f"t{k * 7919 % 10007}" for k in range(size)], [])


def limits(size):
    """So many records with a number between two limits."""
    schema = {"items": {"properties": {"v": {"minimum": 0, "maximum": 100000}}}}
    return Case(schema, [{"v": k} for k in range(size)], [])


def multiples(size):
    """So many prices by a cent."""
    return Case({"items": {"multipleOf": 0.01}}, [(k * 37 % 10000 + 1) / 100 for k in range(size)], [])


def additional(size):
    """So many records of the six names that are allowed."""
    names = ("id", "name", "street", "town", "code", "note")
    schema = {"items": {"properties": {name: {} for name in names}, "additionalProperties": False}}
    return Case(schema, [{name: k for name in names} for k in range(size)], [])


def patterns(size):
    """An object of so many members, each of whose names one of three patterns is found in."""
    schema = {"patternProperties": {pattern: {"type": "integer"} for pattern in ("a", "b", "c")}}
    return Case(schema, {f"{'abc'[k % 3]}{k}": k for k in range(size)}, {})


# what a team that keeps a cloud in files writes of a resource: forty members, no others, names and values by lists and patterns
TAG = {"type": "string", "pattern": "^[a-z][a-z0-9-]*$", "maxLength": 63}
SIZES = {"enum": ["small", "medium", "large", "huge"]}


def cloud_schema():
    """A resource of forty members, with no others, three levels deep."""
    rule = {
        "type": "object",
        "required": ["protocol", "from"],
        "properties": {
            "protocol": {"enum": ["tcp", "udp", "icmp"]},
            "from": {"type": "integer", "minimum": 0, "maximum": 65535},
            "to": {"type": "integer", "minimum": 0, "maximum": 65535},
            "sources": {"type": "array", "items": {"type": "string", "pattern": "^[0-9.]+/[0-9]+$"}},
        },
        "additionalProperties": False,
    }
    network = {
        "type": "object",
        "required": ["subnet"],
        "properties": {
            "subnet": {"type": "string", "minLength": 1},
            "public": {"type": "boolean"},
            "rules": {"type": "array", "items": rule},
        },
        "additionalProperties": False,
    }
    properties = {
        "name": TAG,
        "region": {"enum": ["north-1", "north-2", "south-1", "west-1", "west-2"]},
        "size": SIZES,
        "network": network,
        "labels": {"type": "object", "additionalProperties": {"type": "string"}},
        "replicas": {"type": "integer", "minimum": 1, "maximum": 64},
    }
    for k in range(12):
        properties[f"flag_{k:02}"] = {"type": "boolean"}
        properties[f"limit_{k:02}"] = {"type": "integer", "minimum": 0}
    for k in range(10):
        properties[f"note_{k:02}"] = {"type": "string", "maxLength": 80}
    resource = {
        "type": "object",
        "required": ["name", "region", "size"],
        "properties": properties,
        "additionalProperties": False,
    }
    return {"type": "array", "items": resource}


def cloud_resource(k):
    """One that it accepts: with twenty of the members."""
    rules = [{"protocol": "tcp", "from": port, "to": port, "sources": ["10.0.0.0/8"]} for port in (80, 443)]
    resource = {
        "name": f"web-{k}",
        "region": "north-2",
        "size": "large",
        "network": {"subnet": f"net-{k % 7}", "public": k % 2 == 0, "rules": rules},
        "labels": {"team": "shop", "stage": "live"},
        "replicas": 1 + k % 8,
    }
    for j in range(5):
        resource[f"flag_{j:02}"] = True
        resource[f"limit_{j:02}"] = 10 * j
    for j in range(4):
        resource[f"note_{j:02}"] = "kept by the night shift"
    return resource


def cloud(size):
    """So many resources of a cloud."""
    return Case(cloud_schema(), [cloud_resource(k) for k in range(size)], [])


def cloud_refused(size):
    """The same, the last with a member that is not allowed."""
    resources = [cloud_resource(k) for k in range(size)]
    resources[-1]["unknown"] = 1
    return Case(cloud_schema(), resources, [])


def api_schema():
    """A description of an interface: what is sent is described by a schema that refers to itself; where a parameter stands is told by
    a member that each alternative has another value for."""
    model = {
        "type": "object",
        "properties": {
            "type": {"enum": ["object", "array", "string", "number", "integer", "boolean"]},
            "properties": {"type": "object", "additionalProperties": {"$ref": "#/definitions/model"}},
            "items": {"$ref": "#/definitions/model"},
            "description": {"type": "string"},
        },
        "additionalProperties": False,
    }

    def parameter(place, more):
        properties = {"in": {"const": place}, "name": {"type": "string"}, "schema": {"$ref": "#/definitions/model"}, **more}
        return {"required": ["in", "name"], "properties": properties}

    flag = {"type": "boolean"}
    alternatives = [
        parameter("path", {"required": {"const": True}}),
        parameter("query", {"allowEmpty": flag}),
        parameter("header", {"deprecated": flag}),
    ]
    operation = {
        "type": "object",
        "required": ["responses"],
        "properties": {
            "summary": {"type": "string"},
            "parameters": {"type": "array", "items": {"oneOf": alternatives}},
            "body": {"$ref": "#/definitions/model"},
            "responses": {"type": "object", "additionalProperties": {"$ref": "#/definitions/model"}},
        },
    }
    methods = {name: {"$ref": "#/definitions/operation"} for name in ("get", "put", "post", "delete")}
    path = {"type": "object", "properties": methods, "additionalProperties": False}
    return {
        "type": "object",
        "required": ["title", "paths"],
        "properties": {"title": {"type": "string"}, "paths": {"type": "object", "additionalProperties": path}},
        "definitions": {"model": model, "operation": operation},
    }


def api_instance(size):
    """One that it accepts, of so many paths."""
    line = {"type": "object", "properties": {"sku": {"type": "string"}, "count": {"type": "integer"}}}
    order = {"type": "object", "properties": {"id": {"type": "string"}, "lines": {"type": "array", "items": line}}}
    place = {"in": "path", "name": "id", "required": True, "schema": {"type": "string"}}
    page = {"in": "query", "name": "page", "schema": {"type": "integer"}}
    trace = {"in": "header", "name": "trace", "schema": {"type": "string"}}
    get = {"summary": "one of them", "parameters": [place, page, trace], "responses": {"200": order, "404": {"type": "string"}}}
    put = {"summary": "keeps one", "parameters": [place], "body": order, "responses": {"204": {}}}
    return {"title": "orders", "paths": {f"/orders/{k:04}": {"get": get, "put": put} for k in range(size)}}


def api(size):
    """A description of an interface of so many paths."""
    return Case(api_schema(), api_instance(size), {"title": "orders", "paths": {}})


def api_refused(size):
    """The same, the last with a parameter that stands nowhere."""
    instance = json.loads(text_of(api_instance(size)))
    instance["paths"][f"/orders/{size - 1:04}"]["put"]["parameters"][0]["in"] = "cookie"
    return Case(api_schema(), instance, {"title": "orders", "paths": {}})


def build_schema():
    """A file that says how programs are built: targets by their names, and each in a short form or a long one."""
    words = {"type": "array", "items": {"type": "string", "minLength": 1}}
    command = {"anyOf": [{"type": "string"}, words]}
    target = {
        "type": "object",
        "required": ["run"],
        "properties": {
            "run": {"anyOf": [command, {"type": "array", "items": command}]},
            "needs": words,
            "sources": words,
            "cache": {"type": "boolean"},
        },
        "patternProperties": {"^env_": {"type": ["string", "number"]}, "^on_": command},
        "additionalProperties": False,
    }
    return {
        "type": "object",
        "required": ["version"],
        "properties": {"version": {"enum": [1, 2]}},
        "patternProperties": {"^[a-z][a-z0-9_-]*:": {"anyOf": [{"type": "string"}, target]}},
    }


def build_instance(size):
    """One that it accepts, of so many targets."""
    long = {
        "run": [["cc", "-c", "main.c"], "ld main.o"],
        "needs": ["setup:", "lint:"],
        "sources": ["main.c", "main.h"],
        "cache": True,
        "env_MODE": "fast",
        "env_JOBS": 4,
        "on_failure": "tell",
    }
    targets = {f"part{k:04}:": f"make {k}" if k % 4 == 0 else long for k in range(size)}
    return {"version": 2, **targets}


def build_file(size):
    """A build of so many targets."""
    return Case(build_schema(), build_instance(size), {"version": 2})


def build_file_refused(size):
    """The same, the last with a number among its words."""
    instance = json.loads(text_of(build_instance(size)))
    instance["zero:"] = {"run": "cc", "needs": ["setup:", 1]}
    return Case(build_schema(), instance, {"version": 2})


def measures_schema():
    """Records of numbers, each within its limits."""
    properties = {
        "at": {"type": "integer", "minimum": 0},
        "celsius": {"type": "number", "minimum": -90, "maximum": 60},
        "humidity": {"type": "number", "minimum": 0, "maximum": 100},
        "pressure": {"type": "number", "exclusiveMinimum": 300, "exclusiveMaximum": 1200},
        "step": {"type": "integer", "multipleOf": 5},
        "wind": {"type": "array", "minItems": 2, "maxItems": 2, "items": {"type": "number", "minimum": 0, "maximum": 400}},
    }
    record = {"type": "object", "required": list(properties), "properties": properties}
    return {"type": "array", "items": record}


def measure(k):
    """A record that they accept."""
    return {
        "at": 1600000000 + 60 * k,
        "celsius": k % 40 - 10.5,
        "humidity": k % 100,
        "pressure": 980.25 + k % 50,
        "step": 5 * (k % 12),
        "wind": [k % 30, k % 360],
    }


def measures(size):
    """So many records of numbers with limits."""
    return Case(measures_schema(), [measure(k) for k in range(size)], [])


def measures_refused(size):
    """The same, the last with a number that is too great."""
    records = [measure(k) for k in range(size)]
    records[-1]["humidity"] = 101
    return Case(measures_schema(), records, [])


# what makes a case of a size, and the sizes that are counted
CASES = {
    "objects": (objects, (500, 1000, 2000)),
    "objects-one": (objects_one, (500, 1000, 2000)),
    "objects-refused": (objects_refused, (500, 1000, 2000)),
    "wide": (wide, (250, 500, 1000)),
    "names": (names, (500, 1000, 2000)),
    "deep": (deep, (30, 60, 120)),
    "tree": (tree, (1000, 2000, 4000)),
    "refusing": (refusing, (10, 20, 40)),
    "unfinished": (unfinished, (100, 200, 400)),
    "chain": (chain, (100, 200, 400)),
    "records": (records, (1250, 2500, 5000)),
    "cycles": (cycles, (8, 16, 32)),
    "cycles-object": (cycles_object, (8, 16, 32)),
    "cycles-typed": (cycles_typed, (8, 16, 32)),
    "cycles-last": (cycles_last, (8, 16, 32)),
    "cycles-items": (cycles_items, (100, 200, 400)),
    "cycles-any": (cycles_any, (8, 16, 32)),
    "cycles-any-typed": (cycles_any_typed, (8, 16, 32)),
    "ladder": (ladder, (8, 16, 32)),
    "ladder-one": (ladder_one, (8, 16, 32)),
}
# the same, for the standard's keywords
STANDARD_CASES = {
    "enumeration": (enumeration, (1000, 2000)),
    "unique-numbers": (unique_numbers, (1000, 2000)),
    "unique-texts": (unique_texts, (1000, 2000)),
    "limits": (limits, (1000, 2000)),
    "multiples": (multiples, (1000, 2000)),
    "additional": (additional, (1000, 2000)),
    "patterns": (patterns, (1000, 2000)),
}
# what people validate, with regular expressions; for the command
REAL_CASES = {
    "cloud": (cloud, (100, 200, 400)),
    "cloud-refused": (cloud_refused, (100, 200, 400)),
    "api": (api, (100, 200, 400)),
    "api-refused": (api_refused, (100, 200, 400)),
    "build-file": (build_file, (250, 500, 1000)),
    "build-file-refused": (build_file_refused, (250, 500, 1000)),
    "measures": (measures, (1000, 2000, 4000)),
    "measures-refused": (measures_refused, (1000, 2000, 4000)),
}
ALL_CASES = {**CASES, **STANDARD_CASES, **REAL_CASES}


def case_of(name, size):
    """The case of a name, in a size."""
    return ALL_CASES[name][0](size)


def main():
    if len(sys.argv) == 1:
        for name, (_, sizes) in ALL_CASES.items():
            print(name, *sizes)
    elif len(sys.argv) == 3 and sys.argv[1] in ALL_CASES and sys.argv[2].isdigit():
        print("\n".join(case_of(sys.argv[1], int(sys.argv[2])).words()))
    else:
        sys.exit(__doc__)


if __name__ == "__main__":
    main()
