#!/usr/bin/env python3
"""Compares the meta-schemas of `crates/meta_schemas` with those that Python's `jsonschema` carries: python3 tools/meta_schemas.py [--suite FOLDER]

Both are asked by `jsonschema`, without formats, of each keyword of a draft with 25 values, alone and beside limits; of each schema of the
official suite; and of six copies of each, with one value of it replaced. It prints each schema that one refuses and the other accepts,
and ends with 1 if there is one, apart from `writeOnly` in draft 7: the standard has it (Validation draft 7, 10.3), and its meta-schema does
as it is published now, but the copy that `jsonschema` carries does not.
"""

import argparse
import copy
import glob
import json
import os
import random
import re
import sys

import jsonschema
import jsonschema_specifications
import referencing
from referencing.jsonschema import DRAFT4, DRAFT6, DRAFT7, DRAFT201909, DRAFT202012

SUITE = "/usr/share/json-schema-test-suite/tests"
SOURCES = os.path.join(os.path.dirname(__file__), "..", "crates", "meta_schemas", "src", "draft*.rt")
# a folder of the suite, the validator, the rule of references, and the prefix of the URIs
DRAFTS = [
    ("draft4", jsonschema.Draft4Validator, DRAFT4, "http://json-schema.org/draft-04/"),
    ("draft6", jsonschema.Draft6Validator, DRAFT6, "http://json-schema.org/draft-06/"),
    ("draft7", jsonschema.Draft7Validator, DRAFT7, "http://json-schema.org/draft-07/"),
    ("draft2019-09", jsonschema.Draft201909Validator, DRAFT201909, "https://json-schema.org/draft/2019-09/"),
    ("draft2020-12", jsonschema.Draft202012Validator, DRAFT202012, "https://json-schema.org/draft/2020-12/"),
]
VALUES = [None, True, False, 0, -1, 1.5, 1.0, -0.5, 2**70, "x", "", "#a", "^(", [], ["a"], ["a", "a"], [1], [{}], [True],
          {}, {"a": 1}, {"a": True}, {"a": ["b"]}, {"a": ["b", "b"]}, {"a": {"type": 1}}]


def texts():
    """The texts of the crate's meta-schemas."""
    for path in sorted(glob.glob(SOURCES)):
        with open(path, encoding="utf-8") as file:
            yield from re.findall(r'r##"(.*?)"##', file.read(), re.DOTALL)


def read_documents():
    """The crate's meta-schemas by their URIs."""
    documents = map(json.loads, texts())
    return {(document.get("$id") or document["id"]).split("#")[0]: document for document in documents}


def paths_in(value, path=()):
    """The paths to all values in a value."""
    yield path
    steps = value if isinstance(value, dict) else range(len(value)) if isinstance(value, list) else ()
    for step in steps:
        yield from paths_in(value[step], (*path, step))


def replaced(value, path, by):
    """A copy of a value with another one at a path."""
    if not path:
        return by
    value = copy.copy(value)
    value[path[0]] = replaced(value[path[0]], path[1:], by)
    return value


def schemas_of(folder):
    """The schemas of a draft in the suite."""
    for root, _, names in sorted(os.walk(folder)):
        for name in sorted(name for name in names if name.endswith(".json")):
            with open(os.path.join(root, name), encoding="utf-8") as file:
                yield from (group["schema"] for group in json.load(file))


def cases_of(names, folder):
    """What both are asked of."""
    yield from VALUES
    for name in names:
        for value in VALUES:
            yield {name: value}
            yield {"maximum": 1, "minimum": 1, name: value}
    for schema in schemas_of(folder):
        yield schema
        paths = list(paths_in(schema))
        for _ in range(6):
            yield replaced(schema, random.choice(paths), random.choice(VALUES))


def is_known(folder, schema):
    """Whether the difference is the one that is known."""
    return folder == "draft7" and isinstance(schema, dict) and "writeOnly" in schema


def main():
    parser = argparse.ArgumentParser(description=__doc__, formatter_class=argparse.RawDescriptionHelpFormatter)
    parser.add_argument("--suite", default=SUITE, metavar="FOLDER", help=f"the suite's tests; without it, {SUITE}")
    given = parser.parse_args()
    random.seed(1)
    ours = read_documents()
    theirs = jsonschema_specifications.REGISTRY
    cases = refused = known = differ = 0
    for folder, validator, rule, prefix in DRAFTS:
        resources = [(uri, referencing.Resource(document, rule)) for uri, document in ours.items() if uri.startswith(prefix)]
        our = validator(ours[prefix + "schema"], registry=referencing.Registry().with_resources(resources))
        their = validator(validator.META_SCHEMA)
        documents = [document for uri, document in ours.items() if uri.startswith(prefix)]
        documents += [theirs.contents(uri) for uri in theirs if uri.startswith(prefix)]
        names = sorted({name for document in documents for name in document["properties"]})
        for schema in cases_of(names, os.path.join(given.suite, folder)):
            wanted = their.is_valid(schema)
            cases += 1
            refused += not wanted
            if our.is_valid(schema) != wanted and is_known(folder, schema):
                known += 1
            elif our.is_valid(schema) != wanted:
                differ += 1
                print(f"{folder}: wanted {json.dumps(wanted)} of {json.dumps(schema)}")
    print(f"{cases} schemas, {refused} refused by both; {known} refused here alone, for writeOnly in draft 7; {differ} differ")
    sys.exit(1 if differ else 0)


if __name__ == "__main__":
    main()
