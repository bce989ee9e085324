#!/usr/bin/env python3
"""Asks for the check of spoilt schemas: python3 tools/spoilt.py PROGRAM [--suite FOLDER] [--seed N] [--cases N]

PROGRAM is bowtie_harness, as `rt run` leaves it in out/. A case is a schema of the official suite with one value of it replaced, which
Python's `jsonschema` refuses by the meta-schema of the draft, without formats. It has to be refused by the meta-schema (refusal 6), at a
place where `jsonschema` has an error. It prints each case that is not, and ends with 1 if there is one.
"""

import argparse
import copy
import json
import os
import random
import re
import sys

import jsonschema
import suite

VALIDATORS = {
    "draft4": jsonschema.Draft4Validator,
    "draft6": jsonschema.Draft6Validator,
    "draft7": jsonschema.Draft7Validator,
    "draft2019-09": jsonschema.Draft201909Validator,
    "draft2020-12": jsonschema.Draft202012Validator,
}
VALUES = [None, True, 0, -1, 1.5, "x", [], ["a", "a"], [1], {}, {"a": 1}, {"a": ["b", "b"]}, {"a": {"type": 1}}, [{}, {"items": 1}]]
# what decides how a document is read, and not whether its meta-schema accepts it
READING = ("$schema", "$id", "id", "$ref", "$dynamicRef", "$recursiveRef", "$vocabulary")


def paths_in(value, path=()):
    """The paths to all values in a schema but those that decide how it is read."""
    yield path
    steps = value if isinstance(value, dict) else range(len(value)) if isinstance(value, list) else ()
    for step in steps:
        if step not in READING:
            yield from paths_in(value[step], (*path, step))


def replaced(value, path, by):
    """A copy of a value with another one at a path."""
    if not path:
        return by
    value = copy.copy(value)
    value[path[0]] = replaced(value[path[0]], path[1:], by)
    return value


def pointer(path):
    return "".join("/" + str(step).replace("~", "~0").replace("/", "~1") for step in path)


def places_of(draft, schema):
    """Where the draft's meta-schema refuses a schema."""
    validator = VALIDATORS[draft]
    return {pointer(error.absolute_path) for error in validator(validator.META_SCHEMA).iter_errors(schema)}


def passes(schema):
    """Whether a schema is one that no meta-schema is asked about: a boolean, or an object without members."""
    return isinstance(schema, bool) or schema == {}


def spoilt(schemas):
    """A spoilt schema, its draft, and where it is refused."""
    while True:
        draft, schema = random.choice(schemas)
        schema = replaced(schema, random.choice(list(paths_in(schema))), random.choice(VALUES))
        places = places_of(draft, schema)
        if places and not passes(schema):
            return draft, schema, places


def is_refused(reply, places):
    """Whether a schema is refused by the meta-schema at one of these places."""
    found = re.match(r"refusal 6 at '(.*?)', by ", reply.get("context", {}).get("message", ""), re.DOTALL)
    return found is not None and found.group(1) in places


def main():
    parser = argparse.ArgumentParser(description=__doc__, formatter_class=argparse.RawDescriptionHelpFormatter)
    parser.add_argument("program", help="the built bowtie_harness")
    parser.add_argument("--suite", default=suite.SUITE, metavar="FOLDER", help=f"the suite; without it, {suite.SUITE}")
    parser.add_argument("--seed", type=int, default=1, metavar="N")
    parser.add_argument("--cases", type=int, default=200, metavar="N")
    given = parser.parse_args()
    random.seed(given.seed)
    drafts = [draft for draft in VALIDATORS if os.path.isdir(os.path.join(given.suite, "tests", draft))]
    schemas = [(draft, group["schema"]) for draft in drafts for _, group in suite.groups_of(given.suite, draft, False)
               if isinstance(group["schema"], dict) and "$schema" not in group["schema"]]
    conversation = suite.Conversation()
    asked = {}
    for _ in range(given.cases):
        draft, schema, places = spoilt(schemas)
        conversation.say(cmd="dialect", dialect=suite.DRAFTS[draft])
        asked[conversation.ask(schema, [], {})] = (draft, schema, places)
    replies = conversation.replies(given.program)
    wrong = [seq for seq, (_, _, places) in asked.items() if not is_refused(replies[seq], places)]
    for seq in wrong:
        draft, schema, places = asked[seq]
        print(f"{draft}: {json.dumps(schema)}\n    wanted at {sorted(places)}, given {json.dumps(replies[seq])}")
    print(f"{len(asked)} spoilt schemas, {len(wrong)} of them not refused where they are to be")
    sys.exit(1 if wrong else 0)


if __name__ == "__main__":
    main()
