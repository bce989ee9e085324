#!/usr/bin/env python3
"""Runs the official output tests: python3 tools/output_tests.py PROGRAM.. [--suite FOLDER]

PROGRAM is jsonschema_cli, as `rt run` leaves it in out/, or the words of a command that is called like it. FOLDER has `output-tests`;
without it Debian's libtest-json-schema-acceptance-perl is taken.

A test has a schema, an instance and a schema for the output. Drafts 2019-09 and 2020-12 ask for `basic`. Each output also has to be a unit
of its format by the draft's schema of outputs, which by itself accepts whatever has a verdict. The tests of the next draft ask for its
`list`, of units of schema objects. They are asked of `hierarchical` under draft 2020-12, whose units are laid out in a list, a unit before
those inside it; and each output has to be a unit of that format by the next draft's schema. What is asked is checked by Python's
`jsonschema`. It prints each test that fails and how many ran, and ends with 1 if a test failed or none ran.
"""

import argparse
import json
import os
import subprocess
import sys
import tempfile

import jsonschema
from referencing import Registry
from referencing.jsonschema import DRAFT201909, DRAFT202012

SUITE = "/usr/share/perl5/auto/share/dist/Test-JSON-Schema-Acceptance"
DRAFTS = {"draft2019-09": "2019-09", "draft2020-12": "2020-12", "draft-next": "2020-12"}
VALIDATORS = {
    "2019-09": (jsonschema.Draft201909Validator, DRAFT201909),
    "2020-12": (jsonschema.Draft202012Validator, DRAFT202012),
}


def read(*path):
    """The value in a file."""
    with open(os.path.join(*path), encoding="utf-8") as file:
        return json.load(file)


def answer(program, draft, output, schema, instance):
    """What the program prints of an instance in this output, or None."""
    with tempfile.TemporaryDirectory() as folder:
        names = [os.path.join(folder, name) for name in ("schema.json", "instance.json")]
        for name, value in zip(names, (schema, instance)):
            with open(name, "w", encoding="utf-8") as file:
                json.dump(value, file)
        words = [*program, names[0], names[1], "--draft", draft, "--output", output]
        said = subprocess.run(words, capture_output=True, text=True, check=False)
    lines = [line for line in said.stdout.splitlines() if line.startswith('{"output":')]
    if len(lines) != 1:
        print(said.stdout + said.stderr)
        return None
    return json.loads(lines[0]).get("payload")


def units_in(unit):
    """A unit before those inside it."""
    yield unit
    for inside in unit.get("details", []):
        yield from units_in(inside)


def complaint(draft, outputs, schema, value):
    """What a schema says against a value, or None. It may refer to the schema of outputs."""
    validator, specification = VALIDATORS[draft]
    registry = Registry().with_resource(outputs["$id"], specification.create_resource(outputs))
    error = next(validator(schema, registry=registry).iter_errors(value), None)
    return error and f"{error.json_path}: {error.message}"


def faults(program, folder, group, test):
    """What is wrong with the outputs of a test, and how many were asked."""
    draft, outputs = DRAFTS[os.path.basename(folder)], read(folder, "output-schema.json")
    schema = group["schema"] | {"$schema": f"https://json-schema.org/draft/{draft}/schema"}
    outputs["$schema"] = schema["$schema"]
    found = []
    for asked, wanted in test["output"].items():
        output = "hierarchical" if asked == "list" else asked
        said = answer(program, draft, output, schema, test["data"])
        if said is None:
            found.append(f"{output}: no answer")
            continue
        form = {"$ref": f"{outputs['$id']}#/$defs/{output}"}
        flat = {"valid": said["valid"], "details": list(units_in(said))} if asked == "list" else said
        found += [complaint(draft, outputs, form, said), complaint(draft, outputs, wanted, flat)]
    return [fault for fault in found if fault], len(test["output"])


def main(words):
    reader = argparse.ArgumentParser()
    reader.add_argument("program", nargs="+")
    reader.add_argument("--suite", default=SUITE)
    chosen = reader.parse_args(words)
    ran, failed = 0, 0
    for draft in DRAFTS:
        folder = os.path.join(chosen.suite, "output-tests", draft)
        for file in sorted(os.listdir(os.path.join(folder, "content"))):
            for group in read(folder, "content", file):
                for test in group["tests"]:
                    found, count = faults(chosen.program, folder, group, test)
                    ran += count
                    failed += bool(found)
                    for fault in found:
                        print(f"{draft}/{file}: {group['description']}: {test['description']}: {fault}")
    print(f"{ran} outputs asked, {failed} tests failed")
    sys.exit(1 if failed or not ran else 0)


main(sys.argv[1:])
