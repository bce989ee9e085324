#!/usr/bin/env python3
"""Asks the programs what would end a smaller stack: python3 tools/strangers.py COMMAND HARNESS [--only WORD] [--mebibytes N]

COMMAND is jsonschema_cli and HARNESS bowtie_harness, as `rt run` leaves them in out/. Schemas and documents are deep: many schemas at one
place, chains of references under each keyword that asks at the same place, and builds. Each is asked by the command in each output, and by
the harness, with the limits that the programs set, under a stack of 8 MiB. Right is an answer, or one that names the limit: never a signal,
and never no answer without a reason. After the harness's case a small one has to be answered. It prints each case that is wrong, and ends
with 1 if there is one. It needs Linux and Python 3.
"""

import argparse
import json
import os
import resource
import subprocess
import sys
import tempfile

OUTPUTS = ("text", "flag", "list")
LENGTHS = (3000, 25000)
LIMITS = ("nested evaluations was reached", "steps was reached", "keys are reached")
# a schema around another one, at the same place
AROUND = {
    "$ref": lambda inner: inner,
    "allOf": lambda inner: {"allOf": [inner]},
    "anyOf": lambda inner: {"anyOf": [inner]},
    "oneOf": lambda inner: {"oneOf": [inner]},
    "not": lambda inner: {"not": inner},
    "if": lambda inner: {"if": inner},
    "then": lambda inner: {"if": True, "then": inner},
    "else": lambda inner: {"if": False, "else": inner},
    "dependentSchemas": lambda inner: {"dependentSchemas": {"n": inner}},
    "$ref beside": lambda inner: {**inner, "minProperties": 0},
}


def nested(keyword, times, inner):
    """A schema in which a keyword stands so many times around another schema."""
    for _ in range(times):
        inner = AROUND[keyword](inner)
    return inner


def chain(keyword, length, end):
    """A schema of so many definitions, each with a reference to the next one under a keyword."""
    definitions = {f"d{number}": AROUND[keyword]({"$ref": f"#/$defs/d{number + 1}"}) for number in range(length)}
    return {"$ref": "#/$defs/d0", "$defs": {**definitions, f"d{length}": end}}


def built(count, keyword, times):
    """References to definitions with a keyword many times around the next reference."""
    definitions = {str(number): nested(keyword, times, {"$ref": f"#/$defs/{number + 1}"}) for number in range(count)}
    return {"$ref": "#/$defs/0", "$defs": {**definitions, str(count): {}}}


def cases():
    """Each case: a name, a schema, a document as a text, and further words of the command."""
    for count, times in ((7, 116), (8, 101), (60, 116)):
        yield f"{count} references with {times} not around each, built", built(count, "not", times), "1", []
    yield "12 references with 60 allOf around each, built", built(12, "allOf", 60), "1", []
    for keyword in ("not", "allOf", "anyOf", "oneOf"):
        times, depth = (120, 60) if keyword == "not" else (55, 126)
        schema = nested(keyword, times, {"items": {"$ref": "#"}})
        yield f"{times} {keyword} around items that return, {depth} lists", schema, "[" * depth + "]" * depth, []
        yield f"{times} {keyword} around items that return, work limit 55", schema, "[" * 126 + "]" * 126, ["--work-limit", "55"]
        yield f"13 {keyword} around items that return, 126 lists", nested(keyword, 13, {"items": {"$ref": "#"}}), "[" * 126 + "]" * 126, []
        refusing = {**nested(keyword, 16, {"items": {"$ref": "#"}}), "type": "array"}
        yield f"16 {keyword} around items that return, 125 lists and a number", refusing, "[" * 125 + "1" + "]" * 125, []
    for keyword in AROUND:
        for length in LENGTHS:
            for end, what in ((True, "accepted"), ({"type": "string"}, "refused")):
                yield f"{length} definitions under {keyword}, {what}", chain(keyword, length, end), '{"n":1}', []
    yield "8000 definitions under not, work limit 0", chain("not", 8000, {}), "1", ["--work-limit", "0"]


def limited(mebibytes):
    """Sets the stack of a process that is about to begin."""
    def begin():
        resource.setrlimit(resource.RLIMIT_STACK, (mebibytes << 20, mebibytes << 20))
        resource.setrlimit(resource.RLIMIT_AS, (4 << 30, 4 << 30))
    return begin


def asked(words, stdin, mebibytes):
    """Runs a program; its status, and what it wrote."""
    run = subprocess.run(words, input=stdin, capture_output=True, text=True, timeout=120, preexec_fn=limited(mebibytes))
    return run.returncode, run.stdout, run.stderr


def fault_of_command(command, output, schema, document, words, mebibytes):
    """What is wrong with the command's answer, or nothing."""
    status, out, err = asked([command, schema, document, "--output", output, *words], "", mebibytes)
    if status in (0, 1):
        return ""
    if status == 2 and any(limit in out + err for limit in LIMITS):
        return ""
    return f"status {status}: {(err or out)[:120]!r}"


def fault_of_harness(harness, schema, document, mebibytes):
    """What is wrong with the harness's answer, or nothing."""
    case = {"description": "deep", "schema": schema, "tests": [{"description": "deep", "instance": 0}]}
    # the document's text is put in by hand, since Python writes no value that nests so deep
    line = json.dumps({"cmd": "run", "seq": 1, "case": case}).replace('"instance": 0', f'"instance": {document}')
    small = {"cmd": "run", "seq": 2, "case": {"description": "small", "schema": True, "tests": [{"description": "one", "instance": 1}]}}
    begin = ['{"cmd":"start","version":1}', '{"cmd":"dialect","dialect":"https://json-schema.org/draft/2020-12/schema"}']
    lines = [*begin, line, json.dumps(small), '{"cmd":"stop"}']
    status, out, err = asked([harness], "\n".join(lines) + "\n", mebibytes)
    replies = [json.loads(reply) for reply in out.splitlines()]
    if status != 0 or len(replies) != len(begin) + 2:
        return f"status {status}, {len(replies)} replies: {err[:120]!r}"
    if replies[-1].get("results") != [{"valid": True}]:
        return f"the next case: {replies[-1]}"
    result = replies[-2].get("results", [{}])[0] if not replies[-2].get("errored") else replies[-2]
    if "valid" in result or "message" in json.dumps(result):
        return ""
    return f"no answer: {json.dumps(replies[-2])[:120]}"


def main():
    parser = argparse.ArgumentParser(description=__doc__, formatter_class=argparse.RawDescriptionHelpFormatter)
    parser.add_argument("command", type=os.path.abspath)
    parser.add_argument("harness", type=os.path.abspath)
    parser.add_argument("--only", default="")
    parser.add_argument("--mebibytes", type=int, default=8)
    options = parser.parse_args()
    asks, wrong = 0, 0
    with tempfile.TemporaryDirectory() as folder:
        schema_file, document_file = os.path.join(folder, "schema.json"), os.path.join(folder, "document.json")
        for name, schema, document, words in cases():
            if options.only not in name:
                continue
            with open(schema_file, "w") as file:
                json.dump(schema, file, separators=(",", ":"))
            with open(document_file, "w") as file:
                file.write(document)
            faults = {output: fault_of_command(options.command, output, schema_file, document_file, words, options.mebibytes) for output in OUTPUTS}
            if not words:
                faults["harness"] = fault_of_harness(options.harness, schema, document, options.mebibytes)
            for where, fault in faults.items():
                asks += 1
                if fault:
                    wrong += 1
                    print(f"{name}, {where}: {fault}", flush=True)
    print(f"{asks} asked, {wrong} wrong")
    return 1 if wrong else 0


if __name__ == "__main__":
    sys.setrecursionlimit(100000)
    sys.exit(main())
