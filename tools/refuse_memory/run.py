#!/usr/bin/env python3
"""Refuses each request for memory in turn, and looks at what the program answers then:

    python3 tools/refuse_memory/run.py PROGRAM [PROGRAM_OF_ROWS] [--jobs N] [--only WORD]

PROGRAM is engine_bench, PROGRAM_OF_ROWS is test_check_rows, both as `rt run` leaves them in out/ (a program with an allocator of its own, as
one with an address sanitizer, is not reached: that is said). It needs glibc, and `cc`, which compiles refuse.c beside this file.

Each case is run plainly first, which gives its answer and the number of its requests. Then each request is refused, once alone and once
with all that come after it. A run has to end for want of memory, with nothing on standard output, or to give the answer to the letter.
It prints a line for each case, and at last how many runs there were and how many were wrong, with the first wrong one as a command.
It ends with 1 if any was, or if a case is not what it is meant to be.

A case of the bench is a schema, an instance, patterns that stay unfinished, and the status of its plain answer; it is asked in the four
modes. A case of the rows is a row of crates/test_check_rows/data by its name, in a file of its own.
"""

import argparse
import json
import multiprocessing
import os
import shlex
import struct
import subprocess
import sys
import tempfile

HERE = os.path.dirname(os.path.abspath(__file__))
ROWS = os.path.join(HERE, "..", "..", "crates", "test_check_rows", "data")
MODES = ("valid", "first", "errors", "list")
SECONDS = 60


def five_branches():
    """Five matches that stay unfinished, each beside a way to accept, and their patterns."""
    patterns = [f"(?<={letter})c" for letter in "defgh"]
    return {"allOf": [{"anyOf": [{"pattern": pattern}, {"type": "string"}]} for pattern in patterns]}, patterns


def chain_that_returns(length):
    """A chain of references whose last target leads back to its start, from a member, and refuses what is no object."""
    definitions = {f"c{number}": {"$ref": f"#/$defs/c{number + 1}"} for number in range(length)}
    definitions[f"c{length}"] = {"type": "object", "properties": {"n": {"$ref": "#"}}}
    return {"$ref": "#/$defs/c0", "$defs": definitions}


def every_keyword():
    """The fifteen keywords of the bench, each where it refuses something."""
    return {
        "type": ["object", "null"],
        "required": ["a", "zz"],
        "minProperties": 9,
        "propertyNames": {"maxLength": 1},
        "properties": {
            "a": {"minLength": 3, "maxLength": 1, "pattern": "q"},
            "l": {"prefixItems": [{"type": "string"}], "items": {"type": "integer"}},
        },
        "allOf": [{"not": {"required": ["a"]}}],
        "anyOf": [False, {"type": "string"}],
        "oneOf": [True, {"minProperties": 1}],
        "if": {"required": ["a"]},
        "then": {"required": ["b"]},
        "else": False,
        "title": "t",
    }


FIVE, FIVE_PATTERNS = five_branches()
UNFINISHED = "(?<=ab)c"
DRAFT_2019 = "https://json-schema.org/draft/2019-09/schema"
DRAFT_7 = "http://json-schema.org/draft-07/schema#"

# name, schema, instance, unfinished patterns, the plain status in the modes
CASES = [
    ("names_in_two_lists", {"propertyNames": {"minLength": 2}, "properties": {"in": {"propertyNames": {"pattern": "b"}}}},
     {"a": 1, "in": {"b": 1, "c": 2}}, [], 1),
    ("names_that_fit", {"items": {"propertyNames": {"pattern": "b"}}}, [{"b": 1, "ab": 2}, {"bb": 3}], [], 0),
    ("five_unfinished_matches", FIVE, "abc", FIVE_PATTERNS, 0),
    ("failure_with_a_path", {"$defs": {"s": {"pattern": UNFINISHED}}, "properties": {"x": {"$ref": "#/$defs/s"}}},
     {"x": "abc"}, [UNFINISHED], 1),
    ("failure_after_two_negations", {"properties": {"a": {"not": {"not": {"pattern": UNFINISHED}}}, "b": {"pattern": UNFINISHED}}},
     {"a": "abc", "b": "abc"}, [UNFINISHED], 1),
    ("dynamic_reference",
     {"$id": "http://x/root", "$ref": "http://x/list",
      "$defs": {"list": {"$id": "http://x/list", "items": {"$dynamicRef": "#n"}, "$defs": {"d": {"$dynamicAnchor": "n"}}},
                "s": {"$dynamicAnchor": "n", "type": "string"}}},
     [1, "a"], [], 1),
    ("recursive_reference",
     {"$schema": DRAFT_2019, "$id": "http://x/r", "$recursiveAnchor": True, "$ref": "http://x/n", "required": ["v"],
      "$defs": {"n": {"$id": "http://x/n", "$recursiveAnchor": True, "properties": {"c": {"$recursiveRef": "#"}}}}},
     {"v": 1, "c": {}}, [], 1),
    ("embedded_resource",
     {"$ref": "#/$defs/e/$defs/t", "$defs": {"e": {"$id": "http://x/e", "$defs": {"t": {"type": "string", "title": "T"}}}}},
     1, [], 1),
    ("embedded_resource_of_another_draft_that_is_refused",
     {"$defs": {"a": {"$id": "http://x/a", "$schema": DRAFT_7, "minLength": "no"}}}, 1, [], 2),
    ("malformed_keyword_is_refused", {"properties": {"a": {"type": 7}}}, 1, [], 2),
    ("reference_to_nothing_is_refused", {"$ref": "http://x/no"}, 1, [], 2),
    ("chain_that_returns", chain_that_returns(10), {"n": {"n": [1]}}, [], 1),
    ("verdicts_that_are_remembered",
     {"items": {"anyOf": [{"$ref": "#/$defs/e"}, {"allOf": [{"$ref": "#/$defs/e"}, {"required": ["w"]}]}]},
      "$defs": {"e": {"required": ["v"], "properties": {"n": {"$ref": "#/$defs/e"}}}}},
     [{"v": 1, "n": {"v": number}} for number in range(18)] + [{"n": {}}], [], 1),
    ("every_keyword", every_keyword(), {"a": "bc", "l": [1, "x", 2], "long": None}, [], 1),
]

# file of rows, name of the row
ROW_CASES = [
    ("maps", "map_with_four_names"),
    ("maps", "map_of_a_name_with_a_slash_and_a_tilde"),
    ("maps", "map_entry_of_a_definition_refuses"),
    ("maps", "map_beyond_four_keys_of_an_entry"),
    ("clones", "clone_of_root_whose_inner_member_is_missing"),
    ("clones", "clone_of_pattern_refuses"),
    ("clones", "clone_of_unfinished_match_behind_a_reference"),
    ("clones", "clone_of_dropped_annotations_listed"),
    ("fused", "fused_too_few_items_of_a_wrong_type"),
    ("fused", "fused_too_few_items_of_a_wrong_type_listed"),
    ("reservations", "marking_items_of_items"),
    ("checks", "resource_inside_a_resource_of_another_draft"),
    ("answers", "calls_that_build_and_ask_refuse"),
    ("evaluations", "if_unfinished_then_unfinished_listed"),
    ("references", "reference_to_another_document"),
]


class Case:
    """Words of a program, how it says that memory is wanting, the status of its plain answer, and the file and name of a row or none."""

    def __init__(self, name, words, wanting, status, row=None):
        self.name = name
        self.words = words
        self.wanting = wanting
        self.status = status
        self.row = row


def wants_memory(end):
    """Whether engine_bench has ended for want of memory."""
    return end == (4, b"", b"out of memory\n")


def rows_want_memory(end):
    """Whether test_check_rows has ended for want of memory: it prints its error, and nothing of a row."""
    status, out, err = end
    return status == 1 and out == b"" and any(text in err for text in (b"out of memory", b"memory allocation failed"))


def bench_cases(program):
    """The cases of engine_bench, each in the four modes."""
    for name, schema, instance, unfinished, status in CASES:
        words = [json.dumps(it, separators=(",", ":")) for it in (schema, instance, unfinished)]
        for mode in MODES:
            yield Case(f"{name} {mode}", [program, mode, *words], wants_memory, status)


def row_cases(program, folder):
    """The cases of test_check_rows, each with a file of its own."""
    for file, name in ROW_CASES:
        with open(os.path.join(ROWS, f"{file}.jsonl"), encoding="utf-8") as rows:
            found = [line for line in rows if line.strip() and json.loads(line)["name"] == name]
        if len(found) != 1:
            sys.exit(f"{file}.jsonl has {len(found)} rows of the name {name}")
        path = os.path.join(folder, f"{name}.jsonl")
        with open(path, "w", encoding="utf-8") as alone:
            alone.write(found[0])
        yield Case(f"row {name}", [program, path], rows_want_memory, 0, (file, name))


class Told:
    """The end of a run, with its requests and refusals. It can be sent to another process."""

    def __init__(self, end, requests, refused):
        self.end = end
        self.requests = requests
        self.refused = refused


def run(library, folder, words, number=0, further=False):
    """Runs words with the request of this number refused, and perhaps all further ones."""
    telling = os.path.join(folder, f"told.{os.getpid()}")
    settings = {"LD_PRELOAD": library, "REFUSE_TOLD": telling, "REFUSE_AT": str(number), "REFUSE_ON": str(int(further))}
    try:
        done = subprocess.run(words, env=settings, stdin=subprocess.DEVNULL, capture_output=True, timeout=SECONDS, check=False)
        end = (done.returncode, done.stdout, done.stderr)
    except subprocess.TimeoutExpired:
        end = ("no end in time", b"", b"")
    try:
        with open(telling, "rb") as told:
            requests, refused = struct.unpack("=QQ", told.read())
    except (OSError, struct.error):
        requests, refused = 0, 0
    return Told(end, requests, refused)


def run_given(given):
    """`run` with its words in one list, for a pool."""
    return run(*given)


def as_commands(case, number, further):
    """A run as lines for a shell, from the repository's root."""
    lines = ["cc -shared -fPIC -O2 -o /tmp/refuse.so tools/refuse_memory/refuse.c"]
    words = list(case.words)
    if case.row is not None:
        file, name = case.row
        words[-1] = f"/tmp/{name}.jsonl"
        lines.append(f"""grep '"name":"{name}"' crates/test_check_rows/data/{file}.jsonl > {words[-1]}""")
    settings = f"LD_PRELOAD=/tmp/refuse.so REFUSE_AT={number} REFUSE_ON={int(further)}"
    lines.append(f"{settings} {' '.join(shlex.quote(word) for word in words)}")
    return "\n  ".join(lines)


class Counts:
    """How the runs of all cases went, and the first wrong one."""

    def __init__(self):
        self.runs = 0
        self.wanting = 0
        self.answered = 0
        self.wrong = 0
        self.first = None
        self.unfit = []


def check_case(case, library, folder, pool, counts):
    """Runs a case plainly, and with each of its requests refused."""
    plain = run(library, folder, case.words)
    if plain.requests == 0:
        counts.unfit.append(f"{case.name}: no request was counted: has the program an allocator of its own?")
        return
    if plain.end[0] != case.status or run(library, folder, case.words).requests != plain.requests:
        counts.unfit.append(f"{case.name}: plain end {plain.end}, {plain.requests} requests")
        return
    tries = [(number, further) for number in range(1, plain.requests + 1) for further in (False, True)]
    given = [(library, folder, case.words, number, further) for number, further in tries]
    ends = {"wanting": 0, "answered": 0, "wrong": 0}
    for (number, further), told in zip(tries, pool.imap(run_given, given, chunksize=16)):
        right = told.refused > 0
        if right and case.wanting(told.end):
            ends["wanting"] += 1
        elif right and told.end == plain.end:
            ends["answered"] += 1
        else:
            ends["wrong"] += 1
            if counts.first is None:
                counts.first = (case, number, further, plain, told)
    counts.runs += len(tries)
    counts.wanting += ends["wanting"]
    counts.answered += ends["answered"]
    counts.wrong += ends["wrong"]
    print(f"{case.name}: {plain.requests} requests, {ends['wanting']} runs for want of memory, {ends['answered']} with the answer, "
          f"{ends['wrong']} wrong", flush=True)


def report(counts):
    """Prints the sum, and says whether all was right."""
    for line in counts.unfit:
        print(f"unfit: {line}")
    if counts.first is not None:
        case, number, further, plain, told = counts.first
        print(f"first wrong: {case.name}\n  {as_commands(case, number, further)}")
        print(f"  wanted {plain.end}\n  or want of memory, and got {told.end}, {told.refused} refused of {told.requests}")
    print(f"{counts.runs} runs, {counts.wanting} for want of memory, {counts.answered} with the answer, {counts.wrong} wrong")
    return counts.wrong == 0 and not counts.unfit and counts.runs > 0


def main():
    words = argparse.ArgumentParser()
    words.add_argument("program")
    words.add_argument("program_of_rows", nargs="?")
    words.add_argument("--jobs", type=int, default=1)
    words.add_argument("--only", default="", help="cases whose names have this word")
    given = words.parse_args()
    counts = Counts()
    with tempfile.TemporaryDirectory() as folder:
        library = os.path.join(folder, "refuse.so")
        subprocess.run(["cc", "-shared", "-fPIC", "-O2", "-o", library, os.path.join(HERE, "refuse.c")], check=True)
        cases = list(bench_cases(os.path.abspath(given.program)))
        if given.program_of_rows:
            cases += row_cases(os.path.abspath(given.program_of_rows), folder)
        with multiprocessing.Pool(given.jobs) as pool:
            for case in cases:
                if given.only in case.name:
                    check_case(case, library, folder, pool, counts)
        return 0 if report(counts) else 1


if __name__ == "__main__":
    sys.exit(main())
