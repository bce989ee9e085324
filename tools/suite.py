#!/usr/bin/env python3
"""Runs the official test suite of JSON Schema: python3 tools/suite.py PROGRAM [--suite FOLDER] [--optional] [--draft N] [--left-out]

PROGRAM is bowtie_harness, as `rt run` leaves it in out/, or another program that speaks its protocol. FOLDER is the suite, with `tests` and
`remotes`; `tests` has a folder for each draft. Without it the newer of Debian's two packages is taken that is there,
libtest-json-schema-acceptance-perl or json-schema-test-suite; the first line printed names it. Drafts 4, 6, 7, 2019-09 and 2020-12 are run, those
that the folder has.

Each group of tests is a case: its schema, the instances, and the suite's documents as the registry, under http://localhost:1234/. A group is
left out whose schema the program refuses since it says of a keyword that it is not supported. So are optional groups on formats and contents
from 2019-09 on, where they are annotations.

It prints each test that fails, and each group whose schema is refused for another reason, all of whose tests fail; and for each draft and
file how many tests ran, how many failed and how many groups were left out and why. --optional runs the files in `optional` too, whose
failures are shown beside the others; --left-out names each group that is left out. It ends with 1 if a test failed that is not optional.
"""

import argparse
import collections
import json
import os
import re
import subprocess
import sys

DRAFTS = {
    "draft4": "http://json-schema.org/draft-04/schema#",
    "draft6": "http://json-schema.org/draft-06/schema#",
    "draft7": "http://json-schema.org/draft-07/schema#",
    "draft2019-09": "https://json-schema.org/draft/2019-09/schema",
    "draft2020-12": "https://json-schema.org/draft/2020-12/schema",
}
# the newer one first; the older has no newer drafts
SUITES = (
    "/usr/share/perl5/auto/share/dist/Test-JSON-Schema-Acceptance",
    "/usr/share/json-schema-test-suite",
)
SUITE = next((folder for folder in SUITES if os.path.isdir(folder)), SUITES[0])
REMOTES = "http://localhost:1234/"
# the folders of the suite that are a draft's own, whether its tests are run or not
OWN_FOLDERS = [*DRAFTS, "draft3", "draft-next", "v1"]
# what asserts nothing by itself in these drafts
ANNOTATING_DRAFTS = ("draft2019-09", "draft2020-12")
ANNOTATING = {"format", "contentEncoding", "contentMediaType", "contentSchema"}
SECONDS = 600


def read(path):
    with open(path, encoding="utf-8") as file:
        return json.load(file)


def files_below(folder):
    """The files of JSON in a folder and below it, by their paths in it."""
    for root, _, names in sorted(os.walk(folder)):
        for name in sorted(name for name in names if name.endswith(".json")):
            path = os.path.join(root, name)
            yield os.path.relpath(path, folder), read(path)


def registry_of(folder, draft):
    """The suite's documents that a draft may refer to, by their URIs: not those in the folders of other drafts."""
    others = tuple(name + "/" for name in OWN_FOLDERS if name != draft)
    return {REMOTES + path: document for path, document in files_below(os.path.join(folder, "remotes")) if not path.startswith(others)}


def groups_of(folder, draft, optional):
    """The groups of a draft's files, each with the name of its file."""
    for path, groups in files_below(os.path.join(folder, "tests", draft)):
        if optional or not path.startswith("optional"):
            yield from ((path.removesuffix(".json"), group) for group in groups)


def objects_in(value):
    """The objects in a value, itself among them; also where no schema stands, so rather more than less is left out."""
    if isinstance(value, dict):
        yield value
        value = value.values()
    elif not isinstance(value, list):
        return
    for below in value:
        yield from objects_in(below)


def is_annotation(draft, name, schema):
    """Whether an optional group asks for what only annotates in its draft; the meta-schemas of `format-assertion` have formats assert."""
    optional = name.startswith("optional") and not name.endswith("format-assertion")
    return optional and draft in ANNOTATING_DRAFTS and any(not ANNOTATING.isdisjoint(below) for below in objects_in(schema))


def unsupported_in(message):
    """The keyword that a schema is refused for since it is not supported; None where the message says something else."""
    refusal = re.match(r"refusal 4 at '([^']*)': .* is not supported$", message, re.DOTALL)
    return refusal.group(1).rpartition("/")[2] if refusal else None


class Conversation:
    """Commands, and what is replied to them."""

    def __init__(self):
        self.commands = [{"cmd": "start", "version": 1}]

    def say(self, **command):
        self.commands.append(command)

    def ask(self, schema, instances, registry):
        """Asks of instances, and returns the number that the reply will have."""
        seq = len(self.commands)
        tests = [{"description": "", "instance": instance} for instance in instances]
        self.say(cmd="run", seq=seq, case={"description": "", "schema": schema, "registry": registry, "tests": tests})
        return seq

    def replies(self, program):
        """Runs the program, and returns the replies by their numbers."""
        self.say(cmd="stop")
        text = "".join(json.dumps(command) + "\n" for command in self.commands)
        done = subprocess.run([program], input=text, capture_output=True, text=True, timeout=SECONDS, check=False)
        replies = [json.loads(line) for line in done.stdout.splitlines()]
        if done.returncode != 0 or len(replies) != len(self.commands) - 1:
            sys.exit(f"status {done.returncode} of {program}, {len(replies)} replies:\n{done.stdout[-2000:]}{done.stderr[-2000:]}")
        return {reply["seq"]: reply for reply in replies if "seq" in reply}


class Count:
    """What was found in a file of a draft."""

    def __init__(self):
        self.tests = self.failed = 0
        self.left_out = collections.Counter()

    def add(self, other):
        self.tests += other.tests
        self.failed += other.failed
        self.left_out += other.left_out

    def line(self, name):
        reasons = ", ".join(f"{count} for: {reason}" for reason, count in sorted(self.left_out.items()))
        return f"{name:40} {self.tests:5} tests {self.failed:3} failed" + (f"   groups left out: {reasons}" if reasons else "")


class Suite:
    """The groups that are run, and what came of them."""

    def __init__(self, show_left_out):
        self.conversation = Conversation()
        self.asked = {}
        self.counts = {}
        self.show_left_out = show_left_out

    def leave_out(self, draft, name, group, reason):
        self.counts[draft, name].left_out[reason] += 1
        if self.show_left_out:
            print(f"left out, {reason}: {draft} {name}: {group['description']}")

    def take(self, folder, draft, optional):
        """Takes the groups of a draft, or leaves them out."""
        self.conversation.say(cmd="dialect", dialect=DRAFTS[draft])
        registry = registry_of(folder, draft)
        for name, group in groups_of(folder, draft, optional):
            self.counts.setdefault((draft, name), Count())
            if is_annotation(draft, name, group["schema"]):
                self.leave_out(draft, name, group, "annotation")
                continue
            seq = self.conversation.ask(group["schema"], [test["data"] for test in group["tests"]], registry)
            self.asked[seq] = (draft, name, group)

    def run(self, program):
        """Asks the program of all groups, and prints what is answered otherwise."""
        replies = self.conversation.replies(program)
        for seq, (draft, name, group) in self.asked.items():
            if "results" in replies[seq]:
                self.judge(draft, name, group, replies[seq]["results"])
            else:
                self.refuse(draft, name, group, replies[seq]["context"]["message"])

    def refuse(self, draft, name, group, message):
        """Counts a group whose schema is refused: it is left out, or all its tests fail."""
        unsupported = unsupported_in(message)
        if unsupported is not None:
            self.leave_out(draft, name, group, f"{unsupported} is not supported")
            return
        tests = len(group["tests"])
        self.counts[draft, name].tests += tests
        self.counts[draft, name].failed += tests
        print(f"FAILED {draft} {name}: {group['description']}: all {tests} tests: {message}")

    def judge(self, draft, name, group, results):
        """Counts the tests of a group, and tells of those that fail."""
        count = self.counts[draft, name]
        for test, result in zip(group["tests"], results, strict=True):
            count.tests += 1
            if result.get("valid") != test["valid"]:
                count.failed += 1
                print(f"FAILED {draft} {name}: {group['description']}: {test['description']}")
                print(f"    wanted {json.dumps(test['valid'])}, given {json.dumps(result)}")
                print(f"    schema {json.dumps(group['schema'])}\n    instance {json.dumps(test['data'])}")

    def sum(self, draft, optional):
        """The sum of a draft's counts, or of all drafts', of the optional files or of the others."""
        total = Count()
        for (of_draft, name), count in self.counts.items():
            if draft in (None, of_draft) and name.startswith("optional") == optional:
                total.add(count)
        return total

    def print_counts(self):
        """Prints the counts, by files, drafts and in all."""
        for draft in {draft: None for draft, _ in self.counts}:
            for (of_draft, name), count in self.counts.items():
                if of_draft == draft:
                    print(count.line(f"{draft} {name}"))
            print(self.sum(draft, False).line(draft))
            print(self.sum(draft, True).line(f"{draft} optional"))
        print(self.sum(None, False).line("all"))
        print(self.sum(None, True).line("all optional ones"))


def main():
    parser = argparse.ArgumentParser(description=__doc__, formatter_class=argparse.RawDescriptionHelpFormatter)
    parser.add_argument("program", help="the built bowtie_harness")
    parser.add_argument("--suite", default=SUITE, metavar="FOLDER", help=f"the suite; without it, {SUITE}")
    parser.add_argument("--optional", action="store_true", help="run the files in `optional` too")
    parser.add_argument("--draft", action="append", choices=[name.removeprefix("draft") for name in DRAFTS], metavar="N", help="run this draft alone")
    parser.add_argument("--left-out", action="store_true", help="name each group that is left out")
    given = parser.parse_args()
    print(f"suite: {given.suite}")
    suite = Suite(given.left_out)
    for draft in DRAFTS:
        if given.draft and draft.removeprefix("draft") not in given.draft:
            continue
        if os.path.isdir(os.path.join(given.suite, "tests", draft)):
            suite.take(given.suite, draft, given.optional)
        else:
            print(f"{draft} is not in {given.suite}")
    suite.run(given.program)
    suite.print_counts()
    sys.exit(1 if suite.sum(None, False).failed else 0)


if __name__ == "__main__":
    main()
