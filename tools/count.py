#!/usr/bin/env python3
"""Counts what the engine takes: python3 tools/count.py PROGRAM [BEFORE] [--standard | --command] [--only NAME] [--mode MODE]

PROGRAM is the built engine_bench. Every case of CASES in cases.py is counted in each of its sizes, and a line is printed for each mode,
`name size mode count`:

- valid, errors, list: instructions in that mode of the program, by `valgrind --tool=callgrind`, its line `Collected`.
- allocations: requests for memory in the mode valid, by `total heap usage` of valgrind.
- run-allocations: those less what the schema takes with an instance that is empty, so the reading and the building of the schema are
  set aside. This is what the run takes.

What the program takes for the same instance with the schema `true` is subtracted in each, so the reading of the instance is set aside;
the reading and the building of the schema are counted. A mode that a case is not counted in has no line.

With --standard PROGRAM is the built test_check_rows, and the cases are those of STANDARD_CASES, whose keywords engine_bench has not. Each is a
file of one row with the table `standard`, which has to be accepted; the mode list is not counted then.

With --command PROGRAM is the built jsonschema_cli, and the cases are those of REAL_CASES, whose patterns are regular expressions. The schema
is not checked by its meta-schema; valid, errors and list are its outputs flag, text and list. Requests for memory are not counted then.

BEFORE is what an earlier run printed; the ratio to it is noted. Notes go to standard error: the ratio to the size before and to BEFORE.
The program ends with 1 where `objects` of 1,000 and of 2,000 records make different numbers of requests for memory. --only and --mode may
be given several times. Counts depend on the compiler: compare within one kit (`rt version`). They are the same each time, but where
the program's path has another length some differ by a few in ten thousand. valgrind has to be there.
"""

import argparse
import json
import os
import re
import resource
import shutil
import subprocess
import sys
import tempfile

from cases import ALL_CASES, CASES, LONGEST_WORD, REAL_CASES, STANDARD_CASES, case_of

INSTRUCTIONS = ("valid", "errors", "list")
REQUESTS = ("allocations", "run-allocations")
MODES = INSTRUCTIONS + REQUESTS
# what a row asks in a mode, and what it wants where the instance is accepted
ROW_CALLS = {"valid": ("valid", True), "errors": ("iter_errors", [])}
# what the command is told to print in a mode
OUTPUTS = {"valid": "flag", "errors": "text", "list": "list"}
# what a program is started with beside its words moves them in memory, and a copy of a text that starts elsewhere may take a few
# instructions more; so it is started with nothing but what valgrind may need to find its own parts, and always in the same folder
ENVIRONMENT = {name: os.environ[name] for name in ("VALGRIND_LIB",) if name in os.environ}
# a verdict on these takes as many requests for memory in the one size as in the other
EQUAL_REQUESTS = ("objects", (1000, 2000))


def run(tool, line, program, words, statuses):
    """The number that valgrind's tool shows in the line, of the program with the words, which ends with one of the statuses."""
    valgrind = shutil.which("valgrind")
    if valgrind is None:
        sys.exit("valgrind is not there")
    command = [valgrind, *tool, os.path.abspath(program), *words]
    done = subprocess.run(command, stdout=subprocess.DEVNULL, stderr=subprocess.PIPE, env=ENVIRONMENT, cwd="/")
    shown = done.stderr.decode(errors="replace")
    number = re.search(line, shown)
    if number is None or done.returncode not in statuses:
        sys.exit(f"no count, status {done.returncode}, of {program} {words[0]}:\n{shown[-2000:]}")
    return int(number.group(1).replace(",", ""))


def instructions(program, words, statuses):
    return run(["--tool=callgrind", "--callgrind-out-file=/dev/null"], r"Collected : (\d+)", program, words, statuses)


def requests(program, words, statuses):
    return run(["--undef-value-errors=no"], r"total heap usage: ([\d,]+) allocs", program, words, statuses)


class Counter:
    """The counts of one case in one size; each is made once."""

    def __init__(self, program, case):
        self.program = program
        self.case = case
        self.made = {}

    def taken(self, counted, mode, schema, instance):
        """What the schema takes on the instance."""
        return counted(self.program, [mode, schema, instance, *self.case.more], (0, 1))

    def apart(self, counted, mode, instance):
        """What the schema takes on the instance, less what `true` takes."""
        key = (counted, mode, instance)
        if key not in self.made:
            with_schema, with_true = (self.taken(counted, mode, schema, instance) for schema in (self.case.schema, "true"))
            self.made[key] = with_schema - with_true
        return self.made[key]

    def count(self, mode):
        if mode in INSTRUCTIONS:
            return self.apart(instructions, mode, self.case.instance)
        taken = self.apart(requests, "valid", self.case.instance)
        return taken if mode == "allocations" else taken - self.apart(requests, "valid", self.case.empty)


class RowCounter(Counter):
    """The same by rows of the standard's table, which are accepted."""

    def taken(self, counted, mode, schema, instance):
        call, want = ROW_CALLS[mode]
        parts = {"schema": json.loads(schema), "instance": json.loads(instance), "want": want}
        row = {"name": "case", "call": call, "table": "standard", **parts}
        with tempfile.NamedTemporaryFile("w", suffix=".jsonl", encoding="utf-8") as file:
            file.write(json.dumps(row, separators=(",", ":")) + "\n")
            file.flush()
            return counted(self.program, [file.name], (0,))


class CommandCounter(Counter):
    """The same by the command, from files."""

    def taken(self, counted, mode, schema, instance):
        with tempfile.TemporaryDirectory() as folder:
            files = {"schema": schema, "instance": instance}
            for name, text in files.items():
                with open(os.path.join(folder, name), "w", encoding="utf-8") as file:
                    file.write(text)
            schema_file, instance_file = (os.path.join(folder, name) for name in files)
            words = ["--no-check", "--output", OUTPUTS[mode], schema_file, "-i", instance_file]
            return counted(self.program, words, (0, 1))


def counter_of(given, case):
    """What counts a case."""
    kind = RowCounter if given.standard else CommandCounter if given.command else Counter
    return kind(given.program, case)


def modes_of(given, case):
    """The modes that a case is counted in."""
    can = ROW_CALLS.keys() | REQUESTS if given.standard else OUTPUTS if given.command else MODES
    return [mode for mode in given.mode or MODES if mode in can and mode not in case.apart]


def counts_of(path):
    """What an earlier run printed, by `name size mode`."""
    with open(path, encoding="utf-8") as file:
        return {key: int(count) for key, count in (line.rsplit(" ", 1) for line in file if line.strip())}


def note(count, other, what):
    """How a count stands to another, where there is one."""
    if other is None:
        return []
    if count == other:
        return [f"equal to {what}"]
    return [f"{count / other:.2f} times {what}" if other > 0 else f"more than {what}, {other}"]


def arguments():
    parser = argparse.ArgumentParser(description=__doc__, formatter_class=argparse.RawDescriptionHelpFormatter)
    parser.add_argument("program", help="the built engine_bench, or with --standard test_check_rows, or with --command jsonschema_cli")
    parser.add_argument("before", nargs="?", help="what an earlier run printed")
    kinds = parser.add_mutually_exclusive_group()
    kinds.add_argument("--standard", action="store_true", help="count the standard's keywords, by test_check_rows")
    kinds.add_argument("--command", action="store_true", help="count what people validate, by jsonschema_cli")
    parser.add_argument("--only", action="append", choices=sorted(ALL_CASES), metavar="NAME", help="count this case alone")
    parser.add_argument("--mode", action="append", choices=MODES, metavar="MODE", help="count in this mode alone")
    return parser.parse_args()


def more_stack():
    """As much stack as the system gives: a run goes as deep as its instance and its chain of references."""
    _, most = resource.getrlimit(resource.RLIMIT_STACK)
    resource.setrlimit(resource.RLIMIT_STACK, (most, most))


def main():
    given = arguments()
    before = counts_of(given.before) if given.before else {}
    counts = {}
    more_stack()
    cases = STANDARD_CASES if given.standard else REAL_CASES if given.command else CASES
    for name, (_, sizes) in cases.items():
        if given.only and name not in given.only:
            continue
        smaller = {}
        for size in sizes:
            case = case_of(name, size)
            if case.too_long() and cases is CASES:
                sys.exit(f"{name} {size}: a word of more than {LONGEST_WORD} bytes")
            counter = counter_of(given, case)
            for mode in modes_of(given, case):
                count = counter.count(mode)
                key = f"{name} {size} {mode}"
                print(key, count, flush=True)
                notes = note(count, smaller.get(mode), "the size before") + note(count, before.get(key), "what it was")
                if notes:
                    print(f"    {key}: {', '.join(notes)}", file=sys.stderr, flush=True)
                smaller[mode] = counts[name, size, mode] = count
    name, sizes = EQUAL_REQUESTS
    taken = [counts.get((name, size, "allocations")) for size in sizes]
    if None not in taken and len(set(taken)) > 1:
        sys.exit(f"{name}: {' and '.join(map(str, taken))} requests for memory, which should be equal")


if __name__ == "__main__":
    main()
