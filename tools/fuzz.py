#!/usr/bin/env python3
"""Asks engine_bench of random schemas and instances, and looks for answers that do not agree:

    python3 tools/fuzz.py PROGRAM [--seed N] [--cases N] [--from N] [--jobs N] [--seconds N]

PROGRAM is engine_bench, as `rt run` leaves it in out/. It needs Linux and Python 3. Cases are made by fuzz_cases.py, by seed and number;
what is looked at stands in fuzz_checks.py, and needs no other validator: the four modes agree, each error leads to a value and to a
keyword that says what its text says of that value, the units of the list hold the errors, one mode asked again gives the same, and each
call ends with 0, 1 or 2.

A call that takes more than 5 seconds of a processor, or more than a gibibyte, is skipped where references of the schema may return, and
is a finding elsewhere. Each finding is made small, and printed with the commands that show it. It ends with 1 if there is any.
"""

import argparse
import copy
import json
import multiprocessing
import os
import resource
import shlex
import signal
import sys
import time

import fuzz_cases
import fuzz_checks
from fuzz_checks import MODES

CALL_SECONDS = 5
CALL_BYTES = 1 << 30
MOST_SHRINKING_TRIES = 4000
MOST_SHRINKING_SECONDS = 120
MOST_SHOWN = 5


class Caller:
    """Runs the program, its output going to files in memory that are used again."""

    def __init__(self, program):
        self.program = os.path.abspath(program)
        self.out = os.memfd_create("out")
        self.err = os.memfd_create("err")
        self.nothing = os.open(os.devnull, os.O_RDONLY)
        self.calls = 0

    def text_in(self, file):
        size = os.fstat(file).st_size
        return os.pread(file, size, 0).decode("utf-8", "backslashreplace")

    def call(self, mode, case):
        """The status, standard output and standard error of a mode; a status below 0 is a signal's."""
        words = [self.program, mode] + [json.dumps(it) for it in (case.schema, case.instance, case.unfinished)]
        for file in (self.out, self.err):
            os.ftruncate(file, 0)
            os.lseek(file, 0, os.SEEK_SET)
        actions = [(os.POSIX_SPAWN_DUP2, self.nothing, 0), (os.POSIX_SPAWN_DUP2, self.out, 1), (os.POSIX_SPAWN_DUP2, self.err, 2)]
        child = os.posix_spawn(self.program, words, {}, file_actions=actions)
        self.calls += 1
        try:
            resource.prlimit(child, resource.RLIMIT_CPU, (CALL_SECONDS, CALL_SECONDS))
            resource.prlimit(child, resource.RLIMIT_AS, (CALL_BYTES, CALL_BYTES))
        except (ProcessLookupError, PermissionError):
            pass
        _, status = os.waitpid(child, 0)
        return os.waitstatus_to_exitcode(status), self.text_in(self.out), self.text_in(self.err)


def is_spent(answer):
    """Whether a call has used up its time or its memory."""
    return answer[0] in (-signal.SIGKILL, -signal.SIGXCPU, 4)


def look(caller, case, again):
    """The kind of a problem and a sentence, or None, and the answers of the modes. `again` is the mode that is asked twice."""
    answers = {}
    for mode in MODES:
        answers[mode] = caller.call(mode, case)
        if is_spent(answers[mode]):
            kind = "skipped" if fuzz_checks.has_cycle(case.schema) else "time or memory"
            return (kind, f"{mode} ends with {answers[mode][0]}"), answers
        if answers[mode][0] < 0:
            return ("crash", f"{mode} ends by the signal {-answers[mode][0]}"), answers
    repeated = caller.call(again, case)
    if repeated != answers[again]:
        return ("repeated", f"{again} gives {answers[again]} and then {repeated}"), answers
    return fuzz_checks.problem(case, answers), answers


def smaller_values(value):
    """Values that are a step smaller than this one, the smallest first."""
    if isinstance(value, dict):
        yield from ({}, True)
        for member in value.values():
            yield member
            yield from member.values() if isinstance(member, dict) else member if isinstance(member, list) else ()
        for name in value:
            yield {other: member for other, member in value.items() if other != name}
    elif isinstance(value, list):
        if len(value) > 1:
            yield value[: len(value) // 2]
            yield value[len(value) // 2:]
        for index in range(len(value)):
            yield value[:index] + value[index + 1:]
        yield from value
    elif isinstance(value, str):
        yield from (value[:-1], "a") if len(value) > 1 else ()
    elif value not in (0, None, True, False):
        yield 0


def replaced(value, path, new):
    """The value with what stands at a path replaced."""
    if not path:
        return new
    made = copy.copy(value)
    made[path[0]] = replaced(value[path[0]], path[1:], new)
    return made


def smaller_cases(case):
    """Cases that are a step smaller."""
    for place in ("schema", "instance"):
        whole = getattr(case, place)
        for path, value in sorted(fuzz_cases.subvalues(whole), key=lambda it: len(it[0])):
            for new in smaller_values(value):
                made = case.copy()
                setattr(made, place, replaced(whole, path, new))
                yield made
    for pattern in case.unfinished:
        made = case.copy()
        made.unfinished.remove(pattern)
        yield made


def size(case):
    return sum(len(json.dumps(it)) for it in (case.schema, case.instance, case.unfinished))


def is_refused(found):
    """Whether some mode tells that the schema is refused."""
    return any(answer[0] == 2 for answer in found[1].values())


def shrunk(caller, case, again):
    """A small case with a problem of the same kind, its schema refused only where it was, and the problem with the answers."""
    tries = 0
    end = time.monotonic() + MOST_SHRINKING_SECONDS
    best = look(caller, case, again)
    if best[0] is None:
        return case, (("gone", "asked once more, the case has no problem"), best[1])
    going = True
    while going:
        going = False
        for smaller in smaller_cases(case):
            if size(smaller) >= size(case):
                continue
            tries += 1
            if tries > MOST_SHRINKING_TRIES or time.monotonic() > end:
                return case, best
            found = look(caller, smaller, again)
            if found[0] is not None and found[0][0] == best[0][0] and is_refused(found) <= is_refused(best):
                case, best, going = smaller, found, True
                break
    return case, best


def shown(program, case, found, answers):
    """A finding as lines."""
    text = [f"  {found[0]}: {found[1]}"]
    for mode in MODES:
        words = [mode] + [json.dumps(it, ensure_ascii=False) for it in (case.schema, case.instance, case.unfinished)]
        text.append("  " + " ".join(shlex.quote(word) for word in [program, *words]))
        if mode in answers:
            text.append(f"    {answers[mode]}")
    return "\n".join(text)


class Counts:
    """What was asked, and what came of it."""

    def __init__(self):
        self.numbers = {}
        self.findings = []

    def add(self, name, number=1):
        self.numbers[name] = self.numbers.get(name, 0) + number

    def join(self, other):
        for name, number in other.numbers.items():
            self.add(name, number)
        self.findings += other.findings


def describe(case, answers, counts):
    """Counts what kind of a case it was, so that it is seen that each is there."""
    counts.add({0: "accepted", 1: "refused", 2: "schema refused"}[answers["valid"][0]])
    if fuzz_checks.FAILURE in answers["errors"][1]:
        counts.add("with a failure")
    if "/$ref" in answers["errors"][1]:
        counts.add("with an error behind $ref")
    if "/$dynamicRef" in answers["errors"][1] or "/$recursiveRef" in answers["errors"][1]:
        counts.add("with an error behind $dynamicRef or $recursiveRef")
    if answers["errors"][1].count("\n") > 1:
        counts.add("with several errors")
    if fuzz_checks.has_cycle(case.schema):
        counts.add("whose references may return")


def ask_some(given):
    """Asks of some cases. It is the work of one process."""
    program, seed, numbers = given
    caller = Caller(program)
    counts = Counts()
    for number in numbers:
        case = fuzz_cases.case(seed, number)
        again = MODES[number % len(MODES)]
        found, answers = look(caller, case, again)
        counts.add("cases")
        if found is None:
            describe(case, answers, counts)
        elif found[0] == "skipped":
            counts.add("skipped")
        else:
            counts.add("findings")
            small, (found, answers) = shrunk(caller, case, again)
            counts.findings.append(f"case {number} of seed {seed}\n{shown(program, small, found, answers)}")
    counts.add("calls", caller.calls)
    for file in (caller.out, caller.err, caller.nothing):
        os.close(file)
    return counts


def main():
    words = argparse.ArgumentParser()
    words.add_argument("program")
    words.add_argument("--seed", type=int, default=1)
    words.add_argument("--cases", type=int, default=1000)
    words.add_argument("--from", type=int, default=0, dest="begin", help="number of the first case")
    words.add_argument("--jobs", type=int, default=1)
    words.add_argument("--seconds", type=int, default=0, help="no further cases after so many seconds; 0 is without end")
    given = words.parse_args()
    begun = time.monotonic()
    end = given.begin + given.cases
    parts = [(given.program, given.seed, range(at, min(at + 50, end))) for at in range(given.begin, end, 50)]
    counts = Counts()
    with multiprocessing.Pool(given.jobs) as pool:
        for number, part in enumerate(pool.imap(ask_some, parts)):
            for finding in part.findings[: max(0, MOST_SHOWN - len(counts.findings))]:
                print(finding, flush=True)
            counts.join(part)
            if number % 20 == 19:
                print(f"{counts.numbers['cases']} cases, {counts.numbers.get('findings', 0)} findings", file=sys.stderr, flush=True)
            if given.seconds and time.monotonic() - begun > given.seconds:
                break
    for name in sorted(counts.numbers):
        print(f"{name}: {counts.numbers[name]}")
    return 1 if counts.findings else 0


if __name__ == "__main__":
    sys.exit(main())
