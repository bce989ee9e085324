#!/usr/bin/env python3
"""Finds how deep instances and schemas may be for engine_bench under a stack of 8 MiB:

    python3 tools/depth.py PROGRAM [--mebibytes N] [--seconds N] [--only WORD]

PROGRAM is engine_bench, as `rt run` leaves it in out/. It needs Linux and Python 3. For each way to be deep and each mode the depth is
doubled as long as the program gives the status that is wanted, and then halved between the last two. It prints a table: the deepest that
was answered, what went wrong one deeper, and how many bytes of stack a level takes. These are the stack by the depth, where the stack was
what went wrong; elsewhere the least stacks for that depth and for half of it are found, and their difference is divided, the words of the
call set aside, since they lie on the stack too.

What goes wrong: `stack` (ended by a signal), `reader` (the JSON reader takes a word as `not JSON` that nests deeper than 127), `word`
(Linux gives a program no word longer than 131,071 bytes), `time`, `memory` (more than 4 GiB, or told so), `status N` (a keyword that the
program does not have is only an annotation there).
"""

import argparse
import json
import os
import resource
import signal
import subprocess
import sys

MODES = ("valid", "first", "errors", "list")
# what a chain begins with
REFERENCE = '{"$ref":"#/$defs/d0",'
LONGEST_WORD = 131071
MOST_BYTES = 4 << 30
# what a stack is measured with, where it is not what bounds the depth
MEASURED_DEPTH = 1000
# how deep the instance nests where references and members are both followed
LEVELS = 120


def text_within(depth, before, inner, after):
    """A text between others that are repeated, since Python writes no value that nests so deep."""
    return before * depth + inner + after * depth


def chain(length, end):
    """A schema whose definitions refer each to the next, as a text."""
    definitions = [f'"d{number}":{{"$ref":"#/$defs/d{number + 1}"}}' for number in range(length)]
    definitions.append(f'"d{length}":{json.dumps(end, separators=(",", ":"))}')
    return f'{REFERENCE}"$defs":{{{",".join(definitions)}}}}}'


def references(depth):
    """A chain of references, one to the next, and a number that its end refuses."""
    return chain(max(depth - 1, 0), {"type": "string"}), "1", 1


def references_and_members(depth):
    """A chain of references that begins again at each member of the instance, which nests LEVELS deep. The depth counts references."""
    end = {"properties": {"n": {"$ref": "#"}}, "type": "object"}
    return chain(max(depth // LEVELS - 1, 0), end), text_within(LEVELS, '{"n":', "1", "}"), 1


def references_built(depth):
    """A chain of references that is built, and asked of nothing."""
    schema = chain(max(depth - 1, 0), {"type": "string"})
    return f'{{"type":"string","properties":{{"n":{{"$ref":"#/$defs/d0"}}}},{schema[len(REFERENCE):]}', "1", 1


def members(depth):
    """Members in members, by one reference a level."""
    return '{"properties":{"n":{"$ref":"#"}},"type":"object"}', text_within(depth, '{"n":', "1", "}"), 1


def members_not_monotone(depth):
    """The same beside a keyword that is not monotone, so that no solver is asked for the verdict."""
    return '{"not":false,"properties":{"n":{"$ref":"#"}},"type":"object"}', text_within(depth, '{"n":', "1", "}"), 1


def items(depth):
    """Lists in lists, by one reference a level."""
    return '{"items":{"$ref":"#"},"type":"array"}', text_within(depth, "[", "1", "]"), 1


def untouched(depth):
    """An instance that the schema does not look into, but shows."""
    return '{"type":"string"}', text_within(depth, "[", "1", "]"), 1


def all_of(depth):
    """`allOf` in `allOf`, which nests two levels each."""
    return text_within(depth, '{"allOf":[', '{"type":"string"}', "]}"), "1", 1


def negations(depth):
    """`not` in `not`."""
    return text_within(depth, '{"not":', '{"type":"string"}', "}"), "1", 1 if depth % 2 == 0 else 0


def properties(depth):
    """`properties` in `properties`, and an instance that is as deep as half of it."""
    schema = text_within(depth, '{"properties":{"n":', '{"type":"string"}', "}}")
    return schema, text_within(depth, '{"n":', "1", "}"), 1


def definitions(depth):
    """Definitions in definitions, which nothing refers to."""
    return text_within(depth, '{"$defs":{"a":', '{"type":"string"}', "}}"), "1", 0


# a schema around another, at the same place; and whether the verdict is the other one's, is turned, or is always yes
AROUND = {
    "allOf": (lambda inner: {"allOf": [inner]}, "same"),
    "anyOf": (lambda inner: {"anyOf": [inner]}, "same"),
    "oneOf": (lambda inner: {"oneOf": [inner]}, "same"),
    "not": (lambda inner: {"not": inner}, "turned"),
    "if": (lambda inner: {"if": inner}, "yes"),
    "then": (lambda inner: {"if": True, "then": inner}, "same"),
    "else": (lambda inner: {"if": False, "else": inner}, "same"),
    "dependentSchemas": (lambda inner: {"dependentSchemas": {"n": inner}}, "same"),
}


def chain_under(keyword, accepts):
    """A way to be deep: a chain of definitions, each with a reference to the next under a keyword that asks at the same place."""
    around, verdict = AROUND[keyword]

    def way(depth):
        definitions = {f"d{number}": around({"$ref": f"#/$defs/d{number + 1}"}) for number in range(depth)}
        definitions[f"d{depth}"] = {} if accepts else {"type": "string"}
        valid = verdict == "yes" or accepts != (verdict == "turned" and depth % 2 == 1)
        schema = {"$ref": "#/$defs/d0", "$defs": definitions}
        return json.dumps(schema, separators=(",", ":")), '{"n":1}', 0 if valid else 1

    way.__name__ = f"{keyword}_{'accepted' if accepts else 'refused'}"
    return way


def targets_built(depth):
    """References one inside the other with 116 `not` around each, which are built, and asked of nothing. The depth counts references."""
    def within(inner):
        for _ in range(116):
            inner = {"not": inner}
        return inner

    definitions = {f"d{number}": within({"$ref": f"#/$defs/d{number + 1}"}) for number in range(depth)}
    definitions[f"d{depth}"] = {}
    schema = {"type": "string", "properties": {"n": {"$ref": "#/$defs/d0"}}, "$defs": definitions}
    return json.dumps(schema, separators=(",", ":")), "1", 1


WAYS = [
    references, references_and_members, references_built, targets_built, members, members_not_monotone, items, untouched,
    all_of, negations, properties, definitions,
    *(chain_under(keyword, accepts) for keyword in AROUND for accepts in (True, False)),
]


class Runs:
    """Runs of the program under limits."""

    def __init__(self, program, stack, seconds):
        self.program = os.path.abspath(program)
        self.stack = stack
        self.seconds = seconds

    def outcome(self, mode, words, wanted, stack=None):
        """What went wrong, or none."""
        if any(len(word) > LONGEST_WORD for word in words):
            return "word"
        given = stack or self.stack

        def limit():
            resource.setrlimit(resource.RLIMIT_STACK, (given, resource.RLIM_INFINITY))
            resource.setrlimit(resource.RLIMIT_AS, (MOST_BYTES, MOST_BYTES))
            resource.setrlimit(resource.RLIMIT_CPU, (self.seconds, self.seconds))
            resource.setrlimit(resource.RLIMIT_CORE, (0, 0))

        try:
            done = subprocess.run([self.program, mode, *words], env={}, stdin=subprocess.DEVNULL, stdout=subprocess.DEVNULL,
                                  stderr=subprocess.PIPE, preexec_fn=limit, check=False)
        except OSError:
            return "stack"
        if done.returncode == wanted:
            return None
        if done.returncode in (-signal.SIGKILL, -signal.SIGXCPU):
            return "time"
        if done.returncode < 0:
            return "stack"
        if done.returncode == 3 and done.stderr.startswith(b"not JSON"):
            return "reader"
        return "memory" if done.returncode == 4 else f"status {done.returncode}"

    def at_depth(self, mode, way, depth, stack=None):
        schema, instance, wanted = way(depth)
        return self.outcome(mode, [schema, instance], wanted, stack)

    def deepest(self, mode, way):
        """The deepest that is answered, and what went wrong one deeper, or none."""
        low, high = 0, 1
        wrong = self.at_depth(mode, way, high)
        while wrong is None and high < 1 << 24:
            low, high = high, 2 * high
            wrong = self.at_depth(mode, way, high)
        exact = max(1, high // 200) if wrong in ("time", "memory") else 1
        while high - low > max(exact, high // 2000):
            middle = (low + high) // 2
            found = self.at_depth(mode, way, middle)
            if found is None:
                low = middle
            else:
                high, wrong = middle, found
        return low, wrong

    def least_stack(self, mode, way, depth):
        """The least stack under which a depth is answered, to 256 bytes, and without the words of the call."""
        low, high = 0, self.stack
        while high - low > 256:
            middle = (low + high) // 2
            if self.at_depth(mode, way, depth, middle) is None:
                high = middle
            else:
                low = middle
        schema, instance, _ = way(depth)
        return high - len(schema) - len(instance)

    def bytes_a_level(self, mode, way, depth, wrong):
        """The bytes of stack that a level takes."""
        if wrong == "stack":
            return self.stack / depth
        deep = min(depth, MEASURED_DEPTH)
        if deep < 2:
            return 0
        half = deep // 2
        return (self.least_stack(mode, way, deep) - self.least_stack(mode, way, half)) / (deep - half)


def main():
    words = argparse.ArgumentParser()
    words.add_argument("program")
    words.add_argument("--mebibytes", type=int, default=8)
    words.add_argument("--seconds", type=int, default=10)
    words.add_argument("--only", default="", help="ways whose names have this word")
    given = words.parse_args()
    runs = Runs(given.program, given.mebibytes << 20, given.seconds)
    print(f"stack: {given.mebibytes} MiB, {given.seconds} s of a processor a run")
    print(f"{'way':<24} {'mode':<7} {'deepest':>9} {'one deeper':<10} {'bytes a level':>14}")
    for way in WAYS:
        if given.only not in way.__name__:
            continue
        for mode in MODES:
            depth, wrong = runs.deepest(mode, way)
            level = runs.bytes_a_level(mode, way, depth, wrong)
            print(f"{way.__name__:<24} {mode:<7} {depth:>9,} {wrong or 'not tried':<10} {level:>14,.0f}", flush=True)
    return 0


if __name__ == "__main__":
    sys.exit(main())
