"""compare.py PROGRAM [COUNT]: asks node and the built program `bowtie_harness` of the same patterns, those written out in written.js and COUNT
random ones of the whole grammar (3000 where it is not said), and prints how many both answer alike, both refuse, one alone reads, or answer
differently. The program is asked of each pattern by a schema of `pattern` alone, and of each subject by an instance; node with the flag u where it
reads the pattern so, else without."""
import collections
import json
import os
import subprocess
import sys
import tempfile

HERE = os.path.dirname(os.path.abspath(__file__))
SHOWN = 40


def command(pattern, subjects):
    """The command that asks the program of a pattern and its subjects."""
    tests = [{"instance": subject} for subject in subjects]
    return json.dumps({"cmd": "run", "seq": 0, "case": {"schema": {"pattern": pattern}, "tests": tests}})


def digit(result):
    """The answer to one subject; `?` is a match that is left unfinished."""
    return {True: "1", False: "0", None: "?"}[result.get("valid")]


def mark(reply):
    """A reply of the program: `-` where it refuses, else a digit for each subject."""
    results = json.loads(reply).get("results")
    return "-" if results is None else "+" + "".join(map(digit, results))


def answers(program, count):
    """The rows, and a line of each side for each."""
    with tempfile.TemporaryDirectory() as folder:
        written, node = folder + "/rows", folder + "/answers"
        subprocess.run(["node", HERE + "/rows.js", count, written, node], check=True)
        with open(written, encoding="utf-8") as lines, open(node, encoding="utf-8") as told:
            rows, theirs = [json.loads(line) for line in lines], told.read().splitlines()
    commands = "".join(command(pattern, subjects) + "\n" for pattern, *subjects in rows)
    replies = subprocess.run([program], input=commands, capture_output=True, text=True, check=True).stdout
    return rows, theirs, [mark(reply) for reply in replies.splitlines()]


def agree(theirs, ours):
    """Whether no digit differs, where node has one and the program has one."""
    return all(their == our or their == "." or our == "?" for their, our in zip(theirs, ours))


def kind(theirs, ours):
    """How the two lines stand to each other."""
    if theirs == "-":
        return "both refuse" if ours == "-" else "only the program reads"
    grammar = {"u": "with the flag u", "o": "older grammar"}[theirs[0]]
    if ours == "-":
        return "only node reads, " + grammar
    return ("alike, " if agree(theirs[1:], ours[1:]) else "different, ") + grammar


def main(program, count="3000"):
    rows, theirs, ours = answers(program, count)
    found = collections.defaultdict(list)
    for row, their_line, our_line in zip(rows, theirs, ours):
        found[kind(their_line, our_line)].append(row[0])
    for name, patterns in sorted(found.items()):
        print(len(patterns), name, "" if name.startswith(("alike", "both")) else patterns[:SHOWN])
    print(sum(line.count("?") for line in ours), "matches left unfinished")


if __name__ == "__main__":
    main(*sys.argv[1:])
