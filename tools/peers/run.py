#!/usr/bin/env python3
"""Measures the time per instance of this engine and of its peers, side by side: python3 tools/peers/run.py --ours COMMAND

The instance is the case `objects` of 2,000 records (tools/cases.py), or that of --case NAME SIZE; it is read once and validated many
times. A line is printed for each: name, version, and the milliseconds that an instance takes, as the median of the rounds, the lowest and
the highest, with tabs between. Lines that begin with # say what ran beside, and which peers were not found. With --instructions one more
line is printed for each of the C++ peers, with the instructions that an instance takes, by valgrind.

COMMAND is the built engine_bench, or a command among whose words are {repeats}, and {schema} and {instance} for the texts or {schema_file}
and {instance_file}. A command with {repeats} validates so often, and ends with 0 where the instance is accepted and with 1 where it is
refused. engine_bench is measured in two ways:
- `ours` as the peers are, whose instance is read once and validated many times: the schema is the `allOf` of so many references to the
  case's, and what one reference takes is subtracted. A schema that refers to itself, or a large one, is left out: the engine remembers
  what it has said of it at a place (docs/PERFORMANCE.md, "Verdicts on reference cycles").
- `ours once` validates once: the time with the schema `true` is subtracted from the time with the schema, so the reading of the instance
  is set aside, and the reading and the building of the schema are in what is shown.

The peers:
- valijson, in C++, with rapidjson (Debian: libvalijson-dev, rapidjson-dev); it is built by `g++ -O2 -DNDEBUG` in a temporary folder.
- rapidjson's own validator, built likewise. It knows draft 4, and no `const`.
- ajv, in JavaScript (Debian: node-ajv), which makes code of a schema.
- fastjsonschema, in Python (Debian: python3-fastjsonschema, or pip).
- python-jsonschema, in Python (Debian: python3-jsonschema, or jsonschema of pip).

Schemas have their definitions under `definitions`, which every draft knows.

A time is processor time, of the process with many repeats less that of the same with one, by the number of repeats between. Rounds go
over all peers in turn. --python may be given several times: the first interpreter that has a module runs it.
"""

import argparse
import json
import os
import pathlib
import platform
import re
import shlex
import statistics
import subprocess
import sys
import tempfile

HERE = pathlib.Path(__file__).resolve().parent
sys.path.insert(0, str(HERE.parent))

from cases import ALL_CASES, case_of  # noqa: E402

# what is measured unless another case is asked for
NAME, SIZE = "objects", "2000"
# a peer has to refuse the case of this name, where there is one, so that a peer that looks at nothing is seen
REFUSED = "{}-refused"
# the processor time, in seconds, that a measurement takes at least where a process can repeat
ENOUGH = 0.6
# how often a process that validates once is run in a round
PAIRS = 25
# how many references to the schema a process follows that validates many times, and how often it is run in a round
REFERENCES = 100
PAIRS_OF_MANY = 3
# the engine may remember what it has said of a schema of 255 nodes; one of so many objects is far from that
FEW_OBJECTS = 100


class NotFound(Exception):
    """Why a peer cannot be measured."""


def ended(command):
    """The processor time of the command, in seconds, and its status."""
    process = subprocess.Popen(command, stdout=subprocess.DEVNULL, stderr=subprocess.PIPE)
    with process.stderr as pipe:
        said = pipe.read()
    _, status, usage = os.wait4(process.pid, 0)
    process.returncode = os.WEXITSTATUS(status) if os.WIFEXITED(status) else -os.WTERMSIG(status)
    if process.returncode not in (0, 1):
        raise NotFound(f"status {process.returncode}: " + " ".join(said.decode(errors="replace").split())[-200:])
    return usage.ru_utime + usage.ru_stime, process.returncode


class Texts:
    """A case's schema and instance, as texts and as files."""

    def __init__(self, folder, name, size):
        case = case_of(name, size)
        self.schema, self.instance = case.schema.replace("$defs", "definitions"), case.instance
        self.schema_file, self.instance_file = folder / f"{name}.schema.json", folder / f"{name}.instance.json"
        self.schema_file.write_text(self.schema, encoding="utf-8")
        self.instance_file.write_text(self.instance, encoding="utf-8")

    def fill(self, words, repeats):
        """The words of a command, with what stands for these texts put in."""
        parts = {
            "{schema_file}": str(self.schema_file),
            "{instance_file}": str(self.instance_file),
            "{schema}": self.schema,
            "{instance}": self.instance,
            "{repeats}": str(repeats),
        }
        return [parts.get(word, word) for word in words]


class Repeating:
    """A peer whose process takes a number of repeats."""

    said = "the schema is built once, and the instance is validated many times"

    def __init__(self, name, version, words):
        self.name, self.version, self.words = name, version, words
        self.repeats = 1

    def accepts(self, texts):
        return ended(texts.fill(self.words, 1))[1] == 0

    def prepare(self, texts):
        """Takes as many repeats as a measurement needs."""
        while self.repeats < 10**7 and self.seconds(texts) < ENOUGH:
            self.repeats *= 2

    def seconds(self, texts):
        """The processor time that so many more repeats take."""
        return ended(texts.fill(self.words, 1 + self.repeats))[0] - ended(texts.fill(self.words, 1))[0]

    def measure(self, texts):
        """Milliseconds per instance."""
        return 1000 * self.seconds(texts) / self.repeats


class Counted(Repeating):
    """A peer in C++, whose instructions can be counted."""

    def instructions(self, texts):
        """The instructions that an instance takes: half of those that two more repeats take."""
        counts = []
        for repeats in (1, 3):
            command = ["valgrind", "--tool=callgrind", "--callgrind-out-file=/dev/null", *texts.fill(self.words, repeats)]
            said = subprocess.run(command, stdout=subprocess.DEVNULL, stderr=subprocess.PIPE).stderr.decode(errors="replace")
            counts.append(int(re.search(r"Collected : (\d+)", said).group(1)))
        return (counts[1] - counts[0]) // 2


class Once:
    """engine_bench, whose process validates once."""

    said = "a process validates once; what it takes with the schema true is subtracted; building the schema is in it"

    def __init__(self, name, version, words):
        self.name, self.version, self.words = name, version, words

    def command(self, schema, texts):
        return [*self.words, "valid", schema, texts.instance]

    def accepts(self, texts):
        return ended(self.command(texts.schema, texts))[1] == 0

    def prepare(self, texts):
        pass

    def measure(self, texts):
        """Milliseconds per instance: the median of many runs."""
        pairs = (
            ended(self.command(texts.schema, texts))[0] - ended(self.command("true", texts))[0] for _ in range(PAIRS)
        )
        return 1000 * statistics.median(pairs)


def objects_in(value):
    """The objects in a value, itself among them."""
    if isinstance(value, dict):
        yield value
    for inner in value.values() if isinstance(value, dict) else value if isinstance(value, list) else ():
        yield from objects_in(inner)


def is_asked_again(schema):
    """Whether the engine asks a schema of this text again wherever it is referred to again: it is small, and does not refer to itself."""
    whole = json.loads(schema)
    named = {"#": whole, **{f"#/definitions/{name}": inner for name, inner in whole.get("definitions", {}).items()}}
    below = {name: {one["$ref"] for one in objects_in(inner) if "$ref" in one} for name, inner in named.items()}
    for _ in below:
        below = {name: leads.union(*(below.get(one, ()) for one in leads)) for name, leads in below.items()}
    return len(list(objects_in(whole))) < FEW_OBJECTS and not any(name in leads for name, leads in below.items())


def referred_to(schema, times):
    """The schema that is all of so many references to this one, whose definitions stay where they are."""
    whole = json.loads(schema)
    definitions = whole.pop("definitions", {})
    many = {"allOf": [{"$ref": "#/definitions/whole"}] * times, "definitions": {**definitions, "whole": whole}}
    return json.dumps(many, separators=(",", ":"))


class Referred(Once):
    """engine_bench, whose process validates as often as a schema refers to the case's."""

    said = f"the schema is built once, and the instance is validated {REFERENCES} times, by so many references"

    def accepts(self, texts):
        if not is_asked_again(texts.schema):
            raise NotFound("the engine remembers what it has said of this schema")
        return ended(self.command(referred_to(texts.schema, 2), texts))[1] == 0

    def measure(self, texts):
        """Milliseconds per instance: the median of some runs."""
        few, many = (self.command(referred_to(texts.schema, times), texts) for times in (1, 1 + REFERENCES))
        pairs = (ended(many)[0] - ended(few)[0] for _ in range(PAIRS_OF_MANY))
        return 1000 * statistics.median(pairs) / REFERENCES


def output(command):
    """What the command prints, or nothing where it fails or is not there."""
    try:
        done = subprocess.run(command, stdout=subprocess.PIPE, stderr=subprocess.DEVNULL)
    except OSError:
        return ""
    return done.stdout.decode(errors="replace").strip() if done.returncode == 0 else ""


def version_of(given):
    return given.ours_version or output(["git", "-C", str(HERE), "describe", "--always", "--dirty"]) or "-"


def ours(given, folder):
    words = shlex.split(given.ours)
    return (Repeating if "{repeats}" in words else Referred)("ours", version_of(given), words)


def ours_once(given, folder):
    words = shlex.split(given.ours)
    if "{repeats}" in words:
        raise NotFound("the command repeats")
    return Once("ours once", version_of(given), words)


def package(name):
    """The version of a package of the system."""
    return output(["dpkg-query", "-W", "-f", "${Version}", name]) or "-"


def in_cpp(name, *packages):
    def peer(given, folder):
        program = folder / f"{name}_peer"
        command = ["g++", "-O2", "-DNDEBUG", "-o", str(program), str(HERE / f"{name}_peer.cpp")]
        try:
            built = subprocess.run(command, stdout=subprocess.DEVNULL, stderr=subprocess.PIPE)
        except OSError:
            raise NotFound("no g++")
        if built.returncode != 0:
            said = [line for line in built.stderr.decode(errors="replace").splitlines() if "error" in line]
            raise NotFound("it does not build: " + (said[0].split("error: ")[-1] if said else f"status {built.returncode}"))
        versions = ", ".join(f"{one} {package(one)}" for one in packages)
        version = f"{versions}, g++ {output(['g++', '-dumpfullversion'])}"
        return Counted(name, version, [str(program), "{schema_file}", "{instance_file}", "{repeats}"])

    return peer


def ajv(given, folder):
    os.environ.setdefault("NODE_PATH", "/usr/share/nodejs")
    words = ["node", str(HERE / "ajv_peer.js")]
    version = output(words)
    if not version:
        raise NotFound("no node that has the module")
    return Repeating("ajv", version, [*words, "{schema_file}", "{instance_file}", "{repeats}"])


def in_python(name, module):
    def peer(given, folder):
        for interpreter in [*given.python, sys.executable, "python3"]:
            words = [interpreter, str(HERE / "python_peer.py"), module]
            version = output(words)
            if version:
                return Repeating(name, version, [*words, "{schema_file}", "{instance_file}", "{repeats}"])
        raise NotFound("no interpreter that was tried has the module")

    return peer


PEERS = {
    "ours": ours,
    "ours once": ours_once,
    "valijson": in_cpp("valijson", "libvalijson-dev", "rapidjson-dev"),
    "rapidjson": in_cpp("rapidjson", "rapidjson-dev"),
    "ajv": ajv,
    "fastjsonschema": in_python("fastjsonschema", "fastjsonschema"),
    "python-jsonschema": in_python("python-jsonschema", "jsonschema"),
}


def found(given, folder, texts, refused):
    """The peers that are there and that answer."""
    peers = []
    for name, make in PEERS.items():
        if name.startswith("ours") and not given.ours:
            continue
        try:
            peer = make(given, folder)
            if not peer.accepts(texts) or (refused and peer.accepts(refused)):
                raise NotFound("it does not answer as it should")
            peer.prepare(texts)
            peers.append(peer)
            print(f"# {name}: {peer.said}", flush=True)
        except (NotFound, OSError) as error:
            print(f"# {name} is not measured: {error}", flush=True)
    return peers


def processor():
    """The processor's name, where the system tells it."""
    try:
        with open("/proc/cpuinfo", encoding="utf-8") as file:
            names = [line.split(":", 1)[1].strip() for line in file if line.startswith("model name")]
    except OSError:
        names = []
    return names[0] if names else platform.machine()


def load():
    return " ".join(f"{number:.1f}" for number in os.getloadavg())


def arguments():
    parser = argparse.ArgumentParser(description=__doc__, formatter_class=argparse.RawDescriptionHelpFormatter)
    parser.add_argument("--ours", metavar="COMMAND", help="the built engine_bench, or a command with {repeats}")
    parser.add_argument("--ours-version", metavar="TEXT", help="what to call its version; else the commit that is checked out")
    parser.add_argument("--python", action="append", default=[], metavar="INTERPRETER", help="an interpreter to look for modules in")
    parser.add_argument("--case", nargs=2, default=(NAME, SIZE), metavar=("NAME", "SIZE"), help="what is measured")
    parser.add_argument("--instructions", action="store_true", help="count the instructions of the C++ peers too")
    parser.add_argument("--rounds", type=int, default=7, help="how often each is measured")
    return parser.parse_args()


def main():
    given = arguments()
    case, size = given.case[0], int(given.case[1])
    with tempfile.TemporaryDirectory() as name:
        folder = pathlib.Path(name)
        texts = Texts(folder, case, size)
        refused = Texts(folder, REFUSED.format(case), size) if REFUSED.format(case) in ALL_CASES else None
        about = f"{case} of {size:,}, {len(texts.instance):,} bytes"
        print(f"# the case {about}; one thread of {processor()}, {os.cpu_count()} processors")
        print(f"# load of the last one, five and fifteen minutes before: {load()}", flush=True)
        peers = found(given, folder, texts, refused)
        times = {peer.name: [] for peer in peers}
        for _ in range(given.rounds):
            for peer in peers:
                times[peer.name].append(peer.measure(texts))
        print(f"# load after: {load()}; {given.rounds} rounds")
        for peer in peers:
            row = times[peer.name]
            print(peer.name, peer.version, *(f"{number:.3f}" for number in (statistics.median(row), min(row), max(row))), sep="\t")
        for peer in peers:
            if given.instructions and isinstance(peer, Counted):
                print(f"# {peer.name}: {peer.instructions(texts):,} instructions")


if __name__ == "__main__":
    main()
