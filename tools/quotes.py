#!/usr/bin/env python3
"""Says whether the documents quote files as they are.

A quoted file is a block of code whose first line names the file after the language, as in ```rust crates/NAME/src/main.rt. Where the word
`part` follows, the block is a part of that file: lines that stand there one after the other, or several such pieces in the file's order, with
a line `..` between them. The file may be another page, which has the whole program. Each block of README.md, docs/*.md and crates/*/CALLING.md
that names a file is compared with it. Prints a line for each; ends with 1 where one differs.

A whole program is a block that begins with ```rust whole program. The block before it is its line of crates.txt, the block after it what it
prints. By --try each program of these pages (else of all documents) is run unproved, in a copy of the repository, some two minutes each.

Usage: python3 tools/quotes.py [--try [PAGE..]]
"""
import re
import shutil
import subprocess
import sys
import tempfile
from pathlib import Path

ROOT = Path(__file__).resolve().parent.parent


def documents():
    """The documents of the repository."""
    return [ROOT / "README.md", *sorted((ROOT / "docs").glob("*.md")), *sorted((ROOT / "crates").glob("*/CALLING.md"))]


def quotes(text):
    """The quoted files of a document: for each its name, whether a part of it is quoted, and the lines."""
    name, quoted, is_part = None, [], False
    for line in text.splitlines():
        words = line.split()
        if name is not None and line == "```":
            yield name, is_part, quoted
            name, quoted = None, []
        elif name is not None:
            quoted.append(line)
        elif line.startswith("```") and (len(words) == 2 or words[2:] == ["part"]):
            name, is_part = words[1], len(words) == 3


def place_of(piece, lines, start):
    """Where a piece stands among the lines, from a line on, or None."""
    places = range(start, len(lines) - len(piece) + 1)
    return next((place for place in places if lines[place : place + len(piece)] == piece), None)


def missing_piece(lines, quoted):
    """Which piece of a part is not in the file, in words, or None."""
    pieces, start = [[]], 0
    for line in quoted:
        if line.strip() == "..":
            pieces.append([])
        else:
            pieces[-1].append(line)
    for piece in pieces:
        place = place_of(piece, lines, start)
        if place is None:
            return f"what begins with `{next((line.strip() for line in piece if line.strip()), '')}` does not stand there so"
        start = place + len(piece)
    return None


def difference(name, is_part, quoted):
    """Where a quote differs from its file, in words, or None."""
    file = ROOT / name
    if not file.is_file():
        return "there is no such file"
    lines = file.read_text(encoding="utf-8").splitlines()
    if is_part:
        return missing_piece(lines, quoted)
    for number, (line, other) in enumerate(zip(lines, quoted), 1):
        if line != other:
            return f"they differ from line {number} on"
    if len(lines) != len(quoted):
        return f"the file has {len(lines)} lines, the quote {len(quoted)}"
    return None


def programs(text):
    """The whole programs of a document: for each its line of crates.txt, its text, and what it is to print."""
    blocks = re.findall(r"^```([^\n]*)\n(.*?)^```$", text, re.M | re.S)
    for before, (head, program), after in zip(blocks, blocks[1:], [*blocks[2:], ("", "")]):
        if head == "rust whole program":
            yield before[1].strip(), program, after[1]


def outcome(line, program, wanted):
    """What is wrong with a program, in words, or None. It is run in a copy of the repository."""
    name = line.partition(":")[0]
    if not re.fullmatch(r"[a-z]\w*:[\w ]*", line) or (ROOT / "crates" / name).exists():
        return "no line of a new crate stands before it"
    with tempfile.TemporaryDirectory() as folder:
        copy = Path(folder)
        shutil.copytree(ROOT / "crates", copy / "crates", ignore=shutil.ignore_patterns("out"))
        listed = (ROOT / "crates.txt").read_text(encoding="utf-8")
        (copy / "crates.txt").write_text(f"{listed}{line}\n", encoding="utf-8")
        source = copy / "crates" / name / "src" / "main.rt"
        source.parent.mkdir(parents=True)
        source.write_text(program, encoding="utf-8")
        run = subprocess.run(["rt", "try", "--seconds", "300"], cwd=source.parents[1], capture_output=True, text=True, check=False)
    if run.returncode == 0 and run.stdout == wanted:
        return None
    return f"it ended with {run.returncode} and printed\n{run.stdout}{run.stderr}"


def try_programs(pages):
    """Runs the whole programs of pages."""
    wrong = 0
    for page in pages:
        shown = page.relative_to(ROOT) if page.is_relative_to(ROOT) else page
        for line, program, wanted in programs(page.read_text(encoding="utf-8")):
            found = outcome(line, program, wanted)
            wrong += found is not None
            print(f"{shown}: {line.partition(':')[0]}: {found or 'prints what the page says'}", flush=True)
    return 1 if wrong else 0


def main():
    if sys.argv[1:2] == ["--try"]:
        return try_programs([Path(page) for page in sys.argv[2:]] or documents())
    wrong = 0
    for document in documents():
        for name, is_part, quoted in quotes(document.read_text(encoding="utf-8")):
            found = difference(name, is_part, quoted)
            wrong += found is not None
            shown = document.relative_to(ROOT)
            print(f"{shown}: {name}: {found or 'quoted as it is'}")
    return 1 if wrong else 0


if __name__ == "__main__":
    sys.exit(main())
