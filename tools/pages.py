#!/usr/bin/env python3
"""Says whether the documents hold to what they are to be: python3 tools/pages.py

README.md has at most 110 lines, each other document (docs/*.md, crates/*/CALLING.md) at most 250, and no cell of a table more than 160
characters. Each name in backticks that has the form of code is a word of the sources, of the tests' data or of the tools; each file that is
named is there, and what a path that begins with a crate of the repository goes on to is a name that the crate's root lists; so is what a whole
program uses of a crate. How many rows and edits there are is as it is said. Quoted files are compared by tools/quotes.py, and what is said of
clauses by tools/claims.py --check.
Prints a line for each fault; ends with 1 where there is one.
"""

import functools
import re
import subprocess
import sys
from pathlib import Path

import claims
import quotes

ROOT = Path(__file__).resolve().parent.parent

README_LINES, PAGE_LINES, CELL = 110, 250, 160

# names that are no words of this repository's files: other programs and their words, the kit's, the standard's and upstream's
ELSEWHERE = set(
    """apt valgrind callgrind node git cargo python3 json rt python-jsonschema fastjsonschema valijson rapidjson RT_JOBS jsonschema std anyhow
    serde_json percent_encoding regex rattle-kit-13f rattle-kit-13b out RFC""".split()
)

FILE = re.compile(r"(?<![\w/.*-])((?:crates|docs|tools)/[\w./-]*\w)(?![\w*<])")
WORD = re.compile(r"[A-Za-z_][A-Za-z0-9_]*")


def source_words():
    """The words of the sources, definitions, proofs, rows, edits and tools, and the names of edits that went."""
    gone = ["git", "-C", str(ROOT), "log", "--diff-filter=D", "--format=", "--name-only", "--", "crates/*/must-fail/*"]
    edits = subprocess.run(gone, capture_output=True, text=True, check=False).stdout.splitlines()
    words = {Path(edit).stem for edit in edits}
    patterns = ("src/**/*.rt", "specs/**/*.antt", "proofs/**/*.antt", "data/*", "must-fail/*")
    for pattern in [*(f"crates/*/{each}" for each in patterns), "tools/**/*.py", "tools/**/*.c*", "tools/**/*.js"]:
        for file in ROOT.glob(pattern):
            if file.name == "renames.py":  # it has the names of before
                continue
            words.update(WORD.findall(file.read_text(encoding="utf-8", errors="replace")))
            words.add(file.stem)
    for pattern in ("crates/*", "crates/*/*"):
        words.update(path.stem for path in ROOT.glob(pattern))
    return words


def crate_names():
    return {path.name for path in (ROOT / "crates").iterdir() if path.is_dir()}


def prose(text):
    """The lines of a document that stand in no block of code, with their numbers."""
    quoted = False
    for number, line in enumerate(text.splitlines(), 1):
        if line.startswith("```"):
            quoted = not quoted
        elif not quoted:
            yield number, line


def code_names(line):
    """The names in backticks that have the form of code: paths, and words with an underscore or a capital inside."""
    for piece in re.findall(r"`([^`]+)`", line):
        if re.search(r"[\s\"'/=.$|\\()\[\]<>^*-]", re.sub(r"\{[^}]*\}|\(\)", "", piece)) or piece.startswith("--"):
            continue
        for path in expanded(piece.replace("()", "")):
            if re.fullmatch(r"[A-Za-z_][\w]*(::[A-Za-z_]\w*)*", path):
                yield path


def expanded(piece):
    """`a::{b, c}` as `a::b` and `a::c`."""
    found = re.fullmatch(r"(.*?)\{([^}]*)\}(.*)", piece)
    if not found:
        return [piece]
    return [f"{found[1]}{one.strip()}{found[3]}" for one in found[2].split(",")]


def path_fault(path, names, words):
    """What is wrong with a path of names, in words, or None."""
    parts = path.split("::")
    if len(parts) == 1 and not re.search(r"_|[a-z][A-Z]|^[A-Z][a-z]+[A-Z]", path):
        return None
    unknown = [part for part in parts if part not in words and part not in ELSEWHERE and part not in names]
    if unknown:
        return f"`{path}`: no file has the name {unknown[0]}"
    return unlisted(parts, names)


@functools.cache
def listed(crate):
    """The names that a crate's root lists."""
    return claims.Crate(crate).names


def unlisted(parts, names):
    """What is wrong with a path that begins with a crate of the repository, in words, or None."""
    if len(parts) > 1 and parts[0] in names and parts[1] not in listed(parts[0]):
        return f"`{'::'.join(parts)}`: the root of {parts[0]} lists no {parts[1]}"
    return None


def use_faults(text, names):
    """What whole programs use of a crate of the repository that its root does not list, with the lines."""
    for program in re.finditer(r"^```rust whole program\n(.*?)^```", text, re.M | re.S):
        for used in re.finditer(r"^use ([^;]*);", program[1], re.M):
            number = text.count("\n", 0, program.start(1) + used.start()) + 1
            for _, parts in claims.used_names(" ".join(used[1].split())):
                if fault := unlisted(parts, names):
                    yield number, fault


def file_faults(line):
    for name in FILE.findall(line):
        if not re.search(r"[A-Z]{3,}(?!\w*\.md)", name.replace("README", "").replace("CALLING", "")) and not (ROOT / name).exists():
            yield f"there is no {name}"


def definition_faults(line, known):
    for name in re.findall(r"`specs/(\w+)`", line):
        if name not in known:
            yield f"no crate has specs/{name}.antt"


def cell_faults(line):
    if line.startswith("|"):
        for cell in re.split(r"(?<!\\)\|", line.strip().strip("|")):
            if len(cell.strip()) > CELL:
                yield f"a cell of {len(cell.strip())} characters: {cell.strip()[:50]}"


def link_faults(document, line):
    for target in re.findall(r"\]\(([^)#]+)[^)]*\)", line):
        if not target.startswith("http") and not (document.parent / target).exists():
            yield f"there is no {target}"


def count_faults(line):
    rows = list((ROOT / "crates" / "test_check_rows" / "data").glob("*.jsonl"))
    number = sum(len(file.read_text(encoding="utf-8").splitlines()) for file in rows)
    edits = len(list((ROOT / "crates").glob("*/must-fail/*.edit")))
    for said in re.findall(r"([\d,]+) rows in (\d+) files", line):
        if (int(said[0].replace(",", "")), int(said[1])) != (number, len(rows)):
            yield f"there are {number} rows in {len(rows)} files"
    for said in re.findall(r"\b(\d+) edits in", line):
        if int(said) != edits:
            yield f"there are {edits} edits"


def main():
    words, names = source_words(), crate_names()
    definitions = {path.stem for path in ROOT.glob("crates/*/specs/**/*.antt")}
    wrong = 0
    for document in quotes.documents():
        text = document.read_text(encoding="utf-8")
        shown, lines = document.relative_to(ROOT), len(text.splitlines())
        most = README_LINES if document.name == "README.md" else PAGE_LINES
        found = [(0, f"{lines} lines, more than {most}")] if lines > most else []
        found += use_faults(text, names)
        for number, line in prose(text):
            faults = [*cell_faults(line), *file_faults(line), *definition_faults(line, definitions), *link_faults(document, line)]
            faults += [fault for path in code_names(line) if (fault := path_fault(path, names, words))]
            found += [(number, fault) for fault in [*faults, *count_faults(line)]]
        for number, fault in found:
            print(f"{shown}{f', line {number}' if number else ''}: {fault}")
        wrong += len(found)
    print(f"{len(quotes.documents())} documents, {wrong} faults")
    return 1 if wrong else 0


if __name__ == "__main__":
    sys.exit(main())
