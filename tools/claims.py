#!/usr/bin/env python3
"""Says what is proved of each public function, from the sources: python3 tools/claims.py [CRATE..] [--words] [--all] [--succeeds]
or [--contracts FUNCTION..] or [--check]

For each crate of crates.txt (or for those that are named) it prints each public function with the names of its clauses, each trait with
those of its functions and its laws, and each type that keeps a trait of the repository. A name after `asks` is a condition on the caller.
A law is a member of a trait that an author of an `impl` has to prove: those ghost members that stand after the trait's functions, and all of
a trait that has none. A function, a type or a trait is public where the root of its crate declares it or lists it (`pub use module::Name`). The
modules are private: they stand before a name here so that it is found in the sources.

--words  the first sentence of each function's own words beside it
--all    functions that only their crate sees too
--succeeds  only those that answer no `Result`, and so cannot be refused memory, with their signatures
--contracts  prints the contracts of these functions of the crates in `SCOPE`, as `Validator::is_valid`, in the form of the kit's pages: S is
         what `self` points to, and `parts` all that is handed in, or what `handed` makes of it
--check  compares docs/CLAIMS.md with the sources, both ways: each clause of each public call has its line there, and each line there names
         clauses that the call has. What a public call is, `SCOPE` says. It compares the contracts in crates/schema_engine/CALLING.md too.
         Ends with 1 where something differs.
"""

import argparse
import re
import signal
import sys
from pathlib import Path

ROOT = Path(__file__).resolve().parent.parent

# of what docs/CLAIMS.md speaks: each public function and each trait of these crates, or these items of a crate
# the records that the clauses of builds and of the free calls cite, the calls' last
RECORDS = ("schema_validator/specs/BuildResults.antt", "schema_engine/specs/CallResults.antt")
SCOPE = (
    "schema_engine",
    "schema_validator",
    "schema_compiled::limit_failure",
    "schema_compiled::limit_failure_alone",
    "schema_traits::CloneKeyword",
    "schema_traits::KeywordTable",
    "schema_traits::Matcher",
    "schema_traits::MetaValidators",
    "schema_traits::Resolver",
    "schema_traits::Validate",
    "schema_output::Evaluation",
    "schema_keys::BuildError",
    "schema_keys::validate_schema",
    "standard_resolver::DocumentResolver",
    "meta_checker",
    "meta_schemas",
    "pattern_matcher::Patterns",
    "pattern_matcher::PatternMatcher",
    "pattern_matcher::is_readable",
    "standard_keywords::StandardTable",
    "standard_meta::MetaDocuments",
    "standard_meta::MetaSchemas",
    "error_causes",
    "jsonschema",
    "text_formats::Format",
)


PARTS = "S.Resolver T.KeywordTable K.Validate M.Matcher.own resolver.now table.now matcher.now"


class Item:
    """A function, or a law of a trait. Its clauses are pairs of a name and what it says, and so are its conditions on the caller."""

    def __init__(self, path, kind, said, asked, words, public, trait=None, signature=""):
        self.path, self.kind, self.said, self.asked = path, kind, said, asked
        self.words, self.public, self.trait, self.signature = words, public, trait, signature
        self.clauses, self.asks = [name for name, _ in said], [name for name, _ in asked]

    def owner(self):
        """The path of what the root lists for it: its own, or its trait's."""
        return self.path if self.kind == "fn" else self.path.rsplit("::", 1)[0]

    def short(self):
        """The path without the modules: a type and a name, or a name."""
        parts = self.path.split("::")
        return "::".join(parts[-2:] if len(parts) > 1 and parts[-2][0].isupper() else parts[-1:])

    def contract(self):
        """The lines of the contract, in the form of the kit's pages."""
        lines = [f"fn {self.short()}{self.signature}"]
        lines += [f"  requires {name}: {shortened(said)}" for name, said in self.asked]
        lines += [f"  ensures {name}: {shortened(said)}" for name, said in self.said]
        return lines


def shortened(said):
    said = " ".join(said.split()).replace(f"(handed {PARTS})", "parts").replace(PARTS, "parts")
    return said.replace("self.now", "S").replace("self.old", "S").replace("self.new", "S'")


def blanked(text):
    """The text with comments, strings and characters made blank, so that braces and words in it are the code's own."""
    pieces = re.compile(
        r'//[^\n]*|/\*.*?\*/|b?r(#*)".*?"\1|b?"(?:\\.|[^"\\])*"|b?\'(?:\\(?:x..|u\{[^}]*\}|.)|[^\'\\\n])\'', re.S
    )
    return pieces.sub(lambda m: re.sub(r"[^\n]", " ", m.group()), text)


def closing(code, start):
    """Where the brace at `start` closes."""
    depth = 0
    for place in range(start, len(code)):
        if code[place] == "{":
            depth += 1
        elif code[place] == "}":
            depth -= 1
            if depth == 0:
                return place
    return len(code) - 1


def words_above(text, place):
    """The first sentence of the comment that stands above a place."""
    lines = []
    for line in reversed(text[:place].splitlines()):
        line = line.strip()
        if line.startswith("//"):
            lines.append(line.lstrip("/").strip())
        elif line and not line.startswith("#"):
            break
    said = " ".join(reversed(lines))
    return re.split(r"(?<=[.:]) ", said)[0]


def without_angles(text):
    """A type without its arguments."""
    while True:
        shorter = re.sub(r"<[^<>]*>", "", text.replace("->", "  "))
        if shorter == text:
            return text.strip()
        text = shorter


def impl_of(head):
    """The trait, or None, and the type of an `impl`."""
    words = without_angles(head[head.index("impl") + 4 :])
    words = re.split(r"\bwhere\b", words)[0]
    trait, _, kind = words.rpartition(" for ")
    name = re.findall(r"\w+", kind)
    return (trait.strip().split("::")[-1] or None), (name[-1] if name else "")


def signature_of(said, name):
    """What stands after a function's name, up to its clauses."""
    rest = said[re.search(r"\bfn\s+%s\b" % name, said).end() :]
    rest = re.split(r"\b(?:ensures|requires)\b", rest)[0]
    rest = re.sub(r"\s+", " ", rest).strip()
    return re.sub(r",\s*(?=[)>])", "", re.sub(r"(?<=[(<])\s+", "", rest))


def used_names(used):
    """What a `use` lists: each name with the parts of its path."""
    lead, braced, rest = used.partition("{")
    for one in [each.strip() for each in rest.rstrip("} ").split(",")] if braced else [""]:
        if one or not braced:
            path, _, other = f"{lead.strip()}{one}".partition(" as ")
            yield other or path.split("::")[-1], path.split("::")


def is_public(head):
    return re.search(r"\bpub\s", head) is not None and "pub(" not in head


class Crate:
    """The functions, traits and kept traits of a crate."""

    def __init__(self, name):
        self.name, self.items, self.keeps, self.handed, self.declared = name, [], [], {}, set()
        self.folder = ROOT / "crates" / name / "src"
        root = next((self.folder / f for f in ("lib.rt", "main.rt") if (self.folder / f).is_file()), None)
        if root:
            self.read(root, [])
        self.offered = self.listed()
        self.names = {path.split("::")[-1] for path in self.offered}
        for item in self.items:
            # a method may stand in another module than its type
            listed = item.path.split("::")[-2] in self.names if item.kind == "method" else item.owner() in self.offered
            item.public = item.public and listed

    def listed(self):
        """The paths of what the root offers: what it declares, and what it lists, followed to where that is declared."""
        found = {path for path in self.declared if "::" not in path}
        for path, source in self.handed.items():
            while "::" not in path and source in self.handed:
                source = self.handed[source]
            if "::" not in path:
                found.add(source)
        return found

    def read(self, file, modules):
        text = file.read_text(encoding="utf-8")
        code = blanked(text)
        for used in re.findall(r"\bpub use ([^;]*);", code):
            for name, source in used_names(re.sub(r"\s+", " ", used)):
                source = source[1:] if source[0] in ("crate", "self") else [*modules, *source]
                self.handed["::".join([*modules, name])] = "::".join(source)
        self.walk(text, code, 0, len(code), modules, None)
        for name in re.findall(r"^[ ]*(?:pub(?:\([^)]*\))? )?mod (\w+);", code, re.M):
            below = file.parent if file.name in ("lib.rt", "main.rt") else file.with_suffix("")
            self.read(below / f"{name}.rt", [*modules, name])

    def walk(self, text, code, start, end, modules, owner):
        """The items between two places. `owner` is the kind and the name of the `impl` or the trait around them, and what trait the `impl` is
        of, or whether the trait is declared public."""
        head, place, clauses, asks, has_function = start, start, [], [], False
        while place < end:
            letter = code[place]
            said = re.sub(r"#!?\[[^\]]*\]", " ", code[head:place])
            if letter == "{":
                close = closing(code, place)
                clause = re.search(r"\b(ensures|requires)\*?(?:\s+([\w-]+))?\s*$", said)
                if clause:
                    told = (clause[2] or "unnamed", text[place + 1 : close])
                    (clauses if clause[1] == "ensures" else asks).append(told)
                    place = close + 1
                    continue
                if re.search(r"\bghost\b[^;]*[:=]\s*$", said):
                    self.note_law(text, code, head, said, modules, owner, has_function)
                elif re.search(r"\bfn\s+\w+", said):
                    self.note(text, code, head, said, modules, owner, clauses, asks)
                    has_function = True
                elif re.search(r"\bmod\s+\w+\s*$", said):
                    name = re.search(r"\bmod\s+(\w+)", said)[1]
                    self.walk(text, code, place + 1, close, [*modules, name], None)
                elif re.search(r"\btrait\s+\w+", said):
                    name = re.search(r"\btrait\s+(\w+)", said)[1]
                    self.note_name(said, name, modules)
                    self.walk(text, code, place + 1, close, modules, ("trait", name, is_public(said)))
                elif re.search(r"\bimpl\b", said) and not re.search(r"\b(fn|use)\b", said):
                    trait, kind = impl_of(said)
                    if trait:
                        self.keeps.append(("::".join([*modules, kind]), trait))
                    self.walk(text, code, place + 1, close, modules, ("impl", kind, trait))
                elif kept := re.search(r"\b(?:struct|enum|union)\s+(\w+)", said):
                    self.note_name(said, kept[1], modules)
                elif re.search(r"\buse\b", said):
                    place = close + 1
                    continue
                head, place, clauses, asks = close + 1, close + 1, [], []
                continue
            if letter == ";" and said.count("[") <= said.count("]"):
                if owner and owner[0] == "trait" and re.search(r"\bfn\s+\w+", said):
                    self.note(text, code, head, said, modules, owner, clauses, asks)
                    has_function = True
                elif kept := re.search(r"\b(?:struct|type)\s+(\w+)", said):
                    self.note_name(said, kept[1], modules)
                head, clauses, asks = place + 1, [], []
            place += 1

    def note_name(self, said, name, modules):
        if is_public(said):
            self.declared.add("::".join([*modules, name]))

    def note(self, text, code, head, said, modules, owner, clauses, asks):
        name = re.search(r"\bfn\s+(\w+)", said)[1]
        stands = re.compile(r"\bfn\s+%s\b" % name).search(code, head).start()
        words = words_above(text, text.rfind("\n", 0, stands) + 1)
        signature = signature_of(said, name)
        if owner is None:
            self.note_name(said, name, modules)
            self.items.append(Item("::".join([*modules, name]), "fn", clauses, asks, words, is_public(said), None, signature))
        elif owner[0] == "trait":
            path = "::".join([*modules, owner[1], name])
            self.items.append(Item(path, "trait fn", clauses, asks, words, owner[2], owner[1], signature))
        elif owner[2] is None:
            path = "::".join([*modules, owner[1], name])
            self.items.append(Item(path, "method", clauses, asks, words, is_public(said), None, signature))

    def note_law(self, text, code, head, said, modules, owner, has_function):
        if owner is None or owner[0] != "trait":
            return
        name = re.search(r"\bghost\s+(\w+)", said)[1]
        kind = "law" if has_function else "ghost"
        words = words_above(text, text.rfind("\n", 0, code.index("ghost", head)) + 1)
        path = "::".join([*modules, owner[1], name])
        self.items.append(Item(path, kind, [], [], words, owner[2], owner[1]))

    def laws(self):
        """Each trait with its laws. A trait without functions has none but laws."""
        with_functions = {i.trait for i in self.items if i.kind == "trait fn"}
        found = {}
        for item in self.items:
            if item.kind == "law" or (item.kind == "ghost" and item.trait not in with_functions):
                found.setdefault(item.path.rsplit("::", 1)[0], []).append(item)
        return found


def crates():
    lines = (ROOT / "crates.txt").read_text(encoding="utf-8").splitlines()
    return [line.split(":")[0] for line in lines if line and not line.startswith("#")]


def named(item):
    asked = [f"asks {a}" for a in item.asks]
    return " ".join([*item.clauses, *asked]) or "no clause"


def succeeding(name):
    """The public functions of a crate that answer no `Result`."""
    for item in Crate(name).items:
        if item.kind in ("fn", "method", "trait fn") and item.public and "Result" not in item.signature.rpartition("->")[2]:
            print(f"{name}::{item.path}{item.signature}")


def show(name, shows_words, shows_all):
    crate = Crate(name)
    shown = [i for i in crate.items if i.kind in ("fn", "method", "trait fn") and (i.public or shows_all)]
    traits = {t for known in crates() for t in TRAITS.get(known, ())}
    kept = sorted({(k, t) for k, t in crate.keeps if t in traits})
    print(f"{name}: {len(shown)} functions, {sum(len(i.clauses) for i in shown)} clauses")
    for item in shown:
        print(f"  {item.path}: {named(item)}")
        if shows_words and item.words:
            print(f"      {item.words}")
    for trait, laws in crate.laws().items():
        print(f"  laws of {trait}: {' '.join(l.path.split('::')[-1] for l in laws)}")
    for kind, trait in kept:
        print(f"  {kind} keeps {trait}")


TRAITS = {}
CALLING = ROOT / "crates" / "schema_engine" / "CALLING.md"


def note_traits():
    """The traits that the repository's crates declare, by crate."""
    for name in crates():
        folder = ROOT / "crates" / name / "src"
        texts = [blanked(f.read_text(encoding="utf-8")) for f in folder.rglob("*.rt")] if folder.is_dir() else []
        TRAITS[name] = {t for text in texts for t in re.findall(r"\bpub trait (\w+)", text)}


def in_scope(path):
    return any(f"{path}::".startswith(f"{part}::") for part in SCOPE)


def known_as(name, item, found):
    """A function's path without its modules; with its crate's name, if a crate before has a function of that name."""
    return f"{name}::{item.short()}" if item.kind == "fn" and item.short() in found else item.short()


def wanted_claims():
    """The clauses of each public call and the laws of each trait, by the call's path without its modules."""
    found = {}
    for name in dict.fromkeys(part.split("::")[0] for part in SCOPE):
        crate = Crate(name)
        for item in crate.items:
            if not item.public or not in_scope(f"{name}::{item.short()}"):
                continue
            if item.kind in ("fn", "method", "trait fn"):
                found[known_as(name, item, found)] = set(item.clauses) | {f"asks {a}" for a in item.asks}
        for trait, laws in crate.laws().items():
            short = trait.split("::")[-1]
            if laws[0].public and in_scope(f"{name}::{short}"):
                found[short] = {law.path.split("::")[-1] for law in laws}
    return found


def told_claims(text):
    """What docs/CLAIMS.md says: pairs of a call and a clause, each with its line. The first cell of a table's head says what its rows have:
    under `Clause` clauses of all calls that the heading names, under `Call` calls and then clauses. Where the heading has one name alone,
    calls without a type's name are that type's."""
    named, kind = [], ""
    for number, line in enumerate(text.splitlines(), 1):
        if line.startswith("#"):
            named, kind = re.findall(r"`([\w:]+)`", line), ""
        cells = [cell.strip() for cell in line.strip().strip("|").split("|")]
        if not line.startswith("|"):
            kind = ""
            continue
        if not kind:
            kind = cells[0]
            continue
        calls = named if kind == "Clause" else [owned(call, named) for call in re.findall(r"`([\w:]+)`", cells[0])]
        for asked, clause in re.findall(r"(asks )?`([\w-]+)`", cells[kind == "Call"]) if kind in ("Clause", "Call") else []:
            for call in calls:
                yield number, call, f"{asked}{clause}"


def owned(call, named):
    """A call by the type that a heading names."""
    return call if "::" in call or len(named) != 1 or call == named[0] else f"{named[0]}::{call}"


def contracts():
    """The contract of each public function in scope, by its short path."""
    found = {}
    for name in dict.fromkeys(part.split("::")[0] for part in SCOPE):
        for item in Crate(name).items:
            if item.public and item.kind in ("fn", "method", "trait fn") and in_scope(f"{name}::{item.short()}"):
                found[known_as(name, item, found)] = item.contract()
    return found


def wrong_contracts():
    """How many lines of the contracts in CALLING.md are not the sources'. A function may stand there with some of its clauses."""
    known, wrong, lines = contracts(), 0, []
    quoted = False
    for number, line in enumerate(CALLING.read_text(encoding="utf-8").splitlines() if CALLING.is_file() else [], 1):
        if line.startswith("```"):
            quoted = line == "```text" and not quoted
        elif quoted and line.startswith("fn "):
            lines = known.get(re.match(r"fn ([\w:]+)", line)[1], [])
        if quoted and not line.startswith("```") and line not in lines:
            print(f"{CALLING.relative_to(ROOT)}, line {number}: not as the sources have it: {line.strip()[:60]}")
            wrong += 1
    return wrong


def members_of(file):
    """The members of each record of a file of specs."""
    found = {}
    for line in (ROOT / "crates" / file).read_text(encoding="utf-8").splitlines():
        record = re.match(r" *pub record (\w+)", line)
        member = re.match(r" +pub (\w+) :", line)
        if record:
            members = found.setdefault(record[1], set())
        elif member and found:
            members.add(member[1])
    return found


def told_members(text, each):
    """What docs/CLAIMS.md says of records: triples of a line, a record and a member. Under `Record` the first cell names records and the
    second members; under `Member` it is the other way round, and a second cell that begins with `all` stands for all records of calls."""
    kind = ""
    for number, line in enumerate(text.splitlines(), 1):
        cells = [cell.strip() for cell in line.strip().strip("|").split("|")]
        if not line.startswith("|"):
            kind = ""
        elif not kind:
            kind = cells[0]
        elif kind in ("Record", "Member"):
            first, second = (re.findall(r"`(\w+)`", cell) for cell in cells[:2])
            records, members = (first, second) if kind == "Record" else (second or each, first)
            yield from ((number, record, member) for record in records for member in members)


def wrong_members(text):
    """How many members of the records that clauses cite docs/CLAIMS.md does not name, or names without need."""
    calls = members_of(RECORDS[-1])
    wanted = {(record, member) for file in RECORDS for record, members in members_of(file).items() for member in members}
    each = [record for record, members in calls.items() if "answer" in members]
    told, wrong = set(), 0
    for number, record, member in told_members(text, each):
        told.add((record, member))
        if (record, member) not in wanted:
            print(f"docs/CLAIMS.md, line {number}: `{record}` has no member `{member}`")
            wrong += 1
    for record, member in sorted(wanted - told):
        if record in {named for named, _ in told}:
            print(f"docs/CLAIMS.md says nothing of the member `{member}` of `{record}`")
            wrong += 1
    return wrong


def check():
    wanted, told, wrong = wanted_claims(), {}, wrong_contracts()
    wrong += wrong_members((ROOT / "docs" / "CLAIMS.md").read_text(encoding="utf-8"))
    for number, call, clause in told_claims((ROOT / "docs" / "CLAIMS.md").read_text(encoding="utf-8")):
        if call not in wanted:
            print(f"docs/CLAIMS.md, line {number}: there is no public call `{call}`")
            wrong += 1
        elif clause not in wanted[call]:
            print(f"docs/CLAIMS.md, line {number}: `{call}` has no clause `{clause}`")
            wrong += 1
        else:
            told.setdefault(call, set()).add(clause)
    for call, clauses in sorted(wanted.items()):
        for clause in sorted(clauses - told.get(call, set())):
            print(f"docs/CLAIMS.md says nothing of the clause `{clause}` of `{call}`")
            wrong += 1
    pairs = sum(len(c) for c in wanted.values())
    print(f"{len(wanted)} public calls and traits with {pairs} clauses and laws, {wrong} differences")
    return 1 if wrong else 0


def main():
    parser = argparse.ArgumentParser(description="Says what is proved of each public function.")
    parser.add_argument("crates", nargs="*", metavar="CRATE")
    parser.add_argument("--words", action="store_true", help="the first sentence of each function's own words")
    parser.add_argument("--all", action="store_true", help="functions that only their crate sees too")
    parser.add_argument("--succeeds", action="store_true", help="only those that cannot be refused memory")
    parser.add_argument("--contracts", nargs="+", metavar="FUNCTION", help="the contracts of these functions")
    parser.add_argument("--check", action="store_true", help="compare docs/CLAIMS.md with the sources")
    words = parser.parse_args()
    if words.check:
        return check()
    if words.contracts:
        known = contracts()
        print("\n".join(line for name in words.contracts for line in known.get(name, [f"there is no public {name}"])))
        return 0
    note_traits()
    for name in words.crates or crates():
        if not (ROOT / "crates" / name).is_dir():
            parser.error(f"there is no crate {name}")
        if words.succeeds:
            succeeding(name)
        else:
            show(name, words.words, words.all)
    return 0


if __name__ == "__main__":
    signal.signal(signal.SIGPIPE, signal.SIG_DFL)
    sys.exit(main())
