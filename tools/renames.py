#!/usr/bin/env python3
"""Turns the names that crates and types had before the house was put in order into those of today.

renames.py FILE..   turns the names in these files, such as a patch over the old names

It knows the crates that were merged and the modules that moved. It does not know that the root of a
library lists what it offers: a line `use schema_reports::location::Location;` of an old patch becomes
`use schema_reports::Location;` by hand.
"""
import re
import sys

CRATES = {
    "schema_definitions": "theory_definitions",
    "schema_meaning": "theory_meaning",
    "schema_greatest": "theory_fixed_points",
    "schema_runs": "theory_runs",
    "schema_keywords": "schema_drafts",
    "schema_parts": "schema_traits",
    "schema_matches": "unfinished_matches",
    "schema_search": "unfinished_search",
    "node_table": "schema_node_table",
    "schema_contexts": "schema_run_context",
    "run_steps": "schema_run_steps",
    "schema_pairs": "schema_solver_state",
    "schema_answers": "schema_compiled",
    "keyword_ways": "keyword_authoring",
    "joined_keywords": "keyword_joins",
    "bench_keywords": "standard_basics",
    "gated_keywords": "standard_pattern_properties",
    "format_keywords": "standard_formats",
    "bench_subschemas": "standard_subschemas",
    "bench_resolver": "standard_resolver",
    "first_checker": "meta_checker",
    "harness_commands": "bowtie_protocol",
    "fused_keywords": "example_fused_keywords",
    "case_rows": "test_rows",
    "engine_cases": "test_row_answers",
    "check_rows": "test_check_rows",
    "law_tests": "test_laws",
    "unit_tests": "test_units",
    "engine_tests": "test_engine",
    "format_cases": "test_formats",
}
# The program is a crate of its own beside the library of its name, which is turned after it.
PROGRAM = [
    (r"\bcrates/jsonschema\b", "crates/jsonschema_cli"),
    (r"\bout/jsonschema\b", "out/jsonschema_cli"),
    (r"^jsonschema: ", "jsonschema_cli: "),
    (r"`command_line`; `jsonschema`", "`command_line`; `jsonschema_cli`"),
    (r"\| `jsonschema` \| 320 \|", "| `jsonschema_cli` | 320 |"),
    (r"--command jsonschema\b", "--command jsonschema_cli"),
    (r"by jsonschema\"", "by jsonschema_cli\""),
    (r"the built jsonschema\b", "the built jsonschema_cli"),
]
TYPES = {
    "BenchResolver": "DocumentResolver",
    "BenchResolverResolver": "DocumentResolverResolver",
    "BenchState": "DocumentState",
    "BenchKeyword": "BasicKeyword",
    "BenchKeywordClone": "BasicKeywordClone",
    "BenchKeywordValidate": "BasicKeywordValidate",
    "BenchShape": "BasicShape",
    "BenchResolving": "SubschemaRules",
    "BenchPointers": "DocumentPointers",
    "BenchPointersLead": "DocumentPointersLead",
    "BenchDocuments": "ResolverDocuments",
    "BenchDocument": "HeldDocuments",
    "BenchKeys": "DocumentKeys",
    "BenchUris": "DocumentUris",
    "BenchResources": "DocumentResources",
    "BenchSpeaking": "ResourceSpeaking",
    "BenchStates": "DocumentStates",
    "BenchLookups": "DocumentLookups",
    "BenchRows": "DocumentRows",
    "BenchViews": "DocumentViews",
    "BenchNameViews": "DocumentNameViews",
    "BenchResourceViews": "DocumentResourceViews",
    "BenchGathered": "ResourcesGathered",
    "BenchAnswers": "ResolverAnswers",
    "BenchHolds": "ResolverHolds",
    "BenchShowing": "DocumentShowing",
    "BenchStart": "ResolverStart",
    "bench_resolving": "document_resolving",
    "bench_grows": "basics_grow",
    "bench_hands_units_on": "basics_hand_units_on",
    "bench_asks_no_units": "basics_ask_no_units",
    "bench_asks_verdicts": "basics_ask_verdicts",
    "bench_script": "basic_script",
    "RowsBench": "RowsWorked",
    "fused_bench": "fused_parts",
}


# Crates that were merged into another, and the module that took what their root held.
MERGED = {
    "asked_questions": ("schema_traits", "asked"),
    "schema_verdicts": ("schema_solver", ""),
    "schema_calls": ("schema_compiled", ""),
    "first_errors": ("meta_checker", ""),
    "shown_fractions": ("meta_checker", ""),
    "dates_and_addresses": ("text_formats", ""),
}
# What moved from the bench to the basic keywords.
MOVED = [
    (r"\bbench_parts(::|/src/)table\b", r"standard_basics\1table"),
    (r"\bbench_parts([./])(specs|proofs)([./])(Makers|MakerLaws|MemberNames|table)\b", r"standard_basics\1\2\3\4"),
    (r"\bBenchTable\b", "BasicTable"),
]
# Modules that would have the name of a crate that their crate uses.
MODULES = [
    (r"\bschema_search::unfinished_matches::", "unfinished_search::"),
    (r"\bschema_search\.specs\.declared\.unfinished_matches\.", "unfinished_search.specs.declared."),
    (r"\bschema_search\.proofs\.unfinished_matches\.", "unfinished_search.proofs."),
    (r"^file: src/unfinished_matches/", "file: src/"),
]


def turned(text):
    for old, new in PROGRAM:
        text = re.sub(old, new, text, flags=re.M)
    text = re.sub(r"\bstandard_validator\b", "jsonschema", text)
    for old, new in MODULES + MOVED:
        text = re.sub(old, new, text, flags=re.M)
    for old, (new, module) in MERGED.items():
        text = re.sub(r"\b%s::" % old, new + "::" + module + "::" * bool(module), text)
        inside = module + "." if module else ""
        text = re.sub(r"\b%s\.(specs\.declared\.|proofs\.(?=[a-z]))" % old, r"%s.\1%s" % (new, inside), text)
        text = re.sub(r"\b%s\.(?=specs|proofs)" % old, new + ".", text)
        folder = module + "/" if module else ""
        text = re.sub(r"\bcrates/%s/(src/|proofs/(?=[a-z]))(?!lib\.rt)" % old, r"crates/%s/\1%s" % (new, folder), text)
        text = re.sub(r"\bcrates/%s/" % old, "crates/%s/" % new, text)
    table = {**CRATES, **TYPES}
    return re.sub(r"\b(%s)\b" % "|".join(sorted(table, key=len, reverse=True)), lambda m: table[m[1]], text)


for path in sys.argv[1:]:
    with open(path) as it:
        text = it.read()
    with open(path, "w") as it:
        it.write(turned(text))
