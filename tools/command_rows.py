#!/usr/bin/env python3
"""Runs the command `jsonschema` over a table of calls, and compares each with the status and the texts that are wanted.

Prints a line for each call that goes otherwise, then how many there were and how many went wrong; ends with 1 where one did. What is
wanted is written from the command's manual (`--help`, docs/USING.md), the standard's meaning of the schemas and the texts of the crate
`jsonschema`, not from what it printed.

Usage: python3 tools/command_rows.py crates/jsonschema_cli/out/jsonschema_cli
       python3 tools/command_rows.py crates/jsonschema_cli/out/jsonschema_cli --lines 1000 100000 1000000

The second measures: so many lines of some 300 bytes, by a schema of ten keywords and by the schema `true`, which asks nothing, so that
the time of its run is that of reading and parsing alone; and how much memory each took at most. It prints the least of three runs.
"""

import json
import os
import pty
import re
import resource
import subprocess
import sys
import tempfile
import time
import urllib.request
from pathlib import Path

FILES = {
    "number.json": '{"type": "number"}',
    "person.json": '{"$id": "https://e.example/person", "properties": {"age": {"type": "integer"}}, "required": ["name"]}',
    "true.json": "true",
    "false.json": "false",
    "itself.json": '{"$ref": "#"}',
    "deep.json": "[" * 200,
    "escape.json": '{"properties": {"\\u001b[31m": {"type": "strin"}}}',
    "refers.json": '{"$ref": "https://e.example/other"}',
    "other.json": '{"type": "string"}',
    "astray.json": '{"$ref": "#/$defs/none"}',
    "wrong.json": '{"properties": {"a": {"type": "strin"}}}',
    "seven.json": '{"$schema": "http://json-schema.org/draft-07/schema#", "type": "string"}',
    "constant.json": '{"const": 1}',
    "exclusive.json": '{"minimum": 3, "exclusiveMinimum": true}',
    "back.json": '{"pattern": "(a)\\\\1"}',
    "atomic.json": '{"pattern": "(?>a)"}',
    "1.json": "1",
    "3.json": "3",
    "text.json": '"text"',
    "cut.json": '{"a":\n  [1, 2',
    "ann.json": '{"name": "Ann", "age": 3}',
    "bob.json": '{"age": "3"}',
    "bell.json": '{"name": "\\u0007", "age": "\\u001b[31m"}',
    "key.json": '{"properties": {"a\\nb": {"type": "null"}}}',
    "fed.json": '{"a\\nb": 1}',
    "lines": '1\n\n2\n"x"\n{\n  3\r\n',
    "good.lines": "1\n2\n3",
    "none.lines": "",
    "bytes.lines": b'1\n"\xff"\n2\n',
    "marked.json": b"\xef\xbb\xbf1",
    "texts.json": '{"enum": [1]}',
    "long.json": '"' + "x" * 500 + '"',
    "folder/b.json": '"text"',
    "folder/a.json": "1",
    "folder/c.txt": "{",
    "nest.json": '{"type": ["array", "integer"], "items": {"$ref": "#"}}',
    "nest.in": "[[[[[1]]]]]",
    "own.json": '{"$schema": "https://e.example/meta", "type": "integer"}',
    "meta.json": '{"$id": "https://e.example/meta", "$schema": "http://json-schema.org/draft-07/schema#"}',
    "titles.json": '{"$id": "https://e.example/titles", "$schema": "http://json-schema.org/draft-07/schema#", "required": ["title"]}',
    "titled.json": '{"$schema": "https://e.example/titles", "title": "t", "type": "integer"}',
    "untitled.json": '{"$schema": "https://e.example/titles", "type": "integer"}',
    "types.json": '{"$id": "https://e.example/types", "$schema": "https://e.example/titles", "title": "t", "required": ["type"]}',
    "typed.json": '{"$schema": "https://e.example/types", "type": "integer"}',
    "untyped.json": '{"$schema": "https://e.example/types", "title": "t"}',
    "strings.json": '{"$id": "https://e.example/strings", "$schema": "http://json-schema.org/draft-07/schema#", "type": "strin"}',
    "stringed.json": '{"$schema": "https://e.example/strings"}',
    "round.json": '{"$id": "https://e.example/round", "$schema": "https://e.example/round"}',
    "rounded.json": '{"$schema": "https://e.example/round"}',
    "halves.json": '{"$id": "https://e.example/halves", "$schema": "http://json-schema.org/draft-07/schema#",'
                   ' "properties": {"minimum": {"multipleOf": 0.5}}}',
    "halved.json": '{"$schema": "https://e.example/halves", "minimum": 1}',
    "mail.json": '{"format": "email"}',
    "linked/person.json": '{"properties": {"home": {"$ref": "address.json"}, "name": {"$ref": "defs/common.json#/$defs/name"}}}',
    "linked/address.json": '{"properties": {"town": {"$ref": "defs/common.json#/$defs/name"}, "owner": {"$ref": "person.json"}}}',
    "linked/defs/common.json": '{"$defs": {"name": {"type": "string"}}}',
    "linked/moved.json": '{"$id": "defs/moved.json", "$ref": "common.json#/$defs/name"}',
    "linked/inner.json": '{"$ref": "#/$defs/a", "$defs": {"a": {"$id": "defs/", "$ref": "common.json#/$defs/name"}}}',
    "linked/remote.json": '{"$id": "https://e.example/remote", "$ref": "address.json"}',
    "linked/spaced.json": '{"$ref": "of%20a%20name.json"}',
    "linked/of a name.json": '{"type": "string"}',
    "linked/lost.json": '{"properties": {"a/b": {"$ref": "gone.json"}}}',
    "linked/indirect.json": '{"$ref": "lost.json"}',
    "linked/torn.json": '{"$ref": "../cut.json"}',
    "linked/bytes.json": '{"$ref": "../bytes.lines"}',
    "linked/folder.json": '{"$ref": "defs"}',
    "linked/unasked.json": '{"enum": [1, {"$ref": "gone.json"}], "$defs": {"a": {"$ref": "gone.json"}}}',
    "named.json": '{"$id": "https://example.com/n", "type": "number"}',
    "linked/own.json": '{"$schema": "file:///nowhere/meta.json", "type": "string"}',
    "home.json": '{"name": "Ann", "home": {"town": "Bonn", "owner": {"home": {"town": 3}}}}',
}

LINES_TEXT = (
    'lines:4 - INVALID. "x" is not of type "number" (instance: (root); schema: /type)\n'
    "lines:5 - NOT JSON. EOF while parsing at column 1\n"
    "lines: 5 lines: 1 refused, 1 unanswered\n"
)

BOB = (
    "bob.json - INVALID. Errors:\n"
    '1. "name" is a required property\n'
    "   instance: (root); schema: /required\n"
    '2. "3" is not of type "integer"\n'
    "   instance: /age; schema: /properties/age/type\n"
)

TEXT = 'text.json - INVALID. Errors:\n1. "text" is not of type "number"\n   instance: (root); schema: /type\n'

# a name, the words, standard input, the status, standard output, and texts that standard error has to hold
ROWS = [
    ("a schema alone", ["number.json"], "", 0, "the schema is accepted\n", []),
    ("an instance that is accepted", ["number.json", "-i", "1.json"], "", 0, "1.json - VALID\n", []),
    ("the long word", ["number.json", "--instance", "1.json"], "", 0, "1.json - VALID\n", []),
    ("words in another order", ["-i", "1.json", "number.json"], "", 0, "1.json - VALID\n", []),
    ("an instance that is refused", ["person.json", "-i", "bob.json"], "", 1, BOB, []),
    ("two instances", ["person.json", "-i", "ann.json", "-i", "bob.json"], "", 1,
     "ann.json - VALID\n" + BOB + "2 files: 1 refused, 0 unanswered\n", []),
    ("the last instance does not decide the status", ["person.json", "bob.json", "ann.json"], "", 1,
     BOB + "ann.json - VALID\n2 files: 1 refused, 0 unanswered\n", []),
    ("one error is enough", ["number.json", "text.json"], "", 1, TEXT, []),
    ("files as words, and by an option", ["number.json", "1.json", "-i", "3.json"], "", 0,
     "1.json - VALID\n3.json - VALID\n2 files: 0 refused, 0 unanswered\n", []),
    ("a folder", ["number.json", "folder"], "", 1,
     "folder/a.json - VALID\n" + TEXT.replace("text.json", "folder/b.json") + "2 files: 1 refused, 0 unanswered\n", []),
    ("a byte order mark", ["number.json", "marked.json"], "", 0, "marked.json - VALID\n", []),
    ("quiet", ["number.json", "text.json", "--quiet"], "", 1, "", []),
    ("coloured, whatever it is written to", ["number.json", "1.json", "--color", "always"], "", 0, "1.json - \x1b[32mVALID\x1b[0m\n", []),
    ("a color that is none", ["number.json", "1.json", "--color", "red"], "", 2, "", ["auto, always, never"]),
    ("a long value", ["texts.json", "long.json"], "", 1,
     'long.json - INVALID. Errors:\n1. "' + "x" * 79 + " … " + "x" * 63 + '" is not one of 1\n   instance: (root); schema: /enum\n', []),
    ("a long value, whole", ["texts.json", "long.json", "--verbose"], "", 1,
     'long.json - INVALID. Errors:\n1. "' + "x" * 500 + '" is not one of 1\n   instance: (root); schema: /enum\n', []),
    ("formats asserted", ["mail.json", "text.json", "--assert-format", "--output", "flag"], "", 1,
     '{"output":"flag","schema":"mail.json","instance":"text.json","payload":{"valid":false}}\n', []),
    ("formats not asserted", ["mail.json", "text.json", "--draft", "7", "--no-assert-format"], "", 0, "text.json - VALID\n", []),
    ("formats in draft 7", ["mail.json", "text.json", "--draft", "7", "--quiet"], "", 1, "", []),
    ("formats both ways", ["mail.json", "--assert-format", "--no-assert-format"], "", 2, "", ["--no-assert-format"]),
    ("the schema from standard input", ["-", "-i", "1.json"], '{"type":"string"}', 1,
     '1.json - INVALID. Errors:\n1. 1 is not of type "string"\n   instance: (root); schema: /type\n', []),
    ("the instance from standard input", ["number.json", "-i", "-"], "7", 0, "- - VALID\n", []),
    ("standard input twice", ["-", "-i", "-"], "1", 2, "", ["can be read only once"]),
    ("no words", [], "", 2, "", ["<SCHEMA>", "Usage: jsonschema"]),
    ("a word that is none", ["number.json", "--instanc", "1.json"], "", 2, "", ["--instance"]),
    ("a draft that is none", ["number.json", "--draft", "5"], "", 2, "", ["2019-09"]),
    ("an output that is none", ["number.json", "--output", "detailed"], "", 2, "", ["text, flag, list, basic, hierarchical"]),
    ("a limit that is none", ["number.json", "--run-limit", "0"], "", 2, "", ["--run-limit"]),
    ("a resource that is none", ["number.json", "--resource", "other.json"], "", 2, "", ["URI=FILE"]),
    ("progress of nothing", ["number.json", "--progress"], "", 2, "", ["--lines"]),
    ("help", ["--help"], "", 0, None, []),
    ("the version", ["--version"], "", 0, "jsonschema 0.1.0\n", []),
    ("no such schema", ["none.json", "-i", "1.json"], "", 2, "", ["none.json cannot be read: "]),
    ("no such instance, and the next is answered", ["number.json", "-i", "none.json", "-i", "1.json"], "", 2,
     "1.json - VALID\n2 files: 0 refused, 1 unanswered\n", ["none.json cannot be read: "]),
    ("an instance that is not JSON, and the next is refused", ["number.json", "-i", "cut.json", "-i", "text.json"], "", 2,
     TEXT + "2 files: 1 refused, 1 unanswered\n", ["cut.json is not JSON: ", "line 2 column"]),
    ("an object for an instance that cannot be read", ["number.json", "none.json", "--output", "flag"], "", 2,
     '{"output":"flag","schema":"number.json","instance":"none.json","error":"cannot be read: No such file or directory (os error 2)"}\n',
     ["none.json cannot be read: "]),
    ("a schema that is not JSON", ["cut.json"], "", 2, "", ["cut.json is not JSON: ", "line 2 column"]),
    ("a schema that is refused", ["wrong.json"], "", 2, "", ["wrong.json is refused: ", "'/properties/a/type'", "--no-check"]),
    ("a reference without its document", ["refers.json"], "", 2, "", ["https://e.example/other", "--resource URI=FILE"]),
    ("a reference with its document", ["refers.json", "--resource", "https://e.example/other=other.json", "-i", "1.json"], "", 1,
     '1.json - INVALID. Errors:\n1. 1 is not of type "string"\n   instance: (root); schema: /type\n', []),
    ("a document that is not JSON", ["refers.json", "--resource", "https://e.example/other=cut.json"], "", 2, "",
     ["cut.json is not JSON: ", "line 2 column"]),
    ("a document from standard input", ["refers.json", "--resource", "https://e.example/other=-", "-i", "text.json"],
     '{"type":"string"}', 0, "text.json - VALID\n", []),
    ("a document that cannot be read", ["refers.json", "--resource", "https://e.example/other=none.json"], "", 2, "",
     ["none.json cannot be read: "]),
    ("a pattern that refers back", ["back.json", "-i", "text.json"], "", 1,
     'text.json - INVALID. Errors:\n1. "text" does not match "(a)\\1"\n   instance: (root); schema: /pattern\n', []),
    ("a pattern of another engine", ["atomic.json", "-i", "text.json"], "", 2, "",
     ["atomic.json is refused: ", "'/pattern'", "not supported: ", "at character 0"]),
    ("a reference that leads nowhere", ["astray.json"], "", 2, "", ["astray.json is refused", "mend the URI"]),
    ("a schema that is a number", ["1.json", "-i", "1.json"], "", 2, "", ["1.json is refused: ", "''"]),
    ("a number as an unchecked schema", ["1.json", "--no-check"], "", 2, "", ["1.json is refused: ", "''"]),
    ("a schema that refuses all", ["false.json", "-i", "1.json"], "", 1,
     "1.json - INVALID. Errors:\n1. False schema does not allow 1\n   instance: (root); schema: (root)\n", []),
    ("a schema that leads to itself", ["itself.json", "-i", "1.json"], "", 0, "1.json - VALID\n", []),
    ("a schema alone, for a program", ["number.json", "--output", "flag"], "", 0, "", []),
    ("an instance too deep to be read", ["true.json", "-i", "deep.json"], "", 2, "", ["deep.json is not JSON: ", "line 1 column"]),
    ("a refusal that would rule a terminal", ["escape.json"], "", 2, "", ["'/properties/\\u{1b}[31m/type'"]),
    ("two drafts", ["number.json", "--draft", "4", "--draft", "7"], "", 2, "", ["--draft"]),
    ("a limit that is no number", ["number.json", "--nested-limit", "-1"], "", 2, "", []),
    ("draft 4 has no const", ["constant.json", "--draft", "4", "-i", "3.json"], "", 0, "3.json - VALID\n", []),
    ("draft 6 has const", ["constant.json", "--draft", "6", "-i", "1.json"], "", 0, "1.json - VALID\n", []),
    ("draft 7 has const", ["constant.json", "--draft", "7", "-i", "3.json", "--output", "flag"], "", 1,
     '{"output":"flag","schema":"constant.json","instance":"3.json","payload":{"valid":false}}\n', []),
    ("a boolean exclusiveMinimum in draft 4", ["exclusive.json", "--draft", "4", "-i", "3.json", "--output", "flag"], "", 1,
     '{"output":"flag","schema":"exclusive.json","instance":"3.json","payload":{"valid":false}}\n', []),
    ("a boolean exclusiveMinimum in 2020-12", ["exclusive.json", "-i", "3.json"], "", 2, "", ["'/exclusiveMinimum'"]),
    ("2019-09", ["number.json", "--draft", "2019-09", "-i", "3.json"], "", 0, "3.json - VALID\n", []),
    ("2020-12", ["number.json", "--draft", "2020-12", "-i", "3.json"], "", 0, "3.json - VALID\n", []),
    ("a schema that says its draft", ["seven.json", "--draft", "4", "-i", "text.json"], "", 0, "text.json - VALID\n", []),
    ("a meta-schema that nobody supplied", ["own.json", "1.json"], "", 2, "",
     ["own.json is refused: ", "https://e.example/meta", "--resource URI=FILE", "--draft"]),
    ("the same, with a draft", ["own.json", "text.json", "--draft", "7", "--quiet"], "", 1, "", []),
    ("the same, supplied", ["own.json", "1.json", "--resource", "https://e.example/meta=meta.json"], "", 0, "1.json - VALID\n", []),
    ("a supplied meta-schema that accepts", ["titled.json", "1.json", "--resource", "https://e.example/titles=titles.json"], "", 0,
     "1.json - VALID\n", []),
    ("a supplied meta-schema that refuses", ["untitled.json", "1.json", "--resource", "https://e.example/titles=titles.json"], "", 2, "",
     ["untitled.json is refused: ", '"title" is a required property', "--no-check"]),
    ("the same, found by its identifier", ["untitled.json", "1.json", "--resource", "https://e.example/a=titles.json"], "", 2, "",
     ["untitled.json is refused: ", '"title" is a required property', "--no-check"]),
    ("the same, unchecked", ["untitled.json", "1.json", "--no-check", "--resource", "https://e.example/titles=titles.json"], "", 0,
     "1.json - VALID\n", []),
    ("the same, with a draft", ["untitled.json", "1.json", "--draft", "7", "--resource", "https://e.example/titles=titles.json"], "", 0,
     "1.json - VALID\n", []),
    ("a meta-schema that another one accepts", ["typed.json", "1.json", "--resource", "https://e.example/titles=titles.json",
     "--resource", "https://e.example/types=types.json"], "", 0, "1.json - VALID\n", []),
    ("the same, which refuses", ["untyped.json", "1.json", "--resource", "https://e.example/titles=titles.json",
     "--resource", "https://e.example/types=types.json"], "", 2, "", ["untyped.json is refused: ", '"type" is a required property']),
    ("a meta-schema that another one refuses", ["typed.json", "1.json", "--resource", "https://e.example/titles=titles.json",
     "--resource", "https://e.example/types=untitled.json"], "", 2, "",
     ["https://e.example/types is refused: ", '"title" is a required property']),
    ("a meta-schema that the standard's refuses", ["stringed.json", "1.json", "--resource", "https://e.example/strings=strings.json"], "", 2, "",
     ["https://e.example/strings is refused: ", "'/type'"]),
    ("a meta-schema that names itself", ["rounded.json", "1.json", "--resource", "https://e.example/round=round.json"], "", 2, "",
     ["rounded.json cannot be checked: ", "'https://e.example/round'", "--no-check"]),
    ("a meta-schema with a fraction", ["halved.json", "1.json", "--resource", "https://e.example/halves=halves.json"], "", 2, "",
     ["halved.json cannot be checked: ", "'https://e.example/halves'", "--no-check"]),
    ("unchecked", ["number.json", "--no-check", "-i", "3.json"], "", 0, "3.json - VALID\n", []),
    ("limits", ["number.json", "--run-limit", "1", "--nested-limit", "2", "-i", "3.json"], "", 0, "3.json - VALID\n", []),
    ("a limit on work within which a document is refused", ["number.json", "--work-limit", "1", "-i", "text.json"], "", 1,
     'text.json - INVALID. Errors:\n1. "text" is not of type "number"\n   instance: (root); schema: /type\n', []),
    ("a limit on work that is reached", ["nest.json", "--work-limit", "2", "-i", "nest.in"], "", 2,
     "nest.in - NO ANSWER. The limit of 2 steps was reached\n", []),
    ("the same, for a program", ["nest.json", "--work-limit", "2", "-i", "nest.in", "--output", "flag"], "", 2,
     '{"output":"flag","schema":"nest.json","instance":"nest.in","error":"The limit of 2 steps was reached"}\n', []),
    ("the same, as a list", ["nest.json", "--work-limit", "2", "-i", "nest.in", "--output", "list"], "", 2,
     '{"output":"list","schema":"nest.json","instance":"nest.in","error":"The limit of 2 steps was reached"}\n', []),
    ("the same, of a line", ["nest.json", "--work-limit", "2", "--lines", "nest.in"], "", 2,
     "nest.in:1 - NO ANSWER. The limit of 2 steps was reached\nnest.in: 1 lines: 0 refused, 1 unanswered\n", []),
    ("a limit on work that is no number", ["number.json", "--work-limit", "-1"], "", 2, "", []),
    ("flag", ["number.json", "--output", "flag", "-i", "1.json"], "", 0,
     '{"output":"flag","schema":"number.json","instance":"1.json","payload":{"valid":true}}\n', []),
    ("list", ["number.json", "--output", "list", "-i", "text.json"], "", 1,
     {"output": "list", "schema": "number.json", "instance": "text.json", "valid": False}, []),
    ("basic", ["named.json", "--output", "basic", "-i", "text.json"], "", 1,
     '{"output":"basic","schema":"named.json","instance":"text.json","payload":{"absoluteKeywordLocation":"https://example.com/n#","errors":['
     '{"absoluteKeywordLocation":"https://example.com/n#","error":"A subschema had errors.","instanceLocation":"","keywordLocation":"","valid":false},'
     '{"absoluteKeywordLocation":"https://example.com/n#/type","error":"\\"text\\" is not of type \\"number\\"",'
     '"instanceLocation":"","keywordLocation":"/type","valid":false}'
     '],"instanceLocation":"","keywordLocation":"","valid":false}}\n', []),
    ("hierarchical", ["named.json", "--output", "hierarchical", "-i", "text.json"], "", 1,
     '{"output":"hierarchical","schema":"named.json","instance":"text.json","payload":{"errors":{'
     '"type":"\\"text\\" is not of type \\"number\\""},'
     '"evaluationPath":"","instanceLocation":"","schemaLocation":"https://example.com/n","valid":false}}\n', []),
    ("text that rules a terminal", ["person.json", "-i", "bell.json"], "", 1,
     'bell.json - INVALID. Errors:\n1. "\\u001b[31m" is not of type "integer"\n   instance: /age; schema: /properties/age/type\n', []),
    ("a line feed in a name", ["key.json", "-i", "fed.json"], "", 1,
     'fed.json - INVALID. Errors:\n1. 1 is not of type "null"\n   instance: /a\\u{a}b; schema: /properties/a\\u{a}b/type\n', []),
    ("lines", ["number.json", "--lines", "lines"], "", 2, LINES_TEXT, ["lines a second"]),
    ("lines that are accepted", ["number.json", "--lines", "good.lines"], "", 0, "good.lines: 3 lines: 0 refused, 0 unanswered\n", []),
    ("no lines", ["number.json", "--lines", "none.lines"], "", 0, "none.lines: 0 lines: 0 refused, 0 unanswered\n", []),
    ("a line that is not UTF-8", ["number.json", "--lines", "bytes.lines"], "", 2,
     "bytes.lines:2 - NOT JSON. invalid JSON at column 2\nbytes.lines: 3 lines: 0 refused, 1 unanswered\n", []),
    ("lines from standard input", ["number.json", "--lines", "-"], '1\n"x"\n', 1,
     '-:2 - INVALID. "x" is not of type "number" (instance: (root); schema: /type)\n-: 2 lines: 1 refused, 0 unanswered\n', []),
    ("lines of which the verdicts are wanted", ["number.json", "--lines", "lines", "--output", "flag"], "", 2,
     "".join('{"output":"flag","schema":"number.json","instance":"lines","line":%d,%s}\n' % line for line in [
         (1, '"payload":{"valid":true}'), (3, '"payload":{"valid":true}'), (4, '"payload":{"valid":false}'),
         (5, '"error":"EOF while parsing at column 1"'), (6, '"payload":{"valid":true}')]),
     ["lines: 5 lines: 1 refused, 1 unanswered"]),
    ("lists of lines", ["number.json", "--lines", "-", "--output", "list"], '"x"', 1,
     {"output": "list", "schema": "number.json", "instance": "-", "line": 1, "valid": False}, []),
    ("progress that comes to an end within a second", ["number.json", "--lines", "good.lines", "--progress"], "", 0,
     "good.lines: 3 lines: 0 refused, 0 unanswered\n", []),
    ("a folder for a file of lines", ["number.json", "--lines", "."], "", 2, None, [". cannot be read: "]),
    ("no such file of lines", ["number.json", "--lines", "none"], "", 2, "", ["none cannot be read: "]),
    ("a file and lines", ["number.json", "-i", "1.json", "--lines", "good.lines"], "", 0,
     "1.json - VALID\ngood.lines: 3 lines: 0 refused, 0 unanswered\n", []),
    ("a folder for a schema", ["."], "", 2, "", [". cannot be read: "]),
    ("files beside the schema, in a circle", ["linked/person.json", "home.json"], "", 1,
     'home.json - INVALID. Errors:\n1. 3 is not of type "string"\n   instance: /home/owner/home/town; schema: /$defs/name/type\n', []),
    ("files beside the schema, and all is accepted", ["linked/person.json", "ann.json"], "", 0, "ann.json - VALID\n", []),
    ("a way with dots to the schema", ["folder/../linked/./person.json", "home.json", "--quiet"], "", 1, "", []),
    ("files beside a schema from standard input", ["-", "home.json", "--quiet"], '{"$ref": "linked/person.json"}', 1, "", []),
    ("no files beside a document of the web", ["refers.json", "--resource", "https://e.example/other=linked/remote.json"], "", 2, "",
     ["https://e.example/address.json", "--resource URI=FILE"]),
    ("no files are read", ["linked/person.json", "--no-files"], "", 2, "",
     ["linked/person.json is refused: ", "under the URI file:///", "/linked/address.json"]),
    ("no files are read, and none is asked for", ["number.json", "1.json", "--no-files"], "", 0, "1.json - VALID\n", []),
    ("an identifier of the schema, against which references are resolved", ["linked/moved.json", "1.json", "--quiet"], "", 1, "", []),
    ("an identifier inside the schema", ["linked/inner.json", "1.json", "--quiet"], "", 1, "", []),
    ("a schema of the web leads to no file", ["linked/remote.json"], "", 2, "", ["https://e.example/address.json", "--resource URI=FILE"]),
    ("a name with spaces", ["linked/spaced.json", "1.json", "--quiet"], "", 1, "", []),
    ("a file that is missing", ["linked/lost.json", "1.json"], "", 2, "",
     ["linked/lost.json is refused: ", "/linked/gone.json\nhint: file:///", "/linked/lost.json#/properties/a~1b/$ref leads to this file",
      "which cannot be read: No such file or directory"]),
    ("a file that is missing, from another file", ["linked/indirect.json", "1.json"], "", 2, "",
     ["linked/indirect.json is refused: ", "/linked/lost.json#/properties/a~1b/$ref leads to this file"]),
    ("a file that is not JSON", ["linked/torn.json", "1.json"], "", 2, "",
     ["/linked/torn.json#/$ref leads to this file, which is not JSON: ", "line 2 column"]),
    ("a file that is not UTF-8", ["linked/bytes.json", "1.json"], "", 2, "",
     ["/linked/bytes.json#/$ref leads to this file, which is not JSON: "]),
    ("a folder that is referred to", ["linked/folder.json", "1.json"], "", 2, "",
     ["/linked/folder.json#/$ref leads to this file, which cannot be read: Is a directory"]),
    ("a file that is missing, and is not asked for", ["linked/unasked.json", "1.json"], "", 0, "1.json - VALID\n", []),
    ("a meta-schema that is missing", ["linked/own.json", "1.json"], "", 2, "",
     ["/linked/own.json#/$schema leads to this file, which cannot be read: "]),
]


def fill(folder):
    """Writes the files that the calls name."""
    for name, text in FILES.items():
        (folder / name).parent.mkdir(parents=True, exist_ok=True)
        (folder / name).write_bytes(text if isinstance(text, bytes) else text.encode())


def run(program, words, given, folder):
    """A call's status, standard output and standard error."""
    done = subprocess.run([program, *words], input=given.encode(), capture_output=True, cwd=folder, timeout=60)
    return done.returncode, done.stdout.decode(errors="replace"), done.stderr.decode(errors="replace")


def printed_otherwise(out, wanted):
    """Whether standard output is not what is wanted: a text, or of a list some members, or None for any text but none."""
    if wanted is None:
        return out == ""
    if isinstance(wanted, str):
        return out != wanted
    try:
        found = json.loads(out)
        payload = found.pop("payload")
        return {**found, "valid": payload["valid"]} != wanted or not payload["details"]
    except (ValueError, LookupError, TypeError, AttributeError):
        return True


def wrong_in(program, folder, row):
    """What goes otherwise in a call, in words, or None."""
    _name, words, given, status, out, told = row
    try:
        found = run(program, words, given, folder)
    except subprocess.TimeoutExpired:
        return "no end within a minute"
    if found[0] != status:
        return f"status {found[0]}, wanted {status}"
    if printed_otherwise(found[1], out):
        return f"standard output {found[1]!r}, wanted {out!r}"
    for text in told:
        if text not in found[2]:
            return f"standard error {found[2]!r} does not hold {text!r}"
    if status == 2 and "--lines" not in words and "The limit of" not in found[1] and not any(next_step in found[2] for next_step in NEXT_STEPS):
        return f"standard error {found[2]!r} does not say what to do next"
    if status != 2 and "--lines" not in words and found[2]:
        return f"standard error {found[2]!r}, wanted none"
    return None


# one of which stands in each message: the command's own, and that of wrong words
NEXT_STEPS = ("\nhint: ", "try '--help'")


def failed_write(program, folder):
    """What goes otherwise where standard output cannot be written, in words, or None: all lines are read, and it is told once."""
    with open("/dev/full", "wb") as full:
        return cut_off(program, folder, full)


def closed_pipe(program, folder):
    """The same where standard output is a pipe that nobody reads."""
    reader, writer = os.pipe()
    os.close(reader)
    with os.fdopen(writer, "wb") as pipe:
        return cut_off(program, folder, pipe)


def cut_off(program, folder, out):
    words = [program, "number.json", "--lines", "lines", "--output", "flag"]
    done = subprocess.run(words, stdout=out, stderr=subprocess.PIPE, cwd=folder, timeout=60, check=False)
    told = done.stderr.decode()
    if done.returncode != 2 or told.count("standard output cannot be written") != 1 or "5 lines: 1 refused" not in told:
        return f"status {done.returncode}, standard error {told!r}"
    return None


def on_a_terminal(program, folder):
    """What goes otherwise on a terminal, where verdicts are green and red."""
    ours, theirs = pty.openpty()
    words = [program, "number.json", "-i", "1.json", "-i", "text.json"]
    done = subprocess.run(words, stdout=theirs, cwd=folder, timeout=60, check=False)
    os.close(theirs)
    shown = os.read(ours, 4096).decode()
    os.close(ours)
    wanted = ("1.json - \x1b[32mVALID\x1b[0m\r\n", "text.json - \x1b[31mINVALID\x1b[0m. Errors:\r\n")
    return None if done.returncode == 1 and all(text in shown for text in wanted) else f"shown {shown!r}"


def slow_lines(program, folder):
    """What goes otherwise where lines come slowly: each refused one is printed at once, and about each second it is told how far it is."""
    words = [program, "number.json", "--lines", "-", "--progress"]
    with subprocess.Popen(words, stdin=subprocess.PIPE, stdout=subprocess.PIPE, stderr=subprocess.PIPE, cwd=folder) as call:
        call.stdin.write(b'"x"\n')
        call.stdin.flush()
        first = call.stdout.readline().decode()
        for _turn in range(25):
            time.sleep(0.1)
            call.stdin.write(b"1\n")
            call.stdin.flush()
        call.stdin.close()
        told = call.stderr.read().decode()
        call.wait()
    if not first.startswith("-:1 - INVALID. ") or told.count("lines a second") not in (2, 3, 4) or call.returncode != 1:
        return f"first {first!r}, standard error {told!r}, status {call.returncode}"
    return None


def words_in_bytes(program, folder):
    """What goes otherwise where a word is not UTF-8."""
    done = subprocess.run([program, b"\xff.json"], capture_output=True, cwd=folder, timeout=60, check=False)
    told = done.stderr.decode(errors="replace")
    return None if done.returncode == 2 and NEXT_STEPS[0] in told else f"status {done.returncode}, standard error {told!r}"


def little_memory(program, folder):
    """What goes otherwise where memory is refused: a document of ten million numbers under 100 MB."""
    (folder / "many.json").write_text("[" + "1," * 10_000_000 + "1]")

    def take_away():
        resource.setrlimit(resource.RLIMIT_AS, (100 << 20, 100 << 20))

    words = [program, "true.json", "-i", "many.json", "-i", "1.json"]
    done = subprocess.run(words, capture_output=True, cwd=folder, timeout=60, check=False, preexec_fn=take_away)
    told = done.stderr.decode(errors="replace")
    (folder / "many.json").unlink()
    return None if done.returncode == 2 and "memory" in told else f"status {done.returncode}, standard error {told!r}"


def from_elsewhere(program, folder):
    """What goes otherwise where the files beside a schema are read from another directory, or one of them is handed over."""
    there, here = folder / "linked", folder / "linked" / "defs"
    address = "file://" + urllib.request.pathname2url(str(there.resolve() / "address.json"))
    rows = [
        (["../person.json", "../../home.json"], here, 1),
        ([str(there / "person.json"), str(folder / "home.json")], Path("/"), 1),
        (["person.json", "../home.json"], there, 1),
        (["person.json", "../home.json", "--resource", f"{address}=../true.json"], there, 0),
    ]
    for words, place, status in rows:
        done = subprocess.run([program, *words, "--quiet"], capture_output=True, cwd=place, timeout=60, check=False)
        if done.returncode != status:
            return f"{words} in {place}: status {done.returncode}, wanted {status}, standard error {done.stderr.decode()!r}"
    return None


CALLS = {
    "files from elsewhere": from_elsewhere,
    "a write that fails": failed_write,
    "a pipe that nobody reads": closed_pipe,
    "a terminal": on_a_terminal,
    "slow lines": slow_lines,
    "words that are not UTF-8": words_in_bytes,
    "little memory": little_memory,
}


def check(program, folder):
    """Runs all calls, and returns how many went wrong."""
    wrong = 0
    for row in ROWS:
        found = wrong_in(program, folder, row)
        if found:
            wrong += 1
            print(f"{row[0]}: {found}")
    for name, call in CALLS.items():
        found = call(program, folder)
        if found:
            wrong += 1
            print(f"{name}: {found}")
    print(f"{len(ROWS) + len(CALLS)} calls, {wrong} wrong")
    return wrong


TEN_KEYWORDS = {
    "type": "object",
    "properties": {
        "id": {"type": "integer", "minimum": 1},
        "name": {"type": "string", "minLength": 1, "maxLength": 40},
        "mail": {"type": "string", "pattern": "@"},
        "tags": {"type": "array", "items": {"type": "string"}, "uniqueItems": True},
        "kind": {"enum": ["a", "b", "c"]},
    },
    "required": ["id", "name"],
}


def line_of(number):
    """A line of some 300 bytes that the schema accepts."""
    value = {
        "id": number + 1,
        "name": f"name {number}",
        "mail": f"user{number}@example.com",
        "tags": [f"tag{number % 7}", f"tag{number % 7 + 7}", "blue"],
        "kind": "abc"[number % 3],
        "note": "x" * 60,
        "place": {"street": "Long Street", "house": number % 100, "town": "Springfield", "spots": [1.5, 2.25, 3]},
        "active": number % 2 == 0,
        "more": None,
    }
    return json.dumps(value, separators=(",", ":"))


def timed(program, schema, folder):
    """The milliseconds that the lines took, as the command tells, and the most memory in kilobytes."""
    words = [program, schema, "--lines", "many.lines"]
    with subprocess.Popen(words, stdout=subprocess.DEVNULL, stderr=subprocess.PIPE, cwd=folder) as call:
        told = call.stderr.read().decode()
        _pid, status, usage = os.wait4(call.pid, 0)
        call.returncode = os.waitstatus_to_exitcode(status)
    return int(re.search(r"(\d+) ms", told).group(1)), usage.ru_maxrss


def measure(program, folder, count):
    """Prints what so many lines cost by ten keywords and by none, and the memory that they took."""
    with open(folder / "many.lines", "w", encoding="utf-8") as lines:
        size = sum(lines.write(line_of(number) + "\n") for number in range(count))
    best, memory = {}, {}
    for _turn in range(3):
        for schema in ("true.json", "ten.json"):
            millis, most = timed(program, schema, folder)
            best[schema] = min(millis, best.get(schema, millis))
            memory[schema] = max(most, memory.get(schema, most))
    ratio = best["ten.json"] / max(best["true.json"], 1)
    print(f"{count} lines of {size // count} bytes: alone {best['true.json']} ms, {memory['true.json']} kB; "
          f"by ten keywords {best['ten.json']} ms, {memory['ten.json']} kB; {ratio:.2f} times")


def main():
    program = str(Path(sys.argv[1]).resolve())
    with tempfile.TemporaryDirectory() as name:
        folder = Path(name)
        fill(folder)
        if sys.argv[2:3] == ["--lines"]:
            (folder / "ten.json").write_text(json.dumps(TEN_KEYWORDS))
            for count in sys.argv[3:]:
                measure(program, folder, int(count))
            return 0
        return 1 if check(program, folder) else 0


if __name__ == "__main__":
    sys.exit(main())
