"""Random schemas and instances for fuzz.py, which imports this file. It needs Python 3 alone, and is not run by itself.

`case(seed, number)` gives the same case each time: a schema of one of five drafts with the fifteen keywords of the bench, references of
each kind, embedded resources and patterns that stay unfinished; an instance that is often shaped by the schema; and those patterns. No
fraction is generated, no number outside 64 bits, and no name with a control character, since errors are read line by line.
"""

import copy
import random

DRAFTS = {
    4: "http://json-schema.org/draft-04/schema#",
    6: "http://json-schema.org/draft-06/schema#",
    7: "http://json-schema.org/draft-07/schema#",
    2019: "https://json-schema.org/draft/2019-09/schema",
    2020: "https://json-schema.org/draft/2020-12/schema",
}
TYPES = ["null", "boolean", "integer", "number", "string", "array", "object"]
NAMES = ["a", "b", "c", "n", "ab", "a/b", "~", "\u00e9", "", "0", "%25", "a b"]
NAME_WEIGHTS = [9, 7, 5, 5, 3, 2, 1, 1, 1, 1, 1, 1]
TEXTS = ["", "a", "b", "ab", "abc", "aab", "\u00e9", "a\"b", "\u0001", "\U0001f600x", "u1", "tab\tand\nline"]
PLAIN_PATTERNS = ["a", "b", "ab", "", "\u00e9", "zz"]
OPEN_PATTERNS = ["(?=a)b", "u1", "u2", "(?<=ab)c", "u4", "u5", "u6", "u7"]
NUMBERS = [0, 1, -1, 2, 7, 18446744073709551615, -9223372036854775808, 9007199254740993]
ANCHORS = ["s", "t"]
URIS = ["http://x/e0", "http://x/e1", "urn:e2"]
ROOT_URI = "http://x/root"
DEFINITIONS = ["d0", "d1", "d2"]


class Maker:
    """Makes a schema with its references, by a source of random numbers."""

    def __init__(self, source):
        self.source = source
        self.draft = source.choices(list(DRAFTS), weights=[2, 2, 3, 4, 9])[0]
        self.definitions = "$defs" if self.draft >= 2019 or source.random() < 0.2 else "definitions"
        self.identifier = "id" if self.draft == 4 else "$id"
        self.open = source.sample(OPEN_PATTERNS, source.choice([0, 0, 1, 1, 2, 3, 7]))
        self.many_references = source.random() < 0.6
        self.wild = source.random() < 0.15
        self.used_uris = []

    def chance(self, probability):
        return self.source.random() < probability

    def name(self):
        return self.source.choices(NAMES, weights=NAME_WEIGHTS)[0]

    def names(self, most):
        return sorted({self.name() for _ in range(self.source.randint(0, most))})

    def reference(self):
        """A reference that most often leads somewhere."""
        definition = self.source.choice(DEFINITIONS)
        choices = [f"#/{self.definitions}/{definition}"] * 8 + ["#"] * 2
        if self.draft >= 2019:
            choices += [f"#{anchor}" for anchor in ANCHORS]
        choices += URIS[:2] + [f"{URIS[0]}#/{self.definitions}/d0", f"{ROOT_URI}#/{self.definitions}/d1"]
        if self.wild:
            choices += ["", "#/properties/a", "#/allOf/0", "#/items", "#/properties/a~1b", "#/properties/%25", "#/properties/%2525",
                        "#/title", "x", "#nowhere", URIS[2], f"{URIS[0]}#s"]
        return self.source.choice(choices)

    def data(self, depth=2):
        """Any value without a fraction."""
        kind = self.source.randint(0, 6 if depth > 0 else 4)
        if kind <= 1:
            return self.source.choice(TEXTS)
        if kind == 2:
            return self.source.choice(NUMBERS)
        if kind == 3:
            return self.source.choice([None, True, False])
        if kind == 4:
            return self.source.choice([[], {}, 0, "a"])
        if kind == 5:
            return [self.data(depth - 1) for _ in range(self.source.randint(0, 3))]
        return {self.name(): self.data(depth - 1) for _ in range(self.source.randint(0, 3))}

    def pattern(self):
        if self.open and self.chance(0.6):
            return self.source.choice(self.open)
        return self.source.choice(PLAIN_PATTERNS)

    def schemas(self, depth, least=0):
        return [self.schema(depth) for _ in range(self.source.randint(least, 3))]

    def leaf(self):
        """A keyword without subschemas, and its value."""
        name = self.source.choice(["type", "type", "type", "required", "minLength", "maxLength", "minProperties", "pattern", "pattern"])
        if name == "type":
            if self.chance(0.3):
                return name, self.source.sample(TYPES, self.source.randint(1, 3))
            return name, self.source.choice(TYPES)
        if name == "required":
            return name, self.names(3)
        if name == "pattern":
            return name, self.pattern()
        return name, self.source.randint(0, 3)

    def items(self, depth):
        """What stands under `items`: a list in older drafts at times."""
        if self.draft < 2020 and self.chance(0.2):
            return self.schemas(depth)
        return self.schema(depth)

    def branch(self, depth):
        """A keyword with subschemas, and its value."""
        name = self.source.choice(["properties", "properties", "properties", "allOf", "allOf", "anyOf", "anyOf", "oneOf", "not",
                                   "propertyNames", "prefixItems", "items", "items"])
        if name == "properties":
            return name, {name: self.schema(depth) for name in self.names(3)}
        if name in ("allOf", "anyOf", "oneOf", "prefixItems"):
            return name, self.schemas(depth, 0 if self.chance(0.1) else 1)
        if name == "items":
            return name, self.items(depth)
        return name, self.schema(depth)

    def refer(self, schema):
        """Adds a reference."""
        kinds = ["$ref"] * 6
        if self.draft == 2019:
            kinds += ["$recursiveRef"] * 3
        if self.draft == 2020:
            kinds += ["$dynamicRef"] * 3
        kind = self.source.choice(kinds)
        if kind == "$recursiveRef":
            schema[kind] = "#"
        elif kind == "$dynamicRef":
            schema[kind] = self.source.choice(["#s", "#t", "#s", f"{URIS[0]}#s", f"#/{self.definitions}/d0"])
        else:
            schema[kind] = self.reference()

    def choose(self, schema, depth):
        """Adds `if` with perhaps its branches."""
        schema["if"] = self.schema(depth)
        for branch in ("then", "else"):
            if self.chance(0.6):
                schema[branch] = self.schema(depth)

    def spoil(self, schema):
        """Gives a keyword a value of another shape, or adds what is no schema."""
        name, value = self.source.choice([("type", 7), ("required", "a"), ("minLength", "no"), ("pattern", 1), ("allOf", {}),
                                          ("properties", []), ("not", 1), ("items", 7), ("maxLength", -1), ("type", ["text"]),
                                          ("$ref", 7), ("anyOf", [1])])
        schema[name] = value

    def note(self, schema):
        name = self.source.choice(["title", "x-note", "default", "description", "x-b"])
        schema[name] = self.data(1)

    def schema(self, depth):
        """A schema that nests no deeper than this."""
        if self.chance(0.12 if depth > 0 else 0.3):
            return self.source.choice([True, False, {}, {}])
        schema = {}
        for _ in range(self.source.choice([1, 1, 1, 2, 2, 3])):
            if depth > 0 and self.chance(0.55):
                name, value = self.branch(depth - 1)
            else:
                name, value = self.leaf()
            schema[name] = value
        if depth > 0 and self.chance(0.12):
            self.choose(schema, depth - 1)
        if self.chance(0.3 if self.many_references else 0.05):
            self.refer(schema)
        if self.chance(0.15):
            self.note(schema)
        if self.wild and self.chance(0.03):
            self.spoil(schema)
        self.name_it(schema, 0.05)
        return schema

    def name_it(self, schema, probability):
        """Perhaps gives a schema an anchor."""
        if self.chance(probability):
            anchor = "$dynamicAnchor" if self.draft == 2020 and self.chance(0.6) else "$anchor"
            schema[anchor] = self.source.choice(ANCHORS)

    def embed(self, schema):
        """Makes a schema a resource of its own, perhaps of another draft, with definitions of its own."""
        left = [uri for uri in URIS if uri not in self.used_uris]
        if not left:
            return
        uri = left[0]
        self.used_uris.append(uri)
        schema[self.identifier] = uri
        if self.chance(0.3):
            schema["$schema"] = self.source.choice(list(DRAFTS.values()))
        if self.draft == 2019 and self.chance(0.5):
            schema["$recursiveAnchor"] = True
        self.name_it(schema, 0.5)
        schema.setdefault(self.definitions, {})["d0"] = self.named(1)

    def named(self, depth):
        """A schema that is an object, with perhaps an anchor."""
        schema = self.schema(depth)
        if not isinstance(schema, dict):
            return schema
        self.name_it(schema, 0.3)
        return schema

    def define(self, root):
        """Adds definitions that references lead to, some of them resources."""
        definitions = {}
        for number, name in enumerate(DEFINITIONS):
            if number == 0 or self.chance(0.9):
                definitions[name] = self.named(2)
        for number in range(self.source.choice([0, 0, 1, 1, 2])):
            schema = self.named(1)
            if isinstance(schema, dict):
                self.embed(schema)
            definitions[f"r{number}"] = schema
        root[self.definitions] = definitions

    def root(self):
        """A whole schema."""
        schema = self.schema(3)
        while not isinstance(schema, dict) and not self.chance(0.2):
            schema = self.schema(3)
        if not isinstance(schema, dict):
            return schema
        if self.draft != 2020 or self.chance(0.3):
            schema["$schema"] = DRAFTS[self.draft]
        if self.chance(0.35):
            schema[self.identifier] = ROOT_URI
        if self.draft == 2019 and self.chance(0.4):
            schema["$recursiveAnchor"] = self.chance(0.9)
        self.name_it(schema, 0.3)
        self.define(schema)
        return mended(schema, self)


def subvalues(value, path=()):
    """Each value inside a value with its path, itself first."""
    yield path, value
    if isinstance(value, dict):
        for name, member in value.items():
            yield from subvalues(member, (*path, name))
    elif isinstance(value, list):
        for index, item in enumerate(value):
            yield from subvalues(item, (*path, index))


def mended(schema, maker):
    """The schema without most of the references that lead nowhere, since such a schema is refused at once."""
    if maker.wild:
        return schema
    texts = [value for _, value in subvalues(schema) if isinstance(value, dict)]
    anchors = {it.get(name) for it in texts for name in ("$anchor", "$dynamicAnchor")}
    uris = {it.get(name) for it in texts for name in ("$id", "id")}
    ways = [f"#/{maker.definitions}/{name}" for name in schema[maker.definitions]]
    ways += [uri for uri in sorted(it for it in uris if isinstance(it, str))] * 2
    ways += [f"{uri}#/{maker.definitions}/d0" for uri in maker.used_uris]
    for it in texts:
        for keyword in ("$ref", "$dynamicRef"):
            reference = it.get(keyword)
            if isinstance(reference, str) and not leads(schema, reference, anchors, uris):
                it[keyword] = maker.source.choice(ways)
    return schema


def leads(schema, reference, anchors, uris):
    """Whether a reference seems to lead somewhere."""
    uri, _, fragment = reference.partition("#")
    if uri and uri not in uris:
        return False
    if not fragment:
        return True
    if not fragment.startswith("/"):
        return fragment in anchors
    return bool(uri) or at_pointer(schema, fragment) is not None


def at_pointer(value, pointer):
    """What a JSON Pointer leads to, or None; a null is given as None too."""
    for part in pointer.split("/")[1:]:
        part = part.replace("~1", "/").replace("~0", "~")
        if isinstance(value, dict) and part in value:
            value = value[part]
        elif isinstance(value, list) and part.isdigit() and int(part) < len(value):
            value = value[int(part)]
        else:
            return None
    return value


class Fitter:
    """Makes instances that follow a schema's shape."""

    def __init__(self, maker, root):
        self.maker = maker
        self.source = maker.source
        self.root = root

    def follow(self, schema):
        """The schema, or what its reference leads to, where that is easily said."""
        reference = schema.get("$ref") if isinstance(schema, dict) else None
        if isinstance(reference, str) and reference.startswith("#") and self.maker.chance(0.8):
            target = at_pointer(self.root, reference[1:]) if len(reference) > 1 else self.root
            if isinstance(target, dict):
                return target
        return schema

    def parts(self, schema):
        """The schemas that apply to the same value."""
        found = [schema]
        for name in ("allOf", "anyOf", "oneOf"):
            inner = schema.get(name)
            if isinstance(inner, list):
                found += [self.follow(it) for it in inner]
        for name in ("then", "else", "if"):
            if name in schema:
                found.append(self.follow(schema[name]))
        return [it for it in found if isinstance(it, dict)]

    def value(self, schema, depth=4):
        """A value for a schema."""
        schema = self.follow(self.follow(schema))
        if not isinstance(schema, dict) or depth <= 0 or self.maker.chance(0.1):
            return self.maker.data(min(depth, 2))
        parts = self.parts(schema)
        kinds = []
        for part in parts:
            named = part.get("type", [])
            kinds += [named] if isinstance(named, str) else named if isinstance(named, list) else []
            kinds += ["object"] * (2 * ("properties" in part) + ("required" in part) + ("propertyNames" in part))
            kinds += ["array"] * (2 * ("items" in part) + ("prefixItems" in part))
            kinds += ["string"] * (("pattern" in part) + ("minLength" in part))
        kind = self.source.choice(kinds) if kinds else self.source.choice(TYPES)
        return self.of_kind(kind, parts, depth)

    def of_kind(self, kind, parts, depth):
        if kind == "object":
            return self.members(parts, depth)
        if kind == "array":
            return self.entries(parts, depth)
        if kind == "string":
            return self.source.choice(TEXTS)
        if kind in ("integer", "number"):
            return self.source.choice(NUMBERS)
        return None if kind == "null" else self.maker.chance(0.5)

    def members(self, parts, depth):
        made = {}
        for part in parts:
            properties = part.get("properties")
            if isinstance(properties, dict):
                for name, inner in properties.items():
                    if self.maker.chance(0.85):
                        made[name] = self.value(inner, depth - 1)
            required = part.get("required")
            if isinstance(required, list):
                for name in required:
                    if isinstance(name, str) and self.maker.chance(0.8):
                        made.setdefault(name, self.maker.data(1))
        while self.maker.chance(0.25):
            made.setdefault(self.maker.name(), self.maker.data(1))
        return made

    def entries(self, parts, depth):
        items = [part["items"] for part in parts if isinstance(part.get("items"), (dict, bool))]
        first = next((part["prefixItems"] for part in parts if isinstance(part.get("prefixItems"), list)), [])
        made = [self.value(it, depth - 1) for it in first if self.maker.chance(0.9)]
        for _ in range(self.source.choice([0, 1, 2, 2, 3])):
            made.append(self.value(self.source.choice(items), depth - 1) if items else self.maker.data(1))
        return made


class Case:
    """A schema, an instance, and patterns that stay unfinished."""

    def __init__(self, schema, instance, unfinished):
        self.schema = schema
        self.instance = instance
        self.unfinished = unfinished

    def copy(self):
        return Case(copy.deepcopy(self.schema), copy.deepcopy(self.instance), list(self.unfinished))


def repeated(maker, instance):
    """The instance, or at times a list of many like it, so that verdicts are remembered."""
    if isinstance(instance, list) and instance and maker.chance(0.1):
        return instance + [copy.deepcopy(maker.source.choice(instance)) for _ in range(20)]
    return instance


def case(seed, number):
    """The case of a number."""
    source = random.Random(f"{seed}:{number}")
    maker = Maker(source)
    schema = maker.root()
    instance = repeated(maker, Fitter(maker, schema).value(schema))
    return Case(schema, instance, list(maker.open))
