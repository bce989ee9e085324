"""What fuzz.py, which imports this file, looks at in the answers of engine_bench. It needs Python 3 alone, and is not run by itself.

`problem(case, answers)` gives none, or a pair of a kind and a sentence. No answer is compared with another validator's: the modes are
compared with each other, and each error with the schema and the instance that it names.
"""

import json
from urllib.parse import unquote

from fuzz_cases import subvalues

MODES = ("valid", "first", "errors", "list")
FAILURE = "Error executing regex: "
NOWHERE = object()
REFERENCES = ("$ref", "$dynamicRef", "$recursiveRef")
# Keywords whose values are schemas, lists of schemas, or objects of schemas, as the bench's resolver knows them
VALUES = ("not", "if", "then", "else", "items", "propertyNames")
LISTS = ("allOf", "anyOf", "oneOf", "prefixItems")
OBJECTS = ("$defs", "definitions", "properties")
# Keywords that judge by their children, whose errors are shown by the list alone
HIDING = {"anyOf", "oneOf", "not", "if"}


class Problem(Exception):
    """A kind, and a sentence."""


def require(holds, kind, text):
    if not holds:
        raise Problem(kind, text)


def compact(value):
    """A value as the program writes it: no spaces, members in the order of their names' bytes."""
    return json.dumps(value, ensure_ascii=False, separators=(",", ":"), sort_keys=True)


def parts_of(pointer):
    """The names of a JSON Pointer."""
    return [part.replace("~1", "/").replace("~0", "~") for part in pointer.split("/")[1:]]


def step(value, part):
    """What one name of a pointer leads to, or NOWHERE."""
    if isinstance(value, dict):
        return value.get(part, NOWHERE)
    if isinstance(value, list) and part.isdigit() and str(int(part)) == part and int(part) < len(value):
        return value[int(part)]
    return NOWHERE


def at(value, pointer):
    """What a JSON Pointer leads to, or NOWHERE."""
    if pointer and not pointer.startswith("/"):
        return NOWHERE
    for part in parts_of(pointer):
        value = step(value, part)
        if value is NOWHERE:
            return NOWHERE
    return value


def resources(schema):
    """The whole schema, and each object in it that has an identifier, with its URI or none."""
    found = [(None, schema)]
    for _, value in subvalues(schema):
        if isinstance(value, dict):
            for name in ("$id", "id"):
                if isinstance(value.get(name), str):
                    found.append((value[name].split("#")[0], value))
    return found


class Error:
    """An error as a mode shows it."""

    def __init__(self, instance_path, schema_path, evaluation_path, text):
        self.instance_path = instance_path
        self.schema_path = schema_path
        self.evaluation_path = evaluation_path
        self.text = text

    def __repr__(self):
        return repr("\t".join([self.instance_path, self.schema_path, self.evaluation_path, self.text]))

    def failed(self):
        """Whether it is of a match that stayed unfinished."""
        return self.text.startswith(FAILURE)


def lines_of(out):
    """The errors that lines show."""
    require(out == "" or out.endswith("\n"), "lines", "the last line has no line feed")
    found = []
    for line in out.split("\n")[:-1]:
        columns = line.split("\t")
        require(len(columns) == 4, "lines", f"a line has {len(columns)} columns: {line!r}")
        found.append(Error(*columns))
    return found


def is_type(name, value):
    """Whether a value without a fraction is of a type."""
    if name == "null":
        return value is None
    if name == "boolean":
        return isinstance(value, bool)
    if name in ("integer", "number"):
        return isinstance(value, int) and not isinstance(value, bool)
    return isinstance(value, {"string": str, "array": list, "object": dict}[name])


def counted(limit, one, more):
    return f"{limit} {one if limit == 1 else more}"


def type_text(wanted, value):
    if isinstance(wanted, str):
        return [] if is_type(wanted, value) else [f'{compact(value)} is not of type "{wanted}"']
    if any(is_type(name, value) for name in wanted):
        return []
    return [f"{compact(value)} is not of types " + ", ".join(f'"{name}"' for name in wanted)]


def leaf_texts(keyword, wanted, value):
    """The texts that a keyword without subschemas may say of a value: none where the value is as it is wanted."""
    shown = compact(value)
    if keyword == "type":
        return type_text(wanted, value)
    if keyword == "required":
        lacking = [name for name in wanted if name not in value] if isinstance(value, dict) else []
        return [f"{compact(name)} is a required property" for name in lacking]
    if keyword == "minProperties" and isinstance(value, dict) and len(value) < wanted:
        return [f"{shown} has less than {counted(wanted, 'property', 'properties')}"]
    if keyword == "minLength" and isinstance(value, str) and len(value) < wanted:
        return [f"{shown} is shorter than {counted(wanted, 'character', 'characters')}"]
    if keyword == "maxLength" and isinstance(value, str) and len(value) > wanted:
        return [f"{shown} is longer than {counted(wanted, 'character', 'characters')}"]
    if keyword == "pattern" and isinstance(value, str) and wanted not in value:
        return [f'{shown} does not match "{wanted}"']
    return []


def texts(keyword, wanted, value):
    """The texts that a keyword may say of a value; `wanted` is what stands at it."""
    shown = compact(value)
    found = []
    if wanted is False:
        found.append(f"False schema does not allow {shown}")
    if keyword in ("anyOf", "oneOf"):
        found.append(f"{shown} is not valid under any of the schemas listed in the '{keyword}' keyword")
    if keyword == "oneOf":
        found.append(f"{shown} is valid under more than one of the schemas listed in the 'oneOf' keyword")
    if keyword == "not":
        found.append(f"{compact(wanted)} is not allowed for {shown}")
    try:
        return found + leaf_texts(keyword, wanted, value)
    except (TypeError, KeyError):
        return found


def values_at(instance, error):
    """The values that an error may speak of: what stands at its place, and the names of that where names are asked about."""
    value = at(instance, error.instance_path)
    require(value is not NOWHERE, "instance path", f"leads to nothing: {error!r}")
    names = isinstance(value, dict) and "propertyNames" in parts_of(error.evaluation_path)
    return [value, *value] if names else [value]


def check_error(case, error, documents):
    """That an error's paths lead somewhere, and that its text is one that the keyword there says of the value there."""
    values = values_at(case.instance, error)
    keyword = parts_of(error.schema_path)[-1] if error.schema_path else ""
    found = [at(document, error.schema_path) for document in documents]
    found = [it for it in found if it is not NOWHERE]
    require(found, "schema path", f"leads to nothing: {error!r}")
    if error.failed():
        open_here = keyword == "pattern" and any(it in case.unfinished for it in found if isinstance(it, str))
        require(open_here, "failure", f"its schema path leads to no pattern that stays unfinished: {error!r}")
        return
    said = [text for wanted in found for value in values for text in texts(keyword, wanted, value)]
    require(error.text in said, "text", f"no keyword says this of a value there: {error!r}; it might say {said}")


def check_paths(error):
    """That an evaluation path goes on, after its last reference, as the schema path ends."""
    parts = parts_of(error.evaluation_path)
    last = max((number for number, part in enumerate(parts) if part in REFERENCES), default=-1)
    tail = parts[last + 1:]
    ends = parts_of(error.schema_path)
    if last < 0:
        require(tail == ends, "paths", f"no reference is followed, and the paths differ: {error!r}")
    else:
        require(ends[len(ends) - len(tail):] == tail, "paths", f"the paths end differently: {error!r}")


def check_statuses(answers):
    """That the four modes have one status, 0, 1 or 2, and print where they may."""
    statuses = {mode: answers[mode][0] for mode in MODES}
    require(set(statuses.values()) <= {0, 1, 2}, "status", f"{statuses}")
    require(len(set(statuses.values())) == 1, "verdict", f"the modes differ: {statuses}")
    status = statuses["valid"]
    if status == 2:
        require(len({answers[mode] for mode in MODES}) == 1, "refusal", f"{answers}")
        require(answers["valid"][1] == "", "refusal", f"standard output is not empty: {answers['valid']}")
        require(answers["valid"][2] in {f"build refused: {number}\n" for number in range(1, 8)}, "refusal", f"{answers['valid']}")
        return status
    for mode in MODES:
        require(answers[mode][2] == "", "standard error", f"of {mode}: {answers[mode][2]!r}")
    require(answers["valid"][1] == ("true\n" if status == 0 else "false\n"), "verdict", f"{answers['valid']}")
    return status


def check_lines(case, answers, status, documents):
    """That `first` and `errors` agree, and that each error leads where it says. Gives the errors."""
    errors = lines_of(answers["errors"][1])
    require(bool(errors) == (status == 1), "emptiness", f"status {status} and {len(errors)} errors")
    if status == 0:
        require(answers["first"][1] == "ok\n", "first", f"{answers['first']}")
        return errors
    first = lines_of(answers["first"][1])
    require(len(first) == 1, "first", f"it prints {len(first)} lines")
    if any(error.failed() for error in errors):
        # where too many matches stay unfinished `errors` gives one failure, and `first` may have met fewer of them
        require(len(errors) == 1, "failure", f"a failure stands beside other errors: {errors}")
    else:
        require(repr(first[0]) == repr(errors[0]), "first", f"{first[0]!r} is not the first of {errors}")
    for error in [*first, *errors]:
        check_error(case, error, documents)
        check_paths(error)
    require(len({repr(error) for error in errors}) == len(errors), "twice", f"an error stands twice: {errors}")
    check_required(case, errors, documents)
    return errors


def check_required(case, errors, documents):
    """That `required` names each member that is missing, in its order."""
    groups = {}
    for error in errors:
        if error.schema_path.endswith("/required"):
            groups.setdefault((error.instance_path, error.schema_path, error.evaluation_path), []).append(error.text)
    for (instance_path, schema_path, _), group in groups.items():
        value = at(case.instance, instance_path)
        lists = [at(document, schema_path) for document in documents]
        might = [leaf_texts("required", names, value) for names in lists if isinstance(names, list)]
        require(group in might, "required", f"it names {group} at {instance_path!r}, and not {might}")


def unit_schema_path(unit):
    """A unit's place in its document, and the document's URI or none."""
    location = unit["schemaLocation"]
    if location == "" or location.startswith("/"):
        return None, location
    uri, _, fragment = location.partition("#")
    return uri, unquote(fragment)


def check_unit(case, unit, found):
    """That a unit's places are there, and that its errors are said by what stands there."""
    evaluation_path, instance_path = unit["evaluationPath"], unit["instanceLocation"]
    require(at(case.instance, instance_path) is not NOWHERE, "unit", f"its instance location leads to nothing: {unit}")
    uri, pointer = unit_schema_path(unit)
    documents = [document for own, document in found if uri is None or own == uri]
    require(any(at(document, pointer) is not NOWHERE for document in documents), "unit", f"its schema location leads to nothing: {unit}")
    kept = "droppedAnnotations" if unit["valid"] else "annotations"
    require(kept not in unit, "unit", f"it has {kept}: {unit}")
    for keyword, text in unit.get("errors", {}).items():
        require(not unit["valid"], "unit", f"it is valid and has errors: {unit}")
        error = Error(instance_path, pointer, evaluation_path, text)
        check_error(case, error, documents)
        check_paths(error)
        require(keyword == "falseSchema" or keyword == parts_of(pointer)[-1], "unit", f"another keyword is named: {unit}")


def check_list(case, answers, status, errors):
    """That the list is valid where the verdict is yes, that its units lead where they say, and that the errors are among theirs."""
    out = answers["list"][1]
    require(out.endswith("\n") and out.count("\n") == 1, "list", "it is not one line")
    listed = json.loads(out)
    require(compact(listed) == out[:-1], "list", "it is not compact, or its members are in another order")
    units = listed["details"]
    require(listed["valid"] == (status == 0) and units[0]["valid"] == (status == 0), "list", f"another verdict: {out}")
    root = (units[0]["evaluationPath"], units[0]["instanceLocation"])
    require(root == ("", ""), "list", f"the first unit is not the outermost: {units[0]}")
    found = resources(case.schema)
    spoken = {}
    for unit in units:
        check_unit(case, unit, found)
        place = (unit["evaluationPath"], unit["instanceLocation"])
        spoken.setdefault(place, set()).update(unit.get("errors", {}).values())
    told = set()
    for error in errors:
        place = (error.evaluation_path, error.instance_path)
        # a unit shows the first of several errors of one name, which `required` alone has
        if error.failed() or (place in told and error.evaluation_path.endswith("/required")):
            continue
        told.add(place)
        require(error.text in spoken.get(place, set()), "list", f"no unit has the error {error!r}")
    if any(error.failed() for error in errors):
        require(any(text.startswith(FAILURE) for it in spoken.values() for text in it), "list", "no unit has the failure")
        return
    shown = {(error.evaluation_path, error.instance_path, error.text) for error in errors}
    for (evaluation_path, instance_path), said in spoken.items():
        if not HIDING.intersection(parts_of(evaluation_path)[:-1]):
            for text in said:
                require((evaluation_path, instance_path, text) in shown, "list", f"no error is what a unit says: {text!r}")


def problem(case, answers):
    """What is wrong with the answers of the four modes, as a kind and a sentence, or None."""
    try:
        status = check_statuses(answers)
        if status != 2:
            documents = [document for _, document in resources(case.schema)]
            errors = check_lines(case, answers, status, documents)
            check_list(case, answers, status, errors)
    except Problem as found:
        return found.args
    except (ValueError, KeyError, IndexError, TypeError) as fault:
        return "shape", f"the answer cannot be read: {fault!r}"
    return None


def subschemas(schema, path=()):
    """Each subschema with its path, by the keywords that the bench's resolver knows."""
    yield path, schema
    if not isinstance(schema, dict):
        return
    for keyword, value in schema.items():
        if keyword in VALUES:
            yield from subschemas(value, (*path, keyword))
        inner = value if isinstance(value, dict) and keyword in OBJECTS else {}
        if isinstance(value, list) and (keyword in LISTS or keyword == "items"):
            inner = dict(enumerate(value))
        for name, member in inner.items():
            yield from subschemas(member, (*path, keyword, name))


def targets(reference, places):
    """The paths that a reference may lead to, perhaps more than it does."""
    if not isinstance(reference, str):
        return []
    _, _, fragment = reference.partition("#")
    found = []
    for path, schema in places.items():
        if not isinstance(schema, dict):
            continue
        is_root = path == () or any(isinstance(schema.get(name), str) for name in ("$id", "id"))
        if fragment in (schema.get("$anchor"), schema.get("$dynamicAnchor")) or (fragment == "" and is_root):
            found.append(path)
        if fragment.startswith("/") and is_root:
            inner = path + tuple(int(part) if part.isdigit() else part for part in parts_of(unquote(fragment)))
            found += [it for it in (inner, path + tuple(parts_of(unquote(fragment)))) if it in places]
    return found


def has_cycle(schema):
    """Whether references may return to where they came from; it may say so where they do not."""
    places = dict(subschemas(schema))
    edges = {path: [it for it in places if len(it) > len(path) and it[:len(path)] == path and not between(path, it)] for path in places}
    for path, value in places.items():
        if isinstance(value, dict):
            for keyword in REFERENCES:
                edges[path] += targets(value.get(keyword), places)
    done, open_now = set(), set()

    def returns(path):
        if path in open_now:
            return True
        if path in done:
            return False
        open_now.add(path)
        found = any(returns(it) for it in edges[path])
        open_now.discard(path)
        done.add(path)
        return found

    return any(returns(path) for path in places)


def between(path, inner):
    """Whether a definition lies on the way, which is reached by references alone."""
    return inner[len(path)] in ("$defs", "definitions")
