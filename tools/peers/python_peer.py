"""python_peer.py NAME [SCHEMA INSTANCE REPEATS]: reads two files once, and validates the instance so often with the module of that name.

Ends with 0 where each answer is that the instance is accepted, with 1 where each refuses it, with 3 where the answers differ, and with 4
where the module is not there. Without files it prints the module's version.
"""

import json
import platform
import sys


def of_fastjsonschema(schema):
    import fastjsonschema

    validate = fastjsonschema.compile(schema)

    def is_valid(instance):
        try:
            validate(instance)
        except fastjsonschema.JsonSchemaException:
            return False
        return True

    return is_valid


def of_jsonschema(schema):
    import jsonschema

    return jsonschema.Draft202012Validator(schema).is_valid


MODULES = {"fastjsonschema": of_fastjsonschema, "jsonschema": of_jsonschema}


def version(name):
    """The module's version, and that of the language that it runs in."""
    from importlib import metadata

    return f"{metadata.version(name)}, Python {platform.python_version()}"


def main():
    name = sys.argv[1]
    try:
        __import__(name)
    except ImportError:
        return 4
    if len(sys.argv) == 2:
        print(version(name))
        return 0
    schema, instance = (json.load(open(path, encoding="utf-8")) for path in sys.argv[2:4])
    repeats = int(sys.argv[4])
    is_valid = MODULES[name](schema)
    accepted = sum(1 for _ in range(repeats) if is_valid(instance))
    return 0 if accepted == repeats else 1 if accepted == 0 else 3


if __name__ == "__main__":
    sys.exit(main())
