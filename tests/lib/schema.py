"""The lines of the program, validated against docs/protocol.schema.json if Debian's python3-jsonschema is installed. Of lines of one form,
which differ only in numbers and texts, the first SAMPLES are checked, and then fewer and fewer, so that a check with a million lines is not
slow. The first line is checked against all kinds of lines, which takes milliseconds, and the others against its own kind."""
import functools
import json
import os
import sys

TOP = os.path.dirname(os.path.dirname(os.path.dirname(os.path.abspath(__file__))))
SCHEMA = os.path.join(TOP, "docs/protocol.schema.json")
SAMPLES = 100
# the keys whose value is one word of a list
WORDED = {"error", "end", "outcome", "event", "state"}
# how many lines of a form were seen, and their kind
seen, kinds = {}, {}
# the keys of an agent's metadata that look like a line: they are not the program's, if `run` prints them
metadata = set()


def library():
    """The library, also if it is Debian's and this Python is not; None if it is not installed."""
    try:
        import jsonschema
    except ImportError:
        sys.path.append("/usr/lib/python3/dist-packages")
        try:
            import jsonschema
        except ImportError:
            jsonschema = None
        finally:
            sys.path.pop()
    return jsonschema


@functools.cache
def schema():
    with open(SCHEMA, encoding="utf-8") as file:
        return json.load(file)


def validator_of(kind):
    """A function that says whether a value is of this kind, as `line` or `command`; None without the library."""
    return None if library() is None else validator_at(f"#/$defs/{kind}")


@functools.cache
def validator_at(place):
    """The same for a path of the schema."""
    return library().Draft202012Validator({"$defs": schema()["$defs"], "$ref": place})


def kinds_at(place):
    """The paths of the kinds of which one has to match at a path."""
    found = functools.reduce(lambda part, key: part[int(key) if isinstance(part, list) else key], place.split("/")[1:], schema())
    if found.keys() == {"$ref"}:
        return kinds_at(found["$ref"])
    if found.keys() <= {"description", "oneOf"}:
        return [kind for number in range(len(found["oneOf"])) for kind in kinds_at(f"{place}/oneOf/{number}")]
    return [place]


def kind_of(value):
    """The path of the kind of lines that a value is of; fails if there is none."""
    if not lines().is_valid(value):
        raise AssertionError(f"docs/protocol.schema.json has no such line: {json.dumps(value)}")
    return next(place for place in kinds_at("#/$defs/line") if validator_at(place).is_valid(value))


@functools.cache
def lines():
    """A function that says whether a value is a line of the program."""
    return validator_of("line") if os.path.exists(SCHEMA) else None


def form(value):
    """The form of a line: its keys, with the values of those that have a word of a list."""
    return tuple((key, value[key] if key in WORDED else type(value[key]).__name__) for key in sorted(value))


def is_sample(shape):
    """Whether a line of a form is checked: each of the first ones, and then those at which their number has doubled."""
    seen[shape] = seen.get(shape, 0) + 1
    return seen[shape] <= SAMPLES or seen[shape].bit_count() == 1


def hold(value):
    """Fails if a value is not a line of the program."""
    if lines() is None or (isinstance(value, dict) and value and set(value) <= metadata):
        return
    shape = form(value) if isinstance(value, dict) else None
    if is_sample(shape) and (shape not in kinds or not validator_at(kinds[shape]).is_valid(value)):
        kinds[shape] = kind_of(value)
