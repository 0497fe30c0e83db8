"""Judges the schema of plans that is named by the examples and by the texts of the tests.

The texts stand in the table of crates/row_tests: what is asked in its stdin, what comes of it in its stdout. A block may be a plan, and lines
that ask how the command ends for it, or for the plan with some edits. Ends with status 1 where a text is not judged as it should be, where the
schema is none or does not tell what a key is, and where the texts cannot be read or have become fewer.
"""

import json
import re
import sys
from pathlib import Path

from jsonschema import Draft202012Validator

ROWS = Path("crates/row_tests")

# The block whose plan has all entries.
RICH = "faults.of_types"

# At least so many texts of each kind are there.
FEWEST = {"examples": 50, "rows of plans": 450, "rows of one entry": 80, "rows of no plans": 210, "inputs of no plans": 5, "lines of plans": 420}

# The rows of no plans that a schema accepts. It looks at a number's value, and the reader at how it is written: with a sign, a
# fraction or an exponent it is none of a plan.
BY_VALUE = "the number's value is an integer in range"
ACCEPTED = {
    'WrongKind at plan.instances: s":0 => s":-0': BY_VALUE,
    'WrongKind at plan.instances: s":0 => s":1.0': BY_VALUE,
    'WrongKind at plan.instances: s":0 => s":1e3': BY_VALUE,
    'WrongKind at plan.types.11.borrow: "borrow":1 => "borrow":1.0': BY_VALUE,
    'WrongKind at plan.types.14.error-context: "error-context":2 => "error-context":2.0': BY_VALUE,
}

# Further rows of the plan with all entries, for what the tests' rows do not tell: pairs that are objects, or of another length, or one of
# whose items is wrong alone; other values that are no lists or objects; a side that is missing; and the greatest numbers.
FURTHER = """
WrongKind at plan.tables.0: [7,0] => {"7":0}
WrongKind at plan.tables.0.0: [7,0] => ["7",0]
WrongKind at plan.types.0.record.0: ["a","u8"] => {"a":"u8"}
WrongKind at plan.types.1.variant.1: ["q",null] => {"q":null}
WrongKind at plan.types.1.variant.1: ["q",null] => ["q",null,null]
WrongKind at plan.types.5.map: ["string",3] => {"string":3}
WrongKind at plan.types.5.map.0: ["string",3] => [null,3]
WrongKind at plan.types.6.result: ["char",null] => {"char":null}
WrongKind at plan.types.6.result: ["char",null] => ["char",null,null]
WrongKind at plan.types.9.fixed-list: ["f64",4] => {"f64":4}
WrongKind at plan.types.9.fixed-list: ["f64",4] => ["f64",4,4]
WrongKind at plan.types.9.fixed-list.0: ["f64",4] => [null,4]
WrongKind at plan.types.12.future: [null,2] => {"2":2}
WrongKind at plan.types.12.future: [null,2] => [null,2,2]
WrongKind at plan.types.13.stream: ["bool",2] => {"bool":2}
WrongKind at plan.types.13.stream: ["bool",2] => ["bool"]
WrongKind at plan.types.13.stream.1: ["bool",2] => ["bool",null]
WrongKind at plan.funcs.0.params: [["x",2]] => {"x":2}
WrongKind at plan.funcs.0.params.0: ["x",2] => {"x":2}
WrongKind at plan.funcs.0.params.0: ["x",2] => ["x",2,2]
WrongKind at plan.funcs.0.params.0.0: ["x",2] => [2,2]
WrongKind at plan.core_defs.0.export: [0,"run"] => {"0":"run"}
WrongKind at plan.core_defs.0.export: [0,"run"] => [0,"run",0]
WrongKind at plan.core_defs.0.export.0: [0,"run"] => ["0","run"]
WrongKind at plan.core_types.0.params: ["i32"] => "i32"
OutOfRange at plan.core_types.0.results.0: ["i64"] => ["i63"]
WrongKind at plan.adapters.0: "adapters":[{ => "adapters":[null,{
Missing at plan.adapters.0.lift: "adapters":[{ => "adapters":[{"name":"g","func":0,"lower":{"ty":0,"instance":0,"core_type":0}},{
WrongKind at plan.adapters.0.lower: "lower":{"ty":0,"instance":0,"core_type":0} => "lower":[]
UnknownIndex at type 0: ["a","u8"] => ["a",4294967295]
UnknownIndex at adapter 0: "realloc":1 => "realloc":4294967295
WrongKind at plan.adapters.0.lower.instance: "lower":{"ty":0,"instance":0 => "lower":{"ty":0,"instance":-1
"""

# The most characters of a row's plan that is judged. The validator takes 20 seconds for one whose variant has 4,096 cases.
LONGEST = 50_000

# How the name of a row begins whose plan is read and then refused.
REFUSED = "a refused plan"

FAULT = re.compile(r"(Missing|UnknownKey|WrongKind|OutOfRange) at plan\S*")
CAME = re.compile(r"(?P<name>\S+) (?P<number>\d+): (?P<came>.*)")

class Unreadable(Exception):
    """Something does not stand in the tests as it should."""


def lines_of(name):
    return (ROWS / name).read_text(encoding="utf-8").splitlines()


def blocks():
    """The name and the plan of each block, and what is asked of it, each with what comes of it."""
    came = {(it["name"], int(it["number"])): it["came"] for it in map(CAME.fullmatch, lines_of("stdout")) if it}
    found = []
    for line in lines_of("stdin"):
        if not found and not line.startswith("block "):
            continue
        if line.startswith("block "):
            _, name, plan = line.split(" ", 2)
            found.append((name, plan, []))
            continue
        name, _, asked = found[-1]
        number = len(asked)
        if not line.startswith("#") and (name, number) not in came:
            raise Unreadable(f"{name} {number}: nothing comes of it")
        asked.append((line, came.get((name, number), "")))
    return found


def no_number(word):
    raise ValueError(f"{word} is no number")


def value_of(text, where):
    """The value of a JSON text. Of a key that an object repeats the last value stays, as it does for the reader."""
    try:
        return json.loads(text, parse_constant=no_number)
    except ValueError as error:
        raise Unreadable(f"{where}: {error}") from error


def edited(plan, edits, row):
    """A plan with some edits: each is a part, `=>` and what stands in the place of its first occurrence."""
    for edit in edits.split("|"):
        old, arrow, new = (part.strip() for part in edit.partition("=>"))
        if not arrow or not old or old not in plan:
            raise Unreadable(f"{row}: no such part")
        plan = plan.replace(old, new, 1)
    return plan


def row_of(name, plan, end, edits):
    """A row of a table, whether it is one of a plan, and its value. Its name is the end and the edits."""
    row = f"{end}: {edits}"
    return row, FAULT.fullmatch(end) is None, value_of(edited(plan, edits, f"{name}: {row}"), row)


def rows():
    """How the command ends for plans with edits, and the further rows."""
    rich = None
    for name, plan, asked in blocks():
        rich = plan if name == RICH else rich
        for line, came in asked:
            kind, _, edits = line.partition(" ")
            if kind in ("end", "page") and "=>" in edits and len(plan) + len(edits) <= LONGEST:
                end = came.removeprefix("7 bad plan: ").removesuffix("$") if came.startswith("7 ") else REFUSED if came.startswith("8 ") else "a plan"
                yield row_of(name, plan, end, edits)
    for row in FURTHER.strip().splitlines():
        end, _, edits = row.partition(": ")
        yield row_of(RICH, rich, end, edits)


def inputs():
    """The JSON texts that are no object."""
    for name, plan, asked in blocks():
        if asked == [("end ", "7 bad plan: WrongKind at plan$")]:
            yield plan, False, value_of(plan, name)


def lines():
    """The plans of the blocks that are run, whose imports are asked for, or whose module is looked at."""
    for name, plan, asked in blocks():
        if not plan.startswith("bytes ") and any(line.startswith(("run ", "imports ", "shows ")) for line, _ in asked):
            yield f"{name}: {plan}", True, value_of(plan, name)


def examples():
    for file in [*sorted(Path("examples").glob("*.json")), Path("crates/factc/stdin")]:
        yield str(file), True, value_of(file.read_text(encoding="utf-8"), file)


def texts():
    """All texts by their kinds."""
    found = [*rows(), *bounds()]
    return {
        "examples": list(examples()),
        "rows of plans": [text for text in found if text[1] and not is_of_one(text)],
        "rows of one entry": [text for text in found if is_of_one(text)],
        "rows of no plans": [text for text in found if not text[1]],
        "inputs of no plans": list(inputs()),
        "lines of plans": list(lines()),
    }


def untold(schema, path="plan"):
    """The keys of the schema that have no description."""
    if isinstance(schema, list):
        schema = dict(enumerate(schema))
    if isinstance(schema, dict):
        for key, inner in schema.items():
            if key == "properties":
                yield from (f"{path}.{name}" for name, its in inner.items() if not its.get("description"))
            yield from untold(inner, f"{path}.{key}")


def faults(schema, found):
    """What is not as it should be, a line for each."""
    for path in untold(schema):
        yield f"{path}: no description"
    for kind, fewest in FEWEST.items():
        if len(found[kind]) < fewest:
            yield f"{len(found[kind])} {kind}, fewer than {fewest}"
    validator = Draft202012Validator(schema)
    names = set()
    for name, is_plan, value in (text for kind in found.values() for text in kind):
        names.add(name)
        is_accepted = validator.is_valid(value)
        if is_accepted != (is_plan and not is_of_one((name, is_plan, value)) or name in ACCEPTED):
            yield f"{name}: {'accepted' if is_accepted else 'refused'}"
    for name in ACCEPTED.keys() - names:
        yield f"{name}: no such row"


def judged(path):
    """What is wrong, a line for each, and what was looked at."""
    try:
        found = texts()
        schema = value_of(Path(path).read_text(encoding="utf-8"), path)
        Draft202012Validator.check_schema(schema)
        return list(faults(schema, found)), ", ".join(f"{len(texts)} {kind}" for kind, texts in found.items())
    except Exception as error:
        return [f"{type(error).__name__}: {error}"], ""


def breaks_a_rule(entry):
    """Whether an entry of `types` breaks a rule by what it says itself, but for the names of fields and cases that are repeated."""
    ((kind, inner),) = entry.items()
    if kind == "fixed-list":
        return inner[1] == 0
    names = inner if kind in ("flags", "enum") else []
    most = {"variant": 4096, "flags": 32}.get(kind)
    is_empty = kind in ("record", "variant", "tuple", "flags", "enum") and not inner
    return is_empty or len(set(names)) < len(names) or most is not None and len(inner) > most


def is_odd(side):
    """Whether a side breaks a rule by what it says itself."""
    memory = side.get("memory")
    if memory is None:
        return side["instance"] > 2147483647 or side.get("realloc") is not None
    is_odd_memory = memory.get("shared", False) or memory.get("page_size_log2", 16) not in (0, 16)
    return side["instance"] > 2147483647 or is_odd_memory


def is_of_one(text):
    """Whether a plan that is read is refused for what one entry says by itself, which a schema tells too."""
    name, is_plan, plan = text
    if not is_plan or not name.startswith(REFUSED):
        return False
    sides = [adapter[side] for adapter in plan["adapters"] for side in ("lift", "lower")]
    has_post_return = any(adapter["lower"].get("post_return") is not None for adapter in plan["adapters"])
    return has_post_return or any(map(breaks_a_rule, plan["types"])) or any(map(is_odd, sides))


def bounds():
    """Types with as many members as they may have, and with one more."""
    for kind, most, named in ("variant", 4096, "a variant of {:,} cases"), ("flags", 32, "{} flags"):
        for count in most, most + 1:
            names = [f"n{number}" for number in range(count)]
            entry = {kind: [[name, None] for name in names] if kind == "variant" else names}
            plan = {"instances": 0, "types": [entry], "tables": [], "funcs": [], "core_types": [], "core_defs": [], "adapters": []}
            yield f"{'a plan' if count == most else REFUSED}: {named.format(count)}", True, plan


def main(path):
    wrong, seen = judged(path)
    for line in wrong:
        print(f"schema: {line}", file=sys.stderr)
    if not wrong:
        print(f"schema: {path}: {seen}: as it should be", file=sys.stderr)
    return 1 if wrong else 0


sys.exit(main(sys.argv[1]))
