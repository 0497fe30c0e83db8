"""How the built program ends, for `.ci/browser`, which compares the program in the page with it: a list of objects with `words`, those behind the
program's name, `input`, a text, and what comes of them: `status`, and `output` and `told`, what is written to standard output and to standard
error."""

import json
import subprocess
from pathlib import Path

TOP = Path(__file__).resolve().parent.parent.parent


def example(name):
    return json.loads((TOP / "examples" / f"{name}.json").read_text())


def changed(plan, path, value):
    """The plan with another value at a path of keys and places; None takes it away."""
    plan = json.loads(json.dumps(plan))
    at = plan
    for key in path[:-1]:
        at = at[key]
    if value is None:
        del at[path[-1]]
    else:
        at[path[-1]] = value
    return json.dumps(plan)


def bad_plans():
    greet = example("greet")
    for key in greet:
        yield changed(greet, [key], None)
        yield changed(greet, [key], {"none": 1})
    for path, value in [
        (["unknown"], 1),
        (["instances"], 4294967296),
        (["instances"], -1),
        (["types", 2, "variant", 0], ["empty"]),
        (["types", 0], {"list": "text"}),
        (["adapters", 0, "lift", "encoding"], "latin1"),
        (["adapters", 0, "name"], 7),
    ]:
        yield changed(greet, path, value)


def refused_plans():
    greet = example("greet")
    for path, value in [
        (["instances"], 1),
        (["types", 3], {"result": ["string", 3]}),
        (["types", 2, "variant", 1, 0], "empty"),
        (["types", 1], {"fixed-list": ["u64", 4294967295]}),
        (["core_types", 0, "results"], ["i64"]),
        (["adapters", 0, "lift", "memory"], None),
        (["adapters", 0, "lower", "realloc"], None),
        (["adapters", 0, "lower", "post_return"], 3),
        (["adapters", 0, "lower", "memory", "memory64"], True),
        (["adapters", 0, "lift", "realloc"], 0),
    ]:
        yield changed(greet, path, value)
    greet["adapters"] *= 2
    yield json.dumps(greet)


def calls():
    call = {"plan": example("greet"), "args": ["aé", ["", "𝄞"], {"some": 18446744073709551615}], "results": [{"ok": "жук"}]}
    yield ["--call", "greet"], call
    yield ["--call", "nobody"], call
    yield ["--call", "greet"], {**call, "args": ["aé", [7], {"none": None}]}
    yield ["--call", "greet"], {**call, "args": ["a" * 20000, [], {"none": None}]}
    yield ["--call", "greet"], {"plan": call["plan"]}


def inputs():
    """Words and inputs, for each kind of end."""
    plan = json.dumps(example("all-events"))
    for words in ["", "--debug", "--imports", "--fuel 1", "--fuel=1000000", "--imports --debug --fuel 7"]:
        yield words.split(), plan
    for words in ["--fuel 0", "--help", "--generate 4097", "--check --generate 1", "plan.json", "--call", "--schlüssel"]:
        yield words.split(), plan
    for number in ["0", "8", "100"]:
        yield ["--generate", number], ""
    for text in ["", "{", "[]", "null", '{"instances": 1e0}', '"\ud7ff"', "[" * 200, "\N{BYTE ORDER MARK}{}"]:
        yield [], text
    yield from (([], text) for text in [*bad_plans(), *refused_plans()])
    yield from ((words, json.dumps(call, ensure_ascii=False)) for words, call in calls())


def checked(program):
    """Modules to be checked: one that the program makes, and others."""
    module = subprocess.run([program], input=json.dumps(example("greet")).encode(), capture_output=True, check=True).stdout.decode()
    for text in [module, module.upper(), module[:-3], f"{module}\n", module.replace("0061736d", "0061736e"), module.replace("666c616773", "666c616774"), ""]:
        yield ["--check"], text


def write(program, out):
    endings = []
    for words, text in [*inputs(), *checked(program)]:
        done = subprocess.run([program, *words], input=text.encode(), capture_output=True)
        output, told = done.stdout.decode(), done.stderr.decode()
        endings.append({"words": words, "input": text, "status": done.returncode, "output": output, "told": told})
    Path(out).write_text(json.dumps(endings) + "\n")
