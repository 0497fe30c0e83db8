"""Writes the input of a call of an adapter, `f0`, which goes from UTF-16 to UTF-8 between memories of 32 bits, with concurrency on:
bench/called.py KIND [COUNT]

    number         a u32
    numbers COUNT  a list of so many u64
    texts COUNT    a list of so many texts, each of which is transcoded twice and allocated three times
    cases COUNT    a list of so many variants of 2,003 cases
"""

import json
import sys


def argument(kind, count):
    """The entries of `types`, the parameter's type, its core types, and the argument."""
    if kind == "number":
        return [], "u32", ["i32"], 7
    if kind == "numbers":
        return [{"list": "u64"}], 0, ["i32", "i32"], list(range(count))
    if kind == "texts":
        return [{"list": "string"}], 0, ["i32", "i32"], ["aé"] * count
    return [{"variant": [[str(case), None] for case in range(2003)]}, {"list": 0}], 1, ["i32", "i32"], [{"2002": None}] * count


def side(instance):
    return {"ty": 0, "instance": instance, "core_type": 0, "memory": {"def": 2 * instance}, "realloc": 2 * instance + 1}


types, ty, params, value = argument(sys.argv[1], int(sys.argv[2]) if len(sys.argv) > 2 else 0)
plan = {
    "instances": 2,
    "types": types,
    "tables": [],
    "funcs": [{"params": [["x", ty]], "results": []}],
    "core_types": [{"params": params, "results": []}],
    "core_defs": [{"export": [instance, name]} for instance in (0, 1) for name in ("memory", "realloc")] + [{"export": [1, "run"]}],
    "adapters": [{"name": "f0", "func": 4, "lift": side(1), "lower": {**side(0), "encoding": "utf16"}}],
    "tunables": {"concurrency": True},
}
json.dump({"plan": plan, "args": [value], "results": []}, sys.stdout, ensure_ascii=False, separators=(",", ":"))
