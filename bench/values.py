"""Writes a plan of values in memory: bench/values.py fields|cases|nested|adapters|variants COUNT

Results go through a pointer. `fields` has one record of so many fields, in the opposite order on the other side, `cases` one variant of
so many cases likewise, `nested` tuples in one another, `adapters` so many adapters of records of 20 fields, and `variants` so many
variants of 4,096 cases, each the payload of the first case of the next.
"""

import json
import sys


def side(ty, instance, core_type, memory):
    return {"ty": ty, "instance": instance, "core_type": core_type, "memory": {"def": memory}}


def plan(types, funcs, count):
    return {
        "instances": 2,
        "types": types,
        "tables": [],
        "funcs": [{"params": [], "results": [ty]} for ty in funcs],
        "core_types": [{"params": [], "results": ["i32"]}, {"params": ["i32"], "results": []}],
        "core_defs": [{"export": [0, "memory"]}, {"export": [1, "memory"]}] + [{"export": [1, "run%d" % k]} for k in range(count)],
        "adapters": [
            {"name": "f%d" % k, "func": 2 + k, "lift": side(0, 1, 0, 1), "lower": side(len(funcs) - 1, 0, 1, 0)} for k in range(count)
        ],
    }


def record(fields):
    names = [["field%d" % k, ["u8", "u32", "u64", "char"][k % 4]] for k in range(fields)]
    return [{"record": names}, {"record": names[::-1]}]


def variant(cases):
    names = [["case%d" % k, [None, "u8", "u32", "f64"][k % 4]] for k in range(cases)]
    return [{"variant": names}, {"variant": names[::-1]}]


def chain(count):
    types = []
    for k in range(count):
        types.append({"variant": [["c0", k - 1 if k else None]] + [["c%d" % i, None] for i in range(1, 4096)]})
    return types


forms = {
    "fields": lambda n: plan(record(n), [0, 1], 1),
    "cases": lambda n: plan(variant(n), [0, 1], 1),
    "nested": lambda n: plan([{"tuple": ["u32", "u8"]}] + [{"tuple": [k - 1, "u8"]} for k in range(1, n)], [n - 1], 1),
    "adapters": lambda n: plan(record(20), [0, 1], n),
    "variants": lambda n: plan(chain(n), [n - 1], 1),
}
print(json.dumps(forms[sys.argv[1]](int(sys.argv[2])), separators=(",", ":")), end="")
