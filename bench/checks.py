"""Writes a plan whose checks take long: bench/checks.py wide TYPES ADAPTERS, nested LEVELS, params COUNT or records COUNT FIELDS

`wide` has records of a number and a text, lists of them, and adapters that share 1,000 functions. `nested` has two chains of maps, each
of the one before twice. `params` has 10,000 adapters of two functions of so many u32 parameters. `records` has records of one another's
fields in turn, each of which agrees with each of as many others.
"""

import json
import sys


def side(ty, instance, core_type, **options):
    return dict(ty=ty, instance=instance, core_type=core_type, **options)


def plan(types, funcs, params, adapters):
    defs = [{"export": [0, "memory"]}, {"export": [1, "memory"]}, {"export": [1, "realloc"]}]
    defs += [{"export": [1, "f%d" % i]} for i in range(len(adapters))]
    adapters = [
        {
            "name": "f%d" % i,
            "func": 3 + i,
            "lift": side(lift, 1, 0, memory={"def": 1}, realloc=2),
            "lower": side(lower, 0, 0, memory={"def": 0}),
        }
        for i, (lift, lower) in enumerate(adapters)
    ]
    return {
        "instances": 2,
        "types": types,
        "tables": [],
        "funcs": funcs,
        "core_types": [{"params": params, "results": []}],
        "core_defs": defs,
        "adapters": adapters,
    }


def of_one(types):
    return [{"params": [["x", ty]], "results": []} for ty in types]


def wide(types, adapters):
    def entry(k):
        return {"record": [["a%d" % k, "u32"], ["b", "string"]]} if k % 2 else {"list": k - 1}

    entries = [{"list": "u8"}] + [entry(k) for k in range(1, types)]
    return plan(entries, of_one(2 * j + 1 for j in range(1000)), ["i32"] * 3, [(i % 1000, i % 1000) for i in range(adapters)])


def nested(levels):
    types = [{"record": [["a", "u8"], ["b", "u8"]]}, {"record": [["b", "u8"], ["a", "u8"]]}]
    for _ in range(1, levels):
        types += [{"map": [len(types) - 2] * 2}, {"map": [len(types) - 1] * 2}]
    return plan(types, of_one([len(types) - 2, len(types) - 1]), ["i32", "i32"], [(0, 1)])


def params(count):
    funcs = [{"params": [["p%d" % i, "u32"] for i in range(count)], "results": []} for _ in range(2)]
    return plan([], funcs, ["i32"], [(0, 1)] * 10000)


def records(count, fields):
    turned = [[["f%d" % (i % fields), "u8"] for i in range(j, j + fields)] for j in range(count)]
    types = [{"record": fs} for fs in turned] + [{"record": fs[::-1]} for fs in turned]
    return plan(types, of_one(range(2 * count)), ["i32"], [(count + j, i) for i in range(count) for j in range(count)])


forms = {"wide": wide, "nested": nested, "params": params, "records": records}
print(json.dumps(forms[sys.argv[1]](*map(int, sys.argv[2:])), separators=(",", ":")), end="")
