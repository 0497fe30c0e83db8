"""Writes a plan of so many adapters of twelve parameters: bench/twelve.py COUNT shared|distinct

Those of `shared` have one function, one callee and one pair of instances; in `distinct` each has its own, and its own core type.
"""

import json
import sys


def bits(number, zero, one):
    return [[zero, one][number >> i & 1] for i in range(12)]


def plan(count, is_shared):
    kinds = range(1 if is_shared else count)

    def at(k):
        return 0 if is_shared else k

    def side(k, instance):
        return {"ty": at(k), "instance": instance, "core_type": at(k)}

    return {
        "instances": 2 * len(kinds),
        "types": [],
        "tables": [],
        "funcs": [{"params": [[f"p{i}", t] for i, t in enumerate(bits(k, "u32", "u64"))], "results": ["u32"]} for k in kinds],
        "core_types": [{"params": bits(k, "i32", "i64"), "results": ["i32"]} for k in kinds],
        "core_defs": [{"export": [k, f"run{k}"]} for k in kinds],
        "adapters": [
            {"name": f"f{k}", "func": at(k), "lift": side(k, 2 * at(k) + 1), "lower": side(k, 2 * at(k))} for k in range(count)
        ],
    }


print(json.dumps(plan(int(sys.argv[1]), sys.argv[2] == "shared")), end="")
