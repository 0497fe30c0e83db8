"""Writes the plan of so many adapters that `factc --generate` makes the module of, by rules of its own: bench/generated.py COUNT"""

import json
import sys


def nest(types, depth):
    ty = "u32"
    for _ in range(depth):
        types += [{"list": ty}, {"tuple": [ty, len(types)]}]
        ty = len(types) - 1
    return ty


def function(types, k, lifts):
    """The parameters and results of the function of adapter `k` on a side, and its core type's."""
    a = "i64" if lifts else "i32"
    text = ([a, a], [a]) if lifts else ([a, a, a], [])

    def add(ty):
        types.append(ty)
        return len(types) - 1

    def turned(members):
        return members[::-1] if lifts else members

    def one(ty):
        return [["x", ty]]

    form = k % 8
    if form == 0:
        return one("u32"), [], ["i32"], []
    if form == 1:
        return [["x", "char"], ["y", "s8"]], ["bool"], ["i32", "i32"], ["i32"]
    if form == 2:
        return one(add({"record": turned([["a", "u8"], ["b", "u32"]])})), [], ["i32", "i32"], []
    if form == 3:
        return one("string"), ["string"], *text
    if form == 4:
        ty = add({"list": "u16"})
        return one(ty), [ty], *text
    if form == 5:
        return one(add({"variant": turned([["p", "f32"], ["q", "f64"], ["r", None]])})), [], ["i32", "i64"], []
    if form == 6:
        depth = 1 + k // 8 % 10
        flat = ["i32"] + [a, a] * depth
        return one(nest(types, depth)), [], flat if len(flat) <= 16 else [a], []
    ty = add({"result": ["string", add({"option": "u64"})]})
    return [["x%d" % i, "u32"] for i in range(17)], [ty], *(([a], [a]) if lifts else ([a, a], []))


def side_of(k, lifts, types, funcs, core_types):
    params, results, core_params, core_results = function(types, k, lifts)
    side = {"ty": len(funcs), "instance": int(lifts), "core_type": len(core_types), "encoding": "compact" if lifts else "utf8"}
    if k % 8:
        side |= {"memory": {"def": 2 * lifts, "memory64": lifts}, "realloc": 2 * lifts + 1}
    funcs.append({"params": params, "results": results})
    core_types.append({"params": core_params, "results": core_results})
    return side


def plan(count):
    types, funcs, core_types, adapters = [], [], [], []
    defs = [{"export": [i, name]} for i in (0, 1) for name in ("memory", "realloc")]
    for k in range(count):
        lower, lift = (side_of(k, lifts, types, funcs, core_types) for lifts in (False, True))
        defs.append({"export": [1, "f%d" % k]})
        adapters.append({"name": "f%d" % k, "func": 4 + k, "lower": lower, "lift": lift})
    return {"instances": 2, "types": types, "tables": [], "funcs": funcs, "core_types": core_types, "core_defs": defs, "adapters": adapters}


json.dump(plan(int(sys.argv[1])), sys.stdout, separators=(",", ":"))
