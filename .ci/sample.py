"""Makes plans from a seed, which have no fault by how they are made, runs the program on each, and judges the modules.

The types are drawn for the side that a value comes from, and those of the other side are made to agree with them; core types are worked
out by the canonical ABI's rules of flattening. A module has to have the exports and imports of the plan, with their types; the program
itself has to accept it with --check, with as many functions as it defines; and an independent validator has to take it, where there is
one. Ends with status 1 at the first plan of which that does not hold, or where a form of plans was not drawn, and tells the seed and the
plan.
"""

import json
import random
import subprocess
import sys
import tempfile
from collections import Counter

I32, I64, F32, F64, FUNCREF = "i32", "i64", "f32", "f64", "funcref"
VALUES = {0x7F: I32, 0x7E: I64, 0x7D: F32, 0x7C: F64, 0x70: FUNCREF}

SCALARS = ["bool", "s8", "u8", "s16", "u16", "s32", "u32", "s64", "u64", "f32", "f64", "char"]
CORE = {"s64": I64, "u64": I64, "f32": F32, "f64": F64}
HANDLES = ["own", "borrow", "future", "stream", "error-context"]
COMPOUND = ["record", "variant", "tuple", "option", "result", "fixed-list"]
ENCODINGS = ["utf8", "utf16", "compact"]
NAMES = ["a", "b", "c", "name", "größe", "x-y", "n 1", "字"]

MAX_FLAT_PARAMS, MAX_FLAT_ASYNC_PARAMS, MAX_FLAT_RESULTS = 16, 4, 1

# What each sample of so many plans has to have drawn, besides all kinds of types.
ENOUGH = 200
FORMS = {
    *(f"{lower} under {lift}" for lower in ("sync", "async") for lift in ("sync", "async", "async with callback")),
    *(f"{source} to {target}" for source in ENCODINGS for target in ENCODINGS),
    *(f"{source} bits to {target}" for source in (32, 64) for target in (32, 64)),
    *(f"{what} {how}" for what in ("parameters", "results") for how in ("in core values", "through a pointer")),
    *("marked async", "within one instance", "transparent", "post-return", "page size 1", "debug", "concurrency", "exceptions"),
    "flags in another order",
}


# Types are words, or pairs of a key of `types` and what stands behind it, with types in the place of places.


def parts(tree):
    """The types that a value's parts have. Those of futures and streams are no parts of a handle."""
    if isinstance(tree, str) or tree[0] in ("flags", "enum", *HANDLES):
        return []
    kind, inner = tree
    if kind in ("record", "variant"):
        inner = [part for _, part in inner]
    elif kind in ("list", "option"):
        inner = [inner]
    elif kind == "fixed-list":
        inner = inner[:1]
    return [part for part in inner if part is not None]


def holds(tree, kinds):
    kind = tree if isinstance(tree, str) else tree[0]
    return kind in kinds or any(holds(part, kinds) for part in parts(tree))


def has_pointers(trees):
    return any(holds(tree, ("string", "list", "map")) for tree in trees)


def joined(one, other):
    if one == other:
        return one
    return I32 if {one, other} == {I32, F32} else I64


def flat(tree, pointer):
    """The core types of a value, of which more than 16 are told by 17."""
    kind = tree if isinstance(tree, str) else tree[0]
    if kind in ("string", "list", "map"):
        return [pointer, pointer]
    if kind in ("record", "tuple"):
        return flats(parts(tree), pointer)
    if kind == "fixed-list":
        return flats(parts(tree) * min(tree[1][1], 17), pointer)
    if kind in ("variant", "option", "result"):
        payload = []
        for case in (flat(part, pointer) for part in parts(tree)):
            both = [joined(one, other) for one, other in zip(payload, case)]
            payload = both + payload[len(both) :] + case[len(both) :]
        return [I32, *payload][:17]
    return [CORE.get(kind, I32)]


def flats(trees, pointer):
    return [core for tree in trees for core in flat(tree, pointer)][:17]


class Side:
    """What the canonical ABI makes of a side: its core values, and what goes through pointers."""

    def __init__(self, is_lift, is_async, is_wide, params, results):
        self.is_lift, self.is_async, self.is_wide = is_lift, is_async, is_wide
        self.trees = params, results
        self.pointer = I64 if is_wide else I32
        most_params, most_results = {
            (True, False): (MAX_FLAT_PARAMS, MAX_FLAT_RESULTS),
            (True, True): (MAX_FLAT_PARAMS, MAX_FLAT_PARAMS),
            (False, False): (MAX_FLAT_PARAMS, MAX_FLAT_RESULTS),
            (False, True): (MAX_FLAT_ASYNC_PARAMS, 0),
        }[is_lift, is_async]
        self.params, self.has_params_behind = self.flat_up_to(most_params, params)
        self.results, self.has_results_behind = self.flat_up_to(most_results, results)
        self.has_callback = False

    def flat_up_to(self, most, trees):
        """Core values, or a pointer in their place."""
        core = flats(trees, self.pointer)
        return ([self.pointer], True) if len(core) > most else (core, False)

    def needs_memory(self):
        params, results = self.trees
        return self.has_params_behind or self.has_results_behind or has_pointers(params + results)

    def needs_realloc(self):
        params, results = self.trees
        return has_pointers(params) or self.has_params_behind if self.is_lift else has_pointers(results)

    def return_pointer(self):
        """What a lower side is given besides its parameters."""
        return self.results if self.has_results_behind else []

    def given_back(self):
        """The core results of a lower side that stand for the function's results."""
        return [] if self.has_results_behind else self.results

    def core_type(self):
        if self.is_lift:
            return self.params, ([I32] * self.has_callback if self.is_async else self.results)
        return self.params + self.return_pointer(), [I32] if self.is_async else self.given_back()

    def word(self):
        if not self.is_async:
            return "sync"
        return "async with callback" if self.is_lift and self.has_callback else "async"


class Plan:
    """A plan while it is drawn."""

    def __init__(self, seed):
        self.random = random.Random(seed)
        self.forms = Counter()
        instances = self.random.choice([1, 2, 2, 3, 5, 4294967295])
        self.json = {"instances": instances, **{key: [] for key in ("types", "tables", "funcs", "core_types", "core_defs", "adapters")}}
        self.instances = [*range(instances)] if instances < 6 else [0, 1, 2147483647]
        self.json["tables"] = [[self.random.randrange(3), self.random.choice(self.instances)] for _ in range(3)]
        tunables = {key: True for key, of in (("concurrency", 0.7), ("exceptions", 0.3), ("debug", 0.3)) if self.chance(of)}
        if tunables:
            self.json["tunables"] = tunables
        self.forms.update(tunables)
        count = self.random.choice([0, 1, 1, 1, 2, 2, 3, 4])
        self.adapters = [self.adapter(f"{self.random.choice(NAMES)}{place}") for place in range(count)]

    def chance(self, of):
        return self.random.random() < of

    def place(self, key, value, again=0.1):
        """The place of an entry of a list of the plan, which may stand there more than once."""
        entries = self.json[key]
        if value not in entries or self.chance(again):
            entries.append(value)
        return self.random.choice([place for place, entry in enumerate(entries) if entry == value])

    # Types of one side.

    def names(self, most):
        names = [f"{name}{number}" for number in range(most) for name in NAMES]
        return self.random.sample(names, self.random.randint(1, most))

    def handle(self, borrows):
        kind = self.random.choice([kind for kind in HANDLES if borrows or kind != "borrow"])
        return self.same_handle(kind)

    def same_handle(self, kind):
        """A handle of a kind: two sides may name other tables and payloads."""
        if kind in ("own", "borrow"):
            return kind, self.random.randrange(len(self.json["tables"]))
        instance = self.random.choice(self.instances)
        if kind == "error-context":
            return kind, instance
        return kind, (self.random.choice([None, "u8", "string", ("list", "u16"), ("own", 0)]), instance)

    def leaf(self, drawn):
        if drawn["handles"] and self.chance(0.4):
            return self.handle(drawn["borrows"])
        if drawn["pointers"] and self.chance(0.4):
            return "string"
        if self.chance(0.15):
            kind = self.random.choice(["flags", "enum"])
            return kind, self.names(600 if kind == "enum" and self.chance(0.2) else 32)
        return self.random.choice(SCALARS)

    def tree(self, depth, drawn):
        if depth == 0 or self.chance(0.4):
            return self.leaf(drawn)
        part = lambda: self.tree(depth - 1, drawn)
        payload = lambda: None if self.chance(0.3) else part()
        kind = self.random.choice(COMPOUND + ["list", "list", "map"] * drawn["pointers"])
        if kind == "record":
            return kind, [(name, part()) for name in self.names(4)]
        if kind == "variant":
            return kind, [(name, payload()) for name in self.names(4)]
        if kind == "tuple":
            return kind, [part() for _ in range(self.random.randint(1, 3))]
        if kind == "map":
            return kind, [part(), part()]
        if kind == "result":
            return kind, [payload(), payload()]
        if kind == "fixed-list":
            return kind, (part(), self.random.choice([1, 2, 3, 16, 17, 1000]))
        return kind, part()

    def trees(self, counts, drawn):
        count = self.random.choice(counts)
        return [self.tree(2, drawn) if count < 6 else self.random.choice(SCALARS) for _ in range(count)]

    # Types of the other side, and places of types.

    def twin(self, tree):
        """A type with which this one agrees."""
        if tree is None or isinstance(tree, str) or tree[0] == "enum":
            return tree
        kind, inner = tree
        if kind in HANDLES:
            return self.same_handle(kind)
        if kind == "flags":
            names = self.random.sample(inner, len(inner)) if self.chance(0.5) else inner
            self.forms["flags in another order"] += names != inner
            return kind, names
        if kind in ("record", "variant"):
            pairs = [(name, self.twin(part)) for name, part in inner]
            if kind == "variant" and self.chance(0.5):
                name = "more" if "more" not in dict(pairs) else f"more{len(pairs)}"
                pairs.append((name, self.random.choice([None, "u64", "f32"])))
            self.random.shuffle(pairs)
            return kind, pairs
        if kind in ("list", "option"):
            return kind, self.twin(inner)
        if kind == "fixed-list":
            return kind, (self.twin(inner[0]), inner[1])
        return kind, [self.twin(part) for part in inner]

    def type(self, tree):
        """What the plan names a type by."""
        if tree is None or isinstance(tree, str):
            self.forms[tree] += 1
            return tree
        kind, inner = tree
        self.forms[kind] += 1
        if kind in ("record", "variant"):
            inner = [[name, self.type(part)] for name, part in inner]
        elif kind in ("list", "option"):
            inner = self.type(inner)
        elif kind in ("tuple", "map", "result"):
            inner = [self.type(part) for part in inner]
        elif kind in ("fixed-list", "future", "stream"):
            inner = [self.type(inner[0]), inner[1]]
        return self.place("types", {kind: inner})

    def function(self, params, results, mark):
        names = self.random.sample([f"p{number}" for number in range(99)], len(params))
        params = [[name, self.type(tree)] for name, tree in zip(names, params)]
        function = {"params": params, "results": [self.type(tree) for tree in results]}
        return self.place("funcs", {**function, "async": True} if mark else function)

    # Adapters.

    def export(self, instance, name):
        return self.place("core_defs", {"export": [instance, name]})

    def options(self, side, instance):
        """The keys of a side: what it needs, and more by chance."""
        keys = {"instance": instance}
        if self.chance(0.8):
            keys["encoding"] = self.random.choice(ENCODINGS)
        if side.needs_memory() or self.chance(0.2):
            width, log2 = 64 if side.is_wide else 32, 0 if self.chance(0.1) else 16
            self.forms["page size 1"] += log2 == 0
            place = self.export(instance, f"memory{width}-{log2}")
            keys["memory"] = {"def": place, "memory64": side.is_wide, "page_size_log2": log2}
            if side.needs_realloc() or self.chance(0.2):
                keys["realloc"] = self.export(instance, f"realloc{width}")
        side.has_callback = self.chance(0.5 if side.is_lift and side.is_async else 0.05)
        if side.has_callback:
            keys["callback"] = self.export(instance, "callback")
        if side.is_async:
            keys["async"] = True
        if side.is_lift and self.chance(0.3):
            keys["post_return"] = self.export(instance, "post-" + "-".join(side.core_type()[1]))
            self.forms["post-return"] += 1
        return keys

    def typed(self, side, keys, mark):
        """The keys of a side, with those of its types."""
        params, results = side.core_type()
        core_type = self.place("core_types", {"params": params, "results": results})
        absent = {key: None for key in ("memory", "realloc", "callback", "post_return") if self.chance(0.1)}
        return {**absent, **keys, "ty": self.function(*side.trees, mark), "core_type": core_type}

    def callee(self, side, instance):
        if self.chance(0.1):
            return self.place("core_defs", {"trampoline": len(self.json["adapters"])})
        params, results = side.core_type()
        return self.export(instance, "run-" + "-".join([*params, "to", *results]))

    def adapter(self, name):
        """Draws an adapter, and gives what is to be told of it."""
        lift_at = self.random.choice(self.instances)
        lower_at = self.random.choice([at for at in self.instances if at != lift_at or self.chance(0.1)] or [lift_at])
        may_await = lift_at == lower_at or "concurrency" in self.json.get("tunables", {})
        mark, lift_waits, lower_waits = (may_await and self.chance(of) for of in (0.2, 0.5, 0.5))
        drawn = {"handles": self.chance(0.4), "borrows": True, "pointers": self.chance(0.6)}
        params = self.trees([0, 1, 1, 2, 3, 4, 5, 16, 17], drawn)
        results = self.trees([0, 0, 1, 1, 1, 2, 3, 16, 17], {**drawn, "borrows": False})
        lift = Side(True, lift_waits, self.chance(0.3), [self.twin(tree) for tree in params], results)
        lower = Side(False, lower_waits, self.chance(0.3), params, [self.twin(tree) for tree in results])
        return self.linked(name, lift, lower, lift_at, lower_at, mark)

    def linked(self, name, lift, lower, lift_at, lower_at, mark=False):
        """Adds the adapter of two sides of two instances."""
        keys = {"lift": self.options(lift, lift_at), "lower": self.options(lower, lower_at)}
        sides = {"lift": self.typed(lift, keys["lift"], mark), "lower": self.typed(lower, keys["lower"], mark)}
        adapter = {"name": name, "func": self.callee(lift, lift_at), **sides}
        if self.chance(0.3) and not any(holds(tree, HANDLES) for side in (lift, lower) for trees in side.trees for tree in trees):
            adapter["transparent"] = True
            self.forms["transparent"] += 1
        self.json["adapters"].append(adapter)
        is_awaited = lift_at != lower_at and (mark or lift.is_async or lower.is_async)
        self.forms["marked async"] += mark
        if lift_at == lower_at:
            self.forms["within one instance"] += 1
        else:
            self.tell(lift, lower, keys)
        return Adapter(name, lift, lower, is_awaited)

    def tell(self, lift, lower, keys):
        """Counts the forms of an adapter between two instances."""
        self.forms[f"{lower.word()} under {lift.word()}"] += 1
        lift_encoding, lower_encoding = (keys[side].get("encoding", "utf8") for side in ("lift", "lower"))
        params, results = lift.trees
        for trees, source, target in ((params, lower, lift), (results, lift, lower)):
            has_text = any(holds(tree, ["string"]) for tree in trees)
            pair = (lower_encoding, lift_encoding) if source is lower else (lift_encoding, lower_encoding)
            self.forms[" to ".join(pair)] += has_text
            widths = [64 if side.is_wide else 32 for side in (source, target)]
            self.forms[f"{widths[0]} bits to {widths[1]}"] += has_pointers(trees)
        for what, has, trees in (("parameters", lower.has_params_behind, params), ("results", lower.has_results_behind, results)):
            self.forms[f"{what} {'through a pointer' if has else 'in core values'}"] += bool(trees)


class Adapter:
    """What the module is to have of an adapter."""

    def __init__(self, name, lift, lower, is_awaited):
        self.name, self.lift, self.lower = name, lift.core_type(), lower.core_type()
        self.functions, self.callees = [(name, self.lower)], []
        if is_awaited:
            start = f"[async-start]{name}", (lower.params, lift.params)
            given_back = f"[async-return]{name}", (lift.results + lower.return_pointer(), lower.given_back())
            self.functions = [start, given_back, *self.functions]
            self.callees = [(f"[adapter-callee]{name}", self.lift)]

    def imports(self):
        """The types of the functions that may be imported in this adapter's name."""
        return {
            ("callee", self.name): self.lift,
            ("post_return", self.name): (self.lift[1], []),
            ("sync", f"[prepare-call]{self.name}"): ([FUNCREF] * 2 + [I32] * 6 + self.lower[0], []),
            ("async", f"[start-call]{self.name}"): ([FUNCREF] + [I32] * 3, self.lower[1]),
        }


# Modules.

THREE = ([I32] * 3, [I32])
RUNTIME = {
    ("async", "enter-sync-call"): ([I32] * 2, []),
    ("async", "exit-sync-call"): ([], []),
    ("future", "transfer"): THREE,
    ("stream", "transfer"): THREE,
    ("error-context", "transfer"): THREE,
    ("resource", "transfer-own"): THREE,
    ("resource", "transfer-borrow"): THREE,
    **{("context", f"get{slot}"): ([], [I32]) for slot in (0, 1)},
    **{("context", f"set{slot}"): ([I32], []) for slot in (0, 1)},
    **{("runtime", f"trap{number}"): ([], []) for number in range(13)},
}

# The types of transcoders by their operations: f is the pointer type of the memory that is read, t that of the other one.
TRANSCODERS = {
    "utf8-to-utf8 utf16-to-utf16 latin1-to-latin1 latin1-to-utf16": "f f t to",
    "utf8-to-utf16 utf16-to-compact-probably-utf16": "f f t to t",
    "utf16-to-utf8 latin1-to-utf8": "f f t t i32 to f t",
    "utf8-to-latin1 utf16-to-latin1": "f f t to f t",
    "utf8-to-compact-utf16 utf16-to-compact-utf16": "f f t t t to t",
}


def transcoder(name, memories):
    operation, _, ends = name.partition(" ")
    pointers = dict(zip("ft", (memories[int(end.strip("(mem)"))] for end in ends.split(" => "))))
    for operations, signature in TRANSCODERS.items():
        if operation in operations.split():
            params, results = ([pointers.get(word, word) for word in part.split()] for part in signature.split("to"))
            return params, results
    raise Wrong(f"{name}: no transcoder")


class Wrong(Exception):
    """A module is not as it should be."""


class Bytes:
    """A part of a module that is read from the front."""

    def __init__(self, content):
        self.content, self.at = content, 0

    def take(self, count):
        self.at += count
        return self.content[self.at - count : self.at]

    def byte(self):
        return self.take(1)[0]

    def number(self):
        byte = self.byte()
        return byte if byte < 128 else byte - 128 + 128 * self.number()

    def name(self):
        return self.take(self.number()).decode("utf-8")

    def items(self, read):
        return [read() for _ in range(self.number())]


class Module:
    """The functions of a module that it takes and gives, each with its type."""

    def __init__(self, content):
        module = Bytes(content)
        module.take(8)
        sections = {}
        while module.at < len(content):
            key = module.byte()
            sections[key] = Bytes(module.take(module.number()))
        read = sections[1]
        types = read.items(lambda: (read.byte(), read.items(lambda: VALUES[read.byte()]), read.items(lambda: VALUES[read.byte()]))[1:])
        self.memories, self.imports = [], []
        self.read_imports(sections[2], types)
        read = sections[3]
        self.defined = read.items(lambda: types[read.number()])
        functions = [ty for _, ty in self.imports] + self.defined
        read = sections[7]
        self.exports = [(name, functions[number]) for name, _, number in read.items(lambda: (read.name(), read.byte(), read.number()))]

    def read_imports(self, read, types):
        for _ in range(read.number()):
            name, kind = (read.name(), read.name()), read.byte()
            if kind == 0:
                self.imports.append((name, types[read.number()]))
            elif kind == 2:
                flags, _ = read.byte(), read.number()
                self.memories.append(I64 if flags & 4 else I32)
                read.take(1 if flags & 8 else 0)
            else:
                read.take(2)


def judge_types(module, adapters):
    """Whether a module has the exports of its adapters, and imports nothing but what adapters may, with the right types."""
    wanted = [pair for adapter in adapters for pair in adapter.functions] + [pair for adapter in adapters for pair in adapter.callees]
    if module.exports != wanted:
        raise Wrong(f"the exports are {module.exports}, not {wanted}")
    known = dict(RUNTIME)
    for adapter in adapters:
        known.update(adapter.imports())
    for name, ty in module.imports:
        if name[0] == "transcode":
            is_known = ty == transcoder(name[1], module.memories)
        elif name[0] == "callback":
            is_known = ty == THREE
        elif name[0] == "realloc":
            is_known = ty in [([pointer] * 4, [pointer]) for pointer in (I32, I64)]
        else:
            is_known = ty == known.get(name)
        if not is_known:
            raise Wrong(f"the import {name} is of type {ty}")
    if len(set(name for name, _ in module.imports)) != len(module.imports):
        raise Wrong("an import stands twice")


# Runs.

# Modules of what a validator may not know: of block; try_table with a catch_all of label 0; end; end, and of a memory of pages of a byte.
EXCEPTIONS = bytes.fromhex("0061736d01000000010401600000030201000a0d010b0002401f400102000b0b0b")
PAGES = bytes.fromhex("0061736d010000000209010161016202080000")


class Runner:
    def __init__(self, program, validator):
        self.program, self.validator = program, validator
        self.file = tempfile.NamedTemporaryFile(suffix=".wasm")
        self.knows_exceptions, self.knows_pages = (self.is_valid(module)[0] for module in (EXCEPTIONS, PAGES))

    def is_valid(self, module):
        if not self.validator:
            return True, ""
        self.file.seek(0)
        self.file.truncate()
        self.file.write(module)
        self.file.flush()
        done = subprocess.run([*self.validator, self.file.name], capture_output=True, text=True)
        return done.returncode == 0, (done.stdout + done.stderr)[:2000]

    def module(self, plan, words):
        done = subprocess.run([self.program, *words], input=json.dumps(plan).encode(), capture_output=True)
        if done.returncode != 0 or done.stderr:
            raise Wrong(f"status {done.returncode}: {done.stderr.decode(errors='replace')}")
        return bytes.fromhex(done.stdout.decode().strip())

    def check(self, module, functions):
        """Has the program check a module that defines so many functions."""
        done = subprocess.run([self.program, "--check"], input=module.hex().encode(), capture_output=True)
        if (done.returncode, done.stdout, done.stderr) != (0, b"ok %d\n" % functions, b""):
            raise Wrong(f"--check: status {done.returncode}: {(done.stdout + done.stderr).decode(errors='replace')}")

    def judge(self, plan, words):
        """Raises Wrong where the plan's module is not as it should be."""
        module = self.module(plan.json, words)
        read = Module(module)
        judge_types(read, plan.adapters)
        self.check(module, len(read.defined))
        known = self.known(plan.json)
        if known != plan.json:
            module = self.module(known, words)
        is_valid, said = self.is_valid(module)
        if not is_valid:
            raise Wrong(f"not valid: {said}")

    def known(self, plan):
        """The plan, without what the validator doesn't know."""
        plan = json.loads(json.dumps(plan))
        if not self.knows_exceptions:
            plan.get("tunables", {}).pop("exceptions", None)
        for adapter in plan["adapters"] if not self.knows_pages else []:
            for side in (adapter["lift"], adapter["lower"]):
                if side.get("memory"):
                    side["memory"]["page_size_log2"] = 16
        return plan


def main(program, validator, seed, count):
    runner = Runner(program, validator)
    forms = Counter()
    for number in range(count):
        plan = Plan(f"{seed} {number}")
        words = plan.random.choice([[], ["--debug"]]) + plan.random.choice([[], *([f"--fuel={fuel}"] for fuel in (1, 2, 5, 41, 100, plan.random.randint(1, 1000000)))])
        try:
            runner.judge(plan, words)
        except (Wrong, LookupError, ValueError) as wrong:
            what = f"{type(wrong).__name__}: {wrong}"
            print(f"sample: seed {seed}, plan {number}, words {words}: {what}\n{json.dumps(plan.json)}", file=sys.stderr)
            return 1
        forms += plan.forms
    missing = sorted((FORMS | {*SCALARS, "string", *HANDLES, *COMPOUND, "list", "map", "flags", "enum"}) - forms.keys())
    if count >= ENOUGH and missing:
        print(f"sample: seed {seed}: no plan has {', '.join(missing)}", file=sys.stderr)
        return 1
    by = f"valid by {validator[0]}" if validator else "with the exports and imports that they should have; there is no validator"
    print(f"sample: seed {seed}: the modules of {count} plans are {by}", file=sys.stderr)
    return 0


if __name__ == "__main__":
    sys.exit(main(sys.argv[1], sys.argv[4:], int(sys.argv[2]), int(sys.argv[3])))
