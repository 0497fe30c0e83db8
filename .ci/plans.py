"""Judges tools/witplan by the examples, by rows and by plans that are drawn: plans.py PROGRAM SEED PLANS, where PROGRAM may be `none`.

What is expected does not come from the tool: the plans of examples/*.json stand in the repository, the rows were worked out by the canonical
ABI's rules, and drawn plans are those of .ci/sample.py, whose core types are worked out there. Plans are compared with all that they name
looked up, since the order of their entries says nothing. Ends with status 1 where something differs.
"""

import importlib.machinery
import importlib.util
import json
import re
import subprocess
import sys
import textwrap
from pathlib import Path

sys.dont_write_bytecode = True

try:
    from jsonschema import Draft202012Validator
except ImportError:
    Draft202012Validator = None

TOOL = Path("tools/witplan")
FEWEST_EXAMPLES = 24

# What all rows of functions may name.
SHARED = """
flags some-flags { a, b }
enum some-enum { x, y }
record pair { a: u8, b: f64 }
variant either { p(u32), q(f32), z }
resource file;
"""

# A function, what stands behind `with` in the caller and in the callee, the core types of both, and what each has: m a memory, r a realloc.
FUNCTIONS = """
func() | | | -> | -> | |
func(a: u8, b: s64, c: f32, d: f64, e: char) -> u64 | | | i32 i64 f32 f64 i32 -> i64 | i32 i64 f32 f64 i32 -> i64 | |
func(a: bool, b: s8, c: s16, d: u16, e: s32, f: u32) | | | i32 i32 i32 i32 i32 i32 -> | i32 i32 i32 i32 i32 i32 -> | |
func(s: string) | | | i32 i32 -> | i32 i32 -> | m | m r
func(s: string) -> string | | memory 64 | i32 i32 i32 -> | i64 i64 -> i64 | m r | m r
func(s: string) -> string | memory 64 | | i64 i64 i64 -> | i32 i32 -> i32 | m r | m r
func() -> string | | | i32 -> | -> i32 | m r | m
func(s: string) | memory none | memory none, realloc none | i32 i32 -> | i32 i32 -> | |
func(a: u8) | realloc | memory 64 | i32 -> | i32 -> | m r | m
func(a: option<u64>) -> option<u64> | | | i32 i64 i32 -> | i32 i64 -> i32 | m | m
func(a: result<f32, u32>, b: result<f32, f64>, c: result<f32, f32>) | | | i32 i32 i32 i64 i32 f32 -> | i32 i32 i32 i64 i32 f32 -> | |
func(a: result, b: result<_, f64>, c: result<u64>, d: result<u64, f64>) | | | i32 i32 f64 i32 i64 i32 i64 -> | i32 i32 f64 i32 i64 i32 i64 -> | |
func(a: result<string, u64>) | | memory 64 | i32 i64 i32 -> | i32 i64 i64 -> | m | m r
func(a: tuple<u8, tuple<f32, list<u8>>>) | | | i32 f32 i32 i32 -> | i32 f32 i32 i32 -> | m | m r
func(a: list<f64, 3>) | | | f64 f64 f64 -> | f64 f64 f64 -> | |
func(a: list<u8, 16>) | | | i32 i32 i32 i32 i32 i32 i32 i32 i32 i32 i32 i32 i32 i32 i32 i32 -> | i32 i32 i32 i32 i32 i32 i32 i32 i32 i32 i32 i32 i32 i32 i32 i32 -> | |
func(a: list<u8, 16>, b: u8) | | memory 64 | i32 -> | i64 -> | m | m r
func(a: list<tuple<u8, u8>, 2147483647>) | | | i32 -> | i32 -> | m | m r
func(a: option<list<u8, 16>>) | | | i32 -> | i32 -> | m | m r
func(a: map<string, u8>) | | | i32 i32 -> | i32 i32 -> | m | m r
func(a: some-flags, b: some-enum, c: pair, d: either) | | | i32 i32 i32 f64 i32 i32 -> | i32 i32 i32 f64 i32 i32 -> | |
func(a: file, b: borrow<file>, c: own<file>, d: error-context, e: future, f: stream<string>) | | | i32 i32 i32 i32 i32 i32 -> | i32 i32 i32 i32 i32 i32 -> | |
func() -> (u8, u8) | | | i32 -> | -> i32 | m | m
func() -> tuple<f64> | | | -> f64 | -> f64 | |
func() -> file | | | -> i32 | -> i32 | |
func(a: list<u8, 4>) | async | | i32 i32 i32 i32 -> i32 | i32 i32 i32 i32 -> | |
func(a: list<u8, 5>) | async | | i32 -> i32 | i32 i32 i32 i32 i32 -> | m |
func() -> u8 | async, memory 64 | | i64 -> i32 | -> i32 | m |
func(a: u8) -> u8 | | async, callback | i32 -> i32 | i32 -> i32 | |
func(a: u8) -> u64 | | async | i32 -> i64 | i32 -> | |
func() -> list<u8, 16> | | async | i32 -> | -> | m |
func() -> list<u8, 17> | async | async, callback | i32 -> i32 | -> i32 | m | m
func() -> string | async | async, callback | i32 -> i32 | -> i32 | m r | m
async func(a: u64) -> u64 | | callback | i64 -> i64 | i64 -> i64 | |
"""

# Texts with the adapters that they stand for: of each its name, its callee, and the keys of its sides, with core items by their instances and
# names, and core types as above.
NONE = {"core": "->"}
ADAPTERS = [
    (
        'component a { import f: func(); } component b { instance 7; memory 32 "m"; realloc; export f: func() with post-return, callback "c", memory 64; }',
        [
            (
                "f",
                [7, "f"],
                {**NONE, "instance": 7, "memory": [[7, "memory"], True], "realloc": [7, "cabi_realloc"], "post_return": [7, "cabi_post_f"], "callback": [7, "c"]},
                {**NONE, "instance": 0},
            )
        ],
    ),
    (
        'component a { import f: func(); } component b { import "f": func() with encoding utf8; } component c { encoding latin1+utf16; export f: func() with core "g"; }',
        [
            ("a#f", [2, "g"], {**NONE, "instance": 2, "encoding": "compact"}, {**NONE, "instance": 0}),
            ("b#f", [2, "g"], {**NONE, "instance": 2, "encoding": "compact"}, {**NONE, "instance": 1, "encoding": "utf8"}),
        ],
    ),
    (
        "component a { import f: func(); export g: func() with async, callback, transparent; } component b { export f: func(); import g: func(); }",
        [
            ("f", [1, "f"], {**NONE, "instance": 1}, {**NONE, "instance": 0}),
            ("g", [0, "g"], {"core": "-> i32", "instance": 0, "async": True, "callback": [0, "[callback]g"]}, {**NONE, "instance": 1}),
        ],
    ),
    # A component's type hides that of all from its own functions and types, and from nothing else.
    (
        "record p { x: u8 } type q = tuple<p>; component a { record p { x: f64 } type r = tuple<p>; import f: func(a: p, b: q, c: r); } component b { export f: func(a: p, b: q, c: p); }",
        [("f", [1, "f"], {"core": "i32 i32 i32 ->", "instance": 1}, {"core": "f64 i32 f64 ->", "instance": 0})],
    ),
    ("component a { export f: func(); }", []),
]

# What is told of texts that are none, and each with a `^` before the token where it is wrong.
UNCLEAR = r"""
a name is wanted in the place of `{` | component a {} component ^{}
a name is wanted in the place of the end of the text | component ^
`world` begins nothing that a text has | ^world a {}
`exports` begins nothing that a component has; did you mean `export`? | component a { ^exports f: func(); }
`utf-8` is no encoding: one of utf8, utf16, latin1+utf16 is wanted; did you mean `utf8`? | component a { encoding ^utf-8; }
`16` is no memory: one of 32, 64, none is wanted | component a { memory ^16; }
`async` is no tunable: one of concurrency, exceptions, debug is wanted | tunables debug, ^async;
no type `str` is declared here; did you mean `string`? | component a { export f: func(a: ^str); }
no type `float32` is declared here; did you mean `f32`? | type t = option<^float32>;
no type `point` is declared here | component a { record point { x: u8 } } component b { export f: func(a: ^point); }
`t` holds itself | record t { a: list<^t> }
`r` is no resource | record r { a: u8 } type t = own<^r>;
`t` is declared twice | enum t { a } enum ^t { b }
a type is wanted in the place of `<` | type t = list<^<u8>>;
a map is of two types: that of its keys and that of its values | type t = map<^u8>;
a result has at most two payloads | type t = result<^u8, u8, u8>;
a number is wanted in the place of `n` | type t = list<u8, ^n>;
`$` is no part of a text | type t = ^$;
`"\x"` is no text as JSON has it | component ^"\x" {}
`"\ud800"` is no text as JSON has it | component ^"\ud800" {}
`:` is wanted in the place of `(` | component a { export f^(); }
`,` or `)` is wanted in the place of `:` | component a { export f: func(a: u8 ^: u8); }
`with` or `;` is wanted in the place of `}` | component a { export f: func() ^}
`async` is said twice | component a { export f: func() with async, ^async; }
`encoding` is said twice | component a { encoding utf8; ^encoding utf16; }
`core` is no option: one of encoding, memory, realloc, async, transparent is wanted | component a { import f: func() with ^core "x"; }
the name of a core export, in quotes, is wanted in the place of `run` | component a { export f: func() with core ^run; }
no component exports `f` | component a { import ^f: func(); }
no component exports `greed`; did you mean `greet`? | component a { import ^greed: func(); } component b { export greet: func(); }
`f` is exported more than once, by `a`, `b` | component a { export f: func(); } component b { export f: func(); } component c { import ^f: func(); }
"""


def loaded(path, name):
    loader = importlib.machinery.SourceFileLoader(name, str(path))
    module = importlib.util.module_from_spec(importlib.util.spec_from_loader(name, loader))
    loader.exec_module(module)
    return module


witplan = loaded(TOOL, "witplan")
WORD_LISTS = [witplan.WORDS, witplan.GENERIC, witplan.DECLARATIONS, witplan.OPTIONS, witplan.TUNABLES, list(witplan.ENCODINGS)]


class Differs(Exception):
    """Something is not as it should be."""


def made(text):
    """What the tool prints of a text."""
    done = subprocess.run([sys.executable, TOOL], input=text.encode(), capture_output=True)
    if done.returncode != 0 or done.stderr:
        raise Differs(f"status {done.returncode}: {done.stderr.decode(errors='replace').strip()}")
    return done.stdout.decode()


# ---- Plans with all that they name looked up.


def type_in(plan, type_, table=lambda plan, place: plan["tables"][place], instance=lambda place: place):
    """A type with those that it names in their places, and with what is told of tables and instances."""
    within = lambda part: type_in(plan, part, table, instance)
    if type_ is None or isinstance(type_, str):
        return type_
    ((kind, inner),) = plan["types"][type_].items()
    if kind in ("record", "variant"):
        inner = [[name, within(part)] for name, part in inner]
    elif kind in ("tuple", "map", "result"):
        inner = [within(part) for part in inner]
    elif kind in ("list", "option"):
        inner = within(inner)
    elif kind == "fixed-list":
        inner = [within(inner[0]), inner[1]]
    elif kind in ("future", "stream"):
        inner = [within(inner[0]), instance(inner[1])]
    elif kind == "error-context":
        inner = instance(inner)
    elif kind in ("own", "borrow"):
        inner = table(plan, inner)
    return {kind: inner}


def function_in(plan, place, *of_handles):
    function = plan["funcs"][place]
    params = [[name, type_in(plan, type_, *of_handles)] for name, type_ in function["params"]]
    return {**function, "params": params, "results": [type_in(plan, type_, *of_handles) for type_ in function["results"]]}


def side_in(plan, side):
    side = {key: value for key, value in side.items() if value is not None}
    side["ty"], side["core_type"] = function_in(plan, side["ty"]), plan["core_types"][side["core_type"]]
    for key in ("realloc", "callback", "post_return"):
        if key in side:
            side[key] = plan["core_defs"][side[key]]
    if "memory" in side:
        side["memory"] = {**side["memory"], "def": plan["core_defs"][side["memory"]["def"]]}
    return side


def adapters_in(plan):
    return [
        {**adapter, "func": plan["core_defs"][adapter["func"]], **{key: side_in(plan, adapter[key]) for key in ("lift", "lower")}}
        for adapter in plan["adapters"]
    ]


def compared(plan, wanted):
    """Raises Differs where two plans differ, but for the order of their entries."""
    for key in sorted({*plan, *wanted}):
        got, want = plan.get(key), wanted.get(key)
        if key == "adapters":
            got, want = adapters_in(plan), adapters_in(wanted)
        elif isinstance(want, list):
            got, want = len(got), len(want)
        if got != want:
            raise Differs(f"{key}: {json.dumps(got, ensure_ascii=False)} in the place of {json.dumps(want, ensure_ascii=False)}")


# ---- Examples.


def judge_words(words, _):
    """Looks whether the page tells each of some words of the tool, and whether a text has it."""
    page = Path("docs/PLANS.md").read_text(encoding="utf-8")
    texts = [path.read_text(encoding="utf-8") for path in Path("examples").glob("*.plan")] + [SHARED, FUNCTIONS] + [text for text, _ in ADAPTERS]
    for word in words:
        if not re.search(rf"`{re.escape(word)}\b", page):
            raise Differs(f"docs/PLANS.md does not tell `{word}`")
        if not any(re.search(rf"\b{re.escape(word)}\b", text) for text in texts):
            raise Differs(f"no text has `{word}`")


def judge_page(path, taken):
    """Looks whether the page has a text and its command."""
    text = path.read_text(encoding="utf-8")
    block = f"    tools/witplan {path} | ./factc\n\nprints the adapter module of this text, `{path}`:\n\n{textwrap.indent(text, '    ')}"
    if block not in Path("docs/PLANS.md").read_text(encoding="utf-8"):
        raise Differs("docs/PLANS.md has another text")


def judge_example(path, taken):
    printed = made(path.read_text(encoding="utf-8"))
    compared(json.loads(printed), json.loads(path.with_suffix(".json").read_text(encoding="utf-8")))
    taken(printed)


# ---- Rows.


def keys_of(side):
    return " ".join(letter for letter, key in (("m", "memory"), ("r", "realloc")) if key in side)


def core_of(plan, side):
    core = plan["core_types"][side["core_type"]]
    return " ".join([*core["params"], "->", *core["results"]])


def judge_function(row, taken):
    function, *rest = [part.strip() for part in row.split("|")]
    withs = [f" with {options}" if options else "" for options in rest[:2]]
    sides = zip(("import", "export"), withs)
    text = SHARED + " ".join(f"component {word} {{ {word} f: {function}{options}; }}" for word, options in sides)
    printed = made(text)
    plan = json.loads(printed)
    (adapter,) = plan["adapters"]
    got = [core_of(plan, adapter[key]) for key in ("lower", "lift")] + [keys_of(adapter[key]) for key in ("lower", "lift")]
    if got != rest[2:]:
        raise Differs(f"{got} in the place of {rest[2:]}")
    if "none" not in row:
        taken(json.dumps({**plan, "tunables": {"concurrency": True}}))


def side_told(plan, side):
    """The keys of a side, with its core type as a row has it, and core items by their instances and names."""
    item = lambda place: plan["core_defs"][place]["export"]
    told = {key: value for key, value in side.items() if key not in ("ty", "core_type")}
    if "memory" in told:
        told["memory"] = [item(told["memory"]["def"]), told["memory"].get("memory64", False)]
    told = {key: item(value) if key in ("realloc", "callback", "post_return") else value for key, value in told.items()}
    return {**told, "core": core_of(plan, side)}


def judge_adapters(row, _):
    text, wanted = row
    plan = json.loads(made(text))
    got = [
        (adapter["name"], plan["core_defs"][adapter["func"]]["export"], side_told(plan, adapter["lift"]), side_told(plan, adapter["lower"]))
        for adapter in plan["adapters"]
    ]
    if got != wanted:
        raise Differs(f"{got} in the place of {wanted}")


def judge_unclear(row, _):
    what, _, text = row.partition(" | ")
    wanted = f"witplan: 1:{text.index('^') + 1}: {what}\n"
    done = subprocess.run([sys.executable, TOOL], input=text.replace("^", "", 1).encode(), capture_output=True)
    if (done.returncode, done.stdout, done.stderr.decode()) != (1, b"", wanted):
        raise Differs(f"status {done.returncode}: {done.stderr.decode().strip()}")


# ---- Drawn plans.


def sample():
    """.ci/sample.py, of which nothing is run."""
    source = Path(".ci/sample.py").read_text(encoding="utf-8").split("\nsys.exit(main(")[0]
    names = {"__name__": "sample"}
    exec(compile(source, "sample.py", "exec"), names)
    return names


def told_type(type_):
    return "_" if type_ is None else type_ if isinstance(type_, str) else f"t{type_}"


def told_entry(place, entry):
    """The declaration of an entry of a plan's types."""
    ((kind, inner),) = entry.items()
    name = f"t{place}"
    if kind == "record":
        return f"record {name} {{ {', '.join(f'{json.dumps(field)}: {told_type(type_)}' for field, type_ in inner)} }}"
    if kind == "variant":
        cases = [json.dumps(case) + (f"({told_type(type_)})" if type_ is not None else "") for case, type_ in inner]
        return f"variant {name} {{ {', '.join(cases)} }}"
    if kind in ("flags", "enum"):
        return f"{kind} {name} {{ {', '.join(map(json.dumps, inner))} }}"
    if kind == "fixed-list":
        kind, inner = "list", f"<{told_type(inner[0])}, {inner[1]}>"
    elif kind in ("own", "borrow"):
        inner = "<some>"
    elif kind in ("future", "stream"):
        inner = "" if inner[0] is None else f"<{told_type(inner[0])}>"
    elif kind == "error-context":
        inner = ""
    else:
        inner = f"<{', '.join(map(told_type, inner if isinstance(inner, list) else [inner]))}>"
    return f"type {name} = {kind}{inner};"


def told_side(plan, name, word, side):
    """A component of one function, that of a side."""
    function = plan["funcs"][side["ty"]]
    params = ", ".join(f"{param}: {told_type(type_)}" for param, type_ in function["params"])
    results = f" -> ({', '.join(map(told_type, function['results']))})" if function["results"] else ""
    memory = side.get("memory")
    options = ["memory none" if memory is None else f"memory {64 if memory['memory64'] else 32}"]
    options.append("realloc none" if side.get("realloc") is None else "realloc")
    options += ["async"] * side.get("async", False) + ["callback"] * (word == "export" and side.get("callback") is not None)
    mark = "async " if function.get("async") else ""
    return f"component {word}-{name} {{ {word} f{name}: {mark}func({params}){results} with {', '.join(options)}; }}"


def types_told(plan, side):
    """The function type and the core type of a side. Which tables and instances handles name is drawn, and a text can't tell it."""
    nothing = lambda *_: None
    return function_in(plan, side["ty"], nothing, nothing), core_of(plan, side)


def judge_drawn(plan, _):
    """Compares the types of the text that a drawn plan makes with those of the plan."""
    lines = ["resource some;", *(told_entry(place, entry) for place, entry in enumerate(plan["types"]))]
    for place, adapter in enumerate(plan["adapters"]):
        lines += [told_side(plan, place, "import", adapter["lower"]), told_side(plan, place, "export", adapter["lift"])]
    text = "\n".join(lines)
    try:
        made_plan = witplan.plan_of(witplan.Reader(text).text())
    except witplan.Unclear as unclear:
        raise Differs(f"{unclear}\n{text}") from unclear
    for adapter, wanted in zip(made_plan["adapters"], plan["adapters"], strict=True):
        for key in ("lift", "lower"):
            got, want = types_told(made_plan, adapter[key]), types_told(plan, wanted[key])
            if got != want:
                raise Differs(f"{wanted['name']}, {key}: {got} in the place of {want}\n{text}")


# ---- All of it.


def taker(program):
    """What is asked of a plan that is printed: that the schema and the program take it, as far as they are there."""
    validator = Draft202012Validator and Draft202012Validator(json.loads(Path("docs/plan.schema.json").read_text(encoding="utf-8")))

    def taken(printed):
        if validator and not validator.is_valid(json.loads(printed)):
            raise Differs("the schema refuses the plan")
        if program != "none":
            done = subprocess.run([program], input=printed.encode(), capture_output=True)
            if done.returncode != 0:
                raise Differs(f"the program says {done.stderr.decode().strip()}")

    return taken


def main(program, seed, count):
    lines = lambda text: text.strip("\n").splitlines()
    plan = sample()["Plan"]
    parts = {
        "texts of docs/PLANS.md": (judge_page, [Path("examples/greet.plan")]),
        "lists of words": (judge_words, WORD_LISTS),
        "examples": (judge_example, sorted(Path("examples").glob("*.plan"))),
        "functions": (judge_function, lines(FUNCTIONS)),
        "adapters": (judge_adapters, ADAPTERS),
        "faults of texts": (judge_unclear, lines(UNCLEAR)),
        "drawn plans": (judge_drawn, (plan(f"{seed} {number}").json for number in range(int(count)))),
    }
    taken, seen, failed = taker(program), [], False
    for what, (judge, rows) in parts.items():
        number = 0
        for number, row in enumerate(rows, 1):
            try:
                judge(row, taken)
            except (Differs, ValueError, KeyError) as wrong:
                failed = True
                print(f"plans: {what}: {str(row)[:200]}: {wrong}", file=sys.stderr)
        seen.append(f"{number} {what}")
        if what == "examples" and number < FEWEST_EXAMPLES:
            failed = True
            print(f"plans: {number} examples, fewer than {FEWEST_EXAMPLES}", file=sys.stderr)
    if not failed:
        takers = (("the schema", Draft202012Validator), ("the program", program != "none"))
        by = " and by ".join(name for name, there in takers if there) or "nothing that is here"
        print(f"plans: {', '.join(seen)}: as they should be; what is printed is taken by {by}", file=sys.stderr)
    return 1 if failed else 0


if __name__ == "__main__":
    sys.exit(main(*sys.argv[1:]))
