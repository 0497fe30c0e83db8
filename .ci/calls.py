"""Compares calls of adapters, and chains of two, with a model of them (`calling`).

    calls.py table                   the rows of crates/row_tests that call adapters, as the table has them
    calls.py PROGRAM [SEED [PLANS]]  what the program answers for values of adapters of plans, both drawn from a seed

Of rows those are passed over whose words are no command, or whose plan has a fault, which the model doesn't know. Values are drawn by the
types of a caller's parameters and of a callee's results; some are then made wrong at a place, or so many that they are past a limit. Plans,
adapters and values are small, so that a call makes no more than some hundred calls of the outside. Ends with status 1 where something
differs, or where a form of calls was not drawn, and tells the seed and the input. A mode that the program doesn't take is passed over.
"""

import json
import random
import subprocess
import sys
from collections import Counter
from pathlib import Path

sys.dont_write_bytecode = True

import calling
from calling import BAD_PLAN, BAD_VALUE, DONE, NOT_CALLABLE, NOT_CHAINED, OVER_LIMIT, kind_of
from sample import COMPOUND, ENCODINGS, ENOUGH, HANDLES, SCALARS, Plan, Side

MODES = ("--call", "--chain")
# A row whose reads, writes and tellings do not fail.
WHOLE = "ask 4096 0 0 0"
USAGE, REFUSED = 2, 8

# The most calls of the outside of a call that is drawn, and the most values that a type's value may have at least.
MOST_EVENTS, MOST_VALUES = 400, 1500

# How often an adapter is called, and two in a chain.
CALLS, CHAINS = 6, 4

# A text by the scalar values that it is drawn from: their lengths in each encoding make the paths that texts go.
ALPHABETS = ["ab \"\\\n", "aé", "éÿ\u0080", "aé字", "字語", "\u0800\uffff", "a😀", "😀", "a\u07ffł\u0800é字\uffff😀\U0010ffff"]
WRONG = [None, True, 0, -1, 1.5, 7, 256, 2**32, 2**63, 2**64, -(2**63) - 1, "", "a", "ab", [], [None], {}, {"zz": None}, {"some": 1, "none": None}]

# What each sample has to have drawn: of texts the paths that they may go between two encodings, by how often a transcoder and realloc are called.
PATHS = {
    ("utf8", "utf8"): {(1, 1)},
    ("utf8", "utf16"): {(1, 1), (1, 2)},
    ("utf8", "compact"): {(1, 1), (1, 2), (2, 3)},
    ("utf16", "utf8"): {(1, 1), (2, 2), (2, 3)},
    ("utf16", "utf16"): {(1, 1)},
    ("utf16", "compact"): {(1, 1), (2, 2)},
    ("compact", "utf8"): {(1, 1), (2, 2), (2, 3)},
    ("compact", "utf16"): {(1, 1)},
    ("compact", "compact"): {(1, 1)},
}
KINDS = {*SCALARS, "string", *HANDLES, *COMPOUND, "list", "map", "flags", "enum"}
FORMS = {
    *((*ends, *path) for ends, paths in PATHS.items() for path in paths),
    *(f"{kind} in {what}" for what in ("args", "results") for kind in KINDS if (kind, what) != ("borrow", "results")),
    *("transparent", "post-return", "concurrency", "exceptions", "parameters through a pointer", "results through a pointer"),
    *(f"status {status}" for status in (DONE, BAD_VALUE, OVER_LIMIT)),
    *(f"bad {kind}" for kind in ("WrongKind", "OutOfRange", "UnknownKey", "Missing")),
}
STATUS_OF_MODE = {"--call": f"status {NOT_CALLABLE}", "--chain": f"status {NOT_CHAINED}"}


# The table.


def edited(text, edits):
    """A text with some parts in the place of others."""
    for edit in edits.split(" | "):
        old, arrow, new = edit.partition("=>")
        if arrow:
            text = text.replace(old.strip(), new.strip(), 1)
    return text


def rows(table):
    """The rows of calls: what each asks for, and where its answer stands."""
    for block in table.split("\nblock ")[1:]:
        name, _, block = block.partition(" ")
        head, *lines = block.split("\n")
        for number, line in enumerate(lines):
            how, _, rest = line.partition(" | ")
            words, _, edits = rest.partition(" | ")
            words = words.split("|")[1:]
            if how == WHOLE and any(word.partition("=")[0] in MODES for word in words):
                yield f"{name} {number}", words, edited(head, edits)


def is_judged(came):
    """Whether the model knows of the answer."""
    status, _, told = came.split(" | ")
    return int(status) not in (USAGE, REFUSED) and ".plan" not in told


def compare_table(folder):
    came = dict(line.split(": ", 1) for line in (folder / "stdout").read_text().split("\n") if ": " in line)
    judged = Counter()
    for name, words, text in rows((folder / "stdin").read_text()):
        if not is_judged(came[name]):
            judged["passed over"] += 1
            continue
        status, printed, told = calling.answer(separate(words), text)
        wanted = f"{status} | {printed} | {told}".replace("\n", "$")
        if came[name] != wanted:
            print(f"calls: the row {name} is {came[name]}, not {wanted}", file=sys.stderr)
            return 1
        judged["as they should be"] += 1
    told = ", ".join(f"{count} {how}" for how, count in judged.items()) or "none"
    print(f"calls: rows of calls in the table: {told}", file=sys.stderr)
    return 0


def separate(words):
    """Words in which the name of an adapter is one of its own."""
    return [part for word in words for part in (word.split("=", 1) if word.startswith("--call=") else [word])]


# Values.


def fewest(ty):
    """How many values the smallest value of a type has in it."""
    kind = kind_of(ty)
    if kind == "record":
        return 1 + sum(fewest(part) for _, part in ty[1])
    if kind == "tuple":
        return 1 + sum(fewest(part) for part in ty[1])
    if kind == "fixed-list":
        return 1 + fewest(ty[1][0]) * ty[1][1]
    if kind in ("variant", "option", "result"):
        return 1 + min(0 if part is None else fewest(part) for part in calling.cases(ty).values())
    return 1


class Values:
    """Draws values as JSON has them, whose lists and texts have so many parts at most."""

    def __init__(self, draw, most):
        self.random, self.most = draw, most

    def text(self):
        alphabet = self.random.choice(ALPHABETS)
        return "".join(self.random.choice(alphabet) for _ in range(self.random.randint(0, self.most)))

    def number(self, least, most):
        near = [least, most, 0, 1, min(most, 127), min(most, 255), max(least, -1)]
        return self.random.choice([*near, self.random.randint(least, most)])

    def plain(self, kind):
        if kind == "bool":
            return self.random.choice([True, False])
        if kind == "char":
            return self.random.choice("a\0\n\"é字\ud7ff\ue000\uffff😀\U0010ffff")
        return self.text() if kind == "string" else self.number(*calling.RANGES[kind])

    def case(self, ty):
        # A case that asks for many values is drawn where there is no other one.
        cases = calling.cases(ty)
        small = [name for name, part in cases.items() if part is None or fewest(part) <= MOST_VALUES]
        name = self.random.choice(small or list(cases))
        return {name: None if cases[name] is None else self.value(cases[name])}

    def value(self, ty):
        kind = kind_of(ty)
        if isinstance(ty, str) or kind in HANDLES:
            return self.plain(kind)
        if kind == "record":
            fields = [(name, self.value(part)) for name, part in ty[1]]
            self.random.shuffle(fields)
            return dict(fields)
        if kind in ("variant", "option", "result"):
            return self.case(ty)
        if kind == "flags":
            return self.random.sample(ty[1], self.random.randint(0, len(ty[1])))
        if kind == "enum":
            return self.random.choice(ty[1])
        if kind == "tuple":
            return self.values(ty[1])
        if kind == "fixed-list":
            return [self.value(ty[1][0]) for _ in range(ty[1][1])]
        item = ("tuple", ty[1]) if kind == "map" else ty[1]
        return [self.value(item) for _ in range(self.random.randint(0, self.most) if fewest(item) <= MOST_VALUES else 0)]

    def values(self, types):
        return [self.value(ty) for ty in types]

    def wronged(self, data):
        """The data with something else at a place that is drawn."""
        if isinstance(data, list) and data and self.random.random() < 0.8:
            place = self.random.randrange(len(data))
            return [self.wronged(item) if number == place else item for number, item in enumerate(data)]
        if isinstance(data, dict) and data and self.random.random() < 0.9:
            key = self.random.choice(list(data))
            others = {name: part for name, part in data.items() if name != key}
            more, within = {**data, key + "x": data[key]}, {**data, key: self.wronged(data[key])}
            return self.random.choice([within, within, more, others, others, {**others, key.upper(): data[key]}])
        if isinstance(data, list) and self.random.random() < 0.3:
            return data + data[:1] if self.random.random() < 0.5 else data[:-1]
        return self.random.choice(WRONG)


# Calls.


class Differs(Exception):
    """The program answers otherwise than the model."""


def said(program, words, text):
    done = subprocess.run([program, *words], input=text.encode(), capture_output=True, timeout=120)
    return done.returncode, done.stdout.decode(), done.stderr.decode()


def takes_mode(program, words):
    try:
        return said(program, words, "")[0] == calling.NOT_JSON
    except OSError:
        return False


class Sample:
    """Calls that are drawn, and what forms they have."""

    def __init__(self, program, draw):
        self.program, self.random, self.forms, self.inputs = program, draw, Counter(), 0

    def words(self):
        """Words that change nothing."""
        fuel = self.random.choice([1, 2, 5, 41, 100, 1000000])
        return self.random.choice([[], [], ["--debug"], ["--imports"], [f"--fuel={fuel}"], ["--debug", f"--fuel={fuel}"]])

    def text(self, data):
        return json.dumps(data, ensure_ascii=self.random.random() < 0.5, separators=self.random.choice([(",", ":"), (", ", ": ")]))

    def drawn(self, params, results):
        """Arguments and results, most of them small and right."""
        values = Values(self.random, self.random.choice([0, 1, 2, 2, 3, 3, 40]))
        args, results = values.values(params), values.values(results)
        if self.random.random() < 0.3:
            if self.random.random() < 0.6:
                args = values.wronged(args)
            else:
                results = values.wronged(results)
        return args, results

    def judge(self, words, data):
        """Has the program answer, and compares."""
        text = self.text(data)
        wanted = calling.answer(words, text)
        came = said(self.program, words, text)
        if came != wanted:
            raise Differs(f"words {words}: {came}, not {wanted}\n{text}")
        self.inputs += 1
        self.forms[f"status {wanted[0]}"] += 1
        if wanted[0] == BAD_VALUE:
            self.forms["bad " + wanted[2].split(" ")[2]] += 1
        return wanted[0]

    def call(self, plan, keys):
        """Calls an adapter of a plan once, with encodings and values that are drawn."""
        adapter = self.encoded(plan, keys)
        if is_large(adapter.lower.params + adapter.lift.results):
            return
        args, results = self.drawn(adapter.lower.params, adapter.lift.results)
        if is_long([adapter], args, results):
            return
        name = keys["name"] if self.random.random() < 0.97 else keys["name"] + "x"
        if self.judge([*self.words(), "--call", name], {"plan": plan, "args": args, "results": results}) == DONE:
            self.tell(plan, adapter, *adapter.values(args, results))

    def chain(self, plan, *both):
        """Calls an adapter of a plan whose callee calls another one."""
        first, second = (self.encoded(plan, keys) for keys in both)
        if is_large(first.lower.params + second.lift.results):
            return
        args, results = self.drawn(first.lower.params, second.lift.results)
        if is_long([first, second], args, results):
            return
        names = [keys["name"] for keys in both]
        if self.random.random() < 0.1:
            names = self.random.choice([names[::-1], [names[0], names[0]], [names[0], "x"], ["x", names[1]]])
        data = {"plan": plan, "first": names[0], "second": names[1], "args": args, "results": results}
        if self.judge([*self.words(), "--chain"], data) == DONE:
            args, results = calling.values(first.lower.params, args, ""), calling.values(second.lift.results, results, "")
            passed, answered = calling.between(first, second, args, results)
            self.tell(plan, first, args, answered)
            self.tell(plan, second, passed, results)

    def encoded(self, plan, keys):
        """The adapter with other encodings."""
        for side in ("lift", "lower"):
            keys[side]["encoding"] = self.random.choice(ENCODINGS)
        return calling.Called(plan, keys)

    def tell(self, plan, adapter, args, results):
        """Counts the forms of a call that was done."""
        ends = (adapter.lower, adapter.lift), (adapter.lift, adapter.lower)
        for what, way, of, (source, target) in zip(("args", "results"), adapter.ways(), (args, results), ends):
            for ty, _, one in calling.nodes(*way, of):
                self.forms[f"{kind_of(ty)} in {what}"] += 1
                if ty == "string":
                    self.forms[source.encoding, target.encoding, *calling.path_of_text(source.encoding, target.encoding, one)] += 1
        self.forms["transparent"] += adapter.is_transparent
        self.forms["post-return"] += adapter.lift.has_post_return
        self.forms["parameters through a pointer"] += adapter.has_params_behind()
        self.forms["results through a pointer"] += adapter.has_results_behind()
        self.forms.update(plan.get("tunables", {}).keys())


def is_large(types):
    return sum(map(fewest, types)) > MOST_VALUES


def is_long(adapters, args, results):
    """Whether values that are right make more calls of the outside than are drawn."""
    try:
        args = calling.values(adapters[0].lower.params, args, "")
        results = calling.values(adapters[-1].lift.results, results, "")
    except calling.Fault:
        return False
    events = calling.events_of_chain(adapters, args, results)
    return events is not None and sum(events) > MOST_EVENTS


def linked(plan):
    """Adds two adapters to a plan, of which the first calls what the second one is called by."""
    draw = plan.random
    middle = draw.choice(plan.instances)
    lower, lift = (draw.choice([at for at in plan.instances if at != middle]) for _ in range(2))
    drawn = {"handles": plan.chance(0.4), "borrows": True, "pointers": plan.chance(0.7)}
    ways = []
    for borrows in (True, False):
        trees = plan.trees([0, 1, 1, 2, 3, 16, 17], {**drawn, "borrows": borrows})
        passed = [plan.twin(tree) for tree in trees]
        ways.append((trees, passed, [plan.twin(tree) for tree in passed]))
    (params, passed, given), (results, answered, got) = ways
    wide = lambda: plan.chance(0.3)
    plan.linked("first", Side(True, False, wide(), passed, answered), Side(False, False, wide(), params, got), middle, lower)
    plan.linked("second", Side(True, False, wide(), given, results), Side(False, False, wide(), passed, answered), lift, middle)
    return plan.json["adapters"][-2:]


def sample_calls(sample, seed, count):
    for number in range(count):
        plan = Plan(f"calls {seed} {number}").json
        for keys in plan["adapters"]:
            for _ in range(CALLS if calling.Called(plan, keys).is_callable() else 1):
                sample.call(plan, keys)


def sample_chains(sample, seed, count):
    for number in range(count):
        plan = Plan(f"chains {seed} {number}")
        if len(plan.instances) > 1:
            both = linked(plan)
            for _ in range(CHAINS):
                sample.chain(plan.json, *both)


def main(program, seed, count):
    status = 0
    for mode, words, draw in (("--call", ["f0"], sample_calls), ("--chain", [], sample_chains)):
        if not takes_mode(program, [mode, *words]):
            print(f"calls: {program} is not built, or takes no {mode}; nothing is asked", file=sys.stderr)
            continue
        sample = Sample(program, random.Random(f"{mode} {seed}"))
        try:
            draw(sample, seed, count)
        except (Differs, ValueError, subprocess.TimeoutExpired) as differs:
            print(f"calls: {mode}: seed {seed}: {type(differs).__name__}: {differs}", file=sys.stderr)
            return 1
        missing = sorted(str(form) for form in {*FORMS, STATUS_OF_MODE[mode]} if not sample.forms[form])
        if count >= ENOUGH and missing:
            print(f"calls: {mode}: seed {seed}: no call has {', '.join(missing)}", file=sys.stderr)
            status = 1
        done = sample.forms[f"status {DONE}"]
        print(f"calls: {mode}: seed {seed}: {sample.inputs} inputs are answered as they should be, {done} of them by a call", file=sys.stderr)
    return status


if __name__ == "__main__":
    if sys.argv[1:] == ["table"]:
        sys.exit(compare_table(Path(__file__).parent.parent / "crates" / "row_tests"))
    sys.exit(main(sys.argv[1], sys.argv[2] if len(sys.argv) > 2 else "1", int(sys.argv[3]) if len(sys.argv) > 3 else ENOUGH))
