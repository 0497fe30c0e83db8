"""What `factc --call NAME` and `factc --chain` answer to an input, by a model of their own: values go by the canonical ABI's rules, and the
calls of the outside are counted by the rules of adapters and of the host, without a module and without a machine.

The plan of an input has to be without a fault. Of an input's own keys, and of its values, the first fault is told.
"""

import json
from collections import Counter
from itertools import count
from math import isinf, isnan

from sample import HANDLES, Side, holds

DONE, NOT_JSON, BAD_PLAN, NOT_CALLABLE, BAD_VALUE, OVER_LIMIT, NOT_CHAINED = 0, 6, 7, 13, 14, 15, 16

# What values may ask of a host on one way: bytes, texts with lists, maps and handles, and weight.
MOST_ROOM, MOST_PIECES, MOST_WEIGHT = 16_384, 64, 1_000_000

RANGES = {
    **{f"s{bits}": (-(2 ** (bits - 1)), 2 ** (bits - 1) - 1) for bits in (8, 16, 32, 64)},
    **{f"{kind}{bits}": (0, 2**bits - 1) for kind, bits in (("u", 8), ("u", 16), ("u", 32), ("u", 64), ("f", 32), ("f", 64))},
    **{kind: (0, 2**32 - 1) for kind in HANDLES},
}
SIZES = {"bool": 1, "s8": 1, "u8": 1, "s16": 2, "u16": 2, "s64": 8, "u64": 8, "f64": 8}

# With concurrency a call of realloc has the context read twice, set to zero twice and set back twice.
AROUND_REALLOC = 6
AROUND_POST_RETURN = 8


class Fault(Exception):
    """The first fault of an input: its status, its kind and its path."""

    def __init__(self, status, kind, path):
        self.status, self.kind, self.path = status, kind, path


class NoInteger:
    """A number that has a fraction, an exponent, a minus sign before 0, or more than 64 bits."""


def integer(digits):
    number = int(digits)
    return number if digits != "-0" and -(2**63) <= number < 2**64 else NoInteger()


def no_integer(digits):
    """serde_json takes no word for a number, and none that is greater than all floats."""
    if isinf(float(digits)) or isnan(float(digits)):
        raise ValueError(digits)
    return NoInteger()


def parsed(text):
    """The value of a JSON text. A text with half of a surrogate pair has none, as it has no encoding."""
    json.dumps(json.loads(text), ensure_ascii=False).encode()
    return json.loads(text, parse_int=integer, parse_float=no_integer, parse_constant=no_integer)


def printed(data):
    """The text without spaces that serde_json prints, whose objects have their keys by bytes."""
    return json.dumps(data, ensure_ascii=False, separators=(",", ":"), sort_keys=True)


# Types, as `sample` has them: words, or pairs of a key of `types` and what stands behind it.


def tree(plan, place):
    """The type that a plan names so."""
    if place is None or isinstance(place, str):
        return place
    ((kind, inner),) = plan["types"][place].items()
    if kind in ("record", "variant"):
        return kind, [(name, tree(plan, part)) for name, part in inner]
    if kind in ("list", "option"):
        return kind, tree(plan, inner)
    if kind in ("tuple", "map", "result"):
        return kind, [tree(plan, part) for part in inner]
    if kind in ("fixed-list", "future", "stream"):
        return kind, (tree(plan, inner[0]), inner[1])
    return kind, inner


def kind_of(ty):
    return ty if isinstance(ty, str) else ty[0]


def cases(ty):
    """The payloads of the cases of a variant, an option or a result, by their names."""
    kind, inner = ty
    if kind == "option":
        return {"none": None, "some": inner}
    return dict(zip(("ok", "error"), inner)) if kind == "result" else dict(inner)


def element(ty):
    return ty[1] if ty[0] == "list" else ty[1][0]


def aligned(offset, align):
    return -(-offset // align) * align


def layout_of_places(types, pointer):
    """Size and alignment of values one behind another, as a record's fields and a tuple's members lie."""
    offset, most = 0, 1
    for ty in types:
        size, align = layout(ty, pointer)
        offset, most = aligned(offset, align) + size, max(most, align)
    return aligned(offset, most), most


def layout_of_cases(payloads, pointer):
    discriminant = 1 if len(payloads) <= 256 else 2 if len(payloads) <= 65_536 else 4
    parts = [layout(part, pointer) for part in payloads if part is not None]
    most = max([discriminant, *(align for _, align in parts)])
    return aligned(aligned(discriminant, most) + max([0, *(size for size, _ in parts)]), most), most


def layout(ty, pointer):
    """Size and alignment of a type in a memory whose addresses have so many bytes."""
    kind = kind_of(ty)
    if kind in ("string", "list", "map"):
        return 2 * pointer, pointer
    if kind == "record":
        return layout_of_places([part for _, part in ty[1]], pointer)
    if kind == "tuple":
        return layout_of_places(ty[1], pointer)
    if kind == "fixed-list":
        size, align = layout(ty[1][0], pointer)
        return size * ty[1][1], align
    if kind in ("variant", "option", "result"):
        return layout_of_cases(list(cases(ty).values()), pointer)
    if kind == "enum":
        return layout_of_cases([None] * len(ty[1]), pointer)
    if kind == "flags":
        names = len(ty[1])
        size = 1 if names <= 8 else 2 if names <= 16 else 4 * -(-names // 32)
        return size, min(size, 4)
    size = SIZES.get(kind, 4)
    return size, size


def greatest(size_of, source, target):
    """The greatest size of what goes from one type to another, in either width."""
    return max(size_of(ty, pointer)[0] for ty in (source, target) for pointer in (4, 8))


# Values: as JSON has them, but that a case is a pair of its name and its payload.


def known(data, keys, status, path):
    """An object of exactly these keys: the least unknown one is told, and then the first that is missing."""
    if not isinstance(data, dict):
        raise Fault(status, "WrongKind", path)
    unknown = sorted(data.keys() - keys)
    missing = [key for key in keys if key not in data]
    for kind, least in (("UnknownKey", unknown), ("Missing", missing)):
        if least:
            raise Fault(status, kind, f"{path}.{least[0]}")


def wrong(path, kind="WrongKind"):
    raise Fault(BAD_VALUE, kind, path)


def number(kind, data, path):
    least, most = RANGES[kind]
    if type(data) is not int or data < least and kind in HANDLES:
        wrong(path)
    return data if least <= data <= most else wrong(path, "OutOfRange")


def word(ty, data, path):
    """A char, a string or the name of an enum."""
    if not isinstance(data, str):
        wrong(path)
    kind = kind_of(ty)
    is_one = kind == "string" or (len(data) == 1 if kind == "char" else data in ty[1])
    return data if is_one else wrong(path, "OutOfRange")


def value(ty, data, path):
    """The value of a type in JSON."""
    kind = kind_of(ty)
    if kind in RANGES:
        return number(kind, data, path)
    if kind in ("char", "string", "enum"):
        return word(ty, data, path)
    if kind == "bool":
        return data if isinstance(data, bool) else wrong(path)
    if kind == "record":
        known(data, [name for name, _ in ty[1]], BAD_VALUE, path)
        return {name: value(part, data[name], f"{path}.{name}") for name, part in ty[1]}
    if kind in ("variant", "option", "result"):
        return case(ty, data, path)
    if kind == "flags":
        return flags(ty, data, path)
    if kind == "tuple":
        return values(ty[1], data, path)
    if kind == "fixed-list":
        return values([ty[1][0]] * ty[1][1], data, path)
    if not isinstance(data, list):
        wrong(path)
    item = ("tuple", ty[1]) if kind == "map" else ty[1]
    return [value(item, part, f"{path}.{place}") for place, part in enumerate(data)]


def case(ty, data, path):
    if not isinstance(data, dict) or len(data) != 1:
        wrong(path)
    ((name, payload),) = data.items()
    path = f"{path}.{name}"
    if name not in cases(ty):
        wrong(path, "UnknownKey")
    part = cases(ty)[name]
    if part is None and payload is not None:
        wrong(path)
    return name, None if part is None else value(part, payload, path)


def flags(ty, data, path):
    if not isinstance(data, list):
        wrong(path)
    for place, name in enumerate(data):
        if not isinstance(name, str):
            wrong(f"{path}.{place}")
        if name not in ty[1] or name in data[:place]:
            wrong(f"{path}.{place}", "OutOfRange")
    return data


def values(types, data, path):
    """The values of types in a JSON list, one by one."""
    if not isinstance(data, list) or len(data) != len(types):
        wrong(path)
    return [value(ty, part, f"{path}.{place}") for place, (ty, part) in enumerate(zip(types, data))]


def shown(ty, of):
    """A value of a type as JSON has it."""
    kind = kind_of(ty)
    if kind == "record":
        return {name: shown(part, of[name]) for name, part in ty[1]}
    if kind == "flags":
        return [name for name in ty[1] if name in of]
    if kind in ("variant", "option", "result"):
        name, payload = of
        part = cases(ty)[name]
        return {name: None if part is None else shown(part, payload)}
    if kind == "tuple":
        return [shown(part, item) for part, item in zip(ty[1], of)]
    if kind == "map":
        return [shown(("tuple", ty[1]), entry) for entry in of]
    if kind in ("list", "fixed-list"):
        return [shown(element(ty), item) for item in of]
    return of


def text_of(types, list_of_values):
    return printed([shown(ty, of) for ty, of in zip(types, list_of_values)])


def carried(source, target, of, numbers):
    """What a value becomes on its way from a type to another one: each handle, in the order of the target, has the next number."""
    kind = kind_of(target)
    if kind in HANDLES:
        return next(numbers)
    if kind == "record":
        named = dict(source[1])
        return {name: carried(named[name], part, of[name], numbers) for name, part in target[1]}
    if kind in ("variant", "option", "result"):
        name, payload = of
        part = cases(target)[name]
        return name, None if part is None else carried(cases(source)[name], part, payload, numbers)
    if kind == "tuple":
        return carried_places(source[1], target[1], of, numbers)
    if kind == "map":
        return [carried_places(source[1], target[1], entry, numbers) for entry in of]
    if kind in ("list", "fixed-list"):
        return [carried(element(source), element(target), item, numbers) for item in of]
    return of


def carried_places(sources, targets, of, numbers):
    return [carried(source, target, item, numbers) for source, target, item in zip(sources, targets, of)]


def held(source, target, of):
    """The values that one holds, each with its types."""
    kind = kind_of(target)
    if kind == "record":
        named = dict(source[1])
        return [(named[name], part, of[name]) for name, part in target[1]]
    if kind in ("variant", "option", "result"):
        name, payload = of
        part = cases(target)[name]
        return [] if part is None else [(cases(source)[name], part, payload)]
    if kind == "tuple":
        return list(zip(source[1], target[1], of))
    if kind == "map":
        return [triple for entry in of for triple in zip(source[1], target[1], entry)]
    if kind in ("list", "fixed-list"):
        return [(element(source), element(target), item) for item in of]
    return []


def nodes(sources, targets, list_of_values):
    """All values within some, themselves among them, each with its types."""
    left = list(zip(sources, targets, list_of_values))
    while left:
        triple = left.pop()
        yield triple
        left += held(*triple)


# What values ask of a host.


def room_of(source, target, of):
    """The bytes that a value asks for behind pointers, those of what it holds left out."""
    kind = kind_of(source)
    if kind == "string":
        return 8 + 16 * len(of)
    if kind == "list":
        return 8 + len(of) * greatest(layout, source[1], target[1])
    if kind == "map":
        return 8 + len(of) * greatest(layout_of_places, source[1], target[1])
    return 0


def weight_of(ty):
    return 1 + (len(cases(ty)) if kind_of(ty) in ("variant", "option", "result") else 0)


def room(sources, targets, of):
    return 8 + greatest(layout_of_places, sources, targets) + sum(room_of(*node) for node in nodes(sources, targets, of))


def pieces(sources, targets, of):
    return sum(kind_of(source) in ("string", "list", "map", *HANDLES) for source, _, _ in nodes(sources, targets, of))


def weight(sources, targets, of):
    return sum(weight_of(source) for source, _, _ in nodes(sources, targets, of))


def fits(sources, targets, of):
    way = sources, targets, of
    return room(*way) <= MOST_ROOM and pieces(*way) <= MOST_PIECES and weight(*way) <= MOST_WEIGHT


# Texts.


def units(form, text):
    encoded = text.encode({"utf8": "utf-8", "utf16": "utf-16-le", "latin1": "latin-1"}[form])
    return len(encoded) // (2 if form == "utf16" else 1)


def stored(encoding, text):
    """The form in which a text stands on a side of an encoding."""
    if encoding == "compact":
        return "latin1" if all(ord(scalar) < 256 for scalar in text) else "utf16"
    return encoding


def prefix(text, is_within):
    """The longest prefix of which each part is so."""
    length = next((length for length in range(len(text)) if not is_within(text[: length + 1])), len(text))
    return text[:length]


def path_of_text(source, target, text):
    """How often a transcoder and realloc are called where a text goes from one encoding to another."""
    form = stored(source, text)
    length = units(form, text)
    if target == "utf8" and form != "utf8":
        if prefix(text, lambda part: units("utf8", part) <= length) == text:
            return 1, 1
        grown = {"utf16": 3, "latin1": 2}[form] * length
        return 2, 2 + (units("utf8", text) != grown)
    if target == "utf16" and form == "utf8":
        return 1, 1 + (units("utf16", text) != length)
    if target == "compact" and source != "compact":
        if prefix(text, lambda part: ord(part[-1]) < 256) == text:
            return 1, 1 + (len(text) != length)
        return 2, 2 + (units("utf16", text) != length)
    return 1, 1


# Adapters.


class Half:
    """A side of an adapter."""

    def __init__(self, plan, keys):
        function = plan["funcs"][keys["ty"]]
        self.params = [tree(plan, ty) for _, ty in function["params"]]
        self.results = [tree(plan, ty) for ty in function["results"]]
        self.is_async = keys.get("async", False) or function.get("async", False)
        self.instance = keys["instance"]
        self.encoding = keys.get("encoding", "utf8")
        self.is_wide = (keys.get("memory") or {}).get("memory64", False)
        self.has_post_return = keys.get("post_return") is not None


class Called:
    """An adapter that may be called."""

    def __init__(self, plan, keys):
        self.lift, self.lower = Half(plan, keys["lift"]), Half(plan, keys["lower"])
        self.is_transparent = keys.get("transparent", False)
        self.is_concurrent = plan.get("tunables", {}).get("concurrency", False)

    def is_callable(self):
        return self.lift.instance != self.lower.instance and not (self.lift.is_async or self.lower.is_async)

    def ways(self):
        """The types between which arguments go, and results."""
        return (self.lower.params, self.lift.params), (self.lift.results, self.lower.results)

    def has_params_behind(self):
        """Whether the callee is given a pointer to its parameters."""
        return Side(True, False, self.lift.is_wide, self.lift.params, self.lift.results).has_params_behind

    def has_results_behind(self):
        """Whether the caller gives a pointer for its results."""
        return Side(False, False, self.lower.is_wide, self.lower.params, self.lower.results).has_results_behind

    def values(self, args, results):
        return values(self.lower.params, args, "call.args"), values(self.lift.results, results, "call.results")

    def fit(self, args, results):
        to, back = self.ways()
        return fits(*to, args) and fits(*back, results)

    def carry(self, args, results):
        numbers = count(1)
        to, back = self.ways()
        return carried_places(*to, args, numbers), carried_places(*back, results, numbers)

    def events(self, args, results):
        """The calls of the outside that the adapter makes, by what they are."""
        is_told = self.is_concurrent and not self.is_transparent or any(holds(ty, ["borrow"]) for ty in self.lower.params)
        events = Counter({"callee": 1, "enter and exit": 2 * is_told, "post-return": self.lift.has_post_return})
        to, back = self.ways()
        events += self.moves(self.lower, self.lift, to, args) + self.moves(self.lift, self.lower, back, results)
        events["realloc"] += self.has_params_behind()
        if self.is_concurrent:
            events["context"] = AROUND_REALLOC * events["realloc"] + AROUND_POST_RETURN * events["post-return"]
        return events

    def moves(self, source, target, way, of):
        """The calls for the values of a way: a list or a map is allocated, a text goes its path, and a handle is transferred."""
        events = Counter()
        for ty, _, one in nodes(*way, of):
            kind = kind_of(ty)
            if kind == "string":
                transcoders, reallocs = path_of_text(source.encoding, target.encoding, one)
                events.update({"transcoder": transcoders, "realloc": reallocs})
            events["realloc"] += kind in ("list", "map")
            events["transfer"] += kind in HANDLES
        return events

    def calls(self, args, results):
        return sum(self.events(args, results).values())


def named(plan, name):
    found = [Called(plan, keys) for keys in plan["adapters"] if keys["name"] == name]
    return found[0] if found and found[0].is_callable() else None


# Inputs.


def input_of(text, front, keys):
    data = parsed(text)
    known(data, keys, BAD_PLAN, front)
    return [data[key] for key in keys]


def called(text, name):
    plan, args, results = input_of(text, "call", ("plan", "args", "results"))
    adapter = named(plan, name)
    if adapter is None:
        return NOT_CALLABLE, "", "not callable\n"
    args, results = adapter.values(args, results)
    if not adapter.fit(args, results):
        return OVER_LIMIT, "", "over limit\n"
    given, got = adapter.carry(args, results)
    params, results_text = text_of(adapter.lift.params, given), text_of(adapter.lower.results, got)
    return DONE, f"params {params}\nresults {results_text}\ncalls {adapter.calls(args, results)}\n", ""


def are_chained(first, second):
    """Whether what the first adapter calls is what calls the second one."""
    if first is None or second is None or first.lift.instance != second.lower.instance:
        return False
    return (first.lift.params, first.lift.results) == (second.lower.params, second.lower.results)


def between(first, second, args, results):
    """What the first adapter's callee is given and gives, where the second one is called by it."""
    return first.carry(args, [])[0], second.carry([], results)[1]


def events_of_chain(adapters, args, results):
    """How many calls of the outside each adapter makes, or none where values are past a limit on a way."""
    if len(adapters) == 1:
        return [adapters[0].calls(args, results)] if adapters[0].fit(args, results) else None
    first, second = adapters
    passed, answered = between(first, second, args, results)
    if not (first.fit(args, answered) and second.fit(passed, results)):
        return None
    return [first.calls(args, answered), second.calls(passed, results)]


def chained(text):
    plan, *names, args, results = input_of(text, "chain", ("plan", "first", "second", "args", "results"))
    for key, name in zip(("first", "second"), names):
        if not isinstance(name, str):
            raise Fault(BAD_PLAN, "WrongKind", f"chain.{key}")
    first, second = (named(plan, name) for name in names)
    if not are_chained(first, second):
        return NOT_CHAINED, "", "not chained\n"
    args = values(first.lower.params, args, "chain.args")
    results = values(second.lift.results, results, "chain.results")
    calls = events_of_chain([first, second], args, results)
    if calls is None:
        return OVER_LIMIT, "", "over limit\n"
    # Both go directly, with the numbers of the second call's transfers and of the first call's.
    to, back = (first.lower.params, second.lift.params), (second.lift.results, first.lower.results)
    before = sum(kind_of(ty) in HANDLES for ty, _, _ in nodes(*to, args))
    seen = text_of(second.lift.params, carried_places(*to, args, count(1)))
    got = text_of(first.lower.results, carried_places(*back, results, count(before + 1)))
    return DONE, f"seen {seen}\nresults {got}\ncalls {calls[0]} {calls[1]}\n", ""


def answer(words, text):
    """The status, what is printed and what is told, with these words, of which one is the mode."""
    try:
        return chained(text) if "--chain" in words else called(text, words[words.index("--call") + 1])
    except ValueError:
        return NOT_JSON, "", "not json\n"
    except Fault as fault:
        front = "bad plan" if fault.status == BAD_PLAN else "bad value"
        return fault.status, "", f"{front}: {fault.kind} at {fault.path}\n"
