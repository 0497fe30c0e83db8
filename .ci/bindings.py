"""Compares each number and each text of include/factc.h with the definitions and the pages that it is taken from, and its structs and its one
function with those that the library has.

What a definition says is read out of the files of crates/NAME/specs, where a number has only its code, out of crates/NAME/src; the pages are those
of docs/. Ends with status 1 where one differs, where the header lacks what the sources have or has what they have not, where it says nothing of a
constant, and where a source cannot be read any more.
"""

import re
import sys
from pathlib import Path

HEADER = Path("include/factc.h")

# At least so many constants are there.
FEWEST = 150

# The status of the header's own functions.
NULL_POINTER = 32


class Unreadable(Exception):
    """Something does not stand in a source as it should."""


def text_of(path):
    return Path(path).read_text(encoding="utf-8")


def found(path, pattern):
    """What the groups of a pattern are, wherever it stands in a file, which is somewhere."""
    rows = re.findall(pattern, text_of(path), re.MULTILINE)
    if not rows:
        raise Unreadable(f"{path}: nothing is as in {pattern}")
    return rows


def one(path, pattern):
    """The same of a pattern that stands there once, or always says the same."""
    rows = set(found(path, pattern))
    if len(rows) != 1:
        raise Unreadable(f"{path}: {len(rows)} different places are as in {pattern}")
    return rows.pop()


def number(text):
    return int(text.replace("_", "").replace(",", ""), 0)


def snake(name):
    """UPPER_SNAKE of a name in CamelCase, or of a text with hyphens or dots."""
    return re.sub(r"(?<=[a-z0-9])(?=[A-Z])", "_", name).replace("-", "_").strip("[] ").upper()


# ---- The header


def header():
    """The constants of the header by their names without FACTC_, and what is wrong with it, a line for each."""
    constants, wrong = {}, []
    for line in text_of(HEADER).splitlines():
        named = re.match(r'#define FACTC_(\w+) (".*?"|\w+)(.*)|    FACTC_(\w+) = (\w+),?(.*)', line)
        if not named:
            if "FACTC_" in line.split("/*")[0] and not re.fullmatch(r"#(ifndef|define) FACTC_H", line) and not line.startswith("   "):
                wrong.append(f"factc.h: no constant is read in: {line}")
            continue
        name, value, rest = (part for part in named.groups() if part is not None)
        if not re.fullmatch(r"\s*/\* .+ \*/", rest):
            wrong.append(f"FACTC_{name}: nothing is said of it")
        if name in constants:
            wrong.append(f"FACTC_{name}: it stands twice")
        constants[name] = value[1:-1] if value.startswith('"') else int(value.rstrip("u"))
    return constants, wrong


# ---- What the sources say: each group gives constants by their names

COMMAND = "crates/fact_command/specs/Command.antt"
STATUS = "crates/fact_command/specs/Status.antt"
REFUSAL = "crates/fact_command/specs/Refusal.antt"
LINES = "crates/fact_command/specs/ImportLines.antt"
FAULT = "crates/fact_plan/specs/Fault.antt"
COMPILING = "crates/fact_library/specs/Compiling.antt"
GIVING = "crates/fact_library/specs/Giving.antt"
RECORDS = "crates/fact_records/specs/Records.antt"
IMPORTS = "crates/fact_check/specs/Imports.antt"
RUNTIME = "crates/fact_emit/specs/Runtime.antt"
NAMES = "crates/fact_types/specs/TranscoderNames.antt"
TASKS = "crates/fact_emit/specs/TaskTypes.antt"
ADAPTERS = "crates/fact_actions/specs/Adapters.antt"
BEHAVIOUR_PAGE = "docs/BEHAVIOUR.md"
IMPORTS_PAGE = "docs/IMPORTS.md"


def fuel():
    return {
        "FUEL_LEAST": number(one(COMMAND, r"^least_fuel = ([\d_]+)$")),
        "FUEL_MOST": number(one(COMMAND, r"^most_fuel = ([\d_]+)$")),
        "FUEL_DEFAULT": number(one(COMMAND, r"^default_fuel = ([\d_]+)$")),
    }


def statuses():
    constants = {f"STATUS_{snake(name)}": number(n) for name, n in found(STATUS, r"^exit_status_of status\.(\w+) = (\d+)$")}
    if number(one(GIVING, r"^no_fuel = (\d+)$")) != constants["STATUS_USAGE"]:
        raise Unreadable(f"{GIVING}: a fuel that is none has another status")
    constants |= {"STATUS_NO_ROOM": number(one(GIVING, r"^no_room = (\d+)$")), "STATUS_NULL_POINTER": NULL_POINTER}
    if len(set(constants.values())) != len(constants):
        raise Unreadable(f"{STATUS}, {GIVING}: two statuses have one number")
    told = {f"TOLD_{snake(name)}": line for name, line in found(STATUS, r'^line_of status\.(\w+) = codes "(.*)\\n"$')}
    errors = found(COMPILING, r"^status_of_error \(?error\.(\w+)")
    return constants | {name: line for name, line in told.items() if name in {f"TOLD_{snake(error)}" for error in errors}}


def faults():
    front, behind, at = one(FAULT, r'^told_line what kind path = codes "(.*?)" \+\+ \(what \+\+ \(codes "(.*?)" \+\+ \(kind \+\+ \(codes "(.*?)" ')
    refusals = found(REFUSAL, r'^place_line name \(\w+ n\) = codes "(.*?)" \+\+ \(name \+\+ \(codes "( at )(\w+ )" ')
    constants = {"FAULT_BAD_PLAN": f"{front}plan{behind}", "FAULT_AT": at}
    constants["PATH_PLAN"] = one("crates/fact_plan/specs/Plan.antt", r'^plan_of d = at_step \(codes "(\w+)"\)')
    constants["FAULT_REFUSED"] = one(REFUSAL, r'^place_line name \(\w+ n\) = codes "(.*?)"')
    constants |= {f"BAD_PLAN_{snake(name)}": name for name in found(FAULT, r'^fault_line what \(\w+ path\) = told_line what \(codes "(\w+)"\) path$')}
    constants |= {f"REFUSED_{snake(name)}": name for name in found(REFUSAL, r'^fault_name \w+ = codes "(\w+)"$')}
    return constants | {f"AT_{snake(place)}": place for _, _, place in refusals}


def limits():
    rules, flats = "crates/fact_plan_types/src/rules.rt", "crates/fact_types/src/flats.rt"
    read = {
        "INPUT": ("crates/fact_plan/specs/Inputs.antt", r"^limit = ([\d_]+)$"),
        "JSON_DEPTH": (BEHAVIOUR_PAGE, r"nested (\d+) deep at most"),
        "ENTRIES": (rules, r"^pub const MOST_ENTRIES: usize = ([\d_]+);"),
        "INSTANCE": ("crates/fact_adapter_rules/src/plan.rt", r"^pub const MOST_INSTANCE: u32 = ([\d_]+);"),
        "TYPE_DEPTH": ("crates/fact_plan_types/specs/TypeRules.antt", r"\((\d+) < nesting s\)"),
        "CASES": ("crates/fact_plan_types/specs/TypeRules.antt", r"^HasManyCases \(entry\.Variant cs\) = (\d+) < length cs$"),
        "FLAGS": ("crates/fact_plan_types/specs/TypeRules.antt", r"^HasManyFlags \(entry\.Flags ns\) = (\d+) < length ns$"),
        "VALUE": ("crates/fact_plan_types/specs/TypeRules.antt", r"^most_bytes = ([\d_]+)$"),
        "STRING": ("crates/fact_actions/specs/Strings.antt", r"^most_string_bytes = ([\d_]+)$"),
        "PARAMS": (flats, r"^pub const MAX_FLAT_PARAMS: usize = (\d+);"),
        "RESULTS": (flats, r"^pub const MAX_FLAT_RESULTS: usize = (\d+);"),
        "ASYNC_PARAMS": (flats, r"^pub const MAX_FLAT_ASYNC_PARAMS: usize = (\d+);"),
    }
    constants = {f"LIMIT_{name}": number(one(*where)) for name, where in read.items()}
    exponent = one("crates/fact_actions/specs/Moves.antt", r"unless ListOutOfBounds \(nat_lt \(n \* \w\.size\) \(2 \^ (\d+)\)\)")
    constants["LIMIT_LIST"] = 2 ** int(exponent) - 1
    units = found("crates/fact_values/specs/Limits.antt", r"^most_units units_of\.(\w+) (\w+) = (\d+)$")
    return constants | {f"UNITS_{snake(source)}_TO_{snake(to)}": number(n) for source, to, n in units}


def records():
    """The numbers in records of imports."""
    kinds = {f"IMPORT_{snake(name)}": number(n) for name, n in found(RECORDS, r"^kind_of \(?known\.(\w+).* = (\d+)$")}
    slots = {
        f"SLOT_{access.upper()}{place}": number(n) for access, place, n in found(RECORDS, r"^slot_number slot\.Context(Get|Set)I32_(\d) = (\d+)$")
    }
    definitions = {f"DEFINITION_{snake(name)}": number(n) for name, n in found(RECORDS, r"^TellsDef .*\(def\.(\w+) \w\).* kind = (\d+);")}
    definitions["DEFINITION_EXPORT"] = number(one(RECORDS, r"^  pub kind : d\.kind ≡ (\d+)$"))
    definitions["DEFINITION_NONE"] = number(one(RECORDS, r"^nothing = record \{ kind = (\d+);"))
    named = dict(found(NAMES, r'^transcode_name \(?(op\.\w+(?: \w+)?)\)? = codes "([\w-]+)"$'))
    operations = dict(found(RECORDS, r"^transcode_number \(?(op\.\w+(?: \w+)?)\)? = (\d+)$"))
    if named.keys() != operations.keys():
        raise Unreadable(f"{RECORDS}: the operations are others than those of {NAMES}")
    return kinds | slots | definitions | {f"OPERATION_{snake(named[operation])}": number(n) for operation, n in operations.items()}


def memories_and_encodings():
    constants = {f"ENCODING_{snake(name)}": number(n) for name, n in found(ADAPTERS, r"^encoding_number string\.(\w+) = (\d+)$")}
    constants["PAGE_LOG2_DEFAULT"] = number(one("crates/fact_emit/specs/ImportSection.antt", r"^custom_page_size k = if nat_eq k (\d+) then None"))
    constants["PAGE_LOG2_BYTE"] = number(one(IMPORTS, r"^IsPageSize page = \(page ≡ None\) ⊎ \(page ≡ Some (\d+)\)$"))
    tag = one("crates/fact_actions/specs/Strings.antt", r"^with_tag v = record v \{ written = bit_or v\.written \(2 \^ (\d+)\) \}$")
    return constants | {"UTF16_TAG": 2 ** int(tag)}


def names():
    origins = found(IMPORTS, r'bytes_eq s \(codes "([\w-]+)"\) then Some origin\.') + found(IMPORTS, r'origin ≡ codes "(\w+)"')
    fixed = found(IMPORTS, r'bytes_eq name \(codes "([\w-]+)"\) then Some signature\.')
    numbered = dict(found(IMPORTS, r'(origin\.\w+|import\.Memory|import\.Global).*IsNumbered \(codes "(\w+)"\)'))
    prefixes = dict(found(IMPORTS, r'^IsNamedFunction .* origin\.(\w+) =\s*BeginsWith \(codes "(.*?)"\)'))
    transcoder = one(IMPORTS, r'named : name ≡ description \+\+ \(codes "(.*?)".*codes "(.*?)".*codes "(.*?)"\)')
    if numbered["origin.Realloc"] != numbered["origin.Callback"]:
        raise Unreadable(f"{IMPORTS}: reallocs and callbacks are named in different ways")
    return {f"MODULE_{snake(name)}": name for name in origins} | {f"NAME_{snake(name)}": name for name in fixed} | {
        "PREFIX_INSTANCE": numbered["import.Global"],
        "PREFIX_MEMORY": numbered["import.Memory"],
        "PREFIX_FUNCTION": numbered["origin.Realloc"],
        "PREFIX_TRAP": numbered["origin.Runtime"],
        "PREFIX_PREPARE_CALL": prefixes["Sync"],
        "PREFIX_START_CALL": prefixes["Async"],
        "PREFIX_FROM": transcoder[0],
        "PREFIX_TO": transcoder[1],
        "SUFFIX_TRANSCODE": transcoder[2],
    }


WIDTHS = {"address_type wide": "P", "address_type from": "Pi", "address_type to": "Pj", "I32": "i32", "FuncRef": "funcref"}


def types_in(text):
    """The types of a list of a definition, as the header writes them."""
    return ", ".join(WIDTHS[word] for word in re.split(r" ∷ ", text.strip("()").removesuffix("[]").removesuffix(" ∷ ")) if word)


LIST = r"(\(.*?\[\]\)|\[\])"


def function(params, results):
    return f"({types_in(params)}) -> ({types_in(results)})"


def types():
    signatures = {name: function(*lists) for name, *lists in found(IMPORTS, rf"^type_of_signature signature\.(\w+) = function {LIST} {LIST}$")}
    return {
        "TYPE_REALLOC": function(*one(IMPORTS, rf"^realloc_type wide = function {LIST} {LIST}$")),
        "TYPE_CALLBACK": function(*one(IMPORTS, rf"^callback_type = function {LIST} {LIST}$")),
        "TYPE_TRAP": function(*one(IMPORTS, rf"^IsNamedFunction .* origin\.Runtime = .* \(ty ≡ function {LIST} {LIST}\)$")),
        "TYPE_TRANSFER": signatures["Transfer"],
        "TYPE_ENTER_SYNC_CALL": signatures["Enter"],
        "TYPE_EXIT_SYNC_CALL": signatures["Exit"],
        "TYPE_CONTEXT_GET": signatures["Get"],
        "TYPE_CONTEXT_SET": signatures["Set"],
        "TYPE_PREPARE_CALL": types_in(one(IMPORTS, r"^prepare_types = (.*)$")),
        "TYPE_START_CALL": types_in(one(IMPORTS, r"^start_types = (.*)$")),
    }


# What an async adapter hands over, as `prepare_args` and `start_args` say it.
PREPARE = {
    "Func r.start": "START",
    "Func r.return": "RETURN",
    "I32 a.lower.instance": "LOWER_INSTANCE",
    "I32 a.lift.instance": "LIFT_INSTANCE",
    "I32 r.results": "TUPLE",
    "I32 (truth a.lift.async_type)": "ASYNC_TYPE",
    "I32 (encoding_number a.lift.encoding)": "ENCODING",
    "I32 (results_number a.lower)": "RESULTS",
}
START = {
    "Func r.callee": "CALLEE",
    "I32 (length (lift_signature_of a).params)": "PARAMS",
    "I32 (length (lift_signature_of a).results)": "RESULTS",
    "I32 (truth a.lift.async_side + 2 * truth a.lower.async_side)": "BITS",
}


def handed_over(definition, end, kinds, prefix):
    """The places of what a call is told, by the list of a definition."""
    body = one(ADAPTERS, rf"^{definition} .* =\n((?:    .*\n)*?    .*∷ {re.escape(end)})$")
    listed = [" ".join(part.split()) for part in body.removesuffix(end).replace("\n", " ").split("∷")]
    places = {f"{prefix}_{kinds[part]}": place for place, part in enumerate(filter(None, listed))}
    return places | {f"{prefix}_FIXED": len(places)}


def calls():
    constants = handed_over("prepare_args", "args", PREPARE, "PREPARE") | handed_over("start_args", "[]", START, "START")
    return constants | {
        "START_BIT_LIFT_ASYNC": 1,
        "START_BIT_LOWER_ASYNC": number(one(ADAPTERS, r"truth a\.lift\.async_side \+ (\d+) \* truth a\.lower\.async_side")),
        "RESULTS_MANY": number(one(ADAPTERS, r"^    flats None = (\w+)$")),
        "RESULTS_NONE": number(one(ADAPTERS, r"^    by_mark true \[\] = (\w+)$")),
        "RESULTS_BY_POINTER": number(one(ADAPTERS, r"^    by_mark true \(t ∷ ts\) = (\w+)$")),
    }


def flags_and_traps():
    traps = {f"TRAP_{snake(name)}": number(n) for name, n in found(RUNTIME, r"^trap_number trap\.(\w+) = (\d+)$")}
    if number(one(IMPORTS, r"^last_trap = (\d+)$")) != max(traps.values()):
        raise Unreadable(f"{IMPORTS}: the last trap is another one than that of {RUNTIME}")
    return traps | {
        "FLAG_MAY_NOT_LEAVE": number(one(ADAPTERS, r"^cleared i saved p = SetFlags i (\d+) ")),
        "FLAG_MAY_LEAVE": number(one(IMPORTS_PAGE, r"gives each component instance one global, with (\d+) at first")),
    }


def transcoders():
    named = {snake(text): text for text in found(NAMES, r'^transcode_name .* = codes "([\w-]+)"$')}
    kinds = {snake(text): kind for text, kind in found(IMPORTS, r'bytes_eq s \(codes "([\w-]+)"\) then Some operation\.(\w+)')}
    if named.keys() != kinds.keys():
        raise Unreadable(f"{IMPORTS}: the operations are others than those of {NAMES}")
    signatures = {kind: function(*lists) for kind, *lists in found(IMPORTS, rf"^transcoder_type operation\.(\w+) from to = function {LIST} {LIST}$")}
    return {f"TRANSCODE_{name}": text for name, text in named.items()} | {f"TRANSCODE_TYPE_{name}": signatures[kind] for name, kind in kinds.items()}


def exports():
    parts = re.findall(r'codes "(.*?)"', one("crates/fact_adapter_rules/specs/AdapterRules.antt", r"^part_names name = (.*)$"))
    return {f"EXPORT_{snake(text)}": text for text in parts}


def profile():
    return {"IMPORTS_PROFILE": number(one(IMPORTS_PAGE, r"^Imports profile (\d+)\."))}


GROUPS = [profile, fuel, statuses, faults, limits, records, memories_and_encodings, names, types, calls, flags_and_traps, transcoders, exports]


# ---- What the pages say


def rows_under(path, heading):
    """The cells of the rows of a page's tables under a heading, up to the next one, without the heads of the tables."""
    part = re.search(rf"^#+ {re.escape(heading)}$(.*?)(?=^#|\Z)", text_of(path), re.MULTILINE | re.DOTALL)
    if not part:
        raise Unreadable(f"{path}: there is no heading {heading}")
    rows = [[cell.strip() for cell in line.strip("|").split(" | ")] for line in part[1].splitlines() if line.startswith("|")]
    rules = [place for place, row in enumerate(rows) if set("".join(row)) <= set("-| ")]
    return [row for place, row in enumerate(rows) if place not in rules and place + 1 not in rules]


def codes_in(cell):
    return re.findall(r"`([^`]*)`", cell)


def with_begin(constants, begin):
    return {name: value for name, value in constants.items() if re.match(begin, name)}


def ends_on_page(constants):
    """The table of statuses: its numbers, and the lines that are the same for every input."""
    rows = {number(row[0]): codes_in(row[1]) for row in rows_under(BEHAVIOUR_PAGE, "How a run ends")}
    stated = set(with_begin(constants, "STATUS_").values()) - {constants["STATUS_NO_ROOM"], NULL_POINTER}
    if set(rows) != stated:
        yield f"{BEHAVIOUR_PAGE}: the statuses are {sorted(rows)}"
    for name, line in with_begin(constants, "TOLD_").items():
        if line not in rows.get(constants[f"STATUS_{name.removeprefix('TOLD_')}"], []):
            yield f"{BEHAVIOUR_PAGE}: no line is FACTC_{name}"
    tables = {"Bad plans": "BAD_PLAN_", "Refused plans": "REFUSED_"}
    for heading, begin in tables.items():
        if {codes_in(row[0])[0] for row in rows_under(BEHAVIOUR_PAGE, heading)} != set(with_begin(constants, begin).values()):
            yield f"{BEHAVIOUR_PAGE}: {heading} has others than FACTC_{begin}"


def limits_on_page(constants):
    page = text_of(BEHAVIOUR_PAGE)
    for name, value in with_begin(constants, "LIMIT_|FUEL_").items():
        if not re.search(rf"(?<![\d,]){value:,}(?![\d,]*\d)", page):
            yield f"{BEHAVIOUR_PAGE}: {value:,}, FACTC_{name}, stands nowhere"
    encodings = ["UTF8", "UTF16", "LATIN1"]
    table = rows_under(BEHAVIOUR_PAGE, "Strings")
    if len(table) != len(encodings):
        yield f"{BEHAVIOUR_PAGE}: the limits of strings have {len(table)} rows"
    for source, row in zip(encodings, table):
        for to, cell in zip(["UTF8", "UTF16", "COMPACT_UTF16"], row[1:]):
            if number(cell) != constants[f"UNITS_{source}_TO_{to}"]:
                yield f"{BEHAVIOUR_PAGE}: {cell} is not FACTC_UNITS_{source}_TO_{to}"


def plain(signature):
    """A type of the page without the names of parameters, its one result in brackets."""
    params, results = re.sub(r"(Pi|Pj|P|i32) \w+", r"\1", signature).split(" -> ")
    return f"{params} -> {results if results.startswith('(') else f'({results})'}"


# The rows of the table of imports whose type is one of the header.
TYPED = {
    "realloc": "REALLOC",
    "callback": "CALLBACK",
    "runtime": "TRAP",
    "resource": "TRANSFER",
    "future": "TRANSFER",
    "error-context": "TRANSFER",
    "async enter-sync-call": "ENTER_SYNC_CALL",
    "async exit-sync-call": "EXIT_SYNC_CALL",
    "context get0": "CONTEXT_GET",
    "context set0": "CONTEXT_SET",
}


def names_on_page(constants):
    """How the names in the table of imports, and those of the exports of async adapters, are written: with a letter for a number or a name."""
    names = {key: constants[f"PREFIX_{key}"] for key in ("INSTANCE", "MEMORY", "FUNCTION", "TRAP", "PREPARE_CALL", "START_CALL", "FROM", "TO")}
    wanted = {names["INSTANCE"] + "N", names["PREPARE_CALL"] + "A", names["START_CALL"] + "A"}
    wanted |= {names[key] + "K" for key in ("MEMORY", "FUNCTION", "TRAP")} | set(with_begin(constants, "NAME_").values())
    wanted.add(f"OP{names['FROM']}I{names['TO']}J{constants['SUFFIX_TRANSCODE']}")
    told = {code for row in rows_under(IMPORTS_PAGE, "The imports") if len(row) == 4 for code in codes_in(row[1])}
    if told != wanted:
        yield f"{IMPORTS_PAGE}: names of imports differ: {sorted(told ^ wanted)}"
    exports = {text + "A" for text in with_begin(constants, "EXPORT_").values()}
    if not exports <= {code for row in rows_under(IMPORTS_PAGE, "Async adapters") for code in codes_in(row[0])}:
        yield f"{IMPORTS_PAGE}: not all of {sorted(exports)} are among the exports of an async adapter"


def imports_on_page(constants):
    rows = [row for row in rows_under(IMPORTS_PAGE, "The imports") if len(row) == 4]
    origins = {code for row in rows for code in codes_in(row[0])}
    if origins != set(with_begin(constants, "MODULE_").values()):
        yield f"{IMPORTS_PAGE}: the modules are {sorted(origins)}"
    told = {}
    for origin, name, signature, _ in rows:
        told[codes_in(origin)[0]] = told[" ".join([codes_in(origin)[0], *codes_in(name)[:1]])] = signature
    for key, name in TYPED.items():
        if plain(told.get(key, " -> ")) != constants[f"TYPE_{name}"]:
            yield f"{IMPORTS_PAGE}: the type of {key} is not FACTC_TYPE_{name}"
    traps = [number(row[0]) for row in rows_under(IMPORTS_PAGE, "Traps")]
    if traps != sorted(with_begin(constants, "TRAP_").values()):
        yield f"{IMPORTS_PAGE}: the traps are {traps}"
    typed = {code: plain(row[1]) for row in rows_under(IMPORTS_PAGE, "Transcoders") if len(row) == 3 for code in codes_in(row[0])}
    wanted = {text: constants[name.replace("TRANSCODE_", "TRANSCODE_TYPE_")] for name, text in with_begin(constants, "TRANSCODE_(?!TYPE_)").items()}
    if typed != wanted:
        yield f"{IMPORTS_PAGE}: transcoders differ: {sorted(set(typed.items()) ^ set(wanted.items()))}"


def prepare_on_page(constants):
    """The table of what a prepare-call takes: the places and the types of its parameters."""
    rows = [row for row in rows_under(IMPORTS_PAGE, "Async adapters") if re.fullmatch(r"[\d, ]+", row[0])]
    listed = [row[1] for row in rows for _ in row[0].split(",")]
    if [number(place) for row in rows for place in row[0].split(", ")] != list(range(constants["PREPARE_FIXED"])):
        yield f"{IMPORTS_PAGE}: the parameters of a prepare-call are not numbered so"
    if ", ".join(listed) != constants["TYPE_PREPARE_CALL"]:
        yield f"{IMPORTS_PAGE}: the parameters of a prepare-call are {', '.join(listed)}"
    page = text_of(IMPORTS_PAGE)
    for name, value in with_begin(constants, "RESULTS_").items():
        if f"{value:,}" not in page:
            yield f"{IMPORTS_PAGE}: {value:,}, FACTC_{name}, stands nowhere"


PAGES = [ends_on_page, limits_on_page, names_on_page, imports_on_page, prepare_on_page]


# ---- All of it


def differences(here, wanted, where):
    for name in sorted(here.keys() - wanted.keys()):
        yield f"FACTC_{name}: {where} have no such thing"
    for name in sorted(wanted.keys() - here.keys()):
        yield f"FACTC_{name}: it is not there, and in {where} it is {wanted[name]!r}"
    for name in sorted(here.keys() & wanted.keys()):
        if here[name] != wanted[name]:
            yield f"FACTC_{name}: {here[name]!r}, and in {where} {wanted[name]!r}"


# The structs of the header, and those of the library with the same layout.
STRUCTS = {
    "factc_text": ("fact_records/src/spans.rt", "TextSpan"),
    "factc_definition": ("fact_records/src/definitions.rt", "Definition"),
    "factc_import": ("fact_records/src/records.rt", "ImportRecord"),
    "factc_sizes": ("fact_library/src/giving.rt", "Sizes"),
}

C_TYPES = {"size_t": "usize", "uint32_t": "u32", "struct factc_text": "TextSpan", "struct factc_definition": "Definition"}


def struct_differences():
    """The fields of the structs by their types, in order: they have other names in the library where these say more there."""
    for name, (path, item) in STRUCTS.items():
        body = re.search(rf"^struct {name} \{{\n(.*?)^\}};", text_of(HEADER), re.MULTILINE | re.DOTALL)
        own = re.search(rf"^#\[repr\(C\)\]\n(?:#.*\n)*pub struct {item} \{{\n(.*?)^\}}", text_of(f"crates/{path}"), re.MULTILINE | re.DOTALL)
        if not body or not own:
            raise Unreadable(f"struct {name} or {item}")
        here = [(C_TYPES.get(kind), field) for kind, field in re.findall(r"^    ([\w ]+) (\w+);", body[1], re.MULTILINE)]
        there = [(kind, field) for field, kind in re.findall(r"^    pub (\w+): (\w+),", own[1], re.MULTILINE)]
        renamed = [(kind, {"records": "imports"}.get(field, field)) for kind, field in there]
        if here != renamed:
            yield f"factc.h: struct {name} has {here}, and {item} of the library {renamed}"


# What each parameter of the export is in C, but for the allocator, which is none: a slice is a pointer and a length.
CROSSES = {
    "&[u8]": "const uint8_t *{0}, size_t {0}_size",
    "&mut [u8]": "uint8_t *{0}, size_t {0}_room",
    "&mut [ImportRecord]": "struct factc_import *{0}, size_t {0}_room",
    "&mut Sizes": "struct factc_sizes *{0}",
    "bool": "bool {0}",
    "u32": "uint32_t {0}",
}


def export_differences():
    """The one function of the library, by the types and names of its parameters and by its result."""
    code = text_of("crates/fact_c/src/lib.rt")
    exports = re.findall(r'^pub extern "C" fn (\w+)\(\n(.*?)^\) -> (\w+)$', code, re.MULTILINE | re.DOTALL)
    if len(exports) != 1 or code.count("no_mangle") != 1:
        raise Unreadable("fact_c: there is not one export")
    (function_name, params, result), renamed = exports[0], {"records": "imports"}
    listed = re.findall(r"^    (\w+): (.+),$", params, re.MULTILINE)
    wanted = ", ".join(CROSSES[kind].format(renamed.get(name, name)) for name, kind in listed if kind != "Global")
    wanted = f"{CROSSES[result].format(function_name)}({wanted});"
    if wanted not in " ".join(text_of(HEADER).split()):
        yield f"factc.h: the library has {wanted}"


def judged():
    """What is wrong, a line for each, and how many constants were looked at."""
    try:
        constants, wrong = header()
        wanted = {}
        for group in GROUPS:
            wanted |= group()
        wrong += differences(constants, wanted, "the sources")
        if len(constants) < FEWEST:
            wrong.append(f"factc.h: {len(constants)} constants, fewer than {FEWEST}")
        if not wrong:
            wrong += [line for page in PAGES for line in page(constants)]
            wrong += [*struct_differences(), *export_differences()]
        return wrong, len(constants)
    except (Unreadable, OSError, KeyError, ValueError) as error:
        return [f"{type(error).__name__}: {error}"], 0


def main():
    wrong, count = judged()
    for line in wrong:
        print(f"bindings: {line}", file=sys.stderr)
    if not wrong:
        print(f"bindings: {count} constants of {HEADER}: as in the sources and in docs/", file=sys.stderr)
    return 1 if wrong else 0


sys.exit(main())
