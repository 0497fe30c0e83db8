"""Judges docs/FAULTS.md by the sources and by the built programs: faults.py FACTC ROWS FACTPLAN, each a program or `none`.

The lines are put together of the enums of faults, of the words and forms that they are told with, and, for refusals, of the definitions that say
which faults a type, a function and an adapter may have. Ends with status 1 where the page has others, lacks something, or an example does not
give its line.
"""

import json
import re
import subprocess
import sys
from pathlib import Path

sys.dont_write_bytecode = True

PAGE, CRATES = Path("docs/FAULTS.md"), Path("crates")
PARTS = ["When", "Usually", "Mend", "Standard"]
FEWEST_EXAMPLES = 110
NAMES = {"{path}": "PATH", "{n}": "N"}

# How the lines begin that name a place, and the status of each by its name in the sources.
STATUSES = {"bad plan": "BadPlan", "refused": "Refused", "bad value": "BadValue", "rejected": "Rejected"}

# The ends that are told alike for every input and say nothing of what it holds, or are the limits of a call: docs/BEHAVIOUR.md has them.
ELSEWHERE = {"Usage", "ReadFault", "WriteFault", "TooLong", "OutOfMemory", "NotCallable", "NotChained", "OverLimit"}

# The relations that say which faults an entry may have, each with the entry's place.
RELATIONS = {"TypeHas": "TypeEntry", "FuncHas": "Func", "AdapterHas": "Adapter", "LinkedHas": "Adapter"}
RULES = ["crates/fact_plan_types/specs/TypeRules.antt", "crates/fact_adapter_rules/specs/AdapterRules.antt"]

SPAN = re.compile(r"`([^`]+)`")


class Wrong(Exception):
    """The page or a source is not as it should be."""


def read(path):
    return Path(path).read_text(encoding="utf-8")


# ---- The lines of the sources.


def variants(source, name):
    """The variants of an enum, but for want of memory, which no line of a fault tells."""
    body = re.search(rf"pub enum {name} \{{(.*?)\n\}}", read(source), re.DOTALL)
    if not body:
        raise Wrong(f"{source}: no enum {name}")
    return [found for found in re.findall(r"(?m)^    ([A-Z]\w*)", body[1]) if found != "OutOfMemory"]


def same(what, got, wanted):
    """Raises Wrong where two lists of distinct names are not of the same ones."""
    got, wanted = list(got), list(wanted)
    for name in [*got, *wanted]:
        if got.count(name) != 1 or wanted.count(name) != 1:
            raise Wrong(f"{what}: `{name}` is there {got.count(name)} times, and not {wanted.count(name)} times")


def line_of(form, kind=""):
    """The line of a form of the sources, with names for what is filled in."""
    line = form.replace("{kind}", kind)
    for part, name in NAMES.items():
        line = line.replace(part, name)
    return line


def lines_with_path(what):
    """The lines of faults of what is read from JSON, a plan or a value, which end with a path."""
    source = "crates/fact_plan/src/fault.rt"
    text = read(source)
    words = dict(re.findall(r'PlanFault::(\w+) \{ path \} => told_line\(alloc, what, "(\w+)", path\)', text))
    same(source, words, variants(source, "PlanFault"))
    (form,) = re.findall(r'format!\(in alloc; "(bad \{what\}: [^"]*)\\n"\)', text)
    return [line_of(form.replace("{what}", what), word) for word in words.values()]


def lines_of_refusals():
    """The lines of faults of plans, for each entry that may have them."""
    error, source = "crates/fact_plan_types/src/error.rt", "crates/fact_command/src/refusal.rt"
    text = read(source)
    words = dict(re.findall(r'FuseError::(\w+)\(place\) => told_line\(alloc, "(\w+)", place\)', text))
    same(source, words, variants(error, "FuseError"))
    forms = dict(re.findall(r'Place::(\w+)\(n\) => format!\(in alloc; "(refused: [^"]*)\\n"\)', text))
    same(source, forms, variants(error, "Place"))
    rules = re.findall(rf"(?m)^({'|'.join(RELATIONS)}) [^=:]* (\w+) = ", "".join(map(read, RULES)))
    camel = lambda name: "".join(part.capitalize() for part in name.split("_"))
    pairs = [(camel(fault), RELATIONS[relation]) for relation, fault in rules if camel(fault) in words]
    same("faults with a rule", {fault for fault, _ in pairs}, words)
    return [line_of(forms[place], words[fault]) for fault, place in pairs]


def lines_of_checks():
    """The lines of modules that are rejected."""
    error, source = "crates/fact_check/src/error.rt", "crates/fact_run/src/check_mode.rt"
    found = re.findall(r'CheckError::(\w+)(?:\((?:CheckPlace::)?(\w+)(?:\(n\))?\))? => \{?\s*format!\(in alloc; "(rejected: [^"]*)\\n"\)', read(source))
    same(source, {kind for kind, _, _ in found}, variants(error, "CheckError"))
    same(source, {place for _, place, _ in found if place not in ("", "n")}, variants(error, "CheckPlace"))
    return [line_of(form) for _, _, form in found]


def statuses():
    """The statuses and the fixed lines of the ends of a run, by their names."""
    text = read("crates/fact_command/src/status.rt")
    numbers = dict(re.findall(r"Status::(\w+) => (\d+)", text))
    lines = dict(re.findall(r'Status::(\w+) =>\s*"([^"\\]+)\\n"', text))
    return numbers, lines


def lines_of_sources():
    _, fixed = statuses()
    return [
        *(line for name, line in fixed.items() if name not in ELSEWHERE),
        *lines_with_path("plan"),
        *lines_of_refusals(),
        *lines_with_path("value"),
        *lines_of_checks(),
    ]


# ---- The page.


def cells(row):
    return [cell.strip() for cell in row.strip("|").split("|")]


def tables(text):
    """The rows of each table of a text, each by the names of its columns."""
    for table in re.findall(r"(?m)(?:^\|.*\n)+", text):
        head, _, *rows = table.splitlines()
        columns = cells(head)
        for row in rows:
            if len(cells(row)) != len(columns):
                raise Wrong(f"{row}: {len(columns)} cells are wanted")
        yield [dict(zip(columns, cells(row))) for row in rows]


def sections(page):
    """The text below each line of a fault."""
    parts = re.split(r"(?m)^### `([^`]+)`\n", page)
    texts = [re.split(r"(?m)^## ", text)[0] for text in parts[2::2]]
    return list(zip(parts[1::2], texts))


def looked_at(line, text):
    """Raises Wrong where a section does not say what it is to say. Gives its examples."""
    found = re.findall(r"(?m)^\*\*(\w+):\*\* \S", text)
    if found != PARTS:
        raise Wrong(f"{line}: {found} in the place of {PARTS}")
    when = text.partition("**When:** ")[2].partition("\n**Usually:**")[0]
    names = [name for part in re.findall(r"\(([^()]*)\)", when) for name in SPAN.findall(part) if re.fullmatch(r"\w+", name) and not (CRATES / name).is_dir()]
    for name in names:
        if not re.search(rf"(?m)^ *(?:(?:abbrev|unfoldable) )?pub (?:record |data )?{name}\b", DEFINITIONS):
            raise Wrong(f"{line}: no definition `{name}`")
    examples = [row for rows in tables(text) for row in rows if "Written" in row]
    if not examples:
        raise Wrong(f"{line}: no example")
    return [Example(line, row) for row in examples]


class Example:
    """A plan, a module or a value with a mistake, and the line that tells it."""

    def __init__(self, line, row):
        self.what = f"{line}: {row['What was done']}"
        self.written, self.right = SPAN.findall(row["Written"]), SPAN.findall(row["In place of"])
        self.line = line
        for name in NAMES.values():
            if name in row:
                self.line = re.sub(rf"\b{name}\b", lambda _: row[name].strip("`"), self.line)
        self.of = "".join(SPAN.findall(row.get("Plan") or row.get("Type", "")))
        self.is_value, self.is_module = "Type" in row, line.startswith(("not hex", "rejected"))
        if not self.is_whole() and len(self.written) != len(self.right):
            raise Wrong(f"{self.what}: {len(self.written)} parts for {len(self.right)}")

    def is_whole(self):
        """Whether all that is written stands on the page."""
        return not self.of

    def edited(self, text):
        for new, old in zip(self.written, self.right):
            if text.count(old) != 1:
                raise Wrong(f"{self.what}: `{old}` stands {text.count(old)} times in {self.of}")
            text = text.replace(old, new)
        return text

    def plan(self):
        return read(f"examples/{self.of}.json")


# ---- What comes of the examples.


def ended(program, words, text):
    """The status and the line of a run."""
    done = subprocess.run([program, *words], input=text.encode(), capture_output=True)
    if done.returncode != 0 and done.stdout:
        raise Wrong(f"{words}: status {done.returncode}, and something is printed")
    return done.returncode, done.stderr.decode(errors="replace")


def judge_run(program, example, numbers):
    """Compares the line of a plan or a module, where there is a program."""
    words = ["--check"] if example.is_module else []
    if program == "none":
        if not example.is_module:
            example.edited(example.plan())
        return
    text = "" if example.is_whole() else example.plan()
    if example.is_module and not example.is_whole():
        text = subprocess.run([program], input=text.encode(), capture_output=True, check=True).stdout.decode()
    if not example.is_whole() and ended(program, words, text)[0] != 0:
        raise Wrong(f"{example.what}: without the mistake it is refused too")
    got = ended(program, words, example.written[0] if example.is_whole() else example.edited(text))
    wanted = int(numbers[status_name(example.line)]), example.line + "\n"
    if got != wanted:
        raise Wrong(f"{example.what}: {got} in the place of {wanted}")


def judge_words(program, example, numbers):
    """Looks whether the program that explains plans tells the line of a plan, and more behind it, where there is one."""
    if program == "none":
        return
    status, told = ended(program, [], example.edited(example.plan()))
    line, _, more = told.partition("\n")
    if line != example.line or not more.strip() or status != int(numbers[status_name(example.line)]):
        raise Wrong(f"{example.what}: factplan tells {told}")


def judge_values(program, examples):
    """Compares the lines of values, by a table that the program reads: of each example a block with its type, the mistake and the mended value."""
    if program == "none":
        return
    table, wanted = ["# Values and their faults."], []
    for number, example in enumerate(examples):
        is_word = re.fullmatch(r"\w+", example.of)
        types = "" if is_word else example.of
        plan = f'{{"instances":1,"types":[{types}],"tables":[[0,0]],"funcs":[],"core_types":[],"core_defs":[],"adapters":[]}}'
        asked = [f"json {example.of if is_word else 0} | [{value}]" for value in (example.written[0], example.right[0])]
        table += [f"block example.{number} types {plan}", *asked]
        wanted += [f"example.{number} 0: {example.line}$", f"example.{number} 1: [{json.dumps(json.loads(example.right[0]), separators=(',', ':'))}]"]
    done = subprocess.run([program], input="\n".join(table).encode() + b"\n", capture_output=True)
    got = done.stdout.decode().splitlines()
    for one, other in zip(got, wanted):
        if one != other:
            raise Wrong(f"{examples[int(other.split()[0].partition('.')[2])].what}: `{one}` in the place of `{other}`")
    if len(got) != len(wanted):
        raise Wrong(f"{len(got)} lines come of values, not {len(wanted)}: {done.stderr.decode(errors='replace')}")


def status_name(line):
    fixed = {told: name for name, told in statuses()[1].items()}
    return fixed.get(line) or next(name for begin, name in STATUSES.items() if line.startswith(begin))


def judge_index(page, lines, numbers):
    """Compares the table at the top with the lines and their statuses."""
    rows = next(rows for rows in tables(page) if "Line" in rows[0])
    got = [(row["Line"].strip("`"), row["Status"]) for row in rows]
    wanted = [(line, numbers.get(status_name(line), "")) for line in lines]
    if got != wanted:
        differs = [pair for pair in got + wanted if (pair in got) != (pair in wanted)] or ["their order"]
        raise Wrong(f"the table at the top: {differs[0]}")


def main(factc, rows, factplan):
    page, (numbers, _) = read(PAGE), statuses()
    found = sections(page)
    lines = [line for line, _ in found]
    same("the lines of the page", lines, lines_of_sources())
    judge_index(page, lines, numbers)
    examples = [example for line, text in found for example in looked_at(line, text)]
    if len(examples) < FEWEST_EXAMPLES:
        raise Wrong(f"{len(examples)} examples, fewer than {FEWEST_EXAMPLES}")
    values = [example for example in examples if example.is_value]
    failed = []
    for example in examples:
        try:
            if not example.is_value:
                judge_run(factc, example, numbers)
            if not example.is_value and not example.is_module:
                judge_words(factplan, example, numbers)
        except Wrong as wrong:
            failed.append(str(wrong))
    try:
        judge_values(rows, values)
    except Wrong as wrong:
        failed.append(str(wrong))
    if failed:
        raise Wrong("\nfaults: ".join(failed))
    runs = "" if factc != "none" else "; the program is not built, no plan is read"
    runs += "" if rows != "none" else "; crates/row_tests is not built, no value is read"
    return f"{len(lines)} lines, as the sources have them, {len(examples)} examples, {len(values)} of them of values{runs}"


DEFINITIONS = "\n".join(map(read, sorted(CRATES.glob("*/specs/*.antt"))))

if __name__ == "__main__":
    try:
        print(f"faults: {main(*sys.argv[1:])}", file=sys.stderr)
    except (Wrong, OSError, ValueError, KeyError) as wrong:
        print(f"faults: {wrong}", file=sys.stderr)
        sys.exit(1)
