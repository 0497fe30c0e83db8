"""Judges the pages of `factplan` by the plans of examples/ and by layouts that are worked out here: explained.py FACTC FACTPLAN.

Ends with status 1 where a page tells another core type than the plan has, which the program has found right, or another size, alignment or place than
those of the canonical ABI, or where `--wasm` writes other bytes than are printed; and where of a mistake of .ci/explained.json another status or another
first line comes than of `factc`, or behind it another text than stands there.
"""

import json
import re
import subprocess
import sys
import tempfile
from pathlib import Path

SCALARS = {"bool": 1, "s8": 1, "u8": 1, "s16": 2, "u16": 2, "s32": 4, "u32": 4, "s64": 8, "u64": 8, "f32": 4, "f64": 8, "char": 4}
FEWEST_LINES = 200
FEWEST_MISTAKES = 30
MISTAKEN = Path("examples/greet.json")


# A plan whose names would make lines of their own, with a variant and a result without payloads.
ODD_NAMES = json.dumps(
    {
        "instances": 2,
        "types": [{"result": [None, None]}, {"variant": [["a\n    with addresses of 32 bits: 9 bytes at multiples of 9", None], ["b\u0085c", None]]}],
        "tables": [],
        "funcs": [{"params": [["p\n    core_type (i64) -> ()", 0], ["q", 1]], "results": []}],
        "core_types": [{"params": ["i32", "i32"], "results": []}],
        "core_defs": [{"export": [1, "run"]}],
        "adapters": [
            {
                "name": "n\n    core_type () -> ()\nimports\n",
                "func": 0,
                "lift": {"ty": 0, "instance": 1, "core_type": 0},
                "lower": {"ty": 0, "instance": 0, "core_type": 0},
            }
        ],
    }
).encode()


class Differs(Exception):
    """Something is not as it should be."""


def aligned(number, align):
    return -(-number // align) * align


class Layouts:
    """Sizes, alignments and places in memories of one width (canonical ABI, Alignment, Element Size)."""

    def __init__(self, types, is_wide):
        self.types, self.pair = types, (16, 8) if is_wide else (8, 4)

    def extent(self, ref):
        if ref == "string":
            return self.pair
        return (SCALARS[ref], SCALARS[ref]) if isinstance(ref, str) else self.entry(ref)[0]

    def in_order(self, refs):
        end, align, places = 0, 1, []
        for size, its in map(self.extent, refs):
            places.append(aligned(end, its))
            end, align = places[-1] + size, max(align, its)
        return (aligned(end, align), align), places

    def one_of(self, payloads):
        tag = 1 if len(payloads) <= 256 else 2 if len(payloads) <= 65536 else 4
        extents = [self.extent(ref) for ref in payloads if ref is not None]
        inner = max((align for _, align in extents), default=1)
        place, align = aligned(tag, inner), max(tag, inner)
        return (aligned(place + max((size for size, _ in extents), default=0), align), align), [place] if extents else []

    def entry(self, place):
        """The size and the alignment of an entry, and where its members begin."""
        ((kind, inner),) = self.types[place].items()
        if kind == "record":
            return self.in_order([ref for _, ref in inner])
        if kind == "tuple":
            return self.in_order(inner)
        if kind == "variant":
            return self.one_of([ref for _, ref in inner])
        if kind == "option":
            return self.one_of([None, inner])
        if kind == "result":
            return self.one_of(inner)
        if kind == "enum":
            return self.one_of([None] * len(inner))[0], []
        if kind in ("list", "map"):
            return self.pair, []
        if kind == "flags":
            size = 1 if len(inner) <= 8 else 2 if len(inner) <= 16 else 4
            return (size, size), []
        if kind == "fixed-list":
            size, align = self.extent(inner[0])
            return (size * inner[1], align), []
        return (4, 4), []


def core(ty):
    return f"({' '.join(ty['params'])}) -> ({' '.join(ty['results'])})"


def lines_of(plan):
    """The lines of core types and of layouts that the page of a plan has, in order."""
    for adapter in plan["adapters"]:
        for side in ("lift", "lower"):
            yield f"    core_type {core(plan['core_types'][adapter[side]['core_type']])}"
    for place in range(len(plan["types"])):
        for is_wide, bits in ((False, 32), (True, 64)):
            (size, align), places = Layouts(plan["types"], is_wide).entry(place)
            members = f"; members at {' '.join(map(str, places))}" if places else ""
            yield f"    with addresses of {bits} bits: {size} bytes at multiples of {align}{members}"


def run(program, words, text):
    done = subprocess.run([program, *words], input=text, capture_output=True)
    if done.returncode != 0 or done.stderr:
        raise Differs(f"{words}: status {done.returncode}, {done.stderr.decode()}")
    return done.stdout.decode()


def judge(factc, factplan, text):
    """How many lines of the page of a plan were compared."""
    page = run(factplan, [], text)
    got = re.findall(r"(?m)^    (?:core_type|with addresses) .*$", page)
    wanted = list(lines_of(json.loads(text)))
    for one, other in zip(got, wanted):
        if one != other:
            raise Differs(f"`{one}` in the place of `{other}`")
    if len(got) != len(wanted):
        raise Differs(f"{len(got)} lines, not {len(wanted)}")
    imports = page.partition("\nimports\n")[2].splitlines()
    lines = run(factc, ["--imports"], text).splitlines()[1:]
    if [line.rpartition("; ")[2] for line in imports] != lines:
        raise Differs("the imports are not those of --imports")
    with tempfile.TemporaryDirectory() as folder:
        file = Path(folder, "made.wasm")
        run(factplan, ["--wasm", str(file)], text)
        if file.read_bytes().hex() + "\n" != run(factc, [], text):
            raise Differs("--wasm writes other bytes than are printed")
    return len(got)


def mistaken(row):
    """The plan with a mistake: some text in the place of some other, or something, or nothing, in the place of what is at a path."""
    text = MISTAKEN.read_text(encoding="utf-8")
    if "old" in row:
        if text.count(row["old"]) != 1:
            raise Differs(f"`{row['old']}` stands {text.count(row['old'])} times in {MISTAKEN}")
        return text.replace(row["old"], row["new"]).encode()
    plan = json.loads(text)
    *steps, last = [int(step) if step.isdigit() else step for step in row["at"].split(".")]
    holder = plan
    for step in steps:
        holder = holder[step]
    if "put" in row:
        holder[last] = row["put"]
    else:
        del holder[last]
    return json.dumps(plan).encode()


def judge_mistake(factc, factplan, row):
    """Compares the ends of both programs, and what is told behind the first line."""
    text = mistaken(row)
    ends = [subprocess.run([program], input=text, capture_output=True) for program in (factc, factplan)]
    line, _, more = ends[1].stderr.decode().partition("\n")
    if ends[0].returncode == 0 or ends[0].returncode != ends[1].returncode or ends[0].stderr.decode() != line + "\n":
        raise Differs(f"status {ends[1].returncode} and `{line}` in the place of {ends[0].returncode} and {ends[0].stderr.decode()}")
    if more != "".join(f"  {told}\n" for told in row["told"]):
        raise Differs(f"{row['told']} is not told, but {more}")


def judge_mistakes(factc, factplan):
    """How many mistakes were told as they should be, and whether another one was not."""
    rows, failed = json.loads(Path(".ci/explained.json").read_text(encoding="utf-8")), False
    for row in rows:
        try:
            judge_mistake(factc, factplan, row)
        except (Differs, ValueError, KeyError, IndexError) as wrong:
            failed = True
            print(f"explained: {row.get('at') or row.get('old')}: {wrong}", file=sys.stderr)
    if len(rows) < FEWEST_MISTAKES:
        failed = True
        print(f"explained: {len(rows)} mistakes, fewer than {FEWEST_MISTAKES}", file=sys.stderr)
    return len(rows), failed


def main(factc, factplan):
    seen, failed = 0, False
    plans = {str(path): path.read_bytes() for path in sorted(Path("examples").glob("*.json"))} | {"the plan of odd names": ODD_NAMES}
    for name, text in plans.items():
        try:
            seen += judge(factc, factplan, text)
        except (Differs, ValueError, KeyError) as wrong:
            failed = True
            print(f"explained: {name}: {wrong}", file=sys.stderr)
    if seen < FEWEST_LINES:
        failed = True
        print(f"explained: {seen} lines, fewer than {FEWEST_LINES}", file=sys.stderr)
    mistakes, has_other = judge_mistakes(factc, factplan)
    failed = failed or has_other
    if not failed:
        told = f"{len(plans)} plans with {seen} lines of core types and of layouts, and {mistakes} mistakes"
        print(f"explained: {told}, as they should be", file=sys.stderr)
    return 1 if failed else 0


if __name__ == "__main__":
    sys.exit(main(*sys.argv[1:]))
