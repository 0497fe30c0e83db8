"""Has the program check modules that differ in one byte from those that it prints of examples/*.json:

    python3 bench/variants.py PROGRAM [COUNT [SEED]]

By turns a byte is changed, left out or doubled, or the module ends before it, at places that are drawn from the seed. Each run with --check
has to end with status 0 and a line on standard output, or with status 12 and a line on standard error, as docs/BEHAVIOUR.md has them. What is
accepted has to be valid by wabt's wasm-validate too, where that is installed, but for modules of exceptions and of pages of a byte, where it
knows none of these, and for functions of more locals than it takes. Tells how many variants came to what, and ends with status 1 where one
came to anything else, which it tells by its digits.
"""

import json
import os
import random
import re
import shutil
import subprocess
import sys
import tempfile
import threading
from collections import Counter
from concurrent.futures import ThreadPoolExecutor
from pathlib import Path

ACCEPTED = re.compile(rb"ok \d+\n")
REJECTED = re.compile(rb"rejected: (NotInGrammar|NotAdapter at import \d+|IllTyped at (?:function|export) \d+)\n")

# Modules of what a validator may not know: of block; try_table with a catch_all of label 0; end; end, and of a memory of pages of a byte.
EXCEPTIONS = bytes.fromhex("0061736d01000000010401600000030201000a0d010b0002401f400102000b0b0b")
PAGES = bytes.fromhex("0061736d010000000209010161016202080000")

VALIDATOR = ["wasm-validate", "--enable-exceptions", "--enable-memory64", "--enable-multi-memory"]

# How wabt begins what it says of a function of too many locals.
MANY_LOCALS = b"local count"

mine = threading.local()


class Wrong(Exception):
    """What a variant came to that it should not."""


def validate(module):
    """Whether the validator takes a module, and what it says."""
    if not hasattr(mine, "file"):
        mine.file = tempfile.NamedTemporaryFile(suffix=".wasm")
    mine.file.seek(0)
    mine.file.truncate()
    mine.file.write(module)
    mine.file.flush()
    done = subprocess.run([*VALIDATOR, mine.file.name], capture_output=True)
    return done.returncode == 0, done.stdout + done.stderr


def check(program, module):
    """What the check says of a module: a kind of cause, or that it is accepted."""
    done = subprocess.run([program, "--check"], input=module.hex().encode(), capture_output=True)
    if done.returncode == 0 and ACCEPTED.fullmatch(done.stdout) and not done.stderr:
        return "accepted"
    cause = REJECTED.fullmatch(done.stderr)
    if done.returncode == 12 and cause and not done.stdout:
        return re.sub(r" \d+", "", cause[1].decode())
    raise Wrong(f"status {done.returncode}, {done.stdout[:200]!r}, {done.stderr[:200]!r}")


def variant(draw, module, turn):
    place = draw.randrange(len(module))
    front, byte, rest = module[:place], module[place : place + 1], module[place + 1 :]
    changed = bytes([byte[0] ^ draw.randint(1, 255)])
    return [front + changed + rest, front + rest, front + byte + byte + rest, front][turn % 4]


def judge(program, module, may_validate):
    """What a variant comes to."""
    try:
        what = check(program, module)
        if what != "accepted" or not may_validate:
            return what
        is_valid, said = validate(module)
        if is_valid:
            return "accepted, and valid"
        if MANY_LOCALS in said:
            return "accepted, of more locals than wabt takes"
        raise Wrong(f"accepted, and not valid: {said[:400]!r}")
    except Wrong as wrong:
        return f"wrong: {wrong}: {module.hex()}"


def examples(program, knows_exceptions, knows_pages):
    """The modules of the examples, each with whether the validator knows all that it needs."""
    for path in sorted(Path("examples").glob("*.json")):
        plan = json.loads(path.read_text())
        sides = [side for adapter in plan["adapters"] for side in (adapter["lift"], adapter["lower"])]
        pages = [side["memory"].get("page_size_log2", 16) for side in sides if side.get("memory")]
        is_known = (knows_exceptions or not plan.get("tunables", {}).get("exceptions")) and (knows_pages or 0 not in pages)
        done = subprocess.run([program], input=path.read_bytes(), capture_output=True, check=True)
        yield bytes.fromhex(done.stdout.decode().strip()), is_known


def main(program, count, seed):
    has_validator = shutil.which(VALIDATOR[0]) is not None
    knows = [has_validator and validate(module)[0] for module in (EXCEPTIONS, PAGES)]
    modules = list(examples(program, *knows))
    draw = random.Random(seed)
    with ThreadPoolExecutor(os.cpu_count()) as pool:
        jobs = []
        for turn in range(count):
            module, is_known = draw.choice(modules)
            jobs.append(pool.submit(judge, program, variant(draw, module, turn), has_validator and is_known))
        ends = Counter()
        for job in jobs:
            what = job.result()
            if what.startswith("wrong: "):
                print(what)
            ends[what.split(": ")[0]] += 1
    for what, number in sorted(ends.items()):
        print(f"{number} {what}")
    return 1 if ends["wrong"] else 0


if __name__ == "__main__":
    if not 2 <= len(sys.argv) <= 4:
        sys.exit(__doc__)
    words = sys.argv[1:] + ["1000", "1"][len(sys.argv) - 2 :]
    sys.exit(main(os.path.abspath(words[0]), int(words[1]), words[2]))
