"""Makes the adapter modules of plans with the program, and writes them as JSON: a list of objects with `name`, `plan`, `module` in hex
and `imports`, the lines that tell what each import is.

    modules.py PROGRAM OUT              of the plans in examples/
    modules.py PROGRAM OUT SEED COUNT   of so many plans that are drawn from a seed
"""

import json
import subprocess
import sys
from pathlib import Path

TOP = Path(__file__).resolve().parent.parent


def made(program, name, plan):
    """The module of a plan, with its imports."""
    done = subprocess.run([program, "--imports"], input=json.dumps(plan).encode(), capture_output=True)
    if done.returncode != 0:
        raise SystemExit(f"modules: {name}: status {done.returncode}: {done.stderr.decode(errors='replace').strip()}")
    module, *imports = done.stdout.decode().splitlines()
    return {"name": name, "plan": plan, "module": module, "imports": imports}


def examples():
    for path in sorted((TOP / "examples").glob("*.json")):
        yield path.stem, json.loads(path.read_text())


def drawn(seed, count):
    """Plans of .ci/sample.py, whose pages all have 65,536 bytes, since few engines have others."""
    source = (TOP / ".ci" / "sample.py").read_text()
    sample = {"__name__": "sample"}
    exec(compile(source, "sample.py", "exec"), sample)
    for number in range(count):
        plan = sample["Plan"](f"{seed} {number}").json
        for adapter in plan["adapters"]:
            for side in (adapter["lift"], adapter["lower"]):
                if side.get("memory"):
                    side["memory"]["page_size_log2"] = 16
        yield f"drawn-{seed}-{number}", plan


def write(program, out, seed=None, count="0"):
    plans = examples() if seed is None else drawn(seed, int(count))
    modules = [made(program, name, plan) for name, plan in plans]
    Path(out).parent.mkdir(parents=True, exist_ok=True)
    Path(out).write_text(json.dumps(modules, ensure_ascii=False, separators=(",", ":")) + "\n")


if __name__ == "__main__":
    write(*sys.argv[1:])
