"""Runs the assertions of the .wast files beside this one on an engine, and compares the table of the program `row_tests` with them.

It needs wat2wasm, wast2json and spectest-interp of wabt 1.0.32. Of each .wast file the last module is tested; those before
it export what it imports. The lines `call` of the block of its name are its assertions in order, each with the state that those
before it left. Of the .wat files that wabt reads it compares the bytes. It tells what it compared, and ends with status 1 where
something differs.
"""
import json, pathlib, subprocess, sys, tempfile

HERE = pathlib.Path(__file__).resolve().parent
ROWS = HERE.parent
SUITES = ["numbers", "narrow", "wide", "several", "controls", "turns"]
TEXTS = {"sum": "tree.sum", "memories": "tree.memories", "branches": "tree.branches", "unchecked": "unchecked"}


def run(*command):
    subprocess.run([str(word) for word in command], check=True, stdout=subprocess.DEVNULL)


def values(items):
    return " ".join(f"{item['type']}:{int(item['value'])}" for item in items)


def asserted(command):
    """The name, the arguments and the end of a call."""
    action = command["action"]
    trapped = command["type"] == "assert_trap"
    end = "Trapped" if trapped else f"returned [{values(command['expected'])}]"
    return action["field"], values(action["args"]), end


def suite(name, folder):
    """The bytes of a file's module, and its assertions."""
    made = folder / f"{name}.json"
    run("wast2json", "--enable-all", HERE / f"{name}.wast", "-o", made)
    run("spectest-interp", "--enable-all", made)
    commands = json.loads(made.read_text())["commands"]
    module = [c["filename"] for c in commands if c["type"] == "module"][-1]
    return (folder / module).read_bytes().hex(), [asserted(c) for c in commands if c["type"].startswith("assert_")]


def text(name, folder):
    """The bytes of a .wat file's module."""
    run("wat2wasm", "--enable-all", "--no-check", HERE / f"{name}.wat", "-o", folder / name)
    return (folder / name).read_bytes().hex()


def block(name):
    """The bytes of a block of the table, and its calls."""
    came = dict(line.split(": ", 1) for line in (ROWS / "stdout").read_text().splitlines() if ": " in line)
    blocks = (ROWS / "stdin").read_text().split("\nblock ")
    head, *lines = next(block for block in blocks if block.startswith(f"modules.{name} ")).splitlines()
    calls = []
    for number, line in enumerate(lines):
        if line.startswith("call "):
            _, function, _, args, _ = line.split(" | ")
            calls.append((function, args, came[f"modules.{name} {number}"]))
    return head.split(" ")[2], calls


def is_called(wanted, row):
    return wanted[:2] == row[:2] and row[2].startswith(wanted[2] + " ")


def compare(name, bytes_and_calls, wanted_bytes, wanted):
    digits, calls = bytes_and_calls
    same = digits == wanted_bytes and len(calls) >= len(wanted) and all(map(is_called, wanted, calls))
    print(name, len(wanted), "rows", "as in the table" if same else "DIFFER FROM THE TABLE")
    return same


with tempfile.TemporaryDirectory() as made:
    folder = pathlib.Path(made)
    same = [compare(name, block(name), *suite(name, folder)) for name in SUITES]
    same += [compare(name, block(place), text(name, folder), []) for name, place in TEXTS.items()]
sys.exit(not all(same))
