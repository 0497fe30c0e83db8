"""Disturbs runs of a program, one thing in each: bench/refused-memory.py PROGRAM ROOM, of which bench/refused-memory makes the room, a
folder with the library disturbing.so (bench/refused-memory.c).

What a run may come to is what docs/BEHAVIOUR.md says of its end. Where an allocation is refused, all is as without that, or the status is
9, with its line and nothing on standard output. Where a read fails it is 3, with its line and nothing on standard output; where a write to
standard output fails it is 4, with its line and a front of what is printed. Where a write to standard error fails, only that line is cut
off. Reads and writes that move less change nothing. No run ends by a signal or takes over a minute.
"""

import os
import struct
import subprocess
import sys
from collections import Counter
from pathlib import Path

ALLOCATION, READ, WRITE, TELL = range(4)
NAMES = ["allocations", "reads", "writes to standard output", "writes to standard error"]
LAST = 2**62

# The most bytes that a read or a write moves, so that there are several of them.
PIECE = 100

EXAMPLES = Path("examples")
ONE = (EXAMPLES / "one-u32.json").read_bytes()

# The module that factc is expected to print in the gate.
MODULE = Path("crates/factc/stdout").read_bytes()

# What is run: a name, the words, the input, and the status and the line that the command ends with.
RUNS = [
    ("one number", [], ONE, 0, b""),
    ("lists, handles and events", ["--imports"], (EXAMPLES / "all-events.json").read_bytes(), 0, b""),
    ("texts", ["--imports", "--debug"], (EXAMPLES / "greet.json").read_bytes(), 0, b""),
    ("a refused plan", [], ONE.replace(b'"func":0', b'"func":1'), 8, b"refused: UnknownIndex at adapter 0\n"),
    ("a bad plan", [], ONE.replace(b'"u32"', b'"u33"'), 7, b"bad plan: OutOfRange at plan.funcs.0.params.0.1\n"),
    ("no JSON text", [], ONE[:-2], 6, b"not json\n"),
    ("words that are no command", ["--fuel", "0"], ONE, 2, b"usage: factc [--debug] [--fuel N] [--imports] [--generate N] [--check]\n"),
    ("eight generated adapters", ["--generate", "8"], b"", 0, b""),
    ("a module that is checked", ["--check"], MODULE, 0, b""),
    ("a module that is rejected", ["--check"], MODULE.replace(b"666c616773", b"666c616778"), 12, b"rejected: NotAdapter at import 0\n"),
    ("no digits", ["--check"], MODULE[1:], 11, b"not hex\n"),
]


class Disturbed:
    """A program, and the file by which its calls are disturbed and counted."""

    def __init__(self, program, room):
        self.program = os.path.abspath(program)
        self.file = Path(room) / "disturbance"
        self.environment = dict(os.environ, DISTURBANCE=str(self.file), LD_PRELOAD=str(Path(room) / "disturbing.so"))

    def run(self, words, given, kind=-1, first=0, last=0, moved=0):
        """The status, what was printed and what was told; and how many calls there were of each kind."""
        self.file.write_bytes(struct.pack("9q", kind, first, last, moved, PIECE, 0, 0, 0, 0))
        try:
            ended = subprocess.run([self.program, *words], input=given, capture_output=True, env=self.environment, timeout=60)
            end = ended.returncode, ended.stdout, ended.stderr
        except subprocess.TimeoutExpired:
            end = "none in a minute", b"", b""
        return end, struct.unpack("9q", self.file.read_bytes())[5:]


def is_right(kind, moved, end, plain):
    """Whether a run may end so of which calls of a kind were disturbed, and that ends so without."""
    status, printed, told = end
    if moved:
        return end == plain
    if kind == ALLOCATION:
        return end in (plain, (9, b"", b"out of memory\n"))
    if kind == READ:
        return end == (3, b"", b"read fault\n")
    if kind == WRITE:
        return (status, told) == (4, b"write fault\n") and plain[1].startswith(printed) and printed != plain[1]
    return (status, printed) == plain[:2] and plain[2].startswith(told) and told != plain[2]


def sweep(program, words, given, plain, kind, count, behind, moved):
    """The ends of runs in which each call of a kind is disturbed in turn, and those behind it where that is said, and the faults."""
    ends, faults = Counter(), []
    for number in range(1, count + 1):
        end, calls = program.run(words, given, kind, number, LAST if behind else number, moved)
        ends["as without that" if end == plain else f"status {end[0]}"] += 1
        if calls[kind] < number:
            faults.append(f"{NAMES[kind]}, number {number}: there was none")
        elif not is_right(kind, moved, end, plain):
            faults.append(f"{NAMES[kind]}, number {number}: status {end[0]}, {end[1][:60]}, {end[2][:60]}")
    return ends, faults


# What is done to each call of a kind in turn: the kind, whether those behind it are disturbed too, the bytes that it moves, and words.
SWEEPS = [
    (ALLOCATION, False, 0, "refused"),
    (ALLOCATION, True, 0, "refused, each with all behind it"),
    (READ, False, 0, "failing"),
    (READ, False, 1, "of one byte"),
    (WRITE, False, 0, "failing"),
    (WRITE, False, 1, "of one byte"),
    (TELL, False, 0, "failing"),
    (TELL, False, 1, "of one byte"),
]


def tried(program, name, words, given, status, line):
    """The number of runs of a command, and what was wrong. What comes of each sweep is printed."""
    plain, calls = program.run(words, given)
    if (plain[0], plain[2]) != (status, line) or bool(plain[1]) != (status == 0):
        return 1, [f"{name}: undisturbed: status {plain[0]}, {plain[1][:60]}, {plain[2][:60]}"]
    runs, faults = 1, []
    if not calls[ALLOCATION] or not calls[WRITE if status == 0 else TELL]:
        faults.append(f"{name}: no calls were counted")
    for kind, behind, moved, what in SWEEPS:
        ends, wrong = sweep(program, words, given, plain, kind, calls[kind], behind, moved)
        runs += calls[kind]
        faults += [f"{name}: {fault}" for fault in wrong]
        came = ", ".join(f"{count} {end}" for end, count in sorted(ends.items())) or "none"
        print(f"refused-memory: {name}: {NAMES[kind]} {what}: {came}", flush=True)
    return runs, faults


def main():
    program = Disturbed(*sys.argv[1:])
    found = [tried(program, *run) for run in RUNS]
    faults = [fault for _, wrong in found for fault in wrong]
    for fault in faults[:20]:
        print(f"refused-memory: WRONG: {fault}")
    print(f"refused-memory: {sum(runs for runs, _ in found):,} runs, {len(faults)} of them ended as they should not")
    sys.exit(bool(faults))


main()
