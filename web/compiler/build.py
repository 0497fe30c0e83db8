"""Makes WebAssembly of the program `factc`, for a page: `build.py OUT`. Where OUT is newer than the program that was built, nothing is done.

The toolchain makes WebAssembly of static libraries that call no C, and the program calls it for its memory and its streams. So it proves and builds
the program as ever, for the first of its processors, and what it hands to LLVM is kept, and compiled for WebAssembly with addresses of 64 bits, where
types have the same sizes and alignments. runtime.c has what it calls of C. LLVM and its linker are those of the toolchain.
"""

import contextlib
import os
import re
import shutil
import subprocess
import sys
import tempfile
from pathlib import Path

from narrow_tables import narrow

HERE = Path(__file__).resolve().parent
TOP = HERE.parent.parent
sys.dont_write_bytecode = True
sys.path.insert(0, str(TOP / "tools"))
import libraries  # noqa: E402

TARGET = "wasm64-unknown-unknown"
# How LLVM lays out types and addresses for it.
LAYOUT = "e-m:e-p:64:64-p10:8:8-p20:8:8-i64:64-i128:128-n32:64-S128-ni:1:10:20"
STACK = 8 << 20  # bytes: what Linux gives a program
FLAGS = ["--no-default-config", f"--target={TARGET}", "-mcpu=lime1", "-O3", "-Werror", "-c"]
# What LLVM would call functions of a library for, it writes out.
WRITTEN_OUT = ["-mllvm", "-expand-div-rem-bits=64", "-mllvm", "-expand-fp-convert-bits=64"]
KEEPER = """#!/bin/sh
# Keeps what is compiled.
for word; do
    case $word in
        *.bc) cp "$word" '{kept}' || exit 1 ;;
    esac
done
exec '{clang}' "$@"
"""


def toolchain_that_keeps(own, room, kept):
    """The toolchain's folder by links, but for its compiler, which keeps what it is given, and goes on."""
    made = room / "toolchain"
    for path in own.rglob("*"):
        place = made / path.relative_to(own)
        if path.is_dir():
            place.mkdir(parents=True)
        elif path != own / "bin" / "clang":
            place.symlink_to(path)
    keeper = made / "bin" / "clang"
    keeper.write_text(KEEPER.format(kept=kept, clang=own / "bin" / "clang"))
    keeper.chmod(0o755)
    return made


def prove_and_keep(rt, folder, root, room):
    """Proves and builds a program, and returns the file that has what is compiled of it."""
    kept = room / "program.bc"
    crate = rt.rtlib.Crate(str(folder), str(root), {})
    os.chdir(folder)
    held = rt.rtlib.lock([*crate.below(), crate])
    words = ["build", *crate.words(["--cpu=x86-64"]), "--backend", "llvm"]
    toolchain = toolchain_that_keeps(Path(rt.rtlib.KIT) / "toolchain", room, kept)
    status = crate.call(rt.rtlib.RATTLE, *words, *rt.rtlib.KEPT, "--toolchain", str(toolchain), "-o", str(room / "program.o"))
    for it in held:
        os.close(it)
    if status or not kept.is_file():
        raise SystemExit(f"build: the program was not built: status {status}")
    return kept


def for_target(text):
    """LLVM's text of a program, for the other target."""
    text = re.sub(r'^target datalayout = ".*"$', f'target datalayout = "{LAYOUT}"', text, flags=re.M)
    text = re.sub(r'^target triple = ".*"$', f'target triple = "{TARGET}"', text, flags=re.M)
    # LLVM gives C's main the parameters of C.
    text = re.sub(r"^(define \w+ )@main\(\)", r"\1@run()", text, flags=re.M)
    # What processor a function is for, and how it reaches new pages of the stack.
    return re.sub(r' "(target-cpu|target-features|tune-cpu|probe-stack)"="[^"]*"', "", text)


def compile_to_module(bin, kept, room):
    call = lambda *words: subprocess.run([str(it) for it in words], check=True)
    text, program, runtime, module = (room / name for name in ("program.ll", "wasm.o", "runtime.o", "program.wasm"))
    call(bin / "clang", "--no-default-config", "-xir", "-S", "-emit-llvm", "-Xclang", "-disable-llvm-passes", kept, "-o", text)
    text.write_text(for_target(text.read_text()))
    call(bin / "clang", *FLAGS, *WRITTEN_OUT, "-xir", text, "-o", program)
    call(bin / "clang", *FLAGS, "-Wall", "-ffreestanding", "-nostdinc", HERE / "runtime.c", "-o", runtime)
    words = ["-mwasm64", "--no-entry", "--export=run", "--gc-sections", "--strip-all", "--fatal-warnings", "--stack-first", "-z", f"stack-size={STACK}"]
    call(bin / "ld.lld", "-flavor", "wasm", *words, program, runtime, "-o", module)
    return narrow(module.read_bytes())


def is_made(out, program):
    """Whether the module is there, and newer than the program and what makes the module of it."""
    made_of = [program, *(it for it in HERE.iterdir() if it.is_file())]
    return out.is_file() and all(it.is_file() and it.stat().st_mtime < out.stat().st_mtime for it in made_of)


def main(out, folder=TOP / "crates" / "factc", root=TOP):
    out = Path(out).resolve()
    if is_made(out, folder / "out" / folder.name):
        return
    rt = libraries.toolchain(shutil.which("rt") or "")
    if not rt:
        raise SystemExit("build: the toolchain's rt is not on the path, or is another than this was written for")
    with tempfile.TemporaryDirectory() as room:
        room = Path(room)
        kept = prove_and_keep(rt, folder, root, room)
        module = compile_to_module(Path(rt.rtlib.KIT) / "toolchain" / "bin", kept, room)
    out.parent.mkdir(parents=True, exist_ok=True)
    out.write_bytes(module)


if __name__ == "__main__":
    main(*sys.argv[1:])
