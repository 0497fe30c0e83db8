"""Writes a table for the program of crates/row_tests that has the check of adapter modules judge one module of some 4 MB or less:

    python3 bench/checked.py KIND COUNT > table
    python3 bench/measure.py 3 table crates/row_tests/out/row_tests

KIND says what the module has COUNT of: `imports` of traps, `functions` and as many exports of them, `locals`, each in a run of its own and
each read, `references` to functions that are exported, as many as there are functions, `names` of exports that differ in their last bytes
alone, or `targets` of one br_table above as many operands. Each is accepted. `repeated` has as many exports, of which the last two have one
name, and is not.
"""
import sys

I32 = 0x7F


def number(n):
    digits = bytearray()
    while n > 0x7F:
        digits.append(n & 0x7F | 0x80)
        n >>= 7
    return bytes(digits + bytes([n]))


def listed(items):
    return number(len(items)) + b"".join(items)


def section(kind, items):
    content = listed(items)
    return bytes([kind]) + number(len(content)) + content


def name(text):
    return number(len(text)) + text.encode()


def body(code, locals_=()):
    content = listed([number(count) + bytes([ty]) for count, ty in locals_]) + code + b"\x0b"
    return number(len(content)) + content


def module(imports=(), exports=(), bodies=()):
    parts = [section(1, [b"\x60\0\0"]), section(2, imports), section(3, [b"\0"] * len(bodies))]
    return b"\0asm\1\0\0\0" + b"".join([*parts, section(7, exports), section(10, bodies)])


def made(kind, count):
    if kind == "imports":
        trap = name("runtime") + name("trap0") + b"\0\0"
        return module(imports=[trap] * count)
    if kind == "functions":
        exports = [name(f"f{k}") + b"\0" + number(k) for k in range(count)]
        return module(exports=exports, bodies=[body(b"")] * count)
    if kind == "locals":
        code = b"".join(b"\x20" + number(k) + b"\x1a" for k in range(count))
        return module(bodies=[body(code, [(1, I32)] * count)])
    if kind == "references":
        exports = [name(f"f{k}") + b"\0" + number(k) for k in range(count)]
        code = b"".join(b"\xd2" + number(k) + b"\x1a" for k in range(count))
        return module(exports=exports, bodies=[body(code)] + [body(b"")] * (count - 1))
    if kind == "names":
        exports = [name(f"the-same-front-of-names-{k:08}") + b"\0\0" for k in range(count)]
        return module(exports=exports, bodies=[body(b"")])
    if kind == "targets":
        operands = b"\x41\0" * count
        return module(bodies=[body(b"\x02\x40" + operands + b"\x41\0\x0e" + listed([b"\0"] * count) + b"\0\x0b")])
    if kind == "repeated":
        exports = [name(f"f{k}") + b"\0\0" for k in range(count - 1)]
        return module(exports=[*exports, exports[-1]], bodies=[body(b"")])
    sys.exit(__doc__)


def main():
    if len(sys.argv) != 3:
        sys.exit(__doc__)
    bytes_ = made(sys.argv[1], int(sys.argv[2]))
    print(f"# {len(bytes_)} bytes\nblock {sys.argv[1]} bytes\ncheck {sys.argv[2]} | {bytes_.hex()}")


main()
