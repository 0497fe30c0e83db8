"""Gives the tables of a module addresses of 32 bits. The linker gives them 64 where memory has 64, and engines learned that later than memories of
64 bits. A table has far fewer elements than 2^32, so that an address loses nothing where it is cut; nothing else is changed.

    narrow_tables.py MODULE
"""

import sys
from pathlib import Path

HEADER = 8  # bytes
TABLES, ELEMENTS, CODE = 4, 9, 10  # the numbers of sections
HAS_MAXIMUM, HAS_WIDE_ADDRESSES = 1, 4
I32_CONST, I64_CONST, END = 0x41, 0x42, 0x0B
CALL_INDIRECT, I32_WRAP_I64 = 0x11, 0xA7
BULK = 0xFC

# The immediates of the instructions that have some: "n" a number, "l" a list of numbers, "m" the alignment and the offset of an access, a digit so
# many bytes.
IMMEDIATES = {
    **dict.fromkeys([0x02, 0x03, 0x04, 0x0C, 0x0D, 0x10, *range(0x20, 0x27), 0x3F, 0x40, I32_CONST, I64_CONST, 0xD0, 0xD2], "n"),
    **dict.fromkeys(range(0x28, 0x3F), "m"),
    **{0x0E: "ln", CALL_INDIRECT: "nn", 0x1C: "l", 0x43: "4", 0x44: "8"},
}
BULK_IMMEDIATES = {8: "nn", 9: "n", 10: "nn", 11: "n", 12: "nn", 13: "n", 14: "nn", 15: "n", 16: "n", 17: "n"}
# Exceptions, references to collected objects, vectors and atomics, which the module has not.
NOT_READ = [0x06, 0x07, 0x08, 0x09, 0x0A, 0x18, 0x19, 0x1F, 0xFB, 0xFD, 0xFE]


class Reader:
    def __init__(self, data, place=0):
        self.data = data
        self.place = place

    def byte(self):
        self.place += 1
        return self.data[self.place - 1]

    def number(self):
        """A number in LEB128; of one that has a sign the bits, of which nothing is asked here."""
        number = shift = 0
        while True:
            byte = self.byte()
            number |= (byte & 0x7F) << shift
            shift += 7
            if byte < 0x80:
                return number

    def skip(self, immediates):
        for kind in immediates:
            if kind == "n":
                self.number()
            elif kind == "l":
                self.skip("n" * self.number())
            elif kind == "m":
                self.skip("nn" if self.number() & 0x40 else "n")
            else:
                self.place += int(kind)

    def instruction(self):
        """Goes past an instruction, and gives its opcode."""
        opcode = self.byte()
        if opcode in NOT_READ:
            raise ValueError(f"no instruction {opcode:#x} is read here")
        self.skip(BULK_IMMEDIATES.get(self.number(), "") if opcode == BULK else IMMEDIATES.get(opcode, ""))
        return opcode


def leb(number):
    digits = []
    while number > 0x7F:
        digits.append(number & 0x7F | 0x80)
        number >>= 7
    return bytes([*digits, number])


def narrow_types(section):
    reader, made = Reader(section), bytearray(section)
    for _ in range(reader.number()):
        reader.byte()  # the type of its elements
        limits = reader.byte()
        made[reader.place - 1] = limits & ~HAS_WIDE_ADDRESSES
        reader.skip("nn" if limits & HAS_MAXIMUM else "n")
    return bytes(made)


def narrow_elements(section):
    """Where elements begin; of the eight kinds of segments the module has those of functions by their numbers."""
    reader, made = Reader(section), bytearray(section)
    for _ in range(reader.number()):
        kind = reader.number()
        if kind not in (0, 2):
            raise ValueError(f"no segment of elements of kind {kind} is read here")
        reader.skip("n" if kind == 2 else "")  # the table
        place = reader.place
        if reader.instruction() == I64_CONST:
            made[place] = I32_CONST
        if reader.byte() != END:
            raise ValueError("the place of elements is no constant")
        reader.skip("1l" if kind == 2 else "l")
    return bytes(made)


def narrow_body(data, start, end):
    reader, pieces, copied = Reader(data, start), [], start
    for _ in range(reader.number()):
        reader.skip("n1")  # so many locals of a type
    while reader.place < end:
        place = reader.place
        if reader.instruction() == CALL_INDIRECT:
            pieces += [data[copied:place], bytes([I32_WRAP_I64])]
            copied = place
    return b"".join([*pieces, data[copied:end]])


def narrow_code(section):
    reader = Reader(section)
    made = [leb(reader.number())]
    while reader.place < len(section):
        size = reader.number()
        start, reader.place = reader.place, reader.place + size
        body = narrow_body(section, start, reader.place)
        made += [leb(len(body)), body]
    return b"".join(made)


def narrow(module):
    change = {TABLES: narrow_types, ELEMENTS: narrow_elements, CODE: narrow_code}
    reader, made = Reader(module, HEADER), [module[:HEADER]]
    while reader.place < len(module):
        number, size = reader.byte(), reader.number()
        section = module[reader.place : reader.place + size]
        reader.place += size
        section = change.get(number, lambda it: it)(section)
        made += [bytes([number]), leb(len(section)), section]
    return b"".join(made)


if __name__ == "__main__":
    path = Path(sys.argv[1])
    path.write_bytes(narrow(path.read_bytes()))
