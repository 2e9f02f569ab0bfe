#!/usr/bin/env python3
"""Gives a module of WebAssembly a memory and a table of 32 bits in place of 64. No proof covers it; web/build calls it.

    web/module/lower.py IN.wasm OUT.wasm

Not every engine has memories of 64 bits. Values stay as they are: an address is an i64 in the code, and is cut to 32 bits where memory is
reached. What lies past 4 GiB would be another address then; heap.c gives none there, and proved code reaches what it was given. A module with
imports, or with an instruction that isn't named here, is refused.
"""
import argparse
import pathlib
import sys

WRAP = b"\xa7"  # i32.wrap_i64
EXTEND_UNSIGNED, EXTEND_SIGNED = b"\xad", b"\xac"
I32 = 0x7F
# the stores, with the types of what they store
STORES = {0x36: 0x7F, 0x37: 0x7E, 0x38: 0x7D, 0x39: 0x7C, 0x3A: 0x7F, 0x3B: 0x7F, 0x3C: 0x7E, 0x3D: 0x7E, 0x3E: 0x7E}
LOADS = range(0x28, 0x36)
# one number behind the opcode: blocks, branches, calls, variables, references, constants
WITH_ONE = {0x02, 0x03, 0x04, 0x0C, 0x0D, 0x10, 0x12, 0x20, 0x21, 0x22, 0x23, 0x24, 0x25, 0x26, 0x41, 0x42, 0xD0, 0xD2}
ALONE = {0x00, 0x01, 0x05, 0x0B, 0x0F, 0x1A, 0x1B, 0xD1, *range(0x45, 0xC5)}
TYPE, IMPORT, FUNCTION, TABLE, MEMORY, ELEMENT, CODE, DATA = 1, 2, 3, 4, 5, 9, 10, 11


class Refused(Exception):
    """What this module has, it can't be lowered with."""


class Reader:
    """Bytes, and how many of them are read."""

    def __init__(self, data):
        self.data, self.at = data, 0

    @property
    def is_at_end(self):
        return self.at >= len(self.data)

    def byte(self):
        self.at += 1
        return self.data[self.at - 1]

    def take(self, count):
        self.at += count
        return self.data[self.at - count : self.at]

    def number(self):
        result = shift = 0
        while True:
            byte = self.byte()
            result |= (byte & 127) << shift
            shift += 7
            if byte < 128:
                return result

    def raw_number(self):
        """A number as its bytes stand, signed or not."""
        start = self.at
        while self.byte() >= 128:
            pass
        return self.data[start : self.at]


def number(value):
    out = bytearray()
    while value >= 128:
        out.append(value & 127 | 128)
        value >>= 7
    return bytes([*out, value])


def vector(items):
    return number(len(items)) + b"".join(items)


def lowered_offset(reader):
    """The expression of an offset, an i64.const, as an i32.const of the same value."""
    if reader.byte() != 0x42:
        raise Refused("an offset that is no constant")
    raw = reader.raw_number()
    value = sum((byte & 127) << 7 * place for place, byte in enumerate(raw))
    if raw[-1] & 64 or value >= 1 << 31 or reader.byte() != 0x0B:
        raise Refused("an offset past 31 bits")
    return b"\x41" + signed(value) + b"\x0b"


def signed(value):
    """A number that isn't negative, as signed ones are written."""
    out = bytearray()
    while value >= 64:
        out.append(value & 127 | 128)
        value >>= 7
    return bytes([*out, value])


class Body:
    """The code of a function, and the variables that lowering adds to it."""

    def __init__(self, data, parameters):
        self.reader = Reader(data)
        self.declared = [(self.reader.number(), self.reader.byte()) for _ in range(self.reader.number())]
        self.count = parameters + sum(count for count, _ in self.declared)
        self.added = {}
        self.out = bytearray()

    def variable(self, name, kind):
        if name not in self.added:
            self.added[name] = (self.count + len(self.added), kind)
        return number(self.added[name][0])

    def put(self, name, kind):
        self.out += b"\x21" + self.variable(name, kind)

    def get(self, name, kind):
        self.out += b"\x20" + self.variable(name, kind)

    def place(self):
        """The alignment and the offset of an access, the offset with no more bytes than 32 bits need."""
        align, offset = self.reader.number(), self.reader.number()
        if align >= 64 or offset >= 1 << 32:
            raise Refused("an access past 32 bits")
        return number(align) + number(offset)

    def instruction(self):
        reader = self.reader
        start = reader.at
        code = reader.byte()
        if code in LOADS:
            self.out += WRAP + bytes([code]) + self.place()
        elif code in STORES:
            place = self.place()
            self.put(code, STORES[code])
            self.out += WRAP
            self.get(code, STORES[code])
            self.out += bytes([code]) + place
        elif code == 0x3F:  # memory.size
            self.out += bytes([code]) + reader.take(1) + EXTEND_UNSIGNED
        elif code == 0x40:  # memory.grow
            self.out += WRAP + bytes([code]) + reader.take(1) + EXTEND_SIGNED
        elif code == 0xFC:
            self.bulk(start)
        else:
            if code in (0x11, 0x13):  # a call through the table
                self.out += WRAP
            self.pass_over(code)
            self.out += reader.data[start : reader.at]

    def bulk(self, start):
        """memory.copy and memory.fill, whose addresses and sizes are cut; conversions that can't trap stay."""
        code = self.reader.number()
        if code <= 7:
            self.out += self.reader.data[start : self.reader.at]
            return
        if code not in (10, 11):
            raise Refused(f"the instruction 0xfc {code}")
        self.reader.take(2 if code == 10 else 1)
        self.out += WRAP
        self.put("size", I32)
        self.out += WRAP if code == 10 else b""
        self.put("second", I32)
        self.out += WRAP
        self.get("second", I32)
        self.get("size", I32)
        self.out += self.reader.data[start : self.reader.at]

    def pass_over(self, code):
        """Reads what stands behind an opcode that stays as it is."""
        reader = self.reader
        if code in WITH_ONE:
            reader.raw_number()
        elif code in (0x11, 0x13):
            reader.raw_number()
            reader.raw_number()
        elif code == 0x0E:
            for _ in range(reader.number() + 1):
                reader.raw_number()
        elif code == 0x1C:
            reader.take(reader.number())
        elif code in (0x43, 0x44):
            reader.take(4 if code == 0x43 else 8)
        elif code not in ALONE:
            raise Refused(f"the instruction {code:#x}")

    def lowered(self):
        while not self.reader.is_at_end:
            self.instruction()
        variables = self.declared + [(1, kind) for _, kind in self.added.values()]
        whole = vector([number(count) + bytes([kind]) for count, kind in variables]) + bytes(self.out)
        return number(len(whole)) + whole


class Module:
    """A module, section by section; what a later one needs of an earlier one is kept."""

    def __init__(self):
        self.parameters, self.functions = [], []

    def section(self, kind, data):
        reader = Reader(data)
        if kind == IMPORT:
            raise Refused("imports")
        if kind == TYPE:
            self.read_types(reader)
        elif kind == FUNCTION:
            self.functions = [reader.number() for _ in range(reader.number())]
        elif kind == TABLE:
            return vector([self.table(reader) for _ in range(reader.number())])
        elif kind == MEMORY:
            return vector([self.memory(reader) for _ in range(reader.number())])
        elif kind == ELEMENT:
            return vector([self.element(reader) for _ in range(reader.number())])
        elif kind == CODE:
            bodies = [Body(reader.take(reader.number()), self.parameters[self.functions[at]]) for at in range(reader.number())]
            return vector([it.lowered() for it in bodies])
        elif kind == DATA:
            return vector([self.data(reader) for _ in range(reader.number())])
        return data

    def read_types(self, reader):
        for _ in range(reader.number()):
            if reader.byte() != 0x60:
                raise Refused("a type that is no function's")
            count = reader.number()
            self.parameters.append(count)
            reader.take(count)
            reader.take(reader.number())

    @staticmethod
    def limits(reader):
        """Limits of 64 bits as limits of 32."""
        flags = reader.byte()
        if not flags & 4:
            raise Refused("a memory or a table of 32 bits")
        least = reader.number()
        most = number(min(reader.number(), 65536)) if flags & 1 else b""
        return bytes([flags & ~4]) + number(least) + most

    def table(self, reader):
        return reader.take(1) + self.limits(reader)

    def memory(self, reader):
        return self.limits(reader)

    @staticmethod
    def element(reader):
        if reader.byte() != 0:
            raise Refused("elements of another form")
        offset = lowered_offset(reader)
        functions = [reader.raw_number() for _ in range(reader.number())]
        return b"\0" + offset + vector(functions)

    @staticmethod
    def data(reader):
        if reader.byte() != 0:
            raise Refused("data of another form")
        offset = lowered_offset(reader)
        size = reader.number()
        return b"\0" + offset + number(size) + reader.take(size)


def lowered(module):
    if module[:8] != b"\0asm\1\0\0\0":
        raise Refused("another form than that of version 1")
    reader, sections, out = Reader(module), Module(), bytearray(module[:8])
    reader.at = 8
    while not reader.is_at_end:
        kind = reader.byte()
        data = reader.take(reader.number())
        if kind != 0:  # names and the like
            section = sections.section(kind, data)
            out += bytes([kind]) + number(len(section)) + section
    return bytes(out)


def main():
    words = argparse.ArgumentParser(prog="web/module/lower.py", description=__doc__, formatter_class=argparse.RawDescriptionHelpFormatter)
    words.add_argument("given", type=pathlib.Path)
    words.add_argument("made", type=pathlib.Path)
    said = words.parse_args()
    try:
        said.made.write_bytes(lowered(said.given.read_bytes()))
    except Refused as why:
        sys.exit(f"lower.py: the module has {why}")
    return 0


if __name__ == "__main__":
    sys.exit(main())
