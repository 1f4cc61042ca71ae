#!/usr/bin/env python3
"""What static libraries and objects (x86-64) take of a desk's flash.

    python3 tests/flash.py FILE..               the bytes of each part
    python3 tests/flash.py --under BYTES FILE   that no table is among its constants

A table need not be one object: a compiler may cut it into constants of 16 bytes and lay it out again on the stack. So the constants are counted by
function too: each object has fewer than BYTES, and so have all together that one function refers to. Data that can be written counts as constants do,
since its first values lie in the flash. Answers 1 where that is not so. A table that is spelled in instructions, or spread over several functions, is
not seen: for that the sizes are printed.
"""
import collections
import pathlib
import struct
import sys

PARTS = ("code", "constants", "data", "zeros", "unwinding")
NOBITS, RELA, SYMTAB = 8, 4, 2
WRITE, ALLOC, EXECUTE = 1, 2, 4
OBJECT, FUNCTION, SECTION = 1, 2, 3
# References whose place is counted from behind the four bytes that hold it: PC32, PLT32, and the two that go by way of a table of addresses.
RELATIVE = (2, 4, 41, 42)


def fail(message):
    print(f"tests/flash.py: {message}", file=sys.stderr)
    sys.exit(2)


def text(table, at):
    return table[at:table.index(0, at)].decode()


class Section(collections.namedtuple("Section", "name kind flags size")):
    def part(self):
        """The part of the flash that it belongs to, or None."""
        if not self.flags & ALLOC or self.name.startswith(".note"):
            return None
        if self.name.startswith(".eh_frame"):
            return "unwinding"
        if self.flags & EXECUTE:
            return "code"
        if self.kind == NOBITS:
            return "zeros"
        return "data" if self.flags & WRITE else "constants"

    def is_held(self):
        return self.part() in ("constants", "data")


Head = collections.namedtuple("Head", "name kind flags address offset size link info alignment entry")
Symbol = collections.namedtuple("Symbol", "name kind section at size")


class Elf:
    """The sections of an object file, its symbols, and its references: (section, place in it, symbol, offset from the symbol)."""

    def __init__(self, file, data):
        if data[:6] != b"\x7fELF\x02\x01" or struct.unpack_from("<H", data, 18)[0] != 62:
            fail(f"{file} has something that is no x86-64 object")
        first, = struct.unpack_from("<Q", data, 40)
        length, count, names = struct.unpack_from("<HHH", data, 58)
        heads = [Head(*struct.unpack_from("<IIQQQQIIQQ", data, first + length * i)) for i in range(count)]

        def content(head):
            return data[head.offset:head.offset + head.size]

        self.sections = [Section(text(content(heads[names]), head.name), head.kind, head.flags, head.size) for head in heads]
        self.symbols, self.references = [], []
        for head in heads:
            if head.kind == SYMTAB:
                strings = content(heads[head.link])
                for name, kind, _, section, at, size_of in struct.iter_unpack("<IBBHQQ", content(head)):
                    self.symbols.append(Symbol(text(strings, name), kind & 15, section, at, size_of))
        for head in heads:
            if head.kind == RELA:
                for at, kind, offset in struct.iter_unpack("<QQq", content(head)):
                    behind = 4 if kind & 0xFFFFFFFF in RELATIVE else 0
                    self.references.append((head.info, at, self.symbols[kind >> 32], offset + behind))

    def in_flash(self, symbol):
        return 0 < symbol.section < len(self.sections) and self.sections[symbol.section].is_held()

    def pieces(self):
        """The constants as (section, begin, end): what lies between two places that a symbol or a reference names. Not every object has a name."""
        places = {(symbol.section, symbol.at) for symbol in self.symbols if self.in_flash(symbol)}
        places |= {self.named(symbol, offset) for _, _, symbol, offset in self.references if self.in_flash(symbol)}
        found = []
        for i, section in enumerate(self.sections):
            if section.is_held():
                begins = sorted({0} | {at for at_section, at in places if at_section == i and 0 < at < section.size})
                found += [(i, begin, end) for begin, end in zip(begins, begins[1:] + [section.size])]
        return found

    @staticmethod
    def named(symbol, offset):
        """The place that a reference names. From a section's start it is the offset; from another symbol it is the symbol, whatever is added."""
        return symbol.section, offset if symbol.kind == SECTION else symbol.at

    def function(self, section, at):
        """The function at a place of the code."""
        for symbol in self.symbols:
            if symbol.kind == FUNCTION and symbol.section == section and symbol.at <= at < symbol.at + symbol.size:
                return symbol.name
        return self.sections[section].name

    def uses(self):
        """What may be a table, as (bytes, name): each object with a name, each piece, and all pieces that one function refers to."""
        pieces, referred = self.pieces(), {}
        for section, at, symbol, offset in self.references:
            if self.in_flash(symbol) and self.sections[section].part() == "code":
                named = self.named(symbol, offset)
                held = referred.setdefault(self.function(section, at), set())
                held |= {piece for piece in pieces if piece[0] == named[0] and piece[1] <= named[1] < piece[2]}
        found = [(sum(end - begin for _, begin, end in held), name) for name, held in referred.items()]
        found += [(end - begin, self.sections[i].name) for i, begin, end in pieces]
        return found + [(symbol.size, symbol.name) for symbol in self.symbols if symbol.kind == OBJECT and self.in_flash(symbol)]


def objects(file):
    data = pathlib.Path(file).read_bytes()
    if data[:8] != b"!<arch>\n":
        return [Elf(file, data)]
    found, at = [], 8
    while at + 60 <= len(data):
        name, size = data[at:at + 16].rstrip(), int(data[at + 48:at + 58])
        if name not in (b"/", b"//", b"/SYM64/"):
            found.append(Elf(file, data[at + 60:at + 60 + size]))
        at += 60 + size + size % 2
    return found


def size(elfs, part):
    return sum(section.size for elf in elfs for section in elf.sections if section.part() == part)


def hold(file, most):
    elfs = objects(file)
    largest, name = max((use for elf in elfs for use in elf.uses()), default=(0, "none"))
    code, constants, data = (size(elfs, part) for part in ("code", "constants", "data"))
    if not code:
        fail(f"{file} has no code")
    print(f"{file}: code {code} bytes, constants {constants}, data {data}; the most of these two in one place: {largest} ({name})")
    return largest < most


def main():
    arguments = sys.argv[1:]
    if len(arguments) == 3 and arguments[0] == "--under" and arguments[1].isdecimal():
        if not hold(arguments[2], int(arguments[1])):
            print(f"tests/flash.py: a table: constants of {arguments[1]} bytes or more in one place", file=sys.stderr)
            sys.exit(1)
    elif arguments and not arguments[0].startswith("-"):
        files = [objects(file) for file in arguments]
        for part in PARTS:
            print(f"{part:<9}" + "".join(f"  {size(elfs, part):9}" for elfs in files))
    else:
        fail("usage: tests/flash.py FILE.. | --under BYTES FILE")


main()
