"""Encodes the files that rows have: objects, images and scripts. Bytes are written as hexadecimal numbers, where
`90*10` stands for ten bytes 90, and `6690*5` for five times 66 90.

    unit = obj(sec(".text.f", "B8 01 00 00 00 C3"),
               sec(".text.main", "E8 00 00 00 00 C3", relative(1, ".text.f")))
    program = image(at(0x00100000, "f", "B8 01 00 00 00 C3 90*10"),
                    at(0x00100010, "main", "E8 EB FF FF FF C3"),
                    regions=[read_only(0x00180000, "68 69 00")])

Nothing is judged here. A file that breaks a rule is encoded as it is asked for, or made from a good one by `edit`.
"""
import os
import struct
import sys
from typing import NamedTuple

TOP = os.path.dirname(os.path.dirname(os.path.dirname(os.path.abspath(__file__))))
sys.path.insert(0, os.path.join(TOP, "bench"))
import images  # noqa: E402
import objects  # noqa: E402

LOCAL_FUNCTION, VARIABLE = 0x02, 0x11
DATA = 2  # the kind of a symbol in an image
TEXT_SECTION = objects.TEXT_SECTION
# by how a section's name begins its flags, its alignment and the size of its entries
FLAGS = {".text": (objects.CODE, 16, 0), ".data": (objects.WRITABLE, 4, 0), ".bss": (objects.WRITABLE, 4, 0),
         TEXT_SECTION: (objects.TEXTS, 1, 1), ".rodata": (objects.READ_ONLY, 4, 0),
         ".eh_frame": (objects.READ_ONLY, 1, 0), ".ksplice_apply": (objects.READ_ONLY, 4, 0), "": (0, 1, 0)}
ARENA, STACKS = (0x00800000, 0x00810000), ((0x00400000, 0x00401000),)


def data(text):
    """The bytes of a text."""
    out = b""
    for written in text.split():
        digits, _, times = written.partition("*")
        out += bytes.fromhex(digits) * int(times or 1)
    return out


def word(number):
    """The text of a number of four bytes."""
    return struct.pack("<I", number).hex()


class Section(NamedTuple):
    """A section of an object, with its references (offset, type, target, addend) and its symbols (name, value, size,
    info)."""

    name: str
    content: bytes
    references: tuple
    symbols: list


def absolute(offset, target, addend=0):
    """A reference to a section of the object, or to an outside name: to a function's entry, unless an addend is given.
    """
    return offset, objects.ABSOLUTE, target, addend


def relative(offset, target, addend=-4):
    return offset, objects.RELATIVE, target, addend


def functions_of(section):
    """The function that a section's name tells, and its offset."""
    if section.startswith(".text.unlikely."):
        return {section.removeprefix(".text.unlikely.") + ".cold": 0}
    if section.startswith(".text."):
        return {section.removeprefix(".text."): 0}
    return {}


def sec(name, text, *references, functions=None, variable=None):
    """A section. It has the function that its name tells, or other ones (name to offset); a cold part is local. A
    section `.bss` has as many zeros as there are bytes."""
    content, symbols = data(text), []
    for function, offset in (functions_of(name) if functions is None else functions).items():
        info = LOCAL_FUNCTION if function.endswith(".cold") else objects.FUNCTION
        symbols.append((function, offset, 0 if offset else len(content), info))
    if variable:
        symbols.append((variable, 0, 0, VARIABLE))
    return Section(name, content, references, symbols)


def obj(*sections):
    """The object of these sections. Its symbols are those of the sections, of local functions, of global functions and
    variables, and the outside names."""
    unit, targets, named = objects.Unit(), {}, []
    for index, section in enumerate(sections, 1):
        flags, align, entry = next(FLAGS[front] for front in FLAGS if section.name.startswith(front))
        kind = objects.NOBITS if section.name.startswith(".bss") else objects.PROGBITS
        unit.section(section.name, flags, section.content, align, entry, kind)
        targets[section.name] = unit.symbol("", index, info=objects.SECTION)
        named += [(name, index, *rest) for name, *rest in section.symbols]
    for symbol in sorted(named, key=lambda symbol: symbol[-1] != LOCAL_FUNCTION):
        unit.symbol(*symbol)
    for section, written in zip(sections, unit.sections):
        for offset, kind, target, addend in section.references:
            if target not in targets:
                targets[target] = unit.symbol(target, 0, info=objects.LABEL)
            written.refer(offset, kind, targets[target], addend)
    return unit.bytes()


def header_at(file, section):
    """Where the header of a section of an object stands."""
    return struct.unpack_from("<I", file, 32)[0] + 40 * section


def entry_at(file, section, entry):
    """Where an entry of a section of symbols or relocations stands."""
    header = struct.unpack_from("<10I", file, header_at(file, section))
    return header[4] + header[9] * entry


def edit(file, offset, value, width=4):
    """The file with another number at the offset."""
    return file[:offset] + value.to_bytes(width, "little") + file[offset + width:]


class Part(NamedTuple):
    """Code that is listed at an address of an image, with the symbol of a function there, or without one."""

    address: int
    name: str | None
    content: bytes
    binding: int


def at(address, name, text, local=False):
    return Part(address, name, data(text), images.LOCAL if local else images.GLOBAL)


def read_only(base, text):
    return images.READ_ONLY, base, data(text)


def writable(base, text):
    return images.WRITABLE, base, data(text)


def function(address, name, binding=images.GLOBAL):
    return images.function_symbol(address, name.encode(), binding)


def variable(address, name, local=False):
    return address, DATA, images.LOCAL if local else images.GLOBAL, name.encode()


def four_stacks(low, size):
    """Stacks of this size, as far apart."""
    return [(low + 2 * i * size, low + 2 * i * size + size) for i in range(4)]


def image(*parts, regions=(), symbols=(), stacks=STACKS, arena=ARENA):
    """An image with one region of code, these parts in ascending order and 90 between them; further regions, which lie
    above it; and the symbols of the parts, and further ones."""
    base, code = parts[0].address, b""
    for part in parts:
        assert base + len(code) <= part.address
        code = code.ljust(part.address - base, b"\x90") + part.content
    symbols = [function(part.address, part.name, part.binding) for part in parts if part.name] + list(symbols)
    return images.encode([(images.CODE, base, code), *regions], symbols, stacks, arena)


def script(*lines):
    return "".join(line + "\n" for line in lines).encode()
