"""Makes the pairs of objects that `bench/diff` times: an encoder of ELF32 objects for the i386, which other scripts
have, too, and a maker a case.

A maker takes a part of the limits (0.5 or 1.0) and a version (1 or 2). It answers the object's bytes and, for version
2, the lines that `ksplice diff` prints of the two.
"""
import random
import struct

FILE, SECTIONS, SYMBOLS, RELOCATIONS = 8_388_608, 4_096, 65_536, 262_144
PROGBITS, SYMTAB, STRTAB, NOBITS, REL = 1, 2, 3, 8, 9
CODE, WRITABLE, READ_ONLY, TEXTS = 6, 3, 2, 0x32
ABSOLUTE, RELATIVE = 1, 2
FUNCTION, SECTION, LABEL = 0x12, 0x03, 0x10
TEXT_SECTION = ".rodata.str1.1"


class Section:
    """A section with the fields in it that relocations change."""

    def __init__(self, name, flags, data, align, entry, kind):
        self.name, self.flags, self.data, self.align, self.entry = name, flags, bytearray(data), align, entry
        self.kind, self.entries = kind, []

    def refer(self, offset, kind, symbol, addend):
        """Makes the four bytes at the offset a field. A symbol is what `Unit.symbol` answered."""
        struct.pack_into("<I", self.data, offset, addend & 0xFFFFFFFF)
        self.entries.append((offset, symbol, kind))


class Unit:
    """An object: its sections, and its symbols, the local ones first."""

    def __init__(self):
        self.sections, self.symbols, self.names, self.name_at = [], [(0, 0, 0, 0, 0, 0)], bytearray(b"\0"), {}

    def section(self, name, flags, data, align=16, entry=0, kind=PROGBITS):
        self.sections.append(Section(name, flags, data, align, entry, kind))
        return self.sections[-1]

    def symbol(self, name, section, value=0, size=0, info=FUNCTION):
        """The number of a new symbol. Section symbols come before all others, as the format asks."""
        if name and name not in self.name_at:
            self.name_at[name] = len(self.names)
            self.names += name.encode() + b"\0"
        self.symbols.append((self.name_at[name] if name else 0, value, size, info, 0, section))
        return len(self.symbols) - 1

    def bytes(self):
        changed = [(at, section) for at, section in enumerate(self.sections, 1) if section.entries]
        symbol_table = len(self.sections) + len(changed) + 1
        rows = [(s.name, s.kind, s.flags, bytes(s.data), 0, 0, s.align, s.entry) for s in self.sections]
        for at, section in changed:
            content = b"".join(struct.pack("<II", o, symbol << 8 | kind) for o, symbol, kind in section.entries)
            name = ".rel" + section.name[:64]  # such a name tells nothing, so a long one is cut
            rows.append((name, REL, 0, content, symbol_table, at, 4, 8))
        symbols = b"".join(struct.pack("<IIIBBH", *symbol) for symbol in self.symbols)
        local = sum(1 for symbol in self.symbols if symbol[3] >> 4 == 0)
        rows.append((".symtab", SYMTAB, 0, symbols, symbol_table + 1, local, 4, 16))
        rows.append((".strtab", STRTAB, 0, bytes(self.names), 0, 0, 1, 0))
        return encoded(rows)


def encoded(rows):
    """The file of these sections, their names in a last section of its own. A section of zeros (NOBITS) takes no bytes
    there."""
    names, name_at = bytearray(b"\0"), {}
    for name in [row[0] for row in rows] + [".shstrtab"]:
        if name not in name_at:
            name_at[name] = len(names)
            names += name.encode() + b"\0"
    rows = rows + [(".shstrtab", STRTAB, 0, bytes(names), 0, 0, 1, 0)]
    out, headers = bytearray(52), bytearray(40)
    for name, kind, flags, content, link, info, align, entry in rows:
        out += bytes(-len(out) % 4)
        at = 0 if kind == NOBITS else len(out)
        headers += struct.pack("<10I", name_at[name], kind, flags, 0, at, len(content), link, info, align, entry)
        out += b"" if kind == NOBITS else content
    out += bytes(-len(out) % 4)
    struct.pack_into("<4sBBB9xHHIIIIIHHHHHH", out, 0, b"\x7fELF", 1, 1, 1, 1, 3, 1, 0, 0, len(out), 0, 52, 0, 0, 40,
                     len(rows) + 1, len(rows))
    return bytes(out + headers)


def body(constant, fields, size=0):
    """A function that answers a constant: room for so many calls or pushes, each with a field at 6, 11, 16 and so
    on."""
    code = b"\xb8" + struct.pack("<I", constant) + b"\x68\0\0\0\0" * fields + b"\xc3"
    return code + b"\x90" * (size - len(code))


def call(section, number, symbol, addend=-4):
    """Makes field `number` of a body that of a call."""
    section.data[5 + 5 * number] = 0xE8
    section.refer(6 + 5 * number, RELATIVE, symbol, addend)


def push(section, number, symbol, addend):
    """Makes field `number` of a body that of a push of an address."""
    section.refer(6 + 5 * number, ABSOLUTE, symbol, addend)


def shares(total, count):
    """A total in `count` shares as equal as may be."""
    return [total // count + (i < total % count) for i in range(count)]


def functions(part, version):
    """Functions alone, with as many sections and symbols as there may be. The last one is another."""
    count, symbols = int(SECTIONS * part) - 4, int(SYMBOLS * part)
    rest = 52 + 44 * count + 30 * count + 16 * symbols + 14 * symbols + 1000
    size = (int(FILE * part) - rest) // count & ~15
    unit = Unit()
    for i in range(count):
        unit.section(f".text.function_{i}", CODE, body(version if i == count - 1 else 0, 0, size))
        unit.symbol(f"function_{i}", i + 1, 0, size)
    for i in range(symbols - count - 1):
        unit.symbol(f"label_{i}", i % count + 1, 4, 0, LABEL)
    return unit.bytes(), [f"changed function_{count - 1}"]


def relocations(part, version):
    """As many relocations, symbols and sections as there may be: calls of functions and of outside names, addresses of
    variables and of texts. The last function is another."""
    count, symbols = (int(SECTIONS * part) - 6) // 2, int(SYMBOLS * part)
    fields, outside, texts = shares(int(RELOCATIONS * part), count), int(1000 * part), int(20_000 * part)
    rest = 8 * sum(fields) + 30 * symbols + 30 * texts + 150 * count
    size = (int(FILE * part) - rest) // count & ~15
    unit = Unit()
    code = [unit.section(f".text.function_{i}", CODE, body(version if i == count - 1 else 0, fields[i], size))
            for i in range(count)]
    lines = [b"text %09d of the unit\0" % i for i in range(texts)]
    unit.section(TEXT_SECTION, TEXTS, b"".join(lines), 1, 1)
    unit.section(".data.variables", WRITABLE, bytes(4096), 4)
    text, data = unit.symbol("", count + 1, info=SECTION), unit.symbol("", count + 2, info=SECTION)
    function = [unit.symbol(f"function_{i}", i + 1, 0, size) for i in range(count)]
    name = [unit.symbol(f"outside_{i}", 0, info=LABEL) for i in range(outside)]
    for i in range(symbols - count - outside - 3):
        unit.symbol(f"label_{i}", i % count + 1, 4, 0, LABEL)
    for i, section in enumerate(code):
        for k in range(0, fields[i], 4):
            call(section, k, function[(7 * i + k) % count])
            if k + 1 < fields[i]:
                call(section, k + 1, name[(i + k) % outside])
            if k + 2 < fields[i]:
                push(section, k + 2, data, 4 * ((i + k) % 1024))
            if k + 3 < fields[i]:
                push(section, k + 3, text, len(lines[0]) * ((31 * i + k) % texts))
    return unit.bytes(), [f"changed function_{count - 1}", f"carried {TEXT_SECTION}"]


def chain(part, version):
    """Functions of which each has many references to the interior of one other, so that all are tied in one chain. Only
    the first of the chain is another. The chain goes through the sections in no order."""
    count = (int(SECTIONS * part) - 4) // 2
    fields = RELOCATIONS // SECTIONS * 2
    order = list(range(count))
    random.Random(1).shuffle(order)
    unit = Unit()
    bodies = [body(version if i == order[0] else 0, fields) for i in range(count)]
    code = [unit.section(f".text.function_{i}", CODE, bodies[i]) for i in range(count)]
    function = [unit.symbol(f"function_{i}", i + 1, 0, len(code[i].data)) for i in range(count)]
    for here, there in zip(order, order[1:]):
        for k in range(fields):
            call(code[here], k, function[there], 5 * k + 1)
    return unit.bytes(), [f"changed function_{i}" for i in range(count)]


def tables(part, version, readers):
    """Read-only tables that all reach each other, and functions of which each reads one. One table is another, which
    changes all readers."""
    count = (int(SECTIONS * part) - 4) // 2 - readers
    fields = shares(int(RELOCATIONS * part) - readers, count)
    chance = random.Random(1)
    order = list(range(count))
    chance.shuffle(order)
    unit = Unit()
    code = [unit.section(f".text.reader_{i}", CODE, body(0, 1)) for i in range(readers)]
    table = [unit.section(f".rodata.table_{i}", READ_ONLY, struct.pack("<I", version if i == order[-1] else 0)
                          + bytes(4 * fields[i]), 4) for i in range(count)]
    symbol = [unit.symbol("", readers + 1 + i, info=SECTION) for i in range(count)]
    for i in range(readers):
        unit.symbol(f"reader_{i}", i + 1, 0, len(code[i].data))
        push(code[i], 0, symbol[order[i % count]], 0)
    for here, there in zip(order, order[1:] + order[:1]):
        table[here].refer(4, ABSOLUTE, symbol[there], 0)
        for k in range(1, fields[here]):
            table[here].refer(4 + 4 * k, ABSOLUTE, symbol[chance.randrange(count)], 0)
    return unit.bytes(), [f"changed reader_{i}" for i in range(readers)] \
        + [f"carried .rodata.table_{i}" for i in range(count)]


def constants(part, version):
    """One function over as many read-only tables as there may be."""
    return tables(part, version, 1)


def readers(part, version):
    """As many functions as read-only tables, each of which reaches all tables."""
    return tables(part, version, int(SECTIONS * part) // 4 - 1)


def over_texts(part, version, texts, places):
    """Sixteen functions that push the addresses of these places of a section of texts. The last one is another."""
    count = 16
    fields = shares(len(places), count)
    unit = Unit()
    code = [unit.section(f".text.function_{i}", CODE, body(version if i == count - 1 else 0, fields[i]))
            for i in range(count)]
    unit.section(TEXT_SECTION, TEXTS, texts, 1, 1)
    text = unit.symbol("", count + 1, info=SECTION)
    for i in range(count):
        unit.symbol(f"function_{i}", i + 1, 0, len(code[i].data))
    rest = iter(places)
    for section, share in zip(code, fields):
        for k in range(share):
            push(section, k, text, next(rest))
    return unit.bytes(), [f"changed function_{count - 1}", f"carried {TEXT_SECTION}"]


def texts(part, version):
    """Many texts in one section, each referred to. The second version has them the other way round."""
    count = int(SYMBOLS * part)
    lines = [b"text %09d of a unit with many\0" % i for i in range(count)]
    width = len(lines[0])
    if version == 1:
        return over_texts(part, version, b"".join(lines), [width * i for i in range(count)])
    return over_texts(part, version, b"".join(reversed(lines)), [width * (count - 1 - i) for i in range(count)])


def long_text(part, version):
    """One text of six megabytes, and many references into it. In the second version it stands elsewhere in its
    section."""
    length, count = int(6_000_000 * part), int(100_000 * part)
    front = b"new\0" if version == 2 else b""
    return over_texts(part, version, front + b"a" * length + b"\0",
                      [len(front) + i * (length // count) for i in range(count)])


def long_names(part, version):
    """Sections whose names have 4,096 bytes and differ only at their ends, and many references to them."""
    count = int(1000 * part)
    fields = shares(int(RELOCATIONS * part), count)
    unit = Unit()
    code = [unit.section(".text." + "a" * 4086 + f"{i:04}", CODE, body(version if i == count - 1 else 0, fields[i]))
            for i in range(count)]
    function = [unit.symbol(f"function_{i}", i + 1, 0, len(code[i].data)) for i in range(count)]
    for i, section in enumerate(code):
        for k in range(fields[i]):
            call(section, k, function[(7 * i + k) % count])
    return unit.bytes(), [f"changed function_{count - 1}"]


def long_symbols(part, version):
    """Outside names of 4,096 bytes that differ only at their ends, and many references to them from sixteen
    functions."""
    count, outside = 16, int(1000 * part)
    fields = shares(int(RELOCATIONS * part), count)
    unit = Unit()
    code = [unit.section(f".text.function_{i}", CODE, body(version if i == count - 1 else 0, fields[i]))
            for i in range(count)]
    for i in range(count):
        unit.symbol(f"function_{i}", i + 1, 0, len(code[i].data))
    name = [unit.symbol("a" * 4092 + f"{i:04}", 0, info=LABEL) for i in range(outside)]
    for i, section in enumerate(code):
        for k in range(fields[i]):
            call(section, k, name[(7 * i + k) % outside])
    return unit.bytes(), [f"changed function_{count - 1}"]


def long_sections(part, version):
    """A few long sections of code and of constants, which are equal to their ends, and a small function of which one
    byte is another."""
    count, chance = 8, random.Random(1)
    size = (int(FILE * part) - 2000) // count & ~15
    unit = Unit()
    for i in range(count):
        name, flags = (f".text.function_{i}", CODE) if i % 2 == 0 else (f".rodata.table_{i}", READ_ONLY)
        unit.section(name, flags, chance.randbytes(size))
    unit.section(".text.small", CODE, body(version, 0))
    for i in range(0, count, 2):
        unit.symbol(f"function_{i}", i + 1, 0, size)
    unit.symbol("small", count + 1, 0, len(body(version, 0)))
    return unit.bytes(), ["changed small"]


CASES = {make.__name__: make for make in (functions, relocations, chain, constants, readers, texts, long_text,
                                          long_names, long_symbols, long_sections)}
