"""Makes the objects and images that `bench/match` times, a maker a case.

A maker takes a part of the limits (0.5 or 1.0). One of `BODIES` answers the object's bytes, the image's, the name of
the section whose function stands at `BASE`, and the line that `bench_parts match` prints of it; one of `COMMANDS` the
object's bytes, the image's, and what `ksplice match` prints of the two.
"""
import random
import struct
from math import isqrt

from images import (BASE, CODE as CODE_REGION, MEMORY, MIXED, READ_ONLY as READ_ONLY_REGION, REGIONS, encode,
                    function_symbol)
from objects import (ABSOLUTE, CODE, FILE, LABEL, READ_ONLY, RELOCATIONS, SECTION, SECTIONS, SYMBOLS, TEXTS,
                     TEXT_SECTION, WRITABLE as DATA, Unit, body, call, push)

# of other functions, of outside names, and of read-only data
OTHERS, OUTSIDES, CONSTANTS = 0x02000000, 0x03000000, 0x04000000
VARIABLES = 0x05000000
# how many functions with a reference an object may have: each has a section of relocations, too
CLAIMING = 2_040
# what a file has besides the bytes of its sections and relocations, where it has few of them
REST = 4_096


def linked(unit, at, bases, outside=None):
    """The bytes of section `at`, where the sections stand at these bases and the outside symbols at their addresses."""
    section, base = unit.sections[at], bases[at]
    data = bytearray(section.data)
    for offset, symbol, kind in section.entries:
        value, place = unit.symbols[symbol][1], unit.symbols[symbol][5]
        start = bases[place - 1] + value if place else outside[symbol]
        addend = struct.unpack_from("<I", data, offset)[0]
        field = start + addend - (0 if kind == ABSOLUTE else base + offset)
        struct.pack_into("<I", data, offset, field & 0xFFFFFFFF)
    return data


def case(unit, regions, symbols, claims=1, interiors=0):
    """What a maker answers, of the first section: its last instruction isn't padding."""
    section = unit.sections[0]
    return unit.bytes(), encode(regions, symbols), section.name, f"ok {len(section.data)} {claims} {interiors}\n"


def alone(code):
    """One function without references."""
    unit = Unit()
    unit.section(".text.f", CODE, code)
    unit.symbol("f", 1, 0, len(code))
    return case(unit, [(CODE_REGION, BASE, code)], [function_symbol(BASE, b"f")])


def code(part):
    """As much code as an object may have, in one function."""
    return alone(MIXED * (int((FILE - REST) * part) // len(MIXED)))


def padding(part):
    """As much padding, and one instruction at its end."""
    return alone(b"\x90" * (int((FILE - REST) * part) - 1) + b"\xc3")


def over_texts(texts, places, running, values):
    """A function that pushes the addresses of these places of a section of texts. In the running program, where other
    texts stand, it pushes those of these values."""
    unit = Unit()
    function = unit.section(".text.f", CODE, body(0, len(places)))
    unit.section(TEXT_SECTION, TEXTS, texts, 1, 1)
    text = unit.symbol("", 2, info=SECTION)
    unit.symbol("f", 1, 0, len(function.data))
    runs = bytearray(function.data)
    for k, (place, value) in enumerate(zip(places, values)):
        push(function, k, text, place)
        struct.pack_into("<I", runs, 6 + 5 * k, CONSTANTS + value)
    regions = [(CODE_REGION, BASE, runs), (READ_ONLY_REGION, CONSTANTS, running)]
    return case(unit, regions, [function_symbol(BASE, b"f")])


def text_bytes(part):
    """How many bytes of texts an object may have besides as many references as it may have."""
    return int((FILE - REST - 13 * RELOCATIONS) * part)


def one_text(part):
    """One text of megabytes, and many references to its beginning."""
    texts = b"a" * (text_bytes(part) - 1) + b"\0"
    places = [0] * int(RELOCATIONS * part)
    return over_texts(texts, places, texts, places)


def suffixes(part):
    """One text of megabytes, and many references into it, each to another place, in no order."""
    size, count = text_bytes(part), int(RELOCATIONS * part)
    places = [k * (size // count) for k in range(count)]
    random.Random(1).shuffle(places)
    texts = b"a" * (size - 1) + b"\0"
    return over_texts(texts, places, texts, places)


def copies(part):
    """Long texts that are equal. In the running program there are more of them, and no two references bring the same
    two together."""
    ours, theirs, count = text_bytes(part), int((MEMORY - 5 * RELOCATIONS - REST) * part), int(RELOCATIONS * part)
    length = isqrt(ours * theirs // count) * 99 // 100
    text = b"a" * (length - 1) + b"\0"
    here, there = ours // length, theirs // length
    pairs = [(k % here * length, k // here * length) for k in range(count)]
    return over_texts(text * here, [pair[0] for pair in pairs], text * there, [pair[1] for pair in pairs])


def tables(part):
    """Read-only tables that all reach each other, in a chain through them all, and spread over as many regions as there
    may be. The function reads one of them."""
    count = (int(SECTIONS * part) - 6) // 2
    fields = (int(RELOCATIONS * part) - 1) // count
    chance = random.Random(1)
    unit = Unit()
    function = unit.section(".text.f", CODE, body(0, 1))
    for i in range(count):
        unit.section(f".rodata.table_{i}", READ_ONLY, bytes(4 * fields), 4)
    symbol = [unit.symbol("", 2 + i, info=SECTION) for i in range(count)]
    unit.symbol("f", 1, 0, len(function.data))
    order = list(range(count))
    chance.shuffle(order)
    push(function, 0, symbol[order[0]], 0)
    for here, there in zip(order, order[1:] + order[:1]):
        unit.sections[1 + here].refer(0, ABSOLUTE, symbol[there], 0)
        for k in range(1, fields):
            unit.sections[1 + here].refer(4 * k, ABSOLUTE, symbol[chance.randrange(count)], 0)
    each = -(-count // (int(REGIONS * part) - 1))
    bases = [BASE] + [CONSTANTS + 4 * fields * i + 4_096 * (i // each) for i in range(count)]
    regions = [(CODE_REGION, BASE, linked(unit, 0, bases))]
    for i in range(1, count + 1, each):
        regions.append((READ_ONLY_REGION, bases[i],
                        b"".join(linked(unit, j, bases) for j in range(i, min(i + each, count + 1)))))
    return case(unit, regions, [function_symbol(BASE, b"f")])


def over_table(part, own):
    """A function that reads a table of addresses inside of itself or of another function."""
    count = int(RELOCATIONS * part) - 1
    inside = b"\x68\0\0\0\0" * count + b"\xc3"
    unit = Unit()
    function = unit.section(".text.f", CODE, body(0, 1) + (inside if own else b""))
    table = unit.section(".rodata.table", READ_ONLY, bytes(4 * count), 4)
    unit.section(".text.g", CODE, inside)
    parts = [unit.symbol("", at, info=SECTION) for at in (1, 2, 3)]
    unit.symbol("f", 1, 0, len(function.data))
    unit.symbol("g", 3, 0, len(inside))
    push(function, 0, parts[1], 0)
    offsets = [(11 if own else 5) + 5 * k for k in range(count)]
    random.Random(1).shuffle(offsets)
    for k, offset in enumerate(offsets):
        table.refer(4 * k, ABSOLUTE, parts[0 if own else 2], offset)
    bases = [BASE, CONSTANTS, OTHERS]
    regions = [(kind, bases[at], linked(unit, at, bases))
               for kind, at in ((CODE_REGION, 0), (CODE_REGION, 2), (READ_ONLY_REGION, 1))]
    symbols = [function_symbol(BASE, b"f"), function_symbol(OTHERS, b"g")]
    return case(unit, regions, symbols, interiors=0 if own else count)


def interiors(part):
    """A read-only table of as many places inside of another function as there may be, in no order."""
    return over_table(part, False)


def own_interiors(part):
    """A read-only table of as many places inside of the function itself, in no order."""
    return over_table(part, True)


def over_outsides(part, section, names):
    """A function of as many calls as there may be, of functions with these names, which the object doesn't define."""
    count = int(RELOCATIONS * part)
    unit = Unit()
    function = unit.section(section, CODE, body(0, count))
    unit.symbol("f", 1, 0, len(function.data))
    symbol = [unit.symbol(name, 0, info=LABEL) for name in names]
    for k in range(count):
        call(function, k, symbol[7_919 * k % len(symbol)])
    outside = {number: OUTSIDES + k for k, number in enumerate(symbol)}
    regions = [(CODE_REGION, BASE, linked(unit, 0, [BASE], outside)), (CODE_REGION, OUTSIDES, b"\xc3" * len(names))]
    symbols = [function_symbol(BASE, b"f")]
    symbols += [function_symbol(OUTSIDES + k, name.encode()) for k, name in enumerate(names)]
    return case(unit, regions, symbols, claims=count + 1)


def outsides(part):
    """As many names as there may be."""
    return over_outsides(part, ".text.f", [f"outside_{k}" for k in range(int(SYMBOLS * part) - 2)])


def long_names(part):
    """Names of 4,096 bytes that differ only at their ends, and such a name for the section."""
    return over_outsides(part, ".text." + "f" * 4_090, ["a" * 4_092 + f"{k:04}" for k in range(int(1_000 * part))])


def reading(section, number, symbol):
    """Makes field `number` of a body that of an instruction that reads a variable."""
    section.data[5 + 5 * number] = 0xA1
    section.refer(6 + 5 * number, ABSOLUTE, symbol, 0)


def unit_of(count, fields, variables):
    """A unit of so many functions with fields, and of variables; the numbers of their section symbols."""
    unit = Unit()
    for i in range(count):
        unit.section(f".text.function_{i}", CODE, body(i, fields), 1)
    for i in range(variables):
        unit.section(f".data.variable_{i}", DATA, bytes(4), 4)
    return unit, [unit.symbol("", 1 + i, info=SECTION) for i in range(count + variables)]


def running(unit, count, outside, symbols):
    """The image of a unit's first sections, which are functions, with further symbols; and where all sections are."""
    bases, at = [], BASE
    for i, section in enumerate(unit.sections):
        bases.append(at if i < count else VARIABLES + 4 * (i - count))
        at += len(section.data)
    content = bytearray().join(linked(unit, i, bases, outside) for i in range(count))
    regions = [(CODE_REGION, BASE, content)] + ([(CODE_REGION, OUTSIDES, b"\xc3")] if outside else [])
    functions = [function_symbol(bases[i], f"function_{i}".encode()) for i in range(count)]
    return regions, functions + symbols, bases


def function_line(number, base):
    return f"code function_{number} {base:#010x}\n"


def calls(part):
    """As many functions as an object may have, each of which calls three others and reads two variables."""
    count, variables = int(2_000 * part), int(80 * part)
    unit, sections = unit_of(count, 5, variables)
    for i in range(count):
        unit.symbol(f"function_{i}", 1 + i, 0, len(unit.sections[i].data))
    read = [[(31 * i + 17 * k) % variables for k in (1, 2)] for i in range(count)]
    for i in range(count):
        for k in range(3):
            call(unit.sections[i], k, sections[(7 * i + 101 * k + 1) % count])
        for k in range(2):
            reading(unit.sections[i], 3 + k, sections[count + read[i][k]])
    regions, symbols, bases = running(unit, count, None, [])
    lines, told = [], set()
    for i in range(count):
        lines.append(function_line(i, bases[i]))
        for number in read[i]:
            if number not in told:
                told.add(number)
                lines.append(f"data .data.variable_{number} {bases[count + number]:#010x}\n")
    return unit.bytes(), encode(regions, symbols), "".join(lines)


def one_name(part):
    """One function against as many functions of its name as an image may have, of which the last one is the same."""
    count = int(SYMBOLS * part)
    unit = Unit()
    unit.section(".text.f", CODE, body(count - 1, 0))
    unit.symbol("f", 1, 0, 6)
    content = b"".join(body(i, 0) for i in range(count))
    image = encode([(CODE_REGION, BASE, content)], [function_symbol(BASE + 6 * i, b"f") for i in range(count)])
    return unit.bytes(), image, f"code f {BASE + 6 * (count - 1):#010x}\n"


def one_outside(part):
    """As many functions as an object may have that all call one outside name."""
    count = int(CLAIMING * part)
    unit, _ = unit_of(count, 1, 0)
    for i in range(count):
        unit.symbol(f"function_{i}", 1 + i, 0, len(unit.sections[i].data))
    shared = unit.symbol("shared", 0, info=LABEL)
    for i in range(count):
        call(unit.sections[i], 0, shared)
    regions, symbols, bases = running(unit, count, {shared: OUTSIDES}, [function_symbol(OUTSIDES, b"shared")])
    lines = [function_line(i, bases[i]) for i in range(count)]
    lines.insert(1, f"outside shared {OUTSIDES:#010x}\n")
    return unit.bytes(), encode(regions, symbols), "".join(lines)


def one_variable(part):
    """As many functions as an object may have that all read one variable. In the running program the last reads
    another."""
    count = int(CLAIMING * part)
    unit, sections = unit_of(count, 1, 1)
    for i in range(count):
        unit.symbol(f"function_{i}", 1 + i, 0, len(unit.sections[i].data))
        reading(unit.sections[i], 0, sections[count])
    regions, symbols, _ = running(unit, count, None, [])
    struct.pack_into("<I", regions[0][2], len(regions[0][2]) - 5, VARIABLES + 8)
    places = [f"{VARIABLES + 8 * k:#010x} at .text.function_{i}+0x6" for k, i in enumerate((0, count - 1))]
    return unit.bytes(), encode(regions, symbols), f"refused 17 conflict .data.variable_0 {places[0]} {places[1]}\n"


BODIES = {make.__name__: make for make in (code, padding, one_text, suffixes, copies, tables, interiors, own_interiors,
                                           outsides, long_names)}
COMMANDS = {make.__name__: make for make in (calls, one_name, one_outside, one_variable)}
