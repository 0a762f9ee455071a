"""Makes the images that `bench/code` times: an encoder of images, which other scripts have, too, and a maker a case.

A maker takes a part of the limits (0.5 or 1.0). It answers the image's bytes, the name that `ksplice code` is asked
for, the output's first and last line, and the bytes of code that are listed.
"""
import random
import struct

REGIONS, SYMBOLS, STACKS, MEMORY, FILE = 1_024, 65_536, 64, 16_777_216, 33_554_432
FUNCTION_BYTES = 1_048_576
CODE, READ_ONLY, WRITABLE = 1, 2, 3
FUNCTION, LOCAL, GLOBAL = 1, 0, 1
BASE = 0x00100000

# what a compiler's code is made of: MOV, ADD, CMP, TEST, LEA, short and near jumps, PUSH, POP, CALL, a padding LEA
MIXED = bytes.fromhex(
    "8b442404 83c007 83e0f8 39c2 85c0 740f 0f8400000000 8d3485 00001000 50 58 e800000000 c7042401000000 "
    "8db600000000 6690 89c8 c3"
)


def encode(regions, symbols, stacks=(), arena=(0, 0)):
    """The image of regions (kind, base, bytes), symbols (address, kind, binding, name), and stacks and an arena
    (low, high)."""
    out = [b"KIM1", struct.pack("<5I", len(regions), len(symbols), len(stacks), *arena)]
    for kind, base, content in regions:
        out += [struct.pack("<3I", kind, base, len(content)), content]
    for address, kind, binding, name in symbols:
        out += [struct.pack("<4I", address, kind, binding, len(name)), name]
    return b"".join(out + [struct.pack("<2I", *stack) for stack in stacks])


def function_symbol(address, name, binding=GLOBAL):
    return address, FUNCTION, binding, name


def spread(part):
    """Regions of all the memory that may be, a page apart."""
    count = int(REGIONS * part)
    size = MEMORY // REGIONS
    return [(CODE, BASE + i * (size + 4096), b"\x90" * size) for i in range(count)]


def many(part, order):
    """As many regions and symbols as may be in an image near its limit, with long names; the addresses in an order."""
    regions = spread(part)
    count = int(SYMBOLS * part)
    places = [(BASE + (i * 1021) % len(regions) * (MEMORY // REGIONS + 4096) + i // len(regions)) for i in range(count)]
    order(places)
    numbers = list(range(count))
    random.Random(2).shuffle(numbers)
    symbols = [function_symbol(place, b"%05d" % number + b"n" * 230) for place, number in zip(places, numbers)]
    line = "refused 31 no symbol nope"
    return encode(regions, symbols), "nope", line, line, 0


def ascending(part):
    return many(part, lambda places: places.sort())


def descending(part):
    return many(part, lambda places: places.sort(reverse=True))


def shuffled(part):
    return many(part, lambda places: random.Random(1).shuffle(places))


def one_address(part):
    """All symbols have one address and one name, as a stranger's may."""
    count = int(SYMBOLS * part)
    image = encode([(CODE, BASE, b"\xc3")], [function_symbol(BASE, b"f")] * count)
    return image, "f", f"0x{BASE:08x} 1 c3", f"end 0x{BASE + 1:08x}", 1


def listed(part, content):
    """One function of a MiB, or half of it."""
    size = int(FUNCTION_BYTES * part)
    code = (content * (size // len(content) + 1))[: size - size % len(content)]
    first = content[:4] if content is MIXED else content[:1]
    first_line = f"0x{BASE:08x} {len(first)} {first.hex(' ')}" + ("" if content is MIXED else " padding")
    image = encode([(CODE, BASE, code)], [function_symbol(BASE, b"f")])
    return image, "f", first_line, f"end 0x{BASE + len(code):08x}", len(code)


def function(part):
    return listed(part, MIXED)


def padding(part):
    return listed(part, b"\x90")


CASES = {case.__name__: case for case in (ascending, descending, shuffled, one_address, function, padding)}
