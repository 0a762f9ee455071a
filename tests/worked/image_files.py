"""Rows of images that are refused, and of the smallest one (docs/image.md)."""
from .encode import at, edit, function, image, read_only, variable, writable
from .files import PROGRAM
from .rows import call, code, run

# where the stack stands in the image of f and main, and where the image ends
STACK, END = len(PROGRAM) - 8, len(PROGRAM)
# a field's offset and another value for it, and the offset and kind that are reported
FIELDS = {
    "too-many-regions": (4, 1025, 4, "limit"),
    "too-many-symbols": (8, 65537, 8, "limit"),
    "too-many-stacks": (12, 65, 12, "limit"),
    "an-odd-arena": (16, 0x00800008, 16, "range"),
    "an-arena-upside-down": (20, 0x007FFFF0, 20, "range"),
    "too-large-an-arena": (20, 0x01800010, 20, "limit"),
    "an-unknown-region-kind": (24, 4, 24, "kind"),
    "a-region-on-page-zero": (28, 0x00000FF0, 28, "range"),
    "a-region-of-no-bytes": (32, 0, 32, "limit"),
    "a-region-in-the-arena": (28, 0x007FFFF0, 32, "order"),
    "a-function-outside-code": (68, 0x00100020, 72, "range"),
    "an-unknown-symbol-kind": (72, 3, 72, "kind"),
    "a-symbol-without-a-name": (80, 0, 80, "name"),
    "a-small-stack": (STACK + 4, 0x00400010, STACK + 4, "range"),
}
IN_THE_ARENA = edit(edit(PROGRAM, STACK, 0x00800000), STACK + 4, 0x00801000)

# an image with a region and a symbol of each kind and two stacks that touch, and where its fields stand
WHOLE = image(at(0x00100000, None, "90 C3"), regions=[read_only(0x00100002, "07 08 09"), writable(0x00200000, "05")],
              symbols=[function(0x00100001, "main"), variable(0x00100002, "two", local=True),
                       variable(0x00200000, "w")],
              stacks=[(0x02000000, 0x02000100), (0x02000100, 0x02000120)], arena=(0x00800000, 0x00900000))
MARK, REGIONS, SYMBOLS, STACKS, LOW, HIGH = 0, 4, 8, 12, 16, 20
CODE, CONSTANTS, VARIABLES = 24, 38, 53  # a region's kind; its base and its length stand 4 and 8 after it
MAIN, TWO, W = 66, 86, 105  # a symbol's address; its kind, its binding, its name's length and its name stand after it
FIRST, SECOND = 122, 130  # a stack's low; its high stands 4 after it
BASE, LENGTH, KIND, BINDING, NAME_LENGTH, NAME, TOP = 4, 8, 4, 8, 12, 16, 4
# other fields with which it is still an image
ACCEPTED = {
    "the-largest-arena": {HIGH: 0x01800000},
    "an-empty-arena-at-zero": {LOW: 0, HIGH: 0},
    "an-empty-arena-at-the-end": {LOW: 0xFFFFFFF0, HIGH: 0xFFFFFFF0},
    "the-lowest-arena": {LOW: 0x1000, HIGH: 0x2000},
    "the-highest-arena": {LOW: 0xFFFE0000, HIGH: 0xFFFF0000},
    "the-lowest-region": {CODE + BASE: 0x1000, MAIN: 0x1001},
    "the-highest-region": {VARIABLES + BASE: 0xFFFEFFFF, W: 0xFFFEFFFF},
    "a-region-right-below-the-arena": {VARIABLES + BASE: 0x007FFFFF, W: 0x007FFFFF},
    "a-region-right-above-the-arena": {VARIABLES + BASE: 0x00900000, W: 0x00900000},
    "a-symbol-at-the-last-byte-of-a-region": {TWO: 0x00100004},
    "a-stack-right-below-a-region": {FIRST: 0x000FFFE0, FIRST + TOP: 0x00100000},
    "a-stack-right-below-the-arena": {FIRST: 0x007FFFE0, FIRST + TOP: 0x00800000},
    "a-stack-right-above-the-arena": {FIRST: 0x00900000, FIRST + TOP: 0x00900020},
    "the-lowest-stack": {FIRST: 0x1000, FIRST + TOP: 0x1020},
    "the-highest-stack": {SECOND: 0xFFFEFFE0, SECOND + TOP: 0xFFFF0000},
    "as-large-stacks-as-may-be": {FIRST + TOP: 0x02FFFFE0, SECOND: 0x02FFFFE0, SECOND + TOP: 0x03000000},
}
# other fields with which it is none, and the offset and kind that are reported
REFUSED = {
    "as-many-regions-as-may-be": ({REGIONS: 1024}, MAIN, "kind"),
    "as-many-symbols-as-may-be": ({SYMBOLS: 65536}, FIRST + 4, "kind"),
    "as-many-stacks-as-may-be": ({STACKS: 64}, len(WHOLE), "short"),
    "an-odd-high-of-the-arena": ({HIGH: 0x00900008}, HIGH, "range"),
    "too-large-and-odd-an-arena": ({HIGH: 0x01800018}, HIGH, "limit"),
    "an-arena-from-the-end-to-zero": ({LOW: 0xFFFFFFF0, HIGH: 0}, HIGH, "range"),
    "an-arena-below-the-lowest": ({LOW: 0x0FF0, HIGH: 0x1000}, HIGH, "range"),
    "an-arena-from-zero": ({LOW: 0, HIGH: 16}, HIGH, "range"),
    "an-arena-above-the-highest": ({LOW: 0xFFFE0000, HIGH: 0xFFFF0010}, HIGH, "range"),
    "region-kind-zero": ({CODE: 0}, CODE, "kind"),
    "a-region-right-below-the-lowest": ({CODE + BASE: 0x0FFF}, CODE + BASE, "range"),
    "as-large-a-region-as-may-be": ({CODE + BASE: 0x01000000, CODE + LENGTH: 16777216}, len(WHOLE), "short"),
    "too-large-a-region": ({CODE + BASE: 0x01000000, CODE + LENGTH: 16777217}, CODE + LENGTH, "limit"),
    "as-large-regions-as-may-be": ({VARIABLES + BASE: 0x01000000, VARIABLES + LENGTH: 16777211}, len(WHOLE), "short"),
    "too-large-regions": ({VARIABLES + BASE: 0x01000000, VARIABLES + LENGTH: 16777212}, VARIABLES + LENGTH, "limit"),
    "too-large-regions-past-the-end":
        ({VARIABLES + BASE: 0xFFFEFFFF, VARIABLES + LENGTH: 16777212}, VARIABLES + LENGTH, "limit"),
    "an-empty-region-inside-another":
        ({CONSTANTS + BASE: 0x00100001, CONSTANTS + LENGTH: 0}, CONSTANTS + LENGTH, "limit"),
    "a-region-above-the-highest": ({VARIABLES + BASE: 0xFFFF0000}, VARIABLES + LENGTH, "range"),
    "a-region-over-the-highest-end":
        ({VARIABLES + BASE: 0xFFFEFFFF, VARIABLES + LENGTH: 2}, VARIABLES + LENGTH, "range"),
    "a-region-at-the-last-address": ({VARIABLES + BASE: 0xFFFFFFFF}, VARIABLES + LENGTH, "range"),
    "a-region-that-meets-another-past-the-end":
        ({CODE + BASE: 0xFFFEFFF0, CONSTANTS + BASE: 0xFFFEFFF1, CONSTANTS + LENGTH: 16}, CONSTANTS + LENGTH, "range"),
    "regions-that-meet": ({CONSTANTS + BASE: 0x00100001}, CONSTANTS + LENGTH, "order"),
    "regions-that-descend": ({CONSTANTS + BASE: 0x000FF000}, CONSTANTS + LENGTH, "order"),
    "a-region-at-the-first-byte-of-the-arena": ({VARIABLES + BASE: 0x00800000}, VARIABLES + LENGTH, "order"),
    "a-region-at-the-last-byte-of-the-arena": ({VARIABLES + BASE: 0x008FFFFF}, VARIABLES + LENGTH, "order"),
    "a-region-that-reaches-into-the-arena":
        ({VARIABLES + BASE: 0x007FFFFF, VARIABLES + LENGTH: 2}, VARIABLES + LENGTH, "order"),
    "symbol-kind-zero": ({MAIN + KIND: 0}, MAIN + KIND, "kind"),
    "an-unknown-kind-of-symbol-in-no-region": ({MAIN: 5, MAIN + KIND: 3}, MAIN + KIND, "kind"),
    "a-function-in-no-region": ({MAIN: 5}, MAIN + KIND, "range"),
    "a-function-in-read-only-memory": ({MAIN: 0x00100002}, MAIN + KIND, "range"),
    "a-variable-in-code": ({TWO: 0x00100001}, TWO + KIND, "range"),
    "a-variable-behind-its-region": ({TWO: 0x00100005}, TWO + KIND, "range"),
    "a-function-in-writable-memory": ({W + KIND: 1}, W + KIND, "range"),
    "an-unknown-binding": ({MAIN + BINDING: 2}, MAIN + BINDING, "kind"),
    "the-longest-name": ({MAIN + NAME_LENGTH: 0x1000}, len(WHOLE), "short"),
    "too-long-a-name": ({MAIN + NAME_LENGTH: 0x1001}, MAIN + NAME_LENGTH, "limit"),
    "a-zero-at-the-begin-of-a-name": ({MAIN + NAME: 0x6E696100}, MAIN + NAME, "name"),
    "a-zero-at-the-end-of-a-name": ({MAIN + NAME: 0x0069616D}, MAIN + NAME, "name"),
    "an-odd-low-of-a-stack": ({FIRST: 0x02000008}, FIRST, "range"),
    "a-stack-right-below-the-lowest": ({FIRST: 0x0FF0}, FIRST, "range"),
    "a-stack-of-sixteen-bytes": ({FIRST + TOP: 0x02000010}, FIRST + TOP, "range"),
    "a-stack-upside-down": ({FIRST + TOP: 16777216}, FIRST + TOP, "range"),
    "too-large-a-stack": ({FIRST + TOP: 0x03000010}, FIRST + TOP, "limit"),
    "too-large-and-odd-a-stack": ({FIRST + TOP: 0x03000018}, FIRST + TOP, "limit"),
    "too-large-stacks": ({SECOND + TOP: 0x03000010}, SECOND + TOP, "limit"),
    "too-large-a-stack-over-regions": ({FIRST: 0x00100000, FIRST + TOP: 0x01100010}, FIRST + TOP, "limit"),
    "an-odd-high-of-a-stack": ({FIRST + TOP: 0x020000F8}, FIRST + TOP, "range"),
    "a-stack-over-the-highest-end": ({SECOND: 0xFFFEFFE0, SECOND + TOP: 0xFFFF0010}, SECOND + TOP, "range"),
    "an-odd-high-of-a-stack-in-a-region": ({FIRST: 0x00100000, FIRST + TOP: 0x00100028}, FIRST + TOP, "range"),
    "stacks-that-meet": ({SECOND: 0x020000F0}, SECOND + TOP, "order"),
    "stacks-that-descend": ({SECOND: 16777216, SECOND + TOP: 16777248}, SECOND + TOP, "order"),
    "a-stack-that-reaches-into-a-region": ({FIRST: 0x000FFFE0, FIRST + TOP: 0x00100010}, FIRST + TOP, "order"),
    "a-stack-from-the-first-byte-of-a-region": ({FIRST: 0x00100000, FIRST + TOP: 0x00100020}, FIRST + TOP, "order"),
    "a-stack-around-a-region": ({FIRST: 0x001FFFF0, FIRST + TOP: 0x00200010}, FIRST + TOP, "order"),
    "a-stack-at-the-end-of-the-arena": ({FIRST: 0x008FFFE0, FIRST + TOP: 0x00900000}, FIRST + TOP, "order"),
    "a-stack-around-the-arena": ({FIRST: 0x00700000, FIRST + TOP: 0x00A00000}, FIRST + TOP, "order"),
    "a-broken-arena-before-a-region-and-a-stack": ({LOW: 8, CODE: 4, FIRST: 8}, LOW, "range"),
    "a-broken-region-before-a-symbol": ({CODE: 4, MAIN + BINDING: 2}, CODE, "kind"),
    "a-broken-symbol-before-a-stack": ({MAIN + BINDING: 2, SECOND + TOP: 0}, MAIN + BINDING, "kind"),
}
# as many regions and stacks as there may be, and a name as long as one may be
LARGE = image(at(0x1000, "n" * 4096, "90"), regions=[(1, 0x1000 + 2 * i, b"\x90") for i in range(1, 1024)],
              stacks=[(0x10000 + 32 * i, 0x10020 + 32 * i) for i in range(64)], arena=(0, 0))


def whole(fields):
    """The image with other fields."""
    file = WHOLE
    for offset, value in fields.items():
        file = edit(file, offset, value)
    return file


def short(name, file):
    """A session with an image that ends too early."""
    return call(name, "run image.kim script.txt", {"image.kim": file, "script.txt": b""},
                f"refused 28 bad image at {len(file)} short")


def refused(name, file, offset, kind):
    return code(name, file, "f", f"refused 28 bad image at {offset} {kind}")


ROWS = [
    run("smallest-image-and-empty-script", b"KIM1" + bytes(20), []),
    *(short(f"image-cut-at-{n:03}", PROGRAM[:n]) for n in range(END)),
    short("image-of-four-bytes-is-short", b"KIM1"),
    refused("listing-in-an-image-of-four-bytes", b"KIM1", 4, "short"),
    refused("image-with-another-mark", b"KIM2" + PROGRAM[4:], 0, "magic"),
    *(refused(f"image-with-{name}", edit(PROGRAM, offset, value), told, kind)
      for name, (offset, value, told, kind) in FIELDS.items()),
    run("image-with-a-region-and-a-symbol-of-each-kind", WHOLE, []),
    *(run(f"image-with-{name}", whole(fields), []) for name, fields in ACCEPTED.items()),
    *(refused(f"image-with-{name}", whole(fields), told, kind) for name, (fields, told, kind) in REFUSED.items()),
    run("image-with-as-many-regions-and-stacks-as-may-be", LARGE, []),
    refused("large-image-with-a-byte-too-many", LARGE + b"\0", len(LARGE), "trailing"),
    refused("image-with-a-stack-in-the-arena", IN_THE_ARENA, STACK + 4, "order"),
    refused("image-with-a-byte-too-many", PROGRAM + b"\0", END, "trailing"),
]
