"""Rows of `match` on one function f beside what runs: the first difference, code that can't be matched, and the values
of fields (docs/matching.md)."""
from .encode import absolute, at, image, obj, read_only, relative, sec, variable, writable
from .rows import match

DATA, WORD = 0x00180000, 0x00200000
F = sec(".text.f", "B8 01 00 00 00 C3")
X = sec(".data.x", "00*8")
G = sec(".text.g", "50 58 C3")
G_RUNS = at(0x00100020, "g", "50 58 C3")
COUNTING = "B9 03 00 00 00 49 75 FD C3"
# the programs that know outside names: ext and own at one address, two at that address and the next
NAMED = {"regions": [writable(WORD, "00*8")],
         "symbols": [variable(WORD, "ext"), variable(WORD, "own", local=True), variable(WORD, "two"),
                     variable(WORD + 4, "two")]}
# the texts zz and a; and equal texts, and texts that differ in their first bytes
TEXTS = sec(".rodata.str1.1", "7A 7A 00 61 00")
SHARING = sec(".rodata.str1.1", "61 62 00 61 62 00 78 63 64 00 79 63 64 00")
TWO_BYTES = sec(".rodata.c", "07 08")
# the addresses of the second instruction of f and of ext
TABLE = sec(".rodata.t", "00*8", absolute(0, ".text.f", 6), absolute(4, "ext"))
POINTER = sec(".rodata.p", "00*4", absolute(0, ".data.x"))
# read-only data that refer to each other in a circle
CIRCLE = [sec(".rodata.a", "00*4", absolute(0, ".rodata.b")), sec(".rodata.b", "00*4", absolute(0, ".rodata.a"))]
# the addresses of offsets 9 and 3 of f, and a jump to offset 3
TABLE_INTO_F = sec(".rodata.t", "00*8", absolute(0, ".text.f", 9), absolute(4, ".text.f", 3))
JUMP_INTO_F = sec(".text.g", "E9 00 00 00 00", relative(1, ".text.f", -1))


def unit(pre, others=()):
    """The object of f, the code of which may stand in a tuple with its references, and of other sections."""
    text, *references = (pre,) if isinstance(pre, str) else pre
    return obj(sec(".text.f", text, *references), *others)


def fits(name, pre, runs, *told, others=(), parts=(), **more):
    """f, beside code that it matches, and what is reported besides f's address."""
    return match(name, image(at(0x00100000, "f", runs), *parts, **more), unit(pre, others), "code f 0x00100000", *told)


def differs(name, pre, runs, pair, kind, *, others=(), parts=(), **more):
    """f, beside code from which it differs in a pair, which is given by its number, its offset and its address."""
    number, offset, address = pair
    return match(name, image(at(0x00100000, "f", runs), *parts, **more), unit(pre, others),
                 f"refused 15 mismatch .text.f index {number} pre 0x{offset:x} run 0x{address:08x} {kind}")


def undecoded(name, pre, offset, *others):
    """f with code that can't be matched. What runs isn't looked at."""
    return match(name, image(at(0x00100000, "f", "C3")), unit(pre, others),
                 f"refused 20 pre undecoded .text.f 0x{offset:x}")


FIRST = 0, 0, 0x00100000
# the second pair, after an instruction of five bytes in both, or of one
SECOND, NEXT = (1, 5, 0x00100005), (1, 1, 0x00100001)
THIRD_TEXT = 2, 10, 0x0010000A


def moves(a, b, c):
    """Three moves of a text's address, by the offsets of the texts."""
    return ("B8 00 00 00 00 B9 00 00 00 00 BA 00 00 00 00 C3", absolute(1, ".rodata.str1.1", a),
            absolute(6, ".rodata.str1.1", b), absolute(11, ".rodata.str1.1", c))


def moved(a, b, c):
    """The same as it runs."""
    return f"B8 {a:02X} 00 18 00 B9 {b:02X} 00 18 00 BA {c:02X} 00 18 00 C3"


TEXT_A = "B8 00 00 00 00 C3", absolute(1, ".rodata.str1.1", 3)
MOVES_DATA = "50 B8 00 00 00 00 C3"
OF_TWO_BYTES, OF_TABLE = (MOVES_DATA, absolute(2, ".rodata.c")), (MOVES_DATA, absolute(2, ".rodata.t"))
OF_CIRCLE = "B8 00 00 00 00 C3", absolute(1, ".rodata.a")
READS_TWICE = "A1 00 00 00 00 A1 00 00 00 00 C3", absolute(1, ".data.x"), absolute(6, ".data.x")
CALLS_TWICE = "E8 00 00 00 00 E8 00 00 00 00 C3", relative(1, ".text.g"), relative(6, ".text.g")
CALLS_ITSELF = "E8 00 00 00 00 C3", relative(1, ".text.f")
JUMPS_TO_RETURN = "E9 00 00 00 00 C3", relative(1, ".text.f", 1)
ITS_RETURN = "B8 00 00 00 00 C3", absolute(1, ".text.f", 5)


def moves_outside(name):
    return "B8 00 00 00 00 C3", absolute(1, name)


ROWS = [
    # two instructions that are no direct branch, or are two kinds of branch
    fits("near-jump-for-a-short-one-of-its-condition", "74 01 90 C3", "0F 84 00 00 00 00 C3"),
    differs("jump-of-another-condition", "74 01 90 C3", "75 01 90 C3", FIRST, "opcode"),
    differs("jump-without-a-condition", "74 01 90 C3", "EB 01 90 C3", FIRST, "opcode"),
    differs("another-kind-of-loop", "E0 FE C3", "E2 FE C3", FIRST, "opcode"),
    differs("prefix-before-a-branch", "74 01 90 C3", "2E 74 01 90 C3", FIRST, "opcode"),
    differs("only-the-running-one-is-a-branch", "C3", "EB FE", FIRST, "opcode"),
    differs("only-the-old-one-is-a-branch", "EB FE", "C3", FIRST, "opcode"),
    differs("prefix-before-an-instruction", "8B 00 C3", "3E 8B 00 C3", FIRST, "opcode"),
    differs("opcode-comes-before-operand", "B8 01 00 00 00 C3", "B9 02 00 00 00 C3", FIRST, "opcode"),
    differs("another-instruction-of-one-opcode-is-an-operand", "FF C0 C3", "FF C8 C3", FIRST, "operand"),
    differs("another-displacement-in-more-bytes", "8B 40 04 C3", "8B 80 05 00 00 00 C3", FIRST, "operand"),
    differs("first-pair-that-differs-is-told", "B8 01 00 00 00 B9 01 00 00 00 C3",
            "B8 01 00 00 00 B9 02 00 00 00 C2 00 00", SECOND, "operand"),
    differs("padding-has-no-number", "90 B8 01 00 00 00 66 90 C3", "B8 01 00 00 00 0F 1F 00 C2 00 00",
            (1, 8, 0x00100008), "opcode"),
    fits("other-padding", "90 B8 01 00 00 00 66 90 C3", "B8 01 00 00 00 0F 1F 00 C3"),
    fits("padding-behind-the-return", "B8 01 00 00 00 C3 90", "B8 01 00 00 00 C3 66 90 90"),
    fits("padding-before-the-first-instruction", "C3", "66 90 C3"),

    # numbers of one byte in one of them, and at full width in the other
    fits("immediate-of-four-bytes-for-one-byte", "83 C0 05 C3", "81 C0 05 00 00 00 C3"),
    fits("immediate-of-one-byte-for-four", "81 C3 FB FF FF FF C3", "83 C3 FB C3"),
    fits("push-of-four-bytes-for-one-byte", "6A FF 58 C3", "68 FF FF FF FF 58 C3"),
    fits("displacement-of-one-byte-for-four", "8B 85 08 00 00 00 C3", "8B 45 08 C3"),
    fits("displacement-of-four-bytes-behind-a-sib-byte", "8B 44 24 FC C3", "8B 84 24 FC FF FF FF C3"),
    fits("displacement-of-zero-in-four-bytes", "8B 45 00 C3", "8B 85 00 00 00 00 C3"),
    fits("both-numbers-in-more-bytes", "83 7D 08 05 C3", "81 BD 08 00 00 00 05 00 00 00 C3"),
    fits("one-number-in-more-bytes-and-one-in-fewer", "83 BD 08 00 00 00 05 C3", "81 7D 08 05 00 00 00 C3"),
    fits("immediate-of-two-bytes-with-prefix-66", "66 83 C0 80 C3", "66 81 C0 80 FF C3"),
    fits("jump-over-an-instruction-that-is-longer", "EB 03 83 C0 05 C3", "EB 06 81 C0 05 00 00 00 C3"),
    differs("byte-below-zero-keeps-its-sign", "83 C0 80 C3", "81 C0 80 00 00 00 C3", FIRST, "operand"),
    differs("operation-of-the-wide-opcode-is-an-operand", "83 C0 05 C3", "81 E8 05 00 00 00 C3", FIRST, "operand"),
    differs("displacement-of-zero-is-not-none", "8B 00 C3", "8B 40 00 C3", FIRST, "operand"),
    differs("multiplication-by-a-byte-has-no-wide-form", "6B C0 05 C3", "69 C0 05 00 00 00 C3", FIRST, "opcode"),
    differs("addition-to-eax-by-another-opcode", "83 C0 05 C3", "05 05 00 00 00 C3", FIRST, "opcode"),
    fits("field-behind-a-displacement-of-fewer-bytes", ("C7 85 08 00 00 00 00 00 00 00 C3", absolute(6, ".data.x")),
         "C7 45 08 00 00 20 00 C3", "data .data.x 0x00200000", others=[X]),
    fits("field-behind-a-displacement-of-more-bytes", ("C7 45 08 00 00 00 00 C3", absolute(3, ".data.x")),
         "C7 85 08 00 00 00 00 00 20 00 C3", "data .data.x 0x00200000", others=[X]),
    fits("field-before-an-immediate-of-more-bytes", ("83 3D 00 00 00 00 05 C3", absolute(2, ".data.x")),
         "81 3D 00 00 20 00 05 00 00 00 C3", "data .data.x 0x00200000", others=[X]),
    differs("another-immediate-of-more-bytes-behind-a-field", ("83 3D 00 00 00 00 05 C3", absolute(2, ".data.x")),
            "81 3D 00 00 20 00 06 00 00 00 C3", FIRST, "operand", others=[X]),
    fits("small-value-in-four-bytes", ("8B 85 00 00 00 00 C3", absolute(2, ".data.x")), "8B 85 08 00 00 00 C3",
         "data .data.x 0x00000008", others=[X]),
    differs("displacement-of-one-byte-for-a-field", ("8B 85 00 00 00 00 C3", absolute(2, ".data.x")), "8B 45 08 C3",
            FIRST, "operand", others=[X]),
    differs("immediate-of-one-byte-for-a-field", ("81 C0 00 00 00 00 C3", absolute(2, ".data.x")), "83 C0 08 C3",
            FIRST, "operand", others=[X]),

    # where branches go
    differs("branch-into-the-middle-of-an-instruction", COUNTING, "B9 03 00 00 00 49 75 FC C3",
            (2, 6, 0x00100006), "target"),
    differs("branch-behind-the-end", COUNTING, "B9 03 00 00 00 49 75 10 C3", (2, 6, 0x00100006), "target"),
    differs("branch-one-instruction-before", COUNTING, "B9 03 00 00 00 49 75 F8 C3", (2, 6, 0x00100006), "target"),
    differs("longer-branch-one-instruction-further", COUNTING, "B9 03 00 00 00 49 0F 85 FA FF FF FF C3",
            (2, 6, 0x00100006), "target"),
    fits("call-of-the-function-itself", CALLS_ITSELF, "E8 FB FF FF FF C3"),
    differs("call-of-the-second-byte-of-itself", CALLS_ITSELF, "E8 FC FF FF FF C3", FIRST, "target"),
    fits("jump-by-a-reference-to-the-return", JUMPS_TO_RETURN, "E9 00 00 00 00 C3"),
    fits("jump-by-a-reference-is-shorter", JUMPS_TO_RETURN, "EB 00 C3"),
    fits("jump-by-a-reference-goes-to-padding", JUMPS_TO_RETURN, "EB 00 90 C3"),
    differs("jump-by-a-reference-goes-to-itself", JUMPS_TO_RETURN, "EB FE C3", FIRST, "target"),
    differs("jump-by-a-reference-goes-behind-the-end", JUMPS_TO_RETURN, "EB 01 C3 C3", FIRST, "target"),

    # what runs breaks off
    differs("running-code-ends-behind-padding", "B8 01 00 00 00 C3", "B8 01 00 00 00 66 90", (1, 5, 0x00100007), "end"),
    differs("running-code-ends-inside-an-instruction", "B8 01 00 00 00 C3", "B8 01 00 00", FIRST, "undecoded"),
    differs("prefix-of-address-size-spells-no-instruction", "B8 01 00 00 00 C3", "B8 01 00 00 00 67 90", SECOND,
            "undecoded"),
    differs("branch-behind-the-break-goes-anywhere", "74 01 C3 B8 01 00 00 00 C3", "74 50 C3", (2, 3, 0x00100003),
            "end"),
    differs("branch-to-the-last-behind-the-break-goes-anywhere", "74 06 C3 B8 01 00 00 00 C3", "74 50 C3",
            (2, 3, 0x00100003), "end"),
    differs("branch-before-the-break-does-not", "74 00 C3 B8 01 00 00 00 C3", "74 50 C3", FIRST, "target"),
    differs("address-behind-the-break-may-be-any", ITS_RETURN, "B8 77 77 77 77", SECOND, "end"),

    # code that can't be matched
    undecoded("padding-alone", "90 66 90", 3),
    undecoded("no-instruction-behind-padding", "90 0F FF", 1),
    undecoded("half-of-an-instruction-behind-the-return", "C3 B8 01", 1),
    undecoded("jump-into-itself", "C3 EB FF C3", 1),
    undecoded("jump-behind-the-end", "C3 EB 01 C3", 1),
    undecoded("jump-to-padding-behind-the-last-instruction", "C3 EB 01 C3 90", 1),
    undecoded("jump-before-the-start", "C3 EB FC C3", 1),
    undecoded("field-before-the-immediate", ("B8 00 00 00 00 C3", absolute(0, ".data.x")), 0, X),
    undecoded("field-across-the-immediate", ("B8 00 00 00 00 C3", absolute(2, ".data.x")), 0, X),
    undecoded("field-where-no-immediate-is", ("C3 90 90 90 90 C3", absolute(1, ".data.x")), 1, X),
    undecoded("distance-where-an-address-stands", ("C3 B8 00 00 00 00", relative(2, ".data.x", 0)), 1, X),
    undecoded("address-where-a-distance-stands", ("C3 E9 00 00 00 00", absolute(2, ".data.x")), 1, X),
    undecoded("code-refers-into-its-own-instruction", ("B8 00 00 00 00 C3", absolute(1, ".text.f", 3)), 3),
    undecoded("other-code-refers-into-an-instruction", "B8 00 00 00 00 C3", 3, JUMP_INTO_F),
    undecoded("read-only-data-refers-into-an-instruction", "B8 00 00 00 00 C3", 3, TABLE_INTO_F),
    undecoded("read-only-data-refers-behind-the-end", "50 58 50 58 C3", 9, TABLE_INTO_F),
    undecoded("least-offset-that-can-not-be-matched", "B8 00 00 00 00 0F FF", 3, JUMP_INTO_F),

    # made to mislead
    fits("data-may-refer-into-an-instruction", "B8 00 00 00 00 C3", "B8 00 00 00 00 C3",
         others=[sec(".data.t", "00*4", absolute(0, ".text.f", 3))]),
    fits("read-only-data-in-a-circle", OF_CIRCLE, "B8 00 00 18 00 C3", others=CIRCLE,
         regions=[read_only(DATA, "04 00 18 00 00 00 18 00")]),
    differs("circle-that-does-not-close", OF_CIRCLE, "B8 00 00 18 00 C3", FIRST, "content", others=CIRCLE,
            regions=[read_only(DATA, "04 00 18 00 04 00 18 00")]),
    differs("circle-that-is-half-in-code", OF_CIRCLE, "B8 00 00 18 00 C3 00 00 18 00", FIRST, "content", others=CIRCLE,
            regions=[read_only(DATA, "06 00 10 00")]),
    fits("field-into-the-middle-of-a-text", ("B8 00 00 00 00 C3", absolute(1, ".rodata.str1.1", 1)),
         "B8 00 00 18 00 C3", others=[TEXTS], regions=[read_only(DATA, "7A 00")]),
    differs("text-at-the-end-of-all-addresses", TEXT_A, "B8 FF FF FF FF C3", FIRST, "content", others=[TEXTS]),
    differs("padding-in-the-program-for-a-field", ("8D B6 00 00 00 00 C3", absolute(2, ".data.x")),
            "8D B6 00 00 00 00 C3", (0, 0, 0x00100006), "opcode", others=[X]),
    differs("field-in-padding-of-a-name-that-is-not-listed", ("8D B6 00 00 00 00 C3", absolute(2, "ext")),
            "8D B6 00 00 20 00 C3", FIRST, "value"),
    differs("padding-for-what-is-none-in-the-program", "8D B6 00 00 00 00 C3", "8D B6 00 00 20 00 C3",
            (0, 6, 0x00100000), "opcode"),
    fits("addend-below-zero", ("A1 00 00 00 00 C3", absolute(1, ".data.x", -1)), "A1 FF FF 1F 00 C3",
         "data .data.x 0x00200000", others=[X]),

    # values of variables and outside names
    fits("variable-twice-at-one-address", READS_TWICE, "A1 00 00 20 00 A1 00 00 20 00 C3", "data .data.x 0x00200000",
         others=[X]),
    fits("variable-twice-with-an-addend",
         ("A1 00 00 00 00 A1 00 00 00 00 C3", absolute(1, ".data.x"), absolute(6, ".data.x", 4)),
         "A1 00 00 20 00 A1 04 00 20 00 C3", "data .data.x 0x00200000", others=[X]),
    differs("variable-at-two-addresses", READS_TWICE, "A1 00 00 20 00 A1 04 00 20 00 C3", SECOND, "value", others=[X]),
    differs("variable-at-two-addresses-in-one-instruction",
            ("C7 05 00 00 00 00 00 00 00 00 C3", absolute(2, ".data.x"), absolute(6, ".data.x")),
            "C7 05 00 00 20 00 04 00 20 00 C3", FIRST, "value", others=[X]),
    fits("outside-variable-at-its-listed-address", moves_outside("ext"), "B8 00 00 20 00 C3", "outside ext 0x00200000",
         **NAMED),
    differs("outside-name-is-a-local-symbol", moves_outside("own"), "B8 00 00 20 00 C3", FIRST, "value", **NAMED),
    differs("outside-name-is-not-listed", moves_outside("other"), "B8 00 00 20 00 C3", FIRST, "value", **NAMED),
    differs("outside-variable-is-listed-elsewhere", moves_outside("ext"), "B8 04 00 20 00 C3", FIRST, "value", **NAMED),
    fits("outside-name-is-listed-twice", moves_outside("two"), "B8 04 00 20 00 C3", "outside two 0x00200004", **NAMED),
    differs("outside-name-at-both-its-addresses",
            ("B8 00 00 00 00 B9 00 00 00 00 C3", absolute(1, "two"), absolute(6, "two")),
            "B8 04 00 20 00 B9 00 00 20 00 C3", SECOND, "value", **NAMED),

    # values of functions
    fits("its-own-address", ("B8 00 00 00 00 C3", absolute(1, ".text.f")), "B8 00 00 10 00 C3"),
    differs("another-address-for-its-own", ("B8 00 00 00 00 C3", absolute(1, ".text.f")), "B8 05 00 10 00 C3", FIRST,
            "value"),
    fits("address-of-its-return", ITS_RETURN, "B8 05 00 10 00 90 C3"),
    differs("address-inside-an-instruction-for-its-return", ITS_RETURN, "B8 04 00 10 00 C3", FIRST, "value"),
    differs("its-own-address-for-that-of-its-return", ITS_RETURN, "B8 00 00 10 00 C3", FIRST, "value"),
    fits("another-function-called-twice", CALLS_TWICE, "E8 1B 00 00 00 E8 16 00 00 00 C3", "code g 0x00100020",
         others=[G], parts=[G_RUNS]),
    differs("another-function-called-at-two-addresses", CALLS_TWICE, "E8 1B 00 00 00 E8 1B 00 00 00 C3", SECOND,
            "value", others=[G], parts=[G_RUNS]),
    fits("jump-into-another-function", ("E9 00 00 00 00", relative(1, ".text.g", -2)), "EB 20", "code g 0x00100020",
         others=[G], parts=[G_RUNS]),

    # texts
    fits("text-stands", TEXT_A, "B8 01 00 18 00 C3", others=[TEXTS], regions=[read_only(DATA, "00 61 00")]),
    differs("front-of-another-text", TEXT_A, "B8 00 00 18 00 C3", FIRST, "content", others=[TEXTS],
            regions=[read_only(DATA, "61 62 00")]),
    differs("another-text-stands", TEXT_A, "B8 00 00 18 00 C3", FIRST, "content", others=[TEXTS],
            regions=[read_only(DATA, "62 00")]),
    differs("text-is-the-end-of-what-stands", TEXT_A, "B8 00 00 18 00 C3", FIRST, "content", others=[TEXTS],
            regions=[read_only(DATA, "7A 61 00")]),
    differs("text-in-memory-that-may-be-written", TEXT_A, "B8 00 00 18 00 C3", FIRST, "content", others=[TEXTS],
            regions=[writable(DATA, "61 00")]),
    differs("zero-of-a-text-in-memory-that-may-be-written", TEXT_A, "B8 00 00 18 00 C3", FIRST, "content",
            others=[TEXTS], regions=[read_only(DATA, "61"), writable(DATA + 1, "00")]),
    differs("text-in-no-memory", TEXT_A, "B8 00 00 18 00 C3", FIRST, "content", others=[TEXTS]),
    fits("one-text-at-two-places", ("B8 00 00 00 00 B9 00 00 00 00 C3", absolute(1, ".rodata.str1.1", 3),
                                    absolute(6, ".rodata.str1.1", 3)), "B8 00 00 18 00 B9 02 00 18 00 C3",
         others=[TEXTS], regions=[read_only(DATA, "61 00 61 00")]),
    fits("equal-texts-each-at-a-copy-and-both-at-one", moves(0, 3, 3), moved(0, 3, 0), others=[SHARING],
         regions=[read_only(DATA, "61 62 00 61 62 00")]),
    differs("equal-texts-of-which-one-is-no-copy", moves(0, 3, 3), moved(0, 0, 3), THIRD_TEXT, "content",
            others=[SHARING], regions=[read_only(DATA, "61 62 00 62 62 00")]),
    fits("texts-that-share-their-ends", moves(6, 10, 7), moved(0, 4, 5), others=[SHARING],
         regions=[read_only(DATA, "78 63 64 00 79 63 64 00")]),
    differs("second-text-where-the-first-one-stands", moves(6, 10, 10), moved(0, 4, 0), THIRD_TEXT, "content",
            others=[SHARING], regions=[read_only(DATA, "78 63 64 00 79 63 64 00")]),
    differs("first-text-where-the-second-one-stands", moves(10, 6, 6), moved(4, 0, 4), THIRD_TEXT, "content",
            others=[SHARING], regions=[read_only(DATA, "78 63 64 00 79 63 64 00")]),
    differs("shared-end-stands-and-the-whole-text-does-not", moves(7, 11, 6), moved(1, 1, 0), THIRD_TEXT, "content",
            others=[SHARING], regions=[read_only(DATA, "7A 63 64 00")]),
    fits("whole-text-after-its-shared-end", moves(7, 10, 6), moved(1, 0, 4), others=[SHARING],
         regions=[read_only(DATA, "79 63 64 00 78 63 64 00")]),

    # read-only data. Before the move that refers to it stands another instruction
    fits("read-only-data-stands", OF_TWO_BYTES, "50 B8 01 00 18 00 C3", others=[TWO_BYTES],
         regions=[read_only(DATA, "00 07 08")]),
    differs("read-only-data-of-another-last-byte", OF_TWO_BYTES, "50 B8 00 00 18 00 C3", NEXT, "content",
            others=[TWO_BYTES], regions=[read_only(DATA, "07 09")]),
    differs("read-only-data-in-memory-that-may-be-written", OF_TWO_BYTES, "50 B8 00 00 18 00 C3", NEXT, "content",
            others=[TWO_BYTES], regions=[writable(DATA, "07 08")]),
    differs("last-byte-of-read-only-data-may-be-written", OF_TWO_BYTES, "50 B8 00 00 18 00 C3", NEXT, "content",
            others=[TWO_BYTES], regions=[read_only(DATA, "07"), writable(DATA + 1, "08")]),
    differs("read-only-data-at-two-places",
            ("B8 00 00 00 00 B9 00 00 00 00 C3", absolute(1, ".rodata.c"), absolute(6, ".rodata.c")),
            "B8 00 00 18 00 B9 02 00 18 00 C3", SECOND, "value", others=[TWO_BYTES],
            regions=[read_only(DATA, "07 08 07 08")]),
    fits("table-of-an-instruction-and-an-outside-name", OF_TABLE, "50 B8 00 00 18 00 C3", "outside ext 0x00200000",
         others=[TABLE], regions=[read_only(DATA, "06 00 10 00 00 00 20 00"), *NAMED["regions"]],
         symbols=NAMED["symbols"]),
    differs("table-of-another-instruction", OF_TABLE, "50 B8 00 00 18 00 C3", NEXT, "content", others=[TABLE],
            regions=[read_only(DATA, "01 00 10 00 00 00 20 00"), *NAMED["regions"]], symbols=NAMED["symbols"]),
    differs("table-of-a-name-that-is-listed-elsewhere", OF_TABLE, "50 B8 00 00 18 00 C3", NEXT, "content",
            others=[TABLE], regions=[read_only(DATA, "06 00 10 00 04 00 20 00"), *NAMED["regions"]],
            symbols=NAMED["symbols"]),
    differs("pointer-to-a-variable-that-was-elsewhere",
            ("A1 00 00 00 00 B8 00 00 00 00 C3", absolute(1, ".data.x"), absolute(6, ".rodata.p")),
            "A1 00 00 20 00 B8 00 00 18 00 C3", SECOND, "content", others=[X, POINTER],
            regions=[read_only(DATA, "04 00 20 00")]),
    differs("variable-elsewhere-than-the-pointer-to-it",
            ("B8 00 00 00 00 A1 00 00 00 00 C3", absolute(1, ".rodata.p"), absolute(6, ".data.x")),
            "B8 00 00 18 00 A1 00 00 20 00 C3", SECOND, "value", others=[X, POINTER],
            regions=[read_only(DATA, "04 00 20 00")]),

    # several kinds in one instruction
    differs("opcode-comes-before-value", moves_outside("other"), "B9 00 00 20 00 C3", FIRST, "opcode", **NAMED),
    differs("operand-comes-before-value", ("C7 05 00 00 00 00 00 00 00 00 C3", absolute(2, "other")),
            "C7 05 00 00 20 00 01 00 00 00 C3", FIRST, "operand", **NAMED),
    differs("value-comes-before-content",
            ("C7 05 00 00 00 00 00 00 00 00 C3", absolute(2, ".rodata.str1.1", 3), absolute(6, "other")),
            "C7 05 00 00 18 00 00 00 20 00 C3", FIRST, "value", others=[TEXTS], **NAMED),
    differs("text-does-not-stand-and-the-outside-name-fits",
            ("C7 05 00 00 00 00 00 00 00 00 C3", absolute(2, ".rodata.str1.1", 3), absolute(6, "ext")),
            "C7 05 00 00 18 00 00 00 20 00 C3", FIRST, "content", others=[TEXTS], **NAMED),
]
