"""Rows of `link`: the image that objects are linked to, why they can't be, and what is found in such an image
(docs/linking.md)."""
from .encode import LOCAL_FUNCTION, VARIABLE, Section, absolute, data, edit, four_stacks, function, header_at
from .encode import images, obj, relative, sec, variable
from .files import BARE_PROGRAM, MAIN_SECTION, f_alone, f_and_main, f_calling
from .rows import Row, call, code, match, run

LOCAL_VARIABLE, WEAK_FUNCTION, ALIGNMENT = 0x01, 0x22, 32
MOST = 8_388_608


def linked(code="", read_only="", writable="", symbols=()):
    """The image of regions with these bytes, each of which is there if it has some."""
    kinds = (images.CODE, 0x00100000, code), (images.READ_ONLY, 0x02000000, read_only), (
        images.WRITABLE, 0x03000000, writable)
    regions = [(kind, base, data(text)) for kind, base, text in kinds if text]
    return images.encode(regions, symbols, four_stacks(0x05000000, 0x10000), (0x04000000, 0x04100000))


def link(name, objects, image, remark=""):
    """A row of objects by their files' names, in order, and their image."""
    return Row(name, ["link", *objects], objects, image, 0, remark, None, None)


def refused(name, objects, line, **more):
    return call(name, " ".join(["link", *objects]), objects, f"refused {line}", **more)


def with_symbols(name, text, *symbols):
    """A section with symbols of any kind: name, value, size and info."""
    return Section(name, data(text), (), list(symbols))


def aligned(file, section, alignment):
    """The object with another alignment of a section."""
    return edit(file, header_at(file, section) + ALIGNMENT, alignment)


def zeros(size):
    return obj(Section(".bss.b", bytes(size), (), []))


LOCAL_F = obj(with_symbols(".text.f", "C3", ("f", 0, 1, LOCAL_FUNCTION)))
WEAK_F = obj(with_symbols(".text.f", "C3", ("f", 0, 1, WEAK_FUNCTION)))
MANY = obj(with_symbols(".data.d", "00*4", *((f"s{i}", 0, 0, LOCAL_VARIABLE) for i in range(32_769))))
NOT_DEFINED = obj(f_calling("nope"))
CALLER = obj(MAIN_SECTION._replace(references=(relative(1, "f"),)))
# two objects with sections of each kind, and with references to each other
ALL_KINDS = {
    "a.o": obj(sec(".text.f", "A1 00 00 00 00 A1 00 00 00 00 C3", absolute(1, ".data.x"), absolute(6, "y", 4)),
               sec(".data.x", "01 02 03 04", variable="x"), sec(".rodata.t", "05 06 07 08 09", variable="t")),
    "b.o": obj(sec(".text.g", "E8 00 00 00 00 C3", relative(1, "f")), sec(".bss.y", "00*6", variable="y"),
               sec(".rodata.str1.1", "68 69 00"))}
# a table of two addresses of texts, and one of the place in the middle of a function
TABLES = obj(sec(".rodata.p", "00*12", absolute(0, ".rodata.str1.1", 3), absolute(4, ".text.f", 5),
                 absolute(8, ".text.f")),
             sec(".rodata.str1.1", "61 62 00 63 00"), sec(".text.f", "B8 01 00 00 00 C3"))

ROWS = [
    link("object-is-linked-to-an-image", {"a.o": f_and_main(1)}, BARE_PROGRAM),
    link("two-objects-are-linked-in-order", {"a.o": f_alone(1), "b.o": CALLER}, BARE_PROGRAM,
         "main is in the second object, and calls f by its name"),
    link("outside-name-of-a-later-object", {"b.o": CALLER, "a.o": f_alone(1)},
         linked("E8 0B 00 00 00 C3 90*10 B8 01 00 00 00 C3",
                symbols=[function(0x00100000, "main"), function(0x00100010, "f")])),
    link("sections-of-all-kinds", ALL_KINDS,
         linked("A1 00 00 00 03 A1 08 00 00 03 C3 90*5 E8 EB FF FF FF C3", "05 06 07 08 09 00*3 68 69 00",
                "01 02 03 04 00*6",
                [function(0x00100000, "f"), variable(0x03000000, "x"), variable(0x02000000, "t"),
                 function(0x00100010, "g"), variable(0x03000004, "y")])),
    link("texts-and-interiors-in-a-table", {"a.o": TABLES},
         linked("B8 01 00 00 00 C3", "0F 00 00 02 05 00 10 00 00 00 10 00 61 62 00 63 00",
                symbols=[function(0x00100000, "f")])),
    link("texts-are-not-merged", {
        "a.o": obj(sec(".rodata.str1.1", "68 69 00")), "b.o": obj(sec(".rodata.str1.1", "68 69 00"))},
         linked(read_only="68 69 00 00 68 69 00")),
    link("object-without-sections", {"a.o": obj()}, linked()),
    link("greater-alignment-of-code", {"a.o": f_alone(1), "b.o": aligned(obj(sec(".text.g", "C3")), 1, 64)},
         linked("B8 01 00 00 00 C3 90*58 C3", symbols=[function(0x00100000, "f"), function(0x00100040, "g")])),
    link("less-alignment-than-the-region-s", {
        "a.o": aligned(obj(sec(".data.x", "01", variable="x")), 1, 1),
        "b.o": aligned(obj(sec(".data.y", "02", variable="y")), 1, 0)},
         linked(writable="01 00*3 02", symbols=[variable(0x03000000, "x"), variable(0x03000004, "y")])),
    link("local-functions-of-one-name", {"a.o": LOCAL_F, "b.o": LOCAL_F},
         linked("C3 90*15 C3", symbols=[function(0x00100000, "f", images.LOCAL),
                                        function(0x00100010, "f", images.LOCAL)])),
    link("object-named-sixteen-times", {"a.o": obj(with_symbols(".data.x", "01", ("x", 0, 1, LOCAL_VARIABLE)))},
         linked(writable="01 00*3", symbols=[variable(0x03000000, "x", True)]))._replace(
        words=["link", *["a.o"] * 16],
        output=linked(writable="01 00*3 " * 15 + "01",
                      symbols=[variable(0x03000000 + 4 * i, "x", True) for i in range(16)])),
    link("variable-at-its-section-s-end", {
        "a.o": obj(with_symbols(".data.x", "01 02", ("x", 1, 1, VARIABLE), ("end", 2, 0, VARIABLE)))},
         linked(writable="01 02", symbols=[variable(0x03000001, "x")])),
    link("symbols-without-names", {
        "a.o": obj(with_symbols(".text.f", "C3", ("", 0, 1, LOCAL_FUNCTION)),
                   with_symbols(".data.x", "01", ("", 0, 1, VARIABLE), ("x", 0, 1, VARIABLE)))},
         linked("C3", writable="01", symbols=[variable(0x03000000, "x")])),

    code("code-of-a-linked-image", BARE_PROGRAM, "main", "0x00100010 5 e8 eb ff ff ff", "0x00100015 1 c3",
         "end 0x00100016"),
    match("object-is-found-where-it-was-linked", BARE_PROGRAM, f_and_main(1), "code f 0x00100000",
          "code main 0x00100010"),
    run("linked-image-runs-on-four-stacks", BARE_PROGRAM,
        [*((f"spawn main {i}", f"spawned {i} 0x00100010 main+0x0") for i in range(4)),
         ("spawn main 4", "refused 32 no stack"), ("step 3 9", "stepped 3 5 exited 0x00000001")]),

    refused("object-linked-twice", {"a.o": f_and_main(1), "b.o": f_and_main(1)}, "40 double global f"),
    refused("weak-functions-of-one-name", {"a.o": WEAK_F, "b.o": WEAK_F}, "40 double global f"),
    refused("function-and-variable-of-one-name", {"a.o": f_alone(1), "b.o": obj(sec(".data.x", "01", variable="f"))},
            "40 double global f"),
    refused("second-of-two-double-names-comes-first", {
        "a.o": obj(sec(".data.x", "01", variable="x"), sec(".data.y", "01", variable="y")),
        "b.o": obj(sec(".data.y", "01", variable="y"), sec(".data.x", "01", variable="x"))}, "40 double global y"),
    refused("name-that-no-object-defines", {"a.o": NOT_DEFINED}, "41 undefined nope"),
    refused("name-that-is-local-elsewhere", {"a.o": CALLER, "b.o": LOCAL_F}, "41 undefined f"),
    refused("double-name-before-an-undefined-one", {"a.o": NOT_DEFINED, "b.o": NOT_DEFINED},
            "40 double global f"),
    refused("too-many-bytes-to-link", {"a.o": zeros(MOST), "b.o": zeros(MOST), "c.o": zeros(1)},
            "42 link too large bytes"),
    refused("too-many-bytes-with-what-stands-between", {"a.o": zeros(MOST - 1), "b.o": zeros(MOST), "c.o": f_alone(1)},
            "42 link too large bytes"),
    refused("too-many-symbols-to-link", {"a.o": MANY, "b.o": MANY}, "42 link too large symbols"),
    refused("too-large-before-a-double-name", {"a.o": MANY, "b.o": MANY, "c.o": f_alone(1), "d.o": f_alone(1)},
            "42 link too large symbols"),
    refused("second-object-is-no-object", {"a.o": NOT_DEFINED, "b.o": b""}, "1 not elf"),
    refused("first-broken-object", {
        "a.o": obj(sec(".text.f", "C3"), sec(".text.f", "C3", functions={"g": 0})), "b.o": b""},
            "9 double name .text.f"),
    call("objects-are-loaded-before-one-is-read", "link a.o x.o", {"a.o": b""}, "file x.o missing"),
]
