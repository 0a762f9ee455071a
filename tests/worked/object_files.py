"""Rows of objects that are refused, and of what isn't loaded of one (docs/objects.md)."""
import struct

from .encode import TEXT_SECTION, absolute, edit, entry_at, header_at, obj, relative, sec
from .files import f_alone, f_and_main, f_section, text_user
from .rows import diff

F, F_AND_MAIN = f_alone(1), f_and_main(1)
# where the sections are in the two objects, and fields in a section's header, a symbol and a relocation
F_SECTION, F_SYMBOLS, MAIN_RELOCATIONS = 1, 2, 3
NAME, TYPE, FLAGS, PLACE, SIZE, LINK, CHANGED, ALIGNMENT, ENTRY = 0, 4, 8, 16, 20, 24, 28, 32, 36
VALUE, HOLDER, OFFSET, INFO = 4, 14, 0, 4

# an object with a section of each kind; its relocation sections, symbols and names are the sections from 6 to 10
WHOLE = obj(sec(".text.f", "B8 00 00 00 00 C3", absolute(1, ".data.d", 4)),
            sec(".text.main", "E8 00 00 00 00 E8 00 00 00 00 C3", relative(1, ".text.f"), relative(6, "puts")),
            sec(".data.d", "01 02 03 04 05 06 07 08"), sec(".bss.b", "00*8"), sec(".eh_frame", "00*4"))
DATA, ZEROS, UNLOADED, OF_F, OF_MAIN, SYMBOLS, TEXTS, NAMES = 3, 4, 5, 6, 7, 8, 9, 10

# f refers twice to a text, to a variable, to puts and to itself, and there are texts and a table
TEXT_AT_3 = sec(TEXT_SECTION, "61 62 00 63 64 65 66 00")
REFERRING = obj(sec(".text.f", "00*20 C3", absolute(0, TEXT_SECTION, 3), absolute(4, TEXT_SECTION, 3),
                    absolute(8, ".data.v", 2), relative(12, "puts"), relative(16, ".text.f")),
                sec(".rodata.k", "11 22 33 44 00*4", absolute(4, "puts", 7)), sec(".data.v", "01 02 03 04 05 06 07 08"),
                TEXT_AT_3)
REFERENCES_OF_F, REFERENCES_OF_K, SYMBOLS_OF_REFERRING = 5, 6, 7
# symbols of it: its sections come first, then f and puts
F_SYMBOL, PUTS = 5, 6
# where the bytes of the first section stand in a file
CONTENT = 52


def refused(name, pre, text):
    return diff(name, pre, F, f"refused {text}")


def of_section(section, field, value):
    """f, with another field in the header of a section."""
    return edit(F, header_at(F, section) + field, value)


def of_relocation(field, value):
    """f and main, with another field in main's relocation."""
    return edit(F_AND_MAIN, entry_at(F_AND_MAIN, MAIN_RELOCATIONS, 0) + field, value)


def whole(section, field, value, more=b""):
    """The object with another field in the header of a section, and with bytes after it."""
    return edit(WHOLE, header_at(WHOLE, section) + field, value) + more


def whole_entry(section, entry, field, value, width=4):
    """The object with another field in a symbol or relocation."""
    return edit(WHOLE, entry_at(WHOLE, section, entry) + field, value, width)


def passes(name, pre, told="12 no change"):
    """A file that keeps the rules on the file, beside itself."""
    return diff(name, pre, pre, f"refused {told}")


def referring(*edits):
    """The object with references, with other fields in its symbols and relocations."""
    file = REFERRING
    for section, entry, field, value in edits:
        file = edit(file, entry_at(file, section, entry) + field, value, 2 if field == HOLDER else 4)
    return file


def with_g(text, *references, **more):
    return obj(f_section(1), sec(".text.g", text, *references, **more))


ROWS = [
    # the file as a whole, and its header
    refused("empty-object-is-not-elf", b"", "1 not elf"),
    refused("object-of-twenty-bytes-has-bad-header", F[:20], "3 bad header 20"),
    *(refused(f"object-cut-at-{n:03}", F[:n], "1 not elf" if n < 4 else f"3 bad header {n if n < 52 else 32}")
      for n in range(len(F))),
    refused("object-of-64-bits", edit(F, 4, 2, 1), "2 not i386 relocatable"),
    refused("object-of-another-machine", edit(F, 18, 62, 2), "2 not i386 relocatable"),
    refused("object-with-no-section-count", edit(F, 48, 0, 2), "3 bad header 48"),
    refused("object-with-too-many-sections", edit(F, 48, 4097, 2), "10 too large sections"),
    refused("object-with-section-names-out-of-range", edit(F, 50, 5, 2), "3 bad header 50"),

    # sections
    refused("object-with-a-long-section-name", obj(f_section(1), sec(".text." + "a" * 4091, "")),
            "10 too large name"),
    refused("object-with-alignment-three", of_section(F_SECTION, ALIGNMENT, 3), "4 bad section 1"),
    refused("object-with-a-thread-local-section", of_section(F_SECTION, FLAGS, 0x406), "4 bad section 1"),
    refused("object-with-symbols-linked-to-themselves", of_section(F_SYMBOLS, LINK, F_SYMBOLS), "4 bad section 2"),
    refused("object-with-too-much-content", obj(f_section(1), sec(".bss.b", "00*8388603")),
            "10 too large content"),

    # symbols and relocations
    refused("object-with-a-symbol-past-its-section", edit(F, entry_at(F, F_SYMBOLS, 2) + VALUE, 7), "5 bad symbol 2"),
    diff("object-with-a-relocation-past-its-section", of_relocation(OFFSET, 3), F_AND_MAIN,
         "refused 6 bad relocation 3 0"),
    diff("object-with-a-relocation-of-no-symbol", of_relocation(INFO, 99 << 8 | 2), F_AND_MAIN,
         "refused 6 bad relocation 3 0"),
    refused("object-with-overlapping-relocations",
            with_g("00*8", absolute(1, ".text.f"), absolute(3, ".text.f")), "6 bad relocation 3 1"),

    # the same of an object with a section of each kind
    passes("object-with-a-section-of-each-kind", WHOLE),
    passes("object-with-another-entry-point", edit(WHOLE, 24, 0x1234)),
    refused("object-with-a-broken-mark", edit(WHOLE, 3, 0x47, 1), "1 not elf"),
    refused("object-of-big-endian-data", edit(WHOLE, 5, 2, 1), "2 not i386 relocatable"),
    refused("object-of-format-version-zero", edit(WHOLE, 6, 0, 1), "2 not i386 relocatable"),
    refused("executable-is-no-object", edit(WHOLE, 16, 2, 2), "2 not i386 relocatable"),
    refused("object-of-another-version", edit(WHOLE, 20, 2), "3 bad header 20"),
    refused("object-with-a-longer-header", edit(WHOLE, 40, 64, 2), "3 bad header 40"),
    refused("object-with-longer-section-headers", edit(WHOLE, 46, 64, 2), "3 bad header 46"),
    refused("object-with-as-many-sections-as-may-be-and-no-room", edit(WHOLE, 48, 4096, 2), "3 bad header 32"),
    refused("object-with-section-headers-past-the-end", edit(WHOLE, 32, 0x171), "3 bad header 32"),
    refused("object-with-section-names-behind-the-last-section", edit(WHOLE, 50, 11, 2), "3 bad header 50"),
    refused("object-with-section-names-in-code", edit(WHOLE, 50, 1, 2), "3 bad header 50"),
    refused("object-with-section-names-past-the-end", whole(NAMES, SIZE, 0x328), "3 bad header 50"),

    refused("object-with-a-section-name-past-the-names", whole(1, NAME, 98), "4 bad section 1"),
    passes("object-with-an-empty-section-name", whole(1, NAME, 97)),
    passes("object-with-the-longest-section-name", obj(f_section(1), sec(".text." + "a" * 4090, "C3"))),
    refused("object-with-a-section-past-the-end", whole(DATA, PLACE, 0x321), "4 bad section 3"),
    passes("section-of-zeros-past-the-end", whole(ZEROS, PLACE, 0x329)),
    refused("object-with-alignment-8192", whole(1, ALIGNMENT, 0x2000), "4 bad section 1"),
    passes("object-with-alignment-4096", whole(1, ALIGNMENT, 0x1000)),
    passes("section-that-is-not-loaded-with-alignment-three", whole(UNLOADED, ALIGNMENT, 3)),
    *(refused(f"initial-functions-of-type-{kind}-are-loaded",
              edit(whole(DATA, TYPE, kind), header_at(WHOLE, DATA) + ALIGNMENT, 3), "4 bad section 3")
      for kind in (14, 15)),
    passes("section-of-type-16-is-not-loaded", edit(whole(DATA, TYPE, 16), header_at(WHOLE, DATA) + ALIGNMENT, 3),
           "36 bad target .text.f 0"),
    refused("object-with-a-compressed-section", whole(2, FLAGS, 0x806), "4 bad section 2"),
    refused("object-with-two-symbol-tables", whole(UNLOADED, TYPE, 2), "4 bad section 5"),
    refused("object-with-longer-symbols", whole(SYMBOLS, ENTRY, 24), "4 bad section 8"),
    refused("object-with-half-a-symbol", whole(SYMBOLS, SIZE, 136), "4 bad section 8"),
    *(refused(f"object-with-symbols-linked-to-section-{link}", whole(SYMBOLS, LINK, link), "4 bad section 8")
      for link in (0, 3, 11)),
    refused("object-with-too-many-symbols", whole(SYMBOLS, SIZE, 0x100010, bytes(0x100010)), "10 too large symbols"),
    refused("object-with-longer-relocations", whole(OF_F, ENTRY, 12), "4 bad section 6"),
    refused("object-with-half-a-relocation", whole(OF_MAIN, SIZE, 12), "4 bad section 7"),
    refused("object-with-relocations-linked-to-no-symbols", whole(OF_MAIN, LINK, 9), "4 bad section 7"),
    passes("longer-relocations-of-what-is-not-loaded",
           edit(whole(OF_F, ENTRY, 12), header_at(WHOLE, OF_F) + CHANGED, UNLOADED)),
    refused("object-with-too-many-relocations", whole(OF_MAIN, SIZE, 0x200000, bytes(0x200000)),
            "10 too large relocations"),
    refused("object-with-relocations-with-addends", whole(OF_F, TYPE, 4), "4 bad section 6"),
    refused("object-with-a-byte-too-much-content", whole(ZEROS, SIZE, 0x7FFFE8), "10 too large content"),
    passes("object-with-as-much-content-as-may-be", whole(ZEROS, SIZE, 0x7FFFE7)),

    refused("object-with-a-symbol-name-past-the-names", whole_entry(SYMBOLS, 6, NAME, 13), "5 bad symbol 6"),
    refused("object-with-a-long-symbol-name", obj(f_section(1), sec(".text.g", "C3", functions={"a" * 4097: 0})),
            "10 too large name"),
    refused("object-with-a-symbol-behind-the-last-section", whole_entry(SYMBOLS, 7, HOLDER, 11, 2), "5 bad symbol 7"),
    *(passes(f"object-with-a-function-in-section-0x{section:x}", whole_entry(SYMBOLS, 7, HOLDER, section, 2),
             "8 not one function .text.main") for section in (0, 10, 0xFFF1, 0xFFF2)),
    refused("object-with-a-section-symbol-past-its-section", whole_entry(SYMBOLS, 3, VALUE, 9), "5 bad symbol 3"),
    passes("object-with-a-symbol-at-the-end-of-its-section", whole_entry(SYMBOLS, 3, VALUE, 8)),
    passes("symbol-past-a-section-that-is-not-loaded", whole_entry(SYMBOLS, 5, VALUE, 9)),

    refused("object-with-a-relocation-of-the-symbol-behind-the-last", whole_entry(OF_F, 0, INFO, 9 << 8 | 1),
            "6 bad relocation 6 0"),
    refused("object-with-a-field-over-the-end", whole_entry(OF_F, 0, OFFSET, 3), "6 bad relocation 6 0"),
    passes("object-with-a-field-at-the-end", whole_entry(OF_F, 0, OFFSET, 2)),
    refused("object-with-fields-that-share-a-byte", whole_entry(OF_MAIN, 1, OFFSET, 4), "6 bad relocation 7 1"),
    passes("object-with-fields-that-touch", whole_entry(OF_MAIN, 1, OFFSET, 5)),
    passes("relocation-of-type-zero-has-no-field",
           edit(whole_entry(OF_MAIN, 1, OFFSET, 4), entry_at(WHOLE, OF_MAIN, 0) + INFO, 1 << 8)),
    refused("relocation-of-type-zero-past-the-end",
            edit(whole_entry(OF_MAIN, 1, OFFSET, 11), entry_at(WHOLE, OF_MAIN, 1) + INFO, 8 << 8),
            "6 bad relocation 7 1"),
    passes("relocation-of-type-zero-at-the-last-byte",
           edit(whole_entry(OF_MAIN, 1, OFFSET, 10), entry_at(WHOLE, OF_MAIN, 1) + INFO, 8 << 8)),
    refused("fields-of-two-relocation-sections-share-a-byte",
            edit(whole(OF_F, CHANGED, 2), entry_at(WHOLE, OF_F, 0) + OFFSET, 2), "6 bad relocation 7 0"),
    refused("object-with-a-field-in-zeros", whole(OF_F, CHANGED, ZEROS), "6 bad relocation 6 0"),

    # loaded sections
    refused("two-sections-of-one-name",  # the names are equal, but stand apart
            obj(f_section(1), sec(".text.g", "B8 02 00 00 00 C3")).replace(b"g\0", b"f\0"), "9 double name .text.f"),
    refused("section-without-a-function", with_g("C3", functions={}), "8 not one function .text.g"),
    refused("section-with-two-functions", with_g("C3 C3", functions={"g": 0, "h": 1}), "8 not one function .text.g"),
    diff("object-with-an-unknown-relocation", of_relocation(INFO, 1 << 8 | 9), F_AND_MAIN,
         "refused 7 unknown relocation .text.main 0 9"),
    refused("relative-reference-in-data", obj(f_section(1), sec(".data.d", "00*4", relative(0, ".text.f"))),
            "7 unknown relocation .data.d 0 2"),
    refused("reference-to-symbol-zero", of_relocation(INFO, 0 << 8 | 2), "36 bad target .text.main 0"),
    refused("reference-to-a-section-that-is-not-loaded",
            obj(f_section(1), sec(".text.g", "B8 00 00 00 00 C3", absolute(1, ".comment")), sec(".comment", "00*4")),
            "36 bad target .text.g 0"),
    refused("text-begins-past-its-section", text_user("61 00", 2), "35 bad string .text.f 0"),
    refused("text-without-its-zero", text_user("61 00 62", 2), "35 bad string .text.f 0"),
    refused("empty-function-is-not-loaded", with_g(""), "12 no change"),

    # the first rule that is broken, among references of several kinds
    passes("object-with-references-of-each-kind", REFERRING),
    refused("section-with-a-function-inside", with_g("C3 C3", functions={"g": 1}), "8 not one function .text.g"),
    passes("relocation-of-type-three", referring((REFERENCES_OF_F, 0, INFO, 4 << 8 | 3)),
           "7 unknown relocation .text.f 0 3"),
    passes("relative-reference-to-a-text", referring((REFERENCES_OF_F, 1, INFO, 4 << 8 | 2)),
           "7 unknown relocation .text.f 1 2"),
    passes("relative-reference-in-read-only-data", referring((REFERENCES_OF_K, 0, INFO, PUTS << 8 | 2)),
           "7 unknown relocation .rodata.k 0 2"),
    passes("reference-in-texts", edit(REFERRING, header_at(REFERRING, REFERENCES_OF_K) + CHANGED, 4),
           f"7 unknown relocation {TEXT_SECTION} 0 1"),
    passes("reference-to-an-absolute-symbol", referring((SYMBOLS_OF_REFERRING, PUTS, HOLDER, 0xFFF1)),
           "36 bad target .text.f 3"),
    passes("reference-to-a-common-symbol", referring((SYMBOLS_OF_REFERRING, PUTS, HOLDER, 0xFFF2))),
    passes("reference-to-a-name-that-is-empty", referring((SYMBOLS_OF_REFERRING, PUTS, NAME, 0)),
           "36 bad target .text.f 3"),
    passes("unknown-relocation-comes-before-its-target", referring((REFERENCES_OF_F, 0, INFO, 0 << 8 | 3)),
           "7 unknown relocation .text.f 0 3"),
    passes("first-entry-comes-before-a-text-of-the-second",
           edit(referring((REFERENCES_OF_F, 0, INFO, 0 << 8 | 1)), CONTENT + 4, 8), "36 bad target .text.f 0"),
    passes("text-comes-before-an-unknown-relocation-behind-it",
           edit(referring((REFERENCES_OF_F, 4, INFO, 1 << 8 | 3)), CONTENT + 4, 8), "35 bad string .text.f 1"),
    passes("code-comes-before-the-data-behind-it",
           edit(referring((REFERENCES_OF_K, 0, INFO, PUTS << 8 | 2)), CONTENT + 4, 8), "35 bad string .text.f 1"),
    passes("functions-come-before-relocations",
           referring((REFERENCES_OF_F, 0, INFO, 4 << 8 | 3), (SYMBOLS_OF_REFERRING, F_SYMBOL, VALUE, 1)),
           "8 not one function .text.f"),
    passes("names-of-sections-come-before-functions",
           edit(referring((REFERENCES_OF_F, 0, INFO, 4 << 8 | 3), (SYMBOLS_OF_REFERRING, F_SYMBOL, VALUE, 1)),
                header_at(REFERRING, 3) + NAME,
                struct.unpack_from("<I", REFERRING, header_at(REFERRING, 2) + NAME)[0]),
           "9 double name .rodata.k"),
]
