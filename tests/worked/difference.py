"""Rows of `diff` on two objects that can be read (docs/difference.md)."""
from .encode import TEXT_SECTION, absolute, edit, header_at, obj, relative, sec
from .files import (COLD_UNIT, NEW_WORK, OLD_WORK, WITHOUT_COLD, f_alone, f_and_main, f_reading, f_section,
                    text_user)
from .rows import diff

F_AND_G = obj(sec(".text.f", "C3"), sec(".text.g", "C3"))
ONE, TWO = sec(".data.x", "01 00 00 00"), sec(".data.x", "02 00 00 00")
LENGTHS = (1, 31, 32, 33, 64, 65)


def table_user(number):
    """f reads a constant."""
    return obj(f_reading(".rodata.t"), sec(".rodata.t", f"{number:02X} 00 00 00"))


def with_address_inside(number):
    """f, and a variable with an address inside of it."""
    return obj(f_section(number), sec(".data.t", "00*4", absolute(0, ".text.f", 5)))


def with_g(length, change=0):
    """f, and g of so many bytes, with a change of the last one."""
    content = bytearray(7 * i % 251 for i in range(length))
    if change:
        content[-1] ^= change
    return obj(f_section(1), sec(".text.g", content.hex()))


def unit(call=relative(1, ".text.g"), text=0, first="E8", texts="61 00 62 00 62 61 00", zeros=4):
    """f, which calls g and has the address of a text; texts, from 0 on a, b and ba; and zeros."""
    return obj(sec(".text.f", f"{first} 00 00 00 00 B8 00 00 00 00 C3", call, absolute(6, TEXT_SECTION, text)),
               sec(".text.g", "C3"), sec(TEXT_SECTION, texts), sec(".bss.z", f"00*{zeros}"))


UNIT = unit()
CHANGED_WITH_TEXTS = "changed f", f"carried {TEXT_SECTION}"


def other_read_only(file):
    """The object with the flags of read-only data that is no texts in its third section."""
    return edit(file, header_at(file, 3) + 8, 2)


def text_holder(number, text):
    """f answers a number, and a variable holds the address of one of two texts, which are equal."""
    return obj(f_section(number), sec(".data.d", "00*4", absolute(0, f"{TEXT_SECTION}.{text}")),
               sec(f"{TEXT_SECTION}.x", "61 00"), sec(f"{TEXT_SECTION}.y", "61 00"))


ROWS = [
    diff("same-object-has-no-change", f_alone(1), f_alone(1), "refused 12 no change"),
    diff("changed-constant-is-a-changed-function", f_alone(1), f_alone(2), "changed f"),
    diff("caller-of-a-changed-function-is-the-same", f_and_main(1), f_and_main(2), "changed f"),
    diff("function-only-in-post-is-added", F_AND_G, obj(sec(".text.f", "C3"), sec(".text.h", "C3")), "added h"),
    diff("untied-function-only-in-pre-is-no-change", F_AND_G, obj(sec(".text.f", "C3")), "refused 12 no change"),
    diff("cold-part-is-dropped", COLD_UNIT, WITHOUT_COLD, "changed work", "dropped work.cold"),
    diff("unit-with-table-cold-part-and-text", OLD_WORK, NEW_WORK,
         "changed work", "changed work.cold", "carried .rodata.work", "carried .rodata.str1.1"),

    diff("cold-part-is-added", WITHOUT_COLD, COLD_UNIT, "changed work", "added work.cold"),
    diff("new-function-brings-new-data", COLD_UNIT, obj(f_section(1), sec(".data.t", "05 00 00 00")), "added f",
         "data .data.t"),

    # one thing that differs
    diff("unit-with-a-call-and-a-text-is-the-same", UNIT, UNIT, "refused 12 no change"),
    diff("first-byte-differs", UNIT, unit(first="E9"), *CHANGED_WITH_TEXTS),
    diff("reference-is-absolute-in-post", UNIT, unit(absolute(1, ".text.g", -4)), "changed f", "changed g",
         f"carried {TEXT_SECTION}", remark="an absolute reference with this addend isn't to the entry of g"),
    diff("addend-differs", UNIT, unit(relative(1, ".text.g", -5)), "changed f", "changed g",
         f"carried {TEXT_SECTION}", remark="with this addend the reference isn't to the entry of g"),
    diff("another-function-is-called", UNIT, unit(relative(1, ".text.f")), *CHANGED_WITH_TEXTS),
    diff("outside-name-is-called", UNIT, unit(relative(1, "p")), *CHANGED_WITH_TEXTS),
    diff("text-is-the-end-of-another-one", UNIT, unit(text=5), "refused 12 no change"),
    diff("text-ends-with-the-old-one", UNIT, unit(text=4), *CHANGED_WITH_TEXTS),
    diff("text-that-nothing-refers-to-differs", unit(text=2), unit(text=2, texts="63 00 62 00 62 61 00"),
         "refused 12 no change"),
    diff("texts-become-other-read-only-data", UNIT, other_read_only(UNIT),
         f"refused 11 data changed {TEXT_SECTION}"),
    diff("more-zeros", UNIT, unit(zeros=5), "refused 11 data changed .bss.z"),
    diff("equal-text-of-another-section", text_holder(1, "x"), text_holder(2, "y"), "changed f"),
    diff("texts-that-only-pre-reaches-become-other-read-only-data", text_holder(1, "x"),
         other_read_only(text_holder(2, "y")), f"refused 11 data changed {TEXT_SECTION}.x"),

    # the last byte counts, whatever the length
    diff("function-of-0-bytes-is-the-same", with_g(0), with_g(0), "refused 12 no change",
         remark="a section without bytes is not loaded"),
    *(diff(f"function-of-{length}-bytes-is-the-same", with_g(length), with_g(length), "refused 12 no change")
      for length in LENGTHS),
    *(diff(f"function-of-{length}-bytes-differs-in-its-last", with_g(length), with_g(length, 1), "changed g")
      for length in LENGTHS),

    # read-only data
    diff("same-text-elsewhere-is-no-change", text_user("61 00", 0), text_user("7A 7A 00 61 00", 3),
         "refused 12 no change"),
    diff("another-text-changes-the-function-and-is-carried", text_user("61 00", 0), text_user("62 00", 0),
         "changed f", "carried .rodata.str1.1"),
    diff("function-over-a-changed-table-is-changed", table_user(1), table_user(2), "changed f", "carried .rodata.t"),

    # variables
    diff("changed-initial-data-is-refused", obj(ONE), obj(TWO), "refused 11 data changed .data.x"),
    diff("changed-initial-data-beside-a-changed-function", obj(f_section(1), ONE), obj(f_section(2), TWO),
         "refused 11 data changed .data.x"),
    diff("data-refers-into-a-changed-function", with_address_inside(1), with_address_inside(2),
         "refused 13 interior .data.t 0x0"),
    diff("new-data-is-listed", f_alone(1),
         obj(sec(".data.n", "01 00 00 00"), f_section(2), sec(".bss.z", "00*8")),
         "data .data.n", "changed f", "data .bss.z"),
]
