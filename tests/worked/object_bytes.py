"""Rows of objects in which one byte is another: each byte of two files, set to each of five values. The refusal is that
of the first rule that such a file breaks, by the plain reading of `first_broken`; where it breaks none, the file beside
itself has no change."""
from .encode import edit
from .files import f_alone, f_and_main
from .first_broken import first_broken
from .rows import diff

FILES = {"f": f_alone(1), "f-and-main": f_and_main(1)}
VALUES = (0x00, 0x01, 0x7F, 0x80, 0xFF)


def with_byte(name, file, place, value):
    edited = edit(file, place, value, 1)
    broken = first_broken(edited)
    return diff(f"byte-{place:03}-of-{name}-is-0x{value:02x}", edited, file if broken else edited,
                f"refused {broken or '12 no change'}")


ROWS = [with_byte(name, file, place, value) for name, file in FILES.items() for place in range(len(file))
        for value in VALUES if file[place] != value]
