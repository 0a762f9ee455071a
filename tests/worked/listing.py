"""Rows of `code` (docs/output.md, docs/instructions.md)."""
from .encode import at, data, function, image, images
from .files import BARE_PROGRAM, PROGRAM, TWINS
from .rows import code

# single instructions: of the code, and whether it is padding
INSTRUCTIONS = {
    "nop": ("90", True),
    "nop-with-66": ("66 90", True),
    "mov-of-a-register-to-itself": ("8B F6", True),
    "lea-of-esi-with-long-zero": ("8D B6 00 00 00 00", True),
    "lea-of-esi-with-sib-and-short-zero": ("8D 74 26 00", True),
    "lea-with-2e-and-sib-and-long-zero": ("2E 8D B4 26 00 00 00 00", True),
    "long-nop": ("0F 1F 44 00 00", True),
    "fourteen-66-and-nop": ("66*14 90", True),
    "mov-of-a-word": ("66 B8 01 00", False),
    "mov-of-a-constant-to-memory": ("C7 05 00 00 20 00 01 00 00 00", False),
    "jump-through-a-table": ("FF 24 85 00 00 18 00", False),
    "branch-mark": ("F3 0F 1E FB", False),
    "mov-of-a-register-to-another": ("89 C8", False),
    "test-of-a-byte-on-the-stack": ("F6 04 24 01", False),
    "neg-of-a-byte-on-the-stack": ("F6 1C 24", False),
}
NO_INSTRUCTIONS = {
    "fifteen-66": "66*15",
    "jump-with-66": "66 E9 00 00",
    "nop-with-67": "67 90",
    "unlisted-opcode": "0F FF",
    "fifteen-66-and-nop": "66*15 90",
    "branch-mark-without-its-prefix": "0F 1E FB",
    "lea-of-a-register": "8D C0",
}
# over has a symbol inside its first instruction
OVERLAPPING = image(at(0x00100000, "over", "B8 90 90 90 90 C3"), symbols=[function(0x00100001, "into")])


def single(name, text, *output):
    return code(name, image(at(0x00100000, "u", text)), "u", *output)


def instruction(name, text, padding):
    content = data(text)
    return single(f"listing-of-{name}", text,
                  f"0x00100000 {len(content)} {content.hex(' ')}{' padding' if padding else ''}",
                  f"end 0x{0x00100000 + len(content):08x}")


def at_page_end(text):
    """A region of code whose last function begins two bytes before a multiple of 4,096."""
    return image(at(0x00100000, None, "90*4094"), at(0x00100FFE, "u", text))


ROWS = [
    code("listing-of-a-function-and-its-padding", PROGRAM, "f",
         "0x00100000 5 b8 01 00 00 00", "0x00100005 1 c3",
         *(f"0x{address:08x} 2 66 90 padding" for address in range(0x00100006, 0x00100010, 2)), "end 0x00100010"),
    code("listing-of-an-unknown-name", PROGRAM, "nope", "refused 31 no symbol nope"),
    code("listing-of-a-doubled-name", TWINS, "tw", "refused 19 two names tw 0x00100000 0x00100010"),
    *(instruction(name, text, padding) for name, (text, padding) in INSTRUCTIONS.items()),
    *(single(f"listing-of-{name}", text, "undecoded 0x00100000") for name, text in NO_INSTRUCTIONS.items()),
    single("listing-where-nothing-decodes", "0F", "undecoded 0x00100000"),
    code("listing-over-a-page-end", at_page_end("66 B8 01 00"), "u", "0x00100ffe 4 66 b8 01 00", "end 0x00101002"),
    code("listing-over-a-page-end-lacks-a-byte", at_page_end("B8 01 00 00"), "u", "undecoded 0x00100ffe"),
    single("listing-up-to-what-is-no-instruction", "90 0F FF", "0x00100000 1 90 padding", "undecoded 0x00100001"),
    single("listing-of-half-an-instruction", "B8 01", "undecoded 0x00100000"),
    code("listing-of-a-function-with-a-symbol-inside", OVERLAPPING, "over",
         "0x00100000 5 b8 90 90 90 90", "end 0x00100005"),
    code("listing-from-the-symbol-inside", OVERLAPPING, "into",
         *(f"0x{address:08x} 1 90 padding" for address in range(0x00100001, 0x00100005)), "0x00100005 1 c3",
         "end 0x00100006"),
    code("listing-of-a-name-listed-twice-at-one-address",
         image(at(0x00100000, "same", "C3"), symbols=[function(0x00100000, "same", images.LOCAL)]), "same",
         "0x00100000 1 c3", "end 0x00100001"),
    code("listing-of-several-pages", image(at(0x00100000, "f", "90*16384")), "f",
         *(f"0x{address:08x} 1 90 padding" for address in range(0x00100000, 0x00104000)), "end 0x00104000"),
    code("listing-up-to-the-end-of-the-region", BARE_PROGRAM, "main",
         "0x00100010 5 e8 eb ff ff ff", "0x00100015 1 c3", "end 0x00100016"),
]
