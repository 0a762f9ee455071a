"""The first rule of docs/objects.md that an object breaks: a plain reading of that page, made from it and not from the
program, and as slow as it likes. It is what rows compare with in which any byte of a file is another."""
import struct

TOO_LARGE, NOT_ELF, NOT_I386 = "10 too large", "1 not elf", "2 not i386 relocatable"
PROGBITS, SYMTAB, STRTAB, RELA, NOBITS, REL, INIT_ARRAY, FINI_ARRAY = 1, 2, 3, 4, 8, 9, 14, 15
WRITE, ALLOC, CODE, MERGE, STRINGS, THREAD_LOCAL, COMPRESSED = 1, 2, 4, 0x10, 0x20, 0x400, 0x800
UNDEFINED, ABSOLUTE, COMMON = 0, 0xFFF1, 0xFFF2
LONGEST_NAME, MOST_BYTES, MOST_SECTIONS, MOST_SYMBOLS, MOST_RELOCATIONS = 4096, 8_388_608, 4096, 65_536, 262_144
FUNCTION, SECTION = 2, 3  # types of a symbol
NO_FIELD, WORD, RELATIVE, TO_LINKAGE = 0, 1, 2, 4  # types of a relocation


class Broken(Exception):
    """The number and the text of the rule that is broken."""


def require(holds, text):
    if not holds:
        raise Broken(text)


def escaped(name):
    return "".join(chr(b) if 0x21 <= b <= 0x7E and b != 0x5C else f"\\x{b:02x}" for b in name)


class Header:
    """A section's header."""

    def __init__(self, file, place):
        (self.name, self.type, self.flags, _, self.offset, self.size, self.link, self.info, self.alignment,
         self.entry) = struct.unpack_from("<10I", file, place)


class Object:
    """What is read of a file, one rule after another."""

    def __init__(self, file):
        self.file = file
        self.file_as_a_whole()
        self.header()
        self.all_sections()
        self.all_symbols()
        self.all_relocations()
        self.loaded_sections()

    def number(self, place, width):
        return int.from_bytes(self.file[place:place + width], "little")

    def lies_in_file(self, section):
        return section.offset + section.size <= len(self.file)

    def content(self, section):
        return self.file[section.offset:section.offset + section.size]

    def named(self, table, place, text):
        """The name at a place of a table of names."""
        names = self.content(table)
        require(place < len(names), text)
        end = names.find(b"\0", place)
        require(end >= 0, text)
        require(end - place <= LONGEST_NAME, f"{TOO_LARGE} name")
        return names[place:end]

    def file_as_a_whole(self):
        file = self.file
        require(len(file) <= MOST_BYTES, f"{TOO_LARGE} bytes")
        require(file[:4] == b"\x7fELF", NOT_ELF)
        require(len(file) >= 52, f"3 bad header {len(file)}")
        require(file[4:7] == b"\x01\x01\x01" and self.number(16, 2) == 1 and self.number(18, 2) == 3, NOT_I386)

    def header(self):
        for place, width, value in ((20, 4, 1), (40, 2, 52), (46, 2, 40)):
            require(self.number(place, width) == value, f"3 bad header {place}")
        count, table, names = self.number(48, 2), self.number(32, 4), self.number(50, 2)
        require(count != 0, "3 bad header 48")
        require(count <= MOST_SECTIONS, f"{TOO_LARGE} sections")
        require(table + 40 * count <= len(self.file), "3 bad header 32")
        self.sections = [Header(self.file, table + 40 * k) for k in range(count)]
        require(names < count and self.sections[names].type == STRTAB and self.lies_in_file(self.sections[names]),
                "3 bad header 50")
        self.section_names = self.sections[names]

    def is_loaded(self, k):
        section = self.sections[k]
        return (k > 0 and section.flags & ALLOC != 0 and section.size > 0
                and section.type in (PROGBITS, NOBITS, INIT_ARRAY, FINI_ARRAY) and self.names[k] != b".eh_frame")

    def all_sections(self):
        sections = self.sections
        self.names = {0: b""}
        for k in range(1, len(sections)):
            # whether a section is loaded rests on its name, which may be one that is refused only later
            names = self.content(self.section_names)
            self.names[k] = names[sections[k].name:].split(b"\0")[0]
        self.symbols, self.relocation_count, total = None, 0, 0
        for k, section in enumerate(sections[1:], 1):
            bad = f"4 bad section {k}"
            self.named(self.section_names, section.name, bad)
            require(section.type in (0, NOBITS) or self.lies_in_file(section), bad)
            if self.is_loaded(k):
                power = section.alignment & (section.alignment - 1) == 0 if section.alignment else True
                require(power and section.alignment <= 4096, bad)
                require(section.flags & (THREAD_LOCAL | COMPRESSED) == 0, bad)
            if section.type == SYMTAB:
                require(sum(other.type == SYMTAB for other in sections[1:]) == 1, bad)
                require(section.entry == 16 and section.size % 16 == 0, bad)
                require(0 < section.link < len(sections), bad)
                linked = sections[section.link]
                require(linked.type == STRTAB and self.lies_in_file(linked), bad)
                require(section.size // 16 <= MOST_SYMBOLS, f"{TOO_LARGE} symbols")
                self.symbols = section
            if section.type in (REL, RELA) and 0 < section.info < len(sections) and self.is_loaded(section.info):
                require(section.type == REL and section.entry == 8 and section.size % 8 == 0, bad)
                require(0 < section.link < len(sections) and sections[section.link].type == SYMTAB, bad)
                self.relocation_count += section.size // 8
                require(self.relocation_count <= MOST_RELOCATIONS, f"{TOO_LARGE} relocations")
            total += section.size if self.is_loaded(k) else 0
            require(total <= MOST_BYTES, f"{TOO_LARGE} content")

    def symbol(self, k):
        """A symbol's name, value, type, binding and section."""
        name, value, _, info, _, holder = struct.unpack_from("<IIIBBH", self.file, self.symbols.offset + 16 * k)
        return name, value, info & 15, info >> 4, holder

    def all_symbols(self):
        self.symbol_count = self.symbols.size // 16 if self.symbols else 0
        for k in range(1, self.symbol_count):
            name, value, _, _, holder = self.symbol(k)
            bad = f"5 bad symbol {k}"
            self.named(self.sections[self.symbols.link], name, bad)
            require(holder in (UNDEFINED, ABSOLUTE, COMMON) or holder < len(self.sections), bad)
            if holder < len(self.sections) and self.is_loaded(holder):
                require(value <= self.sections[holder].size, bad)

    def relocations(self):
        """Those of loaded sections: section, entry, changed section, offset, symbol and type."""
        for k, section in enumerate(self.sections[1:], 1):
            if section.type == REL and 0 < section.info < len(self.sections) and self.is_loaded(section.info):
                for entry in range(section.size // 8):
                    offset, info = struct.unpack_from("<II", self.file, section.offset + 8 * entry)
                    yield k, entry, section.info, offset, info >> 8, info & 255

    def all_relocations(self):
        filled = set()
        for k, entry, changed, offset, symbol, kind in self.relocations():
            bad = f"6 bad relocation {k} {entry}"
            require(symbol < self.symbol_count, bad)
            require(self.sections[changed].type != NOBITS, bad)
            if kind in (WORD, RELATIVE, TO_LINKAGE):
                field = {(changed, offset + j) for j in range(4)}
                require(offset + 4 <= self.sections[changed].size and not field & filled, bad)
                filled |= field
            else:
                require(offset < self.sections[changed].size, bad)

    def class_of(self, k):
        section = self.sections[k]
        if section.type == NOBITS:
            return "Zero"
        if section.flags & CODE:
            return "Code"
        if section.flags & WRITE:
            return "Writable"
        return "Strings" if section.flags & MERGE and section.flags & STRINGS and section.entry == 1 else "ReadOnly"

    def loaded_sections(self):
        loaded = [k for k in range(1, len(self.sections)) if self.is_loaded(k)]
        seen = set()
        for k in loaded:
            require(self.names[k] not in seen, f"9 double name {escaped(self.names[k])}")
            seen.add(self.names[k])
        for k in loaded:
            values = [value for _, value, kind, _, holder in map(self.symbol, range(self.symbol_count))
                      if kind == FUNCTION and holder == k]
            require(self.class_of(k) != "Code" or 0 in values and not any(values),
                    f"8 not one function {escaped(self.names[k])}")
        # by the changed section; within one in the order of the entries
        for k, entry, changed, offset, symbol, kind in sorted(self.relocations(), key=lambda found: found[2]):
            if kind != NO_FIELD:
                self.one_reference(f"{escaped(self.names[changed])} {entry}", changed, offset, symbol, kind)

    def one_reference(self, place, changed, offset, symbol, kind):
        name, value, symbol_kind, _, holder = self.symbol(symbol)
        is_in_section = symbol > 0 and holder not in (UNDEFINED, ABSOLUTE, COMMON)
        is_in_texts = is_in_section and self.is_loaded(holder) and self.class_of(holder) == "Strings"
        is_relative = kind in (RELATIVE, TO_LINKAGE)
        require(kind in (WORD, RELATIVE, TO_LINKAGE) and self.class_of(changed) != "Strings"
                and not (is_relative and (self.class_of(changed) != "Code" or is_in_texts)),
                f"7 unknown relocation {place} {kind}")
        has_name = self.named(self.sections[self.symbols.link], name, "") != b""
        require(symbol > 0 and holder != ABSOLUTE and (holder not in (UNDEFINED, COMMON) or has_name)
                and (not is_in_section or self.is_loaded(holder)), f"36 bad target {place}")
        if is_in_texts:
            addend = self.number(self.sections[changed].offset + offset, 4)
            at = addend if symbol_kind == SECTION else value
            require(b"\0" in self.content(self.sections[holder])[at:], f"35 bad string {place}")


def first_broken(file):
    """The number and the text of the first rule that the file breaks, or None."""
    try:
        Object(file)
    except Broken as broken:
        return str(broken)
    return None
