"""Generated code that a program told gdb of, by the interface of gdb's manual, 'JIT Interface'.

The program keeps a list of ELF images in its memory, whose sections have the addresses at which
they lie.
"""

import struct
from typing import NamedTuple

DESCRIPTOR_BYTES = 24
ENTRY_BYTES = 32
ENTRIES = 3072  # with the objects that are loaded, as many as a script has images
HEADER_BYTES = 64
SECTION_BYTES = 64
ALLOCATED = 2
EXECUTABLE = 4
RELOCATABLE = 1
SYMBOL_TABLE = 2
SYMBOL_BYTES = 24
FUNCTION = 2


class Damaged(Exception):
    """Why the list or an image can't be read, in words."""


class Section(NamedTuple):
    """A section of an image: its name, kind, flags, address, place, bytes and the one it names."""

    name: str
    kind: int
    flags: int
    address: int
    place: int
    size: int
    link: int


class Generated(NamedTuple):
    """Code from `base` below `end`, the address and number of bytes of its `.eh_frame`, and pairs
    of size and name of its functions by their addresses."""

    path: str
    base: int
    end: int
    section: int
    section_bytes: int
    functions: dict
    build = None

    def contains(self, address):
        """Whether the address is one of the code's."""
        return self.base <= address < self.end


def numbers(memory, address, form):
    """The numbers of this form at an address; Damaged where there are none."""
    data = memory(address, struct.calcsize(form))
    if data is None:
        raise Damaged(f"no bytes at {address:x}")
    return struct.unpack(form, data)


def entries_of(memory, descriptor):
    """Pairs of address and number of bytes of the images that the descriptor leads to."""
    _, _, _, entry = numbers(memory, descriptor, "<IIQQ")
    found = []
    while entry and len(found) < ENTRIES:
        entry, _, image, count = numbers(memory, entry, "<QQQQ")
        found.append((image, count))
    return found


def text_at(strings, place):
    """The text at a place of a table of strings."""
    return strings[place:].split(b"\0")[0].decode("ascii", "replace")


def sections_of(memory, image, count):
    """The kind of an ELF image in memory, and its Sections."""
    header = memory(image, HEADER_BYTES)
    if header is None or header[:6] != b"\x7fELF\x02\x01":
        raise Damaged("no ELF image of 64 bits")
    at, = struct.unpack_from("<Q", header, 40)
    size, sections, names = struct.unpack_from("<HHH", header, 58)
    if size != SECTION_BYTES or at + size * sections > count or names >= sections:
        raise Damaged("its sections aren't in it")
    found = [numbers(memory, image + at + size * number, "<IIQQQQIIQQ")
             for number in range(sections)]
    strings = memory(image + found[names][4], found[names][5]) or b""
    return struct.unpack_from("<H", header, 16)[0], [
        Section(text_at(strings, one[0]), *one[1:7]) for one in found]


def functions_of(memory, image, kind, sections):
    """Pairs of size and name of the functions that an image's symbols tell, by their addresses."""
    found = {}
    for table in sections:
        if table.kind != SYMBOL_TABLE or table.link >= len(sections):
            continue
        names = sections[table.link]
        symbols = memory(image + table.place, table.size) or b""
        strings = memory(image + names.place, names.size) or b""
        for place in range(0, len(symbols) - SYMBOL_BYTES + 1, SYMBOL_BYTES):
            name, info, _, section, value, size = struct.unpack_from("<IBBHQQ", symbols, place)
            if info & 15 == FUNCTION and 0 < section < len(sections):
                start = sections[section].address if kind == RELOCATABLE else 0
                found[start + value] = size, text_at(strings, name)
    return found


def code_of(memory, image, count):
    """The Generated code of an image; Damaged where it has none, or no `.eh_frame` in memory."""
    kind, sections = sections_of(memory, image, count)
    code = [one for one in sections
            if one.flags & ALLOCATED and one.flags & EXECUTABLE and one.address and one.size]
    frames = [one for one in sections if one.name == ".eh_frame" and one.address]
    if not code or not frames:
        raise Damaged("it has no code with an .eh_frame in memory")
    return Generated(f"[generated at {image:x}]", min(one.address for one in code),
                     max(one.address + one.size for one in code), frames[0].address,
                     frames[0].size, functions_of(memory, image, kind, sections))
