"""ELF objects in a stopped process or a core file: where they lie, and where their `.eh_frame` is.

Addresses are those of the process. An object's `bias` is added to the addresses in its file.
"""

import struct
from typing import NamedTuple

from cursor import OMITTED, WORD, Cursor, Refusal, is_accepted
from eh_frame import record_at

PAGE = 4096
HEADER_BYTES = 64
SEGMENT_BYTES = 56
SECTION_BYTES = 64
SEGMENT_LOAD = 1
SEGMENT_NOTE = 4
SEGMENT_EH_FRAME_HDR = 0x6474e550
SECTION_ALLOCATED = 2
MACHINE_X86_64 = 62
NOTE_BUILD_ID = 3


class NotFound(Exception):
    """Why an object or its section isn't there, in words."""


class Mapping(NamedTuple):
    """Addresses from `start` below `end`, mapped from this place of the file at `path`."""

    start: int
    end: int
    offset: int
    path: str


class Segment(NamedTuple):
    """A program header: kind, place in the file, address in the file, bytes there and in memory."""

    kind: int
    offset: int
    address: int
    file_bytes: int
    memory_bytes: int


class Space:
    """The bytes of a process: from its memory, else from the files that are mapped.

    `memory` is a function from an address and a number of bytes to bytes, or to None.
    """

    def __init__(self, mappings, memory):
        self.mappings = mappings
        self.memory = memory

    def mapping(self, address):
        """The mapping that contains the address, or None."""
        return next((m for m in self.mappings if m.start <= address < m.end), None)

    def read(self, address, count):
        """`count` bytes at an address; NotFound where neither memory nor a file has them all."""
        data = self.memory(address, count)
        if data is not None:
            return data
        mapping = self.mapping(address)
        if mapping is not None and address + count <= mapping.end:
            data = file_bytes(mapping.path, mapping.offset + address - mapping.start, count)
            if len(data) == count:
                return data
        raise NotFound(f"no bytes at {address:x}")


class Object:
    """An object in memory: its file's path and build, its segments, its bias, and its addresses."""

    functions = {}  # its file tells them

    def __init__(self, path, header, segments, bias):
        loads = [segment for segment in segments if segment.kind == SEGMENT_LOAD]
        self.path = path
        self.build = None
        self.header = header
        self.segments = segments
        self.loads = loads
        self.bias = bias
        self.base = bias + min(load.address for load in loads) // PAGE * PAGE
        self.end = bias + max(load.address + load.memory_bytes for load in loads)

    def contains(self, address):
        """Whether the address is one of the object's."""
        return self.base <= address < self.end


def file_bytes(path, offset, count):
    """Up to `count` bytes of a file; none where it can't be read."""
    try:
        with open(path, "rb") as file:
            file.seek(offset)
            return file.read(count)
    except (OSError, ValueError):
        return b""


def segments_of(data, count):
    """The segments in `data`, which are `count` program headers."""
    found = []
    for number in range(count):
        kind, _, offset, address, _, in_file, in_memory, _ = struct.unpack_from(
            "<IIQQQQQQ", data, SEGMENT_BYTES * number)
        found.append(Segment(kind, offset, address, in_file, in_memory))
    return found


def build_in(notes):
    """The number that the linker gave the build, as digits, among a segment's notes, or None."""
    start = 0
    while start + 12 <= len(notes):
        name_bytes, count, kind = struct.unpack_from("<III", notes, start)
        name = notes[start + 12:start + 12 + name_bytes]
        start += 12 + (name_bytes + 3) // 4 * 4
        if kind == NOTE_BUILD_ID and name == b"GNU\0":
            return notes[start:start + count].hex()
        start += (count + 3) // 4 * 4
    return None


def build_of(space, found):
    """The number of an object's build, or None."""
    for segment in found.segments:
        if segment.kind == SEGMENT_NOTE:
            try:
                build = build_in(space.read(found.bias + segment.address, segment.memory_bytes))
            except NotFound:
                build = None
            if build:
                return build
    return None


def object_at(space, start, path):
    """The object whose ELF header is mapped at `start`; None where it is none of x86-64."""
    try:
        header = space.read(start, HEADER_BYTES)
        kind, machine = struct.unpack_from("<HH", header, 16)
        offset, = struct.unpack_from("<Q", header, 32)
        size, count = struct.unpack_from("<HH", header, 54)
        if header[:6] != b"\x7fELF\x02\x01" or machine != MACHINE_X86_64 or kind not in (2, 3):
            return None
        if size != SEGMENT_BYTES:
            return None
        segments = segments_of(space.read(start + offset, size * count), count)
    except NotFound:
        return None
    first = [s for s in segments if s.kind == SEGMENT_LOAD and s.offset < PAGE]
    if not first:
        return None
    found = Object(path, header, segments, start - (first[0].address - first[0].offset))
    found.build = build_of(space, found)
    return found


def is_loaded(space, found):
    """Whether each segment of the object is mapped from its place in the file."""
    for load in found.loads:
        address = found.bias + load.address
        mapping = space.mapping(address)
        if load.file_bytes == 0:
            continue
        if mapping is None or mapping.path != found.path:
            return False
        if mapping.offset + address - mapping.start != load.offset:
            return False
    return True


def objects_of(space, system_object):
    """The loaded objects in ascending order; `system_object` is the vDSO's address, or 0."""
    found = []
    for mapping in space.mappings:
        known = any(one.contains(mapping.start) for one in found)
        if mapping.offset == 0 and mapping.start != system_object and not known:
            one = object_at(space, mapping.start, mapping.path)
            if one is not None and is_loaded(space, one):
                found.append(one)
    if system_object:
        found.append(object_at(space, system_object, "[vdso]"))
    return sorted((one for one in found if one is not None), key=lambda one: one.base)


def section_by_headers(found, wanted=".eh_frame"):
    """(address, bytes) of a section by the section headers of the object's file, or None."""
    header = file_bytes(found.path, 0, HEADER_BYTES)
    if header != found.header:
        return None
    offset, = struct.unpack_from("<Q", header, 40)
    size, count, names = struct.unpack_from("<HHH", header, 58)
    table = file_bytes(found.path, offset, size * count)
    if size != SECTION_BYTES or len(table) != size * count or names >= count:
        return None
    headers = [struct.unpack_from("<IIQQQQ", table, place) for place in range(0, len(table), size)]
    text = file_bytes(found.path, *headers[names][4:6])
    for name, _, flags, address, _, length in headers:
        if text[name:].split(b"\0", 1)[0] == wanted.encode() and flags & SECTION_ALLOCATED:
            return found.bias + address, length
    return None


def section_address(data, where):
    """The address of `.eh_frame` by the bytes of a `.eh_frame_hdr`, which stands at `where`."""
    if len(data) < 4 or data[0] != 1 or data[1] == OMITTED or not is_accepted(data[1], False):
        raise NotFound("its .eh_frame_hdr names no section")
    try:
        return Cursor(data, 4, len(data)).pointer(data[1], where)[1]
    except Refusal:
        raise NotFound("its .eh_frame_hdr is cut off") from None


def length_of_records(data):
    """How many of these bytes are records, with the length of 0 that ends them."""
    start = 0
    while start < len(data):
        try:
            record = record_at(data, start)
        except Refusal:
            break
        if record is None:
            return start + 4
        start = record[1]
    return start


def section_by_eh_frame_hdr(space, found):
    """(address, bytes) of `.eh_frame` by the header that the object's segments name."""
    header = next((s for s in found.segments if s.kind == SEGMENT_EH_FRAME_HDR), None)
    if header is None:
        raise NotFound("it has neither a section .eh_frame nor a segment .eh_frame_hdr")
    where = found.bias + header.address
    address = section_address(space.read(where, min(header.memory_bytes, 12)), where) % WORD
    for load in found.loads:
        left = found.bias + load.address + load.file_bytes - address
        if 0 < left <= load.file_bytes:
            return address, length_of_records(space.read(address, left))
    raise NotFound("its .eh_frame_hdr names an address outside its segments")


def section_of(space, found):
    """(address, bytes) of an object's `.eh_frame`, and by which of the two ways it was found."""
    by_headers = section_by_headers(found)
    if by_headers is not None:
        address, count = by_headers
        way = "by section headers"
    else:
        address, count = section_by_eh_frame_hdr(space, found)
        way = "by .eh_frame_hdr"
    if count == 0:
        raise NotFound("its .eh_frame is empty")
    return address, space.read(address, count), way
