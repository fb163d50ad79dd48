"""The table of call sites of a function (LSDA) by plain means: what it says of an exception.

Written after docs/FORMATS.md and the format that GCC and LLVM write, apart from the product, so
that what the two say can be compared. Numbers don't wrap but where it is said.
"""

from typing import NamedTuple

from cursor import FORMATS, OMITTED, WORD, Cursor, Refusal, is_accepted

SITE_ENCODINGS = (0x01, 0x02, 0x03, 0x04)
RECORDS = 255


class Types(NamedTuple):
    """The types of a table: their encoding, and the place after the last byte of them."""

    encoding: int
    end: int


class Site(NamedTuple):
    """A call site: its pad, its action, and the place of the action."""

    pad: int
    action: int
    action_at: int


def encoding_of(cursor, is_taken):
    """The encoding that the next byte is, or None where it is ff; else it has to be taken."""
    place = cursor.at
    encoding = cursor.unsigned(1)
    if encoding == OMITTED:
        return None
    if not is_taken(encoding):
        raise Refusal("encoding", place)
    return encoding


def is_type_encoding(encoding):
    """Whether types may have this encoding, each then of a fixed number of bytes."""
    return is_accepted(encoding, True) and FORMATS[encoding & 0x0f][0] > 0


def read_types(cursor):
    """The Types of a table, or None."""
    encoding = encoding_of(cursor, is_type_encoding)
    if encoding is None:
        return None
    distance = cursor.uleb()
    return Types(encoding, cursor.at + distance)


def read_pad_start(cursor, first, address):
    """From where pads are counted."""
    encoding = encoding_of(cursor, lambda byte: is_accepted(byte, False))
    return first if encoding is None else cursor.pointer(encoding, address)[1]


def read_sites(cursor, offset):
    """The Site that has the offset, or None; and the place after all of them."""
    place = cursor.at
    encoding = cursor.unsigned(1)
    if encoding not in SITE_ENCODINGS:
        raise Refusal("encoding", place)
    length = cursor.uleb()
    begin = cursor.at
    if length > cursor.left():
        raise Refusal("short", begin)
    sites = Cursor(cursor.data, begin, begin + length)
    while sites.left():
        start, size, pad = (sites.number(encoding) for _ in range(3))
        action_at = sites.at
        action = sites.uleb()
        if start <= offset < start + size:
            return Site(pad, action, action_at), begin + length
    return None, begin + length


def catches(types, data, address, number, kind, at):
    """Whether a type catches a kind; `at` is the place of the filter that names it."""
    if types is None:
        raise Refusal("typeentry", at)
    place = types.end - number * FORMATS[types.encoding & 0x0f][0]
    if place < 0:
        raise Refusal("typeentry", at)
    try:
        cursor = Cursor(data, min(place, len(data)), len(data))
        found, meant = cursor.pointer(types.encoding, address)
    except Refusal:
        raise Refusal("typeentry", at) from None
    return found == 0 or meant == kind


def follow(types, data, address, kind, place, site):
    """The filter that catches, or else whether a cleanup stands in the chain of records."""
    at, cleanup = site.action_at, False
    for _ in range(RECORDS):
        if not 0 <= place < len(data):
            raise Refusal("chain", at)
        at = place
        cursor = Cursor(data, place, len(data))
        number = cursor.sleb()
        if number < 0:
            raise Refusal("filter", at)
        if number > 0 and catches(types, data, address, number, kind, at):
            return number, cleanup
        cleanup = cleanup or number == 0
        place = cursor.at
        displacement = cursor.sleb()
        if displacement == 0:
            return None, cleanup
        place += displacement
    raise Refusal("chain", at)


def verdict(first, address, data, look, kind):
    """What the table whose bytes stand at an address says of an exception of a kind at `look`.

    The function starts at `first`. A text, in the words of docs/FORMATS.md; or a Refusal.
    """
    cursor = Cursor(data, 0, len(data))
    pad_start = read_pad_start(cursor, first, address)
    types = read_types(cursor)
    site, actions = read_sites(cursor, look - first)
    if site is None:
        return "terminate"
    if site.pad == 0:
        return "continue"
    pad = (pad_start + site.pad) % WORD
    if site.action == 0:
        return f"cleanup {pad:x}"
    place = actions + site.action - 1
    number, cleanup = follow(types, data, address, kind, place, site)
    if number is not None:
        return f"handler {pad:x} {number}"
    return f"cleanup {pad:x}" if cleanup else "continue"
