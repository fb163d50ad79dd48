"""A section of the records that a stack needs, for an object whose own section is too long.

The new section stands at the address of the old one. Its records are the needed FDEs in their
order, each CIE before its first FDE, and a length of 0. A record keeps its bytes but for what
counts from its own place: an FDE's distance back to its CIE, and pointers relative to their field.
"""

from cursor import FORMATS, WORD, is_relative
from eh_frame import record_at


class CannotCut(Exception):
    """Why a record can't be moved, in words."""


def moved_number(pointer, distance):
    """The bytes of a relative pointer whose field moves back by `distance` bytes."""
    size, signed = FORMATS[pointer.encoding & 0x0f]
    if size == 0:
        raise CannotCut("a relative pointer in LEB128 may change its length")
    number = pointer.number + distance
    if size == 8:
        number %= WORD
        signed = False
    try:
        return number.to_bytes(size, "little", signed=signed)
    except OverflowError:
        raise CannotCut("a relative pointer doesn't fit from its new place") from None


def moved_record(data, record, place, pointers):
    """The bytes of a Cie's or Fde's record at its new place, but for the distance to its CIE."""
    moved = bytearray(data[record.start:record.end])
    for pointer in pointers:
        if is_relative(pointer.encoding) and not (pointer.may_be_none and pointer.number == 0):
            at = pointer.place - record.start
            number = moved_number(pointer, record.start - place)
            moved[at:at + len(number)] = number
    return moved


def cut_section(section, fdes):
    """The bytes of the section of these FDEs, which stand in the order of the old one."""
    new = bytearray()
    cies = {}
    for fde in fdes:
        if fde.cie.start not in cies:
            cies[fde.cie.start] = len(new)
            new += moved_record(section.data, fde.cie, len(new), fde.cie.pointers)
        place = len(new)
        moved = moved_record(section.data, fde, place, fde.pointers)
        at, _ = record_at(section.data, fde.start)
        at -= fde.start
        moved[at:at + 4] = (place + at - cies[fde.cie.start]).to_bytes(4, "little")
        new += moved
    return bytes(new + bytes(4))


def needed_fdes(section, looks):
    """The FDEs that cover one of these addresses, in the order of the section, each once."""
    found = (section.fde_at(look) for look in looks)
    needed = {fde.start: fde for fde in found if fde is not None}
    return [needed[start] for start in sorted(needed)]
