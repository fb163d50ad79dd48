"""Sections of `.eh_frame`: their CIEs and FDEs, and the first fault of one that isn't accepted.

Accepted is what docs/FORMATS.md says of the records. The limit of a script's section, 65,536 bytes,
is not tested here: the recorder reads longer sections too, to cut them.
"""

from typing import NamedTuple

from cursor import OMITTED, WORD, Cursor, Refusal, is_accepted
from programs import Program, Row

SECTION_BYTES = 65536
RETURN_COLUMN = 16


class Pointer(NamedTuple):
    """A pointer's field: its place, its encoding, its number as it stands; a 0 may mean none."""

    place: int
    encoding: int
    number: int
    may_be_none: bool


class Cie:
    """A CIE: places `start` and `end` of its record, its fields, the row of its instructions."""

    def __init__(self, start, end):
        self.start = start
        self.end = end
        self.code_alignment = 0
        self.data_alignment = 0
        self.has_data = False
        self.signal = False
        self.pointer_encoding = 0
        self.lsda_encoding = OMITTED
        self.pointers = []
        self.row = Row()


class Fde:
    """An FDE: its record's places, its CIE, `size` addresses from `first`, its program's place.

    `lsda` is the address of its table of call sites, or None.
    """

    def __init__(self, start, end, cie):
        self.start = start
        self.end = end
        self.cie = cie
        self.first = 0
        self.size = 0
        self.lsda = None
        self.program = 0
        self.pointers = []

    def covers(self, address):
        """Whether the address is one of this FDE's."""
        return self.first <= address < self.first + self.size


class Section:
    """A section that was read: its address, its bytes, its CIEs by place and its FDEs in order."""

    def __init__(self, address, data):
        self.address = address
        self.data = data
        self.cies = {}
        self.fdes = []

    def fde_at(self, address):
        """The first FDE that covers the address, or None."""
        return next((fde for fde in self.fdes if fde.covers(address)), None)

    def row_at(self, fde, address):
        """The row of rules at an address that the FDE covers."""
        cursor = Cursor(self.data, fde.program, fde.end)
        program = Program(cursor, fde.cie, self.address, fde.cie.row, fde.first)
        while cursor.left() and program.location <= address:
            program.step()
        return program.row


def record_at(data, start):
    """(place of the id field, end) of the record at `start`, or None where the section ends."""
    cursor = Cursor(data, start, len(data))
    try:
        length = cursor.unsigned(4)
        if length == 0:
            return None
        if length == 0xffffffff:
            length = cursor.unsigned(8)
        place = cursor.at
        cursor.take(length)
    except Refusal:
        raise Refusal("short", start) from None
    return place, cursor.at


def encoding_byte(cursor, letter):
    """The next byte, the encoding for an augmentation letter; bit 80 and ff aren't for R."""
    place = cursor.at
    encoding = cursor.unsigned(1)
    omitted = letter != "R" and encoding == OMITTED
    if not omitted and not is_accepted(encoding, letter != "R"):
        raise Refusal("encoding", place)
    return encoding


def augmentation(cursor, cie, letters, section):
    """Reads the augmentation data of a CIE, letter by letter."""
    for letter in letters:
        if letter == "S":
            cie.signal = True
        elif letter == "R":
            cie.pointer_encoding = encoding_byte(cursor, letter)
        elif letter == "L":
            cie.lsda_encoding = encoding_byte(cursor, letter)
        else:
            encoding = encoding_byte(cursor, letter)
            if encoding != OMITTED:
                place = cursor.at
                number, _ = cursor.pointer(encoding, section)
                cie.pointers.append(Pointer(place, encoding, number, True))


def augmentation_letters(cursor):
    """The letters after the `z` of a CIE's augmentation, or None where it is empty."""
    place = cursor.at
    text = cursor.text().decode("latin-1")
    letters = text[1:]
    known = set(letters) <= set("LPRS") and len(set(letters)) == len(letters)
    if text and (text[0] != "z" or not known):
        raise Refusal("augmentation", place)
    return letters if text else None


def augmentation_data(cursor):
    """A cursor over the next augmentation data, which is taken whole."""
    length = cursor.uleb()
    begin = cursor.at
    cursor.take(length)
    return Cursor(cursor.data, begin, cursor.at)


def read_cie(cursor, start, section):
    """The CIE whose fields after the id come next; `section` is the section's address."""
    cie = Cie(start, cursor.end)
    place = cursor.at
    version = cursor.unsigned(1)
    if version not in (1, 3):
        raise Refusal("version", place)
    letters = augmentation_letters(cursor)
    cie.code_alignment = cursor.uleb()
    cie.data_alignment = cursor.sleb()
    place = cursor.at
    column = cursor.unsigned(1) if version == 1 else cursor.uleb()
    if column != RETURN_COLUMN:
        raise Refusal("column", place)
    if letters is not None:
        cie.has_data = True
        augmentation(augmentation_data(cursor), cie, letters, section)
    program = Program(cursor, cie, section, Row(), None)
    program.run()
    cie.row = program.row
    return cie


def read_range(cursor, fde):
    """The number of an FDE's addresses, in the format of its CIE's pointers."""
    place = cursor.at
    size = cursor.number(fde.cie.pointer_encoding)
    if size < 0 or fde.first + size >= WORD:
        raise Refusal("range", place)
    return size


def read_lsda(cursor, fde, section):
    """The LSDA's pointer at the start of an FDE's augmentation data, where there is one."""
    encoding = fde.cie.lsda_encoding
    if encoding != OMITTED and cursor.left():
        place = cursor.at
        number, address = cursor.pointer(encoding, section)
        fde.pointers.append(Pointer(place, encoding, number, True))
        fde.lsda = address if number else None


def read_fde(cursor, start, cie, section):
    """The FDE whose fields after the id come next."""
    fde = Fde(start, cursor.end, cie)
    place = cursor.at
    number, fde.first = cursor.pointer(cie.pointer_encoding, section)
    fde.pointers.append(Pointer(place, cie.pointer_encoding, number, False))
    fde.size = read_range(cursor, fde)
    if cie.has_data:
        read_lsda(augmentation_data(cursor), fde, section)
    fde.program = cursor.at
    program = Program(cursor, cie, section, cie.row, fde.first)
    program.run()
    fde.pointers.extend(Pointer(*field, False) for field in program.pointers)
    return fde


def read_record(section, start, place, end):
    """Reads one record, whose id field stands at `place`, into the section."""
    cursor = Cursor(section.data, place, end)
    distance = cursor.unsigned(4)
    if distance == 0:
        section.cies[start] = read_cie(cursor, start, section.address)
        return
    cie = section.cies.get(place - distance)
    if cie is None:
        raise Refusal("nocie", place)
    section.fdes.append(read_fde(cursor, start, cie, section.address))


def read_section(address, data, refused=None):
    """The Section of these bytes at this address; a Refusal where it isn't accepted.

    Where `refused` is a list, the records that aren't accepted are passed over and their Refusals
    put into it.
    """
    section = Section(address, data)
    start = 0
    while start < len(data):
        record = None
        try:
            record = record_at(data, start)
            if record is None:
                break
            read_record(section, start, *record)
        except Refusal as refusal:
            refusal.start = start
            if refused is None or record is None:
                raise
            refused.append(refusal)
        start = record[1]
    return section
