"""Numbers of an `.eh_frame` section: fixed widths, LEB128, pointers, and refusals with places.

Places are counted in bytes from the section's first byte; numbers are plain Python integers.
"""

WORD = 1 << 64

# low four bits of a pointer's encoding: bytes of the number (0 is LEB128), and whether it is signed
FORMATS = {
    0x0: (8, False), 0x1: (0, False), 0x2: (2, False), 0x3: (4, False), 0x4: (8, False),
    0x9: (0, True), 0xa: (2, True), 0xb: (4, True), 0xc: (8, True),
}
ABSOLUTE = 0x00
RELATIVE = 0x10
INDIRECT = 0x80
OMITTED = 0xff


class Refusal(Exception):
    """A section that isn't accepted: the fault's name, the places of its record and its field."""

    def __init__(self, name, at):
        super().__init__(name, at)
        self.name = name
        self.start = 0
        self.at = at

    def __str__(self):
        return f"{self.name} {self.start} {self.at}"


def is_relative(encoding):
    """Whether a pointer of this encoding counts from the address of its own field."""
    return encoding & 0x70 == RELATIVE


def is_accepted(encoding, indirect):
    """Whether a pointer may have this encoding; `indirect` says whether bit 80 may be set."""
    if encoding & INDIRECT and not indirect:
        return False
    return encoding & 0x0f in FORMATS and encoding & 0x70 in (ABSOLUTE, RELATIVE)


class Cursor:
    """Reads `data` (bytes of a section) from the place `at` up to the place `end`."""

    def __init__(self, data, at, end):
        self.data = data
        self.at = at
        self.end = end

    def left(self):
        """The number of bytes that are left."""
        return self.end - self.at

    def take(self, count):
        """The next `count` bytes."""
        if count > self.left():
            raise Refusal("short", self.at)
        self.at += count
        return self.data[self.at - count:self.at]

    def unsigned(self, count):
        """The next number of `count` bytes, little-endian."""
        return int.from_bytes(self.take(count), "little")

    def signed(self, count):
        """The next signed number of `count` bytes, little-endian."""
        return int.from_bytes(self.take(count), "little", signed=True)

    def leb(self):
        """The next LEB128 number: (value without sign, bits, whether the sign's bit is set)."""
        value, bits = 0, 0
        for place in range(self.at, self.end):
            byte = self.data[place]
            value |= (byte & 0x7f) << bits
            bits += 7
            if byte < 0x80:
                self.at = place + 1
                return value, bits, byte & 0x40 != 0
        raise Refusal("short", self.at)

    def uleb(self):
        """The next unsigned LEB128 number, below 2^64."""
        at = self.at
        value, _, _ = self.leb()
        if value >= WORD:
            raise Refusal("wide", at)
        return value

    def sleb(self):
        """The next signed LEB128 number, from -2^63 to 2^63 - 1."""
        at = self.at
        value, bits, negative = self.leb()
        if negative:
            value -= 1 << bits
        if not -WORD // 2 <= value < WORD // 2:
            raise Refusal("wide", at)
        return value

    def text(self):
        """The bytes up to a 0 byte, which is read and not among them."""
        stop = self.data.find(0, self.at, self.end)
        if stop < 0:
            raise Refusal("short", self.at)
        letters = self.data[self.at:stop]
        self.at = stop + 1
        return letters

    def number(self, encoding):
        """The next number in the format that the low four bits of `encoding` name."""
        size, signed = FORMATS[encoding & 0x0f]
        if size == 0:
            return self.sleb() if signed else self.uleb()
        return self.signed(size) if signed else self.unsigned(size)

    def pointer(self, encoding, section):
        """(number as it stands, address meant); `section` is the address of the section."""
        place = self.at
        number = self.number(encoding)
        base = section + place if is_relative(encoding) else 0
        return number, (base + number) % WORD
