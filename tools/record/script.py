"""Scripts as data: reading the text, and the lines that the recorder writes.

The form is that of docs/FORMATS.md. The reader is for scripts that the product takes: of others it
says a line, and not in all cases, and no reason.
"""

from typing import NamedTuple

from cursor import WORD, Refusal
from eh_frame import SECTION_BYTES, read_section

COLUMNS = 17
IMAGES = 4096
MEMORY_BYTES = 65536
SCRIPT_BYTES = 8388608
THREADS = 16
SMALLEST_TREE = 16


class BadLine(Exception):
    """A line, counted from 1, that this reader doesn't take, and what is wrong with it."""


class Image(NamedTuple):
    """An object: `size` addresses from `base`, and its section."""

    base: int
    size: int
    section: object

    def contains(self, address):
        """Whether the address is one of this object's."""
        return self.base <= address < self.base + self.size


class Snapshot:
    """17 registers' numbers, and recorded memory as ascending pairs of address and bytes."""

    def __init__(self, columns):
        self.columns = columns
        self.memory = []

    def word(self, address):
        """The eight bytes at an address, little-endian; None where no one region has them all."""
        for first, data in self.memory:
            if first <= address and address + 8 <= first + len(data):
                return int.from_bytes(data[address - first:address - first + 8], "little")
        return None


class Script:
    """A script: its version, loads, images, fixed images' numbers, snapshots, rounds of threads.

    A thread is a list of events, and an event a pair of its word and its number.
    """

    def __init__(self):
        self.version = 0
        self.loads = 0
        self.images = []
        self.fixed = []
        self.snapshots = []
        self.rounds = []


def decimal(field):
    """The number of a decimal field, below 2^32."""
    if not field.isdigit() or str(int(field)) != field or int(field) >= 1 << 32:
        raise ValueError(f"no decimal number: {field[:40]}")
    return int(field)


def address(field):
    """The number of a hexadecimal field, below 2^64."""
    number = int(field, 16)
    if f"{number:x}" != field or number >= WORD:
        raise ValueError(f"no hexadecimal number: {field[:40]}")
    return number


def digits(field):
    """The bytes of a field of lower-case hexadecimal digits."""
    data = bytes.fromhex(field)
    if data.hex() != field or not data:
        raise ValueError("no hexadecimal bytes")
    return data


def expect(holds, text):
    """A ValueError of this text where it doesn't hold."""
    if not holds:
        raise ValueError(text)


def read_image(script, fields):
    """An `image` line."""
    number, (base, size, where) = decimal(fields[0]), map(address, fields[1:4])
    data = b"" if fields[4] == "-" else digits(fields[4])
    expect(number == len(script.images) < IMAGES, "order of images")
    expect(size > 0 and base + size < WORD, "span")
    expect(len(data) <= SECTION_BYTES, "limit of a section's bytes")
    script.images.append(Image(base, size, read_section(where, data)))


def read_snapshot(script, fields):
    """A `snapshot` line."""
    expect(decimal(fields[0]) == len(script.snapshots) < IMAGES, "order of snapshots")
    expect(len(fields) == 1 + COLUMNS, "columns")
    script.snapshots.append(Snapshot([address(field) for field in fields[1:]]))


def read_memory(script, fields):
    """A `memory` line of the last snapshot."""
    first, data = address(fields[0]), digits(fields[1])
    memory = script.snapshots[-1].memory
    expect(first + len(data) < WORD, "region's end")
    expect(not memory or first >= memory[-1][0] + len(memory[-1][1]), "order of regions")
    expect(sum(len(part) for _, part in memory) + len(data) <= MEMORY_BYTES, "limit of memory")
    memory.append((first, data))


EVENTS = {
    "register": decimal, "deregister": address, "replace": decimal, "load": decimal,
    "unload": address, "find": address, "unwind": decimal,
}


def read_line(script, word, fields):
    """A line after the first three, by its first word."""
    if word == "image":
        read_image(script, fields)
    elif word == "fixed":
        script.fixed.append(decimal(fields[0]))
    elif word == "snapshot":
        read_snapshot(script, fields)
    elif word == "memory":
        read_memory(script, fields)
    elif word == "round":
        script.rounds.append([])
    elif word == "thread":
        script.rounds[-1].append([])
    else:
        expect(word != "replace" or script.version == 2, "word")
        script.rounds[-1][-1].append((word, EVENTS[word](fields[0])))


def read_script(text):
    """The Script of a text; a BadLine where a line isn't taken."""
    script = Script()
    lines = text.split("\n")
    if len(text) > SCRIPT_BYTES or lines[-2:] != ["end", ""]:
        raise BadLine("too long, or its last line isn't `end`")
    for number, line in enumerate(lines[:-2], 1):
        word, *fields = line.split(" ")
        try:
            if number <= 3:
                expect(word == ("frames", "nodes", "loads")[number - 1], "word")
                script.loads = decimal(fields[0])
                if number == 1:
                    script.version = script.loads
                    expect(script.version in (1, 2), "limit")
            else:
                read_line(script, word, fields)
        except Refusal as refusal:
            raise BadLine(f"line {number}: section {refusal}") from None
        except (ValueError, KeyError, IndexError) as fault:
            raise BadLine(f"line {number}: {fault}") from None
    return script


def image_line(number, base, size, where, data):
    """An `image` line: the object's addresses, and its section's address and bytes."""
    return f"image {number} {base:x} {size:x} {where:x} {data.hex() or '-'}"


def snapshot_lines(number, columns, memory):
    """A `snapshot` line and its `memory` lines, of ascending pairs of address and bytes."""
    numbers = " ".join(f"{column:x}" for column in columns)
    regions = [f"memory {first:x} {data.hex()}" for first, data in memory]
    return [f"snapshot {number} {numbers}"] + regions


def events_of(number, looks):
    """The events of a recorded stack: its backtrace, and a `find` for each address looked up."""
    return [f"unwind {number}"] + [f"find {look:x}" for look in looks]


def round_lines(threads):
    """The lines of a round of threads, each a list of events."""
    return ["round"] + [line for events in threads for line in ["thread"] + events]


def fixed_lines(images):
    """The lines that have all images loaded from the start, in the order of their addresses."""
    return [f"fixed {number}" for number in sorted(range(len(images)), key=lambda n: images[n][0])]


def script_lines(loaded, generated, stacks, fixed=False):
    """The lines of a script. Images of objects are loaded, those of generated code registered.

    Where they are `fixed` instead, they are there from the start.

    A stack is its columns, its memory and the addresses looked up. One alone is unwound by the
    thread that loads; several by threads of a round of their own, which runs side by side.
    """
    images = loaded + generated
    nodes = max(SMALLEST_TREE, len(generated))
    lines = ["frames 1", f"nodes {nodes}", f"loads {max(1, len(loaded))}"]
    lines += [image_line(number, *image) for number, image in enumerate(images)]
    lines += fixed_lines(images) if fixed else []
    for number, (columns, memory, _) in enumerate(stacks):
        lines += snapshot_lines(number, columns, memory)
    start = [f"load {number}" for number in range(len(loaded))]
    start += [f"register {number}" for number in range(len(loaded), len(images))]
    start = [] if fixed else start
    events = [events_of(number, looks) for number, (_, _, looks) in enumerate(stacks)]
    if len(stacks) == 1:
        lines += round_lines([start + events[0]])
    else:
        dealt = [sum(events[number::THREADS], []) for number in range(min(THREADS, len(events)))]
        lines += round_lines([start]) + round_lines(dealt)
    return lines + ["end"]
