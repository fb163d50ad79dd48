"""Names of functions, by the symbol tables of an ELF file for x86-64."""

import bisect
import pathlib
import struct
import sys

sys.path.append(str(pathlib.Path(__file__).resolve().parent.parent / "record"))

from elf import PAGE, SEGMENT_LOAD, SEGMENT_NOTE, build_in, segments_of

SYMBOL_TABLES = (2, 11)
FUNCTIONS = (2, 10)
DEBUG = "/usr/lib/debug/.build-id"


class NoSymbols(Exception):
    """A file that isn't there, isn't an ELF file as it should be, or is of another build."""


class Symbols:
    """Functions by ascending places from where an image begins.

    Of pairs of size and name by their places.
    """

    def __init__(self, functions):
        self.places = sorted(functions)
        self.functions = [functions[place] for place in self.places]

    def name(self, place):
        """The function at a place of the image, or None."""
        number = bisect.bisect_right(self.places, place) - 1
        if number < 0:
            return None
        size, text = self.functions[number]
        return text if place < self.places[number] + size or size == 0 else None


def tables(data, at, size, count, form):
    """The records of a table in the file."""
    return [struct.unpack_from(form, data, at + size * number) for number in range(count)]


def functions_in(data):
    """Pairs of size and name of a file's functions by their places, and the number of its build."""
    if data[:6] != b"\x7fELF\x02\x01":
        raise ValueError("not an ELF file of 64 bits")
    segments_at, sections_at = struct.unpack_from("<QQ", data, 32)
    _, segments, section_size, sections = struct.unpack_from("<HHHH", data, 54)
    parts = segments_of(data[segments_at:], segments)
    start = min(part.address for part in parts if part.kind == SEGMENT_LOAD) // PAGE * PAGE
    notes = [build_in(data[part.offset:part.offset + part.file_bytes])
             for part in parts if part.kind == SEGMENT_NOTE]
    headers = tables(data, sections_at, section_size, sections, "<IIQQQQIIQQ")
    found = {}
    for header in headers:
        if header[1] in SYMBOL_TABLES:
            names = headers[header[6]][4]
            for symbol in tables(data, header[4], 24, header[5] // 24, "<IBBHQQ"):
                name, info, _, section, value, size = symbol
                if info & 15 in FUNCTIONS and section and value:
                    end = data.index(b"\0", names + name)
                    text = data[names + name:end].decode("utf-8", "replace")
                    found.setdefault(value - start, (size, text))
    return found, next(filter(None, notes), None)


def functions_of(path, build=None):
    """Pairs of size and name of the functions of a file by their places.

    NoSymbols where the file can't be read, or is of another build than the one that is named.
    """
    try:
        found, other = functions_in(pathlib.Path(path).read_bytes())
    except (OSError, struct.error, ValueError, IndexError) as fault:
        raise NoSymbols(f"{path}: {fault}") from None
    if build and build != other:
        raise NoSymbols(f"{path}: another build than was recorded")
    return found


def debug_functions_of(build):
    """The same of the file that Debian keeps apart for the debugger, or none."""
    try:
        return functions_of(f"{DEBUG}/{build[:2]}/{build[2:]}.debug", build) if build else {}
    except NoSymbols:
        return {}
