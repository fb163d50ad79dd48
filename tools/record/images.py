"""NAME.images: where each image of a recorded script came from.

    image NUMBER BUILD PATH              a file, and its build's number, or - where it has none
    function NUMBER PLACE BYTES NAME     a function that memory alone tells of, by its place in it
"""

from typing import NamedTuple, Optional


class BadImages(Exception):
    """A line, counted from 1, that isn't one of NAME.images."""


class Origin(NamedTuple):
    """An image's file and build, and pairs of size and name of its functions, by their places."""

    path: str
    build: Optional[str]
    functions: dict


def origin_lines(origins):
    """The lines of some Origins, in the order of their images."""
    lines = []
    for number, origin in enumerate(origins):
        lines.append(f"image {number} {origin.build or '-'} {origin.path}")
        lines += [f"function {number} {place:x} {size:x} {name}"
                  for place, (size, name) in sorted(origin.functions.items())]
    return lines


def read_origins(text):
    """The Origins of a text, in order."""
    origins = []
    for number, line in enumerate(text.splitlines(), 1):
        try:
            word, image, *fields = line.split(" ", 3)
            if word == "image" and int(image) == len(origins):
                build, path = fields[0], " ".join(fields[1:])
                origins.append(Origin(path, None if build == "-" else build, {}))
            elif word == "function" and int(image) == len(origins) - 1:
                size, name = fields[1].split(" ", 1)
                origins[-1].functions[int(fields[0], 16)] = int(size, 16), name
            else:
                raise ValueError("neither the next image nor a function of the last one")
        except (ValueError, IndexError) as fault:
            raise BadImages(f"line {number}: {fault}") from None
    return origins
