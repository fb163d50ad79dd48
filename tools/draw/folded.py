#!/usr/bin/env python3
"""folded.py SCRIPT JOURNAL [IMAGES] [IMAGE=FILE ..]: a script's backtraces as folded lines.

A line for each stack that differs, from the outermost frame to the innermost one, and how often it
came: what the makers of flame graphs read. The outermost frame is the program itself, by its file's
name, or the script's where no file is known. A frame is told by the image that was found there and
its place in it, or by the function's name where the image's file is given: by NAME.images, which
the recorder wrote beside the script, or one by one.
"""

import collections
import pathlib
import re
import sys

sys.path.append(str(pathlib.Path(__file__).resolve().parent.parent / "record"))

from images import BadImages, read_origins
from journal import BadJournal, read_journal_of
from script import BadLine, read_script
from symbols import NoSymbols, Symbols, debug_functions_of, functions_of


# What rustc puts behind a function's path, mangled or not: it differs from build to build.
HASH = re.compile(r"17h[0-9a-f]{16}(?=E)|::h[0-9a-f]{16}\Z")


class Named:
    """An image's functions, and its own name."""

    def __init__(self, name, functions):
        self.name = name
        self.symbols = Symbols(functions)


def frame_name(script, named, frame):
    """A frame's name: a function, an image and a place in it, or an address without an image."""
    found = next((look.image for look in frame.looks if look.image is not None), None)
    if found is None:
        return f"{frame.look:x}"
    place = frame.look - script.images[found].base
    function = named[found].symbols.name(place) if found in named else None
    image = named[found].name if found in named else f"image {found}"
    return HASH.sub("", function) if function else f"{image}+{place:x}"


def stacks(script, named, entries):
    """How often each stack came."""
    counts = collections.Counter()
    for entry in entries:
        if entry.word == "unwind":
            names = [frame_name(script, named, frame) for frame in reversed(entry.frames)]
            counts[";".join(name.replace(";", ":") for name in names)] += 1
    return counts


def program_of(origins):
    """The name of the first file that is no shared object: the program's; None where none is."""
    names = [origin.path.rpartition("/")[2] for origin in origins if origin.path.startswith("/")]
    return next((name for name in names if ".so" not in name), None)


def named_by(origins):
    """The Named images of some Origins, and what isn't at hand, in words."""
    named, missing = {}, []
    for number, origin in enumerate(origins):
        functions = dict(origin.functions)
        try:
            if origin.path.startswith("/"):
                functions = {**debug_functions_of(origin.build),
                             **functions_of(origin.path, origin.build)}
        except NoSymbols as fault:
            missing.append(f"image {number}: {fault}")
        named[number] = Named(origin.path.rpartition("/")[2], functions)
    return named, missing


def names_of(words):
    """Of the words after the first two: Named images, what isn't at hand, the program's name."""
    named, missing, program = {}, [], None
    for word in words:
        image, equal, path = word.partition("=")
        if equal and image.isdigit():
            named[int(image)] = Named(f"image {image}", functions_of(path))
        else:
            origins = read_origins(pathlib.Path(word).read_text(encoding="utf-8"))
            more, missing = named_by(origins)
            named, program = {**more, **named}, program_of(origins)
    return named, missing, program


def main(words):
    """Writes the lines; the exit status."""
    if len(words) < 2:
        print(__doc__.strip(), file=sys.stderr)
        return 2
    try:
        script = read_script(pathlib.Path(words[0]).read_text(encoding="ascii"))
        journal = pathlib.Path(words[1]).read_text(encoding="ascii")
        entries, _ = read_journal_of(script, journal)
        named, missing, program = names_of(words[2:])
        counts = stacks(script, named, entries)
    except (OSError, UnicodeDecodeError, BadLine, BadJournal, BadImages, NoSymbols) as fault:
        print(f"folded: {fault}", file=sys.stderr)
        return 1
    for text in missing:
        print(f"folded: {text}", file=sys.stderr)
    root = program or pathlib.Path(words[0]).stem
    for stack, count in sorted(counts.items()):
        print(f"{root};{stack} {count}" if stack else f"{root} {count}")
    return 0


if __name__ == "__main__":
    sys.exit(main(sys.argv[1:]))
