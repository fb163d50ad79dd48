#!/usr/bin/env python3
"""flames.py [FOLDED ..]: folded lines as a flame graph, as SVG on standard output.

A box for each frame, as wide as the stacks are many that go through it, and what it called above
it. The lines of all files are drawn together; without a file, those of standard input.
"""

import fileinput
import sys
import zlib
from xml.sax.saxutils import escape

WIDTH = 1200
SIDE = 10
HEAD = 30
ROW = 18
LETTER = 6.6
NARROWEST = 0.25
STYLE = """text { font: 11px monospace; fill: #24292f } .head { font: 12px sans-serif }
rect { stroke: #ffffff; stroke-width: .5 } .frame:hover rect { stroke: #24292f }"""


class BadFolded(Exception):
    """A line that isn't a stack and how often it came."""


class Frame:
    """How many stacks go through a frame, and the frames that it called, by their names."""

    def __init__(self):
        self.count = 0
        self.called = {}

    def add(self, names, count):
        """Takes a stack of these names, the outermost first, so many times."""
        frame = self
        frame.count += count
        for name in names:
            frame = frame.called.setdefault(name, Frame())
            frame.count += count

    def depth(self):
        """How many frames stand above this one at the most."""
        row, depth = [self], -1
        while row:
            row = [frame for one in row for frame in one.called.values()]
            depth += 1
        return depth


def read_folded(lines):
    """The frame that stands for all stacks, below the outermost ones."""
    root = Frame()
    for number, line in enumerate(lines, 1):
        stack, _, count = line.rstrip("\n").rpartition(" ")
        if not count.isdecimal() or not count.isascii():
            raise BadFolded(f"line {number}: no number of stacks")
        root.add(stack.split(";") if stack else [], int(count))
    return root


def colour(name):
    """A warm colour, the same for the same name."""
    number = zlib.crc32(name.encode())
    return f"#{225 + number % 30:02x}{130 + number // 30 % 90:02x}{60 + number // 2700 % 60:02x}"


def box(name, count, of, x, width, y):
    """The box of a frame at a place, with as much of its name as there is room for."""
    room = int((width - 4) / LETTER)
    shown = name if len(name) <= room else name[:room - 2] + ".." if room > 3 else ""
    text = f'<text x="{x + 3:.2f}" y="{y + 13}">{escape(shown)}</text>' if shown else ""
    title = f"{escape(name)}: {count} of {of}"
    return (f'<g class="frame"><rect x="{x:.2f}" y="{y}" width="{width:.2f}" height="{ROW - 1}" '
            f'fill="{colour(name)}"/>{text}<title>{title}</title></g>')


def boxes(root, bottom):
    """The boxes of all frames but those that are too narrow to be seen."""
    scale = (WIDTH - 2 * SIDE) / max(root.count, 1)
    waiting = [(root, SIDE, bottom)]
    while waiting:
        frame, x, y = waiting.pop()
        for name, called in sorted(frame.called.items()):
            width = called.count * scale
            if width >= NARROWEST:
                yield box(name, called.count, root.count, x, width, y)
                waiting.append((called, x, y - ROW))
            x += width


def picture(root):
    """The lines of the SVG."""
    height = HEAD + ROW * root.depth() + SIDE
    yield (f'<svg xmlns="http://www.w3.org/2000/svg" width="{WIDTH}" height="{height}" '
           f'viewBox="0 0 {WIDTH} {height}"><style>{STYLE}</style>')
    yield f'<rect width="{WIDTH}" height="{height}" fill="#ffffff"/>'
    yield (f'<text class="head" x="{SIDE}" y="18">{root.count} stacks, the outermost frames at '
           'the bottom</text>')
    yield from boxes(root, height - SIDE - ROW)
    yield "</svg>"


def main(words):
    """Writes the picture; the exit status."""
    if any(word.startswith("-") for word in words):
        print(__doc__.strip(), file=sys.stderr)
        return 2
    try:
        root = read_folded(fileinput.input(words, encoding="utf-8"))
    except (OSError, UnicodeDecodeError, BadFolded) as fault:
        print(f"flames: {fault}", file=sys.stderr)
        return 1
    print("\n".join(picture(root)))
    return 0


if __name__ == "__main__":
    sys.exit(main(sys.argv[1:]))
