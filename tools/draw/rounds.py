#!/usr/bin/env python3
"""rounds.py SCRIPT JOURNAL: a picture of a script's rounds, as SVG on standard output.

A lane for each thread, from left to right the one history that all of them share: updates stand at
their numbers, lookups and refusals between the last update that they saw and the next one. A line
leads from what was found to the update that had brought it.
"""

import pathlib
import sys
from xml.sax.saxutils import escape

sys.path.append(str(pathlib.Path(__file__).resolve().parent.parent / "record"))

from journal import LOADED, REGISTERED, BadJournal, read_journal_of
from script import BadLine, read_script

LANE = 34
HEAD = 64
LABEL = 150
MARK = 5
STEP = 15
MOST_LINES = 600
COLOURS = {REGISTERED: "#1f6feb", LOADED: "#1a7f37"}
REFUSED = "#b35900"
UNWOUND = "#8250df"
STYLE = """text { font: 12px sans-serif; fill: #24292f } .small { font-size: 10px; fill: #57606a }
.lane { stroke: #d0d7de } .update { stroke: #eaeef2 } .saw { fill: none; stroke-opacity: .35 }"""


class Places:
    """Where the history's moments stand: update K, and room behind it for what saw K updates."""

    def __init__(self, entries, updates):
        room = [0] * (updates + 1)
        taken = {}
        for entry in entries:
            if entry.number is None:
                key = entry.lane, entry.stamps()[1]
                taken[key] = taken.get(key, 0) + 1
                room[key[1]] = max(room[key[1]], taken[key])
        self.updates = []
        at = LABEL
        for held in room:
            self.updates.append(at)
            at += STEP * (held + 1)
        self.end = at
        self.used = {}

    def of(self, entry):
        """The place of an entry; those of one lane that saw as many stand beside each other."""
        last = entry.stamps()[1]
        if entry.number is not None:
            return self.updates[last]
        key = entry.lane, last
        self.used[key] = self.used.get(key, 0) + 1
        return self.updates[last] + STEP * self.used[key]


def lanes_of(script):
    """Round and thread of each lane, and its height, a gap between rounds."""
    lanes = {}
    height = HEAD
    for round_number, threads in enumerate(script.rounds, 1):
        for thread_number in range(1, len(threads) + 1):
            lanes[round_number, thread_number] = height
            height += LANE
        height += LANE // 2
    return lanes, height


def mark(entry, x, y):
    """The sign of an entry: a square for an update, a circle for a find, a bar for a backtrace."""
    title = f"<title>{escape('.'.join(map(str, entry.place)) + ' ' + entry.text)}</title>"
    if entry.word == "unwind":
        return (f'<g class="unwind"><rect x="{x - MARK}" y="{y - 8}" width="{2 * MARK}" '
                f'height="16" rx="4" fill="{UNWOUND}"/><text class="small" x="{x - MARK}" '
                f'y="{y + 19}">{len(entry.frames)}</text>{title}</g>')
    if entry.word == "find":
        hits = [look for look in entry.looks if look.image is not None]
        colour = COLOURS[hits[0].half] if hits else "#57606a"
        fill = colour if hits else "#ffffff"
        return (f'<circle class="find" cx="{x}" cy="{y}" r="{MARK}" fill="{fill}" '
                f'stroke="{colour}">{title}</circle>')
    half = LOADED if entry.word in ("load", "unload") else REGISTERED
    colour = COLOURS[half] if entry.number is not None else REFUSED
    fill = colour if entry.number and entry.word in ("register", "replace", "load") else "#ffffff"
    kind = "done" if entry.number is not None else "refused"
    return (f'<rect class="{kind}" x="{x - MARK}" y="{y - MARK}" width="{2 * MARK}" '
            f'height="{2 * MARK}" fill="{fill}" stroke="{colour}" stroke-width="2">{title}</rect>')


def bringers(entries):
    """For each half and image the numbers of the updates that brought it, ascending."""
    brought = {}
    for entry in sorted((e for e in entries if e.number), key=lambda e: e.number):
        half = {"register": REGISTERED, "replace": REGISTERED, "load": LOADED}.get(entry.word)
        if half:
            brought.setdefault((half, int(entry.operand)), []).append(entry)
    return brought


def sights(entries):
    """Pairs of an entry that found something and the update that had brought it."""
    brought = bringers(entries)
    for entry in entries:
        looks = entry.looks + [look for frame in entry.frames for look in frame.looks]
        seen = set()
        for look in looks:
            earlier = [e for e in brought.get((look.half, look.image), [])
                       if e.number <= look.stamp]
            if earlier and earlier[-1].number not in seen:
                seen.add(earlier[-1].number)
                yield entry, earlier[-1], look.half


def axis(places, height):
    """The updates' numbers, each with a line through all lanes; few numbers where many stand."""
    every = max(1, 28 // STEP, len(places.updates) // 400)
    for number, x in enumerate(places.updates):
        if number == 0:
            continue
        yield f'<line class="update" x1="{x}" y1="{HEAD - 22}" x2="{x}" y2="{height - LANE // 2}"/>'
        if number % every == 0 or number == len(places.updates) - 1:
            yield (f'<text class="small" x="{x}" y="{HEAD - 26}" text-anchor="middle">'
                   f'{number}</text>')


def legend():
    """What the signs are."""
    signs = [("■ registered", COLOURS[REGISTERED]), ("■ loaded", COLOURS[LOADED]),
             ("□ removed", "#24292f"), ("□ refused", REFUSED), ("● found", "#24292f"),
             ("○ not found", "#57606a"), ("▮ backtrace, with its frames", UNWOUND)]
    parts = "".join(f'<tspan fill="{colour}">{text}   </tspan>' for text, colour in signs)
    return f'<text x="8" y="18" xml:space="preserve">{parts}</text>'


def picture(script, entries, updates):
    """The lines of the SVG."""
    places = Places(entries, updates)
    lanes, height = lanes_of(script)
    points = {entry.place: (places.of(entry), lanes[entry.lane]) for entry in entries}
    width = max(places.end, 640)
    yield (f'<svg xmlns="http://www.w3.org/2000/svg" width="{width}" height="{height}" '
           f'viewBox="0 0 {width} {height}"><style>{STYLE}</style>')
    yield f'<rect width="{width}" height="{height}" fill="#ffffff"/>'
    yield legend()
    yield from axis(places, height)
    for (round_number, thread_number), y in lanes.items():
        yield f'<line class="lane" x1="{LABEL - 10}" y1="{y}" x2="{places.end}" y2="{y}"/>'
        yield f'<text x="8" y="{y + 4}">round {round_number}, thread {thread_number}</text>'
    seen = list(sights(entries))
    for entry, bringer, half in seen if len(seen) <= MOST_LINES else []:
        (x, y), (u, v) = points[entry.place], points[bringer.place]
        yield (f'<path class="saw" stroke="{COLOURS[half]}" '
               f'd="M{u} {v} C{(u + x) // 2} {v} {(u + x) // 2} {y} {x} {y}"/>')
    for entry in entries:
        yield mark(entry, *points[entry.place])
    yield "</svg>"


def main(words):
    """Writes the picture; the exit status."""
    if len(words) != 2:
        print(__doc__.strip(), file=sys.stderr)
        return 2
    try:
        script = read_script(pathlib.Path(words[0]).read_text(encoding="ascii"))
        journal = pathlib.Path(words[1]).read_text(encoding="ascii")
        entries, updates = read_journal_of(script, journal)
        lines = list(picture(script, entries, updates))
    except (OSError, UnicodeDecodeError, BadLine, BadJournal) as fault:
        print(f"rounds: {fault}", file=sys.stderr)
        return 1
    except (KeyError, IndexError):
        print("rounds: the journal's updates aren't numbered from 1", file=sys.stderr)
        return 1
    print("\n".join(lines))
    return 0


if __name__ == "__main__":
    sys.exit(main(sys.argv[1:]))
