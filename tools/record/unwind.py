"""The journal of a script by plain means: a registry of lists, and frames one from another.

Written after docs/FORMATS.md and DWARF 5, section 6.4, apart from the product, so that what the two
print can be compared. One thread after another, nothing shared; `full` of the tree is never said.
"""

from typing import NamedTuple

from cursor import WORD
from expressions import NoBytes, value

FRAMES = 256
STACK_POINTER = 7
RETURN_COLUMN = 16


class Registry:
    """Numbers of images: registered, loaded, fixed; and the number of updates that were done."""

    def __init__(self, script):
        self.script = script
        self.lists = {"registered": [], "loaded": []}
        self.updates = 0

    def members(self, half):
        """The numbers of the images of one half; fixed images count as loaded."""
        return self.lists[half] + (self.script.fixed if half == "loaded" else [])

    def hit(self, half, address):
        """The number of the half's image that contains the address, or None."""
        images = self.script.images
        found = [number for number in self.members(half) if images[number].contains(address)]
        return found[0] if found else None

    def place(self, address):
        """The text of a lookup's answer, and the number of the image found, or None."""
        number, stamp = self.hit("registered", address), self.updates
        if number is not None:
            return f"registered {number} at {stamp}", number
        number = self.hit("loaded", address)
        shown = "none" if number is None else number
        return f"registered none at {stamp} loaded {shown} at {stamp}", number

    def add(self, word, half, number):
        """The answer to `register` or `load`."""
        images = self.script.images
        image = images[number]
        others = sorted((images[other].base, other) for other in self.members(half))
        for base, other in others:
            if base < image.base + image.size and image.base < base + images[other].size:
                return f"{word} {number} overlap {base:x} {other} at {self.updates}"
        if half == "loaded" and len(self.lists[half]) == self.script.loads:
            return f"{word} {number} full at {self.updates}"
        self.lists[half].append(number)
        self.updates += 1
        return f"{word} {number} done {self.updates}"

    def exchange(self, word, number):
        """The answer to `replace`: an image of the same span comes in another's place."""
        images, members = self.script.images, self.lists["registered"]
        span = images[number].base, images[number].size
        for place, other in enumerate(members):
            if (images[other].base, images[other].size) == span:
                members[place] = number
                self.updates += 1
                return f"{word} {number} done {self.updates} image {other}"
        return f"{word} {number} absent at {self.updates}"

    def take(self, word, half, base):
        """The answer to `deregister` or `unload`."""
        for number in self.lists[half]:
            if self.script.images[number].base == base:
                self.lists[half].remove(number)
                self.updates += 1
                return f"{word} {base:x} done {self.updates} image {number}"
        return f"{word} {base:x} absent at {self.updates}"


def recorded_word(snapshot):
    """A function from an address to the eight bytes there, which raises NoBytes."""
    def word(address):
        """The eight bytes at an address of the snapshot."""
        number = snapshot.word(address % WORD)
        if number is None:
            raise NoBytes(address % WORD)
        return number
    return word


def frame_address(row, columns, word):
    """The CFA of a row whose CFA rule isn't missing."""
    kind, operand = row.cfa
    if kind == "expression":
        return value(operand, columns, word, [])
    column, offset = operand
    return (columns[column] + offset) % WORD


def column_number(rule, old, cfa, columns, word):
    """The next number of a column with this rule; `old` is its number where the rule keeps it."""
    kind, operand = rule if rule is not None else ("same", None)
    if kind in ("same", "undefined"):
        return old
    if kind in ("offset", "val_offset"):
        number = (cfa + operand) % WORD
        return word(number) if kind == "offset" else number
    if kind == "register":
        return columns[operand]
    number = value(operand, columns, word, [cfa])
    return word(number) if kind == "expression" else number


def next_columns(row, columns, word):
    """The 17 numbers of the frame that called the one with these columns, or the end's word."""
    rule = row.columns[RETURN_COLUMN]
    if row.cfa is None or rule is None:
        return "norow"
    if rule[0] == "undefined":
        return "undefined"
    try:
        cfa = frame_address(row, columns, word)
        olds = list(columns)
        if row.columns[STACK_POINTER] is None:
            olds[STACK_POINTER] = cfa
        return [column_number(rule, old, cfa, columns, word)
                for rule, old in zip(row.columns, olds)]
    except NoBytes as fault:
        return f"nobytes {fault.address:x}"


class Frame(NamedTuple):
    """A frame: its pc and sp, the address looked up for it; `kind` is normal or signal."""

    pc: int
    sp: int
    look: int
    kind: str


def backtrace(columns, word, section_at, most=FRAMES):
    """(Frames, end): the frames from these 17 numbers outwards, and the word of their end.

    `word` gives the eight bytes at an address or raises NoBytes; `section_at` gives the Section of
    the object that contains an address, or None.
    """
    frames, exact = [], True
    while len(frames) < most:
        pc, sp = columns[RETURN_COLUMN], columns[STACK_POINTER]
        look = pc if exact else (pc - 1) % WORD
        section = section_at(look)
        fde = None if section is None else section.fde_at(look)
        exact = fde is not None and fde.cie.signal
        frames.append(Frame(pc, sp, look, "signal" if exact else "normal"))
        if fde is None:
            return frames, "noobject" if section is None else "nofde"
        columns = next_columns(section.row_at(fde, look), columns, word)
        if isinstance(columns, str):
            return frames, columns
    return frames, "long"


def trace(script, registry, snapshot):
    """The lines of a backtrace after its first, without the event's number."""
    def section_at(address):
        """The Section of the image that the registry gives for an address, or None."""
        _, image = registry.place(address)
        return None if image is None else script.images[image].section

    frames, end = backtrace(snapshot.columns, recorded_word(snapshot), section_at)
    lines = [f"frame {number} pc {frame.pc:x} sp {frame.sp:x} look {frame.look:x} "
             f"{registry.place(frame.look)[0]}" for number, frame in enumerate(frames)]
    return lines + [f"end {end}"]


def answer(script, registry, word, number):
    """The lines of an event's answer, without the event's number."""
    half = "registered" if word in ("register", "deregister") else "loaded"
    if word in ("register", "load"):
        return [registry.add(word, half, number)]
    if word == "replace":
        return [registry.exchange(word, number)]
    if word in ("deregister", "unload"):
        return [registry.take(word, half, number)]
    if word == "find":
        return [f"find {number:x} {registry.place(number)[0]}"]
    return [f"unwind {number}"] + trace(script, registry, script.snapshots[number])


def journal(script):
    """The text of a script's journal."""
    registry = Registry(script)
    lines = []
    for number_of_round, threads in enumerate(script.rounds, 1):
        for number_of_thread, events in enumerate(threads, 1):
            for number_of_event, (word, number) in enumerate(events, 1):
                front = f"{number_of_round}.{number_of_thread}.{number_of_event}"
                lines += [f"{front} {line}" for line in answer(script, registry, word, number)]
    return "".join(f"{line}\n" for line in lines + [f"updates {registry.updates}"])
