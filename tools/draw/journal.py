"""Journals as data: what each event of a script was answered, read from the text.

The form is that of docs/FORMATS.md. A line that isn't of it is refused by its number, and so is a
journal of another script; whether a journal is lawful isn't looked at.
"""

from typing import NamedTuple, Optional

REGISTERED = "registered"
LOADED = "loaded"
UPDATES = ("register", "deregister", "replace", "load", "unload")
BY_ADDRESS = ("deregister", "unload", "find")
REFUSALS = ("overlap", "absent", "full")


class BadJournal(Exception):
    """A line, counted from 1, that isn't one of a journal, or an event that isn't the script's."""


class Look(NamedTuple):
    """One half's answer: the image that was found there, or None, and how many updates it saw."""

    half: str
    image: Optional[int]
    stamp: int


class Frame(NamedTuple):
    """A frame of a backtrace: its pc, the address that was looked up, and both halves' answers."""

    pc: int
    look: int
    looks: list


class Entry:
    """An event with its answer: an update's number, or the refusal's stamp, or what was found."""

    def __init__(self, place, word, operand):
        self.place = place
        self.word = word
        self.operand = operand
        self.text = ""
        self.number = None
        self.refusal = None
        self.looks = []
        self.frames = []
        self.end = None

    @property
    def lane(self):
        """The event's round and thread."""
        return self.place[:2]

    def stamps(self):
        """The first and the last number of updates that it saw; an update's own number."""
        if self.number is not None:
            return self.number, self.number
        looks = self.looks + [look for frame in self.frames for look in frame.looks]
        seen = [look.stamp for look in looks]
        if self.refusal is not None:
            seen.append(self.refusal[1])
        return min(seen), max(seen)


def looks_of(fields):
    """What the fields `registered I at K`, and `loaded J at L` behind them, tell."""
    looks = []
    for half, image, word, stamp in zip(*[iter(fields)] * 4, strict=True):
        if half not in (REGISTERED, LOADED) or word != "at":
            raise ValueError("no half's answer")
        looks.append(Look(half, None if image == "none" else int(image), int(stamp)))
    if not looks:
        raise ValueError("no half's answer")
    return looks


def read_update(entry, answer):
    """The answer of an update: its number, or why it was refused and at which stamp."""
    if answer[0] == "done":
        entry.number = int(answer[1])
    elif answer[0] in REFUSALS and answer[-2] == "at":
        entry.refusal = answer[0], int(answer[-1])
    else:
        raise ValueError("no answer of an update")


def read_event(place, fields):
    """The entry of an event's first line."""
    word, operand, *answer = fields
    entry = Entry(place, word, operand)
    entry.text = " ".join(fields)
    if word in UPDATES:
        read_update(entry, answer)
    elif word == "find":
        entry.looks = looks_of(answer)
    elif word != "unwind" or answer:
        raise ValueError("no event")
    return entry


def read_backtrace_line(entry, place, fields):
    """A line of a backtrace that its entry goes on with."""
    if entry is None or entry.word != "unwind" or entry.place != place or entry.end:
        raise ValueError("no backtrace goes on here")
    if fields[0] == "end":
        entry.end = " ".join(fields[1:])
    else:
        entry.frames.append(Frame(int(fields[3], 16), int(fields[7], 16), looks_of(fields[8:])))


def read_journal(text):
    """The entries of a journal, and the number of updates that its last line tells."""
    entries = []
    lines = text.split("\n")
    for number, line in enumerate(lines[:-2], 1):
        where, *fields = line.split(" ")
        try:
            place = tuple(int(part) for part in where.split("."))
            if len(place) != 3:
                raise ValueError("no place")
            if fields[0] in ("frame", "end"):
                read_backtrace_line(entries[-1] if entries else None, place, fields)
            else:
                entries.append(read_event(place, fields))
        except (ValueError, IndexError) as fault:
            raise BadJournal(f"line {number}: {fault}") from None
    if len(lines) < 2 or lines[-1] or not lines[-2].startswith("updates "):
        raise BadJournal("its last line isn't `updates N`")
    return entries, int(lines[-2].split(" ")[1])


def events_of(script):
    """Each event of a script as its journal begins a line: its place, its word, its operand."""
    for round_number, threads in enumerate(script.rounds, 1):
        for thread_number, events in enumerate(threads, 1):
            for event_number, (word, number) in enumerate(events, 1):
                operand = f"{number:x}" if word in BY_ADDRESS else str(number)
                yield (round_number, thread_number, event_number), word, operand


def addresses_of(entry):
    """Each address that was looked up, with what both halves answered."""
    if entry.word == "find":
        yield int(entry.operand, 16), entry.looks
    for frame in entry.frames:
        yield frame.look, frame.looks


def check_images(script, entry):
    """Refuses an answer by an image that the script hasn't, or that doesn't have the address."""
    for address, looks in addresses_of(entry):
        for look in looks:
            known = look.image is None or look.image < len(script.images)
            if not known or look.image is not None and not script.images[look.image].contains(address):
                raise BadJournal(f"event {place_text(entry)}: image {look.image} of the script "
                                 f"doesn't have {address:x}: this is another script's journal")


def place_text(entry):
    """The place of an entry as its line begins."""
    return ".".join(map(str, entry.place))


def read_journal_of(script, text):
    """The entries and the number of updates of this script's journal; another's is refused."""
    entries, updates = read_journal(text)
    wanted = list(events_of(script))
    for entry, event in zip(entries, wanted):
        if (entry.place, entry.word, entry.operand) != event:
            raise BadJournal(f"event {place_text(entry)} isn't the script's: this is another "
                             "script's journal")
        check_images(script, entry)
    if len(entries) != len(wanted):
        raise BadJournal(f"{len(entries)} events, and the script has {len(wanted)}: this is "
                         "another script's journal")
    return entries, updates
