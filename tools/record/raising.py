"""What becomes of an exception in a recorded stack, by plain means: the text of a raise.

Written after docs/FORMATS.md, apart from the product. The images are the script's fixed ones.
"""

from call_sites import verdict
from cursor import Refusal
from unwind import Registry, backtrace, recorded_word


def tail(snapshot, address):
    """The recorded bytes from an address to the end of their region, or None."""
    for first, data in snapshot.memory:
        if first <= address < first + len(data):
            return data[address - first:]
    return None


def judge(fde, snapshot, look, kind):
    """The verdict of an FDE's table, or "-"; and how the raise ends with it, or None."""
    if fde.lsda is None:
        return "continue", None
    data = tail(snapshot, fde.lsda)
    if data is None:
        return "-", "notable {}"
    try:
        said = verdict(fde.first, fde.lsda, data, look, kind)
    except Refusal as refusal:
        return "-", f"badtable {{}} at {refusal.at}"
    word, *numbers = said.split(" ")
    if word == "terminate":
        return said, "terminate {}"
    if word == "handler":
        return said, f"caught {{}} pad {numbers[0]} filter {numbers[1]}"
    return said, None


def search(script, snapshot, kind):
    """The lines of a search without their first words, and its end."""
    registry = Registry(script)

    def section_at(address):
        """The Section of the fixed image that contains the address, or None."""
        _, image = registry.place(address)
        return None if image is None else script.images[image].section

    frames, trace_end = backtrace(snapshot.columns, recorded_word(snapshot), section_at)
    lines = []
    for number, frame in enumerate(frames):
        section = section_at(frame.look)
        fde = None if section is None else section.fde_at(frame.look)
        said, end = ("-", None) if fde is None else judge(fde, snapshot, frame.look, kind)
        lines.append(f"{number} pc {frame.pc:x} sp {frame.sp:x} look {frame.look:x} "
                     f"{registry.place(frame.look)[0]} {said}")
        if end is not None:
            return lines, end.format(number)
    return lines, f"uncaught {trace_end}"


def raised(script, number, kind):
    """The text of a raise over a snapshot."""
    lines, end = search(script, script.snapshots[number], kind)
    cleanup = lines if end.startswith("caught ") else []
    text = [f"search {line}" for line in lines] + [f"cleanup {line}" for line in cleanup]
    return "".join(f"{line}\n" for line in text + [f"end {end}"])
