"""Writes stopped stacks as a script: a gdb script, for gdb 13 and its own Python.

    gdb -batch -p PID -x tools/record/record.py -ex 'stack-script NAME.script'
    gdb -batch -p PID -x tools/record/record.py -ex 'stack-script NAME.script all'
    gdb -batch -p PID -x tools/record/record.py -ex 'stack-script NAME.script raise'

The selected thread's stack, or those of all threads; with `raise` also the tables of call sites of
its functions. Also writes NAME.frames, the frames as gdb unwinds them, and NAME.images, where each
image came from. README.md says what is in them.
"""

import os
import re
import sys

import gdb

sys.path.insert(0, os.path.dirname(os.path.abspath(__file__)))
# pylint: disable=wrong-import-position
from cut import CannotCut, cut_section, needed_fdes
from cursor import WORD, Refusal
from eh_frame import SECTION_BYTES, read_section
from elf import Mapping, NotFound, Space, objects_of, section_of
from expressions import NoBytes
from generated import Damaged, code_of, entries_of
from images import Origin, origin_lines
from script import MEMORY_BYTES, SCRIPT_BYTES, script_lines
from stack import SAVED_BYTES, stack_ranges
from tables import tables_of
from unwind import FRAMES, Frame, backtrace

REGISTERS = ["rax", "rdx", "rcx", "rbx", "rsi", "rdi", "rbp", "rsp", "r8", "r9", "r10", "r11",
             "r12", "r13", "r14", "r15", "rip"]
LOADS = 1024
UNWOUND = 256
KINDS = {gdb.NORMAL_FRAME: "normal", gdb.SIGTRAMP_FRAME: "signal", gdb.ARCH_FRAME: "normal"}


def say(text):
    """Writes a line to standard error."""
    sys.stderr.write(f"record: {text}\n")


def register(frame, name):
    """The number below 2^64 that a register has in a frame of gdb's."""
    return int(frame.read_register(name)) % WORD


def memory(address, count):
    """`count` bytes of the process's memory, or None where gdb has them not all."""
    try:
        return gdb.selected_inferior().read_memory(address, count).tobytes()
    except (gdb.MemoryError, OverflowError):
        return None


def word(address):
    """The eight bytes at an address of the process, little-endian; NoBytes where it has none."""
    data = memory(address % WORD, 8)
    if data is None:
        raise NoBytes(address % WORD)
    return int.from_bytes(data, "little")


def mappings():
    """The Mappings of the process or core file, as gdb lists them."""
    text = gdb.execute("info proc mappings", to_string=True)
    number = r"\s+0x([0-9a-f]+)"
    line = re.compile(rf"{number}{number}{number}{number}(?:\s+[r-][w-][x-][ps])?(?:\s+(\S.*))?")
    found = filter(None, (line.fullmatch(one.rstrip()) for one in text.split("\n")))
    return [Mapping(int(one[1], 16), int(one[2], 16), int(one[4], 16), one[5] or "")
            for one in found]


def system_object():
    """The address of the vDSO, or 0."""
    try:
        text = gdb.execute("info auxv", to_string=True)
    except gdb.error:
        return 0
    found = re.search(r"AT_SYSINFO_EHDR.*0x([0-9a-f]+)", text)
    return int(found[1], 16) if found else 0


def frames_of_gdb():
    """gdb's Frames with code of their own, up to 257, their names, and why there are no more."""
    for setting in ("past-main on", "past-entry on", "limit unlimited"):
        gdb.execute(f"set backtrace {setting}")
    found, names, frame = [], [], gdb.newest_frame()
    while frame is not None and len(found) <= FRAMES:
        if frame.type() in KINDS:
            pc, exact = register(frame, "rip"), not found or found[-1].kind == "signal"
            look = pc if exact else (pc - 1) % WORD
            found.append(Frame(pc, register(frame, "rsp"), look, KINDS[frame.type()]))
            names.append(frame.name() or "-")
        reason = gdb.frame_stop_reason_string(frame.unwind_stop_reason())
        frame = frame.older()
    return found, names, reason if frame is None else f"after {FRAMES} frames"


def read_object(space, found):
    """The Section of an object, whole where it isn't too long; else without what isn't accepted."""
    address, data, way = section_of(space, found)
    say(f"read: {found.path}: {len(data)} bytes of .eh_frame, {way}")
    if len(data) <= SECTION_BYTES:
        return read_section(address, data)
    refused = []
    section = read_section(address, data, refused)
    if refused:
        say(f"left out: {found.path}: {len(refused)} records of its .eh_frame are refused; "
            f"the first: {refused[0]}")
    return section


def read_objects():
    """Pairs of an object and its Section; says which objects are left out and why."""
    pairs = []
    space = Space(mappings(), memory)
    for found in objects_of(space, system_object()):
        try:
            pairs.append((found, read_object(space, found)))
        except NotFound as fault:
            say(f"left out: {found.path}: {fault}")
        except Refusal as refusal:
            say(f"left out: {found.path}: its .eh_frame is refused: {refusal}")
    for found, _ in pairs[LOADS:]:
        say(f"left out: {found.path}: there are {LOADS} objects before it")
    return pairs[:LOADS]


def read_generated():
    """Pairs of generated code that gdb was told of and its Section; says what is left out."""
    try:
        descriptor = int(gdb.parse_and_eval("(long) &__jit_debug_descriptor")) % WORD
        images = entries_of(memory, descriptor)
    except gdb.error:
        return []
    except Damaged as fault:
        say(f"left out: generated code: {fault}")
        return []
    pairs = []
    for image, count in images:
        try:
            found = code_of(memory, image, count)
            data = memory(found.section, found.section_bytes)
            say(f"read: {found.path}: {found.section_bytes} bytes of .eh_frame")
            pairs.append((found, read_section(found.section, data or b"")))
        except Damaged as fault:
            say(f"left out: [generated at {image:x}]: {fault}")
        except Refusal as refusal:
            say(f"left out: [generated at {image:x}]: its .eh_frame is refused: {refusal}")
    return pairs


def image_of(found, section, looks):
    """(base, size, address, bytes) of an object's image; a long section is cut to the `looks`."""
    data = section.data
    if len(data) > SECTION_BYTES:
        needed = needed_fdes(section, [look for look in looks if found.contains(look)])
        data = cut_section(section, needed)
        if len(data) > SECTION_BYTES:
            raise CannotCut("what the stack needs is too long too")
        say(f"cut: {found.path}: its .eh_frame is above {SECTION_BYTES} bytes; "
            f"{len(needed)} of {len(section.fdes)} FDEs are kept in {len(data)} bytes")
    return found.base, found.end - found.base, section.address, data


def images_of(pairs, looks):
    """The images of the objects, and where each came from."""
    images, origins = [], []
    for found, section in pairs:
        try:
            images.append(image_of(found, section, looks))
        except CannotCut as fault:
            say(f"left out: {found.path}: its .eh_frame can't be cut: {fault}")
            continue
        functions = {address - found.base: function
                     for address, function in found.functions.items() if found.contains(address)}
        origins.append(Origin(found.path, found.build, functions))
    return images, origins


def with_frames(pairs, looks):
    """The pairs whose object contains one of these addresses."""
    return [pair for pair in pairs if any(pair[0].contains(look) for look in looks)]


def longer(gdbs, ours, end):
    """The longer one of gdb's frames and ours, which end so; says where they differ."""
    for number, (one, other) in enumerate(zip(gdbs, ours)):
        if one != other:
            say(f"frame {number}: gdb has {one.kind} pc {one.pc:x} sp {one.sp:x}, "
                f"the sections give {other.kind} pc {other.pc:x} sp {other.sp:x}")
            break
    if len(gdbs) != len(ours):
        say(f"gdb has {len(gdbs)} frames; the sections give {len(ours)}, end {end}")
    return gdbs if len(gdbs) > len(ours) else ours


def recorded_memory(frames, last_sp):
    """The stack of the frames as ascending pairs of address and bytes."""
    ranges, left_out = stack_ranges(frames, last_sp)
    if left_out:
        say(f"cut: the stack: {left_out} bytes are left out, {SAVED_BYTES} of each frame are kept")
    found = []
    for first, last in ranges:
        part = memory(first, last - first)
        if part is None:
            say(f"left out: the stack from {first:x} to {last:x}: gdb can't read it")
        else:
            found.append((first, part))
    return found


def recorded_tables(ranges, room):
    """The bytes of tables of call sites as pairs of address and bytes, as many as have room."""
    found = []
    for first, last in ranges:
        part = memory(first, last - first)
        if part is None:
            say(f"left out: the table of call sites at {first:x}: gdb can't read it")
        elif len(part) > room:
            say(f"left out: the table of call sites at {first:x}: a snapshot has {MEMORY_BYTES} "
                "bytes")
        else:
            room -= len(part)
            found.append((first, part))
    return found


def write_lines(path, lines):
    """Writes lines to a file; says how many bytes they have."""
    text = "".join(f"{line}\n" for line in lines)
    with open(path, "w", encoding="ascii", errors="replace") as file:
        file.write(text)
    say(f"wrote {path}: {len(text)} bytes")
    return len(text)


class Stack:
    """The selected thread's stack: its columns, gdb's frames, and what a script needs of it.

    With tables, its memory has those of its frames' functions too.
    """

    def __init__(self, pairs, with_tables=False):
        self.columns = [register(gdb.newest_frame(), name) for name in REGISTERS]
        self.gdbs, self.names, self.reason = frames_of_gdb()

        def section_at(address):
            """The Section of the code that contains the address, or None."""
            return next((section for found, section in pairs if found.contains(address)), None)

        ours, end = backtrace(self.columns, word, section_at, FRAMES + 1)
        frames = longer(self.gdbs, ours, end)
        self.looks = [frame.look for frame in frames[:FRAMES]]
        self.memory = recorded_memory(frames[:FRAMES], frames[:FRAMES + 1][-1].sp)
        if with_tables:
            room = MEMORY_BYTES - sum(len(part) for _, part in self.memory)
            tables = recorded_tables(tables_of(pairs, self.looks), room)
            say(f"read: {len(tables)} tables of call sites")
            self.memory = sorted(self.memory + tables)

    def frame_lines(self):
        """gdb's frames, as they stand in NAME.frames."""
        pairs = list(zip(self.gdbs, self.names))[:FRAMES]
        lines = [f"frame {number} pc {frame.pc:x} sp {frame.sp:x} {frame.kind} {name}"
                 for number, (frame, name) in enumerate(pairs)]
        return lines + [f"end {self.reason}"]


def stacks_of_all(pairs, with_tables):
    """The Stacks of all threads, by gdb's numbers; the selected one stays selected."""
    selected = gdb.selected_thread()
    threads = sorted(gdb.selected_inferior().threads(), key=lambda thread: thread.num)
    for thread in threads[UNWOUND:]:
        say(f"left out: thread {thread.num}: there are {UNWOUND} before it")
    stacks = []
    for thread in threads[:UNWOUND]:
        thread.switch()
        stacks.append(Stack(pairs, with_tables))
    selected.switch()
    return stacks


def write_script(path, every_thread, for_raise):
    """Writes the script and the frames of the selected thread, or of all.

    A script for a raise has the tables of call sites; its images are fixed, and have frames.
    """
    pairs, generated = read_objects(), read_generated()
    known = generated + pairs
    stacks = stacks_of_all(known, for_raise) if every_thread else [Stack(known, for_raise)]
    looks = [look for stack in stacks for look in stack.looks]
    if for_raise:
        pairs, generated = with_frames(pairs, looks), with_frames(generated, looks)
    images, origins = images_of(pairs, looks)
    registered, told = images_of(generated, looks)
    lines = script_lines(images, registered,
                         [(stack.columns, stack.memory, stack.looks) for stack in stacks],
                         for_raise)
    if write_lines(path, lines) > SCRIPT_BYTES:
        say(f"a script above {SCRIPT_BYTES} bytes isn't run")
    name = os.path.splitext(path)[0]
    write_lines(f"{name}.frames", [line for stack in stacks for line in stack.frame_lines()])
    write_lines(f"{name}.images", origin_lines(origins + told))


class StackScript(gdb.Command):
    """stack-script NAME.script [all] [raise]: write the selected thread's stack, or all threads'.

    NAME.script is the script, NAME.frames has gdb's frames, and NAME.images where each image came
    from. With raise the images are fixed, and the tables of call sites are written too."""

    def __init__(self):
        super().__init__("stack-script", gdb.COMMAND_STACK, gdb.COMPLETE_FILENAME)

    def invoke(self, argument, from_tty):
        """Does the command; `argument` is the path, and which threads."""
        del from_tty
        words = gdb.string_to_argv(argument)
        if not words or words[1:] not in ([], ["all"], ["raise"], ["all", "raise"]):
            raise gdb.GdbError("stack-script NAME.script [all] [raise]")
        write_script(words[0], "all" in words[1:], "raise" in words[1:])


StackScript()
