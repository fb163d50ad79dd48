#!/usr/bin/env python3
"""Compares what was recorded, what was printed and what gdb said of stopped stacks.

    check.py journal NAME.script                      prints the journal by unwind.py
    check.py frames NAME.script NAME.out NAME.frames  compares a journal with it and with gdb

Status 0 where all is equal, 1 where something differs, 2 for other words or files not taken.
"""

import re
import sys

from script import BadLine, read_script
from unwind import journal

EVENT = r"\d+\.\d+\.\d+"
PLACES = r"frame (\d+) pc ([0-9a-f]+) sp ([0-9a-f]+)"
UNWIND = re.compile(rf"{EVENT} unwind (\d+)")
FRAME = re.compile(rf"{EVENT} {PLACES} look ([0-9a-f]+) (.*)")
FIND = re.compile(rf"{EVENT} find ([0-9a-f]+) (.*)")
END = re.compile(rf"{EVENT} end (.*)")
RECORDED = re.compile(rf"{PLACES} (\w+) (.*)")


def text_of(path):
    """The text of a file."""
    with open(path, encoding="ascii") as file:
        return file.read()


def matches(pattern, text):
    """The groups of each line of a text that is wholly of this form, in order."""
    found = (pattern.fullmatch(line) for line in text.split("\n"))
    return [match.groups() for match in found if match]


def printed_stacks(text):
    """The frames that a journal prints of each snapshot, in the order of snapshots."""
    stacks = {}
    for line in text.split("\n"):
        start, frame = UNWIND.fullmatch(line), FRAME.fullmatch(line)
        if start:
            frames = stacks.setdefault(int(start[1]), [])
        elif frame:
            frames.append(frame.groups())
    return [frames for _, frames in sorted(stacks.items())]


def recorded_stacks(text):
    """gdb's frames of each stack, which an `end` line ends."""
    stacks = [[]]
    for line in text.split("\n"):
        frame = RECORDED.fullmatch(line)
        if frame:
            stacks[-1].append(frame.groups())
        elif line.startswith("end "):
            stacks.append([])
    return stacks[:-1]


def first_difference(wanted, given):
    """A sentence on the first line in which two texts differ, or None."""
    if wanted == given:
        return None
    lines = zip(wanted.split("\n"), given.split("\n"))
    number = next((n for n, (a, b) in enumerate(lines, 1) if a != b), "after the shorter one")
    return f"line {number} of the journal isn't what tools/record/unwind.py gives"


def kept_look(number, frames, kinds):
    """The address that frame `number` is looked up at, by its pc and the kind of the one inside."""
    exact = number == 0 or kinds[number - 1] == "signal"
    return int(frames[number][1], 16) - (0 if exact else 1)


def differences(printed, recorded):
    """Sentences on frames whose pc, sp or look isn't gdb's; both are lists of groups."""
    kinds = [frame[3] for frame in recorded]
    for mine, gdbs in zip(printed, recorded):
        if mine[:3] != gdbs[:3]:
            yield f"frame {mine[0]}: pc {mine[1]} sp {mine[2]}, gdb: pc {gdbs[1]} sp {gdbs[2]}"
        elif int(mine[3], 16) != kept_look(int(mine[0]), printed, kinds):
            yield f"frame {mine[0]}: looked up at {mine[3]}"
    if len(printed) != len(recorded):
        yield f"{len(printed)} frames, gdb: {len(recorded)}"


def finds_differ(printed, finds):
    """Sentences on frames whose lookup isn't what the `find` of the same address answered."""
    answers = dict(finds)
    for frame in printed:
        if answers.get(frame[3]) != frame[4]:
            yield f"frame {frame[0]}: {frame[4]}, but find {frame[3]}: {answers.get(frame[3])}"


def compare(script_path, journal_path, frames_path):
    """Compares three files and prints what differs and how both stacks end; the status."""
    text, gdbs = text_of(journal_path), text_of(frames_path)
    stacks, recorded = printed_stacks(text), recorded_stacks(gdbs)
    printed = [frame for stack in stacks for frame in stack]
    faults = [first_difference(journal(read_script(text_of(script_path))), text)]
    if len(stacks) != len(recorded):
        faults.append(f"{len(stacks)} backtraces, gdb: {len(recorded)}")
    for mine, gdbs_own in zip(stacks, recorded):
        faults += differences(mine, gdbs_own)
    faults += finds_differ(printed, matches(FIND, text))
    faults = [fault for fault in faults if fault]
    for fault in faults:
        print(fault)
    count = sum(len(stack) for stack in recorded)
    print(f"{len(printed)} frames, {count} by gdb, {len(faults)} differences")
    print("the journal ends:", *[end for (end,) in matches(END, text)])
    print("gdb ends:", *[line[4:] for line in gdbs.split("\n") if line.startswith("end ")])
    return 1 if faults or not printed else 0


def status_of(doc, answer, words):
    """The status of a program: what it answers to its words, or 2 for words or files not taken."""
    try:
        status = answer(words)
    except (BadLine, OSError, ValueError, IndexError) as fault:
        print(fault, file=sys.stderr)
        return 2
    if status is None:
        print(doc, file=sys.stderr)
        return 2
    return status


def main(words):
    """Does what the words of the command line say; the status, and None for other words."""
    if len(words) == 2 and words[0] == "journal":
        sys.stdout.write(journal(read_script(text_of(words[1]))))
        return 0
    if len(words) == 4 and words[0] == "frames":
        return compare(*words[1:])
    return None


if __name__ == "__main__":
    sys.exit(status_of(__doc__, main, sys.argv[1:]))
