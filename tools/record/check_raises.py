#!/usr/bin/env python3
"""Compares what a raise over a recorded stack comes to with what the C++ runtime did.

    check_raises.py text NAME.script SNAPSHOT KIND   prints a raise by raising.py
    check_raises.py CASE..                           compares the files of cases

A case has CASE.script, CASE.words and CASE.out, which is compared with what raising.py gives. Where
CASE.frames is there, its frames are gdb's; where CASE.pads is there, these are the landing pads
that the runtime took. Status 0 where all is equal, 1 where something differs, 2 for files not
taken.
"""

import os
import re
import sys

from check import RECORDED, differences, matches, status_of, text_of
from raising import raised
from script import read_script

SEARCH = re.compile(r"search (\d+) pc ([0-9a-f]+) sp ([0-9a-f]+) look ([0-9a-f]+) (.*)")
PAD = re.compile(r"(?:cleanup|handler) ([0-9a-f]+)(?: (\d+))?")
ENDS = {"caught": "caught", "terminate": "terminated", "uncaught": "uncaught"}


def text_of_raise(script, number, kind):
    """The text of a raise; the number and the kind are words of the command line."""
    return raised(read_script(script), int(number), int(kind, 16))


def frames_differ(said, recorded):
    """Sentences on frames that aren't gdb's, as far as the search came."""
    lines = matches(SEARCH, said)
    yield from differences(lines, matches(RECORDED, recorded)[:len(lines)])


def pads_of(said):
    """The lines on landing pads that the runtime has for a raise with this text."""
    end = next(line for line in said.split("\n") if line.startswith("end ")).split(" ")[1]
    verdicts = [PAD.search(line[-1]) for line in matches(SEARCH, said)]
    # without a handler and a frame that terminates, the runtime doesn't begin to clean up
    pads = [found for found in verdicts if found and end != "uncaught"]
    return [f"pad {found[1]} {found[2] or 0}" for found in pads] + [f"end {ENDS.get(end, end)}"]


def faults_of(case):
    """Sentences on what differs in a case."""
    said = text_of(f"{case}.out")
    if said != text_of_raise(text_of(f"{case}.script"), *text_of(f"{case}.words").split()):
        yield "it isn't what tools/record/raising.py gives"
    if os.path.exists(f"{case}.frames"):
        yield from frames_differ(said, text_of(f"{case}.frames"))
    if os.path.exists(f"{case}.pads"):
        wanted = text_of(f"{case}.pads").split("\n")[:-1]
        if wanted != pads_of(said):
            yield f"the runtime took {wanted}, and this gives {pads_of(said)}"


def compare(cases):
    """Compares cases and prints what differs; the status."""
    failed = 0
    for case in cases:
        faults = list(faults_of(case))
        failed += 1 if faults else 0
        for fault in faults:
            print(f"{case}: {fault}")
    print(f"{len(cases)} raises, {failed} differ")
    return 1 if failed or not cases else 0


def main(words):
    """Does what the words of the command line say; the status, and None for other words."""
    if len(words) == 4 and words[0] == "text":
        sys.stdout.write(text_of_raise(text_of(words[1]), *words[2:]))
        return 0
    return compare(words) if words else None


if __name__ == "__main__":
    sys.exit(status_of(__doc__, main, sys.argv[1:]))
