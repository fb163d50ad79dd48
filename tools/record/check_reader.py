#!/usr/bin/env python3
"""Tries the reader on cases/ and cases/tables/, whose answers come from outside the product, and on
the tables of call sites of cases/tables/frames.txt, which were worked by hand.

    check_reader.py [CASES]     CASES is a directory of cases; without it, that of this repository

Of cases it takes the scripts of version 1 that are run to their end without a full tree; of tables
those on sections and expressions that the directory has. Prints what differs and how many were
tried; the status is 0 where none does.
"""

import os
import re
import sys

from call_sites import verdict
from check import text_of
from cursor import Refusal
from eh_frame import read_section
from expressions import NoBytes, read_expression, value
from script import read_script
from unwind import journal

# what the table of expressions starts from
COLUMNS = [0] * 7 + [0x7000] + [0] * 8 + [0x1234]
MEMORY = {0x7000: 0x1122334455667788}
SECTION_OF_SMALL_ONES = 0x2000

FULL = re.compile("register [0-9]+ full")
FAULTS = {"short": "Short", "wide": "TooWide", "encoding": "Encoding", "filter": "Filter",
          "chain": "Chain", "typeentry": "TypeEntry"}
HERE = os.path.dirname(os.path.abspath(__file__))
TABLES = os.path.join(HERE, "..", "..", "cases", "tables", "frames.txt")


def rows(directory, name):
    """The rows of a table below its header, as lists of fields; none where there is no table."""
    path = os.path.join(directory, "tables", f"{name}.tsv")
    if not os.path.exists(path):
        path = os.path.join(directory, f"{name}.tsv")
    if not os.path.exists(path):
        return []
    return [line.split("\t") for line in text_of(path).splitlines()[1:]]


def section_answer(address, data):
    """What a table of sections says of these bytes."""
    try:
        read_section(address, data)
    except Refusal as refusal:
        return str(refusal)
    return "accepted"


def word(address):
    """The eight bytes at an address of the table of expressions."""
    if address not in MEMORY:
        raise NoBytes(address)
    return MEMORY[address]


def expression_answer(data, depth):
    """What the tables of expressions say of these bytes, over `depth` entries, each of them 5."""
    try:
        number = value(read_expression(data, 0, len(data), depth), COLUMNS, word, [5] * depth)
    except Refusal as refusal:
        return f"{refusal.name} {refusal.at}"
    except NoBytes as fault:
        return f"nobytes {fault.address:x}"
    return f"{number:x}"


def section_trials(directory):
    """(what it is, answer wanted, answer given) for the rows on sections."""
    sections = {name: (int(address, 16), bytes.fromhex(data))
                for name, address, data in rows(directory, "sections")}
    for name, place, digits, wanted, *_ in rows(directory, "section_damage"):
        address, data = sections[name]
        at, new = int(place), bytes.fromhex(digits)
        given = section_answer(address, data[:at] + new + data[at + len(new):])
        yield f"section_damage: {name} {place} {digits}", wanted, given
    for count, wanted in rows(directory, "section_cuts"):
        address, data = sections["S1"]
        yield f"section_cuts: {count}", wanted, section_answer(address, data[:int(count)])
    for digits, wanted in rows(directory, "more_sections"):
        given = section_answer(SECTION_OF_SMALL_ONES, bytes.fromhex(digits))
        yield f"more_sections: {digits}", wanted, given


def expression_trials(directory):
    """(what it is, answer wanted, answer given) for the rows on expressions."""
    names = {"Short": "short", "TooWide": "wide", "Operation": "operation", "Depth": "depth"}
    for digits, depth, fault, place in rows(directory, "expression_faults"):
        given = expression_answer(bytes.fromhex(digits), int(depth))
        yield f"expression_faults: {digits}", f"{names[fault]} {place}", given
    for digits, wanted in rows(directory, "expressions"):
        yield f"expressions: {digits}", wanted, expression_answer(bytes.fromhex(digits), 1)


def verdict_answer(first, where, digits, look, kind):
    """What the table of call sites of these words says."""
    data = b"" if digits == "-" else bytes.fromhex(digits)
    first, where, look, kind = (int(number, 16) for number in (first, where, look, kind))
    try:
        return verdict(first, where, data, look, kind)
    except Refusal as refusal:
        byte = f", byte: {data[refusal.at]}" if refusal.name == "encoding" else ""
        return f"refused {FAULTS[refusal.name]} {{ at: {refusal.at}{byte} }}"


def verdict_trials(directory):
    """(what it is, answer wanted, answer given) for the tables of call sites."""
    del directory
    for line in text_of(TABLES).splitlines():
        words, _, wanted = line.partition(" = ")
        if words.startswith("verdict ") and not wanted.startswith("unreadable"):
            yield words, wanted, verdict_answer(*words.split(" ")[1:])


def journal_trials(directory):
    """(what it is, journal wanted, journal given) for the scripts that are run to their end."""
    for file_name in sorted(os.listdir(directory)):
        case, ending = os.path.splitext(os.path.join(directory, file_name))
        if ending != ".script" or any(os.path.exists(case + end) for end in (".status", ".words")):
            continue
        script, wanted = text_of(case + ".script"), text_of(case + ".out")
        if script.startswith(("frames 1\n", "frames 2\n")) and not FULL.search(wanted):
            yield file_name, wanted, journal(read_script(script))


def main(words):
    """Tries everything; the status."""
    directory = words[0] if words else os.path.join(HERE, "..", "..", "cases")
    tried, failed = 0, 0
    for trials in (section_trials, expression_trials, verdict_trials, journal_trials):
        for name, wanted, given in trials(directory):
            tried += 1
            if wanted != given:
                failed += 1
                print(f"{name}: wanted {wanted}, given {given}")
    print(f"{tried} tried, {failed} differ")
    return 1 if failed or not tried else 0


if __name__ == "__main__":
    sys.exit(main(sys.argv[1:]))
