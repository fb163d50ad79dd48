#!/usr/bin/env python3
"""hostile_scripts.py FOLDER: writes scripts that take long for their size.

long_program     a hundred backtraces of a stack that leads back to itself, as in the case
                 endless_stack, in a function whose row takes 65,400 instructions
long_expression  the same, where the CFA is an expression of 65,378 operations, most of which load a
                 word from one of 8,000 regions, and a restore has the program gone through twice
much_loaded      1,024 ranges are loaded; then one is unloaded and loaded again, 32,768 times
"""
import pathlib
import struct
import sys

ADDRESS = 0x10000
CIE = bytes.fromhex('1400000000000000017a5200017810011b0c070890010000')
# the CFA is column 6 and 16 from the fifth address on, as after a function's beginning
BEGINNING = bytes.fromhex('410e108602430d06')


def backtraces_in(program, words, backtraces):
    """A script with one function, of this program, and recorded words beside its stack."""
    program += bytes(-(13 + len(program)) % 4)
    at = len(CIE)
    fde = struct.pack('<IIiIB', 13 + len(program), at + 4, 0x1000 - (ADDRESS + at + 8), 0x20, 0)
    yield 'frames 1\nnodes 4\nloads 1\n'
    yield f'image 0 1000 20 {ADDRESS:x} {(CIE + fde + program).hex()}\nfixed 0\n'
    yield 'snapshot 0 0 0 0 0 0 0 7000 7000 0 0 0 0 0 0 0 0 1010\n'
    yield 'memory 7000 00700000000000001010000000000000\n'
    for address, word in words:
        yield f'memory {address:x} {struct.pack("<Q", word).hex()}\n'
    yield 'round\nthread\n' + 'unwind 0\n' * backtraces + 'end\n'


def long_program(instructions, backtraces):
    """Seven states are remembered, and then one more is, and restored, in turns."""
    remembers = b'\x0a' * 7 + b'\x0a\x0b' * ((instructions - 7) // 2)
    yield from backtraces_in(BEGINNING + remembers, [], backtraces)


def long_expression(loads, regions, backtraces):
    """Each word is its own address. One of them is loaded, and dropped for the CFA."""
    words = [(address, address) for address in range(0x8000, 0x8000 + 16 * regions, 16)]
    constant = b'\x0c' + struct.pack('<I', words[regions // 3][0])
    expression = constant + b'\x06' * loads + b'\x13\x76\x10'
    length = bytes([len(expression) & 127 | 128, len(expression) >> 7 & 127 | 128,
                    len(expression) >> 14])
    yield from backtraces_in(BEGINNING + b'\x0f' + length + expression + b'\xc6', words, backtraces)


def much_loaded(ranges, rounds):
    yield f'frames 1\nnodes 4\nloads {ranges}\n'
    for image in range(ranges):
        yield f'image {image} {0x1000 + 2 * image:x} 1 0 -\n'
    yield 'round\nthread\n'
    for image in range(ranges):
        yield f'load {image}\n'
    for _ in range(rounds):
        yield 'round\nthread\n'
        for turn in range(1024):
            image = turn * 7 % ranges
            yield f'unload {0x1000 + 2 * image:x}\nload {image}\n'
    yield 'end\n'


def main():
    folder = pathlib.Path(sys.argv[1])
    for name, lines in (('long_program', long_program(65400, 100)),
                        ('long_expression', long_expression(65375, 8000, 100)),
                        ('much_loaded', much_loaded(1024, 32))):
        (folder / f'{name}.script').write_text(''.join(lines))


main()
