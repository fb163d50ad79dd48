#!/usr/bin/env python3
"""stack_script.py REGISTERS STACK SECTION ADDRESS [OTHERS]: writes a script of a recorded stack.

REGISTERS is a text of 20 hexadecimal numbers: the 17 columns, the stack's address, the image's
first address and its size. STACK has the stack's bytes, SECTION those of .eh_frame, which stood at
ADDRESS (hexadecimal). OTHERS images with empty sections, below the stack's image, come before it.
"""
import sys


def main(registers, stack, section, address, others="0"):
    with open(registers) as text:
        numbers = [int(word, 16) for word in text.read().split()]
    if len(numbers) != 20:
        sys.exit("20 numbers are wanted")
    columns, (at, base, size) = numbers[:17], numbers[17:]
    with open(stack, "rb") as held:
        memory = held.read()
    with open(section, "rb") as held:
        frames = held.read()
    count = int(others)
    print("frames 1\nnodes 4\nloads 8")
    for number in range(count):
        print(f"image {number} {0x1000 * (number + 1):x} 1000 {0x1000 * (number + 1):x} -")
    print(f"image {count} {base:x} {size:x} {int(address, 16):x} {frames.hex()}")
    print("snapshot 0", *(f"{column:x}" for column in columns))
    print(f"memory {at:x} {memory.hex()}")
    print("round\nthread")
    for number in range(count + 1):
        print(f"load {number}")
    print("unwind 0\nend")


main(*sys.argv[1:])
