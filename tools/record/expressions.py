"""DWARF expressions of call frame instructions: reading them with their faults, and their values.

An expression is read into a list of (byte, operand); an operand that isn't there is None.
"""

from cursor import WORD, Cursor, Refusal

DEPTH = 32

# DW_OP_..
DEREF, DUP, DROP, OVER, PICK, SWAP, ROT = 0x06, 0x12, 0x13, 0x14, 0x15, 0x16, 0x17
ABS, AND, MINUS, MUL, NEG, NOT, OR, PLUS = 0x19, 0x1a, 0x1c, 0x1e, 0x1f, 0x20, 0x21, 0x22
PLUS_UCONST, SHL, SHR, SHRA, XOR = 0x23, 0x24, 0x25, 0x26, 0x27
EQ, GE, GT, LE, LT, NE = 0x29, 0x2a, 0x2b, 0x2c, 0x2d, 0x2e
LIT0, LIT_END, BREG0, BREG_END, BLANK = 0x30, 0x50, 0x70, 0x81, 0x96

# byte: (entries that it needs, entries that it leaves in their place, kind of operand)
SHAPES = {
    0x03: (0, 1, "u8"), 0x08: (0, 1, "u1"), 0x09: (0, 1, "s1"), 0x0a: (0, 1, "u2"),
    0x0b: (0, 1, "s2"), 0x0c: (0, 1, "u4"), 0x0d: (0, 1, "s4"), 0x0e: (0, 1, "u8"),
    0x0f: (0, 1, "s8"), 0x10: (0, 1, "uleb"), 0x11: (0, 1, "sleb"),
    DEREF: (1, 1, None), DUP: (1, 2, None), DROP: (1, 0, None), OVER: (2, 3, None),
    SWAP: (2, 2, None), ROT: (3, 3, None), ABS: (1, 1, None), NEG: (1, 1, None),
    NOT: (1, 1, None), PLUS_UCONST: (1, 1, "uleb"), BLANK: (0, 0, None),
}
SHAPES.update({byte: (2, 1, None) for byte in (AND, MINUS, MUL, OR, PLUS, SHL, SHR, SHRA, XOR)})
SHAPES.update({byte: (2, 1, None) for byte in (EQ, GE, GT, LE, LT, NE)})
SHAPES.update({byte: (0, 1, None) for byte in range(LIT0, LIT_END)})
SHAPES.update({byte: (0, 1, "sleb") for byte in range(BREG0, BREG_END)})


class NoBytes(Exception):
    """Eight bytes at `address` weren't recorded."""

    def __init__(self, address):
        super().__init__(address)
        self.address = address


def signed(value):
    """A number below 2^64 as a signed one of 64 bits."""
    return value - WORD if value >= WORD // 2 else value


def read_operand(cursor, kind):
    """The operand of this kind at the cursor, None where the operation has none."""
    if kind is None:
        return None
    if kind == "uleb":
        return cursor.uleb()
    if kind == "sleb":
        return cursor.sleb()
    width = int(kind[1])
    return cursor.signed(width) if kind[0] == "s" else cursor.unsigned(width)


def read_pick(cursor, place, depth):
    """The operand of a pick at `place`, over a stack of `depth` entries."""
    index = cursor.unsigned(1)
    if index >= depth or depth == DEPTH:
        raise Refusal("depth", place)
    return index


def read_expression(data, begin, end, depth):
    """The operations in `data[begin:end]`, over a stack that starts with `depth` entries."""
    cursor = Cursor(data, begin, end)
    operations = []
    while cursor.left():
        place = cursor.at
        byte = cursor.unsigned(1)
        if byte == PICK:
            operations.append((byte, read_pick(cursor, place, depth)))
            depth += 1
            continue
        if byte not in SHAPES:
            raise Refusal("operation", place)
        needed, left, kind = SHAPES[byte]
        if depth < needed or depth - needed + left > DEPTH:
            raise Refusal("depth", place)
        depth += left - needed
        operations.append((byte, read_operand(cursor, kind)))
    if depth == 0:
        raise Refusal("depth", end)
    return operations


def shifted(byte, value, by):
    """`value` shifted by `by` bits by shl, shr or shra."""
    by = min(by, 64)
    if byte == SHL:
        return value << by
    return (signed(value) if byte == SHRA else value) >> by


COMPARED = {
    EQ: lambda a, b: a == b, GE: lambda a, b: a >= b, GT: lambda a, b: a > b,
    LE: lambda a, b: a <= b, LT: lambda a, b: a < b, NE: lambda a, b: a != b,
}
COUNTED = {
    AND: lambda a, b: a & b, MINUS: lambda a, b: a - b, MUL: lambda a, b: a * b,
    OR: lambda a, b: a | b, PLUS: lambda a, b: a + b, XOR: lambda a, b: a ^ b,
}
CHANGED = {
    ABS: lambda b, _: abs(signed(b)), NEG: lambda b, _: -b, NOT: lambda b, _: ~b,
    PLUS_UCONST: lambda b, operand: b + operand,
}


def pushed(byte, operand, columns):
    """The number that an operation without entries pushes."""
    if LIT0 <= byte < LIT_END:
        return byte - LIT0
    if BREG0 <= byte < BREG_END:
        return columns[byte - BREG0] + operand
    return operand


def rearrange(byte, operand, stack):
    """Does dup, drop, over, pick, swap, rot or nop on the stack; False where it is none of them."""
    if byte in (DUP, OVER, PICK):
        stack.append(stack[-1 - {DUP: 0, OVER: 1, PICK: operand}[byte]])
    elif byte == DROP:
        stack.pop()
    elif byte == SWAP:
        stack[-2:] = stack[-1], stack[-2]
    elif byte == ROT:
        stack[-3:] = stack[-1], stack[-3], stack[-2]
    else:
        return byte == BLANK
    return True


def computed(byte, operand, stack, word):
    """The number of an operation that takes entries off the stack."""
    last = stack.pop()
    if byte == DEREF:
        return word(last)
    if byte in CHANGED:
        return CHANGED[byte](last, operand)
    first = stack.pop()
    if byte in COUNTED:
        return COUNTED[byte](first, last)
    if byte in COMPARED:
        return int(COMPARED[byte](signed(first), signed(last)))
    return shifted(byte, first, last)


def value(operations, columns, word, start):
    """The number below 2^64 of an expression.

    `columns` are 17 numbers, `word` gives the eight bytes at an address, `start` are entries.
    """
    stack = list(start)
    for byte, operand in operations:
        if rearrange(byte, operand, stack):
            continue
        needed = SHAPES[byte][0]
        number = computed(byte, operand, stack, word) if needed else pushed(byte, operand, columns)
        stack.append(number % WORD)
    return stack[-1]
