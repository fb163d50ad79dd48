"""Call frame instructions: the row of rules that they make, and the faults that refuse a section.

A rule is None where a column has none, or a pair: ("undefined", None), ("same", None),
("offset", N), ("val_offset", N), ("register", column), ("expression", operations) or
("val_expression", operations). The CFA's rule is None, ("offset", (column, N)) or
("expression", operations). Every N is below 2^64.
"""

from cursor import WORD, Refusal
from expressions import read_expression

COLUMNS = 17
STATES = 8

# DW_CFA_.., first those with an operand in the low six bits, by their high two bits; 3 is restore
ADVANCE_LOC, OFFSET = 1, 2
NOP, SET_LOC = 0x00, 0x01
RESTORE_EXTENDED, REMEMBER_STATE, RESTORE_STATE = 0x06, 0x0a, 0x0b
DEF_CFA, DEF_CFA_REGISTER, DEF_CFA_OFFSET, DEF_CFA_EXPRESSION = 0x0c, 0x0d, 0x0e, 0x0f
DEF_CFA_SF, DEF_CFA_OFFSET_SF = 0x12, 0x13
GNU_ARGS_SIZE = 0x2e

# instructions that move the location, and the bytes of their operand
MOVES = {SET_LOC: None, 0x02: 1, 0x03: 2, 0x04: 4}
CFA_RULES = (DEF_CFA, DEF_CFA_REGISTER, DEF_CFA_OFFSET, DEF_CFA_EXPRESSION, DEF_CFA_SF,
             DEF_CFA_OFFSET_SF)
# instructions that begin with a column: the rule's kind, and the operand after the column
COLUMN_RULES = {
    0x05: ("offset", "unsigned"), 0x11: ("offset", "signed"),
    0x14: ("val_offset", "unsigned"), 0x15: ("val_offset", "signed"),
    RESTORE_EXTENDED: ("restore", None), 0x07: ("undefined", None), 0x08: ("same", None),
    0x09: ("register", "column"), 0x10: ("expression", "block"), 0x16: ("val_expression", "block"),
}


class Row:
    """The CFA's rule and 17 columns' rules."""

    def __init__(self, cfa=None, columns=None):
        self.cfa = cfa
        self.columns = columns if columns is not None else [None] * COLUMNS

    def copy(self):
        """A row of its own with the same rules."""
        return Row(self.cfa, list(self.columns))


class Program:
    """Runs instructions from a cursor on a row.

    `cie` has code_alignment, data_alignment and pointer_encoding; `section` is the section's
    address; `initial` is the row after the initial instructions; `location` is None inside a CIE.
    `pointers` are the set_loc fields that were met, as (place, encoding, number).
    """

    def __init__(self, cursor, cie, section, initial, location):
        self.cursor = cursor
        self.cie = cie
        self.section = section
        self.initial = initial
        self.location = location
        self.row = initial.copy()
        self.states = []
        self.pointers = []
        self.place = cursor.at

    def run(self):
        """Applies all instructions that are left."""
        while self.cursor.left():
            self.step()

    def step(self):
        """Applies the next instruction."""
        self.place = self.cursor.at
        byte = self.cursor.unsigned(1)
        if byte >= 0x40:
            self.packed(byte >> 6, byte & 0x3f)
        else:
            self.plain(byte)

    def packed(self, kind, operand):
        """An instruction whose operand stands in its low six bits."""
        if kind == ADVANCE_LOC:
            self.advance(operand)
        elif kind == OFFSET:
            self.set(operand, "offset", self.unsigned_offset())
        else:
            self.restore(operand)

    def plain(self, byte):
        """An instruction whose byte has no operand in it."""
        if byte in MOVES:
            self.move(byte)
        elif byte in (REMEMBER_STATE, RESTORE_STATE):
            self.state(byte)
        elif byte in CFA_RULES:
            self.define_cfa(byte)
        elif byte in COLUMN_RULES:
            self.define_column(byte, self.cursor.uleb())
        elif byte == GNU_ARGS_SIZE:
            self.cursor.uleb()
        elif byte != NOP:
            raise Refusal("opcode", self.place)

    def move(self, byte):
        """set_loc and the advances with an operand of 1, 2 or 4 bytes."""
        if byte != SET_LOC:
            self.advance(self.cursor.unsigned(MOVES[byte]))
            return
        place = self.cursor.at
        encoding = self.cie.pointer_encoding
        number, location = self.cursor.pointer(encoding, self.section)
        self.pointers.append((place, encoding, number))
        if self.location is None or location < self.location:
            raise Refusal("location", self.place)
        self.location = location

    def advance(self, count):
        """Moves the location by `count` code alignments."""
        if self.location is None:
            raise Refusal("location", self.place)
        self.location += count * self.cie.code_alignment
        if self.location >= WORD:
            raise Refusal("location", self.place)

    def state(self, byte):
        """remember_state and restore_state."""
        if len(self.states) == (STATES if byte == REMEMBER_STATE else 0):
            raise Refusal("remember", self.place)
        if byte == REMEMBER_STATE:
            self.states.append(self.row.copy())
        else:
            self.row = self.states.pop()

    def define_cfa(self, byte):
        """The instructions that change the CFA's rule."""
        if byte == DEF_CFA_EXPRESSION:
            self.row.cfa = ("expression", self.block(0))
            return
        column = self.cfa_column() if byte in (DEF_CFA, DEF_CFA_REGISTER, DEF_CFA_SF) else None
        offset = None
        if byte in (DEF_CFA, DEF_CFA_OFFSET):
            offset = self.cursor.uleb()
        elif byte in (DEF_CFA_SF, DEF_CFA_OFFSET_SF):
            offset = self.signed_offset()
        self.set_cfa(column, offset)

    def set_cfa(self, column, offset):
        """Gives the CFA a column plus an offset; None keeps what is there, if it is such a rule."""
        if column is None or offset is None:
            if self.row.cfa is None or self.row.cfa[0] != "offset":
                raise Refusal("cfarule", self.place)
            old_column, old_offset = self.row.cfa[1]
            column = old_column if column is None else column
            offset = old_offset if offset is None else offset
        self.row.cfa = ("offset", (column, offset))

    def define_column(self, byte, column):
        """The instructions that change a column's rule; the column was read already."""
        if byte == RESTORE_EXTENDED:
            self.restore(column)
            return
        kind, operand = COLUMN_RULES[byte]
        if operand == "unsigned":
            self.set(column, kind, self.unsigned_offset())
        elif operand == "signed":
            self.set(column, kind, self.signed_offset())
        elif operand == "column":
            self.set(column, kind, self.second_column(column))
        elif operand == "block":
            self.set(column, kind, self.block(1) if column < COLUMNS else self.skipped_block())
        else:
            self.set(column, kind, None)

    def cfa_column(self):
        """The next operand, a column that the CFA may count from."""
        place = self.cursor.at
        column = self.cursor.uleb()
        if column >= COLUMNS:
            raise Refusal("column", place)
        return column

    def second_column(self, column):
        """The second operand of a register rule; it is tested where the first one is applied."""
        place = self.cursor.at
        second = self.cursor.uleb()
        if column < COLUMNS <= second:
            raise Refusal("column", place)
        return second

    def unsigned_offset(self):
        """The next operand, an unsigned offset in data alignments."""
        return self.cursor.uleb() * self.cie.data_alignment % WORD

    def signed_offset(self):
        """The next operand, a signed offset in data alignments."""
        return self.cursor.sleb() * self.cie.data_alignment % WORD

    def skipped_block(self):
        """Takes the next block whole; gives its places."""
        length = self.cursor.uleb()
        begin = self.cursor.at
        self.cursor.take(length)
        return begin, begin + length

    def block(self, depth):
        """The operations of the next block, an expression over `depth` entries."""
        begin, end = self.skipped_block()
        return read_expression(self.cursor.data, begin, end, depth)

    def set(self, column, kind, operand):
        """Gives a column its rule; columns above 16 are read and not applied."""
        if column < COLUMNS:
            self.row.columns[column] = (kind, operand)

    def restore(self, column):
        """Gives a column the rule that it had after the initial instructions."""
        if column < COLUMNS:
            self.row.columns[column] = self.initial.columns[column]
