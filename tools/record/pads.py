"""Where the C++ runtime takes an exception: a gdb script, for gdb 13 and its own Python.

    gdb -batch -ex 'break _Unwind_RaiseException' -ex run -x tools/record/pads.py \\
        -ex 'landing-pads NAME.pads' --args PROGRAM WORD..

The program goes on from where it stands. NAME.pads has a line for each landing pad that the
runtime's personality routine chooses, in order, with what it is told there, and then what became of
the exception: `caught`, or `terminated`, by the routine of a frame that it may not pass, or
`uncaught`, where no frame wanted it.
"""

import gdb

WORD = 1 << 64
CHOSEN = "_Unwind_SetIP"
TOLD = "_Unwind_SetGR"
CAUGHT = "__cxa_begin_catch"
ENDED = "std::terminate()"
UNWINDERS = ("_Unwind_RaiseException", "_Unwind_Resume")


def argument(name):
    """The number below 2^64 in a register of the innermost frame."""
    return int(gdb.newest_frame().read_register(name)) % WORD


def stop_at(names):
    """A breakpoint at the very first byte of each function."""
    return [gdb.Breakpoint(f"*'{name}'", internal=True) for name in names]


def is_unwinding():
    """Whether a frame of the innermost ones goes through the stack."""
    frame = gdb.newest_frame()
    while frame is not None and frame.name() not in UNWINDERS:
        frame = frame.older()
    return frame is not None


def lines_of_pads():
    """The lines, up to what becomes of the exception."""
    stop_at([CHOSEN, TOLD, CAUGHT, ENDED])
    lines, told = [], 0
    while True:
        gdb.execute("continue", to_string=True)
        name = gdb.newest_frame().name() or ""
        if name == TOLD:
            told = argument("rdx")
        elif name == CHOSEN:
            lines.append(f"pad {argument('rsi'):x} {told}")
        elif name == CAUGHT:
            # the runtime also calls it before it terminates
            if told != 0:
                return lines + ["end caught"]
        else:
            return lines + ["end terminated" if is_unwinding() else "end uncaught"]


class LandingPads(gdb.Command):
    """landing-pads NAME.pads: go on, and write where the runtime takes the exception."""

    def __init__(self):
        super().__init__("landing-pads", gdb.COMMAND_STACK, gdb.COMPLETE_FILENAME)

    def invoke(self, argument_text, from_tty):
        """Does the command; the text is the path."""
        del from_tty
        words = gdb.string_to_argv(argument_text)
        if len(words) != 1:
            raise gdb.GdbError("landing-pads NAME.pads")
        with open(words[0], "w", encoding="ascii") as file:
            file.write("".join(f"{line}\n" for line in lines_of_pads()))


LandingPads()
