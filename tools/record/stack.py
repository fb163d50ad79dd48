"""Which parts of the memory a backtrace needs, by the sp of its frames.

A range is a pair of a first address and a last address plus 1, both multiples of 8.
"""

from script import MEMORY_BYTES

RED_ZONE = 128
FRAME_BYTES = 1 << 20
UNKNOWN_BYTES = 1024
SAVED_BYTES = 256


def frame_ranges(frames, last_sp):
    """A range for each frame's stack; `frames` have sp and kind, the last one ends at `last_sp`.

    An outermost frame may end at its own sp, since nothing is needed of it. A frame whose next one
    lies on another stack gets 1,024 bytes. Frames that no call left have 128 bytes below sp too.
    """
    nexts = [frame.sp for frame in frames[1:]] + [last_sp]
    exact = [True] + [frame.kind == "signal" for frame in frames]
    found = []
    for frame, after, leaf in zip(frames, nexts, exact):
        first = frame.sp - (RED_ZONE if leaf else 0)
        known = frame.sp <= after <= frame.sp + FRAME_BYTES
        found.append((first & -8, (after if known else frame.sp + UNKNOWN_BYTES) & -8))
    return found


def shortened(ranges, frames):
    """The ranges with 256 bytes each, so that those of 256 frames fit into a snapshot.

    Saved registers stand at the end of a frame's stack, those of a signal at the start.
    """
    return [(first, min(last, first + SAVED_BYTES)) if frame.kind == "signal"
            else (max(first, last - SAVED_BYTES), last)
            for (first, last), frame in zip(ranges, frames)]


def disjoint(ranges):
    """The ranges in ascending order, each without what the ones before it have."""
    found, end = [], 0
    for first, last in sorted(ranges):
        first = max(first, end)
        if first < last:
            found.append((first, last))
            end = last
    return found


def count_of(ranges):
    """The number of bytes in all ranges."""
    return sum(last - first for first, last in ranges)


def stack_ranges(frames, last_sp):
    """The ranges to record, ascending and disjoint, and how many bytes were left out of them."""
    ranges = frame_ranges(frames, last_sp)
    whole = disjoint(ranges)
    if count_of(whole) <= MEMORY_BYTES:
        return whole, 0
    cut = disjoint(shortened(ranges, frames))
    return cut, count_of(whole) - count_of(cut)
