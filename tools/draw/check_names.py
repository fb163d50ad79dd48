#!/usr/bin/env python3
"""check_names.py SCRIPT JOURNAL IMAGES FRAMES: compares frames' names with gdb's.

Of a recorded stack the frames in generated code and in programs outside of the system's folders,
whose functions have one name each. Status 1 where a name differs, or there is no such frame.
"""

import pathlib
import subprocess
import sys

sys.path.append(str(pathlib.Path(__file__).resolve().parent.parent / "record"))

from check import recorded_stacks
from folded import frame_name, names_of
from images import read_origins
from journal import read_journal_of
from script import read_script

SYSTEM = ("/usr/", "/lib", "[vdso]")


def frames_of(script, entries, named, outside):
    """Of each backtrace its frames' names, or None for a frame in the system's folders."""
    for entry in entries:
        if entry.word == "unwind":
            images = [next((look.image for look in frame.looks if look.image is not None), None)
                      for frame in entry.frames]
            yield [frame_name(script, named, frame) if image in outside else None
                   for image, frame in zip(images, entry.frames)]


def readable(names):
    """The names as C++ has them, without the compiler's marks."""
    said = subprocess.run(["c++filt"], input="\n".join(names), capture_output=True, text=True,
                          check=True).stdout
    return said.split("\n")


def main(words):
    """Prints what differs, and how many frames were compared; the status."""
    if len(words) != 4:
        print(__doc__, file=sys.stderr)
        return 2
    script, journal, images, frames = (pathlib.Path(word).read_text(encoding="utf-8")
                                       for word in words)
    outside = [number for number, origin in enumerate(read_origins(images))
               if not origin.path.startswith(SYSTEM)]
    named, missing, _ = names_of(words[2:3])
    script = read_script(script)
    entries, _ = read_journal_of(script, journal)
    pairs = [(name, gdbs[4])
             for stack, theirs in zip(frames_of(script, entries, named, outside),
                                      recorded_stacks(frames))
             for name, gdbs in zip(stack, theirs) if name is not None]
    wrong = [f"{name}, gdb: {gdbs}"
             for name, (_, gdbs) in zip(readable([name for name, _ in pairs]), pairs)
             if name != gdbs and not (gdbs == "-" and "+" in name)]
    for text in missing + wrong:
        print(text)
    print(f"{len(pairs)} frames' names, {len(wrong)} differ from gdb's")
    return 1 if wrong or missing or not pairs else 0


if __name__ == "__main__":
    sys.exit(main(sys.argv[1:]))
