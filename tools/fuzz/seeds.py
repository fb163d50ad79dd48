#!/usr/bin/env python3
"""seeds.py frames|scripts|journals FOLDER: writes what a fuzzer begins with, from the cases and
the tables.

Of scripts each case is one, and each row of the tables about scripts; of journals each check, and
each case with its journal behind its script. Of frames a section of the
tables, of the cases' images and of the questions in C, in the form that frames.c reads.
"""
import pathlib
import subprocess
import sys
import tempfile

TOP = pathlib.Path(__file__).resolve().parent.parent.parent

# beside this, a header that was worked out by hand for section S1 at 2000
HEADER = bytes.fromhex('011b033bfcfeffff0200000000efffff18ffffff20efffff38ffffff')


def sections():
    """Addresses and bytes."""
    for line in (TOP / 'cases/tables/sections.tsv').read_text().splitlines()[1:]:
        _, address, digits = line.split('\t')
        yield address, digits
    for line in (TOP / 'cases/tables/more_sections.tsv').read_text().splitlines()[1:]:
        yield '2000', line.split('\t')[0]
    for line in (TOP / 'cases/tables/frames.txt').read_text().splitlines():
        words = line.partition(' = ')[0].split()
        if len(words) == 4 and words[0] == 'section' and not words[1].startswith('S1_CUT'):
            yield words[2], words[3]
    for script in sorted((TOP / 'cases').glob('*.script')):
        for line in script.read_text().splitlines():
            words = line.split(' ')
            if words[0] == 'image' and len(words) == 6:
                yield words[4], words[5]


def frames():
    made = set()
    for address, digits in sections():
        try:
            start, text = int(address, 16).to_bytes(8, 'little'), bytes.fromhex(digits)
        except (OverflowError, ValueError):
            continue
        made.add(b'\0' + start + text)
        if address == '2000':
            made.add(bytes([len(HEADER)]) + start + HEADER + text)
    return made


def rows(what, part=''):
    """The inputs that `.ci/rows` makes, of those whose titles have this part."""
    with tempfile.TemporaryDirectory() as folder:
        subprocess.run([TOP / '.ci/rows', what, folder, f'{folder}/list'], check=True)
        for line in pathlib.Path(folder, 'list').read_text().splitlines():
            name, _, title = line.split('\t')
            if part in title:
                yield pathlib.Path(folder, name).read_bytes()


def scripts():
    made = {path.read_bytes() for path in (TOP / 'cases').glob('*.script')}
    return made | set(rows('tables', 'script_damage'))


def journals():
    return set(rows('checks'))


def main():
    what, folder = sys.argv[1:]
    folder = pathlib.Path(folder)
    folder.mkdir(parents=True, exist_ok=True)
    made = {'frames': frames, 'scripts': scripts, 'journals': journals}[what]()
    for number, text in enumerate(sorted(made)):
        (folder / f'seed_{number:04}').write_bytes(text)
    print(f'{len(made)} seeds')


main()
