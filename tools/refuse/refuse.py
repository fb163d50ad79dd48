#!/usr/bin/env python3
"""refuse.py [--valgrind EACH] [LIBRARIES]: has each call of a kind fail in turn, by calls.c.

Through the built programs go the case of three parts, the case whose fences move, the generated
script for 1, a check of the three parts' journal, and three raises of recorded stacks. LIBRARIES is
a folder that `examples/c/library.sh` made: then the examples for C go too, which end at the first
call that fails. With --valgrind every EACHth run goes under it as well. A program that isn't built
is told, and counts as failed.

A run of the program has to end with the status that is told for its kind and with a front of its
output, as docs/FORMATS.md says: nothing where a read failed. Where a call moves one byte all is
written. No run may be ended by a signal or write to standard error, and the program holds no more
blocks at its end than where nothing was refused. Of an example no more is asked than no signal.
"""
import argparse
import os
import pathlib
import struct
import subprocess
import sys
import tempfile

HERE = pathlib.Path(__file__).resolve().parent
TOP = HERE.parent.parent
# a program, the words that it is given, and the case
RUNS = {
    'three parts': ('unwind_main', ['run'], 'program_library_and_generated_code'),
    'moved fences': ('unwind_main', ['run'], 'fence_moves'),
    'gen 1': ('unwind_main', ['gen', '1'], 'gen_one'),
    'three parts checked': ('check_main', [], 'check_three_parts_lawful'),
    'raise caught': ('raise_main', ['0', '555555558050'], 'raise_recorded_caught'),
    'raise terminated': ('raise_main', ['0', '555555558050'], 'raise_recorded_terminated'),
    'raise uncaught': ('raise_main', ['0', '555555558050'], 'raise_recorded_uncaught'),
}
# the statuses that may be, and whether all of the output has to come
KINDS = {
    'alloc': {0, 6},
    'thread': {0, 6},
    'read': {4},
    'write': {5},
    'short-read': {0},
    'short-write': {0},
}
# those that don't refuse allocations themselves
EXAMPLES = {
    'frames': ['answers', 'own_stack'],
    'registry': ['registry_answers', 'registry', 'registry_signal'],
}
WORDS = {'registry': ['300']}
VALGRIND = ['valgrind', '-q', '--error-exitcode=99', '--leak-check=full', '--fair-sched=try',
            '--soname-synonyms=somalloc=nouserintercepts', '--trace-children=yes']
# what a run that takes longer, in seconds, is told as
LONGEST, HANGS = 300, -1000


def build(command):
    subprocess.run([os.environ.get('CC', 'cc'), '-std=gnu11', '-O1', '-g', *map(str, command)],
                   check=True)


class Refuser:
    """Runs programs of which one call is refused, and says how each ended."""

    def __init__(self, folder):
        self.library = folder / 'calls.so'
        self.told = folder / 'told'
        build(['-shared', '-fPIC', HERE / 'calls.c', '-o', self.library])

    def run(self, command, text, kind, number, valgrind=False):
        """The status, the output, what came on standard error, the calls and the blocks held."""
        self.told.write_bytes(bytes(16))
        how = ['env', f'LD_PRELOAD={self.library}', f'REFUSE={kind}:{number}:{self.told}']
        command = [*(VALGRIND if valgrind else []), *how, *command]
        try:
            ended = subprocess.run(command, input=text, capture_output=True, timeout=LONGEST)
            status, written, said = ended.returncode, ended.stdout, ended.stderr
        except subprocess.TimeoutExpired:
            status, written, said = HANGS, b'', b''
        return status, written, said, *struct.unpack('<Qq', self.told.read_bytes())


class Sweep:
    """Each call of a kind refused in turn, in a run that is known."""

    def __init__(self, refuser, name, command, text, wanted):
        self.refuser, self.name = refuser, name
        self.command, self.text, self.wanted = list(map(str, command)), text, wanted
        self.failed = 0

    def fail(self, kind, number, why):
        self.failed += 1
        print(f'{self.name}, {kind} {number}: {why}')

    def judge(self, kind, number, ended, held):
        """Whether a run of the program ended as it may."""
        status, written, said, _, holds = ended
        if status not in KINDS[kind]:
            self.fail(kind, number, f'status {status}')
        elif said:
            self.fail(kind, number, f'on standard error: {said[:80]}')
        elif holds > held:
            self.fail(kind, number, f'{holds - held} blocks are still held')
        elif not self.wanted.startswith(written) or kind == 'read' and written:
            self.fail(kind, number, f'{len(written)} bytes are no front of what is due')
        elif status == 0 and written != self.wanted:
            self.fail(kind, number, f'only {len(written)} of {len(self.wanted)} bytes')

    def refuse(self, kind, each, judged=True):
        """How many calls there are, and how many runs went under valgrind."""
        _, written, said, calls, held = self.refuser.run(self.command, self.text, kind, 0)
        if judged and (written != self.wanted or said):
            self.fail(kind, 0, 'already where nothing is refused')
        statuses, checked = {}, 0
        for number in range(1, calls + 1):
            ended = self.refuser.run(self.command, self.text, kind, number)
            statuses[ended[0]] = statuses.get(ended[0], 0) + 1
            if judged:
                self.judge(kind, number, ended, held)
            elif ended[0] < 0:
                self.fail(kind, number, f'signal {-ended[0]}')
            if each and number % each == 0:
                checked += 1
                status, _, said, _, _ = self.refuser.run(self.command, self.text, kind, number,
                                                         True)
                if status == 99 and judged or status < 0 or b'Invalid' in said:
                    self.fail(kind, number, 'valgrind: ' + said.decode(errors='replace')[:400])
        ends = ', '.join(f'{statuses[status]} ended with {status}' for status in sorted(statuses))
        print(f'{self.name}, {kind}: {calls} calls; {ends or "none"}; {checked} under valgrind')
        sys.stdout.flush()


def input_of(case):
    """What is read in a case: a script, or a script with a journal behind it, or nothing."""
    for ending in ('script', 'input'):
        file = TOP / f'cases/{case}.{ending}'
        if file.exists():
            return file.read_bytes()
    return b''


def programs(refuser, each):
    failed = 0
    for name, (program, words, case) in RUNS.items():
        built = TOP / f'crates/{program}/out/{program}'
        if not built.exists():
            print(f'{name}: {program} is not built')
            failed += 1
            continue
        sweep = Sweep(refuser, name, [built, *words], input_of(case),
                      (TOP / f'cases/{case}.out').read_bytes())
        for kind in KINDS:
            sweep.refuse(kind, each)
        failed += sweep.failed
    return failed


def examples(refuser, folder, libraries, each):
    failed = 0
    counted = [f'-Wl,--wrap={name}' for name in ('malloc', 'realloc', 'free')]
    for library, names in EXAMPLES.items():
        for name in names:
            source = TOP / f'examples/c/{name}.c'
            wrapped = counted if 'heap_calls.h' in source.read_text() else []
            build(['-pthread', f'-I{TOP}/crates/{library}_c/include', source,
                   f'{libraries}/libfovradus_{library}.a', *wrapped, '-o', folder / name])
            sweep = Sweep(refuser, f'{name}.c', [folder / name, *WORDS.get(name, [])], b'', b'')
            sweep.refuse('alloc', each, judged=False)
            failed += sweep.failed
    return failed


def main():
    words = argparse.ArgumentParser(description=__doc__.splitlines()[0])
    words.add_argument('--valgrind', type=int, default=0, metavar='EACH')
    words.add_argument('libraries', nargs='?', metavar='LIBRARIES')
    given = words.parse_args()
    with tempfile.TemporaryDirectory() as name:
        folder = pathlib.Path(name)
        refuser = Refuser(folder)
        failed = programs(refuser, given.valgrind)
        if given.libraries:
            failed += examples(refuser, folder, given.libraries, given.valgrind)
    print(f'refuse: {failed} failed')
    return 1 if failed else 0


sys.exit(main())
