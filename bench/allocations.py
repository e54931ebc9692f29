#!/usr/bin/env python3
"""Runs the built program again and again, with its Nth request for memory refused, N counting up
until a run makes fewer. A run in which one was refused must end with status 8, nothing on standard
output and the line of want of memory on standard error. A refusal that comes before the tool itself
is called, while the words of the command line are kept, has no line; and where a request was only
for room ahead of what is needed, the run may end as the program does by itself. So must the first
run in which none was refused. Run it after ./mca has built the program; it needs a C compiler and
glibc, for refuse_alloc.c counts and refuses the requests.

    bench/allocations.py [WORD]     the cases whose names hold the word
"""
import pathlib
import subprocess
import sys
import tempfile
from collections import Counter

TOP = pathlib.Path(__file__).resolve().parent.parent
PROGRAM = TOP / 'crates/mca_cli/out/mca_cli'
WANT = b'mca: out of memory\n'
NONE = ['-instruction-info=false', '-resource-pressure=false']
ALL = ['-timeline', '-bottleneck-analysis']

ONE = 'add a0, a1, a2\n'
REGIONS = ('# LLVM-MCA-BEGIN p\nadd a0, a0, a0\n# LLVM-MCA-END p\n'
           '# LLVM-MCA-BEGIN q\nadd a0, a0, a0\n# LLVM-MCA-END\n')
CHAINS = 'mul a0, a1, a2\nadd a3, a0, a0\nmul a4, a5, a6\nadd a7, a4, a4\n'
MEMORY = 'div a1, a2, a3\nlw a0, 0(a1)\nfence\nsw a2, 0(a3)\nli a0, 0x1234567812345679\ncall f\n'

# name: the status by itself, the assembly (None: no file is named), and the words before the file.
# The table is two-wide.td where no other machine is named.
CASES = {
    'two regions': (0, REGIONS, ['-iterations=1']),
    'two regions with every view': (0, REGIONS, ALL),
    'a critical sequence': (0, CHAINS, ['-iterations=1', '-bottleneck-analysis']),
    'a critical sequence of 100 iterations': (0, CHAINS, ['-bottleneck-analysis', *NONE]),
    'loads, stores, barriers and constants': (0, MEMORY, ['-mcpu=quad', '-iterations=3', *ALL]),
    'a timeline of all': (0, CHAINS, ['-mcpu=tiny', '-timeline', '-timeline-max-cycles=0',
                                      '-timeline-max-iterations=0']),
    'a kernel on a core': (0, TOP / 'examples/kernels/fnv1a.gcc.s',
                           [f'-table={TOP}/machines/sifive-p670.td', '-iterations=4', *ALL]),
    'a kernel on another core': (0, TOP / 'examples/kernels/matmul.clang.s',
                                 [f'-table={TOP}/machines/xiangshan-nanhu.td', *ALL]),
    'a load': (0, None, ['-load=0']),
    'a word that is no number': (1, ONE, ['-iterations=x']),
    'no word': (1, None, []),
    'an assembly that is refused': (2, 'addi a0, a0, 2047\nc.addi a0, 1\n', []),
    'a region that never ends': (2, REGIONS.rpartition('#')[0], []),
    'a table that is cut': (3, ONE, ['cut']),
    'a use that cannot be met': (4, ONE, ['twice']),
    'an opcode without a class': (4, 'sll a0, a1, a2\n', []),
    'too many rows': (5, ONE * 4096, ['-iterations=257']),
    'no such table': (6, ONE, ['-table=absent.td']),
}


class Runs:
    def __init__(self, work):
        self.work, self.shim, self.log = work, work / 'refuse_alloc.so', work / 'log'
        subprocess.run(['cc', '-O2', '-shared', '-fPIC', '-o', self.shim,
                        TOP / 'bench/refuse_alloc.c'], check=True)
        table = (TOP / 'examples/two-wide.td').read_text()
        (work / 'two-wide.td').write_text(table)
        (work / 'cut.td').write_text(table[:table.index('[PA,') + 4])
        (work / 'twice.td').write_text(table.replace('<WriteIALU, [PAB]>', '<WriteIALU, [PA, PA]>'))

    def command(self, assembly, words):
        tables = [f'-table={word}.td' for word in words if word in ('cut', 'twice')]
        words = [word for word in words if word not in ('cut', 'twice')] + tables
        if assembly is None:
            return words
        if not any(word.startswith(('-table', '-mcpu')) for word in words):
            words = ['-table=two-wide.td', *words]
        if isinstance(assembly, pathlib.Path):
            return [*words, str(assembly)]
        (self.work / 'a.s').write_text(assembly)
        return [*words, 'a.s']

    def run(self, command, number):
        """The status and both outputs where the request of a number (0: none) is refused, and that
        request, if the run came so far."""
        self.log.unlink(missing_ok=True)
        env = {'LD_PRELOAD': str(self.shim), 'REFUSE_LOG': str(self.log)}
        ran = subprocess.run([PROGRAM, *command], capture_output=True, cwd=self.work, timeout=60,
                             env=env | {'REFUSE_ALLOC': str(number)} if number else {})
        refused = self.log.read_text().split() if self.log.exists() else None
        return (ran.returncode, ran.stdout, ran.stderr), refused

    def refuse_each(self, name, status, assembly, words):
        """Tells how the runs of a case ended, and answers how many ended otherwise."""
        def tell(what, came):
            print(f'{name}: {what}: status {came[0]}, {len(came[1])} bytes, {came[2][:80]!r}')

        command = self.command(assembly, words)
        alone, _ = self.run(command, 0)
        calls, early, told, ahead, number = Counter(), 0, 0, 0, 0
        bad = int(alone[0] != status)
        if bad:
            tell('by itself', alone)
        while True:
            number += 1
            came, refused = self.run(command, number)
            if refused is None:
                break
            calls[refused[0]] += 1
            if came == (8, b'', WANT):
                told += 1
            elif came == (8, b'', b'') and early == number - 1:
                early += 1
            elif came == alone:
                ahead += 1
            else:
                bad += 1
                tell(f'request {number}, {" ".join(refused)}', came)
        if came != alone:
            bad += 1
            tell('nothing refused', came)
        made = ', '.join(f'{count} {call}' for call, count in sorted(calls.items()))
        print(f'| {name} | {alone[0]} | {number - 1} ({made}) | {told} | {early} | {ahead} | {bad} |',
              flush=True)
        return bad


def main(word):
    print('| Case | Status by itself | Requests refused, each in a run of its own | Status 8 with its line '
          '| Status 8 before the tool is called | As by itself | Otherwise |')
    print('|---|---|---|---|---|---|---|')
    with tempfile.TemporaryDirectory(prefix='mca-allocations-') as work:
        runs = Runs(pathlib.Path(work))
        bad = sum(runs.refuse_each(name, *case) for name, case in CASES.items() if word in name)
    sys.exit(bad > 0)


if __name__ == '__main__':
    main(sys.argv[1] if len(sys.argv) > 1 else '')
