#!/usr/bin/env python3
"""Runs the built program on hostile inputs: huge texts of one byte, limits at their last value and
one past it, random bytes, the kernels and tables cut and changed at random, and random words of the
command line. Each run must end with a status from 0 to 5, with nothing on standard output unless it
is 0 and one line on standard error unless it is, within 2 seconds of the processor and 200 MB. Run
it after ./mca has built the program.

    bench/hostile.py [COUNT [SEED]]     10,000 of each random kind from seed 0 on
"""
import multiprocessing
import os
import pathlib
import random
import subprocess
import sys
import tempfile

TOP = pathlib.Path(__file__).resolve().parent.parent
PROGRAM = TOP / 'crates/mca_cli/out/mca_cli'
TABLE = (TOP / 'examples/two-wide.td').read_bytes()
PLAIN = (TOP / 'examples/plain.td').read_bytes()
ADD = b'add a0, a0, a0\n'
MOST = 8_388_608
work = pathlib.Path(tempfile.mkdtemp(prefix='mca-hostile-'))
statuses, slowest, largest, bad = {}, (0, ''), (0, ''), 0
to_run, to_answer = multiprocessing.Pipe()


def runner(asked):
    """Runs the commands that it is asked for, and answers the status, the processor's seconds and the
    kilobytes of each. It is a process of its own, from before any text was made, since the most memory
    of a program counts what the process held that began it."""
    while True:
        command = asked.recv()
        with open(work / 'out', 'wb') as out, open(work / 'err', 'wb') as err:
            child = subprocess.Popen(command, stdout=out, stderr=err)
            _, status, used = os.wait4(child.pid, 0)
        child.returncode = os.waitstatus_to_exitcode(status)
        asked.send((child.returncode, used.ru_utime + used.ru_stime, used.ru_maxrss))


def run(name, assembly, table, *words, wanted=None, command=False):
    """Runs the program, and tells where it did not end as it should. With a command the words name the
    machine, if they do, and may name a file that is not there (status 6)."""
    global slowest, largest, bad
    (work / 'a.s').write_bytes(assembly)
    (work / 'a.td').write_bytes(table)
    machine = [] if command else [f'-table={work}/a.td']
    to_run.send([PROGRAM, *machine, *words, f'{work}/a.s'])
    status, took, kilobytes = to_run.recv()
    out, err = os.path.getsize(work / 'out'), (work / 'err').read_bytes()
    memory = kilobytes / 1024
    statuses[status] = statuses.get(status, 0) + 1
    slowest, largest = max(slowest, (took, name)), max(largest, (memory, name))
    told = err.decode('latin-1').strip()
    wrong = (status not in range(7 if command else 6) or (out == 0) == (status == 0) or (status == 0) != (err == b'') or err.count(b'\n') > 1
             or took > 2 or memory > 200 or (wanted is not None and told != wanted))
    if wrong:
        bad += 1
        print(f'{name}: status {status}, {out} bytes, {told!r}, {took:.2f} s, {memory:.0f} MB' + (f', wanted {wanted!r}' if wanted is not None else ''))


def huge():
    for byte in b'\0\n ;:#/a"\xff':
        shown = repr(bytes([byte]))
        run(f'8 MiB of {shown} as assembly', bytes([byte]) * MOST, TABLE)
        run(f'8 MiB of {shown} as table', ADD, bytes([byte]) * MOST)
        run(f'8 MiB of lines of {shown}', (bytes([byte]) * 4095 + b'\n') * 2048, TABLE)
    run('8 MiB and a byte of assembly', b'\n' * (MOST + 1), TABLE, wanted='mca: limit AssemblyBytes: 8388609')
    run('8 MiB and a byte of table', ADD, b'\n' * (MOST + 1), wanted='mca: limit TableBytes: 8388609')
    run('labels alone', (b'a:' * 2048 + b'\n') * 2047 + ADD, TABLE, wanted='')
    run('a comment that never ends', b'/*\n' + (b'x' * 4095 + b'\n') * 2047, TABLE, wanted='mca: assembly line 1: OpenComment')
    run('a comment of a table that never ends', ADD, b'/*' * (MOST // 2), wanted='mca: table line 1: Syntax')
    run('a string that never ends', ADD, b'def A : LoadQueue<"' + b'x' * (MOST - 19))
    run('parentheses', b'add ' + b'(' * 4000 + b'\n', TABLE)
    run('calls', b'call f\n' * (MOST // 7), TABLE)
    run('constants', b'li a0, 0x1234567812345679\n' * (MOST // 26), TABLE)
    run('symbols', b''.join(b'j _%05x\n' % k for k in range(932000)), TABLE)
    letters = b'abcdefghijklmnopqrstuvwxyzABCDEFGHIJKLMNOPQRSTUVWXYZ'
    run('1.2 million symbols of four letters', b''.join(b'j %c%c%c%c\n' % tuple(letters[k // 52**n % 52] for n in range(4)) for k in range(MOST // 7)), TABLE)
    run('marks', b'# LLVM-MCA-BEGIN\n# LLVM-MCA-END\n' * (MOST // 32), TABLE, wanted='mca: assembly line 2: NoInstruction')
    run('records', ADD, b'def : SchedRead;\n' * 8192, wanted='mca: machine record 0: NoModel')
    resource = lambda size, units: b'def M : SchedMachineModel { let MicroOpBufferSize = 8; }\ndef %s : ProcResource<%d>;\ndef : WriteRes<WriteIALU, []>;\n' % (b'n' * size, units)
    run('a resource with a name of 8 million bytes', ADD, resource(8_000_000, 8), wanted='')
    run('a resource with a name of 8 million bytes, listed too often', ADD, resource(8_000_000, 9), wanted='mca: limit ReportBytes: 67108865')
    lists = [b', '.join(b'%c%d' % (letter, k) for k in range(2000)) for letter in b'AB']
    run('4,000 writes of two groups of 2,000 resources', ADD, b'def M : SchedMachineModel { let MicroOpBufferSize = 8; }\n'
        + b'def : SchedWriteRes<[GA, GB, GA, GB, GA, GB, GA, GB]>;\n' * 4000
        + b''.join(b'def A%d : ProcResource<1>;\ndef B%d : ProcResource<1>;\n' % (k, k) for k in range(2000))
        + b'def GA : ProcResGroup<[%s]>;\ndef GB : ProcResGroup<[%s]>;\n' % tuple(lists), wanted='mca: machine record 4066: OutOfRange')
    many = b', '.join(b'P%d' % (k % 30) for k in range(600_000))
    run('two groups that list 600,000 names each', ADD, TABLE + b''.join(b'def P%d : ProcResource<4>;\n' % k for k in range(30))
        + b'def : SchedWriteRes<[GA, GB, GA, GB, GA, GB, GA, GB]>;\n' * 4000
        + b'def GA : ProcResGroup<[%s]>;\ndef GB : ProcResGroup<[%s]>;\n' % (many, many), wanted='')
    run('800,000 names of opcodes', ADD, TABLE + b''.join(
        b'def : InstRW<[WriteIALU], (instrs %s)>;\n' % b', '.join(b'X%x' % (k * 100 + i) for i in range(100)) for k in range(8000)), wanted='')
    run('4 million names of one letter', ADD, TABLE + b'def : ReadAdvance<R, 1, [%s]>;\n' % b','.join([b'w'] * 4_000_000), wanted='')
    run('4 million numbers', ADD, TABLE + b'def : SchedWriteRes<[]> { let ReleaseAtCycles = [%s]; }\n' % b','.join([b'1'] * 4_000_000))
    run('a list of 10,000 numbers in a scope of 1,000 records', ADD, TABLE + b'let ReleaseAtCycles = [%s] in {\n' % b','.join([b'1'] * 10_000)
        + b'def : SchedWriteRes<[]>;\n' * 1000 + b'}\n')
    run('groups', ADD, TABLE + b''.join(b'def : SchedWriteRes<[PAB, PA, PB]>;\n' for _ in range(8000)))


def limits():
    def regions(count, lines=1):
        return b''.join(b'# LLVM-MCA-BEGIN r%d\n' % k + ADD * lines + b'# LLVM-MCA-END\n' for k in range(count))
    run('64 regions', regions(64), TABLE, wanted='')
    run('65 regions', regions(65), TABLE, wanted='mca: assembly line 193: TooManyRegions')
    run('4,096 instructions', ADD * 4096, TABLE, wanted='')
    run('4,097 instructions', ADD * 4097, TABLE, wanted='mca: assembly line 4097: RegionTooLong')
    run('the most rows', ADD * 4096, TABLE, '-iterations=256', wanted='')
    run('a row too many', ADD * 4096, TABLE, '-iterations=257', wanted='mca: limit RunSize: 1052672')
    run('a line of 4,096 bytes', b'#' + b'x' * 4095 + b'\n' + ADD, TABLE, wanted='')
    run('a line of 4,097 bytes', b'#' + b'x' * 4096 + b'\n' + ADD, TABLE, wanted='mca: assembly line 1: LongLine')
    name = b'n' * 4000
    run('a symbol of 4,000 bytes', b'j ' + name + b'\n', TABLE, wanted='')
    run('a region with a name of 4,000 bytes', b'# LLVM-MCA-BEGIN ' + name + b'\n' + ADD + b'# LLVM-MCA-END\n', TABLE, wanted='')
    model = b'def M : SchedMachineModel { let IssueWidth = %d; let MicroOpBufferSize = %d; }\n'
    write = b'def %s : ProcResource<%d> { let BufferSize = %d; }\ndef : WriteRes<WriteIALU, [%s]> { let Latency = %d; let ReleaseAtCycles = [%d]; let NumMicroOps = %d; }\n'
    def machine(width=2, reorder=32, resource=b'P', units=1, buffer=-1, latency=1, hold=1, uops=1):
        return model % (width, reorder) + write % (resource, units, buffer, resource, latency, hold, uops)
    run('a resource with a name of 4,000 bytes', ADD, machine(resource=name), wanted='')
    for field, last, first in (('width', 64, 1), ('reorder', 4096, 1), ('units', 256, 1), ('buffer', 4096, -1), ('latency', 1_000_000, 0),
                               ('hold', 1_000_000, 0), ('uops', 4096, 1)):
        run(f'{field} at {last}', ADD, machine(**{field: last}), wanted='')
        run(f'{field} at {first}', ADD, machine(**{field: first}), wanted='')
        record = {'width': 1, 'reorder': 1, 'units': 2, 'buffer': 2}.get(field, 3)
        run(f'{field} past {last}', ADD, machine(**{field: last + 1}), wanted=f'mca: machine record {record}: OutOfRange')
    for depth, wanted in ((16, ''), (17, 'mca: table line 17: TooMany')):
        scopes = b'let Latency = 1 in {\n' * depth + machine() + b'}\n' * depth
        run(f'{depth} scopes', ADD, scopes, wanted=wanted)
    run('8,192 records', ADD, machine() + b'def : SchedRead;\n' * 8189, wanted='')
    run('8,193 records', ADD, machine() + b'def : SchedRead;\n' * 8190, wanted='mca: table line 8193: TooMany')
    run('64 resources', ADD, machine() + b''.join(b'def R%d : ProcResource<1>;\n' % k for k in range(63)), wanted='')
    run('65 resources', ADD, machine() + b''.join(b'def R%d : ProcResource<1>;\n' % k for k in range(64)), wanted='mca: machine record 67: OutOfRange')
    wide = model % (2, 32) + b'def P : ProcResource<256>;\ndef : WriteRes<WriteIALU, [P]>;\n'
    run('8 regions of 4,096 instructions on 256 units', regions(8, 4096), wide, '-iterations=1', wanted='')
    run('10 regions of 4,096 instructions on 256 units', regions(10, 4096), wide, '-iterations=1', wanted='mca: limit ReportBytes: 67108865')
    run('a timeline too long', ADD * 4096, TABLE, '-timeline', '-iterations=10', '-timeline-max-cycles=0', wanted='mca: limit ReportBytes: 67108865')
    run('every row and every cycle', ADD * 64, TABLE, '-timeline', '-iterations=16', '-timeline-max-cycles=0', '-timeline-max-iterations=0', wanted='')
    for size in range(len(TABLE)):
        run(f'the table cut to {size} bytes', ADD, TABLE[:size])


def words(r):
    """Words of a command line, most of them options."""
    name = lambda: r.choice(['table', 'mcpu', 'iterations', 'dispatch', 'register-file-size', 'lqueue', 'squeue', 'noalias', 'instruction-info',
                             'resource-pressure', 'timeline', 'timeline-max-iterations', 'timeline-max-cycles', 'bottleneck-analysis', 'load', '', 'x'])
    value = lambda: r.choice(['', '0', '1', '7', '64', '65', '4096', '1048576', '1048577', '4294967296', '9' * 40, '-1', '+1', '1e3', ' 1', 'true', 'false',
                              'tiny', 'dual', 'quad', 'huge', f'{work}/a.td', '\u00e9'])
    return [r.choice(['-', '--', '---']) + name() + (r.choice(['', '=', '==', '=']) and '=' + value()) for _ in range(r.randrange(5))]


def at_random(count, seed):
    kernels = [p.read_bytes() for p in sorted((TOP / 'examples/kernels').glob('*.gcc.s'))]
    tables = [p.read_bytes() for p in sorted((TOP / 'machines').glob('*.td'))]
    for number in range(seed, seed + count):
        r = random.Random(number)
        noise = bytes(r.randrange(256) for _ in range(r.randrange(1, 300)))
        run(f'random bytes {number}', *((noise, TABLE) if number % 2 else (ADD, noise)))
        kernel, table = r.choice(kernels), r.choice(tables)
        text = kernel if number % 2 else table
        cut = text[:r.randrange(len(text))]
        run(f'random cut {number}', *((cut, PLAIN) if number % 2 else (ADD, cut)), '-iterations=2')
        at = r.randrange(len(text))
        changed = text[:at] + bytes([r.randrange(256)]) + text[at + 1:]
        run(f'random change {number}', *((changed, PLAIN) if number % 2 else (kernel, changed)), '-iterations=2', '-timeline', '-bottleneck-analysis')
        run(f'random words {number}', ADD, PLAIN, *words(r), command=True)


def main(count, seed):
    multiprocessing.get_context('fork').Process(target=runner, args=(to_answer,), daemon=True).start()
    huge()
    limits()
    print(f'huge texts and limits: {statuses}, slowest {slowest[0]:.2f} s ({slowest[1]}), largest {largest[0]:.0f} MB ({largest[1]})')
    at_random(count, seed)
    print(f'the slowest took {slowest[0]:.2f} s ({slowest[1]}), the largest held {largest[0]:.0f} MB ({largest[1]})')
    print(f'with {count} of each random kind from seed {seed}: statuses {dict(sorted(statuses.items()))}, {bad} did not end as they should')
    sys.exit(bad > 0)


if __name__ == '__main__':
    main(int(sys.argv[1]) if len(sys.argv) > 1 else 10_000, int(sys.argv[2]) if len(sys.argv) > 2 else 0)
