#!/usr/bin/env python3
"""Compares the built program with the second model (model.py) on random tables, bodies and options: whole reports with every view.
Run it after ./mca has built the program.

    bench/compare.py [COUNT [SEED]]     2,000 cases from seed 0 on; a case that differs is kept in a folder that is told
"""
import pathlib
import random
import subprocess
import sys
import tempfile

import model

TOP = pathlib.Path(__file__).resolve().parent.parent
PROGRAM = TOP / 'crates/mca_cli/out/mca_cli'
CLASSES = 'IALU IALU32 ShiftImm IMul IDiv Jmp LDW LDD STW STD'.split()


def table(r):
    """A table of a small machine; now and then it is none, and the program refuses it."""
    out = ['def M : SchedMachineModel {', f'  let IssueWidth = {r.randint(1, 4)};', f'  let MicroOpBufferSize = {r.choice([1, 2, 3, 5, 8, 32])};', '}']
    names = []
    buffer = lambda: r.choice(['', '', '', f' {{ let BufferSize = {r.choice([-1, 0, 1, 1, 2, 4])}; }}'])
    for k in range(r.randint(1, 4)):
        names.append(f'P{k}')
        out.append(f'def P{k} : ProcResource<{r.choice([1, 1, 1, 2, 3])}>' + (buffer() or ';'))
    for k in range(r.randint(0, 2)):
        members = r.sample(names[:4], r.randint(1, min(3, len(names))))
        members = [m for m in members if m.startswith('P')] or ['P0']
        names.append(f'G{k}')
        out.append(f'def G{k} : ProcResGroup<[{", ".join(members)}]>' + (buffer() or ';'))
    for kind in CLASSES:
        count = r.choice([0, 1, 1, 1, 1, 2, 2, 3])
        uses = r.sample(names, min(count, len(names))) if r.random() < 0.97 else [r.choice(names) for _ in range(count)]
        fields = [f'let Latency = {r.choice([0, 1, 1, 2, 3, 4, 20, 100])};']
        if uses and r.random() < 0.5:
            fields.append(f'let ReleaseAtCycles = [{", ".join(str(r.choice([0, 1, 1, 2, 3, 7])) for _ in uses)}];')
        if r.random() < 0.3:
            fields.append(f'let NumMicroOps = {r.choice([1, 2, 3, 5, 9])};')
        for flag in ('BeginGroup', 'EndGroup', 'SingleIssue'):
            if r.random() < 0.08:
                fields.append(f'let {flag} = 1;')
        out.append(f'def : WriteRes<Write{kind}, [{", ".join(uses)}]> {{ {" ".join(fields)} }}')
    reads = ['ReadIALU', 'ReadIMul', 'ReadIDiv', 'ReadMemBase', 'ReadStoreData', 'ReadJmp']
    for read in r.sample(reads, r.randint(0, 3)):
        if r.random() < 0.5:
            out.append(f'def : ReadAdvance<{read}, {r.choice([-3, -1, 1, 2, 5])}>;')
        if r.random() < 0.5:
            out.append(f'def : ReadAdvance<{read}, {r.choice([-2, 1, 3])}, [Write{r.choice(CLASSES)}]>;')
    if r.random() < 0.3:
        out.append(f'def : RegisterFile<{r.choice([0, 2, 4, 9])}, [{r.choice(["GPR", "GPRC"])}], [{r.choice([1, 2])}]>;')
    if r.random() < 0.3:
        out.append(f'def : RetireControlUnit<{r.choice([-1, 2, 6, 32])}, {r.choice([-1, 0, 1, 2])}>;')
    for queue in ('LoadQueue', 'StoreQueue'):
        if r.random() < 0.2:
            out.append(f'def : {queue}<{r.choice(names)}>;')
    return '\n'.join(out) + '\n'


def body(r):
    few = ['a0', 'a1', 'a2', 'a3', 'zero', 's1']
    reg = lambda: r.choice(few)
    forms = [lambda: f'add {reg()}, {reg()}, {reg()}', lambda: f'addi {reg()}, {reg()}, 1', lambda: f'addw {reg()}, {reg()}, {reg()}',
             lambda: f'slli {reg()}, {reg()}, 3', lambda: f'mul {reg()}, {reg()}, {reg()}', lambda: f'div {reg()}, {reg()}, {reg()}',
             lambda: f'lw {reg()}, 4({reg()})', lambda: f'ld {reg()}, 8({reg()})', lambda: f'sw {reg()}, 0({reg()})',
             lambda: f'sd {reg()}, 0({reg()})', lambda: f'beq {reg()}, {reg()}, .L1', lambda: r.choice(['fence', 'fence.tso', 'ecall'])]
    kinds = r.sample(forms, r.randint(1, 6))
    lines = lambda: ''.join(r.choice(kinds)() + '\n' for _ in range(r.randint(1, 12)))
    if r.random() < 0.8:
        return lines()
    return ''.join(f'# LLVM-MCA-BEGIN {name}\n{lines()}# LLVM-MCA-END\nnop\n' for name in ('first', 'second'))


def words(r):
    out = [f'-iterations={r.randint(1, 7)}', '-timeline', '-bottleneck-analysis']
    for name, values in (('dispatch', [1, 2, 3, 8]), ('register-file-size', [1, 2, 5]), ('lqueue', [1, 2, 4]), ('squeue', [1, 2, 4]),
                         ('timeline-max-iterations', [0, 1, 3]), ('timeline-max-cycles', [0, 1, 7, 30]), ('noalias', ['false'])):
        if r.random() < 0.25:
            out.append(f'-{name}={r.choice(values)}')
    return out


def main(count, seed):
    work = pathlib.Path(tempfile.mkdtemp(prefix='mca-compare-'))
    same = refused = differ = 0
    for number in range(seed, seed + count):
        r = random.Random(number)
        machine = r.choice(['tiny', 'dual', 'quad']) if r.random() < 0.1 else ''
        (work / 'a.td').write_text(table(r))
        (work / 'a.s').write_text(body(r))
        command = [f'-mcpu={machine}' if machine else f'-table={work}/a.td', *words(r), f'{work}/a.s']
        ran = subprocess.run([PROGRAM, *command], capture_output=True, text=True)
        if ran.returncode == 4:
            refused += 1
            continue
        wanted = '\n'.join(model.report(command)) + '\n'
        if ran.returncode == 0 and ran.stdout == wanted:
            same += 1
            continue
        differ += 1
        kept = work / str(number)
        kept.mkdir()
        for name, text in (('a.td', (work / 'a.td').read_text()), ('a.s', (work / 'a.s').read_text()), ('came', ran.stdout + ran.stderr),
                           ('wanted', wanted), ('command', ' '.join(command) + '\n')):
            (kept / name).write_text(text)
        print(f'case {number} differs: {kept}')
    print(f'{count} cases from seed {seed}: {same} alike, {refused} refused by the machine, {differ} differ')
    sys.exit(differ > 0)


if __name__ == '__main__':
    main(int(sys.argv[1]) if len(sys.argv) > 1 else 2000, int(sys.argv[2]) if len(sys.argv) > 2 else 0)
