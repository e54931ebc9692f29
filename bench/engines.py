#!/usr/bin/env python3
"""Compares both engines with the second model (model.py), and so with each other, on random tables, bodies and options. Each case becomes
a case file of the gate's program: the report with its timeline is the event engine's, the section times the plain engine's, and the
judge of tables must find it right. Run it where ./mca has built the program, with the built program of the cases.

    bench/engines.py CASES [COUNT [SEED]]     2,000 cases from seed 0 on, by the program CASES; cases that differ are told
"""
import pathlib
import random
import subprocess
import sys
import tempfile

import compare
import model


def write(case, number, work):
    """Writes the case of a number, unless its table is no machine or its body has marks."""
    r = random.Random(number)
    machine = r.choice(['tiny', 'dual', 'quad']) if r.random() < 0.1 else ''
    table, body, words = compare.table(r), compare.body(r), compare.words(r)
    if 'LLVM-MCA' in body:
        return False
    (work / 'b.td').write_text(table)
    (work / 'a.s').write_text(body)
    words = [f'-mcpu={machine}' if machine else '-table=b.td', *words, 'a.s']
    if subprocess.run([compare.PROGRAM, *words], cwd=work, capture_output=True).returncode == 4:
        return False
    read = {'a.s': body, 'b.td': table}.get
    sections = {'args': '\n'.join(words), 'file a.s': body.rstrip('\n'), 'file b.td': table.rstrip('\n'), 'out-sink': 'room 16777216',
                'status': '0', 'out': '\n'.join(model.report(words, read)), 'times': '\n'.join(model.report(['-times', *words], read))}
    case.write_text(f'Random case {number}.\n' + ''.join(f'-- {name} --\n{text}\n' for name, text in sections.items()))
    return True


def main(program, count, seed):
    work = pathlib.Path(tempfile.mkdtemp(prefix='mca-engines-'))
    cases = []
    number = seed
    while len(cases) < count:
        case = work / f'{number}.txt'
        if write(case, number, work):
            cases.append(case.name)
        number += 1
    (work / 'random.txt').write_text(''.join(name + '\n' for name in cases))
    ran = subprocess.run([program, 'random.txt'], cwd=work, capture_output=True, text=True)
    print(ran.stdout + ran.stderr, end='')
    print(f'{count} cases from the seeds {seed} to {number - 1}, in {work}')
    sys.exit(ran.returncode)


if __name__ == '__main__':
    main(pathlib.Path(sys.argv[1]).resolve(), int(sys.argv[2]) if len(sys.argv) > 2 else 2000, int(sys.argv[3]) if len(sys.argv) > 3 else 0)
