#!/usr/bin/env python3
"""Compares the reports and the times that the case files of whole commands expect with what the second model says (model.py).
A case that is refused, or whose devices fail, is passed over; but where a report is too long, or is expected without its text, its
length is compared with the most that there may be. With the word 'make' the expectations are written anew.

    bench/cases.py [make] [LIST ..]     the lists of crates/mca_cases/data, by their names; else each that has whole commands
"""
import pathlib
import sys

import model

DATA = pathlib.Path(__file__).resolve().parent.parent / 'crates/mca_cases/data'
MOST_ROWS = 100_000     # of a case that the model runs
MOST_BYTES = 67_108_864     # of a report
LISTS = ['run', 'rows', 'regions', 'views', 'reports', 'bottleneck', 'hostile']


def sections(text):
    """The comment of a case, and its sections as pairs of name and content."""
    comment, out = '', []
    for line in text.split('\n')[:-1]:
        if line.startswith('-- ') and line.endswith(' --'):
            out.append([line[3:-3], ''])
        elif out:
            out[-1][1] += line + '\n'
        else:
            comment += line + '\n'
    return comment, out


def made(rules):
    """What the rules of a section make."""
    out = ''
    for rule in rules.split('\n')[:-1]:
        word, _, rest = rule.partition(' ')
        if word == 'line':
            out += rest + '\n'
        elif word == 'text':
            out += rest
        elif word == 'repeat':
            count, _, line = rest.partition(' ')
            out += (line + '\n') * int(count)
        elif word == 'bytes':
            out += bytes(int(x, 16) for x in rest.split(' ')).decode('latin-1')
        elif word == 'fill':
            count, _, byte = rest.partition(' ')
            out += chr(int(byte, 16)) * int(count)
        elif word == 'use':
            out += (DATA / rest).read_text(encoding='latin-1')
        elif word == 'replace':
            old, _, new = rest.partition(' by ')
            lines = out.split('\n')
            assert old in lines, (rule, 'replaces nothing')
            out = '\n'.join(new if line == old else line for line in lines)
    return out


def words_of(parts):
    """The words of a case, each option's value behind its name."""
    words, out = dict(parts)['args'].split('\n')[:-1], []
    while words:
        word = words.pop(0)
        default = getattr(model.Options, word.lstrip('-').replace('-', '_'), False)
        if word.startswith('-') and '=' not in word and not isinstance(default, bool):
            word += '=' + words.pop(0)
        out.append(word)
    return out


def files_of(parts):
    files = {name[5:]: text for name, text in parts if name.startswith('file ')}
    return files | {name[14:]: made(text) for name, text in parts if name.startswith('generate file ')}


def size(parts):
    """How many rows a case runs, or somewhat more."""
    o = model.Options(words_of(parts))
    return 51_200 if o.load else o.iterations * files_of(parts)[o.input].count('\n')


def expected(parts):
    """The report and the times that the model gives for a case."""
    files, words = files_of(parts), words_of(parts)
    report = lambda more: '\n'.join(model.report(words + more, lambda name: files[name])) + '\n'
    return {'out': report([])} | ({'times': report(['-times'])} if 'times' in dict(parts) else {})


def main(words):
    make = words[:1] == ['make']
    differ = count = 0
    for name in words[make:] or LISTS:
        for path in (DATA / f'{name}.txt').read_text().split('\n')[:-1]:
            comment, parts = sections((DATA / path).read_text(encoding='latin-1'))
            case = dict(parts)
            too_long = case.get('err') == f'mca: limit ReportBytes: {MOST_BYTES + 1}\n' and '-timeline' not in case['args']
            if case.get('status') != '0\n' and not too_long or any(name in ('out-sink', 'err-sink') and 'fails' in text for name, text in parts):
                continue
            if size(parts) > MOST_ROWS:
                continue
            count += 1
            wanted = expected(parts)
            if too_long or 'out' not in case:
                if (len(wanted['out']) > MOST_BYTES) != too_long:
                    differ += 1
                    print(f'{path}: the report has {len(wanted["out"])} bytes')
                continue
            for part in parts:
                if part[0] in wanted and part[1] != wanted[part[0]]:
                    differ += 1
                    print(f'{path}: {part[0]} differs')
                    part[1] = wanted[part[0]]
            if make:
                text = comment + ''.join(f'-- {name} --\n{content}' for name, content in parts)
                (DATA / path).write_text(text, encoding='latin-1')
    print(f'{count} cases compared, {differ} differ')
    sys.exit(differ > 0 and not make)


if __name__ == '__main__':
    main(sys.argv[1:])
