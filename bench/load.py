#!/usr/bin/env python3
"""Prints the program that `mca -load=SEED` makes, by the rule of docs/formats.md, as assembly that
mca and llvm-mca read, one instruction a line. With COUNT it has so many instructions instead of
512: the rule goes on after the last.

    bench/load.py SEED [COUNT]
"""
import sys

import model

if __name__ == '__main__':
    if len(sys.argv) not in (2, 3):
        sys.exit(__doc__)
    for instr in model.load(*map(int, sys.argv[1:])):
        print(instr.spelled())
