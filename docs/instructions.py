#!/usr/bin/env python3
"""Writes docs/instructions.md, the instructions that are accepted, from the definitions that the reader is proved against:
rv_isa/specs/Opcodes, rv_expand/specs/Expansion and rv_asm/specs/Table. With --check it writes nothing, and ends with
status 1 where the page differs."""

import os
import re
import sys

TOP = os.path.dirname(os.path.dirname(os.path.realpath(__file__)))
PAGE = f"{TOP}/docs/instructions.md"

# What an operand of each form is written as; the names of registers are those of the manual.
FORMS = {
    "Nothing": "",
    "RdImm": "rd, imm",
    "RdRs1Imm": "rd, rs1, imm",
    "RdRs1Rs2": "rd, rs1, rs2",
    "RdOffset": "rd, imm(rs1)",
    "Rs2Offset": "rs2, imm(rs1)",
    "Rs1Rs2Imm": "rs1, rs2, imm",
    "Sets": "pred, succ",
}
SHAPES = {
    "Rd": "rd",
    "Rs1": "rs",
    "Rs2": "rt",
    "Signed12": "n",
    "Shift64": "n",
    "Shift32": "n",
    "Wide": "n",
    "Branch": "n",
    "Jump": "n",
    "Offset": "n(rs)",
    "Symbol": "n",
    "ThreadAdd": "%tprel_add(n)",
}
REGISTERS = {"0": "zero", "1": "ra", "6": "t1"}


def read(path):
    with open(f"{TOP}/crates/{path}", encoding="utf-8") as it:
        return it.read()


def integer(text):
    """The number of a term such as `pos 4094` or `neg_ℤ (pos 2048)`."""
    digits = int(re.search(r"\d+", text)[0])
    return -digits if "neg_ℤ" in text else -digits - 1 if "negsuc" in text else digits


def ranges(text):
    found = {}
    for name, low, high, even in re.findall(r"(\w+) = record \{ low = (.*?); high = (.*?); even = (\w+) \}", text):
        found[name] = (integer(low), integer(high), even == "true")
    return found


def opcodes(text):
    """Each opcode's mnemonic, form, range and classes, in the order of the definitions."""
    row = re.compile(
        r'facts_of op\.(\w+) = row \(codes "(.*?)"\) form\.(\w+) (None|\(Some \w+\)) kind\.(\w+) \(codes "(\w+)"\) (\[\]|\(codes "\w+"\)) (\[\]|\(codes "\w+"\)) \w+'
    )
    name = lambda it: it[len('(codes "') : -len('")')] if it != "[]" else ""
    found = {}
    for op, mnemonic, form, bounds, _, write, first, second in row.findall(text):
        found[op] = (mnemonic, form, bounds[len("(Some ") : -1] if bounds != "None" else "", write, name(first), name(second))
    return found


def told(bounds, form):
    if form == "Sets":
        return "`0`, or some of the letters `iorw`, each once and in this order"
    if not bounds:
        return ""
    low, high, even = bounds
    return f"{low} to {high}{', even' if even else ''}"


def spelled(ops, op, operands):
    """One instruction of an expansion, from the arguments of its definition."""
    mnemonic, form = ops[op][0], ops[op][1]
    if form == "Sets":
        return f"{mnemonic} iorw, iorw"
    kind, *given = operands
    given = [REGISTERS.get(it, it) for it in given[:-1]] + [given[-1] if kind != "three" else REGISTERS.get(given[-1], given[-1])]
    immediate = lambda it: str(integer(it)) if "pos" in it or "negsuc" in it else it
    if form == "RdOffset":
        rd, rs, number = given
        return f"{mnemonic} {rd}, {immediate(number)}({rs})"
    return f"{mnemonic} {', '.join([*given[:-1], immediate(given[-1])])}"


def expansions(text, ops):
    found = {}
    for kind, terms in re.findall(r"^expanded kind\.(\w+) rd rs rt n = (.*)$", text, re.M):
        parts = re.findall(r"(one|two|three|branch|number) op\.(\w+) ((?:\w+|\([^)]*\))(?: (?:\w+|\([^)]*\)))*) ∷", terms)
        lines = [spelled(ops, op, [how, *re.findall(r"\w+|\([^)]*\)", given)]) for how, op, given in parts]
        found[kind] = "; ".join(f"`{it}`" for it in lines) or "as many instructions as the constant needs, at most eight"
    return found


def aliases(text):
    for mnemonic, shapes, kind in re.findall(r'row \(codes "(.*?)"\) (\[\]|\(.*?\[\]\)) \(Several pseudo\.(\w+)\)', text):
        operands = [SHAPES[it] for it in re.findall(r"\w+", shapes)]
        yield f"{mnemonic} {', '.join(operands)}".strip(), kind


def page():
    definitions = read("rv_isa/specs/Opcodes.antt")
    bounds, ops = ranges(definitions), opcodes(definitions)
    lines = [
        "# Instructions",
        "",
        "What the assembly may hold. This page is made by `docs/instructions.py` from the definitions that the reader is proved",
        "against, and `.ci/run` compares the two. `docs/formats.md` says how operands are written. For each immediate, offset or",
        "target a symbol may stand, as `%lo(x)` or `.L3`, but not in `li` and `fence`; `call`, `tail`, `la` and `lla` take a symbol alone.",
        "An offset of 0 may be left out: `lw a0, (a1)`.",
        "The classes are the scheduling classes that an opcode has where no `InstRW` of the table names it.",
        "",
        f"## Opcodes ({len(ops)})",
        "",
        "| Spelling | Immediate | Class of the write | Classes of the reads |",
        "|---|---|---|---|",
    ]
    for mnemonic, form, kind, write, first, second in ops.values():
        reads = ", ".join(it for it in (first, second) if it)
        lines.append(f"| `{f'{mnemonic} {FORMS[form]}'.strip()}` | {told(bounds.get(kind), form)} | `{write}` | {reads and f'`{reads}`'} |")
    made = expansions(read("rv_expand/specs/Expansion.antt"), ops)
    others = list(aliases(read("rv_asm/specs/Table.antt")))
    lines += [
        "",
        f"## Pseudo-instructions and other forms ({len(others)})",
        "",
        "Each stands for the instructions beside it, and is counted, run and printed as these.",
        "",
        "| Spelling | Stands for |",
        "|---|---|",
    ]
    lines += [f"| `{spelling}` | {made[kind]} |" for spelling, kind in others]
    return "\n".join(lines) + "\n"


def main():
    text = page()
    if sys.argv[1:] == ["--check"]:
        try:
            with open(PAGE, encoding="utf-8") as it:
                kept = it.read()
        except OSError:
            kept = ""
        if kept != text:
            print("docs/instructions.md differs from the definitions: run docs/instructions.py")
            return 1
        return 0
    with open(PAGE, "w", encoding="utf-8") as it:
        it.write(text)
    return 0


if __name__ == "__main__":
    sys.exit(main())
