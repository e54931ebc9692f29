#!/usr/bin/env python3
"""A second, slow model of mca, by the rules of docs/rules.md and the formats of docs/formats.md: reads assembly and tables that mca accepts,
runs each region cycle by cycle and prints the report. It shares nothing with the program, whose output compare.py and
examples/reports.sh put beside this one's. What mca refuses it does not refuse: it stops with an error of Python's.

    bench/model.py [-table=FILE | -mcpu=NAME] [options of mca] FILE
    bench/model.py -times ...      prints a line 'dispatch issue complete retire' for each row in place of the report
"""
import re
import sys
from fractions import Fraction

ABI = ('zero ra sp gp tp t0 t1 t2 s0 s1 a0 a1 a2 a3 a4 a5 a6 a7 '
       's2 s3 s4 s5 s6 s7 s8 s9 s10 s11 t3 t4 t5 t6').split()
REGS = {name: n for n, name in enumerate(ABI)} | {f'x{n}': n for n in range(32)} | {'fp': 8}

# mnemonic: its form, write class, read classes of rs1 and rs2
OPS = {}


def ops(names, form, write, first='', second=''):
    for name in names.split():
        OPS[name] = (form, write, first, second)


ops('lui auipc', 'U', 'WriteIALU')
ops('addi slti sltiu xori ori andi', 'I', 'WriteIALU', 'ReadIALU')
ops('add sub slt sltu xor or and', 'R', 'WriteIALU', 'ReadIALU', 'ReadIALU')
ops('addiw', 'I', 'WriteIALU32', 'ReadIALU32')
ops('addw subw', 'R', 'WriteIALU32', 'ReadIALU32', 'ReadIALU32')
ops('slli srli srai', 'I', 'WriteShiftImm', 'ReadShiftImm')
ops('slliw srliw sraiw', 'I', 'WriteShiftImm32', 'ReadShiftImm32')
ops('sll srl sra', 'R', 'WriteShiftReg', 'ReadShiftReg', 'ReadShiftReg')
ops('sllw srlw sraw', 'R', 'WriteShiftReg32', 'ReadShiftReg32', 'ReadShiftReg32')
ops('mul mulh mulhsu mulhu', 'R', 'WriteIMul', 'ReadIMul', 'ReadIMul')
ops('mulw', 'R', 'WriteIMul32', 'ReadIMul32', 'ReadIMul32')
ops('div divu rem remu', 'R', 'WriteIDiv', 'ReadIDiv', 'ReadIDiv')
ops('divw divuw remw remuw', 'R', 'WriteIDiv32', 'ReadIDiv32', 'ReadIDiv32')
ops('jal', 'J', 'WriteJal')
ops('jalr', 'L', 'WriteJalr', 'ReadJalr')
ops('beq bne blt bge bltu bgeu', 'B', 'WriteJmp', 'ReadJmp', 'ReadJmp')
ops('lb lbu', 'L', 'WriteLDB', 'ReadMemBase')
ops('lh lhu', 'L', 'WriteLDH', 'ReadMemBase')
ops('lw lwu', 'L', 'WriteLDW', 'ReadMemBase')
ops('ld', 'L', 'WriteLDD', 'ReadMemBase')
for letter in 'bhwd':
    ops('s' + letter, 'S', 'WriteST' + letter.upper(), 'ReadMemBase', 'ReadStoreData')
ops('fence', 'F', 'WriteJmp')
ops('fence.tso ecall ebreak', 'N', 'WriteJmp')
LOADS = 'lb lbu lh lhu lw lwu ld'.split()
STORES = 'sb sh sw sd'.split()
BARRIERS = ['fence', 'fence.tso']


class Instr:
    """An instruction; registers that its form lacks are 0."""

    def __init__(self, op, rd=0, rs1=0, rs2=0, imm=None):
        self.op, self.rd, self.rs1, self.rs2, self.imm = op, rd, rs1, rs2, imm
        self.form, self.write_class, *self.read_classes = OPS[op]

    def kind(self):
        for kind, names in (('load', LOADS), ('store', STORES), ('barrier', BARRIERS)):
            if self.op in names:
                return kind
        return 'plain'

    def reads(self):
        return {'U': [], 'J': [], 'N': [], 'F': [], 'I': [self.rs1], 'L': [self.rs1]}.get(
            self.form, [self.rs1, self.rs2])

    def writes(self):
        return self.rd if self.form in 'UIRJL' else 0

    def has_side_effects(self):
        return self.op in ('fence', 'fence.tso', 'ecall', 'ebreak')

    def spelled(self):
        rd, rs1, rs2, imm = ABI[self.rd], ABI[self.rs1], ABI[self.rs2], self.imm
        operands = {
            'U': [rd, imm], 'J': [rd, imm], 'I': [rd, rs1, imm], 'R': [rd, rs1, rs2],
            'B': [rs1, rs2, imm], 'L': [rd, f'{imm}({rs1})'], 'S': [rs2, f'{imm}({rs1})'],
            'F': [letters(imm // 16), letters(imm % 16)] if self.form == 'F' else [], 'N': [],
        }[self.form]
        return ' '.join([self.op] + ([', '.join(map(str, operands))] if operands else []))


def letters(bits):
    return ''.join(c for c, b in zip('iorw', (8, 4, 2, 1)) if bits & b) or '0'


# --- assembly ---

def number(text):
    m = re.fullmatch(r'([-+]?)(0[xX][0-9a-fA-F]+|0[bB][01]+|[0-9]+)', text)
    if not m:
        return None
    digits = m[2].lower()
    base = 16 if digits.startswith('0x') else 2 if digits.startswith('0b') else 8 if digits[0] == '0' else 10
    value = int(digits[2:] if base in (16, 2) else digits, base)
    return -value if m[1] == '-' else value


def immediate(text):
    value = number(text)
    return text if value is None else value


def constant(rd, value):
    """The instructions that load a constant."""
    v = (value + 2**63) % 2**64 - 2**63
    low = (v % 4096 + 2048) % 4096 - 2048
    if -2**31 <= v < 2**31:
        high = (v - low) // 4096 % 2**20
        if high == 0:
            return [Instr('addi', rd, 0, 0, low)]
        return [Instr('lui', rd, imm=high)] + ([Instr('addiw', rd, rd, 0, low)] if low else [])
    rest = (v - low + 2**63) % 2**64 - 2**63
    zeros = (rest & -rest).bit_length() - 1
    out = constant(rd, rest >> zeros) + [Instr('slli', rd, rd, 0, zeros)]
    return out + ([Instr('addi', rd, rd, 0, low)] if low else [])


def offset(text):
    m = re.fullmatch(r'(.*)\(\s*(\w+)\s*\)', text)
    return (immediate(m[1].strip()) if m[1].strip() else 0), REGS[m[2]]


def pseudo(name, a):
    """The instructions of an alias, or nothing where it is none."""
    r = [REGS.get(x) for x in a]
    n = len(a)
    imm = [immediate(x) for x in a]
    if name == 'nop':
        return [Instr('addi', imm=0)]
    if name == 'li':
        return constant(r[0], number(a[1]))
    simple = {'mv': ('addi', 0), 'not': ('xori', -1), 'sext.w': ('addiw', 0), 'zext.b': ('andi', 255), 'seqz': ('sltiu', 1)}
    if name in simple:
        op, value = simple[name]
        return [Instr(op, r[0], r[1], 0, value)]
    right = {'neg': 'sub', 'negw': 'subw', 'snez': 'sltu', 'sgtz': 'slt'}
    if name in right:
        return [Instr(right[name], r[0], 0, r[1])]
    if name == 'sltz':
        return [Instr('slt', r[0], r[1], 0)]
    if name in ('sgt', 'sgtu'):
        return [Instr('slt' if name == 'sgt' else 'sltu', r[0], r[2], r[1])]
    zero = {'beqz': 'beq', 'bnez': 'bne', 'bgez': 'bge', 'bltz': 'blt'}
    if name in zero:
        return [Instr(zero[name], 0, r[0], 0, imm[1])]
    if name in ('blez', 'bgtz'):
        return [Instr('bge' if name == 'blez' else 'blt', 0, 0, r[0], imm[1])]
    swapped = {'bgt': 'blt', 'ble': 'bge', 'bgtu': 'bltu', 'bleu': 'bgeu'}
    if name in swapped:
        return [Instr(swapped[name], 0, r[1], r[0], imm[2])]
    if name == 'j':
        return [Instr('jal', 0, imm=imm[0])]
    if name == 'jal' and n == 1:
        return [Instr('jal', 1, imm=imm[0])]
    if name == 'jr':
        off, base = (0, r[0]) if r[0] is not None else offset(a[0])
        return [Instr('jalr', 0, base, 0, off)]
    if name == 'jalr' and n == 1 and r[0] is not None:
        return [Instr('jalr', 1, r[0], 0, 0)]
    if name == 'jalr' and n >= 2 and r[1] is not None:
        return [Instr('jalr', r[0], r[1], 0, imm[2] if n == 3 else 0)]
    if name == 'ret':
        return [Instr('jalr', 0, 1, 0, 0)]
    if name in ('call', 'tail'):
        at, link = (1, 1) if name == 'call' else (6, 0)
        return [Instr('auipc', at, imm=a[0]), Instr('jalr', link, at, 0, a[0])]
    if name in ('la', 'lla'):
        return [Instr('auipc', r[0], imm=a[1]), Instr('addi', r[0], r[0], 0, a[1])]
    if name == 'fence' and n == 0:
        return [Instr('fence', imm=255)]
    if name in ('add and or xor slt sltu sll srl sra addw sllw srlw sraw'.split()) and n == 3 and r[2] is None:
        op = {'sltu': 'sltiu', 'addw': 'addiw', 'sllw': 'slliw', 'srlw': 'srliw', 'sraw': 'sraiw'}.get(name, name + 'i')
        return [Instr(op, r[0], r[1], 0, imm[2])]
    if name == 'add' and n == 4:
        return [Instr('add', r[0], r[1], r[2])]
    return None


def instructions(name, a):
    alias = pseudo(name, a)
    if alias is not None:
        return alias
    form = OPS[name][0]
    r = [REGS.get(x) for x in a]
    if form in ('U', 'J'):
        return [Instr(name, r[0], imm=immediate(a[1]))]
    if form == 'I':
        return [Instr(name, r[0], r[1], 0, immediate(a[2]))]
    if form == 'R':
        return [Instr(name, r[0], r[1], r[2])]
    if form == 'B':
        return [Instr(name, 0, r[0], r[1], immediate(a[2]))]
    if form in 'LS':
        off, base = offset(a[1])
        return [Instr(name, r[0], base, 0, off) if form == 'L' else Instr(name, 0, base, r[0], off)]
    if form == 'F':
        bits = [0 if x == '0' else sum(dict(i=8, o=4, r=2, w=1)[c] for c in x) for x in a]
        return [Instr('fence', imm=16 * bits[0] + bits[1])]
    return [Instr(name)]


def regions(text):
    """The marked regions of a text, with their names; one region of all instructions where it has no mark."""
    everything, marked, open_region = [], [], None
    text = re.sub(r'/\*.*?\*/', ' ', text, flags=re.S)
    for line in text.split('\n'):
        code, _, comment = re.match(r'((?:"(?:\\.|[^"\\])*"|[^#"/]|/(?!/))*)(#|//)?(.*)', line, re.S).groups()
        mark = re.match(r'[ \t]*LLVM-MCA-(BEGIN|END)(?:[ \t](.*))?$', (comment or '').rstrip('\r'))
        for statement in code.rstrip('\r').split(';'):
            statement = statement.strip()
            while True:
                label = re.match(r'([A-Za-z0-9_.$]+)[ \t]*:', statement)
                if not label:
                    break
                statement = statement[label.end():].strip()
            if not statement or statement.startswith('.') or re.match(r'[A-Za-z_.$][\w.$]*[ \t]*=', statement):
                continue
            name, _, rest = statement.partition(' ') if '\t' not in statement.split(' ')[0] else statement.partition('\t')
            operands = [x.strip() for x in re.split(r',(?![^(]*\))', rest)] if rest.strip() else []
            new = instructions(name, operands)
            everything += new
            if open_region is not None:
                open_region[1].extend(new)
        if mark and mark[1] == 'BEGIN':
            open_region = ((mark[2] or '').strip(), [])
            marked.append(open_region)
        elif mark:
            open_region = None
    return marked or [('', everything)]


# --- tables ---

TOKEN = re.compile(r'\s+|//[^\n]*|("[^"]*")|([A-Za-z_][A-Za-z0-9_]*)|([-+]?(?:0x[0-9a-fA-F]+|0b[01]+|\d+))|([:;,=<>\[\]{}()])')


def tokens(text):
    out, at, depth = [], 0, 0
    while at < len(text):
        if text.startswith('/*', at) or depth:
            if text.startswith('/*', at):
                depth, at = depth + 1, at + 2
            elif text.startswith('*/', at):
                depth, at = depth - 1, at + 2
            else:
                at += 1
            continue
        m = TOKEN.match(text, at)
        out += [t for t in m.groups() if t]
        at = m.end()
    return out


class Reader:
    """Reads records in the flat form of TableGen."""

    def __init__(self, text):
        self.t, self.at, self.records = tokens(text), 0, []
        while self.at < len(self.t):
            self.item([])

    def take(self, want=None):
        token = self.t[self.at]
        assert want is None or token == want, (token, want)
        self.at += 1
        return token

    def looks(self, *wanted):
        return self.at < len(self.t) and self.t[self.at] in wanted

    def value(self):
        token = self.take()
        if token == '[':
            out = []
            while not self.looks(']'):
                out.append(self.value())
                if self.looks(','):
                    self.take()
            self.take()
            return out
        if token[0].isdigit() or token[0] in '-+':
            sign = -1 if token[0] == '-' else 1
            return sign * int(token.lstrip('+-'), 0 if not re.fullmatch(r'[-+]?0\d+', token) else 10)
        return {'true': 1, 'false': 0}.get(token, token)

    def instrs(self):
        self.take('(')
        self.take('instrs')
        out = []
        while not self.looks(')'):
            out.append(self.take())
            if self.looks(','):
                self.take()
        self.take(')')
        return out

    def item(self, scopes):
        if self.take() == 'let':
            fields = {}
            while True:
                name = self.take()
                self.take('=')
                fields[name] = self.value()
                if self.take() == 'in':
                    break
            inner = scopes + [fields]
            if not self.looks('{'):
                return self.item(inner)
            self.take('{')
            while not self.looks('}'):
                self.item(inner)
            self.take('}')
            return
        name = '' if self.looks(':') else self.take()
        self.take(':')
        kind, args, members = self.take(), [], {}
        if self.looks('<'):
            self.take()
            while not self.looks('>'):
                args.append(self.instrs() if self.looks('(') else self.value())
                if self.looks(','):
                    self.take()
            self.take()
        for scope in scopes:
            members.update(scope)
        if self.looks('{'):
            self.take()
            while not self.looks('}'):
                self.take('let')
                field = self.take()
                self.take('=')
                members[field] = self.value()
                self.take(';')
            self.take()
            if self.looks(';'):
                self.take()
        else:
            self.take(';')
        self.records.append((kind, name, args, members))


class Write:
    def __init__(self, latency, uops, uses, begins=False, ends=False):
        self.latency, self.uops, self.uses, self.begins, self.ends = latency, uops, uses, begins, ends


class Machine:
    """width, reorder, retire, loads, stores, registers (0: no bound), resources as (name, units, buffer), files as
    (size, {register: cost})."""

    def class_of(self, op):
        return self.classes[op]

    def advance(self, read, write):
        return 0


class Table(Machine):
    def __init__(self, text, tuning):
        records = Reader(text).records
        of = lambda *kinds: [r for r in records if r[0] in kinds]
        model = of('SchedMachineModel')[0][3]
        self.width = tuning.dispatch or model.get('IssueWidth', 1)
        self.reorder = model.get('MicroOpBufferSize', 0)
        self.retire = 0
        for _, _, args, _ in of('RetireControlUnit'):
            self.reorder = args[0] if args[0] >= 1 else self.reorder
            self.retire = max(0, args[1])
        self.no_alias = tuning.noalias
        self.resources, number, units = [], {}, 0
        for kind, name, args, members in of('ProcResource', 'ProcResGroup'):
            number[name] = len(self.resources)
            own = []
            if kind == 'ProcResource':
                own = list(range(units, units + args[0]))
                units += args[0]
            self.resources.append([name, own, members.get('BufferSize', -1), kind])
        for kind, name, args, members in of('ProcResGroup'):
            units_of = {u for member in args[0] for u in self.resources[number[member]][1]}
            self.resources[number[name]][1] = sorted(units_of)
        self.unit_names = []
        for name, own, _, kind in self.resources:
            if kind == 'ProcResource':
                self.unit_names += [name if len(own) == 1 else f'{name}.{place}' for place in range(len(own))]
        bound = lambda kind: max([self.resources[number[r[2][0]]][2] for r in of(kind)] + [0])
        self.loads = tuning.lqueue or bound('LoadQueue')
        self.stores = tuning.squeue or bound('StoreQueue')
        self.registers = tuning.register_file_size
        self.files = []
        for _, _, args, _ in of('RegisterFile'):
            names = args[1] if len(args) > 1 else []
            costs = args[2] if len(args) > 2 and args[2] else [1] * max(1, len(names))
            file = {}
            if not names:
                file = {r: costs[0] if len(args) > 2 and args[2] else 1 for r in range(1, 32)}
            for name, cost in zip(names, costs):
                inside = {'GPR': range(1, 32), 'GPRNoX0': range(1, 32), 'GPRC': range(8, 16)}.get(name, [])
                file.update({r: cost for r in inside})
            self.files.append((args[0], file))

        def write(uses, m):
            holds = m.get('ReleaseAtCycles') or [1] * len(uses)
            single = m.get('SingleIssue', 0)
            return Write(m.get('Latency', 1), m.get('NumMicroOps', 1), [(number[u], h) for u, h in zip(uses, holds)],
                         bool(m.get('BeginGroup', 0) or single), bool(m.get('EndGroup', 0) or single))

        self.writes = {r[2][0]: (write(r[2][1], r[3]), r[3].get('Unsupported', 0)) for r in of('WriteRes')}
        self.own_writes = {r[1]: (write(r[2][0], r[3]), r[3].get('Unsupported', 0)) for r in of('SchedWriteRes')}
        self.instrw = {}
        for _, _, args, _ in of('InstRW'):
            for op in args[1]:
                self.instrw[op] = args[0]
        self.advances = [r for r in of('ReadAdvance') if not r[3].get('Unsupported', 0)]

    def class_of(self, instr):
        listed = self.instrw.get(instr.op.upper().replace('.', '_'))
        if listed:
            name, reads = listed[0], (listed[1:] + ['', ''])[:2]
            own = name in self.own_writes
            found = (self.own_writes if own else self.writes).get(name)
            key = ('own' if own else 'class', name)
        else:
            name, reads = instr.write_class, instr.read_classes
            found, key = self.writes.get(name), ('class', name)
        if found is None or found[1]:
            raise LookupError(instr.op)
        return found[0], key, reads

    def advance(self, read, write):
        general = 0
        for _, _, args, _ in self.advances:
            if args[0] == read:
                names = args[2] if len(args) > 2 else []
                if write[1] in names:
                    return args[1]
                if not names:
                    general = args[1]
        return general


class Fixed(Machine):
    def __init__(self, width, reorder, units, tuning):
        self.width, self.reorder, self.retire = tuning.dispatch or width, reorder, width
        self.loads, self.stores = tuning.lqueue or 16, tuning.squeue or 16
        self.registers, self.no_alias, self.files = tuning.register_file_size, tuning.noalias, []
        alu = list(range(units))
        self.resources = [['ALU', alu, -1, ''], ['MUL', [units], 8, ''], ['DIV', [units + 1], 1, ''], ['MEM', [units + 2], 16, '']]
        self.unit_names = [f'ALU.{u}' if units > 1 else 'ALU' for u in alu] + ['MUL', 'DIV', 'MEM']

    def class_of(self, instr):
        if instr.op.startswith('mul'):
            write = Write(3, 1, [(1, 1)])
        elif instr.op[:3] in ('div', 'rem'):
            write = Write(20, 1, [(2, 20)])
        elif instr.op in LOADS + STORES:
            write = Write(4 if instr.op in LOADS else 1, 1, [(3, 1)])
        else:
            write = Write(1, 1, [(0, 1)])
        return write, None, ['', '']


FIXED = {'tiny': (1, 8, 1), 'dual': (2, 32, 2), 'quad': (4, 128, 4)}


# --- the run ---

class Bound:
    """An instruction with its numbers on a machine."""

    def __init__(self, machine, instr):
        write, key, reads = machine.class_of(instr)
        self.instr, self.uops, self.latency, self.key = instr, write.uops, write.latency, key
        self.written_uses = write.uses
        self.uses = sorted(write.uses, key=lambda use: len(machine.resources[use[0]][1]))
        self.reserved = any(machine.resources[r][2] == 0 for r, _ in write.uses)
        self.reads = list(zip(instr.reads(), reads))
        self.rd, self.kind = instr.writes(), instr.kind()
        self.begins, self.ends = write.begins, write.ends
        self.u = min(write.uops, machine.reorder)
        self.phase = 2 if self.reserved else 1


CONDITIONS = ['Group:', 'Reorder buffer:', 'Registers:', 'Load queue:', 'Store queue:', 'Buffer:', 'Reserved:']


class Row:
    def __init__(self, number, bound):
        self.n, self.b = number, bound
        self.d = self.i = self.w = self.t = None
        self.units, self.producers = [], []


class Run:
    """The run of a body: each cycle retires, issues and dispatches, in this order."""

    def __init__(self, machine, body, iterations):
        self.m, self.body = machine, body
        self.rows = [Row(n, body[n % len(body)]) for n in range(len(body) * iterations)]
        writer = {}
        for row in self.rows:
            row.producers = [(writer.get(reg) if reg else None, read) for reg, read in row.b.reads]
            if row.b.rd:
                writer[row.b.rd] = row
        self.free = {}      # unit: the first cycle in which nothing holds it
        self.last = {}      # resource: the unit chosen last
        self.taker = {}     # unit: the row that took it last
        self.stalls = [0] * 7
        self.walk()

    def lead(self, producer, read):
        return max(0, producer.b.latency - (self.m.advance(read, producer.b.key) if read else 0))

    def has_operands(self, row, c):
        return all(k is None or (k.i is not None and c >= k.i + self.lead(k, read)) for k, read in row.producers)

    def lets_go(self, row, c):
        older = [k for k in self.memory if k.n < row.n]
        completed = lambda k: k.i is not None and k.w <= c
        issued = lambda k: k.i is not None
        if row.b.kind == 'load':
            between = False
            for k in reversed(older):
                if k.b.kind == 'barrier' and not completed(k):
                    return False
                if k.b.kind == 'load' and between and not issued(k):
                    return False
                if k.b.kind == 'store' and not self.m.no_alias and not completed(k):
                    return False
                between = between or k.b.kind != 'load'
            return True
        if row.b.kind == 'store':
            return all(completed(k) if k.b.kind == 'barrier' else issued(k) for k in older)
        return row.b.kind == 'plain' or all(completed(k) for k in older)

    def pick(self, row, c):
        """The units that the row takes, or the place of the first use without one."""
        taken, last, units = set(), {}, []
        for place, (r, hold) in enumerate(row.b.uses):
            if hold == 0:
                units.append(None)
                continue
            own = self.m.resources[r][1]
            after = last.get(r, self.last.get(r))
            turn = own if after is None else [u for u in own if u > after] + [u for u in own if u <= after]
            found = next((u for u in turn if u not in taken and self.free.get(u, 0) <= c), None)
            if found is None:
                return None, place
            taken.add(found)
            last[r] = found
            units.append(found)
        return units, last

    def can_issue(self, row, c):
        return self.has_operands(row, c) and self.lets_go(row, c) and self.pick(row, c)[0] is not None

    def issue(self, row, c):
        row.units, last = self.pick(row, c)
        self.last.update(last)
        for (r, hold), unit in zip(row.b.uses, row.units):
            if unit is not None:
                self.free[unit] = c + hold
                self.taker[unit] = row
        row.i, row.w = c, c + row.b.latency
        self.order.append(row)

    def failing(self, row, c):
        """The first condition of dispatch that fails for a row, or none."""
        b, m = row.b, self.m
        share = lambda k: min(m.width, max(0, k.b.u - m.width * (c - k.d)))
        self.group = [k for k in self.group if share(k) > 0]
        shares = sum(map(share, self.group))
        if shares + min(b.u, m.width) > m.width or ((b.begins or b.u > m.width) and shares) or any(k.b.ends for k in self.group):
            return 0
        if sum(k.b.u for k in self.flying) + b.u > m.reorder:
            return 1
        if b.rd:
            writes = [k.b.rd for k in self.flying if k.b.rd]
            if m.registers and len(writes) >= m.registers:
                return 2
            for size, file in m.files:
                if size and b.rd in file and sum(file.get(r, 0) for r in writes) + file[b.rd] > size:
                    return 2
        for place, kind, bound in ((3, 'load', m.loads), (4, 'store', m.stores)):
            if b.kind == kind and bound and sum(k.b.kind == kind for k in self.flying) >= bound:
                return place
        if not b.reserved:
            for r in {r for r, _ in b.uses}:
                size = m.resources[r][2]
                if size >= 1 and sum(any(q == r for q, _ in k.b.uses) for k in self.waiting) >= size:
                    return 5
        elif not self.can_issue(row, c):
            return 6
        return None

    def walk(self):
        self.flying, self.waiting, self.memory, self.group, self.order = [], [], [], [], []
        retired = dispatched = c = 0
        while retired < len(self.rows):
            count = 0
            while self.flying and self.flying[0].i is not None and c >= self.flying[0].w + 1 \
                    and not (self.m.retire and count >= self.m.retire):
                self.flying.pop(0).t = c
                retired, count = retired + 1, count + 1
            self.memory = [k for k in self.memory if k.t is None]
            for row in self.waiting[:]:
                if row.d < c and self.can_issue(row, c):
                    self.issue(row, c)
                    self.waiting.remove(row)
            while dispatched < len(self.rows):
                row = self.rows[dispatched]
                why = self.failing(row, c)
                if why is not None:
                    self.stalls[why] += 1
                    break
                row.d = c
                if row.b.reserved:
                    self.issue(row, c)
                else:
                    self.waiting.append(row)
                self.flying.append(row)
                self.group.append(row)
                if row.b.kind != 'plain':
                    self.memory.append(row)
                dispatched += 1
            c += 1
        self.total = self.rows[-1].t + 1

    # --- waits, edges and the critical sequence, from the times alone ---

    def before(self, k, c, row):
        return (k.i, k.b.phase, k.n) < (c, row.b.phase, row.n)

    def older_in_flight(self, row, c):
        out, n = [], row.n - 1
        while n >= 0 and self.rows[n].t > c:
            out.append(self.rows[n])
            n -= 1
        return out[::-1]

    def read_fails(self, row, c):
        return [k for k, read in row.producers if k and not (self.before(k, c, row) and c >= k.i + self.lead(k, read))]

    def memory_fails(self, row, c):
        out, older = [], [k for k in self.older_in_flight(row, c) if k.b.kind != 'plain']
        for place, k in enumerate(older):
            issued = self.before(k, c, row)
            completed = issued and k.w <= c
            kind = k.b.kind
            if row.b.kind == 'load':
                between = any(x.b.kind != 'load' for x in older[place + 1:])
                bad = (kind == 'barrier' and not completed or kind == 'load' and between and not issued
                       or kind == 'store' and not self.m.no_alias and not completed)
            elif row.b.kind == 'store':
                bad = not completed if kind == 'barrier' else not issued
            else:
                bad = row.b.kind == 'barrier' and not completed
            if bad:
                out.append(k)
        return out

    def waits(self):
        """For each row the cycles from which it has its operands and from which memory lets it go."""
        for row in self.rows:
            row.base = row.d if row.b.reserved else row.d + 1
            row.reg = row.base
            while row.reg < row.i and self.read_fails(row, row.reg):
                row.reg += 1
            row.mem = row.reg
            while row.mem < row.i and self.memory_fails(row, row.mem):
                row.mem += 1

    def edges(self):
        place = {row.n: n for n, row in enumerate(self.order)}
        out = []
        free, last, taker, at = {}, {}, {}, 0
        self.free, self.last = free, last
        for row in self.order:
            if row.reg > row.base:
                out.append((self.read_fails(row, row.reg - 1)[0], row, 0, row.reg - row.base))
            if row.mem > row.reg:
                out.append((self.memory_fails(row, row.mem - 1)[0], row, 1, row.mem - row.reg))
            if row.i > row.mem:
                c = row.i - 1
                while self.before(self.order[at], c, row):
                    k = self.order[at]
                    for (r, hold), unit in zip(k.b.uses, k.units):
                        if unit is not None:
                            free[unit], last[r], taker[unit] = k.i + hold, unit, k
                    at += 1
                units, use = self.pick(row, c)
                r = row.b.uses[use][0]
                holders = [taker[u] for u in self.m.resources[r][1] if free.get(u, 0) > c]
                out.append((max(holders, key=lambda k: place[k.n]), row, 2, row.i - row.mem))
        return place, out

    def critical(self):
        place, edges = self.edges()
        into = {}
        for edge in edges:
            into.setdefault(edge[1].n, []).append(edge)
        label = {}
        for row in self.order:
            label[row.n] = max([label[k.n] + cost for k, _, _, cost in into.get(row.n, [])] + [0])
        end = max(self.order, key=lambda row: (label[row.n], -place[row.n]))
        cost, links = label[end.n], []
        while label[end.n] > 0:
            best = min((e for e in into[end.n] if label[e[0].n] + e[3] == label[end.n]), key=lambda e: (place[e[0].n], e[2]))
            links.append(best)
            end = best[0]
        return cost, links[::-1]


# --- the report ---

def rounded(value, places):
    n = (Fraction(value) * 10**places * 2 + 1) // 2
    digits = str(n).rjust(places + 1, '0')
    return digits[:-places] + '.' + digits[-places:]


def cell(text, n):
    return str(text).ljust(max(n, len(str(text)) + 1))


class Report:
    def __init__(self, machine, body, run, iterations, o):
        self.m, self.body, self.run, self.iterations, self.o = machine, body, run, iterations, o

    def tag(self, row):
        return f'[{row.n // len(self.body)},{row.n % len(self.body)}]'

    def units_of(self, r):
        return len(self.m.resources[r][1])

    def summary(self):
        n, uops = len(self.run.rows), sum(row.b.uops for row in self.run.rows)
        holds = {}
        for b in self.body:
            for r, hold in b.uses:
                holds[r] = holds.get(r, 0) + hold
        block = max([Fraction(sum(b.uops for b in self.body), self.m.width)] +
                    [Fraction(h, self.units_of(r)) for r, h in holds.items()])
        numbers = [('Iterations:', self.iterations), ('Instructions:', n), ('Total Cycles:', self.run.total), ('Total uOps:', uops), None,
                   ('Dispatch Width:', self.m.width), ('uOps Per Cycle:', rounded(Fraction(uops, self.run.total), 2)),
                   ('IPC:', rounded(Fraction(n, self.run.total), 2)), ('Block RThroughput:', rounded(block, 1))]
        return [cell(x[0], 19) + str(x[1]) if x else '' for x in numbers]

    def bottleneck(self):
        self.run.waits()
        rows = self.run.rows
        line = lambda label, value: cell(label, 19) + str(value)
        cost, links = self.run.critical()
        return ['Bottleneck analysis:', line('Register wait:', sum(r.reg - r.base for r in rows)),
                line('Memory wait:', sum(r.mem - r.reg for r in rows)), line('Resource wait:', sum(r.i - r.mem for r in rows)), '',
                'Dispatch stalls:'] + [line(*x) for x in zip(CONDITIONS, self.run.stalls)] + ['', line('Critical sequence:', cost)] + \
            [f'{self.tag(a)} -> {self.tag(b)} {("register", "memory", "resource")[kind]} {cost}' for a, b, kind, cost in links]

    def instruction_info(self):
        out = ['Instruction Info:', '[1]: #uOps', '[2]: Latency', '[3]: RThroughput', '[4]: MayLoad', '[5]: MayStore',
               '[6]: HasSideEffects (U)', '', ''.join(cell(f'[{n}]', 7) for n in range(1, 7)) + 'Instructions:']
        for b in self.body:
            holds = {}
            for r, hold in b.uses:
                if hold:
                    holds[r] = holds.get(r, 0) + hold
            through = max([Fraction(h, self.units_of(r)) for r, h in holds.items()] or [Fraction(b.uops, self.m.width)])
            marks = ['*' if b.kind == 'load' else '', '*' if b.kind == 'store' else '', 'U' if b.instr.has_side_effects() else '']
            out.append(''.join(cell(x, 7) for x in [b.uops, b.latency, rounded(through, 2)] + marks) + b.instr.spelled())
        return out

    def pressure(self):
        names = self.m.unit_names
        head = ''.join(cell(f'[{n}]', 7) for n in range(len(names)))
        sums = [[0] * len(names) for _ in self.body]
        for row in self.run.rows:
            for (r, hold), unit in zip(row.b.uses, row.units):
                if unit is not None:
                    sums[row.n % len(self.body)][unit] += hold
        value = lambda s: cell(rounded(Fraction(s, self.iterations), 2) if s else '-', 7)
        out = ['Resources:'] + [f'[{n}] - {name}' for n, name in enumerate(names)]
        out += ['', 'Resource pressure per iteration:', head, ''.join(value(sum(s[u] for s in sums)) for u in range(len(names)))]
        out += ['', 'Resource pressure by instruction:', head + 'Instructions:']
        return out + [''.join(map(value, s)) + b.instr.spelled() for s, b in zip(sums, self.body)]

    def shown_rows(self):
        most = self.o.timeline_max_iterations or self.iterations
        return [row for row in self.run.rows if row.n // len(self.body) < most]

    def timeline(self):
        shown = min(self.run.total, self.o.timeline_max_cycles or self.run.total)
        tens = ''.join(str(c // 10 % 10) if c >= 10 and c % 10 == 0 else ' ' for c in range(shown))
        out = ['Timeline view:', ' ' * 10 + tens, cell('Index', 10) + ''.join(str(c % 10) for c in range(shown)), '']

        def letter(row, c):
            if c < row.d or c > row.t:
                return '.' if c % 5 == 0 else ' '
            for at, x in ((row.d, 'D'), (row.t, 'R'), (row.w, 'E')):
                if c == at:
                    return x
            return '=' if c < row.i else 'e' if c < row.w else '-'

        return out + [cell(self.tag(row), 10) + ''.join(letter(row, c) for c in range(shown)) + '   ' + row.b.instr.spelled()
                      for row in self.shown_rows() if row.d < shown]

    def waits(self):
        self.run.waits()
        out = ['Average Wait times (based on the timeline view):', '[0]: Executions',
               "[1]: Average time spent waiting in a scheduler's queue",
               "[2]: Average time spent waiting in a scheduler's queue while ready",
               '[3]: Average time elapsed from WB until retire stage', '',
               ' ' * 7 + ''.join(cell(f'[{n}]', 7) for n in range(4)) + 'Instructions:']
        rows = self.shown_rows()
        count = len(rows) // len(self.body)

        def line(head, of, text):
            sums = [sum(r.i - r.d for r in of), sum(r.i - r.mem for r in of), sum(r.t - r.w for r in of)]
            return head.ljust(7) + ''.join(cell(x, 7) for x in [count] + [rounded(Fraction(s, len(of)), 1) for s in sums]) + text

        for n, b in enumerate(self.body):
            out.append(line(cell(f'{n}.', 7), rows[n::len(self.body)], b.instr.spelled()))
        return out + [line('', rows, '<total>')]

    def lines(self, number, name):
        o = self.o
        out = [f'[{number}] Code Region' + (f' - {name}' if name else '')]
        for on, view in ((True, self.summary), (o.bottleneck_analysis, self.bottleneck), (o.instruction_info, self.instruction_info),
                         (o.resource_pressure, self.pressure), (o.timeline, self.timeline), (o.timeline, self.waits)):
            if on:
                out += [''] + view()
        return [line.rstrip(' ') for line in out]


def load(seed, count=512):
    """The program that a number makes, or so many instructions by its rule."""
    x, out = seed, []
    for _ in range(count):
        x = (x * 1664525 + 1013904223) % 2**32
        h = x // 65536
        rd, rs1, rs2 = (10 + h // place % 8 for place in (16, 128, 1024))
        op = 'add add add add add add addi addi addi mul mul div ld ld sd xor'.split()[h % 16]
        if op == 'sd':
            rd = 0
        elif op in ('addi', 'ld'):
            rs2 = 0
        out.append(Instr(op, rd, rs1, rs2, {'addi': 1, 'ld': 0, 'sd': 0}.get(op)))
    return out


class Options:
    table = mcpu = input = load = ''
    iterations, dispatch, register_file_size, lqueue, squeue = 100, 0, 0, 0, 0
    noalias = instruction_info = resource_pressure = True
    timeline = bottleneck_analysis = times = False
    timeline_max_iterations, timeline_max_cycles = 10, 80

    def __init__(self, words):
        for word in words:
            if not word.startswith('-'):
                self.input = word
                continue
            name, equals, value = word.lstrip('-').partition('=')
            name = name.replace('-', '_')
            old = getattr(self, name)
            if isinstance(old, bool):
                new = value not in ('false', '0')
            else:
                new = value if isinstance(old, str) else int(value)
            setattr(self, name, new)
        self.iterations = self.iterations or 100


def machine_of(o, read):
    return Fixed(*FIXED[o.mcpu], o) if o.mcpu else Table(read(o.table), o)


def report(words, read=lambda name: open(name, encoding='latin-1').read()):
    """The lines of the report of a command."""
    o = Options(words)
    if o.load:
        machine = Fixed(*FIXED['quad'], o)
        body = [Bound(machine, instr) for instr in load(int(o.load))]
        return [cell('Load:', 19) + o.load, ''] + Report(machine, body, Run(machine, body, 100), 100, o).summary()
    machine = machine_of(o, read)
    out = []
    for number, (name, code) in enumerate(regions(read(o.input))):
        body = [Bound(machine, instr) for instr in code]
        run = Run(machine, body, o.iterations)
        if o.times:
            out += [f'{r.d} {r.i} {r.w} {r.t}' for r in run.rows]
            continue
        out += ([''] if number else []) + Report(machine, body, run, o.iterations, o).lines(number, name)
    return out


if __name__ == '__main__':
    print('\n'.join(report(sys.argv[1:])))
