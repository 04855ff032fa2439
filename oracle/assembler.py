"""The assembler of users' texts, written from docs/ASSEMBLER.md apart from the crates. A text is taken to be without a fault."""
import re

from oracle.words import M

THREE = {'add': 0x20, 'addu': 0x21, 'sub': 0x22, 'subu': 0x23, 'and': 0x24, 'or': 0x25, 'xor': 0x26, 'nor': 0x27, 'slt': 0x2a, 'sltu': 0x2b}
SHIFT = {'sll': 0, 'srl': 2, 'sra': 3}
SHIFTV = {'sllv': 4, 'srlv': 6, 'srav': 7}
MULS = {'mult': 0x18, 'multu': 0x19, 'div': 0x1a, 'divu': 0x1b}
IMM = {'addi': 8, 'addiu': 9, 'slti': 10, 'sltiu': 11, 'andi': 12, 'ori': 13, 'xori': 14}


def items(text):
    """The words' lines of a text, each as (number of its first word, number of the line from 1, mnemonic, operands), and the labels' addresses."""
    found, labels, at = [], {}, 0
    for number_of_line, line in enumerate(text.split('\n'), 1):
        line = line.split('#')[0].strip()
        while True:
            m = re.match(r'([A-Za-z_]\w*):', line)
            if not m:
                break
            labels.setdefault(m.group(1), 4 * at)
            line = line[m.end():].strip()
        if not line:
            continue
        name, rest = (line.split(None, 1) + [''])[:2]
        ops = [x.strip() for x in rest.split(',')] if rest.strip() else []
        found.append((at, number_of_line, name, ops))
        at += int(ops[0], 0) if name == '.zero' else 1
    return found, labels


def assemble(text):
    """The words of a text."""
    found, labels = items(text)
    words = []
    for at, _, name, ops in found:
        words += encode(4 * at, name, ops, labels)
    return words


def line_numbers(text):
    """The number of the line, from 1, of each word of a text."""
    numbers = []
    for _, line, name, ops in items(text)[0]:
        numbers += [line] * (int(ops[0], 0) if name == '.zero' else 1)
    return numbers


def reg(x):
    assert re.fullmatch(r'[rc]\d+', x), x
    return int(x[1:])


def three_registers(rs, rt, rd, sa, funct):
    return rs << 21 | rt << 16 | rd << 11 | sa << 6 | funct


def with_immediate(op, rs, rt, imm):
    return op << 26 | rs << 21 | rt << 16 | imm & 0xffff


def number(x):
    return int(x, 0)


def encode(pc, name, ops, labels):
    """The words of a line that stands at an address."""
    if name == '.zero':
        return [0] * number(ops[0])
    if name == '.word':
        return [number(ops[0]) & M]
    if name == 'syscall':
        return [(number(ops[0]) if ops else 0) << 6 | 12]
    if name == 'eret':
        return [0x42000018]
    if name in ('j', 'jal'):
        to = labels[ops[0]] // 4 if ops[0] in labels else number(ops[0])
        return [(2 if name == 'j' else 3) << 26 | to & 0x3ffffff]
    if name in BRANCHES:
        offset = (labels[ops[-1]] - (pc + 4)) // 4 if ops[-1] in labels else number(ops[-1])
        op, rt = BRANCHES[name]
        return [with_immediate(op, reg(ops[0]), reg(ops[1]) if rt is None else rt, offset)]
    return [of_registers(name, ops) if name in REGISTERS else of_immediate(name, ops)]


BRANCHES = {'bltz': (1, 0), 'bgez': (1, 1), 'blez': (6, 0), 'bgtz': (7, 0), 'beq': (4, None), 'bne': (5, None)}
REGISTERS = {**THREE, **SHIFT, **SHIFTV, **MULS, 'jr': 8, 'mthi': 0x11, 'mtlo': 0x13, 'mfhi': 0x10, 'mflo': 0x12, 'jalr': 9}


def of_registers(name, ops):
    """The word of an instruction of opcode 0."""
    funct = REGISTERS[name]
    if name in SHIFT:
        return three_registers(0, reg(ops[1]), reg(ops[0]), number(ops[2]), funct)
    given = [reg(x) for x in ops]
    if name in THREE:
        return three_registers(given[1], given[2], given[0], 0, funct)
    if name in SHIFTV:
        return three_registers(given[2], given[1], given[0], 0, funct)
    if name in MULS:
        return three_registers(given[0], given[1], 0, 0, funct)
    if name == 'jalr':
        return three_registers(given[1], 0, given[0], 0, funct)
    return three_registers(0, 0, given[0], 0, funct) if name in ('mfhi', 'mflo') else three_registers(given[0], 0, 0, 0, funct)


def of_immediate(name, ops):
    """The word of an instruction with an immediate, or of one on special registers."""
    if name in IMM:
        return with_immediate(IMM[name], reg(ops[1]), reg(ops[0]), number(ops[2]))
    if name == 'lui':
        return with_immediate(15, 0, reg(ops[0]), number(ops[1]))
    if name in ('lw', 'sw'):
        m = re.fullmatch(r'(-?\w+)\((r\d+)\)', ops[1])
        return with_immediate(0x23 if name == 'lw' else 0x2b, reg(m.group(2)), reg(ops[0]), number(m.group(1)))
    assert name in ('mfc0', 'mtc0'), name
    return with_immediate(0x10, 0 if name == 'mfc0' else 4, reg(ops[0]), reg(ops[1]) << 11)
