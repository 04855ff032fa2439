"""Words as instructions, by the rules of docs/ASSEMBLER.md: a word that is none is `.word 0x` and its digits."""
from oracle.assembler import BRANCHES, IMM, MULS, SHIFT, SHIFTV, THREE
from oracle.flat import fields

BY_FUNCT = {**{v: (k, 'three') for k, v in THREE.items()}, **{v: (k, 'shift') for k, v in SHIFT.items()}, **{v: (k, 'shiftv') for k, v in SHIFTV.items()},
            **{v: (k, 'mul') for k, v in MULS.items()}, 8: ('jr', 'rs'), 9: ('jalr', 'jalr'), 0x10: ('mfhi', 'rd'), 0x12: ('mflo', 'rd'), 0x11: ('mthi', 'rs'),
            0x13: ('mtlo', 'rs'), 0x0c: ('syscall', 'syscall')}
BY_IMM = {v: k for k, v in IMM.items()}
SIGNED_IMM = ('addi', 'addiu', 'slti', 'sltiu')


def of_special(w):
    """The text of a word of opcode 0; None where it is no instruction."""
    rs, rt, rd, sa, funct, _, _ = fields(w)
    name, form = BY_FUNCT.get(funct, (None, None))
    if form == 'syscall':
        return name + (' %d' % (w >> 6) if w >> 6 else '')
    zero = {'three': sa, 'shift': rs, 'shiftv': sa, 'mul': rd | sa, 'rs': rt | rd | sa, 'rd': rs | rt | sa, 'jalr': rt | sa}.get(form, 1)
    if zero:
        return None
    given = {'three': (rd, rs, rt), 'shift': (rd, rt), 'shiftv': (rd, rt, rs), 'mul': (rs, rt), 'rs': (rs,), 'rd': (rd,), 'jalr': (rd, rs)}[form]
    return name + ' ' + ', '.join(['r%d' % n for n in given] + ([str(sa)] if form == 'shift' else []))


def of_branch(w):
    op = w >> 26
    rs, rt, _, _, _, _, offset = fields(w)
    for name, (code, fixed) in BRANCHES.items():
        if op == code and (fixed is None or rt == fixed):
            return '%s r%d%s, %d' % (name, rs, ', r%d' % rt if fixed is None else '', offset)
    return None


def of_system(w):
    """The text of a word of opcode 16."""
    rs, rt, rd, _, _, _, _ = fields(w)
    if w == 0x42000018:
        return 'eret'
    if rs in (0, 4) and rd <= 8 and not w & 0x7ff:
        return '%s r%d, c%d' % ('mtc0' if rs else 'mfc0', rt, rd)
    return None


def known(w):
    op = w >> 26
    rs, rt, _, _, _, imm, simm = fields(w)
    if op == 0:
        return of_special(w)
    if op in (1, 4, 5, 6, 7):
        return of_branch(w)
    if op in (2, 3):
        return '%s %d' % ('j' if op == 2 else 'jal', w & 0x3ffffff)
    if op in BY_IMM:
        name = BY_IMM[op]
        return '%s r%d, r%d, %d' % (name, rt, rs, simm if name in SIGNED_IMM else imm)
    if op == 15 and not rs:
        return 'lui r%d, %d' % (rt, imm)
    if op in (0x23, 0x2b):
        return '%s r%d, %d(r%d)' % ('lw' if op == 0x23 else 'sw', rt, simm, rs)
    return of_system(w) if op == 16 else None


def instruction(w):
    """The text of a word."""
    return known(w) or '.word 0x%08x' % w
