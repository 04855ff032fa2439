"""The flat machine of a user, written from docs/MACHINE.md apart from the crates."""
from oracle.words import M, signed

MOST_DECODED = 1 << 16


class Flat:
    """A user's machine, which starts with these words, filled up to whole pages."""

    def __init__(self, words):
        self.pc, self.r, self.hi, self.lo = 0, [0] * 32, 0, 0
        self.m = words + [0] * (-len(words) % 1024)

    def pages(self):
        return len(self.m) // 1024

    def resize(self, pages):
        self.m = (self.m + [0] * (1024 * pages))[:1024 * pages]

    def step(self):
        """None, or (cause, data) of a trap; the pc is then the place to go on from."""
        pc = self.pc
        if pc % 4:
            return 2, pc
        if pc // 4 >= len(self.m):
            return 3, pc
        word = self.m[pc // 4]
        return (DECODED.get(word) or decode(word))(self)


# What each word does, as a function of the machine that is its step.
DECODED = {}


def decode(w):
    if len(DECODED) >= MOST_DECODED:
        DECODED.clear()
    DECODED[w] = made = decoded(w)
    return made


def fields(w):
    """rs, rt, rd, sa, funct, the immediate with zeros, and with its sign."""
    imm = w & 0xffff
    return w >> 21 & 31, w >> 16 & 31, w >> 11 & 31, w >> 6 & 31, w & 63, imm, imm - 0x10000 if imm >> 15 else imm


def illegal(w):
    return lambda m: (4, w)


def setting(d, value):
    """Sets a register, and goes on: the value is a function of the registers."""
    def step(m):
        v = value(m.r)
        if d:
            m.r[d] = v & M
        m.pc = m.pc + 4 & M
    return step


def branching(test, offset):
    def step(m):
        m.pc = (m.pc + 4 + 4 * offset if test(m.r) else m.pc + 4) & M
    return step


def summing(d, value, w):
    """A sum or a difference that traps where it is no signed word."""
    def step(m):
        v = value(m.r)
        m.pc = m.pc + 4 & M
        if not -2**31 <= v < 2**31:
            return 5, w
        if d:
            m.r[d] = v & M
        return None
    return step


def accessing(rs, rt, offset, is_store):
    """A load or a store."""
    def step(m):
        at = m.r[rs] + offset & M
        if at % 4:
            return 7, at
        if at // 4 >= len(m.m):
            return 8, at
        if is_store:
            m.m[at // 4] = m.r[rt]
        elif rt:
            m.r[rt] = m.m[at // 4]
        m.pc = m.pc + 4 & M
        return None
    return step


def system_call(w):
    def step(m):
        m.pc = m.pc + 4 & M
        return 6, w
    return step


def multiplying(funct, rs, rt):
    """A product or a quotient, which goes to hi and lo."""
    def step(m):
        x, y = m.r[rs], m.r[rt]
        if funct in (0x18, 0x1a):
            x, y = signed(x), signed(y)
        if funct in (0x18, 0x19):
            m.hi, m.lo = x * y >> 32 & M, x * y & M
        elif y:
            q = abs(x) // abs(y) * (1 if (x < 0) == (y < 0) else -1)
            m.lo, m.hi = q & M, (x - q * y) & M
        m.pc = m.pc + 4 & M
    return step


def of_hi_and_lo(funct, rs, rd):
    def step(m):
        if funct == 0x11:
            m.hi = m.r[rs]
        elif funct == 0x13:
            m.lo = m.r[rs]
        elif rd:
            m.r[rd] = m.hi if funct == 0x10 else m.lo
        m.pc = m.pc + 4 & M
    return step


def jumping(w):
    def step(m):
        following = m.pc + 4 & M
        if w >> 26 == 3:
            m.r[31] = following
        m.pc = following & 0xf0000000 | (w & 0x3ffffff) << 2
    return step


def jump_to_register(rs, rd, links):
    def step(m):
        to, following = m.r[rs], m.pc + 4 & M
        if links and rd:
            m.r[rd] = following
        m.pc = to
    return step


# of the instructions of opcode 0 that set rd of rs and rt
TWO = {0x21: lambda a, b: a + b, 0x23: lambda a, b: a - b, 0x24: lambda a, b: a & b, 0x25: lambda a, b: a | b, 0x26: lambda a, b: a ^ b,
       0x27: lambda a, b: ~(a | b), 0x2a: lambda a, b: int(signed(a) < signed(b)), 0x2b: lambda a, b: int(a < b)}
SHIFTS = {0: lambda a, n: a << n, 2: lambda a, n: a >> n, 3: lambda a, n: signed(a) >> n}
# of those with an immediate: the register, the immediate with its sign, and that with zeros
IMMEDIATE = {9: lambda a, s, n: a + s, 10: lambda a, s, n: int(signed(a) < s), 11: lambda a, s, n: int(a < (s & M)), 12: lambda a, s, n: a & n,
             13: lambda a, s, n: a | n, 14: lambda a, s, n: a ^ n}


def special(w):
    """The step of a word of opcode 0."""
    rs, rt, rd, sa, fn, _, _ = fields(w)
    if fn in SHIFTS and not rs:
        return setting(rd, lambda r: SHIFTS[fn](r[rt], sa))
    if fn - 4 in SHIFTS and not sa:
        return setting(rd, lambda r: SHIFTS[fn - 4](r[rt], r[rs] & 31))
    if fn == 8 and not rt | rd | sa or fn == 9 and not rt | sa:
        return jump_to_register(rs, rd, fn == 9)
    if fn == 12:
        return system_call(w)
    if fn in (0x10, 0x12) and not rs | rt | sa or fn in (0x11, 0x13) and not rt | rd | sa:
        return of_hi_and_lo(fn, rs, rd)
    if fn in (0x18, 0x19, 0x1a, 0x1b) and not rd | sa:
        return multiplying(fn, rs, rt)
    if fn in (0x20, 0x22) and not sa:
        sign = 1 if fn == 0x20 else -1
        return summing(rd, lambda r: signed(r[rs]) + sign * signed(r[rt]), w)
    if fn in TWO and not sa:
        of = TWO[fn]
        return setting(rd, lambda r: of(r[rs], r[rt]))
    return illegal(w)


def decoded(w):
    """The step of a word. One that is no instruction, or is one on special registers, traps."""
    op = w >> 26
    rs, rt, _, _, _, imm, simm = fields(w)
    if op == 0:
        return special(w)
    if op == 1 and rt <= 1:
        return branching(lambda r: (signed(r[rs]) >= 0) == (rt == 1), simm)
    if op in (2, 3):
        return jumping(w)
    if op in (4, 5):
        return branching(lambda r: (r[rs] == r[rt]) == (op == 4), simm)
    if op in (6, 7) and not rt:
        return branching(lambda r: (signed(r[rs]) <= 0) == (op == 6), simm)
    if op == 8:
        return summing(rt, lambda r: signed(r[rs]) + simm, w)
    if op in IMMEDIATE:
        of = IMMEDIATE[op]
        return setting(rt, lambda r: of(r[rs], simm, imm))
    if op == 15 and not rs:
        return setting(rt, lambda r: imm << 16)
    if op in (0x23, 0x2b):
        return accessing(rs, rt, simm, op == 0x2b)
    return illegal(w)
