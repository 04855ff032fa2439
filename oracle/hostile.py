"""Users that do as they like: random words, and random programs in C0, that call a kernel with whatever numbers come. What a kernel promises is to hold
beside them.
"""
from oracle.disassembler import instruction
from oracle.words import M

MOST_SERVICE = 20
SETTING = ('ori r%d, r%d, %d', 'addiu r%d, r%d, %d', 'lui r%d, %d')


def register(r):
    """A register: often one of those that a call looks at."""
    return r.choice((2, 4, 4, 28, 28, 29, 31)) if r.random() < 0.5 else r.randrange(32)


def small(r):
    return r.choice((0, 1, 2, 3, 4, 8, 60, 64, 65, 127, 128, 192)) if r.random() < 0.5 else r.randrange(1 << r.randrange(1, 16))


def arithmetic(r):
    funct = r.choice((0x00, 0x02, 0x03, 0x04, 0x20, 0x21, 0x22, 0x23, 0x24, 0x25, 0x2a, 0x2b))
    shift = r.randrange(32) if funct < 4 else 0
    return (0 if funct < 4 else register(r) << 21) | register(r) << 16 | register(r) << 11 | shift << 6 | funct


def word(r):
    """A word: most are instructions."""
    kind = r.randrange(20)
    if kind == 0:
        return r.randrange(1 << 32)
    if kind < 4:
        return arithmetic(r)
    if kind < 8:
        return 0x0d << 26 | register(r) << 16 | small(r)                                    # ori r, r0
    if kind < 10:
        return r.choice((0x08, 0x09, 0x0c, 0x0e, 0x0f)) << 26 | register(r) << 16 | r.randrange(1 << 16)
    if kind < 12:
        return r.choice((0x23, 0x2b)) << 26 | register(r) << 21 | register(r) << 16 | 4 * r.randrange(64)
    if kind < 14:
        return r.choice((0x04, 0x05, 0x06, 0x07)) << 26 | register(r) << 21 | (r.randrange(-12, 8) & 0xffff)
    if kind == 14:
        return r.choice((0x02, 0x03)) << 26 | r.randrange(64)                               # j, jal
    if kind == 15:
        return register(r) << 21 | r.choice((0x08, 0x18, 0x1a)) if r.random() < 0.5 else register(r) << 11 | r.choice((0x10, 0x12))
    return 0x0c | (r.randrange(1 << 20) << 6 if r.random() < 0.1 else 0)                    # syscall


def call(r):
    """The words of a call of some service with some value."""
    number = small(r) * 32 + r.randrange(MOST_SERVICE) if r.random() < 0.9 else r.randrange(1 << 32)
    return [0x0f << 26 | 4 << 16 | number >> 16 & 0xffff, 0x0d << 26 | 4 << 21 | 4 << 16 | number & 0xffff, 0x0c]


def words(r):
    """The words of a user: some 40 to 80."""
    made = []
    while len(made) < r.randrange(40, 80):
        made += call(r) if r.random() < 0.4 else [word(r)]
    return [w & M for w in made]


def text_of(made):
    """The words as a text for the assembler."""
    return ''.join('.word 0x%08x    # %s\n' % (w, instruction(w)) for w in made)


class Maker:
    """Makes a program's `main` behind the library of the example unix, which calls whatever it likes."""

    def __init__(self, r):
        self.r, self.depth = r, 0

    def number(self):
        r = self.r
        return r.choice(('x', 'y', 'n', 'io[%d]' % r.randrange(64), '-1', str(small(r)), str(r.randrange(1 << 31))))

    def statement(self):
        r = self.r
        k = r.randrange(14)
        if k < 5:
            return 'x = call(%d, %s);' % (r.randrange(MOST_SERVICE), self.number())
        if k == 5:
            return 'y = trap(%s);' % self.number()
        if k == 6:
            return 'io[%d] = %s;' % (r.randrange(64), self.number())
        if k == 7:
            return 'x = put(%s);' % self.number()
        if k == 8:
            return 'y = get();'
        if k == 9:
            return 'y = %s %s %s;' % (self.number(), r.choice('+-*/%'), self.number())
        if k == 10:
            return 'io[%s] = y;' % self.number()
        return self.compound(k)

    def compound(self, k):
        if self.depth > 1:
            return 'n = n + 1;'
        self.depth += 1
        body = ' '.join(self.statement() for _ in range(self.r.randrange(1, 4)))
        self.depth -= 1
        if k == 11:
            return 'while (n < %d) { n = n + 1; %s }' % (self.r.randrange(12), body)
        if k == 12:
            return 'if (x %s %s) { %s }' % (self.r.choice(('<', '==', '!=')), self.number(), body)
        return 'p = new struct block; if (p != null) { p->n = x; } %s' % body

    def text(self):
        body = '\n  '.join(self.statement() for _ in range(self.r.randrange(4, 14)))
        again = 'while (true) {\n  %s\n  }' % body if self.r.random() < 0.3 else body
        return 'struct block { int n; int[200] more; };\nint main() {\n  int x; int y; int n; struct block* p;\n  %s\n  return x;\n}\n' % again


def program(r, library):
    """A program behind a library."""
    return library + Maker(r).text()
