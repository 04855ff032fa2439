"""Paging with lists of naming pages, written apart from the project, and its code run step by step beside it.

usage: oracle/model paging [ROUNDS [SEED]]   random operations; after each one the invariant is tested, and after each fault the steps of the code

Each user frame has eight words of the frame table: its count, then four slots. The slots below the count hold the pages that name the
frame; what stands behind them is of no meaning.
"""
import random

VALID, PROTECTED = 0x800, 0x400
MOVE = 128 * 21 + 1   # 1,024 words, eight a turn
COMMAND = 1 + 2       # the store of a command and one look that finds it done (busy 0)


class Paging:
    def __init__(self, pages, frames, zero):
        self.zero, self.pages, self.nframes = zero, pages, frames
        self.entries, self.hand = [0] * pages, 0
        self.table = [[0] + [random.randrange(pages) for _ in range(4)] for _ in range(frames)]   # junk in all slots
        self.frames = {zero + f: [0] for f in range(frames + 1)}
        self.sectors = [[q] for q in range(pages)]
        self.live = [True] * pages
        self.flat = [[q] for q in range(pages)]

    # the lists
    def row(self, frame):
        return self.table[frame - self.zero - 1]

    def join(self, frame, page):
        """The page takes the slot behind those of before."""
        row = self.row(frame)
        row[1 + row[0]] = page
        row[0] += 1

    def part(self, frame, page):
        """The page goes: the last page takes its slot. A slot behind the count may hold the page by chance; it is overwritten too."""
        row = self.row(frame)
        row[0] -= 1
        last = row[1 + row[0]]
        for k in range(1, 5):
            if row[k] == page:
                row[k] = last

    def user(self, entry):
        return bool(entry & VALID) and entry >> 12 != self.zero

    # the operations
    def evict(self):
        frame = self.zero + 1 + self.hand
        row = self.row(frame)
        for k in range(row[0]):
            self.sectors[row[1 + k]] = list(self.frames[frame])
            self.entries[row[1 + k]] = 0
        row[0] = 0

    def fill(self, q):
        self.evict()
        frame, entry = self.zero + 1 + self.hand, self.entries[q]
        self.frames[frame] = list(self.frames[entry >> 12] if entry & VALID else self.sectors[q])
        if self.user(entry):
            self.part(entry >> 12, q)
        self.entries[q] = frame << 12 | VALID
        self.row(frame)[0:2] = [1, q]
        self.hand = (self.hand + 1) % self.nframes

    def ask(self, q, store):
        entry = self.entries[q]
        if not entry & VALID:
            return self.fill(q)
        if store and entry & PROTECTED:
            if self.user(entry) and self.row(entry >> 12)[0] == 1:
                self.entries[q] &= ~PROTECTED                      # own
            else:
                self.fill(q)

    def drop(self, q):
        entry = self.entries[q]
        self.entries[q] = 0
        if self.user(entry):
            self.part(entry >> 12, q)

    def cut(self, q):
        self.drop(q)
        self.live[q] = False

    def grow(self, q):
        if not self.live[q]:
            self.entries[q], self.live[q], self.flat[q] = self.zero << 12 | VALID | PROTECTED, True, [0]

    def copy(self, q, r):
        """A whole page: the source comes in to be read, the target's entry is dropped, and takes the source's frame where there is room."""
        if q == r or not (self.live[q] and self.live[r]):
            return
        self.ask(q, False)
        self.drop(r)
        frame = self.entries[q] >> 12
        self.flat[r] = list(self.flat[q])
        if frame == self.zero or self.row(frame)[0] < 4:
            self.entries[q] = self.entries[r] = frame << 12 | VALID | PROTECTED
            if frame != self.zero:
                m = Machine(self)
                m.r[8], m.r[11] = frame - self.zero, r
                m.run(more(self))
                self.join(frame, r)
                m.agrees()
        else:
            self.sectors[r] = [None]      # the dropped page shows what its sector holds until its words are copied
            self.ask(r, True)
            self.ask(q, False)
            self.frames[self.entries[r] >> 12] = list(self.frames[self.entries[q] >> 12])

    def store(self, q, word):
        self.ask(q, True)
        assert self.entries[q] & VALID and not self.entries[q] & PROTECTED
        self.frames[self.entries[q] >> 12] = [word]
        self.flat[q] = [word]

    # the invariant
    def stands(self):
        for q, entry in enumerate(self.entries):
            if self.live[q]:
                assert (self.frames[entry >> 12] if entry & VALID else self.sectors[q]) == self.flat[q], q
            else:
                assert not entry & VALID
            if entry & VALID:
                assert self.zero <= entry >> 12 <= self.zero + self.nframes
                if entry >> 12 == self.zero or self.row(entry >> 12)[0] > 1:
                    assert entry & PROTECTED
        for f in range(self.zero + 1, self.zero + self.nframes + 1):
            naming = [q for q, e in enumerate(self.entries) if e & VALID and e >> 12 == f]
            count, slots = self.row(f)[0], self.row(f)[1:]
            assert count == len(naming) <= 4
            assert all(q < self.pages and self.entries[q] & VALID and self.entries[q] >> 12 == f for q in slots[:count])
            assert len(set(slots[:count])) == count
            assert sorted(slots[:count]) == naming      # this one follows from the others
        assert self.frames[self.zero] == [0]


# THE CODE, as tuples; a list stands for a body under a condition or a loop
def const(r, v):
    return [('lui', r, v >> 16), ('ori', r, r, v & 0xffff)]


def find(p):
    return const(20, 4 * p.tables) + [('sll', 8, 16, 2), ('addu', 20, 20, 8), ('lw', 8, 20, 0), ('srl', 21, 8, 12), ('srl', 24, 8, 11), ('sll', 24, 24, 31), ('srl', 24, 24, 31)]


def user(p):
    return const(9, p.zero) + [('subu', 8, 21, 9)]


def count(p):
    return const(9, 4 * p.counts) + [('addiu', 8, 8, -1), ('sll', 8, 8, 5), ('addu', 8, 8, 9), ('lw', 9, 8, 0)]


def less(p):
    """The page in register 16 leaves the list of the frame whose number, from 1, is in register 8. 9 and 10 are used."""
    code = count(p) + [('addiu', 9, 9, -1), ('sw', 9, 8, 0), ('sll', 9, 9, 2), ('addu', 9, 9, 8), ('lw', 9, 9, 4)]
    for k in range(4):
        code += [('lw', 10, 8, 4 + 4 * k), ('equal', 10, 16, [('sw', 9, 8, 4 + 4 * k)])]
    return code


def more(p):
    """The page in register 11 joins it."""
    return count(p) + [('sll', 10, 9, 2), ('addu', 10, 10, 8), ('sw', 11, 10, 4), ('addiu', 9, 9, 1), ('sw', 9, 8, 0)]


def evict(p):
    """17 the hand, 18 its frame's address, 19 its row of the frame table, 20 the page tables, 22 the slot that is next, 23 how many are left."""
    return ([('hand', 17)] + const(18, 4096 * (p.zero + 1)) + [('sll', 8, 17, 12), ('addu', 18, 18, 8)]
            + const(19, 4 * p.counts) + [('sll', 8, 17, 5), ('addu', 19, 19, 8)] + const(20, 4 * p.tables)
            + [('lw', 23, 19, 0), ('addu', 22, 19, 0)]
            + [('until', 23, 0, [('lw', 21, 22, 4), ('sll', 8, 21, 2), ('addu', 8, 8, 20), ('sw', 0, 8, 0), ('out',), ('addiu', 22, 22, 4), ('addiu', 23, 23, -1)])]
            + [('sw', 0, 19, 0)])


def own(p):
    return ([('addiu', 8, 18, 2048), ('sw', 8, 20, 0)] + const(9, 4 * p.counts)
            + [('sll', 8, 17, 5), ('addu', 8, 8, 9), ('addiu', 9, 0, 1), ('sw', 9, 8, 0), ('sw', 16, 8, 4)])


def move(p):
    return [('addiu', 17, 17, 1), ('addiu', 8, 0, p.nframes), ('subu', 8, 17, 8), ('sltiu', 8, 8, 1), ('when', 8, [('addiu', 17, 0, 0)]), ('sethand', 17)]


def page(p):
    place = (find(p) + [('sltiu', 25, 24, 1), ('when', 25, [('fetch',)]), ('when', 24, [('sll', 1, 21, 12)]), ('settle',)]
             + [('when', 24, user(p) + [('when', 8, less(p))])] + own(p) + move(p))
    alone = count(p) + [('addiu', 9, 9, -1), ('sltiu', 9, 9, 1)]
    shared = [('addiu', 12, 0, 1)] + user(p) + [('when', 8, alone + [('when', 9, [('addiu', 12, 0, 0), ('addiu', 10, 10, -1024), ('sw', 10, 20, 0)])])]
    guard = [('lw', 10, 20, 0), ('srl', 11, 10, 10), ('sll', 11, 11, 31), ('when', 11, shared)]
    return find(p) + [('sltiu', 12, 24, 1), ('when', 15, [('when', 24, guard)]), ('when', 12, evict(p) + place)]


def drop(p):
    return find(p) + [('when', 24, [('sw', 0, 20, 0)] + user(p) + [('when', 8, less(p))])]


class Machine:
    """The words of page tables and frame table, and the registers. Frames go to sectors and back as whole."""

    def __init__(self, p):
        self.p, self.r, self.steps, self.names = p, [random.randrange(1 << 32) for _ in range(32)], 0, 0
        p.tables, p.counts = 0x4000, 0x8000
        self.m = {p.tables + q: e for q, e in enumerate(p.entries)}
        for f, row in enumerate(p.table):
            self.m.update({p.counts + 8 * f + k: v for k, v in enumerate(row)})
        self.sectors, self.frames, self.hand = [list(s) for s in p.sectors], {f: list(w) for f, w in p.frames.items()}, p.hand
        self.r[0] = 0

    def run(self, code):
        M, r = 0xffffffff, self.r
        for i in code:
            op, a = i[0], i[1:]
            self.steps += 1
            if op == 'lui': r[a[0]] = a[1] << 16
            elif op == 'ori': r[a[0]] = r[a[1]] | a[2]
            elif op == 'sll': r[a[0]] = r[a[1]] << a[2] & M
            elif op == 'srl': r[a[0]] = r[a[1]] >> a[2]
            elif op == 'addu': r[a[0]] = r[a[1]] + r[a[2]] & M
            elif op == 'subu': r[a[0]] = r[a[1]] - r[a[2]] & M
            elif op == 'addiu': r[a[0]] = r[a[1]] + a[2] & M
            elif op == 'sltiu': r[a[0]] = int(r[a[1]] < a[2])
            elif op == 'lw': r[a[0]] = self.m[(r[a[1]] + a[2] & M) // 4]
            elif op == 'sw': self.m[(r[a[1]] + a[2] & M) // 4] = r[a[0]]
            elif op == 'when' and r[a[0]]: self.run(a[1])
            elif op == 'equal' and r[a[0]] == r[a[1]]: self.run(a[2])
            elif op == 'until':
                while r[a[0]] != r[a[1]]:
                    self.run(a[2])
                    self.steps += 2
            elif op == 'hand': r[a[0]] = self.hand
            elif op == 'sethand': self.hand = r[a[0]]
            elif op == 'out':
                self.sectors[r[21]] = list(self.frames[r[18] >> 12])
                self.steps += 3 + MOVE + 2 + COMMAND - 1
                self.names += 1
                for k in range(1, 6): r[k] = random.randrange(1 << 32)
            elif op == 'fetch':
                self.buffer = list(self.sectors[r[16]])
                r[1] = 0
                self.steps += 2 + COMMAND - 1
            elif op == 'settle':
                self.frames[r[18] >> 12] = list(self.frames[r[1] >> 12]) if r[24] else self.buffer
                self.steps += 2 + MOVE - 1
            r[0] = 0

    def agrees(self):
        p = self.p
        assert self.hand == p.hand and self.frames == p.frames and self.sectors == p.sectors
        assert [self.m[p.tables + q] for q in range(p.pages)] == p.entries
        for f, row in enumerate(p.table):
            n = row[0]
            assert [self.m[p.counts + 8 * f + k] for k in range(1 + n)] == row[:1 + n], (f, row)


LEAST_WORDS = 0


def main(words):
    rounds, seed = (list(map(int, words)) + [2000, 1][len(words):])[:2]
    random.seed(seed)
    most, tried = {}, {}
    for _ in range(rounds):
        p = Paging(random.randint(4, 12), random.randint(2, 5), 19)
        p.stands()
        for _ in range(60):
            kind, q, r = random.choice(['ask', 'ask', 'store', 'copy', 'copy', 'cut', 'grow', 'drop']), random.randrange(p.pages), random.randrange(p.pages)
            tried[kind] = tried.get(kind, 0) + 1
            if kind == 'cut':
                p.cut(q)
            elif kind == 'grow':
                p.grow(q)
            elif not p.live[q]:
                continue
            elif kind == 'copy':
                p.copy(q, r)
            elif kind == 'drop':
                m = Machine(p)
                m.r[16] = q
                m.run(drop(p))
                p.sectors[q] = m.sectors[q] = list(p.flat[q])     # so that the page shows what it showed
                p.drop(q)
                m.agrees()
            else:
                store = kind == 'store' or random.random() < 0.5
                m = Machine(p)
                m.r[16], m.r[15] = q, int(store)
                m.run(page(p))
                p.ask(q, store)
                m.agrees()
                most[m.names] = max(most.get(m.names, 0), m.steps)
                if store:
                    p.store(q, random.randrange(1 << 32))
            p.stands()
    for names in (1, 4):
        for pages in (8, 64, 256, 65536):
            p = Paging(pages, 2, 19)
            for q in range(names):
                p.entries[q] = 20 << 12 | VALID | PROTECTED * (names > 1)
                p.table[0][1 + q] = q
            p.table[0][0] = names
            m = Machine(p)
            m.r[16], m.r[15] = 7, 1
            m.run(page(p))
            print('a page that comes from its sector, %d names at the hand, %d pages: %d steps' % (names, pages, m.steps))
    print('operations', ' '.join('%s %d' % it for it in sorted(tried.items())))
    for names in sorted(most):
        print('most steps of the block with %d names at the hand: %d' % (names, most[names]))

    return 0
