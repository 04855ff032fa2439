"""The blocks of the frame table, written apart from the project: what they do to words, registers and sectors, and in how many steps.

usage: oracle/model frames FILE   prints, for the lines of FILE from the first that begins "# The frame at the hand" on, what machine_cases prints of them
"""
from oracle.words import M

MOVE = 128 * 21 + 1        # 1,024 words, eight a turn
WORDS = {'evict': 52, 'find': 9, 'leave': 23, 'join': 11, 'hand': 7}


def page_up(n):
    return (n + 1023) // 1024 * 1024


class Machine:
    """A machine of 32 frames and 8 sectors, with the places of a map: no kernel, no heap, 64 words of stack."""

    def __init__(self, users, pages, frames, busy):
        self.m, self.r, self.pc, self.ran, self.code, self.commands, self.busy = {}, [0] * 32, 0, 0, [], 0, busy
        self.sectors = [(0, 0)] * 8
        self.pages, self.frames = users * pages, frames
        self.tables = page_up(0x4000 + 64)
        self.counts = page_up(self.tables + self.pages)
        self.zero = page_up(self.counts + 8 * (frames + 1)) // 1024

    def word(self, a):
        return self.m.get(a, 0)

    def row(self, frame):
        """The first of the eight words of a user frame, from 1."""
        return self.counts + 8 * (frame - 1)

    def command(self):
        self.commands += 1
        return 1 + 3 * (((self.busy if self.commands <= 10 else 0) + 2) // 3) + 2

    def evict(self):
        r, hand = self.r, self.word(0x1004 // 4)
        row, frame = self.row(hand + 1), self.zero + 1 + hand
        names = self.word(row)
        r[17], r[18], r[19], r[20], r[22], r[23], r[8] = hand, 4096 * frame, 4 * row, 4 * self.tables, 4 * (row + names), 0, 32 * hand
        steps = 5 + 8 + 1 + 1
        for k in range(names):
            r[21] = self.word(row + 1 + k)
            r[8] = 4 * (self.tables + r[21])
            self.m[self.tables + r[21]] = 0
            self.sectors[r[21]] = self.word(1024 * frame), self.word(1024 * frame + 1023)
            r[1], r[2], r[3], r[4], r[5] = 0, 0xfffff000, 0, self.word(1024 * frame + 1023), 2
            steps += 1 + 4 + 3 + MOVE + 2 + self.command() + 2 + 1
        self.m[row] = 0
        return steps

    def find(self):
        r = self.r
        e = self.word(self.tables + r[16])
        r[20], r[8], r[21], r[24] = 4 * (self.tables + r[16]), e, e >> 12, e >> 11 & 1
        return 9

    def leave(self):
        r, row = self.r, self.row(self.r[8])
        self.m[row] = self.word(row) - 1
        last = self.word(row + 1 + self.m[row])
        found = [k for k in range(1, 5) if self.word(row + k) == r[16]]
        r[8], r[9], r[10] = 4 * row, last, self.word(row + 4)
        for k in found:
            self.m[row + k] = last
        return 6 + 5 + 4 * 2 + len(found)

    def join(self):
        r, row = self.r, self.row(self.r[8])
        self.m[row + 1 + self.word(row)] = r[11]
        r[8], r[10] = 4 * row, 4 * (row + self.word(row))
        self.m[row] = r[9] = self.word(row) + 1
        return 11

    def hand(self):
        r = self.r
        end = r[17] + 1 == self.frames
        r[17] = 0 if end else r[17] + 1
        r[8] = int(end)
        self.m[0x1004 // 4] = r[17]
        return 6 + int(end)

    def run(self):
        steps = 0
        for kind in self.code:
            if isinstance(kind, str):
                steps += getattr(self, kind)()
                self.pc += 4 * WORDS[kind]
            else:
                steps, self.pc, t = steps + 1, self.pc + 4, kind >> 16 & 31
                self.r[t] = kind << 16 & M if kind >> 26 == 15 else self.r[kind >> 21 & 31] | kind & 0xffff
        self.code = []
        return steps


def hexes(numbers):
    return ''.join(' %08x' % n for n in numbers)


def main(words):
    with open(words[0], encoding='utf-8') as file:
        lines = file.read().rstrip('\n').split('\n')
    machine = None
    for line in lines[next(i for i, line in enumerate(lines) if line.startswith('# The frame at the hand')):]:
        print(line)
        kind, *rest = line.split(' ')
        if kind == 'machine':
            machine = Machine(*map(int, rest))
        elif kind == 'fill':
            for i in range(int(rest[1])):
                machine.m[int(rest[0], 16) // 4 + i] = int(rest[2], 16) + i
        elif kind == 'block':
            machine.code.append(rest[0])
        elif kind == 'run':
            steps = machine.run()
            print(' steps %d pc %08x' % (steps, machine.pc))
        elif kind == 'words':
            print(hexes(machine.word(int(rest[0], 16) // 4 + i) for i in range(int(rest[1]))))
        elif kind == 'sectors':
            print(hexes(w for pair in machine.sectors for w in pair))
        elif kind == 'registers':
            print(hexes(machine.r[1:]) + ' hi 00000000 lo 00000000 epc 00000000')
        elif len(kind) == 8:
            machine.code.append(int(kind, 16))
    return 0
