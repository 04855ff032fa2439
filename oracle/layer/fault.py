"""Paging, written apart from the project, with the steps of the page-fault block counted along its ways.

usage: oracle/model fault FILE   prints, for the lines of FILE, what machine_cases prints of them. Lines that are raised change nothing, so they aren't looked at.
"""
from oracle.words import M

ZERO = 19            # the zero frame: code 16 frames, then one each of stack, page tables, frame table
VALID, PROTECTED = 0x800, 0x400
MOVE = 128 * 21 + 1  # 1,024 words, eight a turn


class System:
    def __init__(self, users, pages, frames, schedule):
        self.entries, self.counts, self.hand = [0] * (users * pages), [0] * frames, 0
        self.slots = [[0] * 4 for _ in range(frames)]   # those below a frame's count hold the pages that name it
        self.frames = {ZERO + f: [0] * 1024 for f in range(frames + 1)}
        self.sectors = [[0] * 1024 for _ in range(users * pages)]
        rows = [r.split() for r in schedule.split(';')]
        self.busy = {int(r[1]): int(r[2]) for r in rows if r and r[0] == 'busy'}
        self.commands = 0

    def command(self):
        """The store of a command, and the wait for it: three steps for each look that finds it under way, and two for the last."""
        busy = self.busy.get(self.commands, 0)
        self.commands += 1
        return 1 + 3 * ((busy + 2) // 3) + 2

    def ask(self, q, store):
        entry = self.entries[q]
        steps, fill = 10 + 1, not entry & VALID
        if store:
            steps += 1
            if entry & VALID:
                steps += 3 + 1
                if entry & PROTECTED:
                    steps, fill = steps + 4 + 1, True
                    if entry >> 12 != ZERO:
                        steps += 8 + 1
                        if self.counts[(entry >> 12) - ZERO - 1] == 1:
                            steps, fill = steps + 3, False
                            self.entries[q] &= ~PROTECTED
        return steps + 1 + (self.fill(q) if fill else 0)

    def leave(self, f, q):
        """Page q leaves the list of user frame f, from 0: the last page takes each of the four slots that holds q."""
        self.counts[f] -= 1
        last, found = self.slots[f][self.counts[f]], [k for k in range(4) if self.slots[f][k] == q]
        for k in found:
            self.slots[f][k] = last
        return 6 + 5 + 4 * 2 + len(found)

    def fill(self, q):
        frame = ZERO + 1 + self.hand
        steps = 5 + 8 + 1 + 1
        for p in self.slots[self.hand][:self.counts[self.hand]]:
            steps += 1 + 4 + 3 + MOVE + 2 + self.command() + 2 + 1
            self.sectors[p] = list(self.frames[frame])
            self.entries[p] = 0
        self.counts[self.hand] = 0
        entry = self.entries[q]
        steps += 10 + 2 + 2 + MOVE + 1 + 9 + 6
        if entry & VALID:
            steps += 1 + 3 + 1
            self.frames[frame] = list(self.frames[entry >> 12])
            if entry >> 12 != ZERO:
                steps += self.leave((entry >> 12) - ZERO - 1, q)
        else:
            steps += 2 + self.command() + 1
            self.frames[frame] = list(self.sectors[q])
        self.entries[q] = frame << 12 | VALID
        self.counts[self.hand], self.slots[self.hand][0] = 1, q
        self.hand += 1
        if self.hand == len(self.counts):
            self.hand, steps = 0, steps + 1
        return steps

    def shown(self, q):
        entry, number = self.entries[q], 0
        for word in self.frames[entry >> 12] if entry & VALID else self.sectors[q]:
            number = (number * 31 + word) & M
        return number

    def tell(self):
        words = lambda numbers: ''.join(' %08x' % n for n in numbers)
        lists = [','.join(map(str, s[:n])) or '-' for s, n in zip(self.slots, self.counts)]
        print(' hand %d entries%s counts %s lists %s' % (self.hand, words(self.entries), ' '.join(map(str, self.counts)), ' '.join(lists)))
        print(' shown' + words(self.shown(q) for q in range(len(self.entries))))

    def obey(self, kind, a=0, b=0, c=0):
        filled = [(b + i) & M for i in range(1024)]
        if kind == 'entry':
            self.entries[a] = b
        elif kind == 'count':
            self.counts[a - 1] = b
        elif kind == 'slot':
            self.slots[a - 1][b] = c
        elif kind == 'hand':
            self.hand = a
        elif kind == 'frame':
            self.frames[ZERO + a] = filled
        elif kind == 'sector':
            self.sectors[a] = filled
        elif kind == 'store':
            self.frames[self.entries[a] >> 12][b] = c
        elif kind == 'ask':
            print(' steps %d' % self.ask(a, b))
            self.tell()
        elif kind == 'tell':
            self.tell()


def run(lines):
    system = None
    for line in lines:
        print(line)
        kind, *rest = line.split(' ')
        if kind == 'system':
            system = System(*map(int, rest[:3]), ' '.join(rest[3:]))
        elif kind != '#':
            system.obey(kind, *map(int, rest))


def main(words):
    with open(words[0], encoding='utf-8') as file:
        run(file.read().rstrip('\n').split('\n'))
    return 0
