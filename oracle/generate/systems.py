"""Random systems for system_cases: users ask for primitives by syscalls, and the kernel does what they ask.

usage: oracle/model write_systems SEED COUNT    prints so many
"""
import random

KERNEL = '''%% kernel
struct note { int cause; int data; struct note* before; };
struct note* notes;
int calls;
int[9] counts;
int skip(int user, int cause) {
  int pc;
  bool ok;
  pc = vm_get(user, 32);
  if (cause == 4 || cause == 7 || cause == 8) { ok = vm_set(user, 32, pc + 4); }
  if (cause == 2 || cause == 3) { pc = vm_get(user, 30); ok = vm_set(user, 32, pc); if (!ok) { calls = 0 - 1; } }
  return 0;
}
int call(int user, int n) {
  int a; int b; int c; int d; int e;
  int answer;
  bool ok;
  a = vm_get(user, 4);
  b = vm_get(user, 5);
  c = vm_get(user, 6);
  d = vm_get(user, 7);
  e = vm_get(user, 8);
  ok = false;
  answer = 0 - 5;
  if (n == 0) { answer = vm_get(a, b); }
  if (n == 1) { ok = vm_set(a, b, c); }
  if (n == 2) { answer = vm_size(a); }
  if (n == 3) { ok = vm_resize(a, b); }
  if (n == 4) { answer = vm_word(a, b); }
  if (n == 5) { ok = vm_put(a, b, c); }
  if (n == 6) { ok = vm_copy(a, b, c, d, e); }
  if (n == 7) { ok = con_put(a); }
  if (n == 8) { answer = con_get(); }
  if (n == 9) { answer = con_left(); }
  if (ok) { answer = 1; }
  return answer;
}
int dispatch(int cause, int data, int user) {
  int next;
  int answer;
  int k;
  bool ok;
  struct note* note;
  calls = calls + 1;
  counts[cause] = counts[cause] + 1;
  note = new struct note;
  if (note != null) { note->cause = cause; note->data = data; note->before = notes; notes = note; }
  next = user;
  if (cause == 0) { next = 1; }
  if (cause == 1) { next = user % USERS + 1; }
  if (cause == 6) {
    k = data / 64;
    if (k < 10) { answer = call(user, k); ok = vm_set(user, 2, answer); }
    if (k == 10) { next = user % USERS + 1; }
    if (k == 11) { next = vm_get(user, 4); }
    if (k == 12) { notes->cause = counts[vm_get_first - 1]; }
  }
  if (cause > 1 && cause != 6) { answer = skip(user, cause); next = user; if (counts[cause] % 3 == 0) { next = user % USERS + 1; } }
  return next;
}
'''.replace('    if (k == 12) { notes->cause = counts[vm_get_first - 1]; }\n', '    if (k == 12) { answer = vm_get(user, 4); counts[answer] = 100 / (answer - 3); }\n')


def user(r, q, users, pages, number=1):
    out = []
    if r.random() < 0.7:
        # it takes all pages that it may have
        out += ['addiu r4, r0, %d' % number, 'addiu r5, r0, %d' % q, 'syscall 3']
        pages = q
    R = lambda: 'r%d' % r.choice([1, 2, 3, 9, 10, 11, 12, 13, 14, 15, 16, 17, 18, 29])
    end = 4096 * pages

    def li(reg, v):
        v &= 0xffffffff
        if v < 0x8000:
            out.append('addiu %s, r0, %d' % (reg, v))
        elif v >= 0xffff8000:
            out.append('addiu %s, r0, %d' % (reg, v - 0x100000000))
        else:
            out.append('lui %s, %d' % (reg, v >> 16))
            out.append('ori %s, %s, %d' % (reg, reg, v & 0xffff))

    def address():
        k = r.random()
        if k < 0.75:
            return 4 * r.randrange(0, max(1, end // 4))
        if k < 0.9:
            return r.choice([0, 4092, 4096, 8188, 8192, end - 4, end, end + 4])
        return r.choice([-4, 1, 2, 3, end + 4096, 0x7ffffffc, 0xfffff014 - 2**32, 0xffffe000 - 2**32, r.randrange(-2**31, 2**31)])

    def u():
        return r.randrange(1, users + 1) if r.random() < 0.85 else r.choice([0, users + 1, -1, 65, 2**31 - 1])

    for _ in range(r.randrange(10, 40)):
        k = r.random()
        if k < 0.3:
            reg = 'r%d' % r.choice([20, 21])
            li(reg, address())
            if r.random() < 0.5:
                out.append('lw %s, 0(%s)' % (R(), reg))
            else:
                # not over the program's own first words
                if r.random() < 0.9:
                    out.append('ori %s, %s, 2048' % (reg, reg))
                out.append('sw %s, 0(%s)' % (R(), reg))
        elif k < 0.55:
            op = r.choice(['addu', 'subu', 'and', 'or', 'xor', 'nor', 'slt', 'sltu', 'add', 'sub', 'sllv', 'srlv', 'srav'])
            out.append('%s %s, %s, %s' % (op, R(), R(), R()))
        elif k < 0.6:
            out.append('%s %s, %s' % (r.choice(['mult', 'multu', 'div', 'divu']), R(), R()))
            out.append('%s %s' % (r.choice(['mfhi', 'mflo', 'mthi', 'mtlo']), R()))
        elif k < 0.65:
            out.append('%s %s, %s, %d' % (r.choice(['addiu', 'addi', 'slti', 'sltiu']), R(), R(), r.randrange(-32768, 32768)))
        elif k < 0.68:
            out.append('%s %s, %s, %d' % (r.choice(['sll', 'srl', 'sra']), R(), R(), r.randrange(32)))
        elif k < 0.7:
            out.append('.word %d' % r.choice([r.randrange(2**32), 0x40000000, 0x42000018, 0x0000000d]))
        elif k < 0.72:
            out.append('%s r0, skip%d' % (r.choice(['blez', 'bgez']), len(out)))
            out.append('addiu r1, r1, 1000')
            out.append('skip%d: addiu r1, r1, 1' % (len(out) - 2))
        else:
            n = r.choice([0, 1, 2, 3, 3, 4, 5, 6, 6, 6, 6, 7, 8, 9, 10, 10])
            if n == 0:
                li('r4', u()), li('r5', r.choice([1, 2, 31, 32, 0, 33, r.randrange(1, 32)]))
            elif n == 1:
                li('r4', u()), li('r5', r.choice([9, 10, 11, 12, 29, 0, 33])), li('r6', r.randrange(-2**31, 2**31))
            elif n == 2:
                li('r4', u())
            elif n == 3:
                v = u()
                li('r4', v), li('r5', r.choice([q, q, q - 1, max(1, q // 2), q + 1, -1, 1]))
            elif n == 4:
                li('r4', u()), li('r5', address())
            elif n == 5:
                li('r4', u()), li('r5', address() | 2048), li('r6', r.randrange(-2**31, 2**31))
            elif n == 6:
                li('r4', u()), li('r6', u())
                if r.random() < 0.6:
                    li('r5', 4096 * r.randrange(0, q)), li('r7', 4096 * r.randrange(1, q + 1))
                    li('r8', r.choice([1024, 1024, 2048, 1023]))
                else:
                    li('r5', address()), li('r7', address() | 2048), li('r8', r.choice([0, 1, 5, 300, 1024, 1500, -1, 2**30]))
            elif n == 7:
                li('r4', r.randrange(-9, 9))
            out.append('syscall %d' % n)
    if r.random() < 0.15:
        li('r4', r.choice([0, users + 1, -1, 3, 9]))
        out.append('syscall %d' % r.choice([11, 12]))
    out.append('jr r0')
    return out


def system(r, k):
    users = r.choice([1, 2, 2, 3, 3, 4])
    q = r.choice([1, 2, 3, 3, 4, 5, 6])
    frames = r.choice([2, 2, 2, 3, 3, 4, 5])
    heap = r.choice([0, 30, 300])
    turns = r.choice([60, 100, 150, 250])
    print('\n== system %d %d %d %d %d random %d' % (q, frames, heap, 200, turns, k))
    print('%% schedule')
    t = 0
    if r.random() < 0.7:
        for _ in range(r.randrange(1, 25)):
            t += r.choice([0, 1, 2, r.randrange(40), r.randrange(900), r.randrange(6000)])
            print('line %d %d' % (t, r.randrange(8)))
    n = 0
    for _ in range(r.randrange(0, 12)):
        print('busy %d %d' % (n, r.choice([0, 1, 2, 3, 40, 500, r.randrange(2000)])))
        n += r.choice([1, 1, 2, 9])
    for _ in range(r.randrange(0, 5)):
        print('input %d' % r.randrange(2**32))
    for u in range(users):
        pages = r.randrange(1, q + 1)
        print('%% user')
        code = user(r, q, users, pages, u + 1)
        print('\n'.join(code))
        size = sum(1 for line in code)
        fill = 1024 * pages - size - 1 - r.randrange(0, 5)
        if r.random() < 0.6 and fill > 0:
            print('.zero %d' % fill)
            print('.word %d' % r.randrange(2**32))
    print(KERNEL.replace('USERS', str(users)), end='')


LEAST_WORDS = 2


def main(words):
    r = random.Random(int(words[0]))
    print('Random systems.')
    for k in range(int(words[1])):
        system(r, k)
    return 0
