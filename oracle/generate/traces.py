"""Cases of traces, samples and migrated images for shell_cases, with what each command prints.

usage: oracle/model write_traces CASES STDOUT [PRINTED]   as write_lines, whose rules for PRINTED hold here too

The texts are the abstract machine's. Under lines it needs the turns that took them: for `sample N` these come from PRINTED, and
the text that it then works out must be the one printed. How much of a trace stands where the steps are spent hangs on the physical machine alone, and
is taken from PRINTED after the check that it is a beginning of the whole text.
"""
from oracle.generate.lines import MESSAGES_STEPS, ONE_BEGINS
from oracle.generate.writing import (FIRST, HEAD, K1, PARAMS, RESET, ROOM, STEPS, TURNS, Writer, before_each, lines_of, main_of, model, model_lines,
                                     params, prefix, read, source_image, until)



def trace_of(kernel, users, par, turns, user, schedule=''):
    return model(kernel, users, par, schedule, turns, user)


MESSAGES = [read('messages', n) for n in ('kernel.c0', 'user1.s', 'user2.s', 'user3.s')]
SUMS = ('put 00000040 00000037\nput 00000044 000000d2\nsteps 5\ntrap 6 0000000c\nhalted\nuser 3 pages 1 pc 00000018\nreg 1 00000037\n'
        + 'reg 3 000000d2\nreg 4 00000109\n')
NINE = 'int c; int w; ' + HEAD + ' { int next; next = 1; if (cause == 5) { c = vm_get(1, 32); w = vm_get(1, 2); next = 0; } return next; }'
OVERFLOW = 'lui r1, 0x7fff\nori r1, r1, 0xffff\naddi r2, r1, 1\n'
NINE_TRACE = '''start 1 pages 1
steps 2
trap 5 20220001
halted
user 1 pages 1 pc 0000000c
reg 1 7fffffff
mem 00000000 3c017fff
mem 00000004 3421ffff
mem 00000008 20220001
'''
COPIES = ('bool b; bool c; ' + HEAD + ' { b = vm_copy(1, 4088, 2, 0, 4); c = vm_copy(1, 4088, 1, 4096, 4); return 0; }',
          ['syscall\n.zero 1021\n.word 11\n.word 12\n.word 13\n.word 14\n', 'syscall\n'])
BAD = ('int g; int w; bool s; bool t; ' + HEAD
       + ' { g = vm_get(9, 1); w = vm_word(1, 2); s = vm_set(1, 0, 5); t = vm_resize(1, 5); t = vm_resize(1, 0); t = vm_resize(1, 1); return 0; }')
EACH = ('bool b; int v; ' + HEAD + ' { int next; next = 1; if (cause == 6) { b = vm_set(1, 7, -2147483647 - 1); b = vm_set(1, 32, 12); b = vm_set(1, 33, 1); b = vm_set(2, 3, 4); '
        + 'b = vm_put(1, 60, -1); b = vm_put(1, 4096, 1); b = vm_put(2, 64, 9); b = vm_resize(1, 3); v = vm_word(1, 60); v = vm_size(1); b = con_put(v); '
        + 'b = vm_copy(1, 56, 1, 8188, 2); b = vm_copy(1, 0, 2, 0, 0); b = vm_copy(2, 60, 1, 100, 2); } if (cause == 4) { next = 2; } if (cause == 6 && user == 2) { next = 0; } return next; }')
EACH_USERS = ['ori r1, r0, 3\nsyscall\nnop\nori r2, r0, 4\nmult r1, r2\nsw r1, 8192(r0)\nlw r3, 8188(r0)\n.word 0xffffffff\n'.replace('nop', 'sll r0, r0, 0'), 'addiu r1, r0, -1\nsyscall\n']
PAGE = ('bool b; ' + HEAD + ' { int next; if (cause == 0) { b = vm_resize(1, 2); b = vm_copy(1, 0, 1, 4096, 1024); next = 1; } return next; }',
        ['ori r1, r0, 5\nsw r1, 4096(r0)\nsyscall\n'])
STREAM = ('bool b; ' + HEAD + ' { int next; int u; if (cause == 0) { u = 2; while (u < 6) { b = vm_resize(u, 3); b = vm_copy(1, 4000 + 4 * u, u, 8192 - 8 * u, 32); u = u + 1; } next = 2; } '
          + 'if (cause == 4) { b = vm_copy(2, 8176, user, 8, 6); next = 0; } return next; }')
FAULTY = ('int n; ' + HEAD + ' { int next; bool b; next = 1; if (cause == 6) { n = n + 1; b = vm_set(1, 9, n); if (n == 2) { b = vm_put(1, 16, n); n = 1 / (n - 2); } } return next; }')
SPIN, SPINNER = 'int x; ' + HEAD + ' { int next; next = 1; if (cause == 1) { x = 1 / x; } return next; }', ['loop: addiu r1, r1, 1\nj 0\n']
SPINS = 'a kernel that faults in the turn of a line'
MESSAGES_TRACE = trace_of(MESSAGES[0], MESSAGES[1:], PARAMS, TURNS, 3)
MESSAGES_FIRST = trace_of(MESSAGES[0], MESSAGES[1:], PARAMS, TURNS, 1)
# the calls are those of the boot in lines.cases
FOUR = 'bool b; ' + HEAD + ' { int next; if (cause == 0) { b = vm_resize(1, 4); next = 1; } return next; }'
PAGES = ['lw r1, 4096(r0)\nlw r2, 8192(r0)\nsw r2, 12288(r0)\nsyscall\n.zero 1020\n.word 11\n.zero 1023\n.word 12\n']
FOUR_TRACE = trace_of(FOUR, PAGES, params(frames=2), TURNS, 1)
# four pages are loaded. Page 0 of both users is read, then for page 1 of each a page is written and one read. Behind the copy the journal reads each of
# the two words on page 0 of user 2 from its sector, and so does the report
ENDS = 'bool b; ' + HEAD + ' { b = vm_copy(1, 4088, 2, 4088, 4); return 0; }', ['syscall\n.zero 1021\n.word 11\n.word 12\n.word 13\n.word 14\n', 'syscall\n.zero 1025\n']
ENDS_TRACE = trace_of(*ENDS, params(frames=2), TURNS, 2)
ENDS_START = 'start 2 pages 2\n'
# before each row of the journal but a trap, and before the end, the steps so far are put, here no bytes
PUTS_TRACED = [p for row in MESSAGES_TRACE.splitlines(True) for p in ([''] if row.startswith('put') or row == 'halted\n' else []) + [row]]
OTHER = ('int a; int b; ' + HEAD + ' { int next; next = user; if (cause == 0) { next = 2; } if (cause == 6) { if (user == 2) { next = 1; } else { next = 0; } } return next; }')
SAME = 'ori r1, r0, 7\nsw r1, 64(r0)\nlw r2, 64(r0)\nsyscall\n'
word = lambda n: ''.join('\\x%02x' % (n >> 8 * i & 255) for i in range(4))
OLD_WORDS = [0x3c017fff, 0x3421ffff, 0x20220001]


def old_image(u, q, f, h, s, source, k, users):
    return ('CVMI' + word(2) + ''.join(map(word, (u, q, f, h, s, len(source), k))) + ''.join(word(len(w)) for w in users) + source
            + '`%d \\0\\0\\0\\0`' % k + ''.join(word(w) for ws in users for w in ws))


NINE_TEXT = model(NINE, [OVERFLOW], PARAMS, '', TURNS)
PATTERN = '''int total;
int left;
bool[17] done;
int pick(int user) {
  int next; bool look;
  next = user; look = true;
  while (look) {
    next = next + 1;
    if (next > %(U)d) { next = 1; }
    if (!done[next]) { look = false; }
  }
  return next;
}
int dispatch(int cause, int data, int user) {
  int next; int u; int v; bool ok;
  if (cause == 0) {
    left = %(U)d; u = 1;
    while (u <= %(U)d) {
      ok = vm_resize(u, 16);
      if (u > 1) { ok = vm_copy(1, 0, u, 0, 1024); }
      ok = vm_set(u, 1, %(K)d + u);
      u = u + 1;
    }
    next = 1;
  }
  if (cause == 1) { next = pick(user); }
  if (cause == 6) {
    v = vm_get(user, 4);
    total = total + v;
    left = left - 1;
    done[user] = true;
    if (left > 0) { next = pick(user); }
  }
  return next;
}
'''
PROGRAM = '''ori r2, r0, 61440
fill: sw r1, 0(r2)
addiu r1, r1, 1
addiu r2, r2, -4096
bgtz r2, fill
ori r2, r0, 61440
add: lw r3, 0(r2)
addu r4, r4, r3
sw r0, 0(r2)
addiu r2, r2, -4096
bgtz r2, add
syscall
'''


def sample(number):
    users, base = 3 + number % 14, number % 1000
    return PATTERN % dict(U=users, K=base), [PROGRAM] + [''] * (users - 1), params(pages=16, frames=2 + number % 7, heap=0, stack=64)


def sampled(number):
    kernel, users, par = sample(number)
    plain = model(kernel, users, par, '', 100000)
    cut = lambda t: t[t.index('halted'):].rstrip('\n')
    return plain, lambda text: cut(text) == cut(plain) and text.rstrip('\n') == model_lines(kernel, users, par, '', 100000, lines_of(text)).rstrip('\n')


ZERO = sampled(0)[0]

NOTE = '''Traces, samples, and images made anew. Written by oracle/generate/traces.py.

As in lines.cases, two kinds of texts hang on the physical machine alone and are the program's own, checked by that script: at which turns the
lines of a sample and of a kernel that faults are taken, and how much of a trace stands printed when the steps are spent. All else is worked out
apart.'''


class Traces(Writer):
    kinds = ('boot', 'trace', 'sample')
    note = NOTE

    def traces(self, name, kernel, users, par=PARAMS, schedule='', turns=TURNS, which=None, status=0, options='sectors 64'):
        """A system of which some users are traced, or all."""
        self.begin(name, options)
        self.system(kernel, users, par, schedule)
        for u in which or range(1, len(users) + 1):
            self.run('trace img s %d %d %d' % (turns, STEPS, u), trace_of(kernel, users, par, turns, u, schedule), status)

    def failing_traces(self, name, what, lefts, kernel, users, par, user, whole, status):
        self.failing(name, what, lefts, kernel, users, par, whole, status, 'trace img s %d %d %d' % (TURNS, STEPS, user))

    def entries(self):
        """Each entry."""
        assert trace_of(MESSAGES[0], MESSAGES[1:], PARAMS, TURNS, 3).startswith('start 3 pages 1\n' + SUMS)
        assert trace_of(MESSAGES[0], MESSAGES[1:], PARAMS, TURNS, 1).startswith('start 1 pages 1\nsteps 31\ntrap 6 0000000c\nhalted\nuser 1 pages 1 pc 00000014\n')
        self.begin('traces of messages', 'sectors 64')
        self.system(MESSAGES[0], MESSAGES[1:])
        for u in (1, 2, 3):
            self.run('trace img s 1000 100000000 %d' % u, trace_of(MESSAGES[0], MESSAGES[1:], PARAMS, 1000, u))
        for turns in (1, 100, 101):
            self.run('trace img s %d 100000000 3' % turns, trace_of(MESSAGES[0], MESSAGES[1:], PARAMS, turns, 3))
        self.run('trace img s 1000 100000000 4', 'refused 96 4 3', 2)
        self.run('trace img s 1000 100000000 64', 'refused 96 64 3', 2)
        self.run('boot img s 1000 100000000', model(MESSAGES[0], MESSAGES[1:], PARAMS, '', 1000))

    def told_of_users(self):
        """What is told of a user."""
        assert trace_of(NINE, [OVERFLOW], PARAMS, TURNS, 1) == NINE_TRACE
        self.traces('a trace of an overflow', NINE, [OVERFLOW])
        assert trace_of(COPIES[0], COPIES[1], params(frames=2), TURNS, 2).startswith(
            'start 2 pages 1\nput 00000000 0000000b\nput 00000004 0000000c\nput 00000008 0000000d\nput 0000000c 0000000e\nhalted\nuser 2 pages 1 pc 00000000\n')
        self.traces('words are copied, and a copy is refused', *COPIES, par=params(frames=2))
        assert trace_of(BAD, ['syscall\n'], PARAMS, TURNS, 1) == 'start 1 pages 1\nsize 0\nsize 1\nhalted\nuser 1 pages 1 pc 00000000\n'
        self.traces('bad calls make no row', BAD, ['syscall\n'])
        self.traces('each entry', EACH, EACH_USERS, params(frames=2))
        self.traces('each entry, over many frames', EACH, EACH_USERS, params(frames=64))
        self.traces('a whole page is copied, and shares its frame', *PAGE, par=params(frames=2))
        self.traces('copies over page ends, with few frames', STREAM, ['.zero 1000\n' + ''.join('.word %d\n' % (7 * i + 1) for i in range(48)), 'lw r2, 8176(r0)\nsw r2, 0(r0)\n.word 0xffffffff\n', '', '', ''],
               params(frames=2), which=[1, 2, 3, 5])

    def faults(self):
        """Faults of kernels."""
        self.traces('a kernel that faults', FAULTY, ['ori r1, r0, 1\nsyscall\nori r1, r0, 2\nsyscall\n', 'syscall'], status=3)
        self.traces('a bad next user', HEAD + ' { int next; bool b; next = 1; if (cause == 6) { b = vm_resize(2, 2); next = 3; } return next; }',
               ['ori r1, r0, 1\nsyscall\n', ''], status=3)
        self.traces('a fault in turn 0', HEAD + ' { return 5; }', ['syscall'], status=3)

    def fault_at_a_line(self):
        """A kernel that faults where a line is taken: the steps that no trap has ended stand before the fault."""
        self.schedules(SPINS, SPIN, SPINNER)
        self.part('file l', 'line %d 0\n' % (ONE_BEGINS + 50))
        self.checked(SPINS, 0, 'boot img l %d %d' % (TURNS, STEPS), '', lambda text: text.rstrip('\n') == model_lines(SPIN, SPINNER, PARAMS, '', TURNS, lines_of(text)).rstrip('\n'), 3)
        if self.had(SPINS, 0):
            turn, _ = taken = lines_of(self.had(SPINS, 0)[1])[0]
            assert self.had(SPINS, 0)[1] == RESET + ' 1\nturn %s cause 1 data 00000001 user 1 fault DivZero' % turn and int(turn) > 2
            spun = model_lines(SPIN, SPINNER, PARAMS, '', TURNS, [taken], 1)
            assert spun == 'start 1 pages 1\nsteps %d\nfault DivZero\n' % (int(turn) - 1)
        self.run('trace img l %d %d 1' % (TURNS, STEPS), spun if self.had(SPINS, 0) else '(not printed)', 3)

    def bad_words(self):
        """Words and refusals."""
        self.begin('words that are no trace, sample or migration')
        for words in ('trace a b 1 2', 'trace a b 0 2 1', 'trace a b 1 2 0', 'trace a b 1 2 65', 'trace a b 1 2 01', 'trace a b 1 2 3 4', 'trace a b 1 18446744073709551616 1',
                      'trace a b 4294967296 1 1', 'sample', 'sample 4294967296', 'sample 00', 'sample -1', 'sample 1 2', 'migrate', 'migrate a', 'migrate a b c'):
            self.run(words, 'bad words', 1)
        self.run('trace a b 1 2 64', '', 6)
        self.run('migrate a b', '', 6)

    def no_such_users(self):
        """Users that there are not."""
        self.begin('a user that there is not comes before a disk that is too small', 'sectors 1')
        self.system(K1, ['syscall', 'syscall'])
        self.run('trace img s 1000 1000000 3', 'refused 96 3 2', 2)
        self.run('trace img s 1000 1000000 2', 'refused 90 8 1', 5)
        self.begin('a trace where there are no users')
        self.raw('file img', source_image(FIRST))
        self.part('file s')
        self.run('trace img s 1000 1000000 1', 'refused 96 1 0', 2)

    def spent_steps(self):
        """Steps that are spent, and calls that fail."""
        self.schedules('the steps of a trace are spent', MESSAGES[0], MESSAGES[1:], read('messages', 'params'))
        self.run('trace img s %d 0 3' % TURNS, 'start 3 pages 1', 4)
        self.run('trace img s %d %d 3' % (TURNS, MESSAGES_STEPS), MESSAGES_TRACE)
        for at, (u, whole, steps) in enumerate([(3, MESSAGES_TRACE, MESSAGES_STEPS - 1), (1, MESSAGES_FIRST, MESSAGES_STEPS - 1)] + [(u, w, s) for s in (3100, 4000, 6000, 8000) for u, w in ((1, MESSAGES_FIRST), (3, MESSAGES_TRACE))]):
            self.checked('the steps of a trace are spent', at + 2, 'trace img s %d %d %d' % (TURNS, steps, u), whole, prefix(whole), 4)

    def failing_disks(self):
        """Calls of the disk that fail."""
        self.failing_traces('each call of the disk fails in a trace', 'disk', [''] * 3 + ['start 1 pages 3\nsize 4\n'] * 7 + until(FOUR_TRACE, 'mem 00001000', 'mem 00002000'),
                       FOUR, PAGES, params(frames=2), 1, FOUR_TRACE, 5)
        self.begin('the sectors after a trace', 'sectors 64')
        self.system(FOUR, PAGES, params(frames=2))
        self.run('trace img s %d %d 1' % (TURNS, STEPS), FOUR_TRACE)
        self.sectors([(0, [0x8c011000, 0x8c022000, 0xac023000, 0x0000000c]), (1, [11]), (2, [12]), (3, []), (4, [])])
        assert ENDS_TRACE.startswith(ENDS_START + 'put 00000ff8 0000000b\nput 00000ffc 0000000c\nput 00001000 0000000d\nput 00001004 0000000e\nhalted\n')
        self.failing_traces('each call of the disk fails where words are copied over the end of a page', 'disk',
                       [''] * 4 + [ENDS_START] * 6 + until(ENDS_TRACE, 'put 00000ff8', 'put 00000ffc', 'mem 00000000'), *ENDS, params(frames=2), 2, ENDS_TRACE, 5)

    def failing_sinks(self):
        """A sink that fails."""
        self.failing_traces('each call of the sink fails in a trace', 'sink', before_each(PUTS_TRACED), MESSAGES[0], MESSAGES[1:], PARAMS, 3, MESSAGES_TRACE, 7)
        self.taking('a sink that takes seven bytes of a put of a trace that fails', 7, (0, 1, 2, 5, 6, 7, 9, 20), PUTS_TRACED, MESSAGES[0], MESSAGES[1:], PARAMS, 'trace img s %d %d 3' % (TURNS, STEPS))

    def isolation(self):
        """Isolation: another kernel, other users and another schedule, and the same journal of user 1."""
        first = trace_of(K1, [SAME], PARAMS, TURNS, 1)
        assert first == trace_of(OTHER, [SAME, 'ori r9, r0, 9\nsyscall\n'], PARAMS, TURNS, 1)
        self.traces('a user under one kernel', K1, [SAME])
        self.begin('the same user under another kernel, with another user, over few frames and under lines', 'sectors 64')
        self.system(OTHER, [SAME, 'ori r9, r0, 9\nsyscall\n'], params(frames=2, stack=300), 'line 1 1\nline 400 2\nbusy 1 100\n')
        self.run('trace img s %d %d 1' % (TURNS, STEPS), first)

    def images_of_form_2(self):
        """Images of form 2."""
        self.begin('an image of form 2 is made anew', 'sectors 64')
        self.raw('file old', old_image(1, 4, 8, 64, 256, NINE, 16384, [OLD_WORDS]))
        self.raw('zeros new', str(ROOM))
        self.part('file s')
        self.run('boot old s %d %d' % (TURNS, STEPS), 'refused 53 1 2', 2)
        self.run('migrate old new')
        self.run('boot new s %d %d' % (TURNS, STEPS), NINE_TEXT)
        self.run('trace new s %d %d 1' % (TURNS, STEPS), NINE_TRACE)
        self.run('migrate new old', 'refused 53 1 3', 2)
        self.begin('images of form 2 that are not made anew')
        for name, bytes_ in (('users', old_image(17, 4, 8, 64, 256, FIRST, 16384, [[]] * 17)), ('pages', old_image(0, 257, 8, 64, 256, FIRST, 16384, [])),
                             ('frames', old_image(0, 4, 1, 64, 256, FIRST, 16384, [])), ('words', old_image(0, 4, 8, 64, 256, FIRST, 16383, [])),
                             ('more', old_image(0, 4, 8, 64, 256, FIRST, 16384, []) + '\\0'), ('mark', 'CVMJ'), ('source', old_image(0, 4, 8, 64, 256, 'int x', 16384, [])),
                             ('types', old_image(0, 4, 8, 64, 256, FIRST.replace('2 - 5', 'true'), 16384, [])), ('form', source_image(FIRST)), ('cut', 'CVMI' + word(2) + word(0) + '\\0')):
            self.raw('file ' + name, bytes_)
        self.raw('zeros new', str(ROOM))
        self.run('migrate users new', 'refused 53 2 17', 2)
        self.run('migrate pages new', 'refused 53 3 257', 2)
        self.run('migrate frames new', 'refused 53 4 1', 2)
        self.run('migrate words new', 'refused 53 8 16383', 2)
        self.run('migrate more new', 'refused 52 %d' % (36 + len(FIRST) + 4 * 16384), 2)
        self.run('migrate mark new', 'refused 50', 2)
        self.run('migrate source new', 'refused 54 12 5', 2)
        self.run('migrate types new', 'refused 55 22 57 61', 2)
        self.run('migrate form new', 'refused 53 1 1', 2)
        self.run('migrate cut new', 'refused 51 12', 2)
        self.begin('the shelf fails when a migrated image is put', 'shelf 1')
        self.raw('file old', old_image(0, 4, 8, 64, 256, FIRST, 16384, []))
        self.raw('zeros new', str(ROOM))
        self.run('migrate old new', '', 6)

    def samples(self):
        """Samples."""
        assert 'halted\nglobal total 405\nglobal left 0\nuser 1 pages 16 pc 00000030\nreg 1 00000010\nreg 3 0000000f\nreg 4 00000078\n' in ZERO
        self.begin('samples', 'sectors 256\nroom 1000000')
        for at, number in enumerate((0, 1, 5, 13, 999, 4294967295)):
            plain, holds = sampled(number)
            self.checked('samples', at, 'sample %d' % number, plain, holds, 0)
        self.begin('a sample for which the disk is too small', 'sectors 47')
        self.run('sample 0', 'refused 90 48 47', 5)

    def write(self):
        self.entries()
        self.told_of_users()
        self.faults()
        self.fault_at_a_line()
        self.bad_words()
        self.no_such_users()
        self.spent_steps()
        self.failing_disks()
        self.failing_sinks()
        self.isolation()
        self.images_of_form_2()
        self.samples()


LEAST_WORDS = 2


def main(words):
    return main_of(Traces, words)
