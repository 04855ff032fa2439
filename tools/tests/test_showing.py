"""Looking into a run: rows with source lines, what changes, lines that are reached, and what is said of faults and of too few steps."""
import io
import os
import tempfile
import unittest
from unittest import mock

from explain import files, pages
from running import folder, program
from running.guard import Bad
from showing import listing, looking, made, spent, unasked, wanted
from oracle import run as running
from oracle.assembler import assemble
from oracle.c0.said import code_case
from oracle.c0.tree import Parser
from oracle.replay import Differs, Given, User

PARAMS = 'pages 2\nframes 4\nheap 64\nstack 64\n'
FAULTY = '''int[4] queue;
int tail;

int put(int user) {
  queue[tail] = user;
  tail = tail + 1;
  return tail;
}

int dispatch(int cause, int data, int user) {
  int place;
  bool ok;
  if (cause == 6) {
    place = put(user);
    ok = vm_set(user, 40, place);
  }
  return 1;
}
'''
ASKS = 'ori r1, r0, 5\nloop: syscall 2   # asks\naddiu r1, r1, -1\nbne r1, r0, loop\nsw r1, 64(r0)\nstay: j stay\n'


def given_of(kernel, users, turns=100000, lines=(), cut=None, schedule=''):
    """What a run is made of, where the model stands in for the program; `cut` leaves so many rows of the text."""
    words = [assemble(text) for text in users]
    printed = '\n'.join(running.boot_rows(running.System(Parser(kernel), words, PARAMS, schedule), turns, dict(lines))[:cut]) + '\n'
    return Given(kernel, [User('user%d.s' % n, text, w) for n, (text, w) in enumerate(zip(users, words), 1)], PARAMS, schedule, printed)


def shown(given, *words, turns=100000):
    """The rows that are shown."""
    asked, left, out = wanted.Wanted(), list(words), io.BytesIO()
    while left:
        asked.take(left.pop(0), left)
    with mock.patch.object(program, 'write', out.write):
        looking.show(given, asked, looking.turns_made(given, turns))
    return out.getvalue().decode().split('\n')


COPIES = '''int dispatch(int cause, int data, int user) {
  bool ok;
  if (cause == 0) { ok = vm_resize(2, 1); ok = vm_copy(1, 0, 2, 0, 1024); }
  if (cause == 6) { ok = vm_resize(user, 0); }
  return 2;
}
'''


class Copies(unittest.TestCase):
    def test_a_user_that_was_linked_of_no_words_has_the_lines_of_the_program_that_it_runs(self):
        rows = shown(given_of(COPIES, [ASKS, '# a place'], turns=5), '--show', '1..3', '--user', '2')
        self.assertEqual([row.split('  ')[3] for row in rows if ' user 2  ' in row], ['user1.s:1', 'user1.s:2', 'user2.s'])

    def test_it_is_stopped_at_by_the_lines_of_that_program(self):
        given = given_of(COPIES, [ASKS, '# a place'], turns=5)
        rows = shown(given, '--break', 'user1.s:2', turns=4)
        self.assertEqual([row for row in rows if 'reached' in row], ['turn 2  user1.s:2 is reached by user 2: loop: syscall 2   # asks'])
        self.assertIn('  user 2: 1 pages, pc 00000004, user1.s:2, r1 = 5', rows)
        self.assertEqual(' '.join(shown(given, '--watch', 'user2.r1', turns=4)[0].split()), 'turn 1 user1.s:1 user2.r1: 0 -> 5 ori r1, r0, 5')


class Rows(unittest.TestCase):
    def test_steps_and_statements(self):
        rows = shown(given_of(FAULTY, [ASKS]), '--show', '3..5')
        self.assertEqual([' '.join(row.split()) for row in rows], [
            'turn 3 user 1 00000008 user1.s:3 addiu r1, r1, -1 r1 = 4 (was 5)', 'turn 4 user 1 0000000c user1.s:4 bne r1, r0, loop taken',
            'turn 5 user 1 00000004 user1.s:2 syscall 2 traps', 'turn 5 dispatch(6, 140, 1) syscall 2 of user 1',
            'kernel.c0:10 dispatch(cause = 6, data = 140, user = 1)', 'kernel.c0:13 if (cause == 6) true', 'kernel.c0:4 put(user = 1)',
            'kernel.c0:5 queue[tail] = user; queue[1] = 1 (was 0)', 'kernel.c0:6 tail = tail + 1; tail = 2 (was 1)', 'kernel.c0:7 return tail; put is 2',
            'kernel.c0:14 place = put(user); place = 2 (was 0)',
            'kernel.c0:15 ok = vm_set(user, 40, place); vm_set(1, 40, 2) is false: register 40 is none of 1 to 31, nor 32 for the pc; ok = false',
            'kernel.c0:17 return 1; dispatch is 1', 'next 1', ''])

    def test_narrowed(self):
        given = given_of(FAULTY, [ASKS])
        self.assertFalse(any('user1.s' in row for row in shown(given, '--show', '0..5', '--kernel')))
        self.assertEqual([row.split()[1] for row in shown(given, '--show', '0..5', '--user', '1') if row], ['1', '2', '3', '4', '5'])

    def test_what_changes(self):
        rows = shown(given_of(FAULTY, [ASKS]), '--watch', 'tail', '--watch', 'queue[1]', '--watch', 'user1.r1', '--watch', 'user1.pc')
        rows = [' '.join(row.split()) for row in rows if '.pc' not in row]
        self.assertEqual(rows[:5], ['turn 1 user1.s:1 user1.r1: 0 -> 5 ori r1, r0, 5', 'turn 2 kernel.c0:6 tail: 0 -> 1 tail = tail + 1;',
                                    'turn 3 user1.s:3 user1.r1: 5 -> 4 addiu r1, r1, -1', 'turn 5 kernel.c0:5 queue[1]: 0 -> 1 queue[tail] = user;',
                                    'turn 5 kernel.c0:6 tail: 1 -> 2 tail = tail + 1;'])

    def test_a_call_s_answer_changes_at_the_call(self):
        rows = shown(given_of('int n; int f() { return 7; } int dispatch(int a, int b, int c) {\n n = f();\n return 0; }', []), '--watch', 'n')
        self.assertEqual(rows[0].split()[2:6], ['kernel.c0:2', 'n:', '0', '->'])

    def test_the_part_of_a_test_that_decided(self):
        source = 'int n; int dispatch(int a, int b, int c) {\n if (a == 0 && b == 0 && n == 3 && 1 / n == 1) { n = 1; }\n if (n == 5 || b == 0 || 1 / n == 1) { n = 2; }\n'
        source += ' if (a == 0 && b == 0) { n = 4; }\n if (a == 1 || b == 1) { n = 5; }\n return 0; }'
        answers = [row.partition(')  ')[2].strip() for row in shown(given_of(source, []), '--show') if ' if (' in row]
        self.assertEqual(answers, ['false, as `n == 3` is', 'true, as `b == 0` is', 'true', 'false'])

    def test_lines_that_are_reached(self):
        rows = shown(given_of(FAULTY, [ASKS]), '--break', 'kernel.c0:6')
        self.assertEqual(rows[:5], ['turn 2  kernel.c0:6 is reached: tail = tail + 1;',
                                    '  dispatch, at kernel.c0:14: cause = 6, data = 140, user = 1, place = 0, ok = false', '  put, at kernel.c0:6: user = 1',
                                    '  queue = {1, 0, 0, 0}, tail = 0', '  user 1: 1 pages, pc 00000008, user1.s:3, r1 = 5'])
        self.assertEqual(shown(given_of(FAULTY, [ASKS]), '--break', 'user1.s:3')[0], 'turn 3  user1.s:3 is reached: addiu r1, r1, -1')

    def test_bad_words(self):
        given = given_of(FAULTY, [ASKS])
        for words, part in ((['--watch', 'tial'], "no global 'tial'"), (['--watch', 'queue[4]'], "no part '[4]'"), (['--watch', 'user2.r1'], 'there is 1 user'),
                            (['--watch', 'user1.r32'], 'r1 to r31'), (['--watch', 'user1.mem[2]'], 'multiple of 4'), (['--watch', 'user1.mem[4096000]'], 'no user has a word past'), (['--break', 'kernel.c0:2'], 'nearest that is run is 5'),
                            (['--break', 'user1.s:99'], 'nothing is run'), (['--break', 'k:1'], 'one of the sources: kernel.c0, user1.s'), (['--break', '12'], 'FILE:LINE'),
                            (['--show', '5..2'], 'ends before it begins'), (['--show', '..2'], 'a turn stands on either side'), (['--user', '2', '--show'], 'there is 1 user'), (['--watch', 'queue[9]'], 'its parts are [0] to [3]'),
                            (['--watch', 'user1.mem[64'], 'of a user it is user1.r4'), (['--watch', 'user1.r1x'], 'of a user it is user1.r4'), (['--watch', 'tail.x'], 'it is one word')):
            with self.assertRaises(Bad) as caught:
                shown(given, *words)
            self.assertIn(part, str(caught.exception))

    def test_a_row_that_is_another_is_told(self):
        given = given_of(FAULTY, [ASKS])
        given.printed.by_turn[2] = given.printed.by_turn[2].replace('next 1', 'next 0')
        with self.assertRaises(Differs):
            shown(given, '--show')

    def test_examples_agree_with_what_is_printed(self):
        for name in ('adder', 'faults', 'mailbox', 'messages', 'sharing', 'round_robin'):
            text = lambda part: files.content(os.path.join(pages.TOP, 'examples', name, part)).decode()
            users = sorted(part for part in os.listdir(os.path.join(pages.TOP, 'examples', name)) if part.startswith('user'))
            given = Given(text('kernel.c0'), [User(part, text(part), assemble(text(part))) for part in users], text('params'), text('schedule'), text('printed'))
            self.assertGreater(len(shown(given, '--show')), 20)


class Unasked(unittest.TestCase):
    def test_a_fault_of_the_kernel(self):
        said = unasked.kernel_fault(given_of(FAULTY, [ASKS]))
        self.assertIn('fault Bounds in turn 14: `queue[tail]`: the index, tail, is 4, and the length is 4.', said)
        self.assertIn('called: dispatch(cause = 6, data = 140, user = 1) at line 14, put(user = 1) at line 5', said)
        self.assertEqual(said[0], 'kernel.c0:5:3')
        self.assertEqual(said[-1], '  queue = {1, 1, 1, 1}, tail = 4')

    def test_each_kind_of_fault(self):
        head = 'struct s { int a; }; struct s* p; int n; int f(int a) { int r; r = f(a + 1); return r; } int dispatch(int cause, int data, int user) { '
        for body, part in (('n = p->a; return 0; }', '`p->a`: p is null.'), ('n = 7 / n; return 0; }', '`7 / n`: the divisor, n, is 0.'),
                           ('n = f(1); return 0; }', 'the frame of f has 5 words, and 61 of the 64 of the stack are used.'), ('return 3; }', 'dispatch answers 3, and users are 1 to 1.')):
            self.assertTrue(any(part in line for line in unasked.kernel_fault(given_of(head + body, ['syscall']))), body)

    def test_loops_polls_and_numbers(self):
        spins = 'int n; int dispatch(int cause, int data, int user) { if (cause == 6) {\n while (n < 5) { n = n % 3 + 1; } } return 1; }'
        self.assertIn('kernel.c0:2: the kernel, called in turn 2, has not come back after 1000 statements and tests: `while (n < 5)` goes round',
                      spent.lines(given_of(spins, [ASKS], turns=2, cut=1), 100, 1000)[0])
        self.assertEqual(spent.lines(given_of(spins, [ASKS], turns=2, cut=1), 100, 1000)[1], 'of 100 turns 1 were complete; what was left of the 1000 steps went into this call.')
        polls = 'int n; int dispatch(int cause, int data, int user) { n = n + 1; return 1; }'
        said = spent.lines(given_of(polls, ['again: syscall 3\nj again\n'], turns=60, cut=25), 100000, 9000)
        self.assertEqual((len(said), 'user1.s:1: `again: syscall 3` of user 1 traps at the same pc again and again' in said[0]), (2, True))
        said = spent.lines(given_of(polls, [ASKS], turns=9, cut=3), 100000, 9000)
        self.assertEqual((len(said), 'steps a turn' in said[0], '--steps ' in said[1]), (2, True, True))


class Listings(unittest.TestCase):
    def test_each_word_has_its_line(self):
        source, rows = pages.page('COMPILER.md').split('```')[1].strip('\n'), []
        words = [int(row.split()[1], 16) for row in code_case(source)]
        made_listing = listing.Listing(rows.append)
        made_listing.code('kernel.c0', source, words, 'the code of a kernel')
        self.assertEqual(([' '.join(row.split()) for row in rows[11:20]], made_listing.unfit), ([
            '00010020 0800080d j 2061 -> fault StackOut', 'kernel.c0:2 x = x + 1;', '00010024 8f880000 lw r8, 0(r28)', '00010028 25080001 addiu r8, r8, 1',
            '0001002c af880000 sw r8, 0(r28)', 'kernel.c0:2 int dispatch(int cause, int data, int user) { x = x + 1; return 0; } (return)',
            '00010030 34020000 ori r2, r0, 0', 'kernel.c0:2 int dispatch(int cause, int data, int user) { x = x + 1; return 0; } (end of dispatch)',
            '00010034 03e00008 jr r31'], []))
        self.assertIn('341f2038  ori r31, r0, 8248', rows[6])

    def test_words_that_do_not_fit_are_told(self):
        rows, source = [], pages.page('COMPILER.md').split('```')[1].strip('\n')
        made_listing = listing.Listing(rows.append)
        made_listing.code('kernel.c0', source, [0] * 48, 'the code of a kernel')
        made_listing.text('user1.s', 'syscall\n.zero 3\n', [12, 0, 0, 1])
        self.assertEqual((len(made_listing.unfit), sum('.word' in row or 'sll r0' in row for row in rows)), (2, 51))

    def test_words_of_users(self):
        rows = []
        listing.Listing(rows.append).text('user1.s', 'a: syscall # x\n.zero 3\nj a\n', [12, 0, 0, 0, 2 << 26])
        self.assertEqual([' '.join(row.split()) for row in rows[1:]], [
            'user1.s:1 a: syscall # x', '00000000 0000000c syscall', 'user1.s:2 .zero 3', '00000004 00000000 sll r0, r0, 0', '.. and so on, 3 words in all',
            'user1.s:3 j a', '00000010 08000000 j 0 -> 00000000'])


ENDLESS = FAULTY.replace('  return 1;', '  while (tail == 3) { ok = true; }\n  return 1;')


class Program(unittest.TestCase):
    def setUp(self):
        room = tempfile.TemporaryDirectory()
        self.addCleanup(room.cleanup)
        self.room = room.name

    def put(self, kernel):
        """The files of a system whose user is linked, and its run, which the model makes in place of the program."""
        for name, text in (('kernel.c0', kernel), ('params', PARAMS), ('schedule', ''), ('user1.s', ASKS)):
            with open(os.path.join(self.room, name), 'w', encoding='utf-8') as file:
                file.write(text)
        with open(os.path.join(self.room, 'user1.img'), 'wb') as file:
            file.write(b''.join(word.to_bytes(4, 'little') for word in assemble(ASKS)))
        return mock.Mock(image=lambda name: os.path.join(self.room, 'user1.img'), schedule=os.path.join(self.room, 'schedule'),
                         made=lambda name: os.path.join(self.room, name), boot=mock.Mock(side_effect=self.boot))

    def boot(self, turns, steps):
        """What the program prints of the endless kernel, which is called for good in turn 8, and its status."""
        rows = running.boot_rows(running.System(Parser(ENDLESS), [assemble(ASKS)], PARAMS, ''), min(turns, 8), {})
        with open(os.path.join(self.room, 'boot'), 'w', encoding='utf-8') as file:
            file.write('\n'.join(rows if turns <= 8 else rows[:3]) + '\n')
        return 0 if turns <= 8 else 4

    def looked(self, run, *words, turns=100000):
        """The rows that are shown of a run, what is said of it, and the status."""
        options, left, rows, said = mock.Mock(looking=wanted.Wanted(), turns=turns, steps=30000, trace=None), list(words), io.BytesIO(), []
        while left:
            options.looking.take(left.pop(0), left)
        with mock.patch.object(program, 'write', rows.write), mock.patch.object(looking, 'say', said.append), mock.patch.object(unasked, 'say', said.extend):
            status = looking.look(run, folder.Folder(self.room), options)
        return rows.getvalue().decode().split('\n'), said, status

    def test_bad_names_are_told_before_the_run(self):
        run = self.put(FAULTY)
        for words in (['--watch', 'tial'], ['--break', 'kernel.c0:2'], ['--show', '--user', '2']):
            with self.assertRaises(Bad):
                self.looked(run, *words)
        run.boot.assert_not_called()

    def test_a_run_is_made_no_further_than_it_is_looked_into(self):
        for words, first, last in ((['--show', '0..5'], 'turn 0  dispatch(0, 0, 0)', '  next 1'), (['--watch', 'tail', '--show', '0..7'], 'turn 2 ', 'turn 5 '),
                                   (['--break', 'kernel.c0:14', '--show', '3..6'], 'turn 5 ', '  user 1: 1 pages')):
            run = self.put(ENDLESS)
            rows, said, status = self.looked(run, *words)
            run.boot.assert_called_once_with(int(words[-1].split('..')[1]) + 1, 30000)
            self.assertTrue(rows[0].startswith(first) and rows[-2].startswith(last), (words, rows))
            self.assertEqual((said, status), ([], 0), words)
        for words in (['--show', '5..40'], ['--show'], ['--watch', 'tail']):
            run = self.put(ENDLESS)
            rows, said, status = self.looked(run, *words)
            run.boot.assert_called_once_with(41 if '5..40' in words else 100000, 30000)
            self.assertEqual(status, 4)
            self.assertIn('has not come back', said[0])
        self.assertEqual(self.looked(self.put(ENDLESS), '--show', '4..5', turns=6)[0][-2], 'stopped')
        self.assertIn('turns 0 to 5 alone that a row tells of', self.looked(self.put(ENDLESS), '--show', '6..40')[1][-1])

    def test_words_of_a_user_that_are_others_are_told(self):
        with tempfile.TemporaryDirectory() as room:
            path = os.path.join(room, 'user1.s')
            with open(path, 'w', encoding='utf-8') as file:
                file.write('syscall\n')
            with open(os.path.join(room, 'user1.img'), 'wb') as file:
                file.write(bytes(4))
            run = mock.Mock(image=lambda name: os.path.join(room, 'user1.img'))
            with self.assertRaises(Differs):
                made.user_of(run, path)
