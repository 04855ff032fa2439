"""The flat machine, primitives, runs of systems, journals, programs, saved files, and runs that are made again."""
import contextlib
import io
import os
import random
import tempfile
import unittest

from oracle import journals, names, printed, programs, replay, run, saved
from oracle.assembler import assemble, line_numbers
from oracle.c0.tree import Parser
from oracle.disassembler import instruction
from oracle.flat import Flat
from oracle.kernel import Kernel
from oracle.words import of_bytes, little, signed

TOP = os.path.join(os.path.dirname(os.path.abspath(__file__)), '..', '..')
EXAMPLES = os.path.join(TOP, 'examples')
NOTHING = 'int dispatch(int cause, int data, int user) { return 0; }'


def users_of(name):
    return sorted(file for file in os.listdir(os.path.join(EXAMPLES, name)) if file.startswith('user'))


class Machine(unittest.TestCase):
    def test_words(self):
        self.assertEqual((signed(2**32 - 1), signed(-2**31 - 1), of_bytes(little([1, -1]))), (-1, 2**31 - 1, [1, 2**32 - 1]))

    def test_words_and_texts(self):
        source = random.Random(5)
        for _ in range(5000):
            word = source.getrandbits(32) & source.choice([0xffffffff, 0x03ffffff, 0xfc00ffff])
            self.assertEqual(assemble(instruction(word)), [word])

    def test_only_instructions_are_run(self):
        """A word whose text is .word traps as none, and so does one on special registers; no other does."""
        source = random.Random(6)
        for _ in range(5000):
            word = source.getrandbits(32) & source.choice([0xffffffff, 0x03ffffff])
            illegal = instruction(word).startswith(('.word', 'mfc0', 'mtc0', 'eret'))
            self.assertEqual(Flat([word]).step() == (4, word), illegal, instruction(word))

    def test_lines_of_words(self):
        self.assertEqual(line_numbers('a: b:\n\nori r1, r0, 1 # x\n.zero 2\nj a'), [3, 4, 4, 5])

    def test_refused_primitives_say_why(self):
        kernel = Kernel(Parser(NOTHING), 0, 64, [Flat(assemble('syscall'))], 2, [7])
        for name, args, answer, why in (('vm_get', (2, 1), -1, 'no user 2'), ('vm_set', (1, 33, 0), False, 'register 33'), ('vm_resize', (1, 3), False, "'pages'"),
                                        ('vm_word', (1, 2), -1, 'no multiple of 4'), ('vm_put', (1, 4096, 1), False, 'past the 1 pages'), ('vm_word', (1, -4), -1, 'negative'),
                                        ('vm_copy', (1, 0, 1, 4, 2), False, 'share a word'), ('vm_copy', (1, 0, 1, 4, -1), False, 'negative')):
            self.assertEqual(kernel.primitive(name, args), answer)
            self.assertIn(why, kernel.refusal)
        self.assertEqual([kernel.primitive(*call) for call in (('con_left', ()), ('con_get', ()), ('con_get', ()), ('con_put', (-1,)), ('vm_copy', (1, 0, 1, 4, 1)))],
                         [1, 7, 0, True, True])
        self.assertEqual((kernel.refusal, kernel.log, kernel.users[0].m[:2], kernel.notes), (None, [2**32 - 1], [12, 12], {1: ['put 00000004 0000000c']}))


class Systems(unittest.TestCase):
    def test_examples(self):
        for name in ('adder', 'faults', 'mailbox', 'messages', 'sharing'):
            folder = os.path.join(EXAMPLES, name)
            self.assertEqual(run.text(run.of_folder(folder), 100000, {}), run.read(folder, 'printed'))
            for number in range(1, len(users_of(name)) + 1):
                trace = run.read(folder, 'trace%d' % number)
                self.assertEqual(run.text(run.of_folder(folder), 100000, {}, number), trace)
                rows = trace.rstrip('\n').split('\n')
                end = next(at for at, row in enumerate(rows) if row == 'halted')
                flat = journals.replayed(run.of_folder(folder).words[number - 1], rows[1:end])
                self.assertEqual(run.user_rows(number, flat), rows[end + 1:])

    def test_programs(self):
        folder = os.path.join(EXAMPLES, 'services')
        given = [run.read(folder, name) for name in users_of('services')]
        self.assertEqual(programs.told(run.read(folder, 'printed')), programs.tells(run.read(folder, 'kernel.c0'), given, run.read(folder, 'params')))

    def test_saved_files(self):
        self.assertEqual(saved.answer(saved.spelled(saved.image()), 60).split(',')[0], '%d words' % (56 + 1024 + saved.MEMORY))
        self.assertEqual(saved.answer(saved.spelled(saved.image())[:-1], 60)[:11], 'refused 101')

    def test_printed_rows(self):
        text = printed.Printed('turn 0 cause 0 data 00000000 user 0 next 1\nturn 9 cause 1 data 00000005 user 1 next 0\nhalted\nglobal x 1\n')
        self.assertEqual((text.last, text.lines, text.end, text.report), (9, {9: 5}, 'halted', ['global x 1']))


class Again(unittest.TestCase):
    def given(self, kernel, users, par='pages 4\nframes 4\nheap 64\nstack 64\n'):
        words = [assemble(user) for user in users]
        text = '\n'.join(run.boot_rows(run.System(Parser(kernel), words, par, ''), 1000, {}))
        return replay.Given(kernel, [replay.User('user%d.s' % n, user, w) for n, (user, w) in enumerate(zip(users, words), 1)], par, '', text)

    def test_events_lead_to_the_state(self):
        """What the events say of registers, memory words and globals is what stands there in the end."""
        folder = os.path.join(EXAMPLES, 'mailbox')
        given = self.given(run.read(folder, 'kernel.c0'), [run.read(folder, name) for name in users_of('mailbox')], run.read(folder, 'params'))
        made, registers, words = replay.Replay(given), {}, {}
        while made.end is None:
            for event in made.next_turn():
                if event.kind == 'step':
                    registers.update({(event.user, name): new for name, _, new in event.changes})
                elif event.kind == 'primitive' and event.name == 'vm_set' and event.answer == 'true':
                    registers[event.args[0], 'r%d' % event.args[1]] = event.args[2] & 0xffffffff
                elif event.kind == 'stored' and event.location[0] == 'g':
                    words[event.location[1]] = event.value
        made.check_report()
        for (user, name), value in registers.items():
            self.assertEqual(made.users[user - 1].r[int(name[1:])], value)
        self.assertTrue(words and registers)
        for at, value in words.items():
            self.assertEqual(made.kernel.globals[at], value)

    def test_the_report_is_compared(self):
        given = self.given('int x; ' + NOTHING.replace('return', 'x = 3; return'), ['syscall'])
        given.printed.report[0] = 'global x 4'
        made = replay.Replay(given)
        made.quietly(10)
        with self.assertRaises(replay.Differs):
            made.check_report()

    def test_programs_that_have_ended_may_get_an_answer(self):
        """A kernel that answers each trap of a program by register 2, its end too, doesn't change it; one that sets register 3 does."""
        for register, changed in ((2, set()), (3, {1})):
            kernel = """int dispatch(int cause, int data, int user) { int next; bool ok; next = 1; if (cause == 6) { ok = vm_set(user, %d, 7); if (data == 76) { next = 0; } }
                     return next; }""" % register
            given = self.given(kernel, ['syscall 0\nsyscall 1'])
            given.users[0].kind = 'c0'
            made = replay.ReplayedRun(given)
            while made.end is None:
                made.go()
            self.assertEqual((made.changed, made.over), (changed, {1}))

    def test_causes_in_words(self):
        users = [Flat([])]
        for call, words in ((run.Call(1, 1, 9, 1), 'lines 0 and 3'), (run.Call(1, 6, 140, 1), 'syscall 2 of user 1'), (run.Call(1, 8, 20484, 2), 'page 5 (address 20484)'),
                            (run.Call(1, 5, 0x20220001, 1), 'addi r2, r1, 1')):
            self.assertIn(words, replay.why_called(call, users))


class Writers(unittest.TestCase):
    def test_cases_are_as_stored(self):
        crate = os.path.join(TOP, 'crates', 'shell_cases')
        with tempfile.TemporaryDirectory() as room:
            for name in ('rows', 'lines', 'traces', 'examples', 'checks', 'exercises', 'roms', 'saves', 'programs'):
                cases, told = os.path.join(room, 'cases'), os.path.join(room, 'told')
                self.assertEqual(names.main(['write_' + name, cases, told, os.path.join(crate, 'stdout')]), 0)
                self.assertEqual(run.read(cases), run.read(crate, 'data', name + '.cases'))
                self.assertIn(run.read(told), run.read(crate, 'stdout'))
            self.assertEqual(names.main(['write_saved_runs', room]), 0)
            for part in (('stdout',), ('data', 'messages.cases')):
                self.assertEqual(run.read(room, *part), run.read(TOP, 'crates', 'saved_runs', *part))

    def test_bad_words(self):
        for words, status in (([], 64), (['no'], 64), (['boot', 'x'], 64), (['c0', 'none'], 70), (['write_systems', 'x', '1'], 70)):
            said = io.StringIO()
            with contextlib.redirect_stderr(said), contextlib.redirect_stdout(io.StringIO()):
                self.assertEqual(names.main(words), status)
            self.assertTrue(said.getvalue().startswith('oracle/model: '))
