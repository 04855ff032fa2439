"""Timers, chosen rows, the clock's rows, systems of two folders, and the permissions of what is kept."""
import os
import stat
import tempfile
import unittest
from unittest import mock

from running import clock, clock_saves, guard, mixed, only, sharing, timer
from running.folder import BadFolder


class Timers(unittest.TestCase):
    def test_rows_are_merged_in_order(self):
        made = timer.with_rows(b'line 5 1\nbusy 0 3\nline 10 2\ninput 7\nline 25 3', timer.Timer('10:4'), 30)
        self.assertEqual(made, b'line 5 1\nline 10 2\nline 10 4\nline 20 4\nline 25 3\nline 30 4\nbusy 0 3\ninput 7\n')
        self.assertEqual(timer.with_rows(b'', timer.Timer('7'), 13), b'line 7 0\n')
        self.assertEqual(timer.with_rows(b'', timer.Timer('7'), 6), b'')

    def test_a_schedule_with_a_fault_is_left_to_the_program(self):
        for data in (b'line 5\n', b'line 5 8\n', b'line 5 1\nline 4 1\n', b'busy 1 2\nbusy 1 2\n', b'input 4294967296\n', b'line 05 1\n', b'\n', b'line 5 1 \n',
                     b'line 18446744073709551616 1\n', b'busy 1 65536\n', b'input 1\n' * 4097, b'\xff\n'):
            self.assertIsNone(timer.with_rows(data, timer.Timer('10'), 30), data)
        for data in (b'line 5 1\nline 5 1\n', b'busy 0 65535\n', b'input 4294967295\n', b'input 1\n' * 4096):
            self.assertIsNotNone(timer.with_rows(data, timer.Timer('10'), 30), data)

    def test_bad_words(self):
        for word in ('', 'x', '0', '5:8', '5:', '5:x', '05', '-1', '5:1:2', '18446744073709551616'):
            with self.assertRaises(guard.Bad, msg=word):
                timer.Timer(word)
        with self.assertRaises(guard.Bad):
            timer.Timer('1').check(100000000)
        timer.Timer('100').check(100000000)


class Chosen(unittest.TestCase):
    TEXT = b'turn 0 cause 0 data 00000000 user 0 next 1\nhalted\nglobal a 1\ncon 00000048\ncon ffffffff\ncon 48454c4c\nuser 1 pages 1 pc 00000000\nreg 4 00000001\nuser 2 pages 1 pc 00000004\n'

    def test_kinds(self):
        self.assertEqual(only.chosen(self.TEXT, ['con']), b"con 00000048 72 'H'\ncon ffffffff -1\ncon 48454c4c 1212501068 'HELL'\n")
        self.assertEqual(only.chosen(self.TEXT, ['global', 'end']), b'halted\nglobal a 1\n')
        self.assertEqual(only.chosen(self.TEXT, ['user1']), b'user 1 pages 1 pc 00000000\nreg 4 00000001\n')
        self.assertEqual(only.chosen(self.TEXT, ['user']), b'user 1 pages 1 pc 00000000\nreg 4 00000001\nuser 2 pages 1 pc 00000004\n')
        self.assertEqual(only.chosen(b'refused 12 5\n', ['con']), b'refused 12 5\n')

    def test_the_console_as_a_text(self):
        self.assertEqual(only.chosen(self.TEXT, ['text', 'end']), b'halted\nH<ffffffff><48454c4c>\n')
        self.assertEqual(only.chosen(b'con 00000048\ncon 00000069\ncon 0000000a\n', ['text']), b'Hi\n')
        self.assertEqual(only.chosen(b'halted\n', ['text']), b'')

    def test_bad_words(self):
        for word, part in (('', "'' is none"), ('cno', "did you mean 'con'?"), ('con,,turn', "'' is none"), ('user0', 'is none'), ('user65', 'is none')):
            with self.assertRaises(guard.Bad) as caught:
                only.kinds_of(word)
            self.assertIn(part, str(caught.exception))


class Clock(unittest.TestCase):
    def test_steps_stand_beside_their_turns(self):
        told = b'turn 0 cause 0 data 00000000 user 0 next 1\nclock 1 154\nturn 4 cause 6 data 0000000c user 1 next 0\nclock 5 900\n'
        text = b'turn 0 cause 0 data 00000000 user 0 next 1\nturn 4 cause 6 data 0000000c user 1 next 0\nhalted\ncon 00000001\n'
        self.assertEqual(clock.beside(text, told), b'turn 0 cause 0 data 00000000 user 0 next 1 step 154\nturn 4 cause 6 data 0000000c user 1 next 0 step 900\nhalted\ncon 00000001\n')

    def test_where_the_two_differ_nothing_is_told(self):
        for told in (b'', b'turn 0 cause 0 data 00000000 user 0 next 2\nclock 1 154\n', b'turn 0 cause 0 data 00000000 user 0 next 1\n'):
            with self.assertRaises(guard.Bad) as caught:
                clock.beside(b'turn 0 cause 0 data 00000000 user 0 next 1\nhalted\n', told)
            self.assertEqual(caught.exception.status, 70)


class Saver(clock_saves.Saver):
    """One whose program has its turns complete at these steps, and is over at the last of them."""

    def __init__(self, ends, steps):
        self.ends, self.steps, self.asked = ends, steps, 0

    def saved_at(self, turns):
        return self.ends[turns - 1]

    def is_over(self, steps):
        self.asked += 1
        return steps >= self.ends[-1]


class Saves(unittest.TestCase):
    ROWS = b'turn 0 cause 0 data 00000000 user 0 next 1\nturn 2 cause 6 data 0000000c user 1 next %s\n%s\nuser 1 pages 1 pc 00000000\n'

    def told(self, saver, next, end):
        with mock.patch.object(clock_saves, 'Saver', lambda *given: saver):
            return clock_saves.told([], None, 10, saver.steps, self.ROWS % (next, end))

    def test_the_last_step_is_the_least_with_which_the_run_ends(self):
        for last in (101, 102, 103, 104, 120, 4096, 99999, 100000):
            saver = Saver([100, 101, last], 100000)
            self.assertEqual(clock.steps_of(self.told(saver, b'0', b'halted'))[1], [100, last])
            self.assertLess(saver.asked, 40)

    def test_a_run_that_stopped_is_saved_at_each_row(self):
        self.assertEqual(clock.steps_of(self.told(Saver([100, 101, 500], 1000), b'1', b'stopped'))[1], [100, 500])

    def test_a_run_that_is_not_over_again(self):
        with self.assertRaises(guard.Bad):
            self.told(Saver([100, 101, 2000], 1000), b'0', b'halted')


class Mixed(unittest.TestCase):
    def setUp(self):
        room = tempfile.TemporaryDirectory()
        self.addCleanup(room.cleanup)
        self.room = room.name
        for name in ('teacher/kernel.c0', 'teacher/params', 'teacher/schedule', 'teacher/user1.s', 'teacher/user2.s', 'ada/kernel.c0', 'ada/params', 'ada/user2.c0', 'bob/Kernel.c0'):
            path = os.path.join(self.room, name)
            os.makedirs(os.path.dirname(path), exist_ok=True)
            open(path, 'wb').close()

    def mixed(self, who, *names):
        return mixed.Mixed(os.path.join(self.room, who), os.path.join(self.room, 'teacher'), names)

    def test_the_kernel_is_the_student_s_and_all_else_the_teacher_s(self):
        made = self.mixed('ada', 'kernel.c0')
        named = [os.path.relpath(name, self.room) for name in (made.kernel, made.params, made.schedule, *made.users)]
        self.assertEqual(named, ['ada/kernel.c0', 'teacher/params', 'teacher/schedule', 'teacher/user1.s', 'teacher/user2.s'])
        made = self.mixed('ada', 'user2.c0', 'params')
        named = [os.path.relpath(name, self.room) for name in (made.kernel, made.params, *made.users)]
        self.assertEqual(named, ['teacher/kernel.c0', 'ada/params', 'teacher/user1.s', 'ada/user2.c0'])

    def test_what_is_missing_is_named(self):
        for who, names, part in (('bob', ['kernel.c0'], "Kernel.c0' is there"), ('ada', ['user1.s'], "there is no file"), ('nobody', ['kernel.c0'], 'there is no file')):
            with self.assertRaises(BadFolder) as caught:
                self.mixed(who, *names)
            self.assertIn(part, str(caught.exception))
        os.rename(os.path.join(self.room, 'ada/user2.c0'), os.path.join(self.room, 'ada/user4.c0'))
        with self.assertRaises(BadFolder) as caught:
            self.mixed('ada', 'user4.c0')
        self.assertIn('there is no user 3', str(caught.exception))

    def test_a_pipe_is_no_file_of_a_system(self):
        os.remove(os.path.join(self.room, 'ada/kernel.c0'))
        os.mkfifo(os.path.join(self.room, 'ada/kernel.c0'))
        with self.assertRaises(BadFolder) as caught:
            self.mixed('ada', 'kernel.c0')
        self.assertIn('is a pipe', str(caught.exception))

    def test_names_that_can_be_taken(self):
        self.assertEqual(mixed.names_of('kernel.c0,user12.s'), ['kernel.c0', 'user12.s'])
        for word in ('', 'kernel', 'kernel.c0,', 'user0.s', 'user65.s', '../kernel.c0', 'user1.s,/etc/passwd'):
            with self.assertRaises(guard.Bad):
                mixed.names_of(word)


class Sharing(unittest.TestCase):
    def test_what_is_kept_can_be_used_by_all_who_may_read_the_clone(self):
        with tempfile.TemporaryDirectory() as room:
            os.chmod(room, 0o755)
            kept = os.path.join(room, 'out', 'tried')
            os.makedirs(os.path.join(kept, 'sum'))
            for name, mode in (('program', 0o700), ('start', 0o600)):
                path = os.path.join(kept, 'sum', name)
                open(path, 'wb').close()
                os.chmod(path, mode)
            for path in (os.path.join(room, 'out'), kept, os.path.join(kept, 'sum')):
                os.chmod(path, 0o700)
            sharing.open_to_readers(kept, room)
            modes = [stat.S_IMODE(os.stat(os.path.join(room, name)).st_mode) for name in ('out', 'out/tried', 'out/tried/sum', 'out/tried/sum/program', 'out/tried/sum/start')]
            self.assertEqual(modes, [0o755, 0o755, 0o755, 0o755, 0o644])
            os.chmod(room, 0o700)
            os.chmod(kept, 0o700)
            sharing.open_to_readers(kept, room)
            self.assertEqual(stat.S_IMODE(os.stat(kept).st_mode), 0o700)
            os.chmod(room, 0o755)
