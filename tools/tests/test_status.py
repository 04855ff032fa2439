"""What is said of each status: which file, where, what to do."""
import os
import tempfile
import unittest

from explain import status


class Status(unittest.TestCase):
    def setUp(self):
        self.room = tempfile.TemporaryDirectory()
        self.addCleanup(self.room.cleanup)

    def put(self, name, data):
        path = os.path.join(self.room.name, name)
        with open(path, 'wb') as file:
            file.write(data)
        return path

    def said(self, number, words, row):
        return '\n'.join(status.explain(number, words, [row] if row else []))

    def test_a_source(self):
        name = self.put('k.c0', b'int x;\nint f() {\n  x = zz;\n  return 0;\n}\n')
        said = self.said(2, ['compile', 'kernel', name, 'o'], 'refused 20 23 25')
        self.assertIn(name + ':3:7\n      x = zz;\n          ^~', said)
        self.assertIn('refusal 20 with 23 25, unknown name', said)
        self.assertIn('What to do: declare it', said)

    def test_a_line_of_an_asm_text(self):
        name = self.put('k.c0', b'int f() asm {\n  addu r2, r4, r5\n  lw r2, 0(r4)\n}\n')
        self.assertIn(name + ':3:3\n      lw r2, 0(r4)\n      ^~~~', self.said(2, ['compile', 'kernel', name, 'o'], 'refused 32 12 45 3'))

    def test_a_habit_in_a_line_of_an_asm_text(self):
        name = self.put('k.c0', b'int f(int a) asm {\n  move r2, r4\n}\n')
        self.assertIn("'addu rD, rS, r0' copies", self.said(2, ['compile', 'kernel', name, 'o'], 'refused 32 17 35 2'))

    def test_a_program_is_told_of_trap(self):
        name = self.put('u.c0', b'int main() { int x; x = vm_get(1, 2); return x; }')
        self.assertIn("a user program has 'trap' alone", self.said(2, ['compile', 'program', name, 'o'], 'refused 20 24 30'))
        self.assertNotIn("'trap' alone", self.said(2, ['compile', 'kernel', name, 'o'], 'refused 20 24 30'))

    def test_no_dispatch_has_no_mark(self):
        name = self.put('k.c0', b'int x;\n')
        self.assertIn(name + ': the whole source\n', self.said(2, ['compile', 'kernel', name, 'o'], 'refused 31 0 7'))

    def test_a_user_text(self):
        name = self.put('u.s', b'a: addu r1, r2, r0\n   move r1, r2 # copy\n')
        said = self.said(2, ['compile', 'user', name, 'o'], 'refused 2 2')
        self.assertIn(name + ':2:4\n', said)
        self.assertIn("'addu rD, rS, r0' copies", said)

    def test_a_byte_that_is_no_text(self):
        name = self.put('u.s', b'syscall # \xff\n')
        self.assertIn(name + ':1:11\n', self.said(2, ['compile', 'user', name, 'o'], 'refused 1 10'))

    def test_cr_in_parameters(self):
        name = self.put('params', b'pages 1\r\nframes 2\r\n')
        self.assertIn('ends in CR LF', self.said(2, ['link', 'o', name, 'out'], 'refused 66 1'))

    def test_cr_in_a_schedule(self):
        name = self.put('schedule', b'line 5 1\r\n')
        said = self.said(2, ['boot', 'img', name, '1', '1'], 'refused 70 1')
        self.assertIn(name + ':1:1\n', said)
        self.assertIn('ends in CR LF', said)

    def test_rows_of_a_schedule(self):
        for row, part in ((b'line  5 1', 'one space'), (b'line 0x5 1', 'decimal'), (b'input -1', 'negative word'), (b'# note', 'no comments'), (b'Line 5 1', 'lower case'),
                          (b'line 05 1', 'has a 0 before'), (b' line 5 1', 'before the first word'), (b'', 'empty')):
            name = self.put('schedule', b'line 1 1\n' + row + b'\n')
            self.assertIn(part, self.said(2, ['trace', 'img', name, '1', '1', '1'], 'refused 70 2'), row)

    def test_a_missing_line_of_parameters(self):
        name = self.put('params', b'pages 1\nframes 2\nheap 0\n')
        self.assertIn('empty, or missing', self.said(2, ['link', 'o', name, 'out'], 'refused 66 4'))

    def test_a_user_of_a_link(self):
        text = self.put('u2.s', b'syscall')
        said = self.said(2, ['link', 'o', 'p', 'out', 'u1', text], 'refused 65 2 7')
        self.assertIn('user 2 is ' + text, said)
        self.assertIn('compile user', said)

    def test_a_file_of_another_kind(self):
        name = self.put('x', b'int x;')
        self.assertIn('is a text', self.said(2, ['boot', name, 's', '1', '1'], 'refused 50'))
        name = self.put('y', b'CVMO....')
        self.assertIn('is an object', self.said(2, ['boot', name, 's', '1', '1'], 'refused 50'))

    def test_the_source_of_an_object(self):
        source = b'int x;\n@'
        name = self.put('o', b'CVMO' + (1).to_bytes(4, 'little') + len(source).to_bytes(4, 'little') + (0).to_bytes(4, 'little') + source)
        said = self.said(2, ['link', name, 'p', 'out'], 'refused 68 10 7')
        self.assertIn('the source in ' + name + ':2:1\n    @\n    ^', said)
        self.assertIn('own fault is 10: bad byte', said)

    def test_the_file_of_a_saved_machine(self):
        name = self.put('f', b'CVMI' + bytes(40))
        said = lambda row: self.said(2, ['resume', 'i', 's', '40', '10', name], row)
        self.assertIn("is an image, which 'boot' takes", said('refused 100'))
        self.assertIn('What to do: give what `save` put', said('refused 100'))
        self.assertIn('the saved machine is %s.' % name, said('refused 101 8'))
        self.assertIn("word 6 of it is the current user: 1 to the image's users.", said('refused 103 6 9'))
        self.assertIn('word 49 of it is special registers 0 to 8', said('refused 103 49 0'))
        self.assertIn('50 turns are complete in it: TURNS 50 or more', said('refused 106 50 40'))
        self.assertIn('fewer `frames`', self.said(2, ['save', 'i', 's', '40', '10', 'f'], 'refused 107 67109088'))
        self.assertIn('refusal 90 with 8 7, small disk', self.said(5, ['resume', 'i', 's', '40', '10', name], 'refused 90 8 7'))

    def test_a_fault_of_a_save_is_looked_at_by_a_boot(self):
        row = 'turn 7 cause 6 data 0000000c user 1 fault Bounds'
        self.assertIn('boot the image with TURNS 7', self.said(3, ['save', 'i', 's', '10', '10', 'f'], row))
        self.assertIn('boot the image with TURNS 7', self.said(3, ['resume', 'i', 's', '10', '10', 'f'], row))

    def test_a_resume_has_gone_on_with_the_disk(self):
        for status in (4, 5, 7):
            self.assertIn('put back the disk', self.said(status, ['resume', 'i', 's', '10', '10', 'f'], ''))
            self.assertNotIn('put back the disk', self.said(status, ['save', 'i', 's', '10', '10', 'f'], ''))

    def test_a_disk_that_fails_is_looked_for_where_it_is(self):
        """Of ./try in the folder for temporary files, of ./cvm in the current one."""
        said = status.explain(5, ['boot', 'i', 's', '1', '1'], '', status.FolderWay(['boot'], {}))
        self.assertIn('TMPDIR', ' '.join(said))
        said = status.explain(5, ['boot', 'i', 's', '1', '1'], '')
        self.assertIn('`cvm.disk` in the current folder', ' '.join(said).replace("'", '`'))

    def test_a_kernel_fault_names_its_turn(self):
        said = self.said(3, ['boot', 'i', 's', '10', '10'], 'turn 7 cause 6 data 0000000c user 1 fault Bounds')
        self.assertIn('fault Bounds in turn 7: index out of bounds', said)
        self.assertIn('TURNS 7', said)
        self.assertIn('dispatch(0, 0, 0)', self.said(3, ['boot', 'i', 's', '10', '10'], 'turn 0 cause 0 data 00000000 user 0 fault DivZero'))
        self.assertIn('a boot of the same words', self.said(3, ['trace', 'i', 's', '10', '10', '1'], 'fault Bounds'))
        way = status.FolderWay(['trace'], {})
        self.assertIn('without --trace', '\n'.join(status.explain(3, ['trace', 'i', 's', '10', '10', '1'], ['fault Bounds'], way)))

    def test_a_folder_has_its_own_words(self):
        way = status.FolderWay(['boot'], {'/w/i': 'the image of x'})
        self.assertIn('--turns 7', '\n'.join(status.explain(3, ['boot', '/w/i', 's', '10', '10'], ['turn 7 cause 6 data 0000000c user 1 fault Bounds'], way)))
        self.assertIn('--steps 1000000 ', '\n'.join(status.explain(4, ['boot', '/w/i', 's', '10', '10'], [], way)))

    def test_steps(self):
        said = self.said(4, ['boot', 'none', 'none', '10', '2000000'], '')
        self.assertLess(said.index('STEPS 20000000 in place of 2000000'), said.index('always enough'))
        self.assertNotIn('in place of', self.said(4, ['boot', 'none', 'none', '10', '18446744073709551615'], ''))

    def test_files(self):
        there = self.put('i', b'')
        self.assertIn("there is no file '%s.not'" % there, self.said(6, ['boot', there, there + '.not', '1', '1'], ''))
        self.assertIn('is a folder', self.said(6, ['boot', self.room.name, there, '1', '1'], ''))
        self.assertIn("there is no folder", self.said(6, ['compile', 'kernel', there, there + '.d/o'], ''))
        self.assertIn("there is no folder", self.said(6, ['save', there, there, '1', '1', there + '.d/f'], 'turn 0 cause 0 data 00000000 user 0 next 1'))
        self.assertIn("there is no file '%s.not'" % there, self.said(6, ['resume', there, there, '1', '1', there + '.not'], ''))

    def test_the_answer_of_a_check(self):
        said = lambda *rows: '\n'.join(status.explain(0, ['check', 'o', '64'], list(rows)))
        self.assertIn("'stack 64' or more", said('yes 15', 'chain dispatch pick'))
        self.assertIn('has 106 words, more than 64', said('no 106', 'chain dispatch'))
        self.assertIn('in a loop', said('no cycle', 'cycle dispatch down down'))
        self.assertEqual(status.explain(0, ['boot', 'i', 's', '1', '1'], ['halted']), [])

    def test_each_status_says_something(self):
        for number in [*range(1, 9), -11, 139, 77]:
            for words in (['compile', 'kernel', 'a', 'b'], ['boot', 'a', 'b', '1', '1'], ['sample', '1'], ['migrate', 'a', 'b'], ['link', 'a', 'b', 'c'],
                          ['save', 'a', 'b', '1', '1', 'c'], ['resume', 'a', 'b', '1', '1', 'c'], []):
                if words or number == 1:
                    for row in ('', 'refused 12', 'refused 999 1 2 3', 'refused 4 1 -32769', 'refused 54 12 3', 'refused 103 200 1', 'no row'):
                        self.assertTrue(self.said(number, words, row), (number, words, row))
