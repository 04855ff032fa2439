"""tools/theorem: the crates that it begins, and its sentences for what it can't read; and the words of the checks beside it."""
import importlib.machinery
import importlib.util
import io
import os
import shutil
import subprocess
import sys
import tempfile
import unittest
from unittest import mock

from explain import pages

TOP = pages.TOP
KERNEL = 'int turn;\n\nint dispatch(int cause, int data, int user) {\n  turn = turn + 1;\n  return user;\n}\n'


def tool(name):
    """A tool as a module."""
    loader = importlib.machinery.SourceFileLoader(name, os.path.join(TOP, 'tools', name))
    module = importlib.util.module_from_spec(importlib.util.spec_from_loader(name, loader))
    loader.exec_module(module)
    return module


def run(*words, top=TOP):
    """Runs a tool of this clone or another. Gives its status and what it says on standard error."""
    done = subprocess.run([sys.executable, *words], cwd=top, stdin=subprocess.DEVNULL, stdout=subprocess.PIPE, stderr=subprocess.PIPE, text=True)
    return done.returncode, done.stderr


class Theorem(unittest.TestCase):
    def setUp(self):
        room = tempfile.TemporaryDirectory()
        self.addCleanup(room.cleanup)
        self.room = room.name

    def kernel(self, text):
        path = os.path.join(self.room, 'kernel.c0')
        with open(path, 'w', encoding='utf-8') as file:
            file.write(text)
        return path

    def why(self, text, *flags):
        status, said = run('tools/theorem', *flags, self.kernel(text))
        self.assertEqual(status, 64, said)
        self.assertNotIn('Traceback', said)
        self.assertTrue(said.startswith('theorem: '), said)
        return said

    def test_a_crate_is_written(self):
        theorem = tool('theorem')
        with mock.patch.object(theorem, 'TOP', self.room), mock.patch('sys.stdout', io.StringIO()) as out:
            self.assertEqual(theorem.main([self.kernel(KERNEL), 'mine']), 0)
        self.assertTrue(out.getvalue().startswith('mine: '))
        with open(os.path.join(self.room, 'crates', 'mine', 'proofs', 'EveryStepKeepsIt.antt'), encoding='utf-8') as file:
            proof = file.read()
        self.assertIn('trapped : (k : ℕ) (cause : Cause) (edata : ℕ) (past : List Dispatch) (before at : Core) → IsTrapOf before cause edata at', proof)
        self.assertNotIn('{{', proof)
        with open(os.path.join(self.room, 'crates', 'mine', 'src', 'lib.rt'), encoding='utf-8') as file:
            self.assertIn('    steps_tell();\n', file.read())

    def written(self, *words):
        """The files of the crate that these words begin, by their names, and what is printed."""
        theorem = tool('theorem')
        with mock.patch.object(theorem, 'TOP', self.room), mock.patch('sys.stdout', io.StringIO()) as out:
            self.assertEqual(theorem.main(list(words)), 0)
        folder, made = os.path.join(self.room, 'crates', words[-1]), {}
        for at, _, names in os.walk(folder):
            for name in names:
                with open(os.path.join(at, name), encoding='utf-8') as file:
                    made[os.path.relpath(os.path.join(at, name), folder)] = file.read()
        return made, out.getvalue()

    def test_help_says_the_words(self):
        done = subprocess.run([sys.executable, 'tools/theorem', '--help'], cwd=TOP, stdin=subprocess.DEVNULL, stdout=subprocess.PIPE, text=True)
        self.assertEqual(done.returncode, 0)
        self.assertIn('usage: tools/theorem [--shaped] KERNEL.c0 [NAME]', done.stdout)
        self.assertIn('With --shaped a proof may use', done.stdout)

    def test_the_shape_of_machines_is_an_option(self):
        plain, _ = self.written(self.kernel(KERNEL), 'plain')
        shaped, _ = self.written('--shaped', self.kernel(KERNEL), 'shaped')
        self.assertIn('(HasUsers y) Between', plain['proofs/EveryStepKeepsIt.antt'])
        self.assertIn('IsInvariant y 300 (Shaped y) Between', shaped['proofs/EveryStepKeepsIt.antt'])
        self.assertIn('laws.shaped y kernel_tree r.meaning_is r.fit', shaped['proofs/EveryStepKeepsIt.antt'])
        self.assertIn('  pub fit : HasRoom y', shaped['specs/Property.antt'])
        self.assertNotIn('HasUsers', shaped['proofs/EveryStepKeepsIt.antt'])

    def test_texts_of_any_bytes(self):
        made, _ = self.written(self.kernel(KERNEL.replace('  turn', '\tturn').replace('int turn;', 'int turn; // a "word" \\ there') + '// the end'), 'bytes')
        text = made['specs/Text.antt']
        self.assertIn('9 ∷ codes "turn = turn + 1;"', text)
        self.assertIn('codes "int turn; // a " ++ (34 ∷ (codes "word" ++ (34 ∷ (codes " " ++ (92 ∷ codes " there")))))', text)
        self.assertIn(') ++ (codes "// the end")', text)

    def test_asm_functions(self):
        made, _ = self.written(self.kernel('int sum(int a, int b) asm { addu r2, r4, r5 }\n' + KERNEL.replace('turn + 1;', 'turn; turn = sum(turn, 1);')), 'asm_sum')
        self.assertIn('(asm (codes " addu r2, r4, r5 ") z (0x00851021 ∷ []))', made['specs/Tree.antt'])
        self.assertIn("'foo' is no instruction", self.why('int sum(int a) asm { foo r2, r4 }\n' + KERNEL))
        self.assertIn("'r32' of 'addu' is no register", self.why('int sum(int a) asm { addu r2, r4, r32 }\n' + KERNEL))

    def folder(self, **files):
        place = tempfile.mkdtemp(dir=self.room)
        for name, text in files.items():
            with open(os.path.join(place, name.replace('_', '.')), 'w', encoding='utf-8') as file:
                file.write(text)
        return place

    def test_a_whole_system_is_written(self):
        made, printed = self.written(os.path.join(TOP, 'examples', 'summing'), 'whole')
        self.assertIn(' kernel_boots\n', printed)
        self.assertIn('user_1 = 0x3405000a ∷ 0x24840001 ∷ 0x1485fffe ∷ 0x0000000c ∷ []', made['specs/Users.antt'])
        self.assertIn('y.boot.users ≡ user_1 ∷ user_2 ∷ []', made['specs/Property.antt'])
        self.assertIn('turns_are : k ≡ 1 + steps + traps + lines_taken past', made['specs/Property.antt'])
        self.assertEqual(made['proofs/EveryStepKeepsIt.antt'].count('rw has_room ?'), 3)
        self.assertEqual(made['proofs/Boots.antt'].count(' in ?;'), 2)
        for name, text in made.items():
            self.assertNotIn('{{', text, name)
        self.assertIn('must-fail/answers_always_one.edit', made)

    def test_a_whole_system_with_programs_is_written(self):
        made, printed = self.written('--shaped', os.path.join(TOP, 'examples', 'answering'), 'programs')
        self.assertIn(' user_c0 ', printed)
        self.assertIn('y.boot.users ≡ image_words unit_1 ∷ image_words unit_2 ∷ []', made['specs/Property.antt'])
        self.assertIn('IsProgram unit_1 → IsUnitAs User text_1 unit_1', made['specs/Boots.antt'])
        self.assertIn('IsTextAs User', made['src/lib.rt'])
        self.assertIn('loop z main_test1 main_turn1', made['specs/Program1.antt'])
        self.assertIn('(Shaped y)', made['proofs/EveryStepKeepsIt.antt'])

    def edited(self, made):
        """The files of a crate behind its one edit, as the gate applies it: what is old stands once in its file."""
        edits = [name for name in made if name.startswith('must-fail/')]
        self.assertEqual(edits, ['must-fail/answers_always_one.edit'])
        files = dict(made)
        for line in made[edits[0]].splitlines():
            word, text = line.split(': ', 1)
            if word == 'file':
                file = text
            elif word == 'old':
                old = text
                self.assertEqual(files[file].count(old), 1, old)
            else:
                files[file] = files[file].replace(old, text)
        return files

    def definitions(self, text):
        """A file without its imports."""
        return [line for line in text.split('\n') if not line.startswith('use ')]

    def test_an_edit_is_ready_for_each_example(self):
        theorem, examples = tool('theorem'), os.path.join(TOP, 'examples')
        folders = [folder for folder in sorted(os.listdir(examples)) if os.path.exists(os.path.join(examples, folder, 'kernel.c0'))]
        self.assertGreater(len(folders), 10)
        for folder in folders:
            made, _ = self.written(os.path.join(examples, folder), 'of_' + folder)
            files = self.edited(made)
            source = theorem.source_of(os.path.join(examples, folder, 'kernel.c0'))
            at = source.rindex('return', 0, source.rindex(';'))
            changed = self.kernel(source[:at] + 'return 1' + source[source.index(';', at):])
            self.assertEqual(self.definitions(files['specs/Tree.antt']), self.definitions(theorem.spec_files(changed, theorem.source_of(changed))['specs/Tree.antt']), folder)
            self.assertEqual(files['specs/Text.antt'].replace('  -- of dispatch', ''), theorem.spec_files(changed, theorem.source_of(changed))['specs/Text.antt'], folder)

    def test_an_answer_that_stands_twice_is_marked(self):
        made, _ = self.written(self.kernel('int other(int user) {\n  return user;\n}\n' + KERNEL), 'twice')
        self.assertEqual(made['specs/Text.antt'].count('∷ codes "  return user;"  -- of dispatch'), 1)
        self.assertIn('∷ codes "  return 1;"  -- of dispatch', self.edited(made)['specs/Text.antt'])

    def test_a_word_that_the_tree_lacks_comes_with_the_edit(self):
        made, _ = self.written(self.kernel(KERNEL.replace('turn + 1', 'turn + user')), 'lacking')
        self.assertNotIn('number', made['specs/Tree.antt'])
        self.assertIn('block, function, causes, number}', self.edited(made)['specs/Tree.antt'])
        self.assertIn('dispatch_answer = number 1\n', self.edited(made)['specs/Tree.antt'])

    def test_a_word_that_the_edit_leaves_out_stays_imported(self):
        made, _ = self.written(self.kernel('int dispatch(int cause, int data, int user) {\n  return user;\n}\n'), 'losing')
        self.assertIn('use Rattle.worked_rows.specs.Kernels.{z, local, function, causes, number}\n', self.edited(made)['specs/Tree.antt'])

    def test_an_answer_over_lines_has_no_edit(self):
        with mock.patch('sys.stderr', io.StringIO()) as said:
            made, _ = self.written(self.kernel(KERNEL.replace('return user', 'return user\n    + 0')), 'long')
        self.assertIn('no edit is ready: what dispatch returns goes over more than one line', said.getvalue())
        self.assertFalse([name for name in made if name.startswith('must-fail/')])

    def why_folder(self, **files):
        status, said = run('tools/theorem', self.folder(**files))
        self.assertEqual((status, said.startswith('theorem: ')), (64, True), said)
        self.assertNotIn('Traceback', said)
        return said

    def test_folders_that_are_no_system(self):
        self.assertIn("there is no file", self.why_folder())
        self.assertIn('has no user1.s or user1.c0', self.why_folder(kernel_c0=KERNEL))
        self.assertIn("'jump' is no instruction", self.why_folder(kernel_c0=KERNEL, user1_s='jump 0\n'))
        self.assertIn('it has no int main()', self.why_folder(kernel_c0=KERNEL, user1_c0='int run() { return 0; }\n'))
        self.assertIn('has both user1.s and user1.c0', self.why_folder(kernel_c0=KERNEL, user1_s='syscall\n', user1_c0='int main() { return 0; }\n'))

    def test_files_that_are_not_there(self):
        for words in (['missing.c0'], ['--tree', 'missing.c0']):
            self.assertEqual(run('tools/theorem', *words), (64, "theorem: there is no file 'missing.c0'\n"))

    def test_words_that_are_none(self):
        for words in ([], ['--trees', 'a'], ['--shaped'], ['a', 'b', 'c'], [self.kernel(KERNEL), 'Mine']):
            status, said = run('tools/theorem', *words)
            self.assertEqual((status, said.startswith('theorem: ')), (64, True), said)

    def test_names_that_stand_for_nothing(self):
        self.assertIn('lost is no function', self.why(KERNEL.replace('turn + 1', 'lost(1)')))
        self.assertIn('there is no struct a', self.why('struct a here;\n' + KERNEL))
        self.assertIn('there is no struct a', self.why('struct a here;\n' + KERNEL, '--tree'))
        self.assertIn('lost stands for nothing', self.why(KERNEL.replace('turn + 1', 'lost')))

    def test_structs_that_hold_themselves(self):
        self.assertIn('struct a holds itself', self.why('struct a { struct a more; };\nstruct a here;\n' + KERNEL))
        self.assertIn('holds itself', self.why('struct a { struct b[2] more; };\nstruct b { struct a more; };\n' + KERNEL, '--tree'))

    def test_a_dispatch_with_other_parameters(self):
        self.assertIn('dispatch is not', self.why(KERNEL.replace(', int data, int user', '').replace('return user', 'return 1')))
        self.assertIn('it has no dispatch', self.why('int turn;\n'))

    def test_what_is_no_pointer(self):
        self.assertIn('neither a pointer', self.why('struct a { int b; };\nstruct a* s;\n' + KERNEL.replace('turn + 1', 'turn->b'), '--tree'))

    def test_deep_nesting(self):
        self.assertIn('nested too deeply', self.why(KERNEL.replace('turn + 1', '(' * 5000 + '1' + ')' * 5000)))


class Words(unittest.TestCase):
    def test_words_that_are_none(self):
        for words in (['tools/check_over'], ['tools/check_over', 'no_such_crate'], ['tools/check_over', '--holes', 'cvm'], ['tools/check_over', '--build'],
                      ['tools/check_over', '--build', 'x', 'cvm', 'main'], ['tools/dev/believed', 'x'],
                      ['tools/dev/believed', '--path'], ['tools/dev/believed', '--check', 'x'], ['exercises/check', 'x']):
            status, said = run(*words)
            self.assertEqual(status, 64, words)
            self.assertNotIn('Traceback', said)

    def test_pages_that_are_missing(self):
        """Without the commands' page no exercise is left out in silence."""
        with tempfile.TemporaryDirectory() as clone:
            for name in ('tools', 'exercises', 'oracle'):
                shutil.copytree(os.path.join(TOP, name), os.path.join(clone, name), ignore=shutil.ignore_patterns('tests', '__pycache__'))
            status, said = run('exercises/check', top=clone)
            self.assertEqual((status, said.split(', ')[0]), (70, "exercises/check: the commands are read from '%s/docs/FORMATS.md'" % clone))

    def test_crates_that_are_no_text(self):
        with tempfile.TemporaryDirectory() as clone:
            for name in ('tools', 'bench', 'release'):
                shutil.copytree(os.path.join(TOP, name), os.path.join(clone, name), ignore=shutil.ignore_patterns('tests', '__pycache__'))
            os.symlink(os.path.join(TOP, 'crates'), os.path.join(clone, 'crates'))
            with open(os.path.join(clone, 'crates.txt'), 'wb') as file:
                file.write(b'# caf\xe9\n')
            with mock.patch.dict(os.environ, {'PATH': clone}):
                os.symlink('/bin/true', os.path.join(clone, 'rt'))
                for words, wanted in ((['tools/dev/believed'], 64), (['tools/check_over', 'cvm_words'], 64), (['bench/typed'], 64), (['release/build'], 70)):
                    status, said = run(*words, top=clone)
                    self.assertEqual((status, said), (wanted, "%s: '%s/crates.txt' is not UTF-8, and has to be: git -C '%s' checkout 'crates.txt' brings it back\n"
                                                      % (words[0].replace('tools/', '').replace('dev/', ''), clone, clone)))

    def test_sources_that_are_no_crates(self):
        with mock.patch.dict(os.environ, {'SOURCES': 'cvm_words,cvm_txt'}):
            self.assertEqual(run('tools/check_over', 'cvm'), (64, "check_over: SOURCES names 'cvm_txt', which is no crate of crates.txt\n"))

    def test_a_crate_that_is_nearly_named(self):
        self.assertIn("did you mean 'kernel_theorems'?", run('tools/check_over', 'kernel_theorem')[1])
