"""The editors' files, over all sources of the repository: each token has the kind that docs/C0.md and docs/ASSEMBLER.md give it."""
import json
import os
import shutil
import subprocess
import tempfile
import unittest

from explain import pages
from tests import languages, textmate

EDITORS = os.path.join(pages.TOP, 'editors')
C0_SCOPES = {'comment': 'comment.line.double-slash.c0', 'type': 'storage.type.c0', 'control': 'keyword.control.c0', 'new': 'keyword.operator.new.c0',
             'constant': 'constant.language.c0', 'number': 'constant.numeric.decimal.c0', 'bad number': 'invalid.illegal.number.c0', 'primitive': 'support.function.primitive.c0',
             'function': 'entity.name.function.c0', 'name': 'variable.other.c0', 'operator': 'keyword.operator.c0', 'mark': 'punctuation.c0', 'bad': 'invalid.illegal.byte.c0',
             'asm': 'keyword.other.asm.c0', 'asm mark': 'punctuation.section.asm', 'asm comment': 'comment.line.number-sign.c0', 'asm mnemonic': 'keyword.mnemonic.c0',
             'asm register': 'variable.language.register.c0', 'asm number': 'constant.numeric.c0', 'asm comma': 'punctuation.separator.c0', 'asm bad': 'invalid.illegal.asm.c0'}
ASM_SCOPES = {'comment': 'comment.line.number-sign.cvmasm', 'label': 'entity.name.label.cvmasm', 'mnemonic': 'keyword.mnemonic.cvmasm', 'directive': 'keyword.directive.cvmasm',
              'register': 'variable.language.register.cvmasm', 'number': 'constant.numeric.cvmasm', 'name': 'variable.other.label.cvmasm', 'mark': 'punctuation.cvmasm',
              'bad': 'invalid.illegal.cvmasm'}
C0_GROUPS = {'comment': 'c0Comment', 'type': 'c0Type', 'control': 'c0Control', 'new': 'c0New', 'constant': 'c0Constant', 'number': 'c0Number', 'bad number': 'c0BadNumber',
             'primitive': 'c0Primitive', 'function': 'c0Function', 'name': 'c0Name', 'operator': 'c0Operator', 'mark': 'c0Mark', 'bad': 'c0Bad', 'asm': 'c0AsmWord',
             'asm mark': 'c0AsmMark', 'asm comment': 'c0AsmComment', 'asm mnemonic': 'c0AsmMnemonic', 'asm register': 'c0AsmRegister', 'asm number': 'c0AsmNumber',
             'asm comma': 'c0AsmComma', 'asm bad': 'c0AsmBad'}
ASM_GROUPS = {'comment': 'cvmasmComment', 'label': 'cvmasmLabel', 'mnemonic': 'cvmasmMnemonic', 'directive': 'cvmasmDirective', 'register': 'cvmasmRegister',
              'number': 'cvmasmNumber', 'name': 'cvmasmName', 'mark': 'cvmasmMark', 'bad': 'cvmasmBad'}
# Each kind of token at least once, with those that no source of the repository has.
C0_ALL = '''// a comment with int 5 {
struct s { int a; bool b; struct s* next; };
int[4] a; int add(int a, int b) asm // before the brace }
{ addu r2, r4, r5 # sums, and a } ends it
int low(int a) asm { andi r2, r4, 0xff # note
  addiu r2, r2, -1
  lw r2, 0(r29) }
int f(int x) { struct s* p; p = new struct s; if (p == null || !(x <= 007 && x != 10)) { p->next = p; x = vm_get(1, 2); } else { x = f(-x % 3); } while (true) { } return a[x] + 0; }
int vm_get_more; int r2; @ ~ "text"
'''
ASM_ALL = '''a: b: addu r1, r31, r32   # r32 is no register
  .word 0xdeadBEEF
  .zero 10
  lw r1, -4(r2)
  mfc0 r1, c8
  beq r0, r0, a
  li $t0, 'a'
  .data
loop:j loop
'''


def grammar(name):
    with open(os.path.join(EDITORS, 'textmate', name + '.tmLanguage.json'), encoding='utf-8') as file:
        return json.load(file)


class TextMate(unittest.TestCase):
    def over(self, name, sources, tokens_of, scopes):
        tokenizer, kinds, count = textmate.Tokenizer(grammar(name)), set(), 0
        for source in sources:
            given = {place: scope for place, _, scope in tokenizer.tokens(source)}
            for place, kind in tokens_of(source):
                count, _ = count + 1, kinds.add(kind)
                self.assertTrue((given.get(place) or '').startswith(scopes[kind]), (kind, given.get(place), source[max(0, place - 30):place + 30]))
        self.assertEqual(kinds, set(scopes))
        return count

    def test_each_kind_of_source_is_there(self):
        for found, kinds in ((languages.c0_by_kind(), 4), (languages.asm_by_kind(), 3)):
            self.assertEqual((len(found), [kind for kind, sources in found.items() if not sources]), (kinds, []))

    def test_c0(self):
        self.assertGreater(self.over('c0', languages.c0_sources() + [C0_ALL], languages.c0_tokens, C0_SCOPES), 5000)

    def test_assembler(self):
        self.assertGreater(self.over('cvmasm', languages.asm_sources() + [ASM_ALL], languages.asm_tokens, ASM_SCOPES), 1000)

    def test_the_sources_of_the_examples_have_no_bad_token(self):
        for name in languages.files('.c0'):
            self.assertNotIn('bad', [kind for _, kind in languages.c0_tokens(languages.read(name))], name)

    def test_the_package_names_files_that_are_there(self):
        folder = os.path.join(EDITORS, 'textmate')
        with open(os.path.join(folder, 'package.json'), encoding='utf-8') as file:
            given = json.load(file)['contributes']
        for name in [part['path'] for part in given['grammars']] + [part['configuration'] for part in given['languages']]:
            with open(os.path.join(folder, name), encoding='utf-8') as file:
                json.load(file)


SCRIPT = '''set nocompatible enc=utf-8 fencs=utf-8 nomodeline viminfo= noswapfile
set runtimepath+=%s
syntax on
let answers = []
for name in readfile('names')
  execute 'silent edit! ' . name
  execute 'setlocal filetype=' . (name =~# 'c0$' ? 'c0' : 'cvmasm')
  for spot in readfile(name . '.spots')
    let [line, column] = split(spot)
    call add(answers, synIDattr(synID(str2nr(line), str2nr(column), 1), 'name'))
  endfor
endfor
call writefile(answers, 'answers')
quitall!
'''


@unittest.skipUnless(shutil.which('vim'), 'vim is missing')
class Vim(unittest.TestCase):
    def test_each_token(self):
        with tempfile.TemporaryDirectory() as folder:
            wanted = self.write(folder)
            subprocess.run(['vim', '-es', '-u', 'NONE', '-i', 'NONE', '-S', 'script'], cwd=folder, stdin=subprocess.DEVNULL, stdout=subprocess.DEVNULL,
                           stderr=subprocess.DEVNULL, env={**os.environ, 'HOME': folder, 'TERM': 'dumb'}, timeout=300)
            with open(os.path.join(folder, 'answers'), encoding='utf-8') as file:
                answers = file.read().split('\n')[:-1]
        self.assertEqual(len(answers), len(wanted))
        wrong = [(group, answer, about) for (group, about), answer in zip(wanted, answers) if group != answer]
        self.assertEqual(wrong[:5], [])

    def write(self, folder):
        """Writes all sources with the places of their tokens; gives the group and the surroundings of each."""
        wanted, names = [], []
        parts = [(source, 'c0', languages.c0_tokens, C0_GROUPS) for source in languages.c0_sources() + [C0_ALL]]
        parts += [(text, 's', languages.asm_tokens, ASM_GROUPS) for text in languages.asm_sources() + [ASM_ALL]]
        for number, (source, ending, tokens_of, groups) in enumerate(parts):
            names.append('source%d.%s' % (number, ending))
            spots = []
            for place, kind in tokens_of(source):
                start = source.rfind('\n', 0, place) + 1
                spots.append('%d %d' % (source.count('\n', 0, place) + 1, len(source[start:place].encode()) + 1))
                wanted.append((groups[kind], source[max(0, place - 20):place + 20]))
            self.put(folder, names[-1], source)
            self.put(folder, names[-1] + '.spots', '\n'.join(spots))
        self.put(folder, 'names', '\n'.join(names))
        self.put(folder, 'script', SCRIPT % os.path.join(EDITORS, 'vim'))
        return wanted

    def put(self, folder, name, text):
        with open(os.path.join(folder, name), 'w', encoding='utf-8', newline='') as file:
            file.write(text)
