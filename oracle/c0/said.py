"""What kernels in files of cases come to, and the words of the page about the code.

usage: oracle/model c0 FILE..    prints, for each case of the files, what code_cases prints of it

A case is '== run H S C/D/U .. NAME' and a kernel: words of the heap and of the stack, and the arguments of dispatch for each call of it. Kernels are taken
to be typed. Primitives are stand-ins: a bool says whether the first argument is above 0; an int is the sum of the first two and 100 times the number.

A case '== code NAME' has the kernel whose words stand in docs/COMPILER.md, and these are printed: those of its listing, and in place of its row for the
routines the words of their instructions, which stand above it. The listing's words and addresses are compared with its instructions.
"""
import os
import re

from oracle import cases
from oracle.assembler import assemble
from oracle.c0.meaning import NUMBERS, PRIMITIVES, Fault, Meaning, TooLong
from oracle.c0.tree import Parser
from oracle.words import signed

PAGE = os.path.join(os.path.dirname(os.path.abspath(__file__)), '..', '..', 'docs', 'COMPILER.md')


class StandIns(Meaning):
    """A run whose primitives are the stand-ins; `calls` notes them."""

    def __init__(self, *given):
        Meaning.__init__(self, *given)
        self.calls = []

    def primitive(self, name, args):
        self.calls.append((name, args))
        n, a = NUMBERS[name], (args + [0, 0])[:2]
        return (a[0] > 0) if PRIMITIVES[n][2] else signed(sum(int(x) for x in a) + 100 * n)


def shown(v):
    if v is None or v is False:
        return '0'
    if v is True:
        return '1'
    return '%s%d' % v if isinstance(v, tuple) else str(v)


def listed(words):
    if len(words) <= 64:
        return ''.join(' ' + shown(v) for v in words)
    return ''.join(' %d:%s' % (k, shown(v)) for k, v in enumerate(words) if shown(v) != '0')


def run_case(rest, source):
    """The rows of a case of the kind `run`."""
    words = rest.split(' ')
    calls = [w.split('/') for w in words[2:] if re.fullmatch(r'-?\d+/-?\d+/-?\d+', w)]
    r, out = StandIns(Parser(source), int(words[0]), int(words[1])), []
    for c in calls:
        r.calls = []
        try:
            end = 'left %s' % shown(r.call('dispatch', [signed(int(x)) for x in c]))
        except Fault as f:
            end = 'fault %s' % f
        except TooLong:
            end = 'runs on'
        out += ['%s(%s)' % (name, ', '.join(shown(a) for a in args)) for name, args in r.calls]
        out += [end, 'globals' + listed(r.globals)]
        if not end.startswith('left'):
            break
    return out + ['heap' + listed(r.heap)]


def page_words(lines):
    """The words of instructions as docs/COMPILER.md writes them: behind two blanks stands what they do, or several stand in a line; jumps name addresses."""
    rows = []
    for line in [part for line in lines for part in line.split('; ')]:
        op, rest = re.match(r'(\w+) +(.*?)(?: {2}|$)', line).groups()
        rows.append('%s %s' % (op, int(rest, 0) // 4 if op in ('j', 'jal') else rest))
    return assemble('\n'.join(rows))


def code_case(source):
    """The rows of the case of the kind `code`."""
    with open(PAGE, encoding='utf-8') as file:
        page = file.read()
    blocks = [b.strip('\n').split('\n') for b in page[page.index('\n## A unit\n'):].split('```')[1::2]]
    blocks += [b.strip('\n').split('\n') for b in page[page.index('\n## An example\n'):].split('```')[1:4:2]]
    assert '\n'.join(blocks[2]) == source, 'no page has the words of this kernel'
    out, at = [], 0x10000
    for row in blocks[3]:
        address, word, line = row[:8], row[9:17], row[19:]
        assert int(address, 16) == at, row
        words = page_words([line] if word.strip() else blocks[0] + blocks[1])
        assert not word.strip() or int(word, 16) == words[0], row
        for w in words:
            out.append('%08x %08x' % (at, w))
            at += 4
    return out


def main(files):
    for name in files:
        for head, source in cases.of_file(name):
            kind, _, rest = head.partition(' ')
            print('== ' + head)
            rows = run_case(rest, cases.unescaped(source)) if kind == 'run' else code_case(cases.unescaped(source)) if kind == 'code' else []
            for line in rows:
                print(line)
    return 0
