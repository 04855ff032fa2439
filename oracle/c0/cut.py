"""The words of a source's code, cut by what they were made of: which words the entry, the routines, each function's head and end and each statement
became. They are those that `emit` makes, after docs/COMPILER.md; `unfit` compares the cut with words that were compiled."""
from collections import namedtuple

from oracle.assembler import assemble
from oracle.c0.emit import EXITS, FRAME_END, PRIMITIVES, ROUTINES, SCRATCH, START, Code

EXIT_NAMES = ('fault NullUse', 'fault Bounds', 'fault DivZero', 'fault StackOut', 'the end')
RETURN, STACK_OUT = 0x03e00008, 2 << 26 | 0x2034 >> 2

# first: the number of its first word; place: a byte of the source, None where no part of the source has it; node: the statement, if it is one
Part = namedtuple('Part', 'first count what place node')


class Cut(Code):
    """The parts of a source's code, in the order of their words; `starts` has the first word of each function, `functions` their order."""

    def __init__(self, text, is_program=False):
        Code.__init__(self, text, is_program)
        self.parts, self.at, self.starts, self.ends, self.tests = [], 0, {}, {}, {}
        self.add(len(self.entry(0)), 'entry', None)
        for f in self.in_order():
            self.starts[f.name] = self.at
            self.cut_function(f)
            self.ends[f.name] = self.at
        self.new_at = self.at
        for name, routine in ROUTINES:
            self.add(len(assemble(routine)), 'routine ' + name, None)

    def add(self, count, what, place, node=None):
        if count:
            self.parts.append(Part(self.at, count, what, place, node))
            self.at += count

    def cut_function(self, f):
        head = f.name_span[0]
        if f.asm is not None:
            self.add(len(self.asm_head(f)), 'head of %s' % f.name, head)
            at = f.asm[1][0] + 1
            for line in f.asm[0].split('\n'):
                self.add(1 if line.split('#')[0].strip() else 0, 'instruction', at + len(line) - len(line.lstrip()))
                at += len(line) + 1
            return self.add(1, 'end of %s' % f.name, f.asm[1][1] - 1)
        self.add(len(self.enter(f)), 'head of %s' % f.name, head)
        self.tests[f.name] = len(self.tested(SCRATCH if self.in_registers else FRAME_END))
        facts = self.begins(f)
        self.cut_block(f.body, facts)
        self.add(len(self.result(f, self.behind_all(f.body, facts))), 'return', f.return_at)
        return self.add(len(self.end()), 'end of %s' % f.name, f.return_at)

    def cut_block(self, statements, facts):
        for s, known in self.each(statements, facts):
            if s.kind not in ('if', 'while'):
                self.add(len(self.statement(s, known)), s.kind, s.span[0], s)
                continue
            test, yes, no = s.parts
            if s.kind == 'while':
                known = self.turning(s, known)
                self.add(1, 'to the test', s.span[0], s)
                self.cut_block(yes, self.told(test, True, known))
                self.add(len(self.test(test, True, 0, known)), 'test', s.span[0], s)
            else:
                self.add(len(self.test(test, False, 0, known)), 'test', s.span[0], s)
                self.cut_block(yes, self.told(test, True, known))
                if no:
                    self.add(1, 'over the else', s.span[0], s)
                    self.cut_block(no, self.told(test, False, known))

    # ---- whether words fit
    def unfit(self, words):
        """The first word, by its number, at which words are not those that were cut, and why, in words; None where nothing is odd."""
        if len(words) != self.at:
            return min(len(words), self.at), 'there are %d words, and the model counts %d' % (len(words), self.at)
        for f in self.tree.functions:
            first, last = self.starts[f.name], self.ends[f.name] - 1
            if words[last] != RETURN:
                return last, '%s does not end with jr r31 here' % f.name
            tested = first + self.tests.get(f.name, 4) - 1
            if words[tested] != STACK_OUT:
                return tested, 'the test of the stack of %s does not end here' % f.name
        for part in self.parts:
            why = self.odd(part, words)
            if why:
                return part.first + part.count - 1, why
        return None

    def odd(self, part, words):
        """Why the words of a part are not what it is made of: of a call the jal, and of a loop the jump to its test."""
        its = words[part.first:part.first + part.count]
        if part.what == 'to the test' or part.what == 'over the else':
            return None if its[0] >> 16 == 0x1000 else 'no jump stands here'
        if part.what in ('call', 'new'):
            name = part.node.parts[1][0] if part.what == 'call' else None
            wanted = 3 << 26 | self.entry_of(name) >> 2
            return None if wanted in its else 'the call of %s is not here' % (name or 'the routine new')
        return None

    def entry_of(self, name):
        """The address that a call of a name goes to; None is the routine `new`."""
        if name is None:
            return START + 4 * self.new_at
        if name in self.starts and name not in self.primitive_numbers():
            return START + 4 * self.starts[name]
        return PRIMITIVES + 4 * self.primitive_numbers()[name]

    # ---- what stands at an address
    def names(self):
        """The names of the addresses that code jumps to."""
        found = {PRIMITIVES + 4 * number: name for name, number in self.primitive_numbers().items()}
        found.update({EXITS + 4 * number: name for number, name in enumerate(EXIT_NAMES)})
        found.update({START + 4 * part.first: part.what[len('routine '):] for part in self.parts if part.what.startswith('routine ')})
        found.update({START + 4 * first: name for name, first in self.starts.items()})
        return found


def places(cut):
    """For each word of the code, the byte of the source of which it was made."""
    return [part.place for part in cut.parts for _ in range(part.count)]
