"""Words of assembler texts: of users, and of asm functions in C0. What it gives isn't trusted: the check compares an asm function's words with its text, and an
image's words with those that a theorem names."""
import re

from running import guard

THREE = {'add': 0x20, 'addu': 0x21, 'sub': 0x22, 'subu': 0x23, 'and': 0x24, 'or': 0x25, 'xor': 0x26, 'nor': 0x27, 'slt': 0x2a, 'sltu': 0x2b}
SHIFT = {'sll': 0, 'srl': 2, 'sra': 3}
BY_REGISTER = {'sllv': 4, 'srlv': 6, 'srav': 7}
PRODUCTS = {'mult': 0x18, 'multu': 0x19, 'div': 0x1a, 'divu': 0x1b}
ONE = {'jr': (21, 0x08), 'mthi': (21, 0x11), 'mtlo': (21, 0x13), 'mfhi': (11, 0x10), 'mflo': (11, 0x12)}
IMMEDIATE = {'addi': 8, 'addiu': 9, 'slti': 10, 'sltiu': 11, 'andi': 12, 'ori': 13, 'xori': 14}
TWO_WAYS = {'beq': 4, 'bne': 5}
BY_SIGN = {'bltz': (1, 0), 'bgez': (1, 1), 'blez': (6, 0), 'bgtz': (7, 0)}


class Refused(guard.Bad):
    """What is no text of the assembler, in a sentence."""


class Line:
    """An instruction or a directive: its address, its name and its operands."""

    def __init__(self, at, name, operands, labels):
        self.at, self.name, self.operands, self.labels = at, name, operands, labels

    def operand(self, place):
        if place >= len(self.operands):
            raise Refused("an operand of '%s' is missing" % self.name)
        return self.operands[place]

    def register(self, place, kind='r'):
        found = re.fullmatch(kind + r'(\d|[12]\d|3[01])', self.operand(place))
        if not found:
            raise Refused("'%s' of '%s' is no register" % (self.operand(place), self.name))
        return int(found.group(1))

    def number(self, place):
        word = self.operand(place)
        if not re.fullmatch(r'-?(\d+|0x[0-9a-fA-F]+)', word):
            raise Refused("'%s' of '%s' is neither a number nor a label" % (word, self.name))
        return int(word, 16 if 'x' in word else 10)

    def branch(self, place):
        if self.operand(place) in self.labels:
            return (self.labels[self.operand(place)] - self.at - 4) // 4
        return self.number(place)

    def words(self):
        name, r = self.name, self.register
        if name == '.zero':
            return [0] * self.number(0)
        if name == '.word':
            target = self.labels.get(self.operand(0))
            return [(self.number(0) if target is None else target) & 0xffffffff]
        if name in THREE:
            return [r(1) << 21 | r(2) << 16 | r(0) << 11 | THREE[name]]
        if name in SHIFT:
            return [r(1) << 16 | r(0) << 11 | self.number(2) << 6 | SHIFT[name]]
        if name in BY_REGISTER:
            return [r(2) << 21 | r(1) << 16 | r(0) << 11 | BY_REGISTER[name]]
        if name in PRODUCTS:
            return [r(0) << 21 | r(1) << 16 | PRODUCTS[name]]
        if name in ONE:
            return [r(0) << ONE[name][0] | ONE[name][1]]
        if name == 'jalr':
            return [r(1) << 21 | r(0) << 11 | 9]
        if name in IMMEDIATE:
            return [IMMEDIATE[name] << 26 | r(1) << 21 | r(0) << 16 | self.number(2) & 0xffff]
        if name == 'lui':
            return [15 << 26 | r(0) << 16 | self.number(1) & 0xffff]
        if name in TWO_WAYS:
            return [TWO_WAYS[name] << 26 | r(0) << 21 | r(1) << 16 | self.branch(2) & 0xffff]
        if name in BY_SIGN:
            return [BY_SIGN[name][0] << 26 | r(0) << 21 | BY_SIGN[name][1] << 16 | self.branch(1) & 0xffff]
        if name in ('lw', 'sw'):
            return [self.of_memory()]
        if name in ('j', 'jal'):
            target = self.labels.get(self.operand(0))
            return [(2 if name == 'j' else 3) << 26 | (self.number(0) if target is None else target // 4) & 0x3ffffff]
        if name in ('mfc0', 'mtc0'):
            return [0x10 << 26 | (0 if name == 'mfc0' else 4) << 21 | r(0) << 16 | r(1, 'c') << 11]
        if name == 'syscall':
            return [(self.number(0) if self.operands else 0) << 6 | 12]
        if name == 'eret':
            return [0x42000018]
        raise Refused("'%s' is no instruction" % name)

    def of_memory(self):
        found = re.fullmatch(r'(-?\w+)\s*\(\s*(r\d+)\s*\)', self.operand(1))
        if not found:
            raise Refused("'%s' of '%s' is no address, as 0(r4)" % (self.operand(1), self.name))
        self.operands = [self.operands[0], found.group(1), found.group(2)]
        return (0x23 if self.name == 'lw' else 0x2b) << 26 | self.register(2) << 21 | self.register(0) << 16 | self.number(1) & 0xffff


def words_of(text):
    """The words of a text."""
    lines, labels, at = [], {}, 0
    for line in text.split('\n'):
        line = line.split('#')[0].strip()
        while re.match(r'[A-Za-z_]\w*:', line):
            label, _, line = line.partition(':')
            labels.setdefault(label, at)
            line = line.strip()
        if line:
            name, _, rest = line.replace('\t', ' ').partition(' ')
            made = Line(at, name, [it.strip() for it in rest.split(',')] if rest.strip() else [], labels)
            at += 4 * (made.number(0) if name == '.zero' else 1)
            lines.append(made)
    return [word for line in lines for word in line.words()]
