"""The tokens of a C0 source, each with its place: docs/C0.md, "Tokens". A source is a text of one character a byte (`latin-1`)."""
import re
from collections import namedtuple

WORDS = {'int', 'bool', 'struct', 'if', 'else', 'while', 'return', 'new', 'true', 'false', 'null', 'asm'}
TOKEN = re.compile(r'[ \t\r\n]+|//[^\n]*|(?P<t>[A-Za-z_][A-Za-z_0-9]*|[0-9]+|->|==|!=|<=|>=|&&|\|\||[{}()\[\];,.=<>+\-*/%!&])')
BLANKS = re.compile(r'(?:[ \t\r\n]+|//[^\n]*)*')

LONGEST = 1048576

# text: of an asm text its `{` and all up to the `}`, which it leaves out. start, end: its first byte, and the byte behind its last one
Token = namedtuple('Token', 'text start end')


class NoTree(Exception):
    """A source that has no tree. `at` is a byte near which it ends to have one."""

    def __init__(self, at):
        Exception.__init__(self, 'no tree, near byte %d' % at)
        self.at = at


def tokens(source):
    """The tokens of a source, in their order."""
    if len(source) > LONGEST:
        raise NoTree(0)
    found, at, depth = [], 0, Depth()
    while at < len(source):
        match = TOKEN.match(source, at)
        if not match:
            raise NoTree(at)
        at = match.end()
        text = match.group('t')
        if text:
            found.append(Token(text, match.start(), at))
            depth.take(found[-1])
            if text.isdigit() and (int(text) > 2**31 - 1 or text != str(int(text))):
                raise NoTree(match.start())
            if text == 'asm':
                at = asm_text(source, at, found)
                depth.take(found[-1])
    depth.take(Token('', at, at))
    return found


class Depth:
    """How many brackets are open, and how many tokens came since the last `;`, `{` or `}`: a source that is nested too deeply has no tree."""

    def __init__(self):
        self.open, self.since = 0, 0

    def take(self, token):
        self.since += 1
        if token.text in ('(', '[', '{'):
            self.open += 1
        elif token.text in (')', ']', '}'):
            self.open = max(0, self.open - 1)
        if self.open > 64 or self.since > 512:
            raise NoTree(token.start)
        if token.text in (';', '{', '}'):
            self.since = 0


def asm_text(source, at, found):
    """Adds the asm text behind the word `asm`, and gives the byte behind it."""
    start = BLANKS.match(source, at).end()
    end = source.find('}', start)
    if source[start:start + 1] != '{' or end < 0:
        raise NoTree(start)
    found.append(Token(source[start:end], start, end + 1))
    return end + 1


def line_of(source, at):
    """The line of a byte, from 1."""
    return source.count('\n', 0, at) + 1
