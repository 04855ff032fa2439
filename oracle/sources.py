"""Sources with their lines: which line a byte stands in, and the text of a part in one line."""
import bisect


class Source:
    """A source by its name; `text` has one character a byte."""

    def __init__(self, name, text):
        self.name, self.text = name, text
        self.starts = [0] + [at + 1 for at, byte in enumerate(text) if byte == '\n']

    def line(self, at):
        """The line of a byte, from 1."""
        return bisect.bisect_right(self.starts, at)

    def line_text(self, number):
        """A line without its blanks at both ends."""
        start = self.starts[number - 1]
        end = self.text.find('\n', start)
        return self.text[start:end if end >= 0 else len(self.text)].strip()

    @property
    def lines(self):
        return len(self.starts)

    def part(self, span):
        """A part of the source in one line."""
        return ' '.join(self.text[span[0]:span[1]].split())

    def where(self, number):
        return '%s:%d' % (self.name, number)
