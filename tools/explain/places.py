"""Places in files: from a byte to its line and column, and the line with a mark below it."""

WIDTH = 100


def line_at(data, at):
    """The number of the line of a byte, from 1, the line's first byte, and the byte after its last one. The end of the data is a place too."""
    at = max(0, min(at, len(data)))
    start = data.rfind(b'\n', 0, at) + 1
    end = data.find(b'\n', at)
    return data.count(b'\n', 0, at) + 1, start, len(data) if end < 0 else end


def span_of_line(data, number):
    """The first byte of a line that is counted from 1, and the byte after its last one; of a line past the last one the data's end."""
    start = 0
    for _ in range(number - 1):
        end = data.find(b'\n', start)
        if end < 0:
            return len(data), len(data)
        start = end + 1
    end = data.find(b'\n', start)
    return start, len(data) if end < 0 else end


def readable(data):
    """Bytes as a text of one line: each byte that is no text, and each control character but the tab, becomes one sign."""
    text = data.decode('utf-8', errors='replace')
    return ''.join(sign if sign == '\t' or sign.isprintable() else '\u00b7' for sign in text)


def column(data, start, at):
    """The column of a byte in the line that begins at `start`, in characters from 1."""
    return len(readable(data[start:at])) + 1


def marked(data, at, end):
    """The line of a byte, and below it a mark from there up to `end`, which is cut off at the line's end."""
    _, start, stop = line_at(data, at)
    before, inside = readable(data[start:at]), readable(data[at:max(at, min(end, stop))])
    after = readable(data[max(at, min(end, stop)):stop])
    if len(before) > WIDTH // 2:
        before = '.. ' + before[-(WIDTH // 2):]
    room = max(8, WIDTH - len(before) - len(inside))
    inside = inside[:WIDTH]
    if len(after) > room:
        after = after[:room] + ' ..'
    blanks = ''.join('\t' if sign == '\t' else ' ' for sign in before)
    return '    %s%s%s\n    %s^%s' % (before, inside, after.rstrip(), blanks, '~' * (len(inside) - 1))


def shown(name, data, at, end):
    """The file, line and column of a place, and its line with a mark."""
    number, start, _ = line_at(data, at)
    return '%s:%d:%d\n%s' % (name, number, column(data, start, at), marked(data, at, max(end, at + 1)))


def shown_line(name, data, number):
    """A whole line as a place: its marks are from its first sign that is no blank to its last."""
    start, end = span_of_line(data, number)
    line = data[start:end]
    first = start + len(line) - len(line.lstrip(b' \t'))
    last = start + len(line.rstrip(b' \t\r'))
    return shown(name, data, first if first < last else start, max(last, first + 1))
