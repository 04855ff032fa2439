"""The pages of docs/ as tables: the commands and the words of saved machines of FORMATS.md, and the refusals of REFUSALS.md."""
import os
import re

TOP = os.path.dirname(os.path.dirname(os.path.dirname(os.path.abspath(__file__))))


def page(name):
    """The text of a page of docs/; empty where it can't be read."""
    try:
        with open(os.path.join(TOP, 'docs', name), encoding='utf-8', errors='replace') as file:
            return file.read()
    except OSError:
        return ''


def cells(line):
    """The cells of a row of a table, in which `\\|` stands for `|`; none where the line is no row."""
    line = line.strip()
    if not line.startswith('|') or not line.endswith('|') or len(line) < 2:
        return []
    return [cell.strip().replace('\\|', '|') for cell in re.split(r'(?<!\\)\|', line[1:-1])]


class Refusal:
    """A row of docs/REFUSALS.md: the number or a kernel fault's name, the name, its fields, when it comes, and what to do."""

    def __init__(self, row):
        self.key = row[0]
        self.name, *self.fields = [part.strip() for part in row[1].split(',')]
        self.when, self.example, self.remedy = row[2], row[3], row[4]


def refusals():
    """Each row of docs/REFUSALS.md by its number or its name, as a text."""
    rows = {}
    for line in page('REFUSALS.md').split('\n'):
        row = cells(line)
        if len(row) == 5 and re.fullmatch(r'\d+|(?!Name$)[A-Z]\w+', row[0]):
            rows[row[0]] = Refusal(row)
    return rows


def saved_word(place):
    """What docs/FORMATS.md says of a word of a saved machine, with its range; None where it has no row of its own."""
    section = page('FORMATS.md').partition('\n## Saved machine\n')[2].partition('\n## ')[0]
    for row in map(cells, section.split('\n')):
        if len(row) == 3 and re.match(r'%d(,|$)' % place, row[0]):
            return row[1] + (': ' + row[2] if row[2] else '')
        if len(row) == 3 and re.fullmatch(r'(\d+) to (\d+)', row[0]):
            least, most = map(int, row[0].split(' to '))
            if least <= place <= most:
                return row[1] + (': ' + row[2] if row[2] else '')
    return None


def forms():
    """The forms of the commands, as lists of words, from docs/FORMATS.md: words in capitals stand for what is given."""
    section = page('FORMATS.md').partition('\n## Commands\n')[2].partition('\n## ')[0]
    return [line.split()[1:] for line in section.split('\n') if line.startswith('    cvm ')]


def require(bad):
    """Raises a fault where the pages from which the commands are read are not there."""
    if not forms():
        raise bad("the commands are read from '%s', which is missing or has no section 'Commands': git -C '%s' checkout docs brings it back" % (os.path.join(TOP, 'docs', 'FORMATS.md'), TOP), 70)
