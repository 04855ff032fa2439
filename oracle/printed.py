"""What a boot printed, read back: the rows of its turns, its end and its report."""
import re

TURN = re.compile(r'turn (\d+) cause (\d+) data ([0-9a-f]{8}) user (\d+) (?:next (\d+)|fault (\w+))')
ENDS = ('halted', 'stopped', 'saved')


class Printed:
    """The text of a boot, which may be cut off: `rows` has (turn, row) of each turn that called the kernel, `lines` which turn took which lines, `end`
    `halted`, `stopped`, `fault NAME` or None, and `report` the rows behind it."""

    def __init__(self, text):
        self.rows, self.lines, self.end, self.report = [], {}, None, []
        for row in text.split('\n'):
            match = TURN.fullmatch(row)
            if match and self.end is None:
                self.rows.append((int(match[1]), row))
                if match[2] == '1':
                    self.lines[int(match[1])] = int(match[3], 16)
                if match[6]:
                    self.end = 'fault ' + match[6]
            elif row in ENDS and self.end is None:
                self.end = row
            elif row and self.end is not None:
                self.report.append(row)
        self.by_turn = dict(self.rows)

    @property
    def last(self):
        """The last turn that has a row; -1 where none has."""
        return self.rows[-1][0] if self.rows else -1
