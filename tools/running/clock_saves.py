"""At which step of the machine each turn was complete, by machines that the program saves there: the file names the step.

A turn that ends the run leaves no machine to save. Its step is the least number of steps with which the run comes to its end.
"""
import concurrent.futures
import os
import tempfile

from explain import files
from running import program
from running.guard import Bad

# So many rows at most: each takes a run from the start.
MOST = 4000
AT_ONCE = 4


class Saver:
    """The runs of one image under one schedule, each in a folder of its own, since a run holds its disk."""

    def __init__(self, start, run, turns, steps):
        self.start, self.work, self.turns, self.steps = start, run.work, turns, steps
        self.image, self.schedule = run.boot_words(turns, steps)[1:3]

    def ran(self, words, of_file=False):
        """The status of a command, and the bytes of the file that it put."""
        with tempfile.TemporaryDirectory(dir=self.work) as room:
            saved = os.path.join(room, 'saved')
            status, _ = program.run_to([*self.start, *words, *([saved] if of_file else [])], os.path.join(room, 'text'), room)
            return status, files.content(saved) or b''

    def saved_at(self, turns):
        """The step at which so many turns are complete."""
        status, data = self.ran(['save', self.image, self.schedule, str(turns), str(self.steps)], True)
        if status or len(data) < 20:
            raise Bad('the machine could not be saved after %d turns (status %d), so no step is told' % (turns, status), 70)
        return int.from_bytes(data[12:20], 'little')

    def is_over(self, steps):
        """Whether the run comes to its end within so many steps."""
        return self.ran(['boot', self.image, self.schedule, str(self.turns), str(steps)])[0] in (0, 3)

    def end_after(self, least):
        """The step at which the run ended, which is above a number of steps."""
        most = 1
        while not self.is_over(min(least + most, self.steps)):
            if least + most >= self.steps:
                raise Bad('the run does not come to its end again within %d steps, so no step is told' % self.steps, 70)
            most *= 2
        low, high = least + most // 2, min(least + most, self.steps)
        while low + 1 < high:
            middle = (low + high) // 2
            low, high = (low, middle) if self.is_over(middle) else (middle, high)
        return high


def turn_of(row):
    return int(row.split()[1])


def told(start, run, turns, steps, text):
    """The step of each row of a turn of a boot's text, as the clock's program tells it: the row, and `clock TURNS STEP` behind it."""
    rows = [row for row in text.split(b'\n') if row.startswith(b'turn ')]
    if len(rows) > MOST:
        raise Bad('--clock saves the machine at each turn that called the kernel, and here are {:,}: take fewer than {:,}, by --turns'.format(len(rows), MOST))
    saver = Saver(start, run, turns, steps)
    ends = bool(rows) and (b' fault ' in rows[-1] or rows[-1].endswith(b' next 0'))
    with concurrent.futures.ThreadPoolExecutor(AT_ONCE) as pool:
        found = list(pool.map(lambda row: saver.saved_at(turn_of(row) + 1), rows[:-1] if ends else rows))
    if ends:
        found.append(saver.end_after(found[-1] if found else 0))
    return b''.join(b'%s\nclock %d %d\n' % (row, turn_of(row) + 1, step) for row, step in zip(rows, found))
