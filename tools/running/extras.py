"""The options of ./try that grade a class and that tell the time of a run: --expect, --within, --with, --take, --timer, --clock and --only."""
import os

from explain import files
from running import clock, clock_saves, expected, mixed, only, pipes, timer
from running.folder import BadFolder, Folder, user_names
from running.guard import Bad, say

HELP = '''  --expect FILE       prints of each folder only whether what it prints is as this file has it: of each kind of row that the file names (turn, global, con,
                      user 1, the end ..) all rows are compared. '*' stands for any word, and 'con ..' says that other rows of that kind may come between
  --within            with --expect: whether the rows of the file come in this order, whatever comes between
  --with FOLDER       params, schedule and users of this folder, and of each other folder the kernel alone
  --take NAME,NAME..  with --with: these files of each other folder, in place of kernel.c0
  --timer PERIOD:LINE raises a line every PERIOD steps, too; line 0 where none is given
  --clock             prints beside each row of a turn at which step of the machine the turn was complete
  --only KIND,KIND..  prints the rows of these kinds alone, as con,global; the console's words as decimals and letters, too;
                      text among them prints these words as a text'''
FLAGS = ('--within', '--clock')


class Extras:
    """What these options say."""

    def __init__(self):
        self.expect, self.within = None, False
        self.teacher, self.take = None, None
        self.timer, self.clock, self.only = None, False, None
        # what the expectation has, once it is read
        self.wanted = None

    def set_flag(self, word):
        setattr(self, word[2:], True)

    def taken(self):
        """What each option with a word behind it does with that word."""
        return {'--expect': lambda word: setattr(self, 'expect', word),
                '--with': lambda word: setattr(self, 'teacher', word),
                '--take': lambda word: setattr(self, 'take', mixed.names_of(word)),
                '--timer': lambda word: setattr(self, 'timer', timer.Timer(word)),
                '--only': lambda word: setattr(self, 'only', only.kinds_of(word))}

    def check(self, options):
        """Looks whether the options go together, before the toolchain starts."""
        if self.within and self.expect is None:
            raise Bad('--within says how --expect FILE compares: give --expect, too')
        if self.take is not None and self.teacher is None:
            raise Bad('--take names the files that --with FOLDER leaves to each folder: give --with, too')
        if self.clock and (options.trace or self.expect is not None):
            raise Bad('--clock tells the steps of a boot: leave out --trace and --expect')
        if self.only and self.expect is not None:
            raise Bad('--only chooses what is printed, and with --expect nothing of a run is: leave it out')
        if self.timer:
            self.timer.check(options.steps)
        if self.expect is not None:
            self.read_expectation()
        if self.teacher is not None:
            self.check_teacher()

    def read_expectation(self):
        fault = files.get_fault(self.expect)
        if fault:
            raise Bad(fault)
        self.wanted = pipes.content(self.expect)
        fault = expected.fault(self.wanted)
        if fault:
            raise Bad("'%s' %s" % (self.expect, fault))

    def check_teacher(self):
        if not os.path.isdir(self.teacher):
            raise Bad(files.get_fault(self.teacher) or "'%s' is no folder, and --with takes params, schedule and users from one" % self.teacher)
        try:
            user_names(self.teacher)
        except BadFolder as bad:
            raise Bad(str(bad)) from None
        for name in ('params', 'schedule'):
            fault = None if name in (self.take or ()) else files.get_fault(os.path.join(self.teacher, name))
            if fault:
                raise Bad(fault)

    def folder(self, path):
        """The system of a folder that was given."""
        if self.teacher is None:
            return Folder(path)
        return mixed.Mixed(path, self.teacher, self.take or [mixed.KERNEL])

    def answer(self, text, status, said):
        """What is not as expected of a run, in one line; None where all is."""
        return expected.answer(self.wanted, text, status, said, self.within)

    def begin(self, options):
        """Builds what these options need beside the program. The words that start the clock's program where it tells the steps, or none."""
        return clock.start(say) if self.clock and is_checked(options) else None

    def put(self, put):
        """Puts the chosen rows alone, where some are chosen."""
        return put if not self.only else lambda text: put(only.chosen(text, self.only))

    def prepare(self, run, options, said):
        """What a run needs between its build and its boot."""
        if self.timer:
            timer.put_copy(run, self.timer, options.steps, said)

    def boot(self, run, options, clock_start):
        """Boots a run, with the steps beside its turns where these are wanted. Gives the status of the boot."""
        if not self.clock:
            return run.boot(options.turns, options.steps)
        put, text = run.put, []
        run.put = text.append
        try:
            status = run.boot(options.turns, options.steps)
        finally:
            run.put = put
        whole = b''.join(text)
        if status in (0, 3, 4):
            whole = clock.beside(whole, self.told(run, options, clock_start, whole))
        put(whole)
        return status

    def told(self, run, options, clock_start, text):
        """The steps of a boot's turns: of the program that is built with checks by the clock's own program, of a fast one by machines that it saves."""
        if clock_start:
            return clock.told(clock_start, run, run.boot_words(options.turns, options.steps))
        return clock_saves.told(run.start, run, options.turns, options.steps, text)


def is_checked(options):
    """Whether the program is the one that is built with checks, which is slow, and takes the toolchain."""
    return getattr(options, 'checked', not options.proved)
