"""The words of ./try that ask to look into a run."""
import os
import re

from explain import words as command_words
from running.guard import Bad

OPTIONS = ('--show', '--user', '--kernel', '--watch', '--break', '--listing')
HELP = '''  --show [A..B]       in place of the boot, what each turn from A to B did, with its source lines; without A..B the last 40 turns
  --user U, --kernel  of that the steps of this user alone, or the kernel's calls alone
  --watch NAME        in place of the boot, each change of a global (ticks, queue[2], slots[1].user) or of user1.r4, user1.pc, user1.mem[64]
  --break FILE:LINE   in place of the boot, the whole state each time that this line of the kernel or of a user is reached
  --listing           runs nothing, and prints the lines of the kernel and of the users with the words that they became'''
MOST = 2**32 - 1


class Wanted:
    """What is asked of a run: `turns` is None, `last` or a pair; the others are lists, a user's number or None, and a flag."""

    def __init__(self):
        self.turns, self.user, self.kernel, self.watch, self.breaks, self.listing = None, None, False, [], [], False

    @property
    def anything(self):
        return bool(self.turns or self.watch or self.breaks or self.listing)

    def take(self, word, left):
        """Takes an option with the words behind it."""
        if word == '--kernel':
            self.kernel = True
        elif word == '--listing':
            self.listing = True
        elif word == '--show':
            self.turns = turns_of(left.pop(0)) if left and re.match(r'-?\d+(\.\.|$)|\.\.', left[0]) else 'last'
        elif not left:
            raise Bad('behind %s a word is missing' % word)
        elif word == '--user':
            self.user = number(left.pop(0), '--user', 1, 64)
        elif word == '--watch':
            self.watch.append(left.pop(0))
        else:
            self.breaks.append(place_of(left.pop(0)))

    def fault(self, options):
        """What does not go together, in a sentence; None where all does."""
        others = options.trace or options.picture is not None or options.extras.expect is not None or options.extras.clock or options.extras.only
        if self.turns == 'last' and len(options.folders) > 1:
            odd = next((name for name in options.folders if not os.path.isdir(name)), None)
            if odd is not None:
                return "'%s' is no folder, nor turns behind --show: those are A..B or one number" % odd
        if self.anything and (len(options.folders) > 1 or others):
            return '--show, --watch, --break and --listing are for one folder, without --trace, --picture, --expect, --clock and --only'
        if (self.user or self.kernel) and not self.turns:
            return "'--user' and '--kernel' narrow what '--show' shows, and it is missing"
        if self.user and self.kernel:
            return "'--user' and '--kernel' are for one of both: without them '--show' shows all"
        if bool(self.turns) + bool(self.watch) + bool(self.breaks) > 1 and not (self.turns and self.turns != 'last'):
            return "'--watch' and '--break' go with '--show A..B', which says of which turns; '--show' alone is for itself, and so is each of them"
        if self.listing and (self.turns or self.watch or self.breaks):
            return "'--listing' runs nothing: leave out --show, --watch and --break"
        if self.watch and self.breaks:
            return "'--watch' and '--break' are for one run each"
        return None


def number(word, name, least, most):
    why = command_words.number_fault(word, least, most)
    if why:
        raise Bad("the word behind %s, '%s', %s" % (name, word, why))
    return int(word)


def turns_of(word):
    """The first and the last turn of A..B; of a number alone that turn."""
    first, dots, last = word.partition('..')
    if dots and not (first and last):
        raise Bad("the word behind --show, '%s', is to be A..B: a turn stands on either side" % word)
    found = number(first, '--show', 0, MOST), number(last if dots else first, '--show', 0, MOST)
    if found[0] > found[1]:
        raise Bad("the word behind --show, '%s', ends before it begins: A..B has the first turn first" % word)
    return found


def place_of(word):
    """The file and the line of FILE:LINE."""
    name, colon, line = word.rpartition(':')
    if not colon or not name:
        raise Bad("the word behind --break, '%s', is to be FILE:LINE, as kernel.c0:12" % word)
    return name, number(line, '--break', 1, MOST)
