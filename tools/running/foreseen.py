"""What is seen of a command's files before it is run: one file in two roles, or a file of `save` that can't be put when the run is over.

The program itself refuses a file in two roles where it meets one; behind this tool it has a pipe as standard output, and a save would have run before.
"""
import os
import stat

from explain import files, words as command_words

DISK = 'cvm.disk'


def identity(about):
    """Which file it is, whatever names lead to it; None of a device of characters, as a terminal, which keeps nothing of what is written."""
    return None if stat.S_ISCHR(about.st_mode) else (about.st_dev, about.st_ino)


def identity_of(name):
    """Which file a name leads to; None where there is none."""
    try:
        return identity(os.stat(name))
    except (OSError, ValueError):
        return None


def output():
    """Which file standard output is."""
    try:
        return identity(os.fstat(1))
    except OSError:
        return None


def becomes_disk(name):
    """Whether a put to a name that leads nowhere yet would be to the file that becomes the disk's."""
    return not os.path.exists(name) and os.path.realpath(name) == os.path.realpath(DISK)


def role_fault(gets, puts):
    """Which file would have two roles, in a sentence; None where each has one."""
    disk, out = identity_of(DISK), output()
    for name in [*gets, *puts]:
        which = identity_of(name)
        if which and which == disk or name in puts and becomes_disk(name):
            return "'%s' is the disk's file%s, and no command gets or puts that" % (name, '' if name == DISK else ", '%s'" % DISK)
        if which and which == out:
            return "'%s' is standard output, too, and what is printed would be lost or stand in it" % name
    for name in puts:
        got = next((other for other in gets if identity_of(other) and identity_of(other) == identity_of(name)), None)
        if got is not None:
            return "'%s' would be put over '%s', which the command gets: give another name" % (name, got) if got != name \
                else "'%s' would be put over itself, as the command gets it: give another name" % name
    return None


def fault(words):
    """The status and the sentence of a command that would fail by its files; None of any other."""
    gets, puts = command_words.files(words)
    if output() and output() == identity_of(DISK):
        return 7, "standard output is 'cvm.disk', the disk's file; nothing was done"
    found = role_fault(gets, puts)
    if not found and words[:1] == ['save']:
        found = next(filter(None, map(files.put_fault, puts)), None)
    return (6, 'a file could not be had: %s.' % found) if found else None
