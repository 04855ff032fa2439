"""Folders for what a call makes on its way: removed when it ends, and where it was killed by the next call."""
import contextlib
import os
import re
import shutil
import tempfile

from explain import words as command_words
from running.guard import Bad


def is_alive(process):
    """Whether a process of this number runs."""
    try:
        os.kill(process, 0)
    except ProcessLookupError:
        return False
    except OSError:
        pass  # another user's
    return True


def clear(prefix, within):
    """Removes the folders of calls that were killed: of this user, and of processes that run no more."""
    try:
        names = os.listdir(within)
    except OSError:
        return
    for name in names:
        match = re.fullmatch(re.escape(prefix) + r'(\d+)-\w+', name)
        path = os.path.join(within, name)
        try:
            if match and os.lstat(path).st_uid == os.getuid() and not is_alive(int(match[1])):
                shutil.rmtree(path, ignore_errors=True)
        except (OSError, OverflowError):
            continue


def place():
    """The folder for such folders, whose name has to be UTF-8, since it stands in the words of commands."""
    within = tempfile.gettempdir()
    if not command_words.is_text(within):
        raise Bad("the folder for temporary files, '%s', is not UTF-8, and no word of a command may be so: give another one, as by TMPDIR=/tmp" % within)
    return within


@contextlib.contextmanager
def room(prefix):
    """A new folder for this call, without links in its name."""
    within = place()
    clear(prefix, within)
    made = None
    try:
        made = tempfile.mkdtemp(prefix='%s%d-' % (prefix, os.getpid()), dir=within)
        yield os.path.realpath(made)
    finally:
        if made:
            shutil.rmtree(made, ignore_errors=True)
