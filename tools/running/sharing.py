"""Lets all who may read the clone use what is kept in it."""
import os
import stat

from explain import pages


def open_to_readers(folder, top=pages.TOP):
    """Gives a folder and what is in it the permissions to read and to run that the clone's folder has, where they are this user's to give."""
    try:
        allowed = stat.S_IMODE(os.stat(top).st_mode) & 0o555
    except OSError:
        return
    add(os.path.dirname(folder), allowed)
    for path, _, names in os.walk(folder):
        add(path, allowed)
        for name in names:
            # what is no program is read alone
            add(os.path.join(path, name), allowed if os.access(os.path.join(path, name), os.X_OK) else allowed & 0o444)


def add(path, allowed):
    try:
        mode = stat.S_IMODE(os.lstat(path).st_mode)
        if mode | allowed != mode and not os.path.islink(path):
            os.chmod(path, mode | allowed)
    except OSError:
        pass  # another user's: that one has given what there is to give
