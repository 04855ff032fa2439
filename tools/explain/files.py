"""Why a file can't be got or put, in a sentence that names it."""
import errno
import os
import stat

MOST = 67108864


def get_fault(name):
    """Why the file of a name can't be got; None where it can."""
    if not name:
        return 'no file has the empty name'
    if not os.path.lexists(name):
        folder = os.path.dirname(name)
        missing = folder and not os.path.isdir(folder)
        return "there is no file '%s'%s" % (name, ", nor a folder '%s'" % folder if missing else '')
    if not os.path.exists(name):
        return "'%s' is a link to a file that isn't there" % name
    if os.path.isdir(name):
        return "'%s' is a folder, and a file is to stand there" % name
    if not os.access(name, os.R_OK):
        return "'%s' can't be read: look at its permissions" % name
    try:
        status = os.stat(name)
        if not stat.S_ISREG(status.st_mode):
            return None
        if status.st_size > MOST:
            return "'%s' has more than 67,108,864 bytes" % name
        with open(name, 'rb') as file:
            file.read(1)
    except OSError as error:
        return "'%s' can't be read: %s" % (name, error.strerror)
    return None


def is_too_long(name):
    """Whether a name is longer than the file's system takes."""
    try:
        os.lstat(name)
    except OSError as error:
        return error.errno == errno.ENAMETOOLONG
    return False


def put_fault(name):
    """Why the file of a name can't be put; None where that can't be told without a try."""
    if not name:
        return 'no file has the empty name'
    real = os.path.realpath(name) if os.path.islink(name) and not os.path.exists(name) else name
    folder = os.path.dirname(real) or '.'
    if os.path.isdir(name):
        return "'%s' is a folder, and no file can be put there" % name
    if is_too_long(real):
        return "'%s' can't be put: its name is too long" % name
    if not os.path.isdir(folder):
        return "'%s' can't be put: there is no folder '%s'" % (name, folder)
    if os.path.exists(name) and not os.access(name, os.W_OK):
        return "'%s' can't be written: look at its permissions" % name
    if not os.path.exists(name) and not os.access(folder, os.W_OK):
        return "'%s' can't be made: look at the permissions of its folder" % name
    return None


def content(name):
    """The bytes of a file; None where it can't be read."""
    try:
        with open(name, 'rb') as file:
            return file.read(MOST + 1)
    except (OSError, ValueError):
        return None


def stored(name):
    """The bytes of a file that can be read again; None of a pipe or a device, whose bytes would be gone, and where there is none."""
    return content(name) if os.path.isfile(name) else None
