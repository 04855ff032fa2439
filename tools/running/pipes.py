"""Pipes where files are to stand: none is waited for longer than a second where nobody has its other end."""
import errno
import os
import select
import stat
import time

from explain import files
from running.guard import Bad

# The number of the call that opens a file, on the one machine that the program runs on (x86-64 Linux).
OPENAT = '257'


def is_pipe(name):
    try:
        return stat.S_ISFIFO(os.stat(name).st_mode)
    except (OSError, ValueError):
        return False


def content(name):
    """The bytes of a file or a pipe, of which there are no more than a text may have; a pipe that nobody writes to has none."""
    number, parts, length = os.open(name, os.O_RDONLY | os.O_NONBLOCK), [], 0
    try:
        while length <= files.MOST:
            select.select([number], [], [], 1)
            try:
                part = os.read(number, 1 << 20)
            except BlockingIOError:
                continue  # somebody writes to the pipe, and has not done so yet
            if not part:
                return b''.join(parts)
            parts.append(part)
            length += len(part)
    finally:
        os.close(number)
    raise Bad("'%s' has more than 67,108,864 bytes" % name)


def put(name, data):
    """Puts bytes to a file or a pipe; the pipe's other end is to be there within a second."""
    end, way = time.monotonic() + 1, os.O_WRONLY | (os.O_NONBLOCK if is_pipe(name) else os.O_CREAT | os.O_TRUNC)
    while True:
        try:
            number = os.open(name, way, 0o666)
            break
        except OSError as error:
            if error.errno != errno.ENXIO:
                raise
            if time.monotonic() > end:
                raise Bad("nobody reads from the pipe '%s'" % name, 70) from None
        time.sleep(0.05)
    os.set_blocking(number, True)
    try:
        with open(number, 'wb') as file:
            file.write(data)
    except OSError as error:
        raise Bad("'%s' could not be written to its end: %s" % (name, error.strerror), 70) from None


def opening(process):
    """Whether a process waits in the call that opens a file: 'read' or 'write', as it is to be opened; None where it doesn't, or the host doesn't tell."""
    try:
        with open('/proc/%d/syscall' % process, encoding='ascii') as file:
            words = file.read().split()
        return None if words[:1] != [OPENAT] else 'write' if int(words[3], 16) & 3 else 'read'
    except (OSError, ValueError, IndexError):
        return None


def wait_for_output(program, gets, puts):
    """Waits until a program prints or ends. Where it waits for a second to open a pipe whose other end nobody has, it is ended, and a sentence says so."""
    named = {'read': list(filter(is_pipe, gets)), 'write': list(filter(is_pipe, puts))}
    if not named['read'] and not named['write']:
        return
    while not select.select([program.stdout], [], [], 1)[0]:
        way = opening(program.pid)
        if way and named[way]:
            program.kill()
            program.wait()
            program.stdout.close()
            raise Bad('a file could not be had: nobody %s the pipe %s' % ({'read': 'writes to', 'write': 'reads from'}[way], ' or '.join("'%s'" % name for name in named[way])), 6)
