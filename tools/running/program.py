"""Runs the program with words, its standard output going where it is to go, and keeps the last rows that it printed."""
import os
import subprocess

from running import parting, pipes
from running.guard import Bad

MOST_OF_A_ROW = 65536


def last_rows(text):
    """The last two lines of bytes that aren't empty, as texts; fewer where there are fewer."""
    rows = text[-MOST_OF_A_ROW:].decode('utf-8', errors='replace').split('\n')
    return [row for row in rows if row][-2:]


def write(part):
    """Writes bytes to standard output, all of them."""
    at = 0
    while at < len(part):
        at += os.write(1, part[at:])


def put(part):
    """Writes bytes to standard output; where that fails the tool ends with status 7, as the program does."""
    try:
        write(part)
    except OSError as error:
        raise Bad('standard output could not be written to the end: %s' % error.strerror, 7) from None


def put_line(line):
    """Writes a line to standard output; the bytes of names that aren't UTF-8 as they are."""
    put((line + '\n').encode('utf-8', errors='surrogateescape'))


def text(name):
    """A name as a text that can be written anywhere."""
    return name.encode('utf-8', errors='surrogateescape').decode('utf-8', errors='replace')


def copied(source):
    """Copies what comes from a pipe to standard output. Gives the end of it, and whether it could not be written."""
    kept = b''
    while True:
        part = os.read(source.fileno(), 65536)
        if not part:
            return kept, False
        kept = (kept + part)[-MOST_OF_A_ROW:]
        try:
            write(part)
        except OSError:
            return kept, True


def told_status(status):
    """The status of a program as a shell tells it: 128 and the signal's number of one that a signal ended."""
    return 128 - status if status < 0 else status


def run_here(command, gets=(), puts=()):
    """Runs a command and copies its standard output to this process's. Gives its status and the last rows. It ends with this process.

    Where the copy can't be written, the status is 7, as the program's own is then. A pipe among the files that it gets or puts is not waited for.
    A write past the limit of a file's size (`ulimit -f`) is an error that the program is told, and no signal: that one stays ignored, as it is here.
    """
    program = subprocess.Popen(command, stdin=subprocess.DEVNULL, stdout=subprocess.PIPE, preexec_fn=parting.with_caller(), restore_signals=False)
    try:
        pipes.wait_for_output(program, gets, puts)
        kept, failed = copied(program.stdout)
        program.stdout.close()
        status = program.wait()
    except BaseException:  # this tool was stopped, and so is the program
        program.kill()
        raise
    return (7 if failed else told_status(status)), last_rows(kept)


def run_to(command, path, folder=None):
    """Runs a command in a folder; its standard output goes to a file. Gives its status and the last rows. It ends with this process."""
    with open(path, 'wb') as out:
        ran = subprocess.run(command, cwd=folder, stdin=subprocess.DEVNULL, stdout=out, preexec_fn=parting.with_caller(), restore_signals=False)
        status = told_status(ran.returncode)
    with open(path, 'rb') as out:
        out.seek(0, os.SEEK_END)
        out.seek(max(0, out.tell() - MOST_OF_A_ROW))
        return status, last_rows(out.read())
