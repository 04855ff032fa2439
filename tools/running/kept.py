"""The program as `rt try` builds it from the sources as they are, with no proof, kept until a source changes.

`rt try` builds a program and runs it once. It is given a command that waits for a pipe; while it waits, the program that was built is copied, with the
way in which it was started. Each further command runs that copy, so a change of the sources costs one build and every other command none. What is kept
has the sums of its files beside it, which are taken anew by each call: what is damaged is never run, and built anew.
"""
import contextlib
import fcntl
import hashlib
import json
import os
import shutil
import signal
import subprocess
import tempfile
import time

from explain import pages
from running import guard

TOP = pages.TOP
KEPT = os.path.join(TOP, 'out', 'tried')
# The files of what is kept, and the one with their sums.
PARTS = ('program', 'start')
SUMS = 'sums'
# How many seconds the program may take from where the pipe can be written to until it is seen to have it open.
WAIT = 120


class NoBuild(guard.Bad):
    """Why there is no program to run, in a sentence."""

    def __init__(self, why):
        guard.Bad.__init__(self, why, 70)


def crates_below(name):
    """A crate and those that it stands on, by crates.txt."""
    below = {}
    for line in guard.text_of(os.path.join(TOP, 'crates.txt'), NoBuild).split('\n'):
        head, colon, rest = line.partition('#')[0].partition(':')
        if colon:
            below[head.split()[0]] = rest.split()
    found, left = [], [name]
    while left:
        crate = left.pop()
        if crate in below and crate not in found:
            found.append(crate)
            left += below[crate]
    return sorted(found)


def sources():
    """The files that the program is made of."""
    files = []
    for crate in crates_below('cvm'):
        for folder, _, names in os.walk(os.path.join(TOP, 'crates', crate, 'src')):
            files += [os.path.join(folder, name) for name in names if name.endswith('.rt')]
    return sorted(files)


def toolchain():
    """The toolchain's command, and a text that changes with it."""
    rt = shutil.which('rt')
    if rt is None:
        raise NoBuild("the Rattle toolchain's command, rt, is not on the path")
    real = os.path.realpath(rt)
    about = os.stat(real)
    return rt, '%s %d %d' % (real, about.st_size, about.st_mtime_ns)


def fingerprint(about):
    """A sum over the toolchain and all sources."""
    total = hashlib.sha256(about.encode())
    for path in sources():
        with open(path, 'rb') as file:
            data = file.read()
        total.update(('%s %d\n' % (os.path.relpath(path, TOP), len(data))).encode())
        total.update(data)
    return total.hexdigest()[:24]


def sums_of(folder):
    """The sum of each file of what is kept, of a folder that has these and the file of sums and nothing else; None of any other."""
    names = sorted(name for name in os.listdir(folder) if name != SUMS)
    paths = [os.path.join(folder, name) for name in names]
    if names != sorted(PARTS) or not all(map(os.path.isfile, paths)):
        return None
    found = {}
    for name, path in zip(names, paths):
        with open(path, 'rb') as file:
            found[name] = hashlib.sha256(file.read()).hexdigest()
    return found


def put_sums(folder):
    """Writes down the sums of what was built."""
    with open(os.path.join(folder, SUMS), 'w', encoding='utf-8') as file:
        json.dump(sums_of(folder), file)


def is_whole(folder):
    """Whether what is kept is what was built, and can be run."""
    sums, program = os.path.join(folder, SUMS), os.path.join(folder, 'program')
    try:
        if not os.path.isfile(sums) or not os.access(program, os.X_OK):
            return False
        with open(sums, encoding='utf-8') as file:
            found = json.load(file)
        return found is not None and found == sums_of(folder)
    except (OSError, ValueError):
        return False


def remove(path):
    """Removes a folder, or a file in its place."""
    if os.path.isdir(path) and not os.path.islink(path):
        shutil.rmtree(path, ignore_errors=True)
    elif os.path.lexists(path):
        os.remove(path)


def readers(path):
    """The processes, other than this one, that have a file open, with the words that started each."""
    found = []
    for name in os.listdir('/proc'):
        if not name.isdigit() or int(name) == os.getpid():
            continue
        try:
            opened = os.listdir('/proc/%s/fd' % name)
            if any(os.readlink('/proc/%s/fd/%s' % (name, fd)) == path for fd in opened):
                with open('/proc/%s/cmdline' % name, 'rb') as file:
                    found.append(file.read().split(b'\0')[:-1])
        except OSError:
            continue
    return found


def start_of_reader(pipe, words):
    """The words before these that started the process which reads from the pipe; None where no process has it open yet."""
    given = [os.fsencode(word) for word in words]
    for line in readers(pipe):
        if len(line) > len(given) and line[-len(given):] == given:
            return [os.fsdecode(word) for word in line[:-len(given)]]
    return None


def copy_program(pipe, words, to, tool):
    """Copies the program that waits for the pipe, and writes down how it was started.

    The pipe can be written to a moment before the program's own call that opens it has come back, and on a busy machine that moment can be long. As long
    as the pipe is open here, the program waits for what is written.
    """
    until = time.monotonic() + WAIT
    while tool.poll() is None and time.monotonic() < until:
        start = start_of_reader(pipe, words)
        if start:
            shutil.copy(start[-1], os.path.join(to, 'program'))
            with open(os.path.join(to, 'start'), 'w', encoding='utf-8') as file:
                json.dump(start[:-1], file)
            return
        time.sleep(0.05)
    raise NoBuild('the program that waits for the pipe could not be found among the processes')


def wait_for_reader(pipe, tool):
    """Waits until the program has opened the pipe to read from it, and gives the end to write to; None where the tool ended before."""
    while tool.poll() is None:
        try:
            return os.open(pipe, os.O_WRONLY | os.O_NONBLOCK)
        except OSError:
            time.sleep(0.05)
    return None


def stop(tool):
    """Ends a tool that this process started, and waits for it."""
    if tool.poll() is None:
        tool.send_signal(signal.SIGTERM)
    tool.wait()


@contextlib.contextmanager
def made_room(prefix, within):
    """A new folder, which is removed where it still stands afterwards, however this ends."""
    room = None
    try:
        room = tempfile.mkdtemp(prefix=prefix, dir=within)
        yield room
    finally:
        if room:
            shutil.rmtree(room, ignore_errors=True)


def start_build(rt, words, log):
    """Starts the toolchain, which builds the program and runs it with these words."""
    with open(log, 'wb') as out:
        return subprocess.Popen([rt, 'try', '--seconds', '900', '--', *words], cwd=os.path.join(TOP, 'crates', 'cvm'), stdin=subprocess.DEVNULL, stdout=out, stderr=out)


def build_into(rt, folder):
    """Builds the program by one run of the toolchain, and copies it into a folder."""
    with made_room('cvm-build-', None) as room:
        pipe, image, log = (os.path.join(room, name) for name in ('pipe.s', 'pipe.img', 'log'))
        os.mkfifo(pipe)
        words = ['compile', 'user', pipe, image]
        tool = start_build(rt, words, log)
        try:
            end = wait_for_reader(pipe, tool)
            if end is None:
                with open(log, encoding='utf-8', errors='replace') as file:
                    tail = file.read().strip().split('\n')[-20:]
                raise NoBuild('the toolchain could not run the sources. The end of what it said:\n' + '\n'.join('  ' + line for line in tail))
            copy_program(pipe, words, folder, tool)
            os.close(end)
            tool.wait()
        finally:
            stop(tool)


def take(lock, say):
    """Takes the lock of those who build, and says so where it has to wait for another call."""
    try:
        fcntl.flock(lock, fcntl.LOCK_EX | fcntl.LOCK_NB)
    except BlockingIOError:
        say('try: waits for another call, which builds the program.')
        fcntl.flock(lock, fcntl.LOCK_EX)


def keep(within, name, what, make, say):
    """Makes what is to be kept under a name in a folder, in place of all earlier ones, unless another call is at it or has done so."""
    if not os.path.isdir(within):
        remove(within)
    os.makedirs(within, exist_ok=True)
    with open(os.path.join(within, 'lock'), 'w', encoding='utf-8') as lock:
        take(lock, say)
        kept = os.path.join(within, name)
        if is_whole(kept):
            return
        damaged = "what was kept in '%s' is damaged: " % kept if os.path.lexists(kept) else ''
        say('try: %sbuilds %s' % (damaged, what))
        with made_room('new-', within) as new:
            make(new)
            put_sums(new)
            for old in os.listdir(within):
                path = os.path.join(within, old)
                if path == kept or os.path.isdir(path) and path != new:
                    remove(path)
            os.rename(new, kept)


def build(rt, name, say):
    """Builds the program, unless another call is at it or has done so, and keeps it under a name."""
    what = 'the sources as they are, with no proof: about a minute of a processor. The build is kept until a source changes.'
    keep(KEPT, name, what, lambda new: build_into(rt, new), say)


def start_of(folder):
    """The words that start what is kept."""
    with open(os.path.join(folder, 'start'), encoding='utf-8') as file:
        return [*json.load(file), os.path.join(folder, 'program')]


def forget():
    """Removes what is kept, so that the next call builds."""
    remove(KEPT)


def is_kept():
    """Whether the program of these sources is there."""
    try:
        return is_whole(os.path.join(KEPT, fingerprint(toolchain()[1])))
    except NoBuild:
        return False


def program(say):
    """The words that start the program of these sources, which is built where it is not kept."""
    rt, about = toolchain()
    name = fingerprint(about)
    kept = os.path.join(KEPT, name)
    if not is_whole(kept):
        build(rt, name, say)
    return start_of(kept)
