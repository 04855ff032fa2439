"""The released program, as release/path answers of it: where it lies, unpacked and checked, or why it isn't to be run."""
import atexit
import functools
import os
import shutil
import subprocess
import tempfile

from explain import pages
from running import rooms
from running.guard import Bad

PATH = os.path.join(pages.TOP, 'release', 'path')
PREFIX = 'cvm-released-'
# The status of release/path where the clone has no room for the unpacked program.
NO_ROOM = 3


def answer_of(words):
    """The status of release/path with these words, and what it says."""
    try:
        ran = subprocess.run([PATH, *words], stdin=subprocess.DEVNULL, stdout=subprocess.PIPE, stderr=subprocess.STDOUT)
    except OSError as error:
        return 1, "'%s' can't be started: %s" % (PATH, error.strerror)
    return ran.returncode, os.fsdecode(ran.stdout).strip()


def room():
    """A folder that is removed when this process ends."""
    rooms.clear(PREFIX, tempfile.gettempdir())
    made = tempfile.mkdtemp(prefix='%s%d-' % (PREFIX, os.getpid()))
    atexit.register(shutil.rmtree, made, ignore_errors=True)
    return made


@functools.lru_cache(maxsize=None)
def asked(*words):
    """What release/path says of the program where it is to be run; or None, and why it isn't."""
    status, said = answer_of(words)
    if status == NO_ROOM:
        try:
            status, said = answer_of([*words, room()])
        except OSError:  # there is none elsewhere either
            pass
    return (None, said) if status else (said, None)


def is_to_be_run():
    return asked()[0] is not None


def sentence(tool, why):
    """Why the released program isn't run."""
    return "%s: the released program isn't run: %s" % (tool, why)


def version(other, there=False):
    """What program is run: the released one, or the other that is named, which is there or can be built."""
    said, why = asked('--version')
    if said:
        return said
    if not there and shutil.which('rt') is None:
        raise Bad("the released program isn't run: %s; and the Rattle toolchain's command, rt, which builds another, is not on the path" % why, 70)
    return "%s (the released program isn't run: %s)" % (other, why)
