"""The proved program: the released one, or crates/cvm/out/cvm, which `rt run` builds after it has proved every crate below it."""
import os
import shutil
import subprocess
import tempfile

from explain import pages
from running import released
from running.guard import Bad, say

TOP = pages.TOP
PROGRAM = os.path.join(TOP, 'crates', 'cvm', 'out', 'cvm')


def changed_since(moment):
    """Whether a source, a specification or the list of crates is newer than a moment."""
    if os.stat(os.path.join(TOP, 'crates.txt')).st_mtime_ns > moment:
        return True
    for folder, folders, names in os.walk(os.path.join(TOP, 'crates')):
        folders[:] = [name for name in folders if name not in ('out', 'data')]
        for name in names:
            if name.endswith(('.rt', '.antt')) and os.stat(os.path.join(folder, name)).st_mtime_ns > moment:
                return True
    return False


def is_current():
    """Whether the program is there and newer than all that it is made of."""
    return os.access(PROGRAM, os.X_OK) and not changed_since(os.stat(PROGRAM).st_mtime_ns)


def build():
    """Proves and builds the program."""
    rt = shutil.which('rt')
    if rt is None:
        raise Bad("the Rattle toolchain's command, rt, is not on the path", 70)
    say('cvm: building the program. A build proves every crate below it first, which is some two hours of work for a processor; '
        './try FOLDER runs the sources at once, without a proof.')
    with tempfile.NamedTemporaryFile(prefix='cvm-build-', suffix='.log', delete=False) as log:
        try:
            subprocess.run([rt, 'run'], cwd=os.path.dirname(os.path.dirname(PROGRAM)), stdin=subprocess.DEVNULL, stdout=subprocess.DEVNULL, stderr=log)
        except BaseException:  # it was stopped, and no log is wanted
            os.remove(log.name)
            raise
    if is_current():
        os.remove(log.name)
        return
    with open(log.name, encoding='utf-8', errors='replace') as file:
        say(file.read().strip().split('\n')[-20:])
    raise Bad('the build failed; its whole log is ' + log.name, 70)


def is_there():
    """Whether a proved program of these sources is there."""
    return released.is_to_be_run() or is_current()


def program():
    """The words that start the proved program, which is built where neither the released one is to be run nor one is current."""
    path, why = released.asked()
    if path:
        return [path]
    say(released.sentence('cvm', why))
    if not is_current():
        build()
    return [PROGRAM]
