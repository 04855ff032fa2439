"""release/build: makes the released program, and compares it with the one that is stored."""
import contextlib
import gzip
import hashlib
import os
import shutil
import subprocess
import tempfile

from explain import files, pages
from running import kept, program, released
from running.guard import Bad, say

TOP = pages.TOP
RELEASE = os.path.join(TOP, 'release')
# Where the program lies in a clone in which it was built.
BUILT = os.path.join('crates', 'cvm', 'out', 'cvm')
# How many bytes the packed program has at most.
MOST = 1000000

USAGE = '''release/build                  proves and builds the program from the sources alone, several crates at a time: some two hours of work for a processor,
                               but for what a run of the toolchain on this machine has proved of the same files and kept
release/build --anew           the same, and takes nothing that was kept
release/build --from PROGRAM   takes the program that a gate or `rt run` has just built: crates/cvm/out/cvm of a clone with these sources
Either says `the same` where it is the stored one, and else stores it.
release/build --same PROGRAM   stores nothing; its status is 1 where a program that was just built so is another than the stored one'''


def kit():
    """The toolchain's command, its folder, and what `rt version` says."""
    rt = shutil.which('rt')
    if rt is None:
        raise Bad("the Rattle toolchain's command, rt, is not on the path", 70)
    ran = subprocess.run([rt, 'version'], stdin=subprocess.DEVNULL, stdout=subprocess.PIPE, text=True)
    return rt, os.path.dirname(os.path.dirname(os.path.realpath(rt))), ran.stdout.strip()


def files_below(top):
    """The files of which a clone's program is made, and crates.txt, by their names below the clone."""
    found = ['crates.txt']
    for crate in kept.crates_below('cvm'):
        for part in ('src', 'specs', 'proofs'):
            for folder, _, names in os.walk(os.path.join(top, 'crates', crate, part), followlinks=True):
                found += [os.path.relpath(os.path.join(folder, name), top) for name in names if name.endswith(('.rt', '.antt'))]
    return sorted(found)


def sum_of_sources(top):
    """The sum over a clone's sources, specifications and proofs, as release/path makes it."""
    status, said = released.answer_of(['--sources', top])
    if status or len(said) != 64:
        raise Bad("the sources of '%s' can't be summed: %s" % (top, said), 70)
    return said


def first_other(top):
    """The first file that another clone does not have as this one has it."""
    names = sorted({*files_below(TOP), *files_below(top)})
    return next((name for name in names if files.content(os.path.join(TOP, name)) != files.content(os.path.join(top, name))), 'crates.txt')


def clone_of(path):
    """The clone in which a program was built, whose sources are these and older than it."""
    fault = files.get_fault(path)
    if fault:
        raise Bad(fault)
    real = os.path.realpath(path)
    top = real[:-len(BUILT) - 1]
    if not real.endswith(os.path.sep + BUILT) or not os.path.isfile(os.path.join(top, 'crates.txt')):
        raise Bad("'%s' is not %s of a clone, so nothing says from which sources it was built" % (path, BUILT))
    if sum_of_sources(top) != sum_of_sources(TOP):
        raise Bad("'%s' was built from other sources: %s is not the same there" % (path, first_other(top)))
    moment = os.stat(real).st_mtime_ns
    late = next((name for name in files_below(top) if os.stat(os.path.join(top, name)).st_mtime_ns > moment), None)
    if late:
        raise Bad("'%s' is older than %s there, so it may have been built from other sources" % (path, late))
    return top


def build_in(room, rt, anew):
    """Proves and builds the program in a folder with nothing but the sources, and what the program is tried with, as a gate does: several crates at a time."""
    for name in [*files_below(TOP), *tried_with(), 'HANDLES']:
        os.makedirs(os.path.dirname(os.path.join(room, name)), exist_ok=True)
        shutil.copyfile(os.path.join(TOP, name), os.path.join(room, name))
    below = kept.crates_below('cvm')
    with open(os.path.join(room, 'crates.txt'), encoding='utf-8') as file:
        rows = [row for row in file if row.partition(':')[0].split()[:1] and row.split(':')[0].split()[0] in below]
    with open(os.path.join(room, 'crates.txt'), 'w', encoding='utf-8') as file:
        file.writelines(rows)
    say('release/build: proves and builds the program, which is some two hours of work for a processor.')
    with open(os.path.join(room, 'log'), 'w+', encoding='utf-8', errors='replace') as log:
        ran = subprocess.run([rt, 'ci', *anew], cwd=room, stdin=subprocess.DEVNULL, stdout=log, stderr=subprocess.STDOUT)
        log.seek(0)
        end = log.read().strip().split('\n')[-20:]
    made = os.path.join(room, BUILT)
    if ran.returncode or not os.path.isfile(made):
        raise Bad('the build failed. The end of what it said:\n' + '\n'.join('  ' + line for line in end), 70)
    return made


def tried_with():
    """What the gate gives the program, and what it is to print."""
    top = os.path.join(TOP, 'crates', 'cvm')
    found = [name for name in ('args', 'stdin', 'stdout', 'status') if os.path.isfile(os.path.join(top, name))]
    if os.path.isdir(os.path.join(top, 'data')):
        found += [os.path.join('data', name) for name in os.listdir(os.path.join(top, 'data'))]
    return [os.path.join('crates', 'cvm', name) for name in sorted(found)]


def starts(path, room):
    """Whether a file is a program that knows its words."""
    try:
        return program.run_to([path], os.path.join(room, 'printed'))[1] == ['bad words']
    except OSError:
        return False


def stripped(path, folder):
    """The bytes of a program without its symbols, by the toolchain's own tool."""
    with tempfile.TemporaryDirectory(prefix='cvm-release-') as room:
        to = os.path.join(room, 'cvm')
        ran = subprocess.run(['llvm-strip', '--strip-all', '-o', to, path], executable=os.path.join(folder, 'toolchain', 'bin', 'clang'), stdin=subprocess.DEVNULL)
        if ran.returncode or not starts(to, room):
            raise Bad("'%s' can't be stripped, or doesn't start" % path, 70)
        with open(to, 'rb') as file:
            return file.read()


def commit():
    """The commit in which the sources stand."""
    names = files_below(TOP)

    def git(*words):
        ran = subprocess.run(['git', '-C', TOP, *words, '--', *names], stdin=subprocess.DEVNULL, stdout=subprocess.PIPE, stderr=subprocess.PIPE, text=True)
        if ran.returncode:
            raise Bad('git does not tell the commit of the sources: ' + ran.stderr.strip(), 70)
        return ran.stdout.strip()

    changed = git('status', '--porcelain', '--untracked-files=all')
    if changed:
        raise Bad('the sources have changes that are in no commit: ' + changed.split('\n')[0].split()[-1])
    return git('log', '-1', '--format=%H')


def put(name, data):
    """Puts a file of release/, whole or not at all."""
    path = os.path.join(RELEASE, name)
    with tempfile.NamedTemporaryFile(prefix=name, dir=RELEASE, delete=False) as file:
        try:
            file.write(data)
            file.close()
            os.chmod(file.name, 0o644)
            os.replace(file.name, path)
        except BaseException:
            os.remove(file.name)
            raise


def manifest():
    """The rows of the manifest that is stored, by their first words."""
    rows = (files.content(os.path.join(RELEASE, 'MANIFEST')) or b'').decode(errors='replace').split('\n')
    return {row.partition(' ')[0]: row.partition(' ')[2] for row in rows if row}


def store(data, about):
    """Stores a program where it isn't what is stored, and says what was done."""
    stored = manifest()
    same = stored.get('program') == about['program'] and hashlib.sha256(unpacked()).hexdigest() == about['program']
    if same and all(stored.get(key) == about[key] for key in ('kit', 'sources', 'machine')):
        return 'the same: ' + about['program']
    about['commit'] = commit()
    packed = gzip.compress(data, 9, mtime=0)
    if len(packed) > MOST:
        raise Bad('the packed program has %d bytes, and may have %d' % (len(packed), MOST), 70)
    if not same:
        put('program.gz', packed)
    put('MANIFEST', ''.join('%s %s\n' % (key, about[key]) for key in ('kit', 'sources', 'program', 'machine', 'commit')).encode())
    if same:
        return 'the same program; MANIFEST names these sources now'
    return 'stored anew, %d bytes, packed %d: %s' % (len(data), len(packed), about['program'])


def unpacked():
    """The bytes of the program that is stored; none where there is none that can be unpacked."""
    try:
        with gzip.open(os.path.join(RELEASE, 'program.gz')) as file:
            return file.read()
    except (OSError, EOFError, ValueError):
        return b''


def description(data, version):
    """What the manifest says of a program that was just made."""
    uname = os.uname()
    return {'kit': version, 'sources': sum_of_sources(TOP), 'program': hashlib.sha256(data).hexdigest(), 'machine': uname.sysname + ' ' + uname.machine}


def compare(path, folder):
    """Whether a program that was just built of these sources is the stored one, where that is of them, too: 0 or 1."""
    stored = manifest()
    try:
        clone_of(path)
    except Bad as why:
        program.put_line('release/build: nothing is compared: %s' % why)
        return 0
    if stored.get('sources') != sum_of_sources(TOP):
        program.put_line('release/build: nothing is compared: the stored program is not of these sources')
        return 0
    found = hashlib.sha256(stripped(path, folder)).hexdigest()
    program.put_line('release/build: %s: %s' % ('the same' if found == stored['program'] else 'another', found))
    return 0 if found == stored['program'] else 1


def main(words):
    if words not in ([], ['--anew']) and (len(words) != 2 or words[0] not in ('--from', '--same')):
        raise Bad('the words are to be one of these:\n' + USAGE)
    rt, folder, version = kit()
    if words[:1] == ['--same']:
        return compare(words[1], folder)
    with contextlib.ExitStack() as stack:
        if words[:1] == ['--from']:
            clone_of(words[1])
            made = words[1]
        else:
            made = build_in(stack.enter_context(tempfile.TemporaryDirectory(prefix='cvm-release-')), rt, words)
        data = stripped(made, folder)
    program.put_line('release/build: ' + store(data, description(data, version)))
    return 0
