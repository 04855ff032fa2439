"""Typical mistakes of those who write kernels, users, parameters, schedules and commands: each is made in the system of `mistakes/base`, and the message
has to have its file, its line with a mark, and what `mistakes/rows.py` says. `tools/tests/mistakes_by_program.py [--checked]`"""
import os
import re
import shutil
import sys

sys.dont_write_bytecode = True
sys.path.insert(0, os.path.dirname(os.path.dirname(os.path.realpath(__file__))))
from explain import given_texts, pages, status as explaining  # noqa: E402
from running import guard, program, rooms, try_main  # noqa: E402
from running.folder import Folder  # noqa: E402
from running.guard import say  # noqa: E402
from tests.mistakes import rows  # noqa: E402

BASE = os.path.join(pages.TOP, 'tools', 'tests', 'mistakes', 'base')


def changed(folder, name, old, new):
    """Makes a mistake in a copy of the system."""
    path = os.path.join(folder, name)
    with open(os.path.join(BASE, name), encoding='latin-1') as file:
        text = file.read()
    if text.count(old) != 1:
        raise ValueError("'%s' stands %d times in %s" % (old, text.count(old), name))
    with open(path, 'w', encoding='latin-1') as file:
        file.write(text.replace(old, new))


def said_of(start, folder, options):
    """How a folder ends, and what is said of it."""
    said = []
    return try_main.run_folder(start, Folder(folder), options, lambda text: None, said.extend), said


def wrong_place(said, name, line):
    """What is wrong with the place that a message shows: the file and the line, the line itself, and a mark below it."""
    if line is None:
        return None
    shown = '\n'.join(said[:3]).split('\n')
    if not re.fullmatch(r'(?:.*/)?%s:%d:\d+' % (re.escape(name), line), shown[0]):
        return 'the place is %s' % shown[0]
    return None if len(shown) > 2 and re.fullmatch(r'\s*\^~*', shown[2]) else 'no mark stands below the line'


def faults_of_sources(start, options, work):
    """Of each mistake in a file that isn't told as it is to be, a sentence."""
    found = []
    for number, (name, old, new, line, part) in enumerate(rows.SOURCES):
        folder = os.path.join(work, 'system')
        shutil.copytree(BASE, folder)
        changed(folder, name, old, new)
        status, said = said_of(start, folder, options)
        why = 'the status is %d' % status if status != 2 else wrong_place(said, name, line) or (None if any(part in row for row in said) else 'nothing says "%s"' % part)
        if why:
            found.append('mistake %d, %r in %s: %s: %s' % (number, new, name, why, ' | '.join(said)))
        shutil.rmtree(folder)
    return found


def faults_of_commands(start, work):
    """The same of commands with wrong words, in a folder with all that the system is made of."""
    run, found, before = (lambda words: program.run_to([*start, *words], os.path.join(work, 'out'))), [], os.getcwd()
    for name in os.listdir(BASE):
        shutil.copy(os.path.join(BASE, name), work)
    os.chdir(work)
    try:
        for words in rows.MADE:
            if run(words.split(' '))[0]:
                raise ValueError("'%s' is to be done" % words)
        for line, part in rows.COMMANDS:
            words = line.split(' ')
            said = given_texts.said(words, './cvm')
            status, last = run(words)
            said += explaining.explain(status, words, last)
            if not status or not any(part in row for row in said):
                found.append("'cvm %s' ends with %d, and nothing says \"%s\": %s" % (line, status, part, ' | '.join(said)))
    finally:
        os.chdir(before)
    return found


def main(words):
    options = try_main.Options()
    options.checked = '--checked' in words
    start = try_main.start_of(options)
    with rooms.room('cvm-mistakes-') as work:
        found = faults_of_sources(start, options, work)
    with rooms.room('cvm-mistakes-') as work:
        found += faults_of_commands(start, work)
    say(found)
    return 1 if found else 0


if __name__ == '__main__':
    sys.exit(guard.guarded('mistakes_by_program', main, sys.argv[1:]))
