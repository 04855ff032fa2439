"""examples/run: an example by the proved program, or with --try by the sources as they are; what it prints is compared with what is stored."""
import os

from explain import files, pages, words as command_words
from running import program, try_main
from running.folder import Folder
from running.guard import Bad, say

EXAMPLES = os.path.join(pages.TOP, 'examples')


def names():
    return sorted(name for name in os.listdir(EXAMPLES) if os.path.isfile(os.path.join(EXAMPLES, name, 'kernel.c0')))


def options_of(words):
    """The example's folder, and the options of a run."""
    words = list(words)
    options = try_main.Options()
    options.proved, options.checked = '--try' not in words, '--try' in words
    words = [word for word in words if word != '--try']
    usage = 'examples/run NAME [trace USER] [--try], NAME one of: ' + ' '.join(names())
    if len(words) not in (1, 3) or (len(words) == 3 and words[1] != 'trace'):
        raise Bad(usage)
    if words[0].rstrip('/') not in names():
        near = command_words.nearest(words[0], names())
        raise Bad("there is no example '%s'%s: %s" % (words[0], ", did you mean '%s'?" % near if near else '', usage))
    folder = Folder(os.path.join(EXAMPLES, words[0].rstrip('/')))
    if len(words) == 3:
        options.trace = try_main.number_of(words[2], 'trace', 1, max(1, len(folder.users)))
    return folder, options


def first_difference(text, stored):
    """The number of the first line in which two texts differ."""
    pairs = zip(text.split(b'\n') + [b''], stored.split(b'\n') + [b''])
    return next((number for number, (one, other) in enumerate(pairs, 1) if one != other), 1)


def compare(folder, options, text):
    """Says where a text is not the one that is stored; gives 1 there, and 0 where it is the same or none is stored."""
    name = os.path.join(folder.path, 'trace%d' % options.trace if options.trace else 'printed')
    stored = files.content(name)
    if stored is None or stored == text:
        return 0
    say('examples/run: what is printed is not what %s has: they differ first in line %d' % (os.path.relpath(name, pages.TOP), first_difference(text, stored)))
    return 1


def main(words):
    folder, options = options_of(words)
    text = []

    def put(part):
        text.append(part)
        program.put(part)

    start = try_main.start_of(options)
    status = try_main.run_folder(start, folder, options, put, say)
    return status or compare(folder, options, b''.join(text))
