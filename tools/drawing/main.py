"""tools/picture: draws stored output, `tools/picture BOOT.txt [TRACE..] [--turns N] [--from A] [--to B] > run.svg`."""
import os

from explain import files, words as command_words
from drawing import draw, rows
from running import foreseen, pipes, program
from running.guard import Bad

USAGE = 'tools/picture BOOT.txt [TRACE..] [--turns N] [--from A] [--to B] [--title TEXT]: draws what a boot printed, with what traces printed, as an SVG on standard output'


def options_of(words):
    """The names of the texts, and the options' values: numbers, and the title."""
    names, given, left = [], {}, list(words)
    while left:
        word = left.pop(0)
        if word in ('--turns', '--title', '--from', '--to'):
            if not left:
                raise Bad('behind %s a word is missing' % word)
            value = left.pop(0)
            why = command_words.number_fault(value, 1 if word == '--turns' else 0, 2**32 - 1) if word != '--title' else None
            if why:
                raise Bad("the word behind %s, '%s', %s" % (word, value, why))
            given[word] = value if word == '--title' else int(value)
        elif word.startswith('--'):
            raise Bad("'%s' is no option: %s" % (word, USAGE))
        else:
            names.append(word)
    return names, given


def read(name):
    fault = files.get_fault(name)
    if fault:
        raise Bad(fault)
    if foreseen.output() and foreseen.identity_of(name) == foreseen.output():
        raise Bad("'%s' is standard output, too, and the picture would stand in it" % name)
    return pipes.content(name).decode('utf-8', errors='replace')


def main(words):
    names, given = options_of(words)
    if not names:
        raise Bad(USAGE)
    texts = [read(name) for name in names]
    made = []
    for name, text, of in zip(names, texts, [rows.Boot] + [rows.Trace] * len(names)):
        try:
            made.append(of(text))
        except rows.BadText as bad:
            raise Bad("'%s' can't be drawn: %s" % (name, bad)) from None
    title = given.get('--title') or os.path.basename(os.path.dirname(os.path.abspath(names[0]))) + '/' + os.path.basename(names[0])
    try:
        drawing = draw.Drawing(made[0], made[1:], title, given.get('--turns'), (given.get('--from'), given.get('--to')))
    except rows.BadText as bad:
        raise Bad("'%s' can't be drawn: %s" % (names[0], bad)) from None
    program.put(drawing.draw().encode('utf-8', errors='replace'))
    return 0
