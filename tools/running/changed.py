"""A kernel that differs from another one in some lines: a file `change` has them. Lines with `-` before them stand in the other one, just once, and those
with `+` before them, which follow, stand in their place; an empty line stands between two such blocks.
"""
import os
import shutil

NAME = 'change'


class BadChange(ValueError):
    """What is wrong with a change, in a sentence."""


def blocks(change):
    """The blocks of a change, each as the lines that go and those that come."""
    found = []
    for block in change.rstrip('\n').split('\n\n'):
        lines = block.split('\n')
        goes = [line[1:] for line in lines if line.startswith('-')]
        comes = [line[1:] for line in lines if line.startswith('+')]
        if not goes or lines != ['-' + line for line in goes] + ['+' + line for line in comes]:
            raise BadChange("a block is lines with '-' and then lines with '+': %s" % lines[0])
        found.append((goes, comes))
    return found


def changed(text, change):
    """The text after a change."""
    lines = text.split('\n')
    for goes, comes in blocks(change):
        places = [at for at in range(len(lines)) if lines[at:at + len(goes)] == goes]
        if len(places) != 1:
            raise BadChange("the lines from '%s' on stand %d times in the kernel, and are to stand once" % (goes[0].strip(), len(places)))
        lines[places[0]:places[0] + len(goes)] = comes
    return '\n'.join(lines)


def put_changed(folder, kernel, room):
    """A copy of a folder that has a change, with the kernel that it leads to; and the names of the files that the copy has."""
    shutil.copytree(folder, room)
    os.remove(os.path.join(room, NAME))
    with open(kernel, encoding='utf-8') as file, open(os.path.join(folder, NAME), encoding='utf-8') as other:
        text = changed(file.read(), other.read())
    with open(os.path.join(room, 'kernel.c0'), 'w', encoding='utf-8') as file:
        file.write(text)
    return room
