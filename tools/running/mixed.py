"""A system of two folders: some files of the one who hands in, and all else of the one who teaches."""
import os
import re

from explain import files
from running.folder import USER, BadFolder, Folder, hint, user_names
from running.guard import Bad

KERNEL = 'kernel.c0'
NAMES = re.compile(r'kernel\.c0|params|schedule|user(?:[1-9]|[1-5][0-9]|6[0-4])\.(?:s|c0)')


def names_of(word):
    """The names of files that a word has, with commas between them."""
    names = word.split(',')
    for name in names:
        if not NAMES.fullmatch(name):
            raise Bad("the word behind --take, '%s', names files of a system with commas between them: '%s' is none of kernel.c0, params, schedule, user1.s, user1.c0 .." % (word, name))
    return names


def number_of(name):
    """The number of the user of a file; None where it is none of a user."""
    match = USER.fullmatch(name)
    return int(match.group(1)) if match else None


class Mixed(Folder):
    """What is handed in by the names given, and all else of a teacher's folder."""

    def __init__(self, path, teacher, names):
        self.path = path
        own = {name: os.path.join(path, name) for name in names}
        for name in own.values():
            fault = files.get_fault(name)
            if fault:
                raise BadFolder(fault + hint(os.path.dirname(name), name))
        of_teacher = {number_of(name): os.path.join(teacher, name) for name in user_names(teacher)}
        of_teacher.update({number_of(name): where for name, where in own.items() if number_of(name)})
        missing = next((number for number in range(1, len(of_teacher) + 1) if number not in of_teacher), None)
        if missing:
            raise BadFolder("there is no user %d, neither in '%s' nor taken from '%s'" % (missing, teacher, path))
        pick = lambda name: own.get(name, os.path.join(teacher, name))
        self.kernel, self.params, self.schedule = pick(KERNEL), pick('params'), pick('schedule')
        self.users = [of_teacher[number] for number in sorted(of_teacher)]
        self.check_files()
