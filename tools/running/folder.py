"""A folder with the sources of a system: kernel.c0, params, schedule, and user1.s or user1.c0, user2.s or user2.c0 and so on."""
import os
import re

from explain import files, pages

USER = re.compile(r'user([1-9][0-9]*)\.(s|c0)')


class BadFolder(Exception):
    """What is wrong with a folder, in a sentence."""


class Folder:
    """The names of a folder's files: the kernel, the parameters, the schedule and the users in order."""

    def __init__(self, path):
        self.path = path
        self.kernel, self.params, self.schedule = (os.path.join(path, name) for name in ('kernel.c0', 'params', 'schedule'))
        self.users = [os.path.join(path, name) for name in user_names(path)]
        self.check_files()

    def check_files(self):
        """Looks whether each file is there and can be read to its end, as a pipe that nobody writes to can't."""
        for name in [self.kernel, self.params, self.schedule, *self.users]:
            fault = files.get_fault(name)
            if fault:
                raise BadFolder(fault + hint(os.path.dirname(name), name))
            if not os.path.isfile(name):
                raise BadFolder("'%s' is a pipe or a device, and is to be a file" % name)
        programs = [name for name in self.users if name.endswith('.c0')]
        if programs and not has_programs():
            raise BadFolder("'%s' is a user in C0, and this version has no command 'compile program'" % programs[0])


def has_programs():
    """Whether the command is there that compiles users in C0."""
    return any(form[:2] == ['compile', 'program'] for form in pages.forms())


def hint(path, name):
    """What may have been meant where a file of a folder is missing."""
    if os.path.lexists(name) or not os.path.isdir(path):
        return ''
    asked = os.path.basename(name)
    others = [other for other in sorted(os.listdir(path)) if other.lower().startswith(asked[:4].lower()) and not USER.fullmatch(other)]
    if asked == 'kernel.c0':
        others = [other for other in sorted(os.listdir(path)) if other.endswith(('.c0', '.c')) and not USER.fullmatch(other)]
    found = "; '%s' is there" % os.path.join(path, others[0]) if others else ''
    return found + ('; an empty file is an empty schedule' if asked == 'schedule' else '')


def user_names(path):
    """The names of the users' files, by their numbers, which are to go from 1 without a gap."""
    try:
        names = os.listdir(path)
    except OSError as error:
        raise BadFolder("the folder '%s' can't be read: %s" % (path, error.strerror)) from None
    found = {}
    for name in sorted(names):
        match = USER.fullmatch(name)
        if match:
            number = int(match.group(1))
            if number in found:
                raise BadFolder("'%s' and '%s' are both user %d" % (os.path.join(path, found[number]), os.path.join(path, name), number))
            found[number] = name
        elif name.endswith(('.s', '.asm')):
            raise BadFolder("'%s' is no user of the system: users are user1.s, user2.s and so on (in C0 user1.c0)" % os.path.join(path, name))
    for number in range(1, len(found) + 1):
        if number not in found:
            missing = ' or '.join("'%s'" % os.path.join(path, 'user%d.%s' % (number, end)) for end in ('s', 'c0'))
            raise BadFolder('there is no file %s, and there is a user %d: users count from 1 without a gap' % (missing, max(found)))
    return [found[number] for number in sorted(found)]
