"""Compiles, links and boots the system of a folder."""
import os

from explain import status as explaining, words as command_words
from running import program

# The commands of one folder go on until one ends with another status than 0.


class Run:
    """The commands of one folder, run by a program in a folder of its own."""

    def __init__(self, start, folder, work, put, say):
        self.start, self.folder, self.work, self.put, self.say = start, folder, work, put, say
        self.schedule = folder.schedule
        self.says_spent = True      # whether this says what helps where the steps were spent
        self.names = {os.path.abspath(name): name for name in [folder.kernel, folder.params, folder.schedule, *folder.users]}
        self.names[self.made('system.img')] = 'the image of ' + folder.path
        self.names[self.made('kernel.obj')] = 'the object of ' + folder.kernel
        for name in folder.users:
            self.names[self.image(name)] = 'the image of ' + name

    def made(self, name):
        return os.path.join(self.work, name)

    def image(self, user):
        return self.made(os.path.basename(user).partition('.')[0] + '.img')

    def given(self, name):
        """The path by which the program gets a source: its own, or that of a link to it where that isn't UTF-8, which the words of a command have to be."""
        own = os.path.abspath(name)
        if command_words.is_text(own):
            return own
        link = self.made('given-' + os.path.basename(name))
        if not os.path.lexists(link):
            os.symlink(own, link)
        self.names[link] = name
        return link

    def command(self, words, text='text'):
        """Runs a command, puts what it prints, and explains any status but 0."""
        status, rows = program.run_to([*self.start, *words], self.made(text), self.work)
        with open(self.made(text), 'rb') as file:
            self.put(file.read())
        if status and (status != 4 or self.says_spent):
            self.say(explaining.explain(status, words, rows, explaining.FolderWay(words, self.names)))
        return status

    def build(self):
        """Compiles the sources and links them. Gives the first status that isn't 0, or 0."""
        commands = [['compile', 'kernel', self.given(self.folder.kernel), self.made('kernel.obj')]]
        for user in self.folder.users:
            kind = 'user' if user.endswith('.s') else 'program'
            commands.append(['compile', kind, self.given(user), self.image(user)])
        images = [self.image(user) for user in self.folder.users]
        commands.append(['link', self.made('kernel.obj'), self.given(self.folder.params), self.made('system.img'), *images])
        return next((status for status in map(self.command, commands) if status), 0)

    def boot_words(self, turns, steps):
        return ['boot', self.made('system.img'), self.given(self.schedule), str(turns), str(steps)]

    def boot(self, turns, steps):
        return self.command(self.boot_words(turns, steps), 'boot')

    def trace(self, turns, steps, user):
        words = ['trace', self.made('system.img'), self.given(self.schedule), str(turns), str(steps), str(user)]
        return self.command(words, 'trace%d' % user)
