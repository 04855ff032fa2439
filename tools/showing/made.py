"""The run that the program made, as the models take it: sources from the folder, words of users from the images that the program put."""
import os

from explain import files
from running import program
from running.guard import Bad
import showing  # noqa: F401  (puts the models on the path)
from oracle.assembler import assemble
from oracle.c0.tokens import NoTree
from oracle.replay import Differs, Given, User
from oracle.words import of_bytes


def text_of(name):
    data = files.content(name)
    if data is None:
        raise Bad(files.get_fault(name) or "'%s' can't be read" % name)
    return data.decode('latin-1')


def user_of(run, name):
    """A user, whose words are those of its image; those of a text are compared with what the model makes of it."""
    user = User(program.text(os.path.basename(name)), text_of(name), of_bytes(files.content(run.image(name)) or b''))
    if user.kind == 's' and assemble(user.source.text) != user.words:
        raise Differs('the model and the program differ in the words of %s' % user.source.name)
    return user


def printed(run):
    """What the boot of a run printed."""
    with open(run.made('boot'), encoding='latin-1') as file:
        return file.read()


def given(run, folder, is_booted=True):
    """What a run is made of: one that was booted, or one of which nothing was printed yet."""
    users = [user_of(run, name) for name in folder.users]
    try:
        return Given(text_of(folder.kernel), users, text_of(folder.params), text_of(run.schedule), printed(run) if is_booted else '')
    except NoTree as none:
        raise Differs('the model has no tree of a source that the program compiled (%s)' % none) from None
