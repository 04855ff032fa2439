"""What a source has in place of the function that is called from outside: `dispatch` of a kernel, `main` of a user's program (31, 36)."""
import difflib
import re

from explain import places
from explain.c_types import Source

HEADS = {'dispatch': 'int dispatch(int cause, int data, int user)', 'main': 'int main()'}
KINDS = {'dispatch': ('int', ['int', 'int', 'int']), 'main': ('int', [])}


def head_of(source, function):
    """The head of a function as it is written, and where it ends."""
    end = source.data.find(b')', function.head)
    end = len(source.data) if end < 0 else end + 1
    return re.sub(r'\s+', ' ', places.readable(source.data[function.head:end].replace(b'\n', b' '))), end


def of_main(name, data, wanted):
    """The place and the sentence: what is there in place of the function that is asked."""
    source = Source(data, wanted == 'main')
    other = 'main' if wanted == 'dispatch' else 'dispatch'
    found = source.functions.get(wanted)
    if found and (found.result, [kind for kind, _ in found.parameters]) == KINDS[wanted]:
        return shown(name, source, found, "'%s' has a text of instructions, and is to have a body of code" % wanted)
    if found:
        return shown(name, source, found, "'%s' is there, and is to be '%s'" % (head_of(source, found)[0], HEADS[wanted]))
    close = next((known for known in source.functions if known.lower() == wanted), None) or next(iter(difflib.get_close_matches(wanted, source.functions, 1, 0.7)), None)
    if close:
        return shown(name, source, source.functions[close], "'%s' is there: is it to be '%s'?" % (close, HEADS[wanted]))
    if other in source.functions:
        whose = ("a kernel's 'dispatch'", 'compile kernel') if other == 'dispatch' else ("a user program's 'main'", 'compile program')
        return shown(name, source, source.functions[other], "%s is there, and this is no source of one: '%s' takes it, and a folder has it as %s"
                     % (whose[0], whose[1], 'kernel.c0' if other == 'dispatch' else 'user1.c0'))
    return ['%s: the whole source' % name, "cvm: no function '%s' is in it: write '%s { .. }'." % (wanted, HEADS[wanted])]


def shown(name, source, function, said):
    _, end = head_of(source, function)
    return [places.shown(name, source.data, function.head, end), 'cvm: %s' % (said if said.endswith('?') else said.rstrip('.') + '.')]
