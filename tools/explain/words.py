"""The words of a command: which form they are to have, which word is bad, and which files they name."""
import re

from explain import pages

# The ranges of the words that are numbers.
NUMBERS = {'TURNS': (1, 2**32 - 1), 'STEPS': (0, 2**64 - 1), 'N': (0, 2**32 - 1), 'STACK': (64, 262144)}
TRACED = (1, 64)
# The words that name a file which the command puts, by the command's first word.
PUTS = {'compile': ('OBJ', 'IMG'), 'link': ('OUT',), 'migrate': ('OUT',), 'save': ('FILE',)}


def literal(form):
    """The first words of a form, which are given as they stand."""
    return [word for word in form if not word.isupper() and not word.endswith('..')]


def arguments(form):
    """The words of a form that stand for what is given; the last may end in two dots, and then stands for any number."""
    return form[len(literal(form)):]


def number_range(form, name):
    """The least and the greatest number that a word may be; None where it names a file."""
    if name == 'USER' and form[0] != 'link':
        return TRACED
    return NUMBERS.get(name)


def named(form, given):
    """The names of a form beside the words that are given for them."""
    names = arguments(form)
    if names and names[-1].endswith('..'):
        last = names[-1][:-2]
        names = names[:-1] + [last] * (len(given) - len(names) + 1)
    return list(zip(names, given))


def form_of(words):
    """The form of a command by its first words; None where no command begins so."""
    for form in pages.forms():
        head = literal(form)
        if list(words[:len(head)]) == head:
            return form
    return None


def nearest(word, known):
    """The one of the known words that differs least, where that is little."""
    import difflib
    found = difflib.get_close_matches(word, known, 1, 0.6)
    return found[0] if found else None


def head_fault(words):
    """What is wrong with first words that begin no command."""
    heads = [literal(form) for form in pages.forms()]
    firsts = sorted({head[0] for head in heads})
    if words[0] not in firsts:
        close = nearest(words[0].lower(), firsts)
        return "word 1, '%s', is no command%s" % (words[0], ": did you mean '%s'?" % close if close else '')
    seconds = [head[1] for head in heads if head[0] == words[0] and len(head) > 1]
    listed = ' or '.join("'%s'" % second for second in seconds)
    if len(words) < 2:
        return "word 2 is missing: behind '%s' stands %s" % (words[0], listed)
    close = nearest(words[1].lower(), seconds)
    return "word 2, '%s', is to be %s%s" % (words[1], listed, ": did you mean '%s'?" % close if close else '')


def number_fault(word, least, most):
    """Why a word is no number of a range; None where it is one."""
    bounds = 'a number from {:,} to {:,}'.format(least, most)
    if re.fullmatch(r'0[xX][0-9a-fA-F]+', word):
        return 'is hexadecimal, and is to be %s in decimal' % bounds
    if re.fullmatch(r'[0-9][0-9_,.]*[_,.][0-9_,.]*', word):
        return 'is to be %s, of digits alone' % bounds
    if not re.fullmatch(r'[0-9]+', word):
        return 'is to be %s' % bounds
    if word != '0' and word.startswith('0'):
        return 'begins with a 0, and is to be %s' % bounds
    if not least <= int(word) <= most:
        return 'is out of its range: it is to be %s' % bounds
    return None


def is_text(word):
    """Whether a word is UTF-8."""
    try:
        word.encode('utf-8')
        return True
    except UnicodeEncodeError:
        return False


def fault(words):
    """Which word of a command is bad, and why; None where the words are a command."""
    if not words:
        return 'there is no word'
    odd = next((place for place, word in enumerate(words) if not is_text(word)), None)
    if odd is not None:
        return "word %d, '%s', is not UTF-8: give the file or its folder another name" % (odd + 1, words[odd])
    form = form_of(words)
    if form is None:
        return head_fault(words)
    head, names = literal(form), arguments(form)
    given = words[len(head):]
    many = bool(names) and names[-1].endswith('..')
    least = len(names) - many
    if len(given) < least:
        return 'word %d, %s, is missing: the command is %s' % (len(words) + 1, names[len(given)], ' '.join(form))
    if len(given) > len(names) and not many:
        place = len(head) + len(names)
        return "word %d, '%s', is one too many: the command is %s" % (place + 1, words[place], ' '.join(form))
    for place, (name, word) in enumerate(named(form, given)):
        bounds = number_range(form, name)
        why = number_fault(word, *bounds) if bounds else None
        if why:
            return "word %d, %s, '%s', %s" % (len(head) + place + 1, name, word, why)
    return None


def value(words, name):
    """The word that is given for a name of the command's form; empty where there is none."""
    form = form_of(words)
    found = [word for known, word in named(form, words[len(literal(form)):]) if known == name] if form else []
    return found[0] if found else ''


def files(words):
    """The names of the files that a command gets, in this order, and of the one that it puts, as a pair of lists."""
    form = form_of(words)
    if form is None:
        return [], []
    puts = PUTS.get(form[0], ())
    given = [(name, word) for name, word in named(form, words[len(literal(form)):]) if not number_range(form, name)]
    return [word for name, word in given if name not in puts], [word for name, word in given if name in puts]
