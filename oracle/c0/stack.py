"""How much stack a kernel needs, by force: every chain of calls from dispatch is gone through, one after the other.

usage: oracle/model c0_stack KERNEL STACK    prints what `cvm check` prints of the kernel's object beside so many words of stack
"""
from oracle.c0.meaning import Unit
from oracle.c0.tree import Parser


def answer(first, frames, calls):
    """The longest of all chains of distinct functions, and the least of these; or the least chain that ends in one of its own functions."""
    chains, loops, todo = [], [], [[first]]
    while todo:
        chain = todo.pop()
        chains.append(chain)
        for n in calls[chain[-1]]:
            (loops if n in chain else todo).append(chain + [n])
    if loops:
        return None, min(loops)
    words = max(sum(frames[n] for n in chain) for chain in chains)
    return words, min(chain for chain in chains if sum(frames[n] for n in chain) == words)


def text(names, stack, words, numbers):
    """The two rows that are printed."""
    if words is None:
        rows = ['no cycle', 'cycle']
    else:
        rows = [('yes %d' if words <= stack else 'no %d') % words, 'chain']
    return rows[0] + '\n' + ' '.join([rows[1]] + [names[n] for n in numbers]) + '\n'


def called(statements):
    """The names that statements call."""
    for s in statements:
        if s.kind == 'call':
            yield s.parts[1][0]
        elif s.kind in ('if', 'while'):
            yield from called(s.parts[1])
            yield from called(s.parts[2])


def check(source, stack):
    """The two rows of a kernel."""
    tree = Parser(source)
    unit, names = Unit(tree), [f.name for f in tree.functions]
    frames = [sum(unit.words(t) for t, _ in f.names) + 3 for f in tree.functions]
    calls = [sorted({names.index(n) for n in called(f.body) if n in names}) for f in tree.functions]
    return text(names, stack, *answer(names.index('dispatch'), frames, calls))


LEAST_WORDS = 2


def main(words):
    with open(words[0], encoding='latin-1') as file:
        print(check(file.read(), int(words[1])), end='')
    return 0
