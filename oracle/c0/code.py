"""How many words the code of a source has: those that `emit` makes of it.

usage: oracle/model c0_words FILE..    prints the number for each kernel
"""
from oracle.c0.emit import Code


def code_words(text):
    """The words of the code of a source: those of a kernel, or of a program, which are laid out alike."""
    return Code(text).count()


def main(names):
    for name in names:
        with open(name, encoding='latin-1') as file:
            print(name, code_words(file.read()))
    return 0
