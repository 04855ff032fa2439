"""Whether a built program compiles as the model does, word by word: kernels and programs of bench/code, examples, exercises, code_cases, and random ones.

usage: oracle/model c0_compared CVM    says how many sources have the same words, and which not
"""
import glob
import os
import subprocess
import tempfile

from oracle import cases
from oracle.c0.emit import Code, image
from oracle.c0.random_kernels import Maker
from oracle.run import is_program
from oracle.words import of_bytes

TOP = os.path.abspath(os.path.join(os.path.dirname(os.path.abspath(__file__)), '..', '..'))
FOLDERS = ('bench/code/*.c0', 'examples/*/kernel.c0', 'examples/*/user*.c0', 'exercises/*/*/kernel.c0', 'exercises/*/*/user*.c0')


def sources():
    """The texts, each with a name."""
    for pattern in FOLDERS:
        for path in sorted(glob.glob(os.path.join(TOP, pattern))):
            with open(path, encoding='latin-1') as file:
                yield os.path.relpath(path, TOP), file.read()
    folder = os.path.join(TOP, 'crates', 'code_cases', 'data')
    for file in sorted(os.listdir(folder)):
        for head, source in cases.of_file(os.path.join(folder, file)):
            yield '%s: %s' % (file, head), cases.unescaped(source)
    for seed in range(200):
        yield 'random %d' % seed, Maker(seed).text()


def compiled(cvm, text, room):
    """The words of a kernel's object, or of a program's image."""
    source, made = os.path.join(room, 'source'), os.path.join(room, 'made')
    with open(source, 'w', encoding='latin-1') as file:
        file.write(text)
    child = subprocess.run([cvm, 'compile', 'program' if is_program(text) else 'kernel', source, made], stdout=subprocess.PIPE, text=True)
    if child.returncode:
        return child.stdout.strip()
    with open(made, 'rb') as file:
        data = file.read()
    return of_bytes(data if is_program(text) else data[16 + len(text.encode('latin-1')):])


def main(words):
    same, others = 0, 0
    with tempfile.TemporaryDirectory() as room:
        for name, text in sources():
            if compiled(words[0], text, room) == (image(text) if is_program(text) else Code(text).words()):
                same += 1
            else:
                others += 1
                print('another: ' + name)
    print('%d sources have the same words, %d others' % (same, others))
    return 1 if others else 0
