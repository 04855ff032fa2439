"""Files of saved machines, and what is answered of each, by a reading that stands apart from the crates.

usage: oracle/model saved FOLDER        writes FOLDER/data/saved, as in crates/format_cases, and FOLDER/stdout, the part of that crate's stdout for it

The reading goes by a table of the fields, as docs/FORMATS.md has it. A file is told here as a list of words and of runs of one word, with bytes
behind it, or cut to its first bytes.
"""
import os

FRAMES, USERS, PAGES, INPUTS, LINKED, WORD = 17, 3, 8, 3, 16500, 5
MEMORY = 1024 * FRAMES
MARK = int.from_bytes(b'CVMS', 'little')

# place, number of words, least, most of each field that has a range; the disk's next command has the steps done as its most
FIELDS = [(1, 1, 1, 1), (2, 1, FRAMES, FRAMES), (5, 1, 1, 2**32 - 1), (6, 1, 1, USERS), (7, 1, 0, 255), (42, 1, 0, 1), (43, 1, 0, 1),
          (49, 1, 1, 1), (50, 1, 0, 1), (52, 2, 0, None), (54, 1, 0, INPUTS), (55, 1, 0, 4096)]


def number(words, place, size):
    return sum(words[place + k] << 32 * k for k in range(size))


def answer(data, wanted):
    """What is printed of these bytes."""
    whole = len(data) // 4
    words = [int.from_bytes(data[4 * k:4 * k + 4], 'little') for k in range(whole)]
    torn = 'refused 101 %d' % (4 * whole)
    if whole < 1:
        return torn
    if words[0] != MARK:
        return 'refused 100'
    for place, size, least, most in FIELDS:
        if whole < place + size:
            return torn
        value = number(words, place, size)
        if not least <= value <= (number(words, 3, 2) if most is None else most):
            return 'refused 103 %d %d' % (place, value)
    memory = 56 + words[55] + 1024
    if whole < memory + MEMORY:
        return torn
    if len(data) > 4 * (memory + MEMORY):
        return 'refused 102 %d' % (4 * (memory + MEMORY))
    for k in range(LINKED):
        free = 0x1000 <= 4 * k < 0x2000 or 0xc000 <= 4 * k < 0x10000
        if not free and words[memory + k] != WORD:
            return 'refused 104 %d %d %d' % (k, words[memory + k], WORD)
    for user in range(1, USERS + 1):
        pages = words[memory + (0xc000 + 256 * (user - 1)) // 4 + 32]
        if pages > PAGES:
            return 'refused 105 %d %d' % (user, pages)
    if words[5] > wanted:
        return 'refused 106 %d %d' % (words[5], wanted)
    return '%d words, turns %d, user %d' % (whole, words[5], words[6])


def head(changes=(), log=0):
    """The 56 words before the log, with these changed."""
    words = [MARK, 1, FRAMES, 1000, 0, 50, 2, 6, 0x2000] + [100 + k for k in range(31)] + [7, 8] + [1, 0, 9, 10, 11, 12, 13, 1, 1] + [4, 20, 0, 2, log]
    for place, value in changes:
        words[place] = value
    return words


def image(changes=(), log=(), memory=()):
    """The words of a machine, as (count, word): the head, the log, the buffer, and memory with these words changed."""
    runs = [(1, word) for word in head(changes, len(log))] + [(1, word) for word in log] + [(1024, 3)]
    at = 0
    for place, value in sorted(memory):
        runs += [(place - at, WORD), (1, value)]
        at = place + 1
    return [run for run in runs + [(MEMORY - at, WORD)] if run[0]]


def spelled(runs):
    return b''.join(word.to_bytes(4, 'little') * count for count, word in runs)


def escaped(data):
    return ''.join('\\x%02x' % byte for byte in data)


def text(data):
    """Bytes as the source of a case: words that stand more than eight times in a row are written once."""
    out, at = [], 0
    while at < len(data):
        word, count = data[at:at + 4], 1
        while len(word) == 4 and data[at + 4 * count:at + 4 * count + 4] == word:
            count += 1
        if count > 8:
            out.append('`%d %s`' % (count, escaped(word)))
        else:
            out.append(escaped(word * count))
        at += len(word) * count
    return ''.join(out)


def edges():
    """Each field at its ends and past them."""
    for place, size, least, most in FIELDS:
        if size == 2:
            for low, high in ((1000, 0), (1001, 0), (0, 1), (2**32 - 1, 2**32 - 1)):
                yield 'command %d %d' % (low, high), image([(52, low), (53, high)])
            yield 'command 0 1 after 2^32 steps', image([(3, 0), (4, 1), (52, 0), (53, 1)])
            yield 'command 1 1 after 2^32 steps', image([(3, 0), (4, 1), (52, 1), (53, 1)])
            continue
        for value in sorted({least - 1, least, most, most + 1, 0, 2**32 - 1}):
            if 0 <= value < 2**32 and not (place == 55 and value == 4096):
                yield 'word %d is %d' % (place, value), image([(place, value)])


def cases():
    yield 60, 'a saved machine', spelled(image())
    yield 60, 'with a log', spelled(image(log=[11, 12, 13]))
    yield 60, 'with a full log', spelled(image(log=[9] * 4096))
    yield 50, 'as many turns as are done', spelled(image())
    yield 49, 'a turn fewer', spelled(image())
    yield 40, 'ten turns fewer', spelled(image())
    yield 60, 'cut to 10 bytes', spelled(image())[:10]
    yield 60, 'user 9', spelled(image([(6, 9)]))
    yield 60, 'no bytes', b''
    yield 60, 'three bytes', b'CVM'
    yield 60, 'the mark alone', b'CVMS'
    yield 60, 'another mark', b'CVMT' + spelled(image())[4:]
    yield 60, 'another mark alone', b'SMVC'
    yield 60, 'the first fault is a field, though the file is cut behind it', spelled(image([(6, 9)]))[:28]
    yield 60, 'the first fault is the cut', spelled(image([(6, 9)]))[:27]
    yield 60, 'the second word of the command is cut', spelled(image([(52, 2000)]))[:215]
    yield 60, 'the command is whole', spelled(image([(52, 2000)]))[:216]
    yield 60, 'cut behind the head', spelled(image())[:224]
    yield 60, 'the last word is missing', spelled(image())[:-4]
    yield 60, 'the last byte is missing', spelled(image())[:-1]
    yield 60, 'a byte more', spelled(image()) + b'\0'
    yield 60, 'a word more', spelled(image()) + b'\0\0\0\0'
    yield 60, 'a word more than the log has', spelled(image([(55, 0)], log=[7]))
    yield 60, 'a word of the log is missing', spelled(image([(55, 2)], log=[7]))
    for name, runs in edges():
        yield 2**32 - 1, name, spelled(runs)
    for place in (0, 1023, 1024, 2047, 2048, 12287, 12288, 16383, 16384, 16499, 16500, MEMORY - 1):
        yield 60, 'word %d of memory is 6' % place, spelled(image(memory=[(place, 6)]))
    yield 60, 'the first word that differs is told', spelled(image(memory=[(1030, 1), (5000, 2), (16400, 3)]))
    for user in (1, 2, 3, 4):
        for pages in (8, 9):
            yield 60, 'user %d has %d pages' % (user, pages), spelled(image(memory=[(12288 + 64 * (user - 1) + 32, pages)]))
    yield 60, 'the first size that is too large is told', spelled(image(memory=[(12352 + 32, 2**32 - 1), (12416 + 32, 9)]))
    # which fault comes before which
    yield 40, 'linked words before sizes and turns', spelled(image(memory=[(16384, 1), (12320, 9)]))
    yield 40, 'sizes before turns', spelled(image(memory=[(12320, 9)]))
    yield 40, 'bytes behind before linked words', spelled(image(memory=[(0, 1)])) + b'\0'


def main(words):
    folder = words[0]
    data, out = ['Files of saved machines, by oracle/saved.py.', ''], []
    for wanted, name, source in cases():
        data += ['== %d %s' % (wanted, name), text(source)]
        out += ['== %d %s' % (wanted, name), answer(source, wanted)]
    os.makedirs(os.path.join(folder, 'data'), exist_ok=True)
    for name, rows in ((os.path.join('data', 'saved'), data), ('stdout', out)):
        with open(os.path.join(folder, name), 'w', encoding='utf-8') as file:
            file.write('\n'.join(rows) + '\n')
    return 0
