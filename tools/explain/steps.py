"""Which step limit would do for a run: ten times as many first, and then how many are always enough."""
import re

from explain import files

# From so many steps on more of them are no first guess.
MANY = 1000000000


def first_words(name, count):
    """The first words of a file, little-endian; fewer where it is shorter."""
    data = (files.stored(name) or b'')[:4 * count]
    return [int.from_bytes(data[at:at + 4], 'little') for at in range(0, len(data) - 3, 4)]


def image_numbers(name):
    """Users, pages, frames and linked words of an image, by its first words; those of a source alone where it has form 1."""
    words = first_words(name, 9)
    if len(words) == 9 and words[1] == 3:
        return words[2], words[3], words[4], words[8]
    return 0, 1, 2, 16384


def longest_busy(name):
    """The longest time that a schedule keeps the disk busy."""
    rows = re.findall(rb'^busy \d+ (\d+)$', files.stored(name) or b'', re.MULTILINE)
    return max([int(row) for row in rows], default=0)


def enough(image, schedule, turns):
    """How many steps are enough for so many turns that don't call the kernel, and how many a page more takes."""
    users, pages, frames, linked = image_numbers(image)
    busy = longest_busy(schedule)
    page = 200000 + 32 * users * pages + 6 * busy
    rom = 100 + (linked + 1023) // 1024 * (12000 + busy)
    return 20000 + 64 * (users * pages + frames) + turns * (1 + 2 * page), page, rom


def advice(steps, turns, image, schedule, way):
    """What to say where the steps were spent before the turns were complete."""
    tenfold = min(max(10 * steps, 1000000), 2**64 - 1)
    total, page, rom = enough(image, schedule, turns)
    said = ['the %d steps were spent before the turns were complete.' % steps]
    if steps >= MANY:
        said.append('Few runs take so many: look first for a loop that does not end, in the kernel or in a user that makes no call.')
    elif 10 * steps >= 1000000:
        said.append('Try ten times as many first: %s in place of %d.' % (way.steps(tenfold), steps))
    else:
        said.append('Try a million first: %s in place of %d.' % (way.steps(tenfold), steps))
    said.append('%d are always enough for %d turns that don\'t call the kernel%s; for each turn that does, add 2000, and in it 600 for each node, statement, call, '
                'test, zeroed or asm word, and each word or page that a primitive touches, and %d more for each of these pages.'
                % (total + (rom if way.first == 'rom' else 0), turns, ' (with the way from the disk)' if way.first == 'rom' else '', page))
    said.append('Most runs take far fewer. A dispatch that never ends has no such number%s.' % ('' if steps >= MANY else ': look for a loop in the kernel that does not end'))
    return ' '.join(said)
