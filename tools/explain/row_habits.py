"""What a row of parameters or of a schedule has that it may not have, beyond signs and blanks: words out of their order, letters, rows that were swapped."""
import re

from explain import words as command_words

ORDER = ('pages', 'frames', 'heap', 'stack')
RANGES = ('pages are 1 to 1,024', 'frames are 2 to 16,384', 'the heap has 0 to 1,048,576 words', 'the stack has 64 to 262,144 words')


def of_range(number):
    """The range of a parameter by the number of its row."""
    return RANGES[number - 1] if 1 <= number <= len(RANGES) else None


def of_order(row, rows):
    """The sentence on a row of a schedule that comes too late, by the row before it of its kind."""
    words = row.split()
    before = next((other.split() for other in reversed(rows) if other.split()[:1] == words[:1]), None)
    if before and len(words) > 1 and len(before) > 1:
        return "its %s, %s, is to come behind %s of the row '%s'" % ('step' if words[0] == 'line' else 'number', words[1], before[1], ' '.join(before))
    return None


def of_params(row, number, rows):
    """The sentence on a row of parameters by its number from 1; `rows` are all of them."""
    if number > len(ORDER):
        return 'there are four rows, and this is one more'
    if row.split()[:1] and row.split()[0] in ('line', 'busy', 'input'):
        return 'this is a row of a schedule, and parameters stand here'
    wanted = ORDER[number - 1]
    match = re.fullmatch(r'(\w+)\s*[:=]?\s*(\S*)', row)
    first = match.group(1).lower() if match else ''
    if first in ORDER and first != wanted:
        found = next((other for other in rows if other.split()[:1] == [wanted]), None)
        return "the rows are in the order pages, frames, heap, stack: '%s' stands here%s" % (found or wanted + ' ' + wanted[0].upper(), '' if found else ', and is missing')
    if first == wanted and re.fullmatch(r'\d+', match.group(2)) and row != '%s %s' % (wanted, match.group(2)) and not row.endswith(' '):
        return "the row is '%s %d'" % (wanted, int(match.group(2)))
    if match and first not in ORDER and command_words.nearest(first, [wanted]) and re.fullmatch(r'\d+', match.group(2)):
        return "the row is '%s %d'" % (wanted, int(match.group(2)))
    if re.search(r'[ =:]-\d', row):
        return 'no number has a sign'
    if re.fullmatch(r'\d+', row):
        return "the row has its name before its number: '%s %s'" % (wanted, row)
    return None


def of_schedule(row):
    """The sentence on a row of a schedule."""
    words = row.split()
    if words[:1] and words[0] in ORDER:
        return 'this is a row of parameters, and a schedule stands here'
    if words[:1] == ['input'] and len(words) == 2 and len(words[1].strip('\'"')) == 1 and not words[1].isdigit():
        sign = words[1].strip('\'"')
        return "the console takes numbers: 'input %d' is %s" % (ord(sign), sign)
    if words[:1] == ['input'] and len(words) == 2 and not re.fullmatch(r'-?\d+', words[1]):
        return "the console takes numbers, one a row: %s" % ', '.join("'input %d'" % ord(sign) for sign in words[1].strip('\'"')[:8])
    if words[:1] == ['input'] and len(words) > 2:
        return "each row has one word of input: %s" % ', '.join("'input %s'" % word for word in words[1:5])
    if words[:1] == ['line'] and len(words) == 3 and words[1].isdigit() and words[2].isdigit() and int(words[1]) <= 7 < int(words[2]):
        return "the step stands first, and then the line: 'line %s %s'" % (words[2], words[1])
    if words[:1] == ['line'] and len(words) == 3 and words[1].isdigit() and words[2].isdigit() and int(words[2]) > 7:
        return 'lines are 0 to 7'
    if re.search(r'\d[,_.]\d', row):
        return "a number has digits alone: '%s'" % re.sub(r'(\d)[,_.](?=\d)', r'\1', row)
    if words and all(word.isdigit() for word in words):
        return "a row begins with its word: '%s'" % ('line ' + row if len(words) == 2 else 'input ' + words[0])
    if words[:1] == ['line'] and len(words) == 2:
        return "a row has a step and a line: 'line %s 0'" % words[1]
    if words[:1] in (['lines'], ['irq'], ['interrupt'], ['timer']):
        return "the row of a line is 'line T J': at step T line J is raised"
    near = words and command_words.nearest(words[0], ['line', 'busy', 'input'])
    if near and near != words[0].lower():
        return "'%s' begins no row: did you mean '%s'?" % (words[0], near)
    return None
