"""What a command came to, in sentences: by its status, its words and the last row that it printed."""
import os
import re

from explain import asm_habits, c_counts, c_habits, files, heads, pages, places, row_habits, steps, words

# The number of docs/REFUSALS.md that says what to do where a command finds no memory.
MEMORY = {'compile user': '8', 'compile program': '38', 'compile': '15', 'link': '64', 'check': '64', 'migrate': '57', 'save': '108', 'resume': '108'}


# What a file is, by its first bytes.
MARKS = {b'CVMO': "an object, which 'link' takes", b'CVMI': "an image, which 'boot' takes", b'CVMS': "a saved machine, which 'resume' takes"}


class Way:
    """How the one who reads is to give a word again: as a word of the command."""

    def __init__(self, command, tool='./cvm'):
        self.tool = tool
        self.first = command[0] if command else ''

    def steps(self, number):
        return 'STEPS %d' % number

    def turns(self, number):
        return 'TURNS %d' % number

    def booted(self):
        """How the turn of a fault that a trace met is found."""
        return 'a boot of the same words names the turn; with TURNS of its number'

    def shown(self, name):
        """The name by which a file is known to the one who reads."""
        return name

    def disk(self):
        """What to do where the disk failed."""
        return '%s.%s' % (remedy('94'), disk_fault())


class FolderWay(Way):
    """The same for a folder that ./try runs: by options, and with the names of its sources."""

    def __init__(self, command, names):
        Way.__init__(self, command, './try')
        self.names = names

    def steps(self, number):
        return '--steps %d' % number

    def turns(self, number):
        return '--turns %d' % number

    def booted(self):
        return "./try of the folder without --trace names the turn in its last row; with '--turns' and its number"

    def shown(self, name):
        return self.names.get(name, name)

    def disk(self):
        return 'its file is among those for temporary use (the folder TMPDIR, or /tmp): make room there, and run it again.'


def row_of(key):
    """A row of docs/REFUSALS.md as a sentence: the name, when it comes, and what to do."""
    row = pages.refusals().get(key)
    if row is None:
        return 'docs/REFUSALS.md has no row for it.'
    return '%s: %s. What to do: %s.' % (row.name, row.when, row.remedy)


def remedy(key):
    row = pages.refusals().get(key)
    return row.remedy if row else 'docs/REFUSALS.md'


def source_place(key, fields, name, data, is_program=False):
    """The place of a fault of a source (10 to 14, 20 to 39) and the habit behind it."""
    if not fields:
        return []
    if key in (30, 37):
        return of_largest(name, data, is_program)
    start = fields[0]
    end = fields[1] if key >= 20 and len(fields) > 1 else start + 1
    if data is None or start > len(data):
        return []
    if key in (31, 36) and start == 0:
        return heads.of_main(name, data, 'main' if is_program else 'dispatch')
    if key == 29 and start == 0:
        return ['%s: the whole source' % name]
    said = [places.shown(name, data, start, end)]
    if key == 32 and len(fields) > 2:
        number, _, _ = places.line_at(data, start)
        said = [places.shown_line(name, data, number + fields[2] - 1)]
        found = asm_habits.inside(data[start:end].decode('utf-8', errors='replace'), fields[2])
    else:
        found = c_habits.habit(key, data, start, end, is_program)
    return said + ([sentence(found)] if found else [])


def of_largest(name, data, is_program):
    """The largest global of a source whose globals are too large; the whole source where it has none."""
    found = c_counts.largest(data, is_program) if data is not None else None
    return [places.shown(name, data, *found[:2]), sentence(found[2])] if found else ['%s: the whole source' % name]


def other_kind(head, name, way):
    """That a source was given to the command for another kind, by the end of its name."""
    is_text = head == 'compile user'
    if not name.endswith('.c0' if is_text else ('.s', '.asm')):
        return []
    what = ("a source in C0, and 'compile user' takes a text in assembler: 'compile program' takes a user in C0" if is_text
            else "a text in assembler, and '%s' takes a source in C0: 'compile user' takes it" % head)
    return [sentence('%s is %s' % (way.shown(name), what))]


def text_place(key, fields, name, data):
    """The place of a fault of a user's text (1 to 7) and the habit behind it."""
    if data is None or not fields:
        return []
    if key == 1:
        return [places.shown(name, data, fields[0], fields[0] + 1)]
    start, end = places.span_of_line(data, fields[0])
    found = asm_habits.habit(key, places.readable(data[start:end].rstrip(b'\r'))) or (set_before(data, start, end) if key == 6 else None)
    return [places.shown_line(name, data, fields[0])] + ([sentence(found)] if found else [])


def set_before(data, start, end):
    """Where a label of a line was set before."""
    for name in re.findall(rb'([A-Za-z_]\w*):', data[start:end].split(b'#')[0]):
        found = re.search(rb'(?m)^[^#\n]*?\b' + name + rb':', data[:start])
        if found:
            return "the label '%s' is set in line %d, too" % (name.decode(), places.line_at(data, found.end())[0])
    return None


def row_habit(data, number, is_schedule):
    """What a row of parameters or of a schedule has that it may not have."""
    start, end = places.span_of_line(data, number)
    line = data[start:end]
    row = places.readable(line)
    rows = places.readable(data.replace(b'\n', b'\t')).split('\t')
    shape = row_habits.of_schedule(row) if is_schedule else row_habits.of_params(row, number, rows)
    if shape:
        return shape
    if line.endswith(b'\r'):
        return "the line ends in CR LF, as Windows writes it, and is to end in LF alone: sed -i 's/\\r$//' FILE mends all lines"
    if b'\t' in line or b'  ' in line:
        return 'one space, and no tab, stands between two words'
    if line != line.strip():
        return 'no blank stands before the first word or behind the last one'
    if line == b'':
        return 'the line is empty, or missing'
    if line.startswith((b'#', b'//')):
        return 'these files have no comments'
    if re.search(rb'\b0[xX]', line):
        return 'numbers are decimal'
    if re.search(rb' -\d', line):
        return 'no number has a sign: a negative word W is written as 4294967296 + W'
    if re.search(rb' 0\d', line):
        return 'no number has a 0 before a further digit'
    if line != line.lower():
        return 'the words are in lower case'
    return None


def row_place(name, number, is_schedule):
    """The place of a line of parameters or of a schedule, and what is odd in it."""
    data = files.stored(name)
    if data is None:
        return [], None
    return data, row_habit(data, number, is_schedule)


def object_source(name):
    """The source in an object or an image; None where there is none to be read."""
    data = files.stored(name) or b''
    word = lambda at: int.from_bytes(data[at:at + 4], 'little')
    if data[:4] == b'CVMO':
        return data[16:16 + word(8)]
    if data[:4] == b'CVMI' and word(4) == 1:
        return data[12:12 + word(8)]
    if data[:4] == b'CVMI':
        start = 36 + 4 * word(8)
        return data[start:start + word(28)]
    return None


def located(key, fields, command, way):
    """The lines that say where a refusal's cause stands."""
    form = words.form_of(command)
    head = ' '.join(words.literal(form)) if form else ''
    gets, _ = words.files(command)
    if key <= 7 and head == 'compile user' and gets:
        return other_kind(head, gets[0], way) or text_place(key, fields, way.shown(gets[0]), files.stored(gets[0]))
    if key < 40 and head.startswith('compile') and gets:
        return (other_kind(head, gets[0], way) if key in (10, 11, 12) else []) or source_place(key, fields, way.shown(gets[0]), files.stored(gets[0]), head == 'compile program')
    if key in (54, 55, 68, 69) and gets and fields:
        inner = 'the source in ' + way.shown(gets[0])
        return ["cvm: the source's own fault is %d: %s" % (fields[0], row_of(str(fields[0])))] \
            + source_place(fields[0], fields[1:], inner, object_source(gets[0]))
    if key == 66 and len(gets) > 1 and fields:
        return line_of(gets[1], fields[0], way)
    if 70 <= key <= 74 and len(gets) > 1 and fields:
        return line_of(gets[1], fields[0], way, True) + (order_of(gets[1], fields[0]) if key == 71 else [])
    if key in (61, 65) and fields and len(gets) > fields[0] + 1:
        room = line_of(gets[1], 1, way) + pages_for(fields[1]) if key == 61 and len(fields) > 1 else []
        return room + ['cvm: user %d is %s.' % (fields[0], way.shown(gets[fields[0] + 1]))] + given_text(gets[fields[0] + 1], key)
    if key == 62 and len(gets) > 1 and fields:
        return line_of(gets[1], fields[0], way) + said_if(row_habits.of_range(fields[0]))
    if key in (40, 50) and gets:
        return what_it_is(gets[0], way)
    if 100 <= key <= 106 and len(gets) > 2:
        return saved_place(key, fields, gets[2], way)
    found = [name for name in gets if files.get_fault(name)]
    return ['cvm: %s.' % files.get_fault(found[0])] if key == 81 and found else []


def saved_place(key, fields, name, way):
    """What is wrong in the file of a saved machine."""
    if key == 100:
        return what_it_is(name, way) or ['cvm: %s is no saved machine.' % way.shown(name)]
    said = ['cvm: the saved machine is %s.' % way.shown(name)]
    what = pages.saved_word(fields[0]) if key == 103 and fields else None
    if what:
        said.append('cvm: word %d of it is %s.' % (fields[0], what))
    if key == 106 and fields:
        said.append('cvm: %d turns are complete in it: %s or more goes on from there.' % (fields[0], way.turns(fields[0])))
    return said


def line_of(name, number, way, is_schedule=False):
    """A line of parameters or of a schedule, with its mark, and what is odd in it."""
    data, habit = row_place(name, number, is_schedule)
    if data == []:
        return []
    if data[:4] in MARKS:
        return [sentence('%s is %s, and %s to stand here' % (way.shown(name), MARKS[data[:4]], 'a schedule is' if is_schedule else 'parameters are'))]
    return [places.shown_line(way.shown(name), data, number)] + ([sentence(habit)] if habit else [])


def said_if(said):
    return [sentence(said)] if said else []


def order_of(name, number):
    """Behind which row of a schedule one is to come."""
    rows = (files.content(name) or b'').decode('latin-1').split('\n')
    return said_if(row_habits.of_order(rows[number - 1], rows[:number - 1]) if 0 < number <= len(rows) else None)


def pages_for(words):
    """How many pages a user of so many words needs."""
    if words > 65536:
        return ['cvm: it has {:,} words, and no user has more than 65,536.'.format(words)]
    pages_of = (words + 1023) // 1024
    return ["cvm: it has {:,} words, which take {} page{}: write 'pages {}', or more.".format(words, pages_of, '' if pages_of == 1 else 's', pages_of)]


def given_text(name, key):
    """That a text was given in place of an image of a user."""
    data = files.stored(name) or b''
    if key == 65 and data and all(byte < 127 for byte in data):
        return ["cvm: it is a text: './cvm compile user' makes an image of it."]
    return []


def what_it_is(name, way):
    """What a file looks like that has not the mark which is asked for."""
    whole = files.stored(name) or b''
    data = whole[:4]
    if data in MARKS:
        return ['cvm: %s is %s.' % (way.shown(name), MARKS[data])]
    if data and all(9 <= byte < 127 for byte in data):
        return ["cvm: %s is a text, and nothing that 'compile' or 'link' wrote." % way.shown(name)]
    if data and len(whole) % 4 == 0:
        return ["cvm: %s has no mark of a file that 'compile kernel', 'link' or 'save' wrote: an image of a user has none, and 'link' takes those behind OUT." % way.shown(name)]
    return []


def refusal(numbers, command, way):
    """A refusal with its fields, its place, and what to do."""
    key, fields = numbers[0], numbers[1:]
    said = located(key, fields, command, way)
    with_fields = ' with %s' % ' '.join(map(str, fields)) if fields else ''
    is_told = any(line.startswith('cvm: ') for line in said)
    if key == 12 and is_told:
        # the habit is named, and says more than what is said of any token
        return said + ['cvm: refusal 12%s, unexpected.' % with_fields]
    if key == 22 and is_told:
        # both types are named with what to write, and the remedy of any type is that of a condition
        return said + ['cvm: refusal 22%s, wrong type.' % with_fields]
    return said + ['cvm: refusal %d%s, %s' % (key, with_fields, row_of(str(key)))]


def kernel_fault(printed, command, way):
    """The fault of a kernel: its turn, how to look at it, and what it is."""
    found = re.search(r'(?:turn (\d+) .*)?fault (\w+)$', printed)
    if not found:
        return ['cvm: the kernel met a fault, which the last row names: docs/REFUSALS.md has each with what to do.']
    turn, name = found.group(1), found.group(2)
    said = ['cvm: the kernel met the fault %s%s: %s' % (name, ' in turn %s' % turn if turn else '', row_of(name))]
    if turn and int(turn) > 0:
        how = 'boot the image' if command[0] in ('save', 'resume') else 'run'
        said.append('cvm: to look at it, %s with %s: the report then shows globals and users as they stood before that turn.' % (how, way.turns(int(turn))))
    elif turn:
        said.append('cvm: it is the first call, dispatch(0, 0, 0), before any user ran: all globals were 0, false or null.')
    else:
        said.append('cvm: to look at it: %s the report then shows globals and users as they stood before that turn.' % way.booted())
    return said


def gone_on(command):
    """What a resume that is to be run again needs."""
    if command[0] != 'resume':
        return []
    return ['cvm: this run has gone on with cvm.disk: put back the disk as save left it before FILE is taken up again.']


def missing_file(command):
    """Which file could not be had: the first one to be got that can't be, or else the one to be put."""
    gets, puts = words.files(command)
    for name in gets:
        fault = files.get_fault(name)
        if fault:
            return fault
    for name in puts:
        fault = files.put_fault(name)
        if fault:
            return fault
    if puts:
        return "'%s' could not be written to its end, perhaps for want of room, or a file could not be read that can be now" % puts[0]
    return '%s could not be read to its end, and can be now: run it again' % ' or '.join("'%s'" % name for name in gets)


def spent(command, way):
    """What to say where the steps are spent."""
    if command[0] == 'sample':
        return 'the steps of a sample, 4,000,000,000, were spent; no word gives it more.'
    number = lambda name: int(words.value(command, name) or 0)
    return steps.advice(number('STEPS'), number('TURNS'), words.value(command, 'IMAGE'), words.value(command, 'SCHEDULE'), way)


def no_memory(command):
    """What helps where there was no memory for a command."""
    keys = [MEMORY.get(' '.join(command[:2])), MEMORY.get(command[0], '92')]
    help_of = remedy(next(key for key in keys if key in pages.refusals()))
    return help_of.split(',')[0] if command[0] in ('sample', 'check') else help_of


def sentence(said):
    """What is said, with its end: a question has its own."""
    return 'cvm: %s%s' % (said, '' if said.endswith('?') else '.')


def bad_words(command, way):
    """Which word is bad, and the forms of the commands."""
    fault = words.fault(command) or 'the words are no command of this program'
    return [sentence(fault), 'cvm: the commands are:'] + ['  %s %s' % (way.tool, ' '.join(form)) for form in pages.forms()]


def check_answer(rows, stack):
    """What the two rows of a `check` say of so many words of stack."""
    answer = rows[0] if len(rows) == 2 else ''
    if answer.startswith('yes '):
        return ["cvm: %s words of stack are enough: no chain of calls has more than %s, which the one above has. No boot of an image of this source with "
                "'stack %s' or more ends with 'fault StackOut'." % (stack, answer[4:], stack)]
    if answer == 'no cycle':
        return ["cvm: the functions above call one another in a loop, so no number of words is enough for all that the source says. Whether a run goes "
                "round so often is not told: docs/KERNELS.md, 'How much stack?'."]
    if answer.startswith('no '):
        return ["cvm: the chain of calls above has %s words, more than %s. Raise 'stack' in the parameters, or make large locals globals: docs/KERNELS.md, "
                "'How much stack?'. Whether a run makes these calls is not told." % (answer[3:], stack)]
    return []


def explain(status, command, rows, way=None):
    """The lines that say what a status means; `rows` are the last two rows that the command printed. Of status 0 only a `check` has more to say."""
    way = way or Way(command)
    printed = rows[-1] if rows else ''
    if status == 0:
        return check_answer(rows, command[-1]) if command[:1] == ['check'] else []
    if status < 0 or status > 8:
        number = -status if status < 0 else status - 128
        return ['cvm: the program was stopped by the signal %d; nothing of what it printed can be relied on.' % number if 0 < number < 65
                else 'cvm: the program ended with the status %d, which it never has by itself.' % status]
    if status == 1:
        return bad_words(command, way)
    found = re.fullmatch(r'refused((?: \d+| -\d+)+)', printed)
    if found and status in (2, 5, 6):
        return refusal([int(word) for word in found.group(1).split()], command, way)
    if status == 2:
        return ['cvm: the input has a fault, which the printed row names: docs/REFUSALS.md.']
    if status == 3:
        return kernel_fault(printed, command, way)
    if status == 4:
        return ['cvm: ' + spent(command, way)] + gone_on(command)
    if status == 5:
        return ['cvm: the disk failed: ' + way.disk()] + gone_on(command)
    if status == 6:
        return ['cvm: a file could not be had: %s.' % missing_file(command)]
    if status == 7:
        return ['cvm: standard output could not be written to the end: %s.' % remedy('95')] + gone_on(command)
    if status == 8:
        return ['cvm: there was no memory for the run. Nothing was printed, and no file or sector changed. What helps: %s.' % no_memory(command)]
    return []


def disk_fault():
    """What is odd about the disk in the current folder, where something is."""
    fault = files.get_fault('cvm.disk') if os.path.lexists('cvm.disk') else files.put_fault('cvm.disk')
    return ' %s.' % fault.capitalize() if fault and fault[0].islower() else (' ' + fault + '.' if fault else '')
