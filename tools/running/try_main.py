"""./try: a command, or whole systems from their sources, by the released program, or by the sources as they are with no proof."""
import os

from explain import files, given_texts, pages, status as explaining, words as command_words
from running import expected, extras, foreseen, kept, program, proved, released, rooms, sharing, system
from running.folder import BadFolder, Folder
from running.guard import Bad, say
from showing import listing, looking, unasked, wanted

HELP = '''./try FOLDER..        compiles, links and boots the system of each folder: kernel.c0, params, schedule, user1.s or user1.c0, user2.s ..
  --trace USER        prints what this user saw in place of the boot
  --turns N           so many turns at most, in place of 100000
  --steps N           so many steps of the machine at most, in place of 1000000000 (some five seconds), and of 1000000 with --checked (some four)
                      or --clock; with --timer 100000 times its period at most
  --picture FILE      draws the run, too, as an SVG
  --page FILE         puts a page of the run, too, to step through in a browser: one file, which needs no network
  --from A, --to B    of the picture or the page: turns A to B alone
%s
  --proved            by the proved program, which ./cvm builds where the released one is not of these sources
  --checked           by the sources as they are, built with checks and no proof, as it is done by itself where the released program isn't of them
./try COMMAND WORD..  one command of the program, as ./cvm COMMAND WORD..; ./try --checked COMMAND WORD.. by the sources as they are
./try --version       says which program is run
./try --keep          builds the sources and runs nothing. Each build is kept until a source changes; ./try --anew FOLDER.. builds again''' % (extras.HELP + '\n' + wanted.HELP)


class Options:
    """The words of ./try: folders or a command, and the options."""

    def __init__(self):
        self.folders, self.turns, self.given_steps = [], 100000, None
        self.trace, self.picture, self.proved, self.checked = None, None, False, False
        self.page, self.first, self.last = None, None, None
        self.extras, self.looking = extras.Extras(), wanted.Wanted()

    @property
    def steps(self):
        """How many steps are run at most. The program as `rt try` builds it, with its checks, makes a thousandth of what the proved one makes in a second, which is some 200,000,000."""
        if self.given_steps is not None:
            return self.given_steps
        # the steps beside turns are told by a program with checks, too
        most = 1000000 if self.checked or self.extras.clock else 1000000000
        return min(most, self.extras.timer.usual_steps()) if self.extras.timer else most


def number_of(word, name, least, most):
    why = command_words.number_fault(word, least, most)
    if why:
        raise Bad("the word behind %s, '%s', %s" % (name, word, why))
    return int(word)


def options_of(words):
    """Reads the words of a run of folders."""
    options, left = Options(), list(words)
    taken = {'--trace': lambda word: setattr(options, 'trace', number_of(word, '--trace', 1, 64)),
             '--turns': lambda word: setattr(options, 'turns', number_of(word, '--turns', 1, 2**32 - 1)),
             '--steps': lambda word: setattr(options, 'given_steps', number_of(word, '--steps', 0, 2**64 - 1)),
             '--picture': lambda word: setattr(options, 'picture', word), '--page': lambda word: setattr(options, 'page', word),
             '--from': lambda word: setattr(options, 'first', number_of(word, '--from', 0, 2**32 - 1)),
             '--to': lambda word: setattr(options, 'last', number_of(word, '--to', 0, 2**32 - 1)), **options.extras.taken()}
    while left:
        word = left.pop(0)
        if word in ('--proved', '--checked'):
            setattr(options, word[2:], True)
        elif word in extras.FLAGS:
            options.extras.set_flag(word)
        elif word in taken:
            if not left:
                raise Bad('behind %s a word is missing' % word)
            taken[word](left.pop(0))
        elif word in wanted.OPTIONS:
            options.looking.take(word, left)
        elif word == '--anew':
            raise Bad("'--anew' stands first: ./try --anew FOLDER..")
        elif word in ('--version', '--help', '-h'):
            raise Bad("'%s' stands alone: ./try %s" % (word, word))
        elif word == '--keep':
            raise Bad("'--keep' stands alone: ./try --keep builds the program and runs nothing. Each ./try FOLDER keeps its build by itself")
        elif word.startswith('--'):
            near = command_words.nearest(word, [*taken, *extras.FLAGS, *wanted.OPTIONS, '--proved', '--checked', '--keep', '--anew', '--version'])
            raise Bad("'%s' is no option%s ./try --help lists them" % (word, ": did you mean '%s'?" % near if near else ';'))
        else:
            options.folders.append(word)
    return options


def checked(options):
    """The folders, each with its files, before the toolchain starts."""
    if not options.folders:
        raise Bad('no folder is given; ./try --help says what can be')
    if options.proved and options.checked:
        raise Bad('--proved and --checked are two programs: leave one out')
    fault = picture_fault(options) or options.looking.fault(options)
    if fault:
        raise Bad(fault)
    options.extras.check(options)
    found = []
    for path in options.folders:
        try:
            if not os.path.isdir(path):
                raise BadFolder(files.get_fault(path) or "'%s' is no folder" % path)
            found.append(options.extras.folder(path))
        except BadFolder as bad:
            if len(options.folders) == 1:
                raise Bad(str(bad)) from None
            found.append(str(bad))
    for folder in found:
        if options.trace and not isinstance(folder, str) and options.trace > len(folder.users):
            raise Bad('--trace %d: %s has %d users' % (options.trace, folder.path, len(folder.users)))
        lost = None if isinstance(folder, str) else source_put_over(folder, [name for name in (options.picture, options.page) if name is not None])
        if lost is not None:
            raise Bad("'%s' is a file of the system itself, which would be lost: give another name" % lost)
    same = standard_output(found, options)
    if same is not None:
        raise Bad("'%s' is standard output, too, and what is printed would be lost or stand in it" % same)
    return found


def files_of(folder):
    """The files of a folder's system; none where it has a fault."""
    return [] if isinstance(folder, str) else [folder.kernel, folder.params, folder.schedule, *folder.users]


def standard_output(folders, options):
    """The first of the files that are read or put which is standard output, too; None where none is."""
    names = [name for folder in folders for name in files_of(folder)] + [options.picture, options.page, options.extras.expect]
    out = foreseen.output()
    return next((name for name in names if out and name is not None and foreseen.identity_of(name) == out), None)


def source_put_over(folder, names):
    """The first of the names that is a file of the folder's system; None where none is."""
    sources = [name for name in files_of(folder) if os.path.exists(name)]
    return next((name for name in names if os.path.exists(name) and any(os.path.samefile(name, source) for source in sources)), None)


def picture_fault(options):
    """What is wrong with the words on a picture and a page, in a sentence; None where nothing is."""
    names = [name for name in (options.picture, options.page) if name is not None]
    if len(options.folders) > 1 and (names or options.trace):
        return '--trace, --picture and --page are for one folder'
    if names and (options.trace or options.extras.expect is not None):
        return '--picture and --page go with the boot alone: leave out --trace and --expect'
    if options.looking.anything and options.page is not None:
        return '--page goes with the boot alone: leave out --show, --watch, --break and --listing'
    if not names and (options.first is not None or options.last is not None):
        return '--from and --to say which turns --picture or --page has: give one of them, too'
    if options.first is not None and options.last is not None and options.first > options.last:
        return '--from %d --to %d: the first turn is to come first' % (options.first, options.last)
    if len(names) == 2 and os.path.abspath(names[0]) == os.path.abspath(names[1]):
        return "'%s' is to be the picture and the page: give two names" % names[0]
    return next(filter(None, map(files.put_fault, names)), None)


def run_folder(start, folder, options, put, say_of):
    """Runs one folder. Gives the status of the command that ended it."""
    clock_start = options.extras.begin(options)
    with rooms.room('cvm-try-') as work:
        run = system.Run(start, folder, work, options.extras.put(put), say_of)
        status = run.build()
        if status:
            return status
        options.extras.prepare(run, options, say_of)
        if options.looking.listing:
            return listing.put_listing(run, folder)
        if options.looking.anything:
            return looking.look(run, folder, options)
        run.says_spent = bool(options.trace) or options.extras.expect is not None
        if options.trace:
            status = run.trace(options.turns, options.steps, options.trace)
        else:
            status = options.extras.boot(run, options, clock_start)
        if options.extras.expect is None:
            unasked.say_why(run, folder, options, status)
        if options.page is not None and status in (0, 3, 4):
            from paging import page
            status = page.put_page(run, folder, options) or status
        if options.picture is not None and status in (0, 3, 4):
            draw(run, folder, options)
        return status


def draw(run, folder, options):
    """Draws a run that was booted, with what each user saw."""
    from drawing import draw as drawn, rows
    run.put, run.say = (lambda text: None), (lambda lines: None)
    for user in range(1, len(folder.users) + 1):
        run.trace(options.turns, options.steps, user)
    names = [run.made('trace%d' % user) for user in range(1, len(folder.users) + 1)]
    try:
        drawn.draw_files(run.made('boot'), names, options.picture, title=program.text(os.path.basename(os.path.abspath(folder.path))), turns=options.turns,
                         window=(options.first, options.last))
    except rows.BadText as bad:
        say("try: '%s' is not drawn: %s" % (options.picture, bad))


def start_of(options):
    """The words that start the program. Where the released one isn't to be run and none is asked for, it is the checked one."""
    if options.proved:
        return proved.program()
    path, why = (None, None) if options.checked else released.asked()
    if path:
        return [path]
    if why:
        say(released.sentence('try', why))
    options.checked = True
    try:
        return kept.program(say)
    finally:
        sharing.open_to_readers(kept.KEPT)


def run_one(start, folder, options):
    """Runs one folder, whose text goes to standard output."""
    if options.extras.expect is None:
        return run_folder(start, folder, options, program.put, say)
    return run_expected(start, folder, options)


def run_expected(start, folder, options):
    """Runs one folder, and says in one line whether it prints what is expected. Gives 0 where it does, and 1 where not."""
    text, said = [], []
    status = run_folder(start, folder, options, text.append, said.extend)
    answer = options.extras.answer(b''.join(text), status, said)
    program.put_line('%s: %s' % (expected.one_line(folder.path), answer or 'as expected'))
    return 1 if answer else 0


def run_many(start, folders, options):
    """Runs many folders by the one build. Gives 0 where each has 0, and else 1."""
    worst = 0
    for path, folder in zip(options.folders, folders):
        if isinstance(folder, str):
            worst = 1
            say('try: ' + folder)
            program.put_line(expected.one_line('%s: %s' % (path, folder)) if options.extras.expect is not None else '== %s\nstatus 64' % path)
        elif options.extras.expect is not None:
            worst = run_expected(start, folder, options) or worst
        else:
            program.put_line('== ' + path)
            status = run_one(start, folder, options)
            program.put_line('status %d' % status)
            worst = 1 if status else worst
    return worst


def run_folders(words, before):
    """Runs folders; what is to be done before the program is looked for is done once all words are read."""
    options = options_of(words)
    folders = checked(options)
    before()
    # where no folder is one, nothing is built
    start = start_of(options) if any(isinstance(folder, Folder) for folder in folders) else []
    return run_one(start, folders[0], options) if len(folders) == 1 else run_many(start, folders, options)


def run_command(words, options, before):
    """Runs one command; what is to be done before the program is looked for is done once all words are read. What is wrong with its words and files is said before the toolchain starts, as the program would."""
    if command_words.fault(words):
        program.put(b'bad words\n')
        say(explaining.explain(1, words, ['bad words'], explaining.Way(words, './try')))
        return 1
    gets, puts = command_words.files(words)
    fault = next((fault for fault in map(files.get_fault, gets) if fault and 'more than' not in fault), None)
    if not fault and (options.checked or not released.is_to_be_run()) and not kept.is_kept():
        # a build would be spent on a command whose file can't be put
        fault = next(filter(None, map(files.put_fault, puts)), None)
    found = (6, 'a file could not be had: %s.' % fault) if fault else foreseen.fault(words)
    if found:
        say('try: ' + found[1])
        return found[0]
    before()
    say(given_texts.said(words, './try'))
    status, rows = program.run_here([*start_of(options), *words], *command_words.files(words))
    say(explaining.explain(status, words, rows, explaining.Way(words, './try')))
    return status if status >= 0 else 128 - status


def main(words):
    pages.require(Bad)
    if not words or words[0] in ('--help', '-h'):
        say(['try: runs systems and commands by the proved program, or by the sources as they are.', HELP, 'The commands are:'] + ['  ./try ' + ' '.join(form) for form in pages.forms()])
        return 0 if words else 64
    if list(words) == ['--version']:
        program.put_line('try: ' + released.version('the program that the toolchain builds of these sources with checks and no proof'))
        return 0
    words, before, options = list(words), lambda: None, Options()
    while words[:1] in (['--anew'], ['--checked']):
        before = kept.forget if words[0] == '--anew' else before
        options.checked, words = True, words[1:]
    if words == ['--keep']:
        options.checked, words = True, []
    if not words:
        before()
        start_of(options)
        return 0
    heads = [command_words.literal(form)[0] for form in pages.forms()]
    if words[0] in heads:
        return run_command(words, options, before)
    if not words[0].startswith('--') and not os.path.lexists(words[0]) and not os.path.sep in words[0]:
        near = command_words.nearest(words[0], heads)
        raise Bad("'%s' is neither a folder nor a command%s ./try --help lists the commands" % (words[0], ": did you mean '%s'?" % near if near else ';'))
    return run_folders(['--checked'] * options.checked + words, before)
