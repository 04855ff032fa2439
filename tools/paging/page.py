"""Puts a page of a run: ./try FOLDER --page FILE, with --from A --to B for a window of turns."""
import html
import os

from drawing import draw, rows
from explain import files
from paging.record import Record
from running import pipes, program
from running.guard import Bad, say
from showing import made
from showing.looking import turns_made
from oracle.replay import Differs

HERE = os.path.dirname(os.path.abspath(__file__))
# A page has no more bytes than these, and without --from and --to no more turns.
MOST_BYTES, MOST_TURNS, LEAST_ROOM = 5000000, 10000, 100000


def window_of(first, last, total):
    """The first and the last turn of a page of a run of so many turns; without a first one, the last turns of it."""
    if not total:
        raise Bad('no page is made: not one turn was complete', 70)
    if first is not None and first >= total:
        raise Bad('no page is made: --from %d, and the run has turns 0 to %d alone' % (first, total - 1), 70)
    last = total - 1 if last is None else min(last, total - 1)
    return max(0, last + 1 - MOST_TURNS) if first is None else first, last


def recorded(given, first, last, total, room, keeps_first):
    """The record of a window whose turns are no more than so many bytes: late turns are left out, or early ones where the first isn't to be kept."""
    while True:
        record = Record(given, first, last, total, room)
        done = len(record.turns)
        if not record.over:
            return record
        if done < 2:
            raise Bad('no page is made: turn %d alone would have more than %d bytes' % (first, MOST_BYTES), 70)
        if keeps_first:
            record.drop_last()
            return record
        first = last + 1 - max(1, done * 4 // 5)


def part(name):
    with open(os.path.join(HERE, name), encoding='utf-8') as file:
        return file.read()


def page(record, title, picture):
    """The text of a page."""
    parts = {'title': html.escape(title), 'css': part('page.css'), 'picture': picture, 'data': record.data(title), 'js': part('page.js')}
    text = part('page.html')
    for name, value in parts.items():
        head, mark, tail = text.partition('{{%s}}' % name)
        parts[name] = (head, value)
        text = tail
    return ''.join(head + value for head, value in parts.values()) + text


def made_page(given, title, wanted, total, picture_of):
    """The page of a window, as a text of no more bytes than a page has, and its record."""
    first, last = window_of(*wanted, total)
    room = MOST_BYTES * 9 // 10
    while True:
        record = recorded(given, first, last, total, room, wanted[0] is not None)
        text = page(record, title, picture_of(record.first, record.last)).encode('utf-8', errors='replace')
        if len(text) <= MOST_BYTES:
            return text, record
        room = min(room, sum(map(len, record.turns))) * 7 // 10
        if room < LEAST_ROOM:
            raise Bad('no page is made: it would have more than %d bytes' % MOST_BYTES, 70)


def put_page(run, folder, options):
    """Puts the page of a run that was booted. Gives 70 where the models and the program differ, and else 0."""
    title = program.text(os.path.basename(os.path.abspath(folder.path)))
    try:
        given = made.given(run, folder)
        total = turns_made(given, options.turns)
        boot = draw.read(run.made('boot'))
        text, record = made_page(given, title, (options.first, options.last), total, lambda first, last: time_line(boot, title, options.turns, first, last))
    except Differs as differs:
        say("try: '%s' is not made: %s. The program is what is proved." % (options.page, differs))
        return 70
    pipes.put(options.page, text)
    if record.first > 0 or record.last < total - 1:
        say("try: '%s' has turns %d to %d of %d: --from A --to B chooses others." % (options.page, record.first, record.last, total))
    return 0


def time_line(boot, title, turns, first, last):
    """The picture of a window, without the words behind it; none where it can't be drawn."""
    try:
        return draw.draw(boot, [], title, turns, (first, last), False)
    except rows.BadText:
        return ''


def put_fault(name):
    """Why a page can't be put to a file, in a sentence; None where it can."""
    return files.put_fault(name)
