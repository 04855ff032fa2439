"""Cases of whole commands for shell_cases, with what each prints: systems that are compiled, linked and booted, and their refusals.

usage: oracle/model write_rows CASES STDOUT   writes the cases to the file CASES and what the program prints of them to STDOUT

Nothing here is taken from the program's own answers.
"""
from oracle.c0.code import code_words
from oracle.generate.writing import (FIRST, HEAD, K1, PARAMS, RESET, ROOM, Writer, main_of, model, params, read, source_image)
from oracle.words import little

DOWN = ('int x; int down(int n) { int r; if (n > 0) { r = down(n - 1); } else { r = 0; } return r; } '
        + HEAD + ' { x = down(11); return 0; }')
OVERFLOW = 'lui r1, 0x7fff\nori r1, r1, 0xffff\naddi r2, r1, 1\n'
NINE = 'int c; int w; ' + HEAD + ' { int next; next = 1; if (cause == 5) { c = vm_get(1, 32); w = vm_get(1, 2); next = 0; } return next; }'
NINE_TEXT = '''turn 0 cause 0 data 00000000 user 0 next 1
turn 3 cause 5 data 20220001 user 1 next 0
halted
global c 12
global w 0
user 1 pages 1 pc 0000000c
reg 1 7fffffff
mem 00000000 3c017fff
mem 00000004 3421ffff
mem 00000008 20220001
'''
ALIASED = '''turn 0 cause 0 data 00000000 user 0 next 1
turn 3 cause 6 data 0000000c user 1 next 0
halted
global b true
user 1 pages 2 pc 0000000c
reg 1 00000005
mem 00000000 34010005
mem 00000004 ac011000
mem 00000008 0000000c
mem 00001000 00000005
mem 00001004 ac011000
mem 00001008 0000000c
'''
FOUR = 'bool b; ' + HEAD + ' { int next; if (cause == 0) { b = vm_resize(1, 4); next = 1; } return next; }'
FOUR_USER = 'lw r1, 4096(r0)\nlw r2, 8192(r0)\nsw r2, 12288(r0)\nsyscall\n.zero 1020\n.word 11\n.zero 1023\n.word 12\n'
# the frames take pages in turn: page 0 and 1; page 2, and 0 again; and the stored page 3, which stays in its frame to the end
FOUR_SECTORS = [(0, [0x8c011000, 0x8c022000, 0xac023000, 0x0000000c]), (1, [11]), (2, [12]), (3, []), (4, [])]
MESSAGES = [read('messages', n) for n in ('kernel.c0', 'user1.s', 'user2.s', 'user3.s')]
WHOLE = model(MESSAGES[0], MESSAGES[1:], PARAMS, '', 1000)
CUT = model(MESSAGES[0], MESSAGES[1:], PARAMS, '', 100)
ALTERED = NINE.replace('vm_get(1, 2)', 'vm_word(1, 8)')
FIRST_IMAGE = source_image(FIRST)
ZERO = HEAD + ' { return 0; }'


class Rows(Writer):
    files = True
    note = 'Whole systems: compiled, linked and booted, and what is refused. Written by oracle/generate/rows.py.'

    def kernels_alone(self):
        """Kernels with no users."""
        self.alone('a source alone, with one global', FIRST, RESET + ' 0\nhalted\nglobal x -3\n')
        self.alone('a source alone, with none', HEAD + ' { return 0; }', RESET + ' 0\nhalted\n')
        self.alone('sums wrap', FIRST.replace('2 - 5', '2147483647 + 1'), RESET + ' 0\nhalted\nglobal x -2147483648\n')
        self.alone('no step is given', FIRST, '', 4, steps=0)
        self.alone('a kernel that loops', HEAD + ' { while (true) { } return 0; }', '', 4, steps=1000000)

    def sources_refused(self):
        """Sources that are not compiled."""
        self.begin('sources that are not compiled')
        self.part('file big', FIRST.replace('2 - 5', '2147483648'))
        self.part('file true', FIRST.replace('2 - 5', 'true'))
        self.part('file none', 'int x;')
        self.raw('zeros o', '1000')
        self.run('compile kernel big o', 'refused 11 57', 2)
        self.run('compile kernel true o', 'refused 22 57 61', 2)
        self.run('compile kernel none o', 'refused 31 0 6', 2)
        self.unchanged('o', 1000)

    def kernels_that_fault(self):
        """Kernels that fault, and those that use all that they have."""
        self.boots('quotients round towards zero', 'int a; int b; int c; int d; ' + HEAD
              + ' { a = (-2147483647 - 1) / -1; b = (-2147483647 - 1) % -1; c = -7 / 2; d = -7 % 2; return 0; }',
              text=RESET + ' 0\nhalted\nglobal a -2147483648\nglobal b 0\nglobal c -3\nglobal d -1\n')
        self.boots('a division by 0', 'int x; ' + HEAD + ' { x = 1; x = 1 / (x - 1); return 0; }', text='turn 0 cause 0 data 00000000 user 0 fault DivZero\n', status=3)
        self.boots('an answer above the users', HEAD + ' { return 5; }', ['syscall'], text='turn 0 cause 0 data 00000000 user 0 fault BadUser\n', status=3)
        self.boots('a negative answer', HEAD + ' { return -1; }', ['syscall'], text='turn 0 cause 0 data 00000000 user 0 fault BadUser\n', status=3)
        self.boots('the heap is full', 'struct pair { int a; int b; }; struct pair* p; int* q; int* r; ' + HEAD
              + ' { p = new struct pair; q = new int; r = new int; return 0; }', par=params(heap=3),
              text=RESET + ' 0\nhalted\nglobal p set\nglobal q set\nglobal r null\n')
        self.boots('the stack is used to its last word', DOWN, par=params(stack=66), text=RESET + ' 0\nhalted\nglobal x 0\n')
        self.boots('the stack is a word too small', DOWN, par=params(stack=65), text='turn 0 cause 0 data 00000000 user 0 fault StackOut\n', status=3)
        self.boots('an index behind the last', 'int[4] a; int* p; int x; ' + HEAD + ' { x = 3; p = &a[x]; *p = 9; x = a[3] - 5; p = &a[x]; return 0; }',
              text='turn 0 cause 0 data 00000000 user 0 fault Bounds\n', status=3)
        self.boots('a null pointer', 'int[4] a; int* p; int x; ' + HEAD + ' { x = *p; return 0; }', text='turn 0 cause 0 data 00000000 user 0 fault NullUse\n', status=3)

    def users(self):
        """Users."""
        self.boots('an overflow', NINE, [OVERFLOW], text=NINE_TEXT)
        self.boots('a user of no words', 'int n; ' + HEAD + ' { int next; next = 1; if (cause == 3) { n = n + 1; if (n == 2) { next = 0; } } return next; }', [''],
              text=RESET + ' 1\nturn 1 cause 3 data 00000000 user 1 next 1\nturn 2 cause 3 data 00000000 user 1 next 0\nhalted\nglobal n 2\nuser 1 pages 0 pc 00000000\n')
        self.boots('a word that is stored is run', K1, ['ori r1, r0, 7\nsw r1, 4092(r0)\nj 1023\n'], text='''turn 0 cause 0 data 00000000 user 0 next 1
turn 5 cause 3 data 00001000 user 1 next 0
halted
user 1 pages 1 pc 00001000
reg 1 00000007
mem 00000000 34010007
mem 00000004 ac010ffc
mem 00000008 080003ff
mem 00000ffc 00000007
''')

    def users_sharing(self):
        """Users whose pages are shared and copied."""
        for frames in (2, 3, 16384):
            self.boots('a store into a page that shares its frame, of %d' % frames, 'bool b; ' + HEAD
                  + ' { int next; if (cause == 0) { b = vm_resize(1, 2); b = vm_copy(1, 0, 1, 4096, 1024); next = 1; } return next; }',
                  ['ori r1, r0, 5\nsw r1, 4096(r0)\nsyscall\n'], params(frames=frames), text=ALIASED, still=[1])
        self.boots('words are copied to another user, and not over themselves', 'bool b; bool c; ' + HEAD
              + ' { b = vm_copy(1, 4088, 2, 0, 4); c = vm_copy(1, 4088, 1, 4096, 4); return 0; }',
              ['syscall\n.zero 1021\n.word 11\n.word 12\n.word 13\n.word 14\n', 'syscall\n'], params(frames=2), still=[1])
        self.sectors([(1, [13, 14])])
        self.boots('bad calls and a memory cut away', 'int g; int w; bool s; bool t; ' + HEAD
              + ' { g = vm_get(9, 1); w = vm_word(1, 2); s = vm_set(1, 0, 5); t = vm_resize(1, 5); t = vm_resize(1, 0); t = vm_resize(1, 1); return 0; }',
              ['syscall\n'], text=RESET + ' 0\nhalted\nglobal g -1\nglobal w -1\nglobal s false\nglobal t true\nuser 1 pages 1 pc 00000000\n')
        self.boots('four pages over two frames', FOUR, [FOUR_USER], params(frames=2), text='''turn 0 cause 0 data 00000000 user 0 next 1
turn 4 cause 6 data 0000000c user 1 next 0
halted
global b true
user 1 pages 4 pc 00000010
reg 1 0000000b
reg 2 0000000c
mem 00000000 8c011000
mem 00000004 8c022000
mem 00000008 ac023000
mem 0000000c 0000000c
mem 00001000 0000000b
mem 00002000 0000000c
mem 00003000 0000000c
''')
        self.sectors(FOUR_SECTORS)
        # the pages are on the disk before the first step, and where the first row can't be printed
        self.boots('four pages, of which no step is made', FOUR, [FOUR_USER], params(frames=2), text='', status=4, steps=0)
        self.sectors(FOUR_SECTORS)
        self.boots('four pages, and a sink whose first call fails', FOUR, [FOUR_USER], params(frames=2), text='', status=7, options='sectors 64\nsink 0')
        self.sectors(FOUR_SECTORS)
        # the second user's pages begin at sector 4, one page that is stored to is written when its frame is taken, and what is beyond stays
        self.boots('two users, and a page whose frame is taken', K1.replace('return', 'if (cause == 6 && user == 1) { next = 2; } return'),
              ['ori r1, r0, 7\nsw r1, 4092(r0)\nsyscall\n', 'lw r1, 0(r0)\nlw r2, 4096(r0)\nsyscall\n.zero 1021\n.word 9\n'], params(frames=2),
              text='''turn 0 cause 0 data 00000000 user 0 next 1
turn 3 cause 6 data 0000000c user 1 next 2
turn 6 cause 6 data 0000000c user 2 next 0
halted
user 1 pages 1 pc 0000000c
reg 1 00000007
mem 00000000 34010007
mem 00000004 ac010ffc
mem 00000008 0000000c
mem 00000ffc 00000007
user 2 pages 2 pc 0000000c
reg 1 8c010000
reg 2 00000009
mem 00000000 8c010000
mem 00000004 8c021000
mem 00000008 0000000c
mem 00001000 00000009
''')
        self.sectors([(0, [0x34010007, 0xac010ffc, 0x0000000c] + [0] * 1020 + [7]), (1, []), (4, [0x8c010000, 0x8c021000, 0x0000000c]), (5, [9]), (6, []), (8, [])])

    def users_swapping(self):
        """Users that swap, and that calculate."""
        self.boots('three pages that fight for two frames', FOUR.replace('4)', '3)'), ['sw r1, 4096(r0)\nsw r2, 8192(r0)\nj 0\n'], params(frames=2), turns=301,
              steps=150000000, still=[1], text=RESET + ' 1\nstopped\nglobal b true\nuser 1 pages 3 pc 00000000\nmem 00000000 ac011000\nmem 00000004 ac022000\nmem 00000008 08000000\n')
        self.boots('products and quotients', 'int x; ' + HEAD + ' { int next; x = 100 / (cause + 3); if (cause == 0) { next = 1; } return next; }',
              ['ori r1, r0, 7\naddiu r2, r0, -3\nmult r1, r2\nmflo r3\ndiv r1, r2\ndiv r1, r0\nsyscall\n'], text='''turn 0 cause 0 data 00000000 user 0 next 1
turn 7 cause 6 data 0000000c user 1 next 0
halted
global x 11
user 1 pages 1 pc 0000001c
reg 1 00000007
reg 2 fffffffd
reg 3 ffffffeb
hi 00000001
lo fffffffe
mem 00000000 34010007
mem 00000004 2402fffd
mem 00000008 00220018
mem 0000000c 00001812
mem 00000010 0022001a
mem 00000014 0020001a
mem 00000018 0000000c
''')
        self.boots('a console that adds', 'int s; bool b; ' + HEAD + ' { int a; int c; a = con_get(); c = con_get(); s = a + c; b = con_put(s); b = con_put(-1); return 0; }',
              schedule='input 7\ninput 35\n', text=RESET + ' 0\nhalted\nglobal s 42\nglobal b true\ncon 0000002a\ncon ffffffff\n')

    def messages(self):
        """Messages between users, whole and cut."""
        self.begin('two sums for a third user', 'sectors 64')
        self.system(MESSAGES[0], MESSAGES[1:])
        self.objects('o', MESSAGES[0])
        self.run('boot img s 1000 100000000', WHOLE)
        self.kept_files(MESSAGES[0], MESSAGES[1:], PARAMS, '')
        self.first_sectors(MESSAGES[1:], 4)
        self.run('boot img s 101 100000000', WHOLE)
        assert 'stopped' in CUT and 'user 3 pages 1 pc 00000014' in CUT and 'global total 0' in CUT
        self.run('boot img s 100 100000000', CUT)
        self.run('boot img s 1 100000000', model(MESSAGES[0], MESSAGES[1:], PARAMS, '', 1))
        self.run('boot img s 4294967295 18446744073709551615', WHOLE)

    def altered_disk(self):
        """A disk that doesn't return what was written: the machine runs the altered word."""
        self.boots('a disk that answers another word', ALTERED, [OVERFLOW], options='sectors 64\nalter 0 2 %d' % 0x20220002,
              text=NINE_TEXT.replace('20220001', '20220002').replace('global w 0', 'global w %d' % 0x20220002))
        self.boots('and the same with the words that were written', ALTERED, [OVERFLOW], text=NINE_TEXT.replace('global w 0', 'global w %d' % 0x20220001))

    def refusals(self):
        """Refusals, in the order of work."""
        self.begin('images that are not read')
        self.raw('file cut', FIRST_IMAGE[:-1])
        self.raw('file more', FIRST_IMAGE + '\\x20')
        self.raw('file mark', '\\0' + FIRST_IMAGE[1:])
        self.raw('file old', 'CVMI\\x02\\0\\0\\0' + FIRST_IMAGE[len('CVMI\\x01\\0\\0\\0'):])
        self.part('file s')
        self.run('boot cut s 1000 1000', 'refused 51 12', 2)
        self.run('boot more s 1000 1000', 'refused 52 87', 2)
        self.run('boot mark s 1000 1000', 'refused 50', 2)
        self.run('boot old s 1000 1000', 'refused 53 1 2', 2)
        self.run('boot nowhere s 1000 1000', '', 6)
        self.begin('sources in images that are not compiled')
        self.raw('file big', source_image(FIRST.replace('2 - 5', '2147483648')))
        self.raw('file true', source_image(FIRST.replace('2 - 5', 'true')))
        self.raw('file s', 'line 5 8')
        self.run('boot big s 1000 1000', 'refused 54 11 57', 2)
        self.run('boot true s 1000 1000', 'refused 55 22 57 61', 2)
        self.begin('schedules that are not read')
        self.raw('file img', FIRST_IMAGE)
        self.part('file range', 'line 5 8')
        self.part('file order', 'line 5 1\nline 4 1\n')
        self.part('file bad', 'line 5 1\nlines 4 1\n')
        self.part('file wide', 'input 4294967296\n')
        self.run('boot img range 1000 1000', 'refused 72 1 8', 2)
        self.run('boot img order 1000 1000', 'refused 71 2', 2)
        self.run('boot img bad 1000 1000', 'refused 70 2', 2)
        self.run('boot img wide 1000 1000', 'refused 72 1 4294967296', 2)
        self.begin('a disk that is too small', 'sectors 7')
        self.system(NINE, [OVERFLOW, OVERFLOW])
        self.run('boot img s 1000 1000000', 'refused 90 8 7', 5)
        self.sectors([(0, []), (4, []), (6, [])])
        self.begin('a disk whose third call fails', 'sectors 64\ndisk 2')
        self.system(K1, ['syscall', 'syscall', 'syscall'])
        self.run('boot img s 1000 1000000', '', 5)
        self.sectors([(12, []), (63, [])])
        self.begin('a sink whose first call fails', 'sink 0')
        self.raw('file img', FIRST_IMAGE)
        self.part('file s')
        self.run('boot img s 1000 1000', '', 7)
        self.begin('each length of an image')
        for n in range(0, 87):
            self.raw('file cut%d' % n, source_image(FIRST) if n == 87 else ''.join('\\x%02x' % b for b in (b'CVMI' + bytes([1, 0, 0, 0, 75, 0, 0, 0]) + FIRST.encode())[:n]))
        self.part('file s')
        for n in range(0, 87):
            self.run('boot cut%d s 1000 1000' % n, 'refused 51 %d' % (0 if n < 4 else 4 if n < 8 else 8 if n < 12 else 12), 2)

    def words_altered(self):
        """Words that are altered."""
        self.begin('a bit of the linked words, and of the object, is turned', 'sectors 64')
        self.system(NINE, [OVERFLOW])
        self.part('flip img', str(36 + 4 + len(NINE) + 4 * 20))
        made = 0x2b << 26 | 21 << 16 | 4 * (1030 + 21)
        self.run('boot img s 1000 1000000', 'refused 56 20 %d %d' % (made ^ 1, made), 2)
        self.part('flip o', str(16 + len(NINE)))
        self.raw('zeros img', str(ROOM))
        self.run('link o p img u1', 'refused 63 0 %d %d' % (0x3c1c0001 ^ 1, 0x3c1c0001), 2)
        self.unchanged('img')
        # the last linked word becomes the user's first one: the words that the image says to have are one fewer than the kernel's code gives, and one more
        self.begin('a linked word is taken away, and one is put behind the last')
        odd, even = 16384 + code_words(FIRST), 16384 + code_words(ZERO)
        assert (odd % 2, even % 2) == (1, 0)
        self.system(FIRST, ['syscall\nsyscall 1'])
        self.part('flip img', '32')
        self.part('flip img', '36')
        self.parts('img', little([odd - 1, 3]), 32)
        self.run('boot img s 1000 1000000', 'refused 58 %d %d' % (odd - 1, odd), 2)
        self.run('trace img s 1000 1000000 1', 'refused 58 %d %d' % (odd - 1, odd), 2)
        self.part('flip img', '36')
        self.parts('img', little([odd - 1, 2]), 32)
        self.run('boot img s 1000 1000000', 'refused 52 %d' % (40 + len(FIRST) + 4 * (odd - 1 + 2)), 2)
        self.system(ZERO, ['syscall\nsyscall 1\nsyscall 2'], image='more')
        self.part('flip more', '32')
        self.part('flip more', '36')
        self.run('boot more s 1000 1000000', 'refused 58 %d %d' % (even + 1, even), 2)
        self.begin('an object whose first word is another one, without users')
        self.part('file k', FIRST)
        self.part('file p', PARAMS)
        for n in ('o', 'img'):
            self.raw('zeros ' + n, str(ROOM))
        self.run('compile kernel k o')
        self.part('flip o', str(16 + len(FIRST)))
        self.run('link o p img', 'refused 63 0 %d %d' % (0x3c1c0001 ^ 1, 0x3c1c0001), 2)
        self.unchanged('img')
        self.part('flip o', str(16 + len(FIRST)))
        self.run('link o p img')
        self.part('part img 0 12')
        self.told.append('CVMI\\x03\\x00\\x00\\x00\\x00\\x00\\x00\\x00')

    def objects_and_parameters(self):
        """Objects, shelves and parameters."""
        self.begin('an object of another form')
        self.raw('file form', 'CVMO\\x02\\0\\0\\0\\0\\0\\0\\0\\0\\0\\0\\0')
        self.raw('file long', 'CVMO\\x01\\0\\0\\0\\x01\\0\\x10\\0\\0\\0\\0\\0')
        self.part('file p', PARAMS)
        self.raw('zeros img', str(ROOM))
        self.run('link form p img', 'refused 43 4 2', 2)
        self.run('link long p img', 'refused 43 8 1048577', 2)
        self.unchanged('img')
        self.begin('the shelf fails when the object is put', 'shelf 1')
        self.part('file k', FIRST)
        self.raw('zeros o', str(ROOM))
        self.run('compile kernel k o', '', 6)
        self.unchanged('o')
        self.run('compile kernel k o')
        self.part('part o 0 12')
        self.told.append('CVMO\\x01\\x00\\x00\\x00K\\x00\\x00\\x00')
        self.begin('words that are no boot')
        self.run('boot a b 0 5', 'bad words', 1)
        self.run('boot a b 4294967296 5', 'bad words', 1)
        self.run('boot a b 1 18446744073709551616', 'bad words', 1)
        self.run('boot a b 01 5', 'bad words', 1)
        self.begin('parameters out of their ranges, and users that do not fit')
        self.system(K1, ['syscall'])
        self.part('file few', params(frames=1))
        self.part('file short', 'pages 4\nframes 8\nheap 64\n')
        self.part('file torn', 'syscal')
        self.raw('zeros img', str(ROOM))
        self.run('link o few img u1', 'refused 62 2 1', 2)
        self.run('link o short img u1', 'refused 66 4', 2)
        self.run('link o p img u1 torn', 'refused 65 2 6', 2)
        self.run('link o p img' + ' u1' * 65, 'refused 60 65', 2)
        self.unchanged('img')

    def write(self):
        self.kernels_alone()
        self.sources_refused()
        self.kernels_that_fault()
        self.users()
        self.users_sharing()
        self.users_swapping()
        self.messages()
        self.altered_disk()
        self.refusals()
        self.words_altered()
        self.objects_and_parameters()


LEAST_WORDS = 2


def main(words):
    return main_of(Rows, words)
