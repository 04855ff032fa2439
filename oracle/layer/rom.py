"""What the boot ROM does, written apart from the project: in how many steps it brings the linked words, and what stands then.

usage: oracle/model rom FILE   prints, for the lines of FILE, what rom_cases prints of them

The steps are counted from the ROM's code: nothing is run here. A sector of linked words costs as much as the page that `swap_in` brings.
"""
RESET = 1                  # the reset is taken
JUMP = 1                   # word 0 jumps to the ROM
BEGIN = 4                  # the first sector (two instructions), the first frame and the number of sectors
COMMAND = 3                # the sector's number, and the command, which is a number of a register first
SEEN = 2                   # the status is read, and found to be that of a disk which is done
SETTLE = 3                 # the addresses of buffer and frame, and the number of turns
MOVE = 128 * 21 + 1        # 1,024 words, eight a turn, and the last test
ONWARD = 3                 # sector, frame and number go on
LOOP = 2                   # the test that there is one left, and the branch back
CLEAR = 7                  # the registers that were used
LEAVE = 1                  # the jump to word 0


def command(busy):
    """The steps of a command and of the wait for it, where a turn of the wait takes three, and the disk is done in the middle of one or between two."""
    return COMMAND + 3 * ((busy + 2) // 3) + SEEN


def steps(sectors, busy):
    """The steps of a boot, to the one before the linked words' first."""
    return RESET + JUMP + BEGIN + sectors * (LOOP + command(busy) + SETTLE + MOVE + ONWARD) + 1 + CLEAR + LEAVE


def told(sectors, busy, lines):
    """What is told of a boot: no line is taken in system mode, so each stays latched and costs no step."""
    if not 1 <= sectors <= 40:
        return ' no such ROM\n'
    count = steps(sectors, busy)
    latched = {step % 8 for step in range(min(lines, count))}
    return (f' steps {count} pc 0\n registers not 0: 0\n wrong words: 0 of memory, 0 of the ROM, 0 of the disk\n'
            f' latched {sum(2 ** line for line in latched)}\n')


def main(words):
    with open(words[0], encoding='utf-8') as file:
        for line in file:
            print(line, end='')
            if line.startswith('rom '):
                print(told(*map(int, line.split()[1:])), end='')
    return 0
