# Gives five words to the kernel by syscall 1, the word in register 4, and says by syscall 0 that it is done.
        ori r4, r0, 72          # H
        syscall 1
        ori r4, r0, 69          # E
        syscall 1
        ori r4, r0, 76          # L
        syscall 1
        ori r4, r0, 76          # L
        syscall 1
        ori r4, r0, 79          # O
        syscall 1
        syscall 0
