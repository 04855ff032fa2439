# Takes three words from the box, one after the other: P of "full" (semaphore 2), get, V of "empty" (semaphore 1).
        ori r6, r0, 1
more:   ori r4, r0, 2
        syscall 1               # P(full)
        syscall 4               # get, into register 2
        ori r4, r0, 1
        syscall 2               # V(empty)
        addiu r6, r6, 1
        slti r1, r6, 4
        bne r1, r0, more
        syscall 0
