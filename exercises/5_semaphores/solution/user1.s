# Puts 1, 2 and 3 into the box, one after the other: P of "empty" (semaphore 1), put, V of "full" (semaphore 2).
        ori r6, r0, 1
more:   ori r4, r0, 1
        syscall 1               # P(empty)
        addu r5, r6, r0
        syscall 3               # put
        ori r4, r0, 2
        syscall 2               # V(full)
        addiu r6, r6, 1
        slti r1, r6, 4
        bne r1, r0, more
        syscall 0
