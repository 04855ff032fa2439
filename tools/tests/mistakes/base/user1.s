# counts, and asks each time
        ori r1, r0, 5
loop:   syscall 2
        addiu r1, r1, -1
        bne r1, r0, loop
        lw r3, 64(r0)
        sw r3, 68(r0)
stay:   j stay
