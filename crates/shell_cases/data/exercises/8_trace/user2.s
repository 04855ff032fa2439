# Adds the numbers from 20 down to 1, and gives the sum in register 4 away.
        ori r1, r0, 20
loop:   addu r4, r4, r1
        addiu r1, r1, -1
        bne r1, r0, loop
        syscall 1
