# Adds the words at 64 and 68, where the kernel puts the sums of users 1 and 2, and gives the sum in register 4 away.
        lw r1, 64(r0)
        lw r2, 68(r0)
        addu r4, r1, r2
        syscall 1
