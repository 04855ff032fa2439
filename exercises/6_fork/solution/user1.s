# Makes 6 * 7 in lo, keeps 9 at address 1024, and forks (syscall 1): register 2 is then 2 in the parent, the child's number, and 0 in the child. Both log
# (syscall 2, the word in register 4) register 2, the word at 1024, register 8 and lo, and say that they are done (syscall 0).
        ori r6, r0, 6
        ori r7, r0, 7
        mult r6, r7
        ori r8, r0, 9
        sw r8, 1024(r0)
        syscall 1
        addu r4, r2, r0
        syscall 2
        lw r4, 1024(r0)
        syscall 2
        addu r4, r8, r0
        syscall 2
        mflo r4
        syscall 2
        syscall 0
