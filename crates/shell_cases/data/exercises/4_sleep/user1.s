# Sleeps until line 3 is raised (syscall 1), logs how often it woke (syscall 2, the number in register 4), and sleeps again; after the third time it
# is done (syscall 0).
again:  syscall 1
        addiu r4, r4, 1
        syscall 2
        slti r1, r4, 3
        bne r1, r0, again
        syscall 0
