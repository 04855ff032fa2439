# grow: a program in assembler. It asks for two pages more, keeps three letters there, and has them put from there.
        ori r4, r0, 72          # 32 * 2 + 8: two pages more
        syscall
        addiu r28, r2, 8180     # where the letters are, for the kernel too
        ori r9, r0, 52
        sw r9, 0(r28)
        ori r9, r0, 50
        sw r9, 4(r28)
        ori r9, r0, 10
        sw r9, 8(r28)
        ori r4, r0, 4203        # 32 * (128 * 1 + 3) + 11: three letters to file 1
        syscall
        addu r4, r0, r0         # 32 * 0 + 0: the end
        syscall
