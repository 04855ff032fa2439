loop:   syscall 3
        j loop
