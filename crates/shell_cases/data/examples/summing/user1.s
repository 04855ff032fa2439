      ori r5, r0, 10
next: addiu r4, r4, 1
      bne r4, r5, next
      syscall
