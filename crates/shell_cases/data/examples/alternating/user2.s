      ori r4, r0, 2
next: syscall
      addiu r4, r4, 2
      beq r0, r0, next
