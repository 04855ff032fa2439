# gets three messages, adds them in register 5, and ends the run by a load at no word
      ori r1, r0, 3
get:  syscall
      beq r2, r0, get
      addu r5, r5, r3
      addiu r1, r1, -1
      bne r1, r0, get
      lw r6, 1(r0)
