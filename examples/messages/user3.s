# waits until the words at 64 and 68 are there, and adds them
wait: lw r1, 64(r0)
      beq r1, r0, wait
      lw r3, 68(r0)
      beq r3, r0, wait
      addu r4, r1, r3
      syscall
