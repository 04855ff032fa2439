# asks for a number, which comes into register 2, and for how many were left, which comes into register 3, until none was left
next: syscall 1
      beq r3, r0, done
      addu r4, r4, r2
      j next
done: syscall 2
