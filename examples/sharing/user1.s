# adds 5 to its third page's word at 8236 and to its second one's at 4140, and leaves the sum of all three in register 4
      ori r1, r0, 5
      lw r2, 8236(r0)
      addu r2, r2, r1
      sw r2, 8236(r0)
      lw r3, 4140(r0)
      addu r3, r3, r1
      sw r3, 4140(r0)
      lw r4, 44(r0)
      addu r4, r4, r2
      addu r4, r4, r3
      j end
      .word 100
end:  syscall
