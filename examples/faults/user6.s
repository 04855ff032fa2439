# a load at an address that is no multiple of 4
      lw r1, 6(r0)
