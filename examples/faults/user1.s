# a fetch at an address that is no multiple of 4
      ori r1, r0, 2
      jr r1
