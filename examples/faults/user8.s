# a special register, which only the kernel may use
      mfc0 r1, c0
