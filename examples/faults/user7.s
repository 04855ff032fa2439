# a store behind its memory
      sw r0, 4096(r0)
