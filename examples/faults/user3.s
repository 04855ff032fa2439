# a word that is no instruction
      .word 0xffffffff
