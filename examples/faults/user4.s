# a sum that is no signed word
      lui r1, 0x7fff
      ori r1, r1, 0xffff
      addi r2, r1, 1
