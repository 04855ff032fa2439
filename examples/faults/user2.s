# a fetch behind its memory, which has one page
      j 1024
