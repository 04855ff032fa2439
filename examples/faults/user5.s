# a system call with a code
      syscall 7
