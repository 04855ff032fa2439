# what stands here is never run: the kernel copies the first page of user 1 over it
      syscall
