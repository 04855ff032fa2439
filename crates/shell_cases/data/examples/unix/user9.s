# The place of a process: it begins with no words, which fork and exec give it.
