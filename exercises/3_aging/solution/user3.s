# Counts without an end, and never gives up the processor.
loop:   addiu r2, r2, 1
        j loop
