"""What the layer's blocks do to words, registers and sectors, and in how many steps: page faults, the frame table, paging, and the boot ROM."""
