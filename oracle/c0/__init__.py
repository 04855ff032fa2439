"""C0: tokens with places, the tree, the checks, the meaning with its units, the words of the code, and how much stack a kernel needs."""
