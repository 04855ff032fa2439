# The child: it begins with no word, and is made by the fork.
