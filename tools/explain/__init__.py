"""Says in words and places what a command of cvm came to: for ./cvm, ./try and the examples. No part of what is proved."""
