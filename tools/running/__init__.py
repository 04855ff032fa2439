"""Builds the program once and runs its commands: for ./cvm and ./try. No part of what is proved."""
