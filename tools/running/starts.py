"""What ./cvm and ./try run where memory is limited: it ends with status 0 where Python can start, can read both tools, and has some room to work in."""
import os
import sys

sys.dont_write_bytecode = True
sys.path.insert(0, os.path.dirname(os.path.dirname(os.path.realpath(__file__))))
from running import cvm_main, try_main  # noqa: E402, F401

ROOM = bytearray(4 << 20)
