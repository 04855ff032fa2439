"""Looks into a run that the program made: rows with source lines, and what is said of a fault. It stands on the models of oracle/, and proves nothing."""
import os
import sys

TOP = os.path.dirname(os.path.dirname(os.path.dirname(os.path.abspath(__file__))))
if TOP not in sys.path:
    sys.path.append(TOP)
# an expression may be nested as deeply as 512 tokens and 64 brackets go
sys.setrecursionlimit(max(sys.getrecursionlimit(), 20000))
