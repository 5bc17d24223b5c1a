"""What measures the program, and second computations that hold its answers against what they have to be."""
import sys

sys.dont_write_bytecode = True
