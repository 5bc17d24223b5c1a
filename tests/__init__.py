"""The tests of what stands around the proved program, as unittest cases: desk_*.py of the helpers of the desk, and of the front door."""
import sys

sys.dont_write_bytecode = True
