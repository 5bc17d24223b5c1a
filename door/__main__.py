"""Runs the front door: python3 -I -S -B -X utf8 door/__main__.py WORDS.. (./osp WORDS.. does this)."""
import _signal
import os
import sys

if sys.version_info < (3, 11):
    os.write(2, b"osp: python3 of version 3.11 or later is needed on the PATH, and this is another: apt install python3\n")
    os._exit(70)
# (Python's own answer to SIGINT is a traceback.)
if _signal.getsignal(_signal.SIGINT) is _signal.default_int_handler:
    _signal.signal(_signal.SIGINT, _signal.SIG_DFL)
# (The folder that holds the door isn't among those that are searched.)
sys.path.insert(0, os.path.dirname(os.path.dirname(os.path.realpath(__file__))))

from door import front  # noqa: E402

if __name__ == "__main__":
    front.main(sys.argv[1:])
