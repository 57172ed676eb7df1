"""What the tests against Linux take from `tests/support`."""
import os
import sys

# Python looks for modules in the folder of the script that is run, which is this one; `support` is beside it.
sys.path.append(os.path.dirname(os.path.dirname(os.path.realpath(__file__))))

from support.frames import ESCAPE, FLAG, REVISION, check_sequence, frame
from support.rows import Rows, told
from support.terminals import Terminal
