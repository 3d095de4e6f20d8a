"""The folders of the tools and of their tests. Who imports this can import the tools, too: modules
that scripts use import it in place of `support`, of which those scripts have one of their own.
"""

import sys
from pathlib import Path

TESTS = Path(__file__).resolve().parent
OURS = TESTS.parent
TOP = OURS.parent

if str(OURS) not in sys.path:
    sys.path.insert(0, str(OURS))
