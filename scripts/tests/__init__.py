"""Tests of the scripts, which scripts/self-test runs."""

import sys
from pathlib import Path

# What they share with the tests of the whole repository: needs.py and shells.py.
sys.path.append(str(Path(__file__).resolve().parent.parent.parent / "tests"))
