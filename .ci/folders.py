"""Lets the checks of this folder import the scripts of `bench/` and of `tools/`; imported before these."""
import os
import sys

TOP = os.path.dirname(os.path.dirname(os.path.abspath(__file__)))
BENCH, TOOLS = (os.path.join(TOP, name) for name in ("bench", "tools"))
sys.path += [BENCH, TOOLS]
