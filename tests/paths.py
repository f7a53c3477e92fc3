"""Where things stand; importing it makes tools/ importable."""
import os
import sys

ROOT = os.path.dirname(os.path.dirname(os.path.abspath(__file__)))
TOOLS = os.path.join(ROOT, "tools")
INCLUDE = os.path.join(ROOT, "include")
EXAMPLES = os.path.join(ROOT, "examples")
PROGRAM = os.path.join(ROOT, "target", "bin", "fts4search")

sys.path.insert(0, TOOLS)
