"""The bounds and the version that include/fts4box.h defines."""
import os
import re

from paths import INCLUDE

with open(os.path.join(INCLUDE, "fts4box.h"), encoding="ascii") as f:
    TEXT = f.read()

NUMBERS = {name: int(value) for name, value in re.findall(r"^#define (FTS4\w+) (\d+)\b", TEXT, re.M)}
(VERSION,) = re.findall(r'^#define FTS4BOX_VERSION "([^"]+)"$', TEXT, re.M)
