#!/usr/bin/env python3
"""The static library defines just the eight calls, the header declares them as the tools call them, and it needs no symbol but two of C's."""
import os
import re
import subprocess
import sys

import paths
from fts4box import ARCHIVE, CALLS, I64, PTR, SIZE, U32
from tally import Tally

# docs/REFERENCE.md asks for memmove too, so that a later build may need it; this one must not: what brought it was taken back (docs/LOOK-BACK.md).
NEEDED = {"memcpy", "memset"}
TYPES = {"size_t": SIZE, "uint32_t": U32, "int64_t": I64}


def symbols(*options):
    """The names that nm prints."""
    printed = subprocess.run(["nm", "-g", "-f", "posix", *options, ARCHIVE], stdout=subprocess.PIPE, check=True, text=True).stdout
    return {line.split()[0] for line in printed.splitlines() if line and not line.endswith(":")}


def declared():
    """Each call of the header with the types of its arguments."""
    with open(os.path.join(paths.INCLUDE, "fts4box.h"), encoding="ascii") as f:
        calls = re.findall(r"^\w+ (fts4_\w+)\(([^)]*)\);", f.read(), re.M)
    return {name: [PTR if "*" in argument else TYPES[argument.split()[0]] for argument in arguments.split(",")] for name, arguments in calls}


def main():
    tally = Tally()
    tally.check("declared in the header", declared(), CALLS)
    tally.check("defined", symbols("--defined-only"), set(CALLS))
    tally.check("needed beside memcpy and memset", symbols("--undefined-only") - NEEDED, set())
    return tally.finish()


if __name__ == "__main__":
    sys.exit(main())
