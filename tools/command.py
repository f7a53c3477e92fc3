"""What the commands that ask the proved library share: their exit statuses, what the library's numbers mean, the export as it is searched, and how they speak."""
import contextlib
import os
import sys
import tempfile

import export_folder

DONE, REFUSED_BY_BOX, NOT_EXPORTABLE, FAILED = range(4)
MEANINGS = {
    1: "shape: the column names, or the number, the size, the levels or the indexes of the leaves",
    2: "the query is not in the language, or has more than 512 bytes, 16 words or 8 parentheses one in the other",
    3: "a leaf breaks a rule; the second number says which, counted from 0 in the manifest's order",
    4: "too little room for the docids; the second number says how many there are",
}


def through_folder(export):
    """What is searched is always read from a folder, through its manifest."""
    with tempfile.TemporaryDirectory() as place:
        folder = os.path.join(place, "export")
        export_folder.write(folder, export)
        return export_folder.read(folder)


def say(text):
    """Writes all of it to standard output, or raises."""
    if sys.stdout is None:
        raise OSError("there is no standard output")
    sys.stdout.write(text)
    sys.stdout.flush()


def tell(message):
    """Says it on standard error, where there is one: what is printed to None goes to standard output."""
    if sys.stderr is not None:
        with contextlib.suppress(OSError):
            print(message, file=sys.stderr, flush=True)
