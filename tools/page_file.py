"""A page in a file, written whole or not at all.

A new file is made beside the target at once, so that a target that can't be written is found out before the work; it gets the target's name when the page is in it
whole. Only an earlier page is replaced.
"""
import os
import stat
import tempfile

import export_folder


def check_replaceable(path, mark):
    """Refuses what may not be written to: nothing but a page goes."""
    if not os.path.lexists(path):
        return
    if not stat.S_ISREG(os.lstat(path).st_mode):
        raise OSError("%s is no plain file: name another one" % path)
    with open(path, "rb") as f:
        begins = f.read(len(mark))
    if begins != mark:
        raise OSError("%s is there already and is no page of this tool: it is not replaced; name another file" % path)


class PageFile:
    def __init__(self, path, mark):
        self.path, self.mark = os.path.abspath(path), mark.encode("utf-8")
        check_replaceable(self.path, self.mark)
        self.folder = os.path.dirname(self.path)
        try:
            descriptor, self.made = tempfile.mkstemp(prefix=".%s." % os.path.basename(self.path), suffix=".new", dir=self.folder)
        except OSError as error:
            raise OSError("%s can't be written: %s" % (path, error.strerror))
        os.close(descriptor)

    def write(self, page):
        """The page is on the disk, but not yet in its place."""
        with open(self.made, "wb") as f:
            f.write(page.encode("utf-8"))
            f.flush()
            os.fsync(f.fileno())
        os.chmod(self.made, 0o666 & ~export_folder.current_umask())

    def put(self):
        """The page gets its name."""
        check_replaceable(self.path, self.mark)
        os.replace(self.made, self.path)
        folder = os.open(self.folder, os.O_RDONLY)
        try:
            os.fsync(folder)
        finally:
            os.close(folder)

    def close(self):
        """Nothing is left beside the target."""
        if os.path.exists(self.made):
            os.remove(self.made)
