"""Counting what was compared: a difference is printed, and the last line says how many passed."""


class Tally:
    def __init__(self):
        self.passed = self.failed = 0

    def check(self, what, got, expected):
        """Whether both are equal; a difference is counted and printed."""
        if got == expected:
            self.passed += 1
            return True
        self.fail("%s: got %s, expected %s" % (what, shown(got), shown(expected)))
        return False

    def fail(self, message):
        self.failed += 1
        print("FAILED", message)

    def finish(self):
        """Prints the last line and gives the exit status; a run that checked nothing has failed."""
        if self.passed + self.failed == 0:
            self.fail("nothing was checked")
        print("%d passed, %d failed" % (self.passed, self.failed))
        return 1 if self.failed else 0


def shown(value):
    text = repr(value)
    return text if len(text) <= 300 else text[:300] + ".."
