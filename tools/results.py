"""The one form of report of the scripts that check: what is compared is counted, and what differs is printed."""

import difflib
import pathlib

TOP = pathlib.Path(__file__).resolve().parent.parent


class Results:
    """Counts what is compared, and prints what differs."""

    def __init__(self):
        self.passed = self.failed = 0

    def take(self, what, *differences):
        """Counts a case, and prints the lines of what differs in it, if anything does."""
        self.failed += bool(differences)
        self.passed += not differences
        if differences:
            print(f"{what}: DIFFERS", *differences, sep="\n  ", flush=True)
        return not differences

    def compare(self, what, stated, given):
        """Compares what is stated with what was given as one case, and tuples part by part."""
        return self.take(what, *differences(stated, given))

    def tell(self, what, well, given):
        """Counts a case that is well or not, and prints what was given if it isn't."""
        return self.take(what, *(() if well else (repr(it[-200:] if isinstance(it, (bytes, str)) else it) for it in given or ("",))))

    def close(self):
        """Prints the last line; returns the status."""
        print(f"{self.passed} passed, {self.failed} failed")
        return 1 if self.failed else 0


def differences(stated, given):
    """Returns what differs. Of a text that ends with `..` only the beginning is stated."""
    if isinstance(stated, tuple) and isinstance(given, tuple) and len(stated) == len(given):
        return [it for parts in zip(stated, given) for it in differences(*parts)]
    begins = isinstance(stated, str) and stated.endswith("..") and str(given).startswith(stated[:-2])
    return [] if stated == given or begins else [difference(stated, given)]


def difference(wanted, found):
    """Returns the lines that differ, or both values if no line does."""
    lines = difflib.unified_diff(str(wanted).splitlines(), str(found).splitlines(), "stated", "found", lineterm="", n=1)
    return "\n".join(["", *lines]) if str(wanted).count("\n") > 1 else f"{wanted!r}, found {found!r}"
