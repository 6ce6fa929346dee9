"""The list of known differences: known.txt has TREE | SYMBOL | HERE | THERE | REASON on each line.

TREE, SYMBOL and the two values are patterns of a shell; `no line` is the value of a symbol without one.
"""

import fnmatch
import pathlib


class Known:
    """The known differences, and which of them were met."""

    def __init__(self):
        text = pathlib.Path(__file__).with_name("known.txt").read_text()
        told = [line for line in text.splitlines() if line and not line.startswith("#")]
        self.entries = [tuple(part.strip() for part in line.split(" | ", 4)) for line in told]
        self.met = set()

    def reason(self, *found):
        """Why a symbol of a tree may have these two values, here and there, or None."""
        for entry in self.entries:
            if all(map(fnmatch.fnmatchcase, found, entry)):
                self.met.add(entry)
                return entry[4]
        return None

    def unmet(self, trees):
        """The entries of these trees that no run met."""
        return [entry for entry in self.entries if entry not in self.met and any(fnmatch.fnmatchcase(tree, entry[0]) for tree in trees)]
