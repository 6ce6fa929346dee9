"""Two files byte for byte, and the causes of what differs.

lines.txt has TREE | FILE | SIDE | LINE | CAUSE on each line: FILE is `full` or `minimal`; SIDE is `here` or `there`, the file that
has the line, or `order` if both have the same lines in another order. TREE and LINE are patterns of a shell; `<implied>` in LINE
stands for a symbol that the tree implies, and `<optional>` for a member of an optional choice. CAUSE is the title of a paragraph of
docs/trees.md.
"""

import collections
import fnmatch
import pathlib
import re

NAME = re.compile(r"(?:# )?CONFIG_(\w+)")
IMPLIED = re.compile(r"(?m)^\s*imply (\w+)")
CHOICE = re.compile(r"(?ms)^\s*choice$.*?^\s*endchoice$")
MEMBER = re.compile(r"(?m)^\s*config (\w+)")


class Causes:
    """The list of causes, and which of them were met."""

    def __init__(self):
        text = pathlib.Path(__file__).with_name("lines.txt").read_text()
        told = [line for line in text.splitlines() if line and not line.startswith("#")]
        self.entries = [tuple(part.strip() for part in line.split(" | ", 4)) for line in told]
        self.met, self.symbols = set(), {"<implied>": set(), "<optional>": set()}

    def read(self, kconfig):
        """Takes the symbols of each kind from the root file of a tree, which is the flat one if the tree has one."""
        text = kconfig.read_text(errors="replace")
        choices = [MEMBER.findall(choice) for choice in CHOICE.findall(text)]
        optional = {name for names in choices for name in names if names[0].startswith("KCONF_NO_")}
        self.symbols = {"<implied>": set(IMPLIED.findall(text)), "<optional>": optional}

    def cause(self, *found):
        """The cause for a line of a tree's file, or None."""
        for entry in self.entries:
            if all(map(fnmatch.fnmatchcase, found, self.patterns(entry, found[3]))):
                self.met.add(entry)
                return entry[4]
        return None

    def patterns(self, entry, line):
        """The patterns of an entry of the list, for a line with the name of a symbol."""
        name, patterns = NAME.match(line), entry[:4]
        for kind, symbols in self.symbols.items():
            if name and name[1] in symbols:
                patterns = [part.replace(kind, name[1]) for part in patterns]
        return patterns

    def unmet(self, trees):
        """The entries of these trees that no run met."""
        return [entry for entry in self.entries if entry not in self.met and any(fnmatch.fnmatchcase(tree, entry[0]) for tree in trees)]


def lines_of(path):
    """The lines of a file, but empty ones and the `#` round a title."""
    text = pathlib.Path(path).read_bytes().decode("utf-8", "surrogateescape")
    return [line for line in text.split("\n") if line not in ("", "#")]


def differing(ours, theirs):
    """What differs between two files, as (side, line); nothing if they are the same, byte for byte."""
    if pathlib.Path(ours).read_bytes() == pathlib.Path(theirs).read_bytes():
        return []
    here, there = collections.Counter(lines_of(ours)), collections.Counter(lines_of(theirs))
    found = [("here", line) for line in here - there] + [("there", line) for line in there - here]
    common = here & there
    if [line for line in lines_of(ours) if line in common] != [line for line in lines_of(theirs) if line in common]:
        found.append(("order", ""))
    return found or [("order", "")]
