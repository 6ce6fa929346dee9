"""What a .config and a header say of each symbol, and how two of them differ."""

import re


def lines(path, prefix="CONFIG_"):
    """The value of each symbol that has a line in a .config, as it stands there; of a line `is not set`, n, and of one `has no value`, none."""
    found = {}
    given = re.compile(rf"{prefix}([A-Za-z0-9_]+)=(.*)")
    unset = re.compile(rf"# {prefix}([A-Za-z0-9_]+) is not set")
    empty = re.compile(rf"# {prefix}([A-Za-z0-9_]+) has no value")
    with open(path, encoding="utf-8", errors="surrogateescape", newline="\n") as file:
        for line in file:
            line = line.rstrip("\n")
            if match := given.fullmatch(line):
                found[match[1]] = match[2]
            elif match := unset.fullmatch(line):
                found[match[1]] = "n"
            elif match := empty.fullmatch(line):
                found[match[1]] = ""
    return found


def values(found):
    """The values alone: a symbol without a line is n or empty, so a line that says so says nothing more."""
    return {name: value for name, value in found.items() if value not in ("n", '""', "")}


def header(path, prefix="CONFIG_"):
    """The values that a C header gives, spelled as in a .config."""
    found = {}
    define = re.compile(rf"#define {prefix}([A-Za-z0-9_]+)(?: (.*))?")
    with open(path, encoding="utf-8", errors="surrogateescape", newline="\n") as file:
        for line in file:
            if match := define.fullmatch(line.rstrip("\n")):
                found[match[1]] = match[2] or ""
    return found


def says(given, found):
    """Whether a header gives what a .config's lines ask for: y as 1, m as 1 under NAME_MODULE, a hex with 0x before it."""
    asked = {}
    for name, value in found.items():
        if value == "y":
            asked[name] = ["1"]
        elif value == "m":
            asked[name + "_MODULE"] = ["1"]
        elif value != "n":
            asked[name] = [value, "0x" + value]
    return given.keys() == asked.keys() and all(given[name] in values for name, values in asked.items())


def differing(ours, theirs, helpers="KCONF_"):
    """The names whose values differ, and how many names have a line in either; the companion's own helpers are left out."""
    names = {name for name in ours.keys() | theirs.keys() if not name.startswith(helpers)}
    here, there = values(ours), values(theirs)
    return sorted(name for name in names if here.get(name) != there.get(name)), len(names)
