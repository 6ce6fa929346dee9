"""`kconf --list-new` beside `conf --listnewconfig`: the names that only one of the lists has, the values that differ, and the causes.

The inputs are the configurations of the runs of a tree, the full files of its own tool without a random tenth of their lines, and
for Linux 7.2 Debian's configurations of Linux 6.1. A tree whose own tool has no such mode has no lists here.

new.txt has TREE | SIDE | NAME | CAUSE on each line: SIDE is `here` or `there`, the list that has the name, or `value`. NAME is the
name of a symbol or one of the words of `Input.kinds`; TREE and NAME are patterns of a shell. CAUSE is the title of a paragraph of
docs/trees.md.
"""

import collections
import concurrent.futures
import dataclasses
import fnmatch
import lzma
import pathlib
import random
import re
import shutil
import subprocess

import dotconfig
from conf import AT_ONCE, environment

CHOICE = re.compile(r"(?ms)^\s*choice$.*?^\s*endchoice$")
ENTRY = re.compile(r"(?m)^\s*(?:menu)?config (\w+)$")
NUMBER = re.compile(r"(?m)^\s*(?:menu)?config (\w+)\n\s+(?:int|hex)\b")
LISTED = re.compile(r"CONFIG_(\w+)(?:=(.*))?")
ENTRIES = pathlib.Path(__file__).with_name("new.txt")
# Configurations of an older version of a tree: the package and where it keeps them.
OLDER = {"linux-7.2": ("linux-config-6.1", "usr/src/linux-config-6.1/config.*.xz")}


class Reasons:
    """The list of causes, and which of them were met."""

    def __init__(self):
        told = [line for line in ENTRIES.read_text().splitlines() if line and not line.startswith("#")]
        self.entries = [tuple(part.strip() for part in line.split(" | ", 3)) for line in told]
        self.met = set()

    def cause(self, tree, side, names):
        """The cause for a symbol of a tree, given by its name and the words for it, or None."""
        for entry in self.entries:
            if fnmatch.fnmatchcase(tree, entry[0]) and side == entry[1] and any(fnmatch.fnmatchcase(name, entry[2]) for name in names):
                self.met.add(entry)
                return entry[3]
        return None

    def unmet(self, trees):
        """The entries of these trees that no run met."""
        return [entry for entry in self.entries if entry not in self.met and any(fnmatch.fnmatchcase(tree, entry[0]) for tree in trees)]


@dataclasses.dataclass
class Facts:
    """What the words for a symbol need of a tree: all symbols, the numbers, and the members of each choice by each of them."""

    symbols: set
    numbers: set
    choices: dict

    @staticmethod
    def of(text):
        """The facts of the text of a flat file, or of all files of a tree that needs none."""
        choices = [ENTRY.findall(choice) for choice in CHOICE.findall(text)]
        members = {name: names for names in choices for name in names}
        return Facts(set(ENTRY.findall(text)), set(NUMBER.findall(text)), members)


@dataclasses.dataclass
class Input:
    """One input, and what came of it: its values, the full file of kconf, and both lists, each with the values by name."""

    start: str
    given: dict
    full: dict
    here: dict
    there: dict

    def kinds(self, name, facts):
        """The words for a symbol."""
        members = facts.choices.get(name, [])
        chosen = [member for member in members if self.given.get(member) == "y"]
        words = {
            "<choice>": name not in facts.symbols,
            "<number with a line>": name in facts.numbers and name in self.given,
            "<member>": bool(members),
            "<optional>": members[:1] and members[0].startswith("KCONF_NO_"),
            "<only member>": [member for member in members if member in self.full] == [name],
            "<answered>": any(self.full.get(member) == "y" for member in chosen),
            "<beside an n>": not chosen and any(self.given.get(member) == "n" for member in members),
        }
        return [word for word, is_so in words.items() if is_so]

    def differs(self):
        """What differs between the lists, as (side, name)."""
        only = [("here", name) for name in self.here if name not in self.there] + [("there", name) for name in self.there if name not in self.here]
        both = [name for name in self.here if self.there.get(name) is not None]
        return only + [("value", name) for name in both if self.here[name] != self.there[name]]


def without_a_tenth(text, seed):
    """A .config without a tenth of its lines."""
    pick = random.Random(seed)
    return b"".join(line for line in text.splitlines(keepends=True) if pick.random() >= 0.1)


def older(name, place):
    """The configurations of an older version of a tree, by name."""
    if name not in OLDER:
        return {}
    package, pattern = OLDER[name]
    return {path.stem: lzma.decompress(path.read_bytes()) for path in sorted(place.package(package).glob(pattern))}


class New:
    """The lists of one tree, in a folder of their own."""

    def __init__(self, tree, kconf, flat, work):
        self.tree, self.kconf, self.work = tree, kconf, work
        self.root, self.kconfig = flat
        files = [self.root / self.kconfig] if tree.flattened is not None else sorted(tree.folder.rglob("Kconfig"))
        text = "\n".join(file.read_text(errors="replace") for file in files)
        self.facts = Facts.of(re.sub(r"(?m)^# .*\n", "", text))
        shutil.rmtree(work, ignore_errors=True)
        work.mkdir(parents=True)

    def ours(self, start):
        """Runs kconf; the list and the full file."""
        made, full = start.with_suffix(".new"), start.with_suffix(".full")
        words = [*self.tree.options(), "--config", str(start), "--out", str(full), "--list-new", str(made), "--root", str(self.root), self.kconfig]
        ran = subprocess.run([str(self.kconf), *words], stdin=subprocess.DEVNULL, capture_output=True, env=environment({}), check=False)
        if ran.returncode:
            raise RuntimeError(f"status {ran.returncode}: {ran.stderr.decode(errors='replace').splitlines()[-1:]}")
        return dotconfig.lines(made, self.tree.prefix), dotconfig.lines(full, self.tree.prefix)

    def theirs(self, start):
        """Runs the tree's own tool; the list. A name without a value has None."""
        lines = self.tree.tool.run("--listnewconfig", start).splitlines()
        return {match[1]: match[2] for match in map(LISTED.fullmatch, lines) if match}

    def one(self, name, text):
        """One input."""
        start = self.work / f"{name.replace('/', '-').replace('.', '-')}.given"
        start.write_bytes(text)
        here, full = self.ours(start)
        return Input(name, dotconfig.lines(start, self.tree.prefix), full, here, self.theirs(start))

    def all(self, configurations, own, more, reasons):
        """Runs all inputs and prints the counts and the causes; answers whether each difference has a cause."""
        if not self.tree.tool.lists_new:
            return True
        inputs = {**configurations, **more}
        inputs |= {f"{name}-tenth": without_a_tenth(path.read_bytes(), name) for (name, end), path in own.items() if end == "config"}
        try:
            with concurrent.futures.ThreadPoolExecutor(AT_ONCE) as pool:
                outcomes = list(pool.map(self.one, inputs, inputs.values()))
        except RuntimeError as fault:
            print(f"  new symbols: {fault}")
            return False
        return self.told(outcomes, reasons)

    def told(self, outcomes, reasons):
        """Prints what differs, by side and cause."""
        groups, same = {}, 0
        for outcome in outcomes:
            found = outcome.differs()
            same += not found
            for side, name in found:
                kinds = outcome.kinds(name, self.facts)
                cause = reasons.cause(self.tree.name, side, [name, *kinds])
                values = f"{outcome.here.get(name, 'no line')} here, {outcome.there.get(name, 'no line')} there"
                shown = " ".join([f"{name}: {values}, from {outcome.start}", *kinds])
                groups.setdefault((side, cause or "NOT KNOWN"), []).append((name, outcome.start, shown))
        both = sum(len(outcome.here.keys() & outcome.there.keys()) for outcome in outcomes)
        only = collections.Counter(side for (side, _), found in groups.items() for _ in found)
        counts = f"{both} names in both lists, {only['here']} only here, {only['there']} only there, {only['value']} values differ"
        print(f"  new symbols: {len(outcomes)} inputs, {same} with the same list; {counts}")
        for (side, cause), found in sorted(groups.items()):
            names, starts = {name for name, _, _ in found}, {start for _, start, _ in found}
            print(f"    {side}, {cause}: {len(found)} lines of {len(names)} symbols in {len(starts)} inputs, as {found[0][2]}")
            if cause == "NOT KNOWN":
                print("".join(f"      {shown}\n" for _, _, shown in found[:20]), end="")
        return not any(cause == "NOT KNOWN" for _, cause in groups)
