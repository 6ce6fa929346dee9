"""The runs of a tree: from each of its configurations kconf and the tree's own tool, and what differs."""

import concurrent.futures
import dataclasses
import pathlib
import shutil
import subprocess

import dotconfig
import texts
from conf import AT_ONCE, environment

MODES = [("allyesconfig", 0), ("allnoconfig", 0)] + [("randconfig", seed) for seed in range(1, 6)]


@dataclasses.dataclass
class Outcome:
    """One run: what differs as (symbol, here, there), how many symbols were compared, and what else went wrong.

    `files` has for each file that both tools wrote, `full` and `minimal`, what differs as (side, line): nothing if it is the same.
    """

    start: str
    differs: list = dataclasses.field(default_factory=list)
    compared: int = 0
    faults: list = dataclasses.field(default_factory=list)
    files: dict = dataclasses.field(default_factory=dict)


@dataclasses.dataclass
class Summary:
    """All runs of a tree."""

    tree: str
    configurations: int = 0
    compared: int = 0
    differing: int = 0
    known: int = 0
    faults: int = 0
    full: int = 0
    minimal: int = 0
    with_minimal: int = 0
    unknown_lines: int = 0


class Runs:
    """The runs of one tree, over its flat file where it has one."""

    def __init__(self, tree, kconf, flat, work, known):
        self.tree, self.kconf, self.work, self.known = tree, kconf, work, known
        self.root, self.kconfig = flat
        shutil.rmtree(work, ignore_errors=True)
        work.mkdir(parents=True)

    def ours(self, config, made, *more):
        """Runs kconf from one .config to another; its notes where it fails."""
        command = [str(self.kconf), "--root", str(self.root), *self.tree.options(), "--config", str(config), "--out", f"{made}.config", *more]
        ran = subprocess.run([*command, self.kconfig], stdin=subprocess.DEVNULL, capture_output=True, env=environment({}), check=False)
        if ran.returncode:
            return [f"kconf ended with status {ran.returncode}: {ran.stderr.decode(errors='replace').splitlines()[-1:]}"]
        return []

    def start(self, name, place):
        """The .config to begin with: one of the tree's own, or what its tool makes."""
        if name in self.tree.starts:
            return self.tree.starts[name]
        if name == "no .config":
            return place
        mode, seed = name.split()
        config = self.work / f"{mode}-{seed}.start"
        self.tree.tool.made(f"--{mode}", seed, config)
        return config

    def files(self, made, outcome):
        """Whether the header says what the .config does, and whether the minimal file restores it."""
        found = dotconfig.lines(f"{made}.config", self.tree.prefix)
        if not dotconfig.says(dotconfig.header(f"{made}.h", self.tree.prefix), found):
            outcome.faults.append("the header says something else than the .config")
        outcome.faults += self.ours(f"{made}.min", f"{made}.again")
        if pathlib.Path(f"{made}.config").read_bytes() != pathlib.Path(f"{made}.again.config").read_bytes():
            outcome.faults.append("the minimal file does not restore the .config")

    def one(self, number, name, none):
        """One run."""
        outcome = Outcome(name)
        made, theirs = self.work / f"{number:03d}", self.work / f"{number:03d}.theirs"
        try:
            start = self.start(name, none)
            shutil.copyfile(start, made.with_suffix(".given"))
            outcome.faults += self.ours(start, made, "--header", f"{made}.h", "--savedefconfig", f"{made}.min")
            if not outcome.faults:
                self.files(made, outcome)
                self.tree.tool.completed(start, theirs)
                here, there = dotconfig.lines(f"{made}.config", self.tree.prefix), dotconfig.lines(theirs, self.tree.prefix)
                names, outcome.compared = dotconfig.differing(here, there)
                outcome.differs = [(symbol, here.get(symbol, "no line"), there.get(symbol, "no line")) for symbol in names]
                self.bytes(made, theirs, outcome)
        except RuntimeError as error:
            outcome.faults.append(str(error))
        return outcome

    def bytes(self, made, theirs, outcome):
        """Compares the full and the minimal file byte for byte with those of the tree's own tool."""
        outcome.files["full"] = texts.differing(f"{made}.config", theirs)
        minimal = theirs.with_suffix(".theirs.min")
        if self.tree.tool.minimal(theirs, minimal):
            outcome.files["minimal"] = texts.differing(f"{made}.min", minimal)

    def given(self):
        """The configurations of the runs by number, and by number and end the full and the minimal files of the tree's own tool."""
        configurations = {path.stem: path.read_bytes() for path in sorted(self.work.glob("*.given"))}
        own = {(name, "config"): self.work / f"{name}.theirs" for name in configurations}
        own |= {(name, "min"): self.work / f"{name}.theirs.min" for name in configurations}
        return configurations, {key: path for key, path in own.items() if path.exists()}

    def all(self, none):
        """All runs, some at once, in order."""
        names = ["no .config", *self.tree.starts, *(f"{mode} {seed}" for mode, seed in MODES)]
        with concurrent.futures.ThreadPoolExecutor(AT_ONCE) as pool:
            return list(pool.map(lambda pair: self.one(pair[0], pair[1], none), enumerate(names)))


def files(tree, outcomes, causes, summary):
    """Counts the files that are the same byte for byte, and prints the causes of what differs in the others."""
    summary.full = sum(outcome.files.get("full") == [] for outcome in outcomes)
    summary.minimal = sum(outcome.files.get("minimal") == [] for outcome in outcomes)
    summary.with_minimal = sum("minimal" in outcome.files for outcome in outcomes)
    met = {}
    for outcome in outcomes:
        for file, found in outcome.files.items():
            for side, line in found:
                cause = causes.cause(tree.name, file, side, line)
                summary.unknown_lines += cause is None
                lines = met.setdefault((file, cause or "NOT KNOWN"), {})
                lines.setdefault((side, line), set()).add(outcome.start)
    for (file, cause), lines in sorted(met.items()):
        starts = set().union(*lines.values())
        (side, line), _ = min(lines.items())
        print(f"  {file} file, {cause}: {len(lines)} lines in {len(starts)} files, as {side}: {line}")
        if cause == "NOT KNOWN":
            for side, line in sorted(lines)[:20]:
                print(f"    {side}: {line}, from {min(lines[side, line])}")


def told(tree, outcomes, known, causes):
    """Prints what differs in the runs of a tree, each symbol once for each reason, and gives the summary."""
    summary, groups = Summary(tree.name, len(outcomes)), {}
    files(tree, outcomes, causes, summary)
    for outcome in outcomes:
        summary.compared += outcome.compared
        summary.differing += len(outcome.differs)
        summary.faults += len(outcome.faults)
        for fault in outcome.faults:
            print(f"  {outcome.start}: {fault}")
        for symbol, here, there in outcome.differs:
            reason = known.reason(tree.name, symbol, here, there)
            summary.known += reason is not None
            symbols = groups.setdefault(f"known: {reason}" if reason else "NOT KNOWN", {})
            symbols.setdefault(symbol, []).append(f"{here} here, {there} there, from {outcome.start}")
    for reason, symbols in sorted(groups.items()):
        print(f"  {reason}: {sum(map(len, symbols.values()))} values of {len(symbols)} symbols")
        for symbol, runs in sorted(symbols.items()):
            print(f"    {symbol}: {runs[0]}{f' and {len(runs) - 1} more' if runs[1:] else ''}")
    return summary
