"""kconf-tree as builders use it: every value of many configurations beside the tree's own make, and that make over the result.

Each setup is a tree with the variables that its make is given, in the tree or with O=. Its configurations are the tree's own, those
of allyesconfig, allmodconfig, allnoconfig and random ones, and the same with 40 % of the lines left out. `make olddefconfig` (for a
board of U-Boot `make NAME_defconfig`) completes each. One run of kconf-tree --each does the same for all. Then `make olddefconfig`
runs over what kconf wrote, and may change no value.

Two rules of the own conf since Linux 6.12 depend on what the user gave, so that no flat file can have them (docs/trees.md). Where one
of them was used, the input gets the answer that the own conf found, and with it every other value has to be the same.
"""

import collections
import concurrent.futures
import dataclasses
import pathlib
import random
import re
import shutil
import subprocess
import time

import dotconfig
import texts
import trees
from conf import AT_ONCE, environment

MADE = ["allyesconfig 0", "allmodconfig 0", "allnoconfig 0", *(f"randconfig {seed}" for seed in range(1, 6))]
FEW = ["allyesconfig 0", "allmodconfig 0", "randconfig 11", "randconfig 12"]
THINNED = 0.4
CLANGS = {"linux-6.1": ("", "-19"), "linux-7.2": ("-19",)}
NUMBER = re.compile(r"(?m)^\s*config (\w+)\n\s+(?:int|hex)\b")


@dataclasses.dataclass
class Setup:
    """A tree, what its make is given, and the configurations to begin with."""

    name: str
    tree: str
    folder: pathlib.Path
    kconfig: str = "Kconfig"
    variables: tuple = ()
    is_inside: bool = False
    starts: tuple = ()
    made: tuple = ()
    options: tuple = ()
    # The oldest programs have no olddefconfig, and write .config alone.
    is_old: bool = False


def linux(place, tree, folder):
    """The setups of a kernel: x86 in the tree and with O=, with gcc and with clang, and arm64 with O=."""
    own = sorted((folder / "arch/x86/configs").glob("*config*"))
    arm = sorted((folder / "arch/arm64/configs").glob("*config*"))
    # The programs of clang: those without a number, or those that end in -19. A tree refuses what is too old for it.
    clang = next((f"LLVM={end or 1}" for end in CLANGS[tree] if shutil.which(f"clang{end}") and shutil.which(f"ld.lld{end}")), None)
    cross = ("ARCH=arm64", "CROSS_COMPILE=aarch64-linux-gnu-")
    yield Setup(f"{tree}, x86, gcc", tree, folder, is_inside=True, starts=tuple(own), made=tuple(MADE))
    yield Setup(f"{tree}, arm64, gcc, O=", tree, folder, variables=cross, starts=tuple(arm), made=tuple(FEW))
    if clang:
        yield Setup(f"{tree}, x86, clang, O=", tree, folder, variables=(clang,), starts=tuple(own), made=tuple(FEW))
        yield Setup(f"{tree}, arm64, clang, O=", tree, folder, variables=(clang, "ARCH=arm64"), starts=tuple(arm[:1]), made=tuple(FEW[:2]))


def setups(place):
    """All setups."""
    yield from linux(place, "linux-6.1", trees.linux_tree(place))
    yield from linux(place, "linux-7.2", trees.linux_new_tree(place))
    boards = place.source("u-boot", "trixie", "u-boot-2025.01")
    yield Setup("u-boot, O=", "u-boot", boards, starts=tuple(sorted(boards.glob("configs/*_defconfig"))[::34]), made=tuple(FEW))
    coreboot = place.source("coreboot")
    yield Setup("coreboot", "coreboot", coreboot, "src/Kconfig", is_inside=True, starts=tuple(sorted(coreboot.glob("configs/config.*"))),
                made=tuple(FEW), options=("--missing-ok", "site-local/*"))
    busybox = place.source("busybox")
    yield Setup("busybox", "busybox", busybox, "Config.in", is_inside=True, starts=tuple(sorted(busybox.glob("configs/*_defconfig"))),
                made=tuple(FEW), is_old=True)


class Road:
    """One setup, and the folder to work in."""

    def __init__(self, setup, companion, kconf, known, work):
        self.setup, self.companion, self.kconf, self.known = setup, companion, kconf, known
        self.work = work / setup.name.replace(", ", "-").replace("=", "")
        for name in ("start", "own", "ours", "again", "answered", "answers", "build"):
            (self.work / name).mkdir(parents=True, exist_ok=True)
        self.tree, self.build, self.faults = setup.folder, self.work / "build", []
        self.members, self.numbers = {}, set()
        if setup.is_inside:
            self.tree = self.build = self.work / "tree"
            if not self.tree.exists():
                subprocess.run(["cp", "-a" if setup.is_old else "-al", str(setup.folder), str(self.tree)], check=True)

    def words(self):
        """What make is given."""
        return [*self.setup.variables, *([] if self.setup.is_inside else [f"O={self.build}"])]

    def make(self, goal, config, **more):
        """Runs a goal of the tree's make over a .config, in place; what is wrong if it fails."""
        command = ["make", "-s", "-C", str(self.tree), *self.words(), goal]
        answers = "\n" * 20000
        if self.setup.is_old:
            self.exchange(config, self.build / ".config")
        else:
            command.insert(-1, f"KCONFIG_CONFIG={config}")
        # Runs at once with O= may disturb one another when they write the Makefile of the build.
        for _ in range(2):
            ran = subprocess.run(command, env=environment(more), input=answers, capture_output=True, text=True, errors="replace", check=False)
            if ran.returncode == 0:
                break
        if self.setup.is_old:
            self.exchange(self.build / ".config", config)
        return "" if ran.returncode == 0 else f"{goal} of {config.name}: status {ran.returncode}: {ran.stderr[-300:]}"

    def exchange(self, source, target):
        """Copies a file, or removes its copy."""
        if source.exists():
            shutil.copyfile(source, target)
        else:
            target.unlink(missing_ok=True)

    def start(self, name):
        """The configuration to begin with, made if need be."""
        goal, seed = name.split()
        made = self.work / "start" / name.replace(" ", "-")
        if not made.exists():
            fault = self.make(goal, made, KCONFIG_SEED=seed)
            if not made.exists():
                raise RuntimeError(f"{self.setup.name}: {fault}")
        thin = made.with_name(made.name + "-thin")
        if not thin.exists():
            chosen = random.Random(name)
            lines = made.read_text(errors="surrogateescape").splitlines(keepends=True)
            thin.write_text("".join(line for line in lines if chosen.random() > THINNED), errors="surrogateescape")
        return [made, thin]

    def starts(self, pool):
        """All configurations, under names of their own. The first run of make builds the tree's own conf."""
        first, *rest = self.setup.made
        made = [path for paths in [self.start(first), *pool.map(self.start, rest)] for path in paths]
        for path in self.setup.starts:
            copy = self.work / "start" / path.name
            shutil.copyfile(path, copy)
            made.append(copy)
        return made

    def own(self, start):
        """What the tree's own make completes; a later run uses what is there. Of what it refuses, nothing is kept."""
        made, writing = self.work / "own" / start.name, self.work / "own" / f"{start.name}.writing"
        if made.exists():
            return
        if self.setup.tree == "u-boot" and start.name.endswith("_defconfig"):
            refused = self.make(start.name, writing)
        else:
            shutil.copyfile(start, writing)
            refused = self.make("oldconfig" if self.setup.is_old else "olddefconfig", writing)
        if not refused:
            writing.rename(made)

    def ours(self, starts, place="ours"):
        """Runs kconf-tree over configurations; answers how long it took."""
        began = time.monotonic()
        command = [self.companion, "-C", str(self.tree), *self.setup.options, *self.words(), self.setup.kconfig]
        command += ["--each", "--out", f"{self.work}/{place}/{{/}}", *map(str, starts)]
        told = environment({"KCONF": str(self.kconf), "XDG_CACHE_HOME": str(self.work / "cache")})
        ran = subprocess.run(command, env=told, stdin=subprocess.DEVNULL, capture_output=True, text=True, errors="replace", check=False)
        if ran.returncode:
            self.faults.append(f"kconf-tree: status {ran.returncode}: {ran.stderr[-300:]}")
        return time.monotonic() - began

    def again(self, start):
        """Runs the tree's own make over what kconf wrote; answers the names whose values it changes. A later run uses what is there."""
        ours, made, given = self.work / "ours" / start.name, self.work / "again" / start.name, self.work / "again" / f"{start.name}.given"
        if not made.exists() or not given.exists() or given.read_bytes() != ours.read_bytes():
            shutil.copyfile(ours, made)
            fault = self.make("oldconfig" if self.setup.is_old else "olddefconfig", made)
            if fault:
                self.faults.append(fault)
            shutil.copyfile(ours, given)
        return dotconfig.differing(dotconfig.lines(given), dotconfig.lines(made))[0]

    def read_flat(self):
        """Takes from the flat file of the cache which symbols are the members of each choice, and which are numbers."""
        flat = max((self.work / "cache/kconf-tree").glob("*.flat"), key=lambda path: path.stat().st_mtime_ns)
        text = re.sub(r"(?m)^# .*\n", "", flat.read_text(errors="replace"))
        choices = [texts.MEMBER.findall(choice) for choice in texts.CHOICE.findall(text)]
        self.members, self.numbers = {name: names for names in choices for name in names}, set(NUMBER.findall(text))

    def answers(self, names, given, here, there):
        """The causes for names that differ by the two rules, with the lines that give the answer of the own conf."""
        for name in names:
            members = self.members.get(name, ())
            chosen = next((member for member in members if here.get(member) == "y"), None)
            if there.get(name) == "y" and chosen and given.get(chosen) == "n":
                yield "Default members that are set to n", name, f"CONFIG_{name}=y\n"
            elif name in self.numbers and name in given and there.get(name, given[name]) != given[name]:
                yield "Numbers outside their range", name, f"CONFIG_{name}={there[name]}\n"

    def with_answers(self, differing):
        """Runs kconf-tree once more over the configurations that differ, with these answers; the causes, and what still differs."""
        causes, answered = collections.Counter(), []
        for start, names in differing.items():
            given, here, there = (dotconfig.lines(self.work / place / start.name) for place in ("start", "ours", "own"))
            found = list(self.answers(names, given, here, there))
            causes.update(cause for cause, _, _ in found)
            made = self.work / "answered" / start.name
            made.write_text(start.read_text(errors="surrogateescape") + "".join(line for _, _, line in found), errors="surrogateescape")
            answered.append(made)
        if answered:
            self.ours(answered, "answers")
        return causes, {start: self.differing(start, "answers")[0] for start in differing}

    def differing(self, start, place="ours"):
        """The names whose values differ from those of the tree's own make, but by a known cause, and how many were compared."""
        here, there = (dotconfig.lines(self.work / each / start.name) for each in (place, "own"))
        names, count = dotconfig.differing(here, there)
        known = self.known_of(names, here, there)
        return [name for name in names if name not in known], count, known

    def known_of(self, names, here, there):
        """The known causes, by name."""
        found = {name: self.known.reason(self.setup.tree, name, here.get(name, "no line"), there.get(name, "no line")) for name in names}
        return {name: reason for name, reason in found.items() if reason}

    def all(self):
        """Compares all values, and prints the counts; answers the counts and whether all is well."""
        # U-Boot's make writes each defconfig to the same file, and the oldest programs write .config alone.
        is_alone = self.setup.is_old or self.setup.tree == "u-boot"
        with concurrent.futures.ThreadPoolExecutor(1 if is_alone else AT_ONCE) as pool:
            starts = self.starts(pool)
            list(pool.map(self.own, starts))
            refused = [start.name for start in starts if not (self.work / "own" / start.name).exists()]
            starts = [start for start in starts if start.name not in refused]
            seconds = [self.ours(starts), self.ours(starts)]
            pairs = list(zip(starts, pool.map(self.again, starts)))
        self.read_flat()
        compared, causes, differing, unknown = 0, collections.Counter(), {}, []
        for start, changed in pairs:
            names, count, known = self.differing(start)
            compared += count
            causes.update(known.values())
            differing.update({start: names} if names else {})
            # What make changes where it has another rule, it changes to its own value.
            unknown += [f"{start.name}: make changes {name} afterwards" for name in changed if name not in names and name not in known]
        more, left = self.with_answers(differing)
        unknown += [f"{start.name}: {name} differs" for start, names in left.items() for name in names]
        count = sum(causes.values()) + sum(map(len, differing.values()))
        causes += more
        print(f"{self.setup.name}: {len(pairs)} configurations, {compared} values, {count} differ in {len(differing)} of them, "
              f"{len(unknown)} without a known cause; kconf-tree took {seconds[0]:.1f} s and {seconds[1]:.1f} s; make refuses {len(refused)} more configurations", flush=True)
        for reason, times in causes.items():
            print(f"  {times} times: {reason}")
        for fault in self.faults + unknown[:40]:
            print(f"  {fault}", flush=True)
        return len(pairs), compared, count, not (self.faults or unknown)


def all_of(place, companion, kconf, known, names=()):
    """All setups, or those whose names begin with one of the given; answers whether all is well."""
    chosen = [setup for setup in setups(place) if not names or setup.name.startswith(tuple(names))]
    found = [Road(setup, companion, kconf, known, place.folder / "road").all() for setup in chosen]
    configurations, compared, differing = (sum(each[at] for each in found) for at in range(3))
    print(f"kconf-tree beside make: {configurations} configurations, {compared} values, {differing} differ", flush=True)
    return all(each[3] for each in found)
