"""`kconf --each` over all configurations of a tree at once: byte for byte what single runs write, and what the tree's own tool does.

Of each configuration
- each is run alone, with --must-exist, and all are run by --each: full file, header, minimal file and diagnostics (but the names
  before their lines) have to be the same, and the status the greatest of those of the single runs;
- --each --check has to answer 0 over the files just written, and to name exactly those in which one byte was changed;
- --each --replace has to mend those, and to leave each other file untouched;
- --each --replace --savedefconfig '{}' has to turn each configuration into its minimal file, and a second time to touch none;
- the full and the minimal file are compared with those of the tree's own tool.
"""

import concurrent.futures
import shutil
import subprocess

import texts
from conf import AT_ONCE, environment

OUTPUTS = {"--out": "config", "--header": "h", "--savedefconfig": "min"}
FILES = {"config": "full", "min": "minimal"}
# Every third configuration gets one changed byte in one of its files.
CHANGED = 3


class Each:
    """The configurations of one tree, in a folder of their own, and what went wrong."""

    def __init__(self, tree, kconf, flat, work):
        self.tree, self.kconf, self.work = tree, kconf, work
        (self.root, self.kconfig), self.names, self.faults = flat, [], []
        shutil.rmtree(work, ignore_errors=True)
        for folder in ("in", "alone", "each", "fresh"):
            (work / folder).mkdir(parents=True)

    def lay(self, configurations):
        """Writes the configurations, given by name."""
        self.names = list(configurations)
        for name, text in configurations.items():
            (self.work / "in" / name).write_bytes(text)

    def run(self, *words):
        """Runs kconf: the status and the lines of its diagnostics."""
        command = [str(self.kconf), "--root", str(self.root), *self.tree.options(), *words]
        ran = subprocess.run(command, cwd=self.work, stdin=subprocess.DEVNULL, capture_output=True, env=environment({}), check=False)
        return ran.returncode, ran.stderr.splitlines(keepends=True)

    def alone(self, name):
        """A single run."""
        outputs = [word for option, end in OUTPUTS.items() for word in (option, f"alone/{name}.{end}")]
        return self.run("--must-exist", "--config", f"in/{name}", *outputs, self.kconfig)

    def all_at_once(self, *words):
        """A run with --each."""
        outputs = [word for option, end in OUTPUTS.items() for word in (option, f"each/{{/}}.{end}")]
        return self.run("--each", *words, *outputs, self.kconfig, *(f"in/{name}" for name in self.names))

    def expect(self, what, found, wanted):
        """Keeps a fault if something is not as it has to be."""
        if found != wanted:
            self.faults.append(f"{what}: {shown(found)}, not {shown(wanted)}")

    def equal(self):
        """Runs each alone and all at once, and compares; the lines of the run with --each."""
        _, tree_lines = self.run("--each", self.kconfig)
        with concurrent.futures.ThreadPoolExecutor(AT_ONCE) as pool:
            singles = dict(zip(self.names, pool.map(self.alone, self.names)))
        status, lines = self.all_at_once()
        self.expect("the status", status, max(single for single, _ in singles.values()))
        for name, (_, told) in singles.items():
            self.expect(f"{name}: the lines about the tree", told[: len(tree_lines)], tree_lines)
        wanted = [named(name, line) for name, (_, told) in singles.items() for line in told[len(tree_lines) :]]
        self.expect("the diagnostics", lines, tree_lines + wanted)
        for name in self.names:
            for end in OUTPUTS.values():
                if contents(self.work / f"each/{name}.{end}") != contents(self.work / f"alone/{name}.{end}"):
                    self.faults.append(f"{name}: the file .{end} is another than that of a single run")
        return lines

    def checked(self, lines):
        """--check over the files just written, and over files with a changed byte; then --replace."""
        self.expect("--check over files just written", self.all_at_once("--check"), (0, lines))
        ends = list(OUTPUTS.values())
        paths = [self.work / f"each/{name}.{end}" for name in self.names for end in ends]
        changed = [self.work / f"each/{name}.{ends[at % len(ends)]}" for at, name in enumerate(self.names[::CHANGED])]
        for at, path in enumerate(changed):
            change(path, at // len(ends))
        status, told = self.all_at_once("--check")
        self.expect("the status of --check over changed files", status, 1)
        outdated = [line for line in told if b" error E22: " in line]
        wanted = [f"in/{path.name.rpartition('.')[0]}: error E22: each/{path.name} is not up to date\n".encode() for path in changed]
        self.expect("what --check names", outdated, wanted)
        self.expect("the other lines of --check", [line for line in told if line not in outdated], lines)
        before = {path: stamp(path) for path in paths}
        self.expect("--replace", self.all_at_once("--replace"), (0, lines))
        touched = [path for path in paths if stamp(path) != before[path]]
        self.expect("the files that --replace touches", touched, changed)
        for path in changed:
            if path.read_bytes() != (self.work / "alone" / path.name).read_bytes():
                self.faults.append(f"{path.name}: not mended by --replace")
        return len(paths), len(changed)

    def refreshed(self):
        """Refreshes copies of the configurations in place, twice."""
        for name in self.names:
            shutil.copyfile(self.work / "in" / name, self.work / "fresh" / name)
        paths = [self.work / "fresh" / name for name in self.names]
        words = "--savedefconfig", "{}", self.kconfig, *(f"fresh/{name}" for name in self.names)
        self.expect("a refresh", self.run("--each", "--replace", *words)[0], 0)
        wrong = [path.name for path in paths if path.read_bytes() != (self.work / f"alone/{path.name}.min").read_bytes()]
        self.expect("the refreshed files that are not the minimal ones", wrong, [])
        before = [stamp(path) for path in paths]
        self.expect("a second refresh", self.run("--each", "--replace", *words)[0], 0)
        self.expect("--check over refreshed files", self.run("--each", "--check", *words)[0], 0)
        self.expect("the files that a second refresh touches", [stamp(path) for path in paths], before)

    def beside(self, own, causes):
        """Compares with the files of the tree's own tool, given by name and end: how many are the same, and of how many."""
        counts = {}
        for (name, end), path in own.items():
            found = texts.differing(self.work / f"each/{name}.{end}", path)
            same, of = counts.get(end, (0, 0))
            counts[end] = same + (not found), of + 1
            for side, line in found:
                if causes.cause(self.tree.name, FILES[end], side, line) is None:
                    self.faults.append(f"{name}: the {FILES[end]} file has another line than the tree's own tool writes, {side}: {line}")
        return counts

    def all(self, configurations, own, causes):
        """All of this for one tree; answers whether nothing went wrong."""
        self.lay(configurations)
        lines = self.equal()
        files, changed = self.checked(lines)
        self.refreshed()
        counts = self.beside(own, causes)
        for fault in self.faults[:20]:
            print(f"  --each, {self.tree.name}: {fault}")
        own_tool = "".join(f"; {same} of {of} {FILES[end]} files are those of its own tool" for end, (same, of) in sorted(counts.items()))
        print(
            f"{self.tree.name}: --each over {len(self.names)} configurations: {files} files and {len(lines)} lines of diagnostics beside those of single runs; "
            f"{changed} changed files found by --check and mended by --replace{own_tool}: {len(self.faults)} faults",
            flush=True,
        )
        return not self.faults


def named(name, line):
    """The line of a single run as --each shows it."""
    return line if line.startswith(f"in/{name}:".encode()) else f"in/{name}: ".encode() + line


def contents(path):
    """What a file holds; None if it is not there."""
    return path.read_bytes() if path.exists() else None


def stamp(path):
    """What shows that a file was touched."""
    status = path.stat()
    return status.st_ino, status.st_mtime_ns


def change(path, at):
    """Changes one byte of a file: the first, one in the middle or the last. An empty file gets one."""
    text = bytearray(path.read_bytes() or b"\n")
    place = (0, len(text) // 2, len(text) - 1)[at % 3]
    text[place] ^= 1
    path.write_bytes(text)


def shown(value):
    """A value, cut to a length that can be read."""
    text = repr(value)
    return text if len(text) < 400 else f"{text[:400]}.."
