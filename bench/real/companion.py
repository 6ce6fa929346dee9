"""kconf-tree on real trees: what makes it read a tree again, its locations, its status and its time; and kconf --strict on Linux."""

import os
import pathlib
import re
import resource
import shutil
import subprocess
import time

from conf import environment

TREES = ("busybox", "coreboot", "u-boot", "linux-x86")
COUNTING = '#!/bin/sh\necho run >> "{log}"\nexec "{flatten}" "$@"\n'
COMPILER = '#!/bin/sh\nif [ "$1" = --version ]; then echo "gcc {version}"; exit; fi\nexec gcc "$@"\n'
# What a second run may take on top of kconf, in seconds of a processor.
MOST_SECONDS = 0.1
LOCATED = re.compile(r"(.+?):(\d+): warning K[1-6]: ")
LINE = re.compile(r"\s*(config|menuconfig|choice|menu|comment|if|mainmenu|select|imply|default|def_bool|def_tristate|range|depends|bool|tristate)\b")
# Where rustup keeps its shims: with them on PATH make has to run each time.
SHIMS = "/.cargo/bin"


class Trial:
    """One tree with a cache of its own, and what went wrong."""

    def __init__(self, tree, companion, kconf, work):
        self.tree, self.companion, self.kconf, self.work = tree, companion, kconf, work
        shutil.rmtree(work, ignore_errors=True)
        work.mkdir(parents=True)
        self.log, self.compiler = work / "log", work / "cc"
        flatten = os.environ.get("KCONF_FLATTEN") or str(pathlib.Path(companion).with_name("kconf-flatten"))
        self.script(work / "flatten", COUNTING.format(log=self.log, flatten=flatten))
        self.script(self.compiler, COMPILER.format(version="one"))
        path = ":".join(folder for folder in os.environ["PATH"].split(":") if SHIMS not in folder)
        self.told = {"KCONF": str(kconf), "KCONF_FLATTEN": str(work / "flatten"), "XDG_CACHE_HOME": str(work / "cache"), "PATH": path}
        if tree.name == "linux-arm64":
            self.told |= {"ARCH": "arm64", "CROSS_COMPILE": "aarch64-linux-gnu-"}
        self.faults = []

    def script(self, path, text):
        """Writes a program."""
        path.write_text(text)
        path.chmod(0o755)

    def run(self, *words, variables=()):
        """Runs kconf-tree; the words are for kconf."""
        command = [self.companion, "-C", str(self.tree.folder), *self.tree.flattened, *variables, self.tree.kconfig]
        command += ["--config", str(self.work / "start"), "--out", str(self.work / "config"), *words]
        told = environment(self.told)
        return subprocess.run(command, cwd=self.work, env=told, stdin=subprocess.DEVNULL, capture_output=True, text=True, errors="replace", check=False)

    def flattenings(self):
        """How often the tree was flattened."""
        return len(self.log.read_text().splitlines()) if self.log.exists() else 0

    def expect(self, what, is_wanted, *words, variables=()):
        """Runs kconf-tree and looks whether it flattens just if it has to."""
        before = self.flattenings()
        ran = self.run(*words, variables=variables)
        if ran.returncode:
            self.faults.append(f"{what}: status {ran.returncode}: {ran.stderr[-300:]}")
        elif (self.flattenings() > before) != is_wanted:
            self.faults.append(f"{what}: the tree was {'not ' if is_wanted else ''}flattened")
        time.sleep(0.05)
        return ran

    def deep(self):
        """The Kconfig file that lies deepest in the tree."""
        record = max((self.work / "cache/kconf-tree").glob("*.record"), key=lambda path: path.stat().st_mtime_ns)
        names = [line.split(" ")[1] for line in record.read_text().splitlines() if line.startswith("file ")]
        inside = [path for path in map(self.tree.folder.joinpath, names) if path.name.startswith(("Kconfig", "Config.in")) and path.exists()]
        return max(inside, key=lambda path: len(path.parts))

    def cache(self):
        """What makes kconf-tree flatten, and what does not."""
        (self.work / "start").write_text("")
        self.run()
        self.expect("--refresh", True, variables=["--refresh"])
        self.expect("the run after it", False)
        (self.work / "start").write_text("CONFIG_NOT_KNOWN=y\n")
        (self.work / "fragment").write_text("CONFIG_NOT_KNOWN_TOO=y\n")
        self.expect("another .config and a fragment", False, str(self.work / "fragment"))
        deep = self.deep()
        with kept(deep):
            beside = deep.with_name("kconf-real-new.c")
            beside.touch()
            self.expect("a new source file", False)
            beside.unlink()
            deep.write_bytes(deep.read_bytes() + b"# changed\n")
            time.sleep(0.05)
            self.expect(f"a changed {deep}", True)
            self.expect("the run after it", False)
        self.expect("the file as it was", True)
        if "CC" in self.tree.settings and self.tree.name != "linux-arm64":
            for version in ("one", "two"):
                self.script(self.compiler, COMPILER.format(version=version))
                time.sleep(0.05)
                self.expect(f"compiler {version}", True, variables=[f"CC={self.compiler}"])
                self.expect("the run after it", False, variables=[f"CC={self.compiler}"])

    def locations(self):
        """Each warning about the tree names a line of it that can be meant, and one about an input file that file."""
        ran = self.run()
        lines = ran.stderr.splitlines()
        located = [LOCATED.match(line) for line in lines]
        for found in filter(None, located):
            path = self.tree.folder / found[1]
            line = path.read_text(errors="replace").splitlines()[int(found[2]) - 1] if path.exists() else "no file"
            if not LINE.match(line):
                self.faults.append(f"{found[0]} names the line: {line}")
        if f"{self.work}/start:1: warning K7: unknown symbol NOT_KNOWN" not in lines:
            self.faults.append("no warning about the .config")
        return sum(map(bool, located))

    def status(self):
        """The exit status is that of kconf."""
        (self.work / "start").write_text("")
        wanted = {0: [], 2: ["--no-such-option"], 3: ["no-such-fragment"]}
        for status, words in wanted.items():
            found = self.run(*words).returncode
            if found != status:
                self.faults.append(f"{words}: status {found} and not {status}")

    def depfile(self):
        """The dependency file names the Kconfig files of the tree, each with an empty rule."""
        made = self.work / "config.d"
        self.run("--depfile", str(made))
        names = [line.removesuffix(" \\").strip() for line in made.read_text().split("\n\n")[0].splitlines()[1:]]
        missing = [name for name in names if not (self.work / name).exists()]
        if missing or str(self.deep()) not in names or f"\n{names[-1]}:\n" not in made.read_text():
            self.faults.append(f"the dependency file has {len(names)} names; not there: {missing[:3]}")

    def seconds(self):
        """What a second run takes on top of kconf, in seconds of a processor: much if make has to run each time."""
        is_skipped = "make is not run" in self.run(variables=["--verbose"]).stderr
        flat = max((self.work / "cache/kconf-tree").glob("*.flat"), key=lambda path: path.stat().st_mtime_ns)
        by_hand = [str(self.kconf), "--flat", "--config", str(self.work / "start"), "--out", str(self.work / "config"), str(flat)]
        kconf = min(processor_time(lambda: subprocess.run(by_hand, capture_output=True, check=False)) for _ in range(5))
        both = min(processor_time(self.run) for _ in range(5))
        if is_skipped and both - kconf > MOST_SECONDS:
            self.faults.append(f"a second run takes {both - kconf:.2f} s on top of kconf")
        return both - kconf


class kept:
    """Puts a file back as it was, with its time."""

    def __init__(self, path):
        self.path = path

    def __enter__(self):
        self.text, self.status = self.path.read_bytes(), self.path.stat()

    def __exit__(self, *_):
        self.path.write_bytes(self.text)
        os.utime(self.path, ns=(self.status.st_atime_ns, self.status.st_mtime_ns))


def processor_time(action):
    """The processor time of the processes that an action starts."""
    before = resource.getrusage(resource.RUSAGE_CHILDREN)
    action()
    after = resource.getrusage(resource.RUSAGE_CHILDREN)
    return after.ru_utime + after.ru_stime - before.ru_utime - before.ru_stime


def trials(tree, companion, kconf, work):
    """All trials of kconf-tree on a tree; answers whether nothing went wrong."""
    trial = Trial(tree, companion, kconf, work)
    trial.cache()
    located = trial.locations()
    trial.status()
    trial.depfile()
    seconds = trial.seconds()
    for fault in trial.faults:
        print(f"  kconf-tree, {tree.name}: {fault}")
    print(
        f"{tree.name}: kconf-tree flattened {trial.flattenings()} times, gave {located} locations in the tree, and took {seconds:.3f} s of a "
        f"processor more than kconf on a second run: {len(trial.faults)} faults",
        flush=True,
    )
    return not trial.faults


# A fragment with an option that does not exist, one whose dependency is n, and one that changes what another fragment says.
STRICT = {
    "a misspelled name": ["CONFIG_NETT=y\n"],
    "a lost value": ["# CONFIG_NET is not set\nCONFIG_INET=y\n"],
    "a conflict": ["CONFIG_NET=y\n", "# CONFIG_NET is not set\n"],
}


def strict(kconf, flat, work):
    """kconf --strict --warn-lost on the flat tree of Linux: what passes, and what is refused; answers whether all is as it has to be."""
    shutil.rmtree(work, ignore_errors=True)
    work.mkdir(parents=True)
    out, faults = work / "out", []

    def status(config, fragments):
        out.unlink(missing_ok=True)
        command = [str(kconf), "--flat", "--strict", "--warn-lost", "--root", str(flat.parent), "--config", str(config), "--out", str(out), flat.name]
        return subprocess.run([*command, *map(str, fragments)], capture_output=True, text=True, check=False)

    (work / "empty").write_text("")
    for what, config in (("an empty .config", work / "empty"), ("the .config that it wrote", work / "own")):
        ran = status(config, [])
        if ran.returncode or not out.exists():
            faults.append(f"{what}: status {ran.returncode}: {ran.stderr[-300:]}")
        else:
            shutil.copyfile(out, work / "own")
    for what, texts in STRICT.items():
        fragments = [work / f"fragment-{number}" for number in range(len(texts))]
        for path, text in zip(fragments, texts):
            path.write_text(text)
        ran = status(work / "empty", fragments)
        if ran.returncode != 1 or "error E21: " not in ran.stderr or out.exists():
            faults.append(f"{what}: status {ran.returncode}: {ran.stderr[-300:]}")
    for fault in faults:
        print(f"  kconf --strict: {fault}")
    print(f"linux: kconf --strict --warn-lost, with 2 inputs that have to pass and {len(STRICT)} to be refused: {len(faults)} faults", flush=True)
    return not faults
