"""Each line of real configurations beside the values that `kconf --warn-lost` writes: no line is ignored in silence.

All configurations of a tree are run by --each, once with --warn-lost and once with --strict --warn-lost. A line that sets or unsets a
symbol is kept if the written .config has its value. A symbol without a line is n or empty. Any other line that sets or unsets
something has to have a warning with its number, or a later line for its symbol has to have K10. And a configuration that
--strict lets pass has to have each of its lines kept. This script reads the lines and values by itself; it does not ask kconf.
"""

import collections
import pathlib
import re
import shutil
import subprocess

from conf import environment

QUOTED = re.compile(rb'"((?:[^"\\]|\\.)*)"')
RAW = re.compile(rb'"(.*)"')


def value_of(text, is_raw):
    """A value as bytes that can be compared: a string without its quotes and escapes, n and empty as nothing."""
    if is_raw and (match := RAW.fullmatch(text)):
        return match[1]
    if match := QUOTED.match(text):
        return re.sub(rb"\\(.)", rb"\1", match[1])
    return b"" if text == b"n" else text


def settings(text, prefix):
    """The lines that set or unset a symbol: number, name and value (None if it is unset)."""
    given = re.compile(rb"%s(\w+)=(.*)" % prefix)
    unset = re.compile(rb"# %s(\w+) is not set" % prefix)
    for number, line in enumerate(text.split(b"\n"), 1):
        line = line.removesuffix(b"\r").rstrip(b" \t")
        if match := unset.fullmatch(line):
            yield number, match[1], None
        elif match := given.fullmatch(line):
            yield number, match[1], match[2]


class Ignored:
    """The configurations of one tree, in a folder of their own, and the lines that were not kept."""

    def __init__(self, tree, kconf, flat, work):
        self.tree, self.kconf, self.work = tree, kconf, work
        self.prefix = tree.prefix.encode()
        (self.root, self.kconfig), self.silent = flat, []
        self.lines, self.kinds, self.passed = 0, collections.Counter(), 0
        self.is_raw = "--raw-strings" in tree.options()
        shutil.rmtree(work, ignore_errors=True)
        for folder in ("in", "out", "strict"):
            (work / folder).mkdir(parents=True)

    def run(self, names, out, *words):
        """Runs kconf on all configurations: the warnings by configuration and line."""
        inputs = [f"in/{name}" for name in names]
        command = [str(self.kconf), "--root", str(self.root), *self.tree.options(), "--each", "--warn-lost", *words]
        command += ["--out", f"{out}/{{/}}", self.kconfig, *inputs]
        ran = subprocess.run(command, cwd=self.work, stdin=subprocess.DEVNULL, capture_output=True, env=environment({}), check=False)
        told = collections.defaultdict(set)
        for line in ran.stderr.splitlines():
            if match := re.match(rb"in/([^:]*):(\d+): warning (K\d+): ", line):
                told[match[1].decode(), int(match[2])].add(match[3].decode())
        return told

    def one(self, name, told):
        """Looks at each line of a configuration."""
        written = {symbol: value for _, symbol, value in settings((self.work / "out" / name).read_bytes(), self.prefix)}
        strict = (self.work / "strict" / name).exists()
        self.passed += strict
        again = set()
        for number, symbol, value in reversed(list(settings((self.work / "in" / name).read_bytes(), self.prefix))):
            self.lines += 1
            warned = told[name, number]
            self.kinds.update(warned)
            # An unset line of a symbol that has a text is not kept, not even if the text is empty.
            now = written.get(symbol)
            is_kept = now is None if value is None else value_of(value, self.is_raw) == value_of(now or b"", self.is_raw)
            if not is_kept and (strict or not (warned or symbol in again)):
                self.silent.append((name, number, symbol.decode()))
            if "K10" in warned:
                again.add(symbol)

    def all(self, configurations):
        """All configurations, given by name; whether no line of them is ignored in silence."""
        for name, text in configurations.items():
            (self.work / "in" / name).write_bytes(text)
        told = self.run(configurations, "out")
        self.run(configurations, "strict", "--strict")
        for name in configurations:
            self.one(name, told)
        kinds = ", ".join(f"{count} {kind}" for kind, count in sorted(self.kinds.items(), key=lambda pair: int(pair[0][1:])))
        print(f"  lines of input: {self.lines} of {len(configurations)} configurations, {self.passed} of them pass --strict --warn-lost;"
              f" warnings of lines: {kinds or 'none'}; ignored in silence: {len(self.silent)}", flush=True)
        for name, number, symbol in self.silent[:20]:
            print(f"    {pathlib.Path(name)}:{number}: {symbol} is ignored in silence", flush=True)
        return not self.silent
