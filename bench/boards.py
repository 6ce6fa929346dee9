#!/usr/bin/python3
"""Measures many configurations of one tree: all boards of U-Boot, in one run of `kconf --each`: boards.py KCONF TREES [RUNS]

TREES is the folder of `make real`. U-Boot's flat file, its defconfigs and its own conf are taken from there. All programs read the
flat file and the same defconfigs, each after the C preprocessor, as U-Boot's Makefile does it.

The first table has these commands; each runs RUNS times (3, if not given), in turn:
- `kconf --each`, which writes the minimal file of each board, for growing numbers of boards, spread over all;
- a run of kconf for each board, which writes the full .config and the minimal file;
- U-Boot's own conf, two runs for each board: --defconfig= writes the full .config, and --savedefconfig= the minimal file.

The loops run over SAMPLE boards (50), and the times are scaled to all boards. Times are the lowest. Peak memory is the highest of
all processes. The second table has the instructions of `kconf --each`, which valgrind counts, if it is installed; COUNTED names the
numbers of boards (1 10 100 and all).
"""

import os
import pathlib
import re
import shutil
import subprocess
import sys
import tempfile
import time

SAMPLE = int(os.environ.get("SAMPLE", "50"))


class Bench:
    """The programs, the boards' defconfigs by name, and a folder to work in."""

    def __init__(self, kconf, trees, work):
        self.kconf, self.work, self.flat = kconf, pathlib.Path(work), f"{trees}/flat/u-boot.Kconfig"
        self.tree = pathlib.Path(trees) / "trees/u-boot-2025.01"
        self.conf = f"{trees}/conf/u-boot-2025.01/conf"
        for folder in ("in", "out", "own"):
            (self.work / folder).mkdir()
        # The programs read the flat file as an ordinary tree, in which kconf accepts no $.
        (self.work / "Kconfig").write_text(pathlib.Path(self.flat).read_text(errors="surrogateescape").replace("$", ""), errors="surrogateescape")
        (self.work / "auto.conf").touch()
        self.boards = [self.preprocessed(path) for path in sorted(self.tree.glob("configs/*_defconfig"))]

    def preprocessed(self, path):
        """Puts a defconfig into the folder `in`; the C preprocessor has only #include lines and comments to do there."""
        made = self.work / "in" / path.name
        if re.search(rb"(?m)^#include", path.read_bytes()):
            cpp = ["cpp", "-nostdinc", "-P", "-I", ".", "-undef", "-x", "assembler-with-cpp", str(path), "-o", str(made)]
            subprocess.run(cpp, cwd=self.tree, check=True, capture_output=True)
        else:
            shutil.copyfile(path, made)
        return path.name

    def spread(self, count):
        """So many boards, spread over all."""
        return [self.boards[at * len(self.boards) // count] for at in range(count)]

    def each(self, boards):
        """The command for many boards in one run."""
        return [[self.kconf, "--each", "--savedefconfig", "out/{/}", "Kconfig", *(f"in/{name}" for name in boards)]]

    def alone(self, boards):
        """A run of kconf for each board."""
        run = [self.kconf, "--must-exist", "--out", "full", "--config"]
        return [[*run, f"in/{name}", "--savedefconfig", f"out/{name}", "Kconfig"] for name in boards]

    def own(self, boards):
        """Two runs of U-Boot's own conf for each board."""
        modes = ([f"--defconfig=in/{name}", f"--savedefconfig=own/{name}"] for name in boards)
        return [[self.conf, mode, "Kconfig"] for pair in modes for mode in pair]

    def run(self, commands):
        """Runs commands one after the other: processor time, wall time, the highest peak memory in KiB, page faults."""
        told = {**os.environ, "KCONFIG_CONFIG": "own.config", "KCONFIG_AUTOCONFIG": "auto.conf", "LC_ALL": "C"}
        spent, peak, faults, start = 0.0, 0, 0, time.monotonic()
        for command in commands:
            process = subprocess.Popen(command, cwd=self.work, env=told, stdin=subprocess.DEVNULL, stdout=subprocess.DEVNULL, stderr=subprocess.DEVNULL)
            _, status, usage = os.wait4(process.pid, 0)
            if status:
                sys.exit(f"{' '.join(command[:6])}: ended with status {os.waitstatus_to_exitcode(status)}")
            spent, peak, faults = spent + usage.ru_utime + usage.ru_stime, max(peak, usage.ru_maxrss), faults + usage.ru_minflt
        return spent, time.monotonic() - start, peak, faults

    def instructions(self, boards):
        """The instructions of a run with --each."""
        found = self.work / "callgrind"
        command = ["valgrind", "--tool=callgrind", f"--callgrind-out-file={found}", *self.each(boards)[0]]
        subprocess.run(command, cwd=self.work, stdin=subprocess.DEVNULL, capture_output=True, check=True)
        return int(re.search(r"(?m)^(?:summary|totals): (\d+)", found.read_text())[1])


def table(bench, runs):
    """Measures and prints the times and the memory."""
    total = len(bench.boards)
    sample = bench.spread(min(SAMPLE, total))
    numbers = sorted({1, 10, 100, total // 8, total // 4, total // 2, total})
    rows = [(f"kconf --each, {count} boards", bench.each(bench.spread(count)), 1, count) for count in numbers]
    scale = total / len(sample)
    rows += [("kconf, a run for each board", bench.alone(sample), scale, total)]
    rows += [("U-Boot's conf, two runs for each board", bench.own(sample), scale, total)]
    found = [[] for _ in rows]
    for _ in range(runs):
        for row, kept in zip(rows, found):
            kept.append(bench.run(row[1]))
    print(f"U-Boot 2025.01, {total} boards; {runs} runs each; the loops over {len(sample)} boards, scaled to {total}")
    print(f"{'':<42} {'processor':>11} {'a board':>11} {'wall':>10} {'peak memory':>12} {'page faults':>11}")
    for (name, _, times, count), kept in zip(rows, found):
        spent, wall, peaks, faults = zip(*kept)
        spent, wall, faults = min(spent) * times, min(wall) * times, round(min(faults) * times)
        print(f"{name:<42} {spent:9.2f} s {1000 * spent / count:8.2f} ms {wall:8.2f} s {max(peaks) / 1024:8.1f} MiB {faults:11}", flush=True)


def same(bench):
    """Prints for how many boards of the sample conf and kconf wrote the same minimal file: a `\\` in a string is not the same to both."""
    texts = {path.name: [(bench.work / folder / path.name).read_bytes() for folder in ("in", "own", "out")] for path in (bench.work / "own").iterdir()}
    plain = {name: own == out for name, (given, own, out) in texts.items() if b"\\" not in given}
    print(f"the minimal files are the same, byte for byte, on {sum(plain.values())} of the {len(plain)} boards of the sample without a \\ in the defconfig")


def count(bench):
    """Counts and prints the instructions."""
    numbers = [int(word) for word in os.environ.get("COUNTED", f"1 10 100 {len(bench.boards)}").split()]
    if not numbers or not shutil.which("valgrind"):
        return
    print(f"\n{'kconf --each':<14} {'instructions':>17} {'a further board':>16}")
    first = None
    for number in numbers:
        counted = bench.instructions(bench.spread(number))
        first = first or (number, counted)
        further = (counted - first[1]) // (number - first[0]) if number > first[0] else ""
        print(f"{f'{number} boards':<14} {counted:>17,} {further:>16,}" if further else f"{f'{number} boards':<14} {counted:>17,}", flush=True)


def main():
    kconf, trees = os.path.realpath(sys.argv[1]), os.path.realpath(sys.argv[2])
    with tempfile.TemporaryDirectory() as work:
        bench = Bench(kconf, trees, work)
        table(bench, int(sys.argv[3]) if len(sys.argv) > 3 else 3)
        same(bench)
        count(bench)


if __name__ == "__main__":
    main()
