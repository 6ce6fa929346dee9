"""What the checks on random trees share: the runs on one folder, and the loop over the trees."""

import collections
import itertools
import os
import random
import shutil
import subprocess
import sys
import tempfile


class Differs(Exception):
    """What KCONF prints is not what was computed."""


class Runner:
    """The runs on one folder."""

    def __init__(self, kconf, folder):
        self.kconf, self.folder = kconf, folder

    def run(self, *words):
        ran = subprocess.run([self.kconf, *words], cwd=self.folder, stdin=subprocess.DEVNULL, capture_output=True, check=False)
        return ran.returncode, ran.stdout.decode("latin1"), ran.stderr.decode("latin1")


def check_trees(usage, name, check_tree, words):
    """Calls check_tree with a runner, a source of random numbers and the counts, until they have as many trees as the command line says.

    `usage` is for a wrong command line, `name` for the folder with the files of the first tree that differs, `words` for one that does and for none.
    """
    if not 2 <= len(sys.argv) <= 4:
        sys.exit(usage)
    kconf = os.path.abspath(sys.argv[1])
    seed, trees = int(sys.argv[2]) if len(sys.argv) > 2 else 0, int(sys.argv[3]) if len(sys.argv) > 3 else 100
    counts = collections.Counter()
    with tempfile.TemporaryDirectory() as folder:
        for case in itertools.count():
            if counts["trees"] == trees:
                break
            for file in os.listdir(folder):
                os.unlink(f"{folder}/{file}")
            try:
                check_tree(Runner(kconf, folder), random.Random(f"{seed} {case}"), counts)
            except Exception as fault:
                kept = f"{tempfile.gettempdir()}/{name}-{seed}-{case}"
                shutil.copytree(folder, kept, dirs_exist_ok=True)
                if not isinstance(fault, Differs):
                    print(f"tree {case} of seed {seed}, its files are in {kept}", file=sys.stderr)
                    raise
                print(f"tree {case} of seed {seed}{words[0]}, its files are in {kept}\n{fault}")
                sys.exit(1)
    print(f"seed {seed}: " + ", ".join(f"{count} {what}" for what, count in counts.items()) + f", {words[1]}")
