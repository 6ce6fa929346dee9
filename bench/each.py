#!/usr/bin/env python3
"""Compares `kconf --each` with the runs that it stands for: each.py [TREES]

For each of TREES generated trees (200 if not given) there are twelve configurations: random lines of the tree's dot.config, or
an earlier configuration with up to three lines fewer or more; and among them names that nobody defines, values that are not
allowed, a line that is too long (E17), a file that is missing (E18) and a folder that is missing for an output (E19). Each
configuration is run alone, and then all are run by `--each`, in another order too. From nine configurations on, kconf keeps of
each solution what the next one needs.

Each file has to be the same byte for byte, or to be missing in both; the status has to be the greatest; and the diagnostics have
to be the tree's warnings and then those of each run alone, without the tree's warnings, each behind `CONFIGURATION: ` if it
does not begin with that name. The status is 1 if something differs.

kconf is crates/kconf/out/kconf (make build), or the program that KCONF names.
"""

import os
import pathlib
import random
import subprocess
import sys
import tempfile

HERE = pathlib.Path(__file__).resolve().parent
KCONF = os.path.realpath(os.environ.get("KCONF", HERE / "../crates/kconf/out/kconf"))
COUNT = 12
OUTPUTS = {"--out": "full", "--header": "header", "--savedefconfig": "minimal", "--list-new": "new", "--list-gone": "gone"}


def run(folder, *words):
    """Runs kconf: the status and the lines of its diagnostics."""
    ran = subprocess.run([KCONF, *words], cwd=folder, capture_output=True, timeout=60)
    return ran.returncode, ran.stderr.splitlines(keepends=True)


def outputs(kind, name):
    """The options that name the outputs of a configuration."""
    return [word for option, output in OUTPUTS.items() for word in (option, f"{kind}/{name}/{output}")]


def lines_of(pick, lines, strange, earlier):
    """The lines of a configuration: random ones, or nearly those of an earlier configuration."""
    if earlier and pick.random() < 0.6:
        chosen = list(pick.choice(earlier))
        for _ in range(pick.randint(0, 3)):
            if chosen and pick.random() < 0.5:
                chosen.remove(pick.choice(chosen))
            else:
                chosen.append(pick.choice(lines))
        return chosen
    chosen = [line for line in lines if pick.random() < 0.5] + pick.sample(strange, pick.randint(0, 4))
    pick.shuffle(chosen)
    return chosen


def lay(pick, folder):
    """Makes a tree, a fragment and twelve configurations in the folder. The answer: the names of the configurations."""
    subprocess.run([sys.executable, HERE / "generate.py", folder, str(pick.randint(20, 200))], check=True, capture_output=True)
    lines = (folder / "dot.config").read_text().splitlines(keepends=True)
    strange = ["CONFIG_NOBODY=y\n", "CONFIG_MODULES=maybe\n", lines[0].split("=")[0] + "=q\n", "no line of a .config\n"]
    names = [f"c{number}" for number in range(COUNT)]
    earlier = []
    for name in names:
        chosen = lines_of(pick, lines, strange, earlier)
        earlier.append(list(chosen))
        if pick.random() < 0.1:
            chosen.insert(pick.randint(0, len(chosen)), "#" * 70_000 + "\n")
        if pick.random() > 0.1:
            (folder / name).write_text("".join(chosen))
        for kind in ("alone", "each", "turned"):
            (folder / kind / name).mkdir(parents=True)
    (folder / "fragment").write_text("".join(pick.sample(lines, min(3, len(lines))) + pick.sample(strange, 1)))
    if pick.random() < 0.3:
        lost = pick.choice(names)
        for kind in ("alone", "each", "turned"):
            (folder / kind / lost).rmdir()
    return names


def named(name, line):
    """The line as `--each` shows it."""
    return line if line.startswith(f"{name}:".encode()) else f"{name}: ".encode() + line


def held(folder, kind, name):
    """What the outputs of a configuration hold; None where one is missing."""
    paths = [folder / kind / name / output for output in OUTPUTS.values()]
    return [path.read_bytes() if path.exists() else None for path in paths]


def compare(folder, names, tree, alone, kind, order):
    """What differs between the runs alone and a run for all in this order."""
    words = [word for option, output in OUTPUTS.items() for word in (option, f"{kind}/{{}}/{output}")]
    status, lines = run(folder, "--each", *words, "--fragment", "fragment", "Kconfig", *order)
    parts = [named(name, line).replace(b"alone/", f"{kind}/".encode()) for name in order for line in alone[name][1][len(tree):]]
    wrong = []
    if status != max(alone[name][0] for name in order):
        wrong.append(f"status {status}")
    if lines != tree + parts:
        wrong.append(f"diagnostics {lines[len(tree):][:3]}, not {parts[:3]}")
    return wrong + [f"the files of {name}" for name in names if held(folder, kind, name) != held(folder, "alone", name)]


def check(seed):
    """What is wrong with the runs over one tree, and how many of its runs alone failed."""
    pick = random.Random(seed)
    with tempfile.TemporaryDirectory() as place:
        folder = pathlib.Path(place)
        names = lay(pick, folder)
        _, tree = run(folder, "--each", "Kconfig")
        alone = {name: run(folder, "--config", name, "--must-exist", *outputs("alone", name), "Kconfig", "fragment") for name in names}
        turned = pick.sample(names, len(names))
        wrong = compare(folder, names, tree, alone, "each", names) + compare(folder, names, tree, alone, "turned", turned)
        return wrong, sum(status != 0 for status, _ in alone.values())


def main():
    trees = int(sys.argv[1]) if len(sys.argv) > 1 else 200
    failed, different = 0, 0
    for seed in range(trees):
        wrong, count = check(seed)
        failed += count
        different += bool(wrong)
        for what in wrong:
            print(f"tree {seed}: {what}")
    print(f"{trees} trees, {COUNT * trees} runs alone ({failed} of them failed), {different} trees differ")
    return 1 if different else 0


if __name__ == "__main__":
    sys.exit(main())
