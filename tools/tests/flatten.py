#!/usr/bin/python3
"""The tests of kconf-flatten: make flatten-test.

Each case is a small tree. kconf on its flat file is compared with kconfiglib on the tree itself,
symbol by symbol, over every combination of the case's inputs. Where kconfiglib does not know what
the case uses, the case has a second form of the tree for it. Then come trees that are refused, the
places, and random trees. KCONF names another kconf than crates/kconf/out/kconf, KCONF_FLATTEN
another kconf-flatten than that of this repository.
"""

import io
import os
import re
import subprocess
import sys

sys.dont_write_bytecode = True

import cases  # noqa: E402
import compare  # noqa: E402
import random_trees  # noqa: E402

COUNT_LINE = re.compile(r"kconf-flatten: (\d+) x (.*)")


def told(notes):
    """How often each rewrite was told, by the counts at the end."""
    return {found[2]: int(found[1]) for found in map(COUNT_LINE.fullmatch, notes.splitlines())
            if found}


def check_told(case, notes):
    """The counts are those of the case, and each is a line with its place."""
    faults = []
    if told(notes) != case.told:
        faults.append(f"told {told(notes)} and not {case.told}")
    for kind, count in case.told.items():
        lines = re.findall(rf"^\S+:\d+: {re.escape(kind)}: .+$", notes, re.MULTILINE)
        if len(lines) != count:
            faults.append(f"{len(lines)} lines tell of {kind}")
    return faults


def reference(case, folder):
    """The tree that kconfiglib reads: the case's own, or its second form."""
    files = {"Kconfig": case.tree if case.like is None else case.like, **case.files}
    files.update({name: text for name, text in case.stands_for.items() if "\n" in text})
    compare.write_files(folder, files)
    return compare.read_tree(folder, case.environment)


def renamed(case, names):
    """The names of the inputs in the tree that kconfiglib reads."""
    return [case.stands_for.get(name, name) for name in names]


def run_case(case):
    """Answers how many combinations were compared, and what was wrong."""
    with compare.scratch() as folder:
        source, like = os.path.join(folder, "tree"), os.path.join(folder, "like")
        compare.write_files(source, {"Kconfig": case.tree, **case.files})
        flat = os.path.join(folder, "flat")
        run = compare.flatten(source, flat, case.options, case.environment)
        if run.returncode != 0:
            return 0, [run.stderr.strip()]
        faults = check_told(case, run.stderr)
        tree = reference(case, like)
        count = 0
        for texts in compare.combinations(case.inputs):
            given = dict(zip(case.inputs, texts))
            if case.only is None or case.only(given):
                count += 1
                faults += run_combination(case, folder, tree, texts)
            elif case.one_of:
                faults += run_one_of(case, folder, texts)
        return count, faults


def run_one_of(case, folder, texts):
    """What is wrong where a .config is no state of a tristate choice: more than one y."""
    given = compare.given_lines(case.inputs, texts)
    compare.write_files(folder, {"ours.config": given})
    config = os.path.join(folder, "ours.config")
    ours, notes = compare.kconf_lines(folder, os.path.join(folder, "flat"), config)
    if ours is None:
        return [notes.strip()]
    chosen = [name for name in case.one_of if ours.get(name) == "y"]
    return [f"{chosen} are y, from {given.split(chr(10))}"] if len(chosen) > 1 else []


def run_combination(case, folder, tree, texts):
    """What is wrong with one combination of inputs."""
    ours_given = os.path.join(folder, "ours.config")
    theirs_given = os.path.join(folder, "theirs.config")
    given = compare.given_lines(case.inputs, texts)
    compare.write_files(folder, {
        "ours.config": given,
        "theirs.config": compare.given_lines(renamed(case, case.inputs), texts)})
    ours, notes = compare.kconf_lines(folder, os.path.join(folder, "flat"), ours_given)
    if ours is None:
        return [notes.strip()]
    ours = {case.stands_for.get(name, name): text for name, text in ours.items()}
    lines, values = compare.tree_lines(tree, theirs_given)
    faults = compare.differences(tree, ours, lines, values, case.lines_differ)
    shown = compare.titles_of(os.path.join(folder, "out.config"))
    expected = compare.tree_titles(folder, tree)
    if shown != expected:
        faults.append(f"the titles are {shown} and not {expected}")
    extra = ours.keys() - values.keys() - set(case.helpers)
    if extra:
        faults.append(f"there are lines for {sorted(extra)}")
    return [f"{fault}, from {given.split(chr(10))}" for fault in faults]


def run_bad(bad):
    """What is wrong with how a tree is refused."""
    with compare.scratch() as folder:
        files = {"Kconfig": bad.tree, **bad.files}
        files = {name: text for name, text in files.items() if text is not None}
        source, flat = os.path.join(folder, "tree"), os.path.join(folder, "flat")
        os.makedirs(source)
        compare.write_files(source, files)
        run = compare.flatten(source, flat, bad.options, bad.environment)
        faults = []
        if run.returncode != bad.status:
            faults.append(f"status {run.returncode}")
        if not any(line.startswith(bad.error) for line in run.stderr.splitlines()):
            faults.append(f"the error is {run.stderr.strip()!r}")
        if ("kconf-flatten: nothing is written" in run.stderr.splitlines()) != (bad.status == 1):
            faults.append("whether nothing is written")
        if "Traceback" in run.stderr:
            faults.append("it fell over")
        if os.path.exists(flat):
            faults.append("a file was written")
        return faults


PLACES_TREE = """
config A
	int "a"

source "more"
config LAST
	bool "last"
	select MEMBER
"""

PLACES_MORE = """
choice
	prompt "c"
	default NONE

config MEMBER
	bool "member"
endchoice
config NO_TYPE
	prompt "no type"
config SELECTED
	bool
	depends on MEMBER = n
config SELECTS
	def_bool y
	select A
"""


def run_places():
    """Diagnostics of kconf have the places of the tree; those of input files stay."""
    with compare.scratch() as folder:
        source, flat = os.path.join(folder, "tree"), os.path.join(folder, "flat")
        compare.write_files(source, {"Kconfig": PLACES_TREE, "more": PLACES_MORE})
        compare.flatten(source, flat)
        config = os.path.join(folder, "given.config")
        compare.write_files(folder, {"given.config": "CONFIG_X=y\n"})
        _, notes = compare.kconf_lines(folder, flat, config)
        expected = [
            "more:9: warning K3: NO_TYPE has no type",
            "more:16: warning K4: A is not bool or tristate, the select has no effect",
            "Kconfig:8: warning K6: MEMBER is a choice member, the select has no effect",
            f"{config}:1: warning K7: unknown symbol X"]
        if notes.splitlines() != expected:
            return [f"{notes.splitlines()} and not {expected}"]
    return []


# What the source of a tree's own conf holds, and the words of the dialect that it stands for.
OWN_CONFS = [
    ({}, "plain"),
    ({"util/kconfig/confdata.c": """case S_STRING:
		if (*p++ != '"')
			break;
		memmove(p2, p2 + 1, strlen(p2));
	case S_INT:"""}, "plain"),
    ({"scripts/kconfig/confdata.c": """case S_STRING:
		if (*p++ != '"')
			break;
	case S_INT:""",
      "scripts/kconfig/Makefile": "\t$(Q)$(CPP) -nostdinc -P -I $(srctree) -undef -x assembler-with-cpp x -o y\n"},
     "raw-strings include"),
    ({"scripts/kconfig/confdata.c": "", "scripts/kconfig/symbol.c": 'newval.val = "0";\n'
      "static void sym_calc_choice(struct menu *choice)\n"}, "zero new-choices"),
]


def run_dialects():
    """The first line of the flat file names the dialect of the tree's own conf."""
    faults = []
    for files, expected in OWN_CONFS:
        with compare.scratch() as folder:
            source, flat = os.path.join(folder, "tree"), os.path.join(folder, "flat")
            compare.write_files(source, {"Kconfig": "config A\n\tbool\n", **files})
            compare.flatten(source, flat)
            with open(flat, encoding="utf-8") as lines:
                first = next(lines)
        if first != f"# kconf-flatten {expected}\n":
            faults.append(f"the first line is {first!r} and not that of {expected}")
    return faults


def run_of_libraries():
    """kconfiglib is found in an active virtual environment, and another version than 14.1 is refused."""
    faults = []
    for version, status in (("(14, 1, 0)", 0), ("(13, 0, 0)", 3)):
        with compare.scratch() as folder:
            place = "environment/lib/python3.11/site-packages/kconfiglib.py"
            with open(compare.kconfiglib.__file__, encoding="utf-8") as file:
                text = re.sub(r"(?m)^VERSION = .*$", f"VERSION = {version}", file.read())
            compare.write_files(folder, {place: text, "tree/Kconfig": "config A\n\tbool\n"})
            words = [compare.PYTHON, "-IS", compare.FLATTEN, "--root", os.path.join(folder, "tree"),
                     "--out", os.path.join(folder, "flat"), "Kconfig"]
            environment = {**os.environ, "VIRTUAL_ENV": os.path.join(folder, "environment")}
            run = subprocess.run(words, env=environment, text=True, capture_output=True, check=False)
            if run.returncode != status or ("version 14.1 is needed" in run.stderr) != (status == 3):
                faults.append(f"version {version}: status {run.returncode} and {run.stderr!r}")
    return faults


def run_without_kconfiglib():
    """The help and errors of the arguments need no kconfiglib; a run says that it is missing."""
    faults = []
    for words, status, beginning in ((["--help"], 0, "usage: kconf-flatten "),
                                     (["--out", "flat"], 2, "usage: kconf-flatten "),
                                     (["--out", "flat", "Kconfig"], 3,
                                      "kconf-flatten: error: there is no kconfiglib")):
        run = subprocess.run([compare.PYTHON, "-IS", compare.FLATTEN, *words], text=True,
                             stdout=subprocess.PIPE, stderr=subprocess.STDOUT, check=False)
        if run.returncode != status or not run.stdout.startswith(beginning):
            faults.append(f"{words}: status {run.returncode} and {run.stdout!r}")
    return faults


def report(name, faults, out):
    """Prints what was wrong, at most three lines; answers whether there was anything."""
    for fault in faults[:3]:
        print(f"  {name}: {fault}", file=out)
    if len(faults) > 3:
        print(f"  {name}: and {len(faults) - 3} more", file=out)
    return bool(faults)


def main():
    """Runs all tests; the status is 1 where one fails."""
    if not os.access(compare.KCONF, os.X_OK):
        sys.exit(f"there is no {compare.KCONF}: make build makes it")
    out, failed, all_combinations = io.StringIO(), 0, 0
    for case in cases.CASES:
        count, faults = run_case(case)
        if count < 2:
            faults.append("fewer than two combinations")
        all_combinations += count
        failed += report(case.name, faults, out)
        print(f"{case.name}: {count} combinations")
    for bad in cases.BAD:
        failed += report(bad.name, run_bad(bad), out)
    failed += report("places", run_places(), out)
    failed += report("dialects", run_dialects(), out)
    failed += report("without kconfiglib", run_without_kconfiglib(), out)
    failed += report("versions of kconfiglib", run_of_libraries(), out)
    trees, runs, faults = random_trees.run()
    failed += report("random trees", faults, out)
    print(f"{len(cases.CASES)} trees with {all_combinations} combinations, {len(cases.BAD)} refused,"
          f" {trees} random trees with {runs} runs: {failed} failed")
    print(out.getvalue(), end="")
    sys.exit(1 if failed else 0)


if __name__ == "__main__":
    main()
