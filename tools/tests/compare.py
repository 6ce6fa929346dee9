"""What the tests of kconf-flatten share: a tree under kconfiglib, its flat file under kconf --flat."""

import itertools
import os
import re
import subprocess
import sys
import tempfile

try:
    import kconfiglib
except ImportError:
    sys.exit("there is no kconfiglib (Debian's package python3-kconfiglib)")

HERE = os.path.dirname(os.path.abspath(__file__))
REPOSITORY = os.path.dirname(os.path.dirname(HERE))
FLATTEN = os.path.abspath(
    os.environ.get("KCONF_FLATTEN", os.path.join(REPOSITORY, "tools", "kconf-flatten")))
PYTHON = "/usr/bin/python3"
KCONF = os.path.abspath(
    os.environ.get("KCONF", os.path.join(REPOSITORY, "crates", "kconf", "out", "kconf")))
SET_LINE = re.compile(r"CONFIG_([^=]+)=(.*)")
UNSET_LINE = re.compile(r"# CONFIG_(\S+) is not set")
TITLE = re.compile(r"\n#\n# (.*)\n#\n")


def write_files(folder, files):
    """Writes the files of a tree."""
    for name, text in files.items():
        path = os.path.join(folder, name)
        os.makedirs(os.path.dirname(path), exist_ok=True)
        with open(path, "w", encoding="utf-8") as file:
            file.write(text)


def flatten(folder, out, options=(), environment=None):
    """Runs kconf-flatten on a folder's Kconfig."""
    words = [PYTHON, FLATTEN, "--root", folder, *options, "--out", out, "Kconfig"]
    return subprocess.run(words, env={**os.environ, **(environment or {})}, text=True,
                          stdout=subprocess.PIPE, stderr=subprocess.PIPE, check=False)


def read_tree(folder, environment=None):
    """A folder's Kconfig under kconfiglib."""
    os.environ.update(environment or {})
    os.environ["srctree"] = folder
    here = os.getcwd()
    os.chdir(folder)
    try:
        return kconfiglib.Kconfig("Kconfig", warn=False)
    finally:
        os.chdir(here)


def lines_of(text):
    """The lines of a .config, by symbol: the text behind the =, or n."""
    lines = {}
    for line in text.splitlines():
        given = SET_LINE.fullmatch(line)
        unset = UNSET_LINE.fullmatch(line)
        if given:
            lines[given[1]] = given[2]
        elif unset:
            lines[unset[1]] = "n"
    return lines


def titles_of(name):
    """The titles and comments in a .config, in the order of their texts."""
    with open(name, encoding="utf-8") as file:
        return sorted(TITLE.findall(file.read()))


def tree_titles(folder, tree):
    """The titles and comments that kconfiglib writes for what tree_lines gave it last."""
    out = os.path.join(folder, "tree.config")
    tree.write_config(out, save_old=False)
    return titles_of(out)


def kconf_lines(folder, flat, config):
    """The lines of the .config that kconf writes for the flat file; None where it is refused."""
    out = os.path.join(folder, "out.config")
    words = [KCONF, "--flat", "--root", os.path.dirname(flat), "--config", config, "--out", out]
    run = subprocess.run([*words, os.path.basename(flat)], text=True, check=False,
                         stdout=subprocess.PIPE, stderr=subprocess.PIPE)
    if run.returncode != 0:
        return None, run.stderr
    with open(out, encoding="utf-8") as file:
        return lines_of(file.read()), run.stderr


def tree_lines(tree, config):
    """The lines and the values that kconfiglib gives each symbol of the tree."""
    tree.load_config(config)
    lines, values = {}, {}
    for symbol in tree.unique_defined_syms:
        if symbol.env_var is None and symbol is not tree.defconfig_list:
            lines.update(lines_of(symbol.config_string))
            values[symbol.name] = symbol.str_value if is_truth(symbol) else lines.get(symbol.name)
    return lines, values


def is_truth(symbol):
    """Whether a symbol is a bool or tristate."""
    return symbol.orig_type in (kconfiglib.BOOL, kconfiglib.TRISTATE)


def differences(tree, ours, theirs, values, lines_differ=False):
    """What differs: each value, and each line but those that only say that a symbol is n."""
    found = []
    for symbol in tree.unique_defined_syms:
        name = symbol.name
        if name not in values:
            continue
        value = ours.get(name, "n") if is_truth(symbol) else ours.get(name)
        if value != values[name]:
            found.append(f"{name} is {value} and not {values[name]}")
        elif not lines_differ and (name in ours) != (name in theirs):
            found.append(f"{name} has {'a' if name in ours else 'no'} line")
    return found


def given_lines(names, texts):
    """The .config that gives each name its text; None stands for no line."""
    lines = []
    for name, text in zip(names, texts):
        if text == "n":
            lines.append(f"# CONFIG_{name} is not set\n")
        elif text is not None:
            lines.append(f"CONFIG_{name}={text}\n")
    return "".join(lines)


def combinations(inputs):
    """Every combination of the inputs' texts."""
    return itertools.product(*inputs.values())


def scratch():
    """A folder that is removed with its owner."""
    return tempfile.TemporaryDirectory(prefix="kconf-flatten-")
