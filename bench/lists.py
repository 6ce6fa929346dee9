#!/usr/bin/env python3
"""Compares --list-new and --list-gone with what trying each answer shows, on random trees: lists.py KCONF [COUNT] [SEED]

A symbol without a value from the input is new if some line that is added for it changes its value. So each possible line is
tried: for a bool y and n, for a tristate m too, for a string two texts, for an int or hex many numbers, also with a zero more in
front. A member of a choice is new if no line chose the selected member, it has a line in the `.config`, and choosing some member
changes which one is selected. An int or hex whose value is no number has a comment. The list is then read again after the other
lines: nothing is warned of, the values stay, and only the comments are listed. If a tristate that is new loses its value, no value
is compared: its default was above its visibility. The lines that are gone are those of the warnings K7, first those that are on.
The trees are those of bench/fuzz.py. The first difference is printed with its tree, and the status is then 1.
"""

import importlib.util
import os
import pathlib
import random
import re
import subprocess
import sys
import tempfile

TOP = pathlib.Path(__file__).resolve().parent
spec = importlib.util.spec_from_file_location("fuzz", TOP / "fuzz.py")
fuzz = importlib.util.module_from_spec(spec)
spec.loader.exec_module(fuzz)
NUMBERS = [f"{sign}{zero}{n}" for n in (*range(12), 20, 50, 100) for zero in ("", "0") for sign in ("", "-")]
ANSWERS = {
    "bool": ["y", "n"],
    "tristate": ["y", "m", "n"],
    "string": ['"one"', '"two"'],
    "int": NUMBERS,
    "hex": [f"0x{zero}{n:x}" for n in (*range(12), 16, 32, 80, 255) for zero in ("", "0")],
}
VALID = {"bool": r"[yn]", "tristate": r"[ymn]", "string": r'"', "int": r"-?[0-9]+$", "hex": r"(0[xX])?[0-9a-fA-F]+$"}


def run(kconf, folder, lines, lists=False):
    """The lines of the .config that kconf writes by the symbol's name, and its diagnostics; None if the tree is refused."""
    (folder / "in").write_text("".join(line + "\n" for line in lines))
    more = ["--list-new", "new", "--list-gone", "gone"] if lists else []
    done = subprocess.run([kconf, "--config", "in", "--out", "out", *more, "Kconfig"], cwd=folder, capture_output=True, text=True)
    if done.returncode != 0:
        return None, done.stderr
    found = re.findall(r"^((?:# )?CONFIG_(\w+)(?:=.*| is not set))$", (folder / "out").read_text(), re.M)
    return {name: line for line, name in found}, done.stderr


def choices(text):
    """The members of each choice of a tree's files, by the nesting of their lines."""
    found, open_now = [], None
    for line in text.split("\n"):
        if line == "choice":
            open_now = []
        elif line == "endchoice":
            found.append(open_now)
            open_now = None
        elif open_now is not None and re.match(r"(menu)?config ", line):
            open_now.append(line.split()[1])
    return found


def types(text):
    """The first type of each symbol."""
    found, name = {}, None
    for line in text.split("\n"):
        if re.match(r"(menu)?config ", line):
            name = line.split()[1]
        elif not line.startswith("\t"):
            name = name if line == "" else None
        elif name and (match := re.match(r"\t(?:def_)?(bool|tristate|string|int|hex)\b", line)):
            found.setdefault(name, match[1])
    return found


def given(lines, kinds):
    """The symbols to which a line gives a value, and those to which one gives y, in the order of these lines."""
    values, chosen = {}, []
    for line in lines:
        if match := re.match(r"# CONFIG_(\w+) is not set$", line):
            if kinds.get(match[1]) in ("bool", "tristate"):
                values.setdefault(match[1], set()).add("n")
        elif (match := re.match(r"CONFIG_(\w+)=(.*)$", line)) and match[1] in kinds and re.match(VALID[kinds[match[1]]], match[2]):
            values.setdefault(match[1], set()).add(match[2][0])
            if match[2][0] == "y" and kinds[match[1]] in ("bool", "tristate"):
                chosen.append(match[1])
    return set(values), chosen


def listed_line(name, line, kind):
    """The line of a new symbol in the list."""
    is_number = kind not in ("int", "hex") or re.match(VALID[kind], line.split("=", 1)[1])
    return line if is_number else f"# CONFIG_{name} has no value"


def fed_back(kconf, folder, lines, values, listed, kinds):
    """What differs if the list is read after the other lines, or None."""
    later, told = run(kconf, folder, lines + listed, True)
    warned = [line for line in told.splitlines() if (match := re.match(r"in:(\d+): ", line)) and int(match[1]) > len(lines)]
    if warned:
        return f"the list is warned of: {warned}"
    names = [match[1] for line in listed if (match := re.match(r"(?:# )?CONFIG_(\w+)(?:=| is not set)", line))]
    if any(kinds[name] == "tristate" and later.get(name) != values.get(name) for name in names):
        return None
    if later != values:
        return f"with the list: {later}"
    left, comments = (folder / "new").read_text().splitlines(), [line for line in listed if line.endswith(" has no value")]
    return f"still listed: {left}" if left != comments else None


def compare(kconf, folder, text, lines):
    """What differs on a tree, or None; and how many symbols are new."""
    values, told = run(kconf, folder, lines, True)
    if values is None:
        return None, None
    wanted_gone = [lines[int(n) - 1].rstrip() for n in re.findall(r"^in:(\d+): warning K7", told, re.M)]
    off = [line for line in wanted_gone if line.startswith("#") or line.endswith("=n")]
    gone = (folder / "gone").read_text().splitlines()
    if gone != [line for line in wanted_gone if line not in off] + off:
        return f"gone: {gone}", None
    listed = (folder / "new").read_text().splitlines()
    kinds, inside = types(text), choices(text)
    choice_of = {name: members for members in inside for name in members}
    kinds.update({name: "bool" for name in choice_of})
    answered, chosen = given(lines, kinds)
    new = []
    for name, line in values.items():
        if name in answered or name not in kinds:
            continue
        if name in choice_of:
            members = choice_of[name]
            picked = ([name for name in chosen if name in members] or [None])[-1]
            is_answered = picked is not None and values.get(picked) == f"CONFIG_{picked}=y"
            tries = [f"CONFIG_{member}=y" for member in members if not is_answered]
            watched = members
        else:
            tries = [f"CONFIG_{name}={answer}" for answer in ANSWERS[kinds[name]]]
            watched = [name]
        now = [values.get(it) for it in watched]
        if any([run(kconf, folder, lines + [tried])[0].get(it) for it in watched] != now for tried in tries):
            new.append(listed_line(name, line, kinds[name]))
    if listed != new:
        return f"listed {listed}, but by trying {new}", None
    return fed_back(kconf, folder, lines, values, listed, kinds), len(new)


def main():
    kconf, count, seed = os.path.abspath(sys.argv[1]), int((sys.argv + ["", "", "300"])[2] or 300), int((sys.argv + ["", "", "", "1"])[3] or 1)
    compared = accepted = 0
    for number in range(count):
        pick = random.Random(seed * 1_000_003 + number)
        tree = fuzz.Tree(pick)
        tree.strict, tree.loops = True, False
        with tempfile.TemporaryDirectory() as name:
            folder = pathlib.Path(name)
            root = tree.root()
            if tree.files:
                continue
            (folder / "Kconfig").write_text(root)
            lines = tree.settings().splitlines()
            different, news = compare(kconf, folder, root, lines)
            if different:
                print(root, "\n".join(lines), different, sep="\n----\n")
                sys.exit(f"tree {number} of seed {seed}")
            if news is not None:
                accepted, compared = accepted + 1, compared + news
    print(f"{accepted} trees, {compared} new symbols: no difference")


if __name__ == "__main__":
    main()
