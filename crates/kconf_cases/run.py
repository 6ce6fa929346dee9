#!/usr/bin/env python3
"""Runs the cases of data/ with a program, and compares every file that it leaves.

usage: run.py PROGRAM [NAME..]          a program that takes kconf's arguments; all cases without a NAME
       run.py --show PROGRAM NAME..     prints what the program does in each case
       run.py --conf CONF [NAME..]      the conf of Linux 7.2, by --olddefconfig: compares the values in the .config, and
                                        prints what conf.txt does not list, or lists otherwise
       run.py --conf-6.1 CONF [NAME..]  the same with the conf of Linux 6.1

NAME is the name of a case (choice/user_member_hidden) or of a family (choice). Each case runs in a copy of its folder.
"""

import collections
import difflib
import os
import re
import shutil
import subprocess
import sys
import tempfile

DATA = os.path.join(os.path.dirname(os.path.abspath(__file__)), "data")
OUTPUTS = (".config", "autoconf.h", "defconfig", "new.config", "gone.config", "configured.d")
NO_FILES = ("status", "diagnostics", "output", "again")
# The options for a conf, and the version of Linux that each is for.
CONFS = {"--conf": "7.2", "--conf-6.1": "6.1"}
# Options of kconf with a value.
VALUED = (
    "--config", "--out", "--header", "--savedefconfig", "--list-new", "--list-gone", "--list-dead", "--depfile", "--explain", "--explain-depth",
    "--how", "--how-steps", "--prefix", "--root", "--include"
)


def read(path):
    """Returns the bytes of a file, or None if there is none."""
    try:
        with open(path, "rb") as file:
            return file.read()
    except (FileNotFoundError, IsADirectoryError, NotADirectoryError):
        return None


def write(path, text):
    with open(path, "wb") as file:
        file.write(text)


def lines_of(path):
    return read(path).decode().splitlines()


def files_below(folder):
    """Returns the paths of the files below the folder."""
    found = set()
    for at, _, names in os.walk(folder):
        found.update(os.path.relpath(os.path.join(at, name), folder) for name in names)
    return found


def run(program, folder):
    return subprocess.run([program, *lines_of(f"{folder}/arguments")], cwd=folder, capture_output=True, timeout=60)


def differences(program, folder):
    """Runs the case in this folder, and returns each thing that differs: its name, what is expected and what came."""
    before = files_below(folder)
    try:
        done = run(program, folder)
    except subprocess.TimeoutExpired:
        return [("the end of the run", b"within a minute\n", b"later\n")]
    expected = {name.removeprefix("expect/"): read(f"{folder}/{name}") for name in before if name.startswith("expect/")}
    came = {"status": b"%d\n" % done.returncode, "diagnostics": done.stderr, "output": done.stdout}
    usual = {"status": b"0\n", "diagnostics": b"", "output": b""}
    pairs = [(name, expected.get(name, usual[name]), came[name]) for name in usual]
    names = {name for name in expected if name not in NO_FILES}
    names |= {name for name in files_below(folder) if name in OUTPUTS or name not in before}
    pairs += [(name, expected.get(name), read(f"{folder}/{name}")) for name in sorted(names)]
    return [pair for pair in pairs if pair[1] != pair[2]]


def text_of(part):
    return [] if part is None else part.decode(errors="backslashreplace").splitlines(keepends=True)


def print_difference(case, name, expected, came):
    if expected is None or came is None:
        print(f"{case}: {name} " + ("must not be there" if expected is None else "is missing"))
        return
    print(f"{case}: {name} differs")
    for line in list(difflib.unified_diff(text_of(expected), text_of(came), "expected", "found", n=1))[2:]:
        print("    " + line.rstrip("\n"))


def try_case(program, case, folder):
    """Runs a case, prints what differs, and tells whether nothing does."""
    found = differences(program, folder)
    for pair in found:
        print_difference(case, *pair)
    return not found


def show_case(program, case, folder):
    """Runs a case and prints its files, its command and what came."""
    inputs = sorted(name for name in files_below(folder) if not name.startswith("expect/") and name != "arguments")
    for name in inputs:
        print(f"--- {name}\n" + "".join(text_of(read(f"{folder}/{name}"))).rstrip("\n"))
    print("$ kconf " + " ".join(lines_of(f"{folder}/arguments")))
    done = run(program, folder)
    print("".join(text_of(done.stdout + done.stderr)), end="")
    print(f"(status {done.returncode})")
    for name in sorted(files_below(folder)):
        if name in OUTPUTS or name not in inputs and not name.startswith("expect/") and name != "arguments":
            print(f"--- {name}, afterwards\n" + "".join(text_of(read(f"{folder}/{name}"))).rstrip("\n"))
    with tempfile.TemporaryDirectory() as other:
        shutil.copytree(f"{DATA}/{case}", f"{other}/case")
        is_same = try_case(program, case, f"{other}/case")
    print(f"{case}: " + ("as expected" if is_same else "not as expected"))
    return is_same


def values_of(text, prefix):
    """Returns the values of a .config by name; `is not set` is n."""
    values = {}
    for line in (text or b"").decode(errors="replace").splitlines():
        if found := re.fullmatch(rf"{prefix}(\w+)=(.*)", line):
            values[found[1]] = found[2]
        elif found := re.fullmatch(rf"# {prefix}(\w+) is not set", line):
            values[found[1]] = "n"
    return values


# The kernel's conf wants quotes round a prompt and a file name, `modules` in place of `option modules`, a `modules` line
# in the symbol MODULES, and a line feed at the end of a file.
BARE_TEXT = re.compile(rb"(?m)^(\s*(?:source|mainmenu|menu|comment|prompt|bool|tristate|int|hex|string)[ \t]+)([^\s\"'#=!(&|]+)")


def for_conf(text, is_modules_by_name):
    if is_modules_by_name:
        text = re.sub(rb"(?m)^config MODULES\n", rb"config MODULES\n\tmodules\n", text)
    text = BARE_TEXT.sub(lambda found: found[0] if found[2] == b"if" else found[1] + b'"' + found[2] + b'"', text)
    return re.sub(rb"(?m)^(\s*)option\s+modules[ \t]*$", rb"\1modules", text)


def parsed(words):
    """Returns the options of a case by name, and its other words, to which the files of --fragment belong."""
    options, rest, more, words = {}, [], [], iter(words)
    for word in words:
        if word.startswith("--fragment"):
            more.append(word.partition("=")[2] or next(words))
        elif word in VALUED:
            options[word] = next(words)
        elif word.startswith("-"):
            options[word.split("=")[0]] = word.partition("=")[2]
        else:
            rest.append(word)
    return options, rest + more


def merged_config(folder, names):
    """Returns the .config and the fragments as one, each with its own last line, or None if a fragment is missing."""
    text = b""
    for at, name in enumerate(names):
        part = read(f"{folder}/{name}")
        if part is None and at > 0:
            return None
        text += (b"" if not text or text.endswith(b"\n") else b"\n") + (part or b"")
    return text


def prepare_for_conf(folder, options, rest):
    """Writes what conf reads, and returns whether the case can be given to it."""
    if not rest or any(name in options for name in ("--strict", "--strict-tree", "--must-exist", "--check", "--explain", "--how", "--list-dead", "--raw-strings", "--version", "--")):
        return False
    config = merged_config(folder, [options.get("--config", ".config"), *rest[1:]])
    if config is None:
        return False
    names = [name for name in files_below(folder) if name != "arguments" and not name.startswith("expect/")]
    is_by_name = not any(re.search(rb"(?m)^\s*(option\s+)?modules\b", read(f"{folder}/{name}")) for name in names)
    for name in names:
        text = for_conf(read(f"{folder}/{name}"), is_by_name and not folder.endswith("/modules_by_name"))
        is_complete = not text or text.endswith(b"\n") or "/lines/" in folder
        write(f"{folder}/{name}", text if is_complete else text + b"\n")
    if os.path.isfile(f"{folder}/.config"):
        os.remove(f"{folder}/.config")
    if config:
        write(f"{folder}/.config", config)
    return True


def first_place(text):
    """Returns the first FILE:LINE of diagnostics, warnings apart."""
    for line in text.decode(errors="replace").splitlines():
        if "warning" not in line and (found := re.match(r"(\S+:\d+)", line)):
            return found[1]
    return None


def conf_outcome(program, folder):
    """Runs conf in the case's folder, and returns what came of it and why."""
    options, rest = parsed(lines_of(f"{folder}/arguments"))
    errors = re.findall(rb"error (E\d+):", read(f"{folder}/expect/diagnostics") or b"")
    if errors and int(errors[0][1:]) >= 17 or not prepare_for_conf(folder, options, rest):
        return "no counterpart", " ".join(lines_of(f"{folder}/arguments"))
    out = options.get("--out", options.get("--config", ".config"))
    prefix = options.get("--prefix", "CONFIG_")
    environment = {"PATH": "/usr/bin:/bin", "CONFIG_": prefix, "srctree": options.get("--root", ".")}
    try:
        done = subprocess.run([program, "--olddefconfig", rest[0]], cwd=folder, capture_output=True, timeout=10, env=environment)
    except subprocess.TimeoutExpired:
        return "conf does not end", ""
    said = (done.stderr.decode(errors="replace").strip().splitlines() or ["nothing said"])[0]
    is_taken = read(f"{folder}/expect/status") is None
    if done.returncode != 0 and is_taken:
        return "conf alone refuses", said
    if done.returncode != 0:
        is_same = first_place(done.stderr) == first_place(read(f"{folder}/expect/diagnostics") or b"")
        return ("both refuse, same line" if is_same else "both refuse, other line"), said
    if not is_taken:
        return "conf alone takes", said
    ours = values_of(read(f"{folder}/expect/{out}"), prefix)
    theirs = values_of(read(f"{folder}/.config"), prefix)
    unlike = [name for name in sorted({*ours, *theirs}) if ours.get(name) != theirs.get(name)]
    if not unlike:
        return "same values", ""
    return "other values", "; ".join(f"{name}: {ours.get(name, '-')}, conf {theirs.get(name, '-')}" for name in unlike)[:200]


def listed_differences(version):
    """Returns the outcomes that conf.txt lists for the conf of this version of Linux, by case."""
    lines = [line.split(" ", 2) for line in lines_of(os.path.join(os.path.dirname(DATA), "conf.txt"))]
    return {case: rest.split(":")[0] for case, versions, rest in lines if version in versions.split(",")}


def print_outcome(case, outcome, why, listed):
    """Prints an outcome that conf.txt does not list, or lists otherwise."""
    wanted = listed.get(case)
    is_difference = outcome in ("other values", "conf alone refuses", "conf alone takes", "conf does not end")
    if wanted is None and is_difference or wanted is not None and wanted != outcome:
        print(f"{case}: {outcome}: {why}" + (f" (conf.txt: {wanted})" if wanted else ""))


def main():
    arguments = sys.argv[1:]
    mode = arguments.pop(0) if arguments and arguments[0] in ("--show", *CONFS) else ""
    if not arguments or arguments[0].startswith("-") or mode == "--show" and len(arguments) < 2:
        sys.exit(__doc__.strip())
    program, wanted = os.path.abspath(arguments[0]), arguments[1:]
    cases = [line.split()[0] for line in lines_of(f"{DATA}/index")]
    chosen = [case for case in cases if not wanted or case in wanted or case.split("/")[0] in wanted]
    if not chosen:
        sys.exit(f"no case {' '.join(wanted)}")
    failed, outcomes = 0, collections.Counter()
    listed = listed_differences(CONFS[mode]) if mode in CONFS else {}
    for case in chosen:
        with tempfile.TemporaryDirectory() as room:
            folder = f"{room}/{case}"
            shutil.copytree(f"{DATA}/{case}", folder)
            if mode in CONFS:
                outcome, why = conf_outcome(program, folder)
                outcomes[outcome] += 1
                print_outcome(case, outcome, why, listed)
            else:
                failed += not (show_case if mode else try_case)(program, case, folder)
    print(", ".join(f"{count} {outcome}" for outcome, count in outcomes.most_common()) if outcomes else f"{len(chosen)} cases, {failed} failed")
    return failed > 0


if __name__ == "__main__":
    sys.exit(main())
