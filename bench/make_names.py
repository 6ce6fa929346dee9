#!/usr/bin/python3
"""Looks which names GNU make reads in the dependency files that kconf writes: make_names.py [--all] [KCONF]

The script tries names with each byte from 1 to 255 at the front, in the middle, at the end, doubled and alone, names with two
bytes that mean something in a makefile, the words of a makefile, and the targets that tell make how to work. It writes the
rules by the definition (`rule_text` below), creates the files and asks make, for each name as a target and as a prerequisite:

- If the target is newest, nothing has to be done, whatever files with similar names there are.
- If a prerequisite is touched or removed, the target has to be built. make reports no error.

It ends with status 1 if make misreads a name that kconf accepts (`is_read_by_make` below). --all prints the names that kconf
refuses (E23) and that make reads in this trial. With KCONF it also looks whether that program writes the same rule for each
name that is UTF-8, or refuses it.
"""

import collections
import concurrent.futures
import os
import subprocess
import sys
import tempfile

SPECIAL = b" \t#:"
BEYOND = bytes([0, 9, 10, 11, 12, 13]) + b"=;*?["
LAST = b" &)"
SPECIAL_TARGETS = [
    b".DEFAULT", b".DELETE_ON_ERROR", b".EXPORT_ALL_VARIABLES", b".IGNORE", b".INTERMEDIATE", b".LOW_RESOLUTION_TIME", b".NOTINTERMEDIATE",
    b".NOTPARALLEL", b".ONESHELL", b".PHONY", b".POSIX", b".PRECIOUS", b".SECONDARY", b".SECONDEXPANSION", b".SILENT", b".SUFFIXES", b".WAIT",
]
WORDS = b"define endef undefine ifdef ifndef ifeq ifneq else endif include -include sinclude load -load override export unexport private vpath".split()
OLD, MIDDLE, NEW = 1_000, 2_000, 3_000  # times of files


def escaped(name, in_target):
    """The name as it stands in a rule."""
    special = SPECIAL + (b"%" if in_target else b"|")
    text = b""
    for at, byte in enumerate(name):
        after = name[at:].lstrip(b"\\")
        if name[at] in special or (byte == ord("\\") and (not after or after[0] in special)):
            text += b"\\"
        text += b"$$" if byte == ord("$") else bytes([byte])
    return text


def rule_text(out, names):
    """The rule of `out` and an empty rule for each name."""
    line = escaped(out, True) + b":" + b"".join(b" \\\n " + escaped(name, False) for name in names)
    line += b" |" if line.endswith(b"\\") else b""
    return line + b"\n" + b"".join(b"\n" + escaped(name, True) + b":\n" for name in names)


def without_dots(name):
    while name.startswith(b"./"):
        name = name[2:].lstrip(b"/")
    return name


def is_read_by_make(name):
    """Whether kconf writes a rule with the name."""
    front = without_dots(name)
    return not any(byte in BEYOND for byte in name) and name[-1:] not in [LAST[at : at + 1] for at in range(3)] and front != b"" and front[:1] != b"~" and front[:2] != b"-l" and front not in SPECIAL_TARGETS


class Folder:
    """A folder with a makefile and files."""

    def __init__(self, path, rule):
        self.path = os.fsencode(path)
        # Where a target has to be built, this is what builds it.
        with open(os.path.join(self.path, b".rule"), "wb") as file:
            file.write(rule + b"\n%: ; @:\n")

    def touch(self, name, time):
        path = os.path.join(self.path, name)
        os.makedirs(os.path.dirname(path), exist_ok=True)
        with open(path, "ab"):
            pass
        os.utime(path, (time, time))

    def remove(self, name):
        os.unlink(os.path.join(self.path, name))

    def asks(self, goal):
        """0 if nothing is to be done for the goal, 1 if something is, else what make said."""
        words = [b"make", b"-r", b"-q", b"-f", b".rule"] + ([b"--", goal] if goal else [])
        ran = subprocess.run(words, cwd=self.path, stdin=subprocess.DEVNULL, capture_output=True, env={"PATH": os.environ["PATH"], "HOME": "/root"})
        return ran.returncode if ran.returncode < 2 and not ran.stderr else (ran.stdout + ran.stderr).decode(errors="replace")


def others(name):
    """Names that a pattern or a cut name would take in: not the name itself."""
    found = {name.replace(bytes([byte]), put) for byte in b"*?[]%~ \t\\=;|&" for put in (b"", b"X", b"XY")}
    return [other for other in found if other not in (name, b"", b"goal", b"other") and not other.endswith(b"/") and not os.path.isabs(other)]


def as_target(name, work):
    """None if make reads the name as a target; else what went wrong."""
    with tempfile.TemporaryDirectory(dir=work) as path:
        folder = Folder(path, rule_text(name, [b"other"]))
        # A name that make takes for a pattern, a variable or one of its own cannot be the goal that it finds by itself.
        is_goal = b"=" not in name and (b"%" in name or name.startswith(b"."))
        goal = name if is_goal else None
        folder.touch(b"other", OLD)
        folder.touch(name, MIDDLE)
        if (found := folder.asks(goal)) != 0:
            return f"target, newest: {found}"
        folder.touch(b"other", NEW)
        if (found := folder.asks(goal)) != 1:
            return f"target, older: {found}"
        folder.remove(name)
        if (found := folder.asks(goal)) != 1:
            return f"target, removed: {found}"
    return None


def as_prerequisite(name, names, work):
    """None if make reads the name among these prerequisites of a goal; else what went wrong."""
    with tempfile.TemporaryDirectory(dir=work) as path:
        folder = Folder(path, rule_text(b"goal", names))
        for each in names:
            folder.touch(each, OLD)
        folder.touch(b"goal", MIDDLE)
        for other in others(name):
            if other not in names:
                try:
                    folder.touch(other, NEW)
                except OSError:
                    pass
        if (found := folder.asks(b"goal")) != 0:
            return f"{names}, newest: {found}"
        for each in {name, names[-1]}:
            folder.touch(each, NEW)
            if (found := folder.asks(b"goal")) != 1:
                return f"{names}, {each} touched: {found}"
            folder.touch(each, OLD)
        for each in {name, names[-1]}:
            folder.remove(each)
            if (found := folder.asks(b"goal")) != 1:
                return f"{names}, {each} removed: {found}"
            folder.touch(each, OLD)
    return None


def misread(name, work):
    """None if make reads the name at each position; else what went wrong."""
    lists = [[name] if b"/" in name else [b"./Kconfig", name], [b"zp/ar(en", name, b"zz"]]
    wrong = as_target(name, work)
    for names in lists:
        wrong = wrong or as_prerequisite(name, names, work)
    return wrong


def unlike(name, work, kconf):
    """None if the program writes the rule with the name, or refuses it; else what it did."""
    try:
        name.decode()
    except UnicodeDecodeError:
        return None
    line = b"" if is_read_by_make(name) else b"error E23: make cannot read the name " + name.split(b"\n")[0] + b"\n"
    for options, fragments, rule in (([b"--config", b"goal"], [name], rule_text(b"goal", [b"./Kconfig", name])), ([b"--config=" + name], [], rule_text(name, [b"./Kconfig"]))):
        with tempfile.TemporaryDirectory(dir=work) as path:
            folder = Folder(path, b"")
            folder.touch(b"Kconfig", OLD)
            folder.touch(name, OLD)
            ran = subprocess.run([kconf, b"--depfile", b"rule", *options, b"--", b"Kconfig", *fragments], cwd=path, stdin=subprocess.DEVNULL, capture_output=True)
            written = os.path.join(path, "rule")
            found = (ran.returncode, ran.stderr, open(written, "rb").read() if os.path.exists(written) else None)
        if found != ((1, line, None) if line else (0, b"", rule)):
            return f"{options} {fragments}: {found}"
    return None


def names_to_try():
    """The names, each once."""
    found = collections.OrderedDict()

    def add(name):
        parts = name.split(b"/")
        if name and b"\0" not in name and parts[-1] not in (b"", b".", b"..") and name not in (b"goal", b"other", b"zp/ar(en", b"zz", b".rule", b"./Kconfig") and name[:1] != b"/":
            found[name] = True

    meaningful = [bytes([byte]) for byte in b"\\$#: \t%|&;=*?[]~()@!+-.,'\"<>^{}`"]
    for byte in range(1, 256):
        it = bytes([byte])
        for name in (it, it + b"a", b"a" + it + b"b", b"a" + it, it + it, it + it + b"a", b"a" + it + it, b"a" + it + it + b"b", b"./" + it + b"a", b"d/" + it + b"a", b"d" + it + b"/a", it + b"/a"):
            add(name)
    for first in meaningful:
        for second in meaningful:
            for name in (first + second, b"a" + first + second + b"b", first + b"a" + second):
                add(name)
        for slashes in (b"\\\\", b"\\\\\\"):
            for name in (slashes + first + b"a", b"a" + slashes + first + b"b", b"a" + slashes + first, b"a" + first + slashes):
                add(name)
    for word in WORDS + SPECIAL_TARGETS + [b".c", b".c.o", b".sh", b".DEFAULT_GOAL", b".VARIABLES", b".NOEXPORT", b".MAKE", b".LIBPATTERNS", b"-lc", b"-lnosuch", b"%.o", b"lib(a.o)", b"~", b"~root", b"~nosuch", b"$(X)", b"$X", b"${X}"]:
        for name in (word, b"./" + word, b".//" + word, b"././" + word, b"d/" + word, word + b" x", b"x " + word, word + b"x", word + b"/a"):
            add(name)
    return list(found)


def main():
    names = names_to_try()
    programs = [os.path.abspath(word) for word in sys.argv[1:] if word != "--all"]
    with tempfile.TemporaryDirectory(prefix="make_names.") as work:
        with concurrent.futures.ThreadPoolExecutor(2 * os.cpu_count()) as pool:
            wrong = dict(zip(names, pool.map(lambda name: misread(name, work), names)))
            other = [it for kconf in programs for it in pool.map(lambda name: unlike(name, work, kconf), names) if it]
    accepted = [name for name in names if is_read_by_make(name)]
    refused = [name for name in names if not is_read_by_make(name)]
    failed = [name for name in accepted if wrong[name]]
    read = [name for name in refused if not wrong[name]]
    for name in failed:
        print(f"make_names: make misreads {name!r}: {wrong[name]}", file=sys.stderr)
    for it in other:
        print(f"make_names: the program did otherwise: {it}", file=sys.stderr)
    if "--all" in sys.argv:
        for name in read:
            print(f"refused, but read in this trial: {name!r}")
    version = subprocess.run(["make", "--version"], capture_output=True, text=True).stdout.split("\n")[0]
    print(f"{version}: {len(names)} names, {len(accepted)} accepted of which {len(failed)} are misread, {len(refused)} refused of which {len(refused) - len(read)} are misread")
    return 1 if failed or other else 0


if __name__ == "__main__":
    sys.exit(main())
