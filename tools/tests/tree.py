#!/usr/bin/python3
"""The tests of kconf-tree: make flatten-test.

Each test makes a small tree with a Makefile and runs kconf-tree in it, with a cache of its own. A
make and a kconf-flatten that count their runs show what was run. KCONF names another kconf than
crates/kconf/out/kconf, KCONF_TREE another kconf-tree than that of this repository. The tests that
need root (another user, a full disk, name spaces of processes) are left out where they cannot be run.
"""

import os
import pwd
import shutil
import signal
import subprocess
import sys
import time

sys.dont_write_bytecode = True

import compare  # noqa: E402

TREE = os.path.abspath(
    os.environ.get("KCONF_TREE", os.path.join(compare.REPOSITORY, "tools", "kconf-tree")))
HELP = subprocess.run([compare.KCONF, "--help"], text=True, capture_output=True, check=False).stdout
IS_ROOT = os.geteuid() == 0
COUNTING = '#!/bin/sh\necho run >> "{log}"\n{more}\nexec "{program}" "$@"\n'
# In the layout of the kernel: O= leads to a second make in the folder of the build.
MAKEFILE = """
ifneq ($(O),)
ifndef IS_SECOND
$(MAKECMDGOALS): second ; @:
second: ; @mkdir -p $(O) && $(MAKE) -C $(O) -f $(CURDIR)/Makefile IS_SECOND=1 srctree=$(CURDIR) $(MAKECMDGOALS)
endif
endif
-include settings.mk
srctree ?= .
ARCH ?= x86
CC = $(CROSS_COMPILE)cc
ifeq ($(LLVM),1)
CC = clang
endif
CC_VERSION_TEXT = $(shell $(CC) --version 2>/dev/null | head -n 1)
PAHOLE = pahole
BOARD ?= small
export srctree ARCH CC CC_VERSION_TEXT PAHOLE BOARD
"""
FILES = {
    "Makefile": MAKEFILE,
    "Kconfig": """mainmenu "Tree of $(BOARD)"
config CC
	string
	default "$(CC) $(ARCH): $(CC_VERSION_TEXT)"
config PAHOLE
	int
	default $(shell,$(srctree)/scripts/pahole-version.sh $(PAHOLE))
config NOTE
	string
	default "$(shell,cat $(srctree)/note 2>/dev/null || echo none)"
config A
	bool "a"
	default y if "$(BOARD)" = "small"
source "deep/Kconfig"
source "parts/*/Kconfig"
""",
    "deep/Kconfig": """source "deep/er/Kconfig"
""",
    "deep/er/Kconfig": """
choice
	prompt "c"
config MEMBER
	bool "member"
endchoice
config B
	bool "b"
	depends on A
config SELECTS
	def_bool y
	select MEMBER
config N
	int "n"
	range 1 9
	default 3
""",
    "parts/one/Kconfig": """config ONE
	string "one"
	default "1"
""",
}
SCRIPTS = {
    "scripts/pahole-version.sh": '#!/bin/sh\ncommand -v "$1" >/dev/null || { echo 0; exit; }\n. ${0%/*}/number.sh\nnumber "$1"\n',
    "scripts/number.sh": "#!/bin/sh\nnumber() { $1 --version | tr -d 'v.'; }\n",
}
RAW = {
    "Kconfig": """config S
	string "s"
	default "a$b"
config T
	string "t"
config D
	string "d"
	depends on S != "a$b"
	default "d"
""",
    "scripts/kconfig/confdata.c": """
	case S_STRING:
		if (*p++ != '"')
			break;
		p[strlen(p) - 1] = 0;
	case S_INT:
""",
    "scripts/kconfig/Makefile": """
%_defconfig: $(obj)/conf
	$(Q)$(CPP) -nostdinc -P -I $(srctree) -undef -x assembler-with-cpp configs/$@ -o generated
""",
    "base.config": 'CONFIG_T="\\n\\"\n',
    "board_defconfig": '#include <base.config>\n\nCONFIG_NONE=y\n',
}
# The tree's own conf counts an int without a value as 0, and a choice with a hidden prompt selects.
NEW = {
    "Kconfig": """config LIMIT
	int
	default 7 if NONE
config IS_ZERO
	def_bool LIMIT = 0
config N
	int "n"
	range LIMIT 9
	default 0
choice
	prompt "c" if NONE
config MEMBER
	bool "member"
endchoice
""",
    "scripts/kconfig/confdata.c": "",
    "scripts/kconfig/symbol.c": 'newval.val = "0";\nstatic void sym_calc_choice(struct menu *choice)\n',
}


class Place:
    """A tree in a folder of its own, with its cache, its programs and counts of runs."""

    def __init__(self, folder, files=None, more=""):
        self.folder, self.tree, self.programs = folder, os.path.join(folder, "tree"), os.path.join(folder, "bin")
        self.cache = os.path.join(folder, "cache", "kconf-tree")
        os.makedirs(self.programs)
        os.chmod(folder, 0o755)
        compare.write_files(self.tree, FILES if files is None else files)
        for name, text in SCRIPTS.items() if files is None else ():
            self.script(self.path(name), text)
        self.counting("flatten", compare.FLATTEN, more)
        self.counting("make", shutil.which("make"))
        # A compiler that is no script, so that make may be left out.
        self.compiler("cc", "echo")
        self.environment = {"PATH": f"{self.programs}:/usr/bin:/bin", "KCONF": compare.KCONF, "HOME": folder, "LC_ALL": "C",
                            "KCONF_FLATTEN": os.path.join(self.programs, "flatten"), "XDG_CACHE_HOME": os.path.join(folder, "cache")}

    def counting(self, name, program, more=""):
        """Writes a program that counts its runs."""
        log = os.path.join(self.folder, f"{name}.log")
        self.script(os.path.join(self.programs, name), COUNTING.format(log=log, program=program, more=more))
        compare.write_files(self.folder, {f"{name}.log": ""})
        os.chmod(log, 0o666)

    def script(self, path, text):
        """Writes a program."""
        compare.write_files(os.path.dirname(path), {os.path.basename(path): text})
        os.chmod(path, 0o755)

    def compiler(self, name, program):
        """Puts a program in the place of a compiler."""
        made = os.path.join(self.programs, name)
        if os.path.exists(made):
            os.unlink(made)
        shutil.copyfile(f"/usr/bin/{program}", made)
        os.chmod(made, 0o755)

    def pahole(self, version):
        """Installs a version of pahole."""
        self.script(os.path.join(self.programs, "pahole"), f"#!/bin/sh\necho v{version}\n")

    def path(self, name):
        """The path of a file in the tree."""
        return os.path.join(self.tree, name)

    def text(self, name):
        """The text of a file in the tree."""
        with open(self.path(name), encoding="utf-8") as file:
            return file.read()

    def run(self, *words, folder=None, user=None, **environment):
        """Runs kconf-tree in the tree."""
        return subprocess.run([TREE, *words], cwd=folder or self.tree, env={**self.environment, **environment}, user=user,
                              stdin=subprocess.DEVNULL, text=True, capture_output=True, check=False)

    def shell(self, command):
        """Runs a command of the shell in the tree; "$0" is kconf-tree."""
        return subprocess.run(["sh", "-c", command, TREE], cwd=self.tree, env=self.environment, stdin=subprocess.DEVNULL,
                              text=True, capture_output=True, check=False)

    def values(self, *words, **environment):
        """The values that a run from no .config gives; what it reports if it fails."""
        ran = self.run(*(words or ("Kconfig",)), "--config", "none", "--out", os.path.join(self.folder, "o"), **environment)
        if ran.returncode:
            return ran.stderr
        return compare.lines_of(self.text(os.path.join(self.folder, "o")))

    def flattens(self, *words, **environment):
        """Whether a run that has to succeed flattens the tree; the text of what is wrong if it fails."""
        before = self.count("flatten")
        ran = self.run(*(words or ("Kconfig",)), **environment)
        return self.count("flatten") > before if ran.returncode == 0 else ran.stderr

    def makes(self, *words, **environment):
        """How often a run runs make."""
        before = self.count("make")
        self.run(*(words or ("Kconfig",)), **environment)
        return self.count("make") - before

    def count(self, name):
        """How often a program was run."""
        with open(os.path.join(self.folder, f"{name}.log"), encoding="utf-8") as file:
            return len(file.readlines())


def settle():
    """Waits until a file that was written counts as old."""
    time.sleep(0.06)


def expect(faults, what, found, wanted):
    """Adds a fault if something is not what it has to be."""
    if found != wanted:
        faults.append(f"{what}: {found!r} and not {wanted!r}")


def test_cache(folder):
    """What causes flattening, and what does not."""
    faults, place = [], Place(folder)
    settle()
    expect(faults, "first run", place.flattens(), True)
    expect(faults, "second run", place.flattens(), False)
    compare.write_files(place.tree, {".config": "CONFIG_B=y\n", "site.config": "CONFIG_A=y\n",
                                     "deep/main.c": "int main;\n", "parts/README": "parts\n"})
    expect(faults, "other files", place.flattens("Kconfig", "site.config"), False)
    expect(faults, "outputs", place.flattens("Kconfig", "--header", "h", "--savedefconfig", "m"), False)
    expect(faults, "the terminal", place.flattens(TERM="x", COLUMNS="9", SSH_TTY="/dev/pts/9"), False)
    expect(faults, "the time of the build", place.flattens(SOURCE_DATE_EPOCH="7"), False)
    expect(faults, "another variable", place.flattens(OTHER="x"), True)
    expect(faults, "the first environment again", place.flattens(), False)
    compare.write_files(place.tree, {"deep/er/Kconfig": FILES["deep/er/Kconfig"].replace("3", "4")})
    settle()
    expect(faults, "its value", place.values()["N"], "4")
    expect(faults, "after it", place.flattens(), False)
    expect(faults, "a changed variable", place.flattens("BOARD=large", "Kconfig"), True)
    expect(faults, "after it", place.flattens("BOARD=large", "Kconfig"), False)
    for what, files in (("a new file of a pattern", {"parts/two/Kconfig": 'config TWO\n\tbool "two"\n'}),
                        ("a file that was missing", {"note": "here"}),
                        ("a script that is read by a script", {"scripts/number.sh": SCRIPTS["scripts/number.sh"] + "#\n"})):
        compare.write_files(place.tree, files)
        settle()
        expect(faults, what, place.flattens(), True)
        expect(faults, "after it", place.flattens(), False)
    os.utime(place.path("Kconfig"))
    settle()
    expect(faults, "a touched file", place.flattens(), True)
    expect(faults, "another option", place.flattens("--missing-ok", "x", "Kconfig"), True)
    expect(faults, "--refresh", place.flattens("--refresh", "Kconfig"), True)
    os.rename(place.path("note"), place.path("note.old"))
    expect(faults, "a file that is gone", place.values()["NOTE"], '"none"')
    return faults


def test_programs(folder):
    """A program that comes or is upgraded makes the tree be read again, once."""
    faults, place = [], Place(folder)
    settle()
    expect(faults, "no pahole", place.values()["PAHOLE"], "0")
    for version, value in (("1.24", "124"), ("1.25", "125")):
        place.pahole(version)
        settle()
        expect(faults, f"pahole {version}", place.values()["PAHOLE"], value)
        expect(faults, "after it", place.flattens(), False)
    os.unlink(os.path.join(place.programs, "pahole"))
    expect(faults, "pahole is gone", place.values()["PAHOLE"], "0")
    place.compiler("cc", "true")
    settle()
    expect(faults, "another compiler", place.values()["CC"].split(" ")[2], "true")
    return faults


def test_environment(folder):
    """The environment is that which the tree's make gives."""
    faults, place = [], Place(folder)
    place.compiler("a-cc", "echo")
    place.script(os.path.join(place.programs, "clang"), "#!/bin/sh\necho clang 14\n")
    for words, wanted in ((["ARCH=arm64", "CROSS_COMPILE=a-"], "a-cc arm64: echo"), (["LLVM=1"], "clang x86: clang 14"),
                          (["O=../build", "LLVM=1"], "clang x86: clang 14")):
        found = place.values(*words, "Kconfig")
        expect(faults, " ".join(words), found["CC"][1:].startswith(wanted) if isinstance(found, dict) else found, True)
    expect(faults, "a variable of the caller", place.values(ARCH="mips")["CC"].split(" ")[1], "mips:")
    expect(faults, "a make around", place.values(MAKEFLAGS="B -- ARCH=mips", MAKELEVEL="1")["CC"].split(" ")[1], "x86:")
    ran = place.run("-C", "tree", "O=../build", "Kconfig", folder=folder)
    expect(faults, "O=", (ran.returncode, os.path.exists(os.path.join(folder, "build", ".config"))), (0, True))
    ran = place.run("-C", "tree", "Kconfig", "--out", "made", folder=folder)
    expect(faults, "another folder", (ran.returncode, os.path.exists(os.path.join(folder, "made"))), (0, True))
    expect(faults, "its locations", ran.stderr.splitlines()[0][:17], "deep/er/Kconfig:1")
    compare.write_files(place.tree, {"Makefile": "$(error broken)\n"})
    ran = place.run("Kconfig")
    expect(faults, "a broken Makefile", (ran.returncode, "broken" in ran.stderr), (1, True))
    os.unlink(place.path("Makefile"))
    expect(faults, "no Makefile", place.values("CC=x", "ARCH=y", "CC_VERSION_TEXT=z", "PAHOLE=p", "Kconfig")["CC"], '"x y: z"')
    return faults


def test_make(folder):
    """make is left out if nothing changed that it read, unless a program may answer anew each time."""
    faults, place = [], Place(folder)
    settle()
    expect(faults, "the first run", place.makes(), 2)
    expect(faults, "the second run", place.makes(), 0)
    expect(faults, "--refresh", place.makes("--refresh", "Kconfig"), 2)
    for what, files in (("the Makefile", {"Makefile": MAKEFILE + "#\n"}), ("a file that it may include", {"settings.mk": "BOARD = large\n"})):
        compare.write_files(place.tree, files)
        settle()
        expect(faults, what, place.makes(), 2)
        expect(faults, "after it", place.makes(), 0)
    expect(faults, "the variable that it sets", "# Tree of large" in place.text(".config"), True)
    place.compiler("cc", "true")
    settle()
    expect(faults, "another compiler", (place.makes(), place.makes()), (2, 0))
    place.script(os.path.join(place.programs, "cc"), "#!/bin/sh\necho a shim\n")
    settle()
    expect(faults, "a compiler that is a script", (place.makes(), place.makes(), place.makes()), (2, 1, 1))
    compare.write_files(place.tree, {"Makefile": MAKEFILE + "DAY := $(shell date)\n"})
    place.compiler("cc", "echo")
    settle()
    expect(faults, "a program with other answers", (place.makes(), place.makes()), (2, 1))
    ran = place.run("--verbose", "Kconfig")
    expect(faults, "--verbose", "kconf-tree: make is run: date may give another answer each time" in ran.stderr.splitlines(), True)
    return faults


def test_locations(folder):
    """Diagnostics have the tree's locations; those of the input files stay."""
    faults, place = [], Place(folder)
    compare.write_files(place.tree, {"a.config": "CONFIG_X=y\n", "b.config": "\nwrong\n"})
    ran = place.run("Kconfig", "--config", "a.config", "--out", "out", "b.config")
    expect(faults, "status", ran.returncode, 0)
    expect(faults, "diagnostics", [line for line in ran.stderr.splitlines() if line[0] != " "], [
        "deep/er/Kconfig:12: warning K6: MEMBER is a choice member, the select has no effect",
        "a.config:1: warning K7: unknown symbol X",
        "b.config:2: warning K9: malformed line"])
    ran = place.run("Kconfig", "--explain", "N")
    expect(faults, "an explanation", "deep/er/Kconfig:13" in ran.stdout, True)
    return faults


def test_status(folder):
    """The exit status is that of kconf; a tree that cannot be flattened is refused with 1."""
    faults, place = [], Place(folder)
    expect(faults, "no error", place.run("Kconfig").returncode, 0)
    expect(faults, "a fragment that is not there", place.run("Kconfig", "none").returncode, 3)
    ran = place.run("Kconfig", "--unknown")
    expect(faults, "an option of kconf that does not exist", (ran.returncode, "--unknown" in ran.stderr), (2, True))
    ran = place.run("--replace", "Kconfig")
    expect(faults, "an option of kconf before KCONFIG", (ran.returncode, "--replace" in ran.stderr), (2, True))
    ran = place.run("--refesh", "Kconfig")
    expect(faults, "a misspelt option", (ran.returncode, "did you mean --refresh?" in ran.stderr), (2, True))
    expect(faults, "no KCONFIG", place.run("--refresh").returncode, 2)
    expect(faults, "no value", place.run("--missing-ok").returncode, 2)
    expect(faults, "no tree", place.run("-C", "none", "Kconfig").returncode, 3)
    expect(faults, "the version", place.run("--version").stdout.split()[0], "kconf")
    expect(faults, "the version without kconf", place.run("--version", KCONF="/none").returncode, 3)
    for kconf, beginning in ((compare.KCONF, "The options of kconf:\n"), ("/none", "kconf --help ")):
        ran = place.run("--help", KCONF=kconf)
        expect(faults, f"the status of the help with {kconf}", ran.returncode, 0)
        expect(faults, "its usage", ran.stdout.startswith("usage: kconf-tree "), True)
        expect(faults, "its last part", "\n" + beginning in ran.stdout, True)
    ran = place.run("Kconfig", TMPDIR="/nonexistent")
    expect(faults, "no folder for temporary files", (ran.returncode, "cannot make files in /nonexistent" in ran.stderr), (1, True))
    for text, place_of in (('config L\n\tbool "l" if !L\n', "Dependency loop"), ("config\n", "deep/er/Kconfig:1")):
        compare.write_files(place.tree, {"deep/er/Kconfig": text})
        ran = place.run("Kconfig")
        expect(faults, "a refused tree", (ran.returncode, place_of in ran.stderr), (1, True))
    os.unlink(place.path("deep/er/Kconfig"))
    expect(faults, "a file that is not there", place.run("Kconfig").returncode, 1)
    os.mkdir(place.path("deep/er/Kconfig"))
    expect(faults, "a file that cannot be read", place.run("Kconfig").returncode, 3)
    ran = place.run("Kconfig", KCONF_FLATTEN="/none")
    expect(faults, "no kconf-flatten", (ran.returncode, ran.stderr), (3, "kconf-tree: error: there is no program /none\n"))
    return faults


def test_failures(folder):
    """Commands that fail are counted in each run, and what macros report is repeated."""
    faults, place = [], Place(folder)
    compare.write_files(place.tree, {"Kconfig": 'X := $(shell,no-such-program)\nY := $(shell,echo no >&2)\n$(warning-if,y,take care)\n'
                                                'config A\n\tbool "$(X)$(Y)"\n'})
    for run in ("cold", "warm"):
        settle()
        ran = place.run("Kconfig")
        expect(faults, run, ran.stderr.splitlines(), [
            "Kconfig:3: take care", "kconf-tree: macros ran 2 commands that failed or wrote to standard error; --verbose lists them"])
    lines = place.run("--verbose", "Kconfig").stderr.splitlines()
    expect(faults, "--verbose", [line for line in lines if line.startswith("kconf-tree: Kconfig:")],
           ["kconf-tree: Kconfig:1: no-such-program: /bin/sh: 1: no-such-program: not found", "kconf-tree: Kconfig:2: echo no >&2: no"])
    return faults


def test_depfile(folder):
    """The dependency file names the files of the tree, the .config and the fragments."""
    faults, place = [], Place(folder)
    compare.write_files(place.tree, {"s #1.config": "CONFIG_A=y\n"})
    place.run("Kconfig", "--depfile", "d", "--out", "o", "s #1.config")
    names = ["./Kconfig", "./deep/Kconfig", "./deep/er/Kconfig", "./parts/one/Kconfig", ".config", r"s\ \#1.config"]
    wanted = " \\\n ".join(["o:", *names]) + "\n" + "".join(f"\n{name}:\n" for name in names)
    expect(faults, "text", place.text("d"), wanted)
    ran = place.run("Kconfig", "--depfile", "d", "--out", "a=b")
    expect(faults, "a name that make cannot read", (ran.returncode, os.path.exists(place.path("a=b"))), (1, False))
    flat = os.path.join(folder, "flat")
    ran = compare.flatten(place.tree, flat, ("--quiet", "--depfile", "/dev/null"), {"PAHOLE": "pahole"})
    expect(faults, "kconf-flatten", ran.returncode, 0)
    return faults


def test_strings(folder):
    r"""A tree whose own conf keeps each \, and a $ in quotes."""
    faults, place = [], Place(folder, RAW)
    ran = place.run("Kconfig", "--config", "base.config", "--out", "o", "--header", "h", "--savedefconfig", "m")
    expect(faults, "run", (ran.returncode, ran.stderr), (0, ""))
    expect(faults, "lines", compare.lines_of(place.text("o")), {"S": '"a$b"', "T": '"\\n\\"'})
    expect(faults, "header", '#define CONFIG_T "\\n\\"' in place.text("h").splitlines(), True)
    expect(faults, "minimal file", place.text("m"), 'CONFIG_T="\\n\\"\n')
    place.run("Kconfig", "--config", "o", "--out", "again")
    expect(faults, "read again", place.text("again"), place.text("o"))
    compare.write_files(place.tree, {"site.config": 'CONFIG_D="a\\b"\n'})
    ran = place.run("Kconfig", "--warn-lost", "--config", "base.config", "--out", "o", "site.config")
    expect(faults, "a lost value", [line for line in ran.stderr.splitlines() if "K14" in line][0].split("D ")[1][:16], 'was given "a\\b" ')
    return faults


def test_includes(folder):
    """#include lines of a tree whose make runs cpp over its defconfigs."""
    faults, place = [], Place(folder, RAW)
    if "--include" not in HELP:
        return []
    words = ["Kconfig", "--config", "board_defconfig", "--out", "o"]
    ran = place.run(*words)
    expect(faults, "run", (ran.returncode, ran.stderr.splitlines()[:1]), (0, ["board_defconfig:3: warning K7: unknown symbol NONE"]))
    expect(faults, "lines", compare.lines_of(place.text("o")), {"S": '"a$b"', "T": '"\\n\\"'})
    os.unlink(place.path("base.config"))
    expect(faults, "a file that is not there", place.run(*words).returncode in (1, 3), True)
    return faults


def test_dialect(folder):
    """A tree whose own conf counts an int without a value as 0, and selects in a choice with a hidden prompt."""
    faults, place = [], Place(folder, NEW)
    expect(faults, "values", place.values(), {"IS_ZERO": "y", "N": "0", "MEMBER": "y"})
    ran = place.run("--verbose", "Kconfig")
    expect(faults, "--verbose", "kconf-tree: the dialect of the tree's own conf: an int without a value counts as 0, "
           "choices as in Linux 6.11 and later" in ran.stderr.splitlines(), True)
    return faults


def test_kconf(folder):
    """--replace, --check, --each, fragments and standard streams are those of kconf."""
    faults, place = [], Place(folder)
    compare.write_files(place.tree, {"a": "CONFIG_N=4\n", "b": "CONFIG_N=5\n"})
    words = ["Kconfig", "--config", "none", "--out", "o"]
    expect(faults, "--check before", place.run(*words, "--check").returncode, 1)
    place.run(*words, "--replace")
    before = os.stat(place.path("o")).st_mtime_ns
    expect(faults, "--replace", (place.run(*words, "--replace").returncode, os.stat(place.path("o")).st_mtime_ns), (0, before))
    expect(faults, "--check after", place.run(*words, "--check").returncode, 0)
    place.run(*words, "--fragment", "b", "a")
    expect(faults, "--fragment", compare.lines_of(place.text("o"))["N"], "5")
    ran = place.run("Kconfig", "--each", "--out", "{}.full", "a", "b")
    expect(faults, "--each", [ran.returncode, *(compare.lines_of(place.text(f"{name}.full"))["N"] for name in "ab")], [0, "4", "5"])
    place.shell('echo before > log; "$0" Kconfig --config none --savedefconfig m --out /dev/stdout >> log')
    expect(faults, ">>", (place.text("log").startswith("before\n"), "CONFIG_N=3\n" in place.text("log")), (True, True))
    ran = place.shell('echo CONFIG_N=6 | "$0" Kconfig --config /dev/stdin --out /dev/stdout')
    expect(faults, "standard input", "CONFIG_N=6\n" in ran.stdout, True)
    return faults


def test_closed(folder):
    """Closed standard streams: the status is that of kconf alone, and no file is taken for another."""
    faults, place = [], Place(folder)
    place.run("Kconfig", "--config", "none", "--out", "o")
    for run in ("warm", "cold"):
        for closed, status in (("0<&-", 0), ("1>&-", 0), ("0<&- 1>&-", 0), ("2>&-", 3), ("0<&- 1>&- 2>&-", 3)):
            refresh = "--refresh" if run == "cold" else ""
            ran = place.shell(f'"$0" {refresh} Kconfig --config none --out p {closed}')
            expect(faults, f"{run} {closed}", ran.returncode, status)
            if status == 0:
                expect(faults, f"{run} {closed}: the file", place.text("p"), place.text("o"))
    return faults


def test_empty(folder):
    """A flat file that is empty or cut is refused."""
    faults, place = [], Place(folder)
    for text in ("exit 0", ': > /dev/fd/9; echo end > /dev/fd/8; exit 0', "echo '# kconf-flatten plain' > /dev/fd/9; exit 0"):
        place.counting("flatten", compare.FLATTEN, text)
        ran = place.run("Kconfig", "--config", "none", "--out", "o")
        expect(faults, text, (ran.returncode, "whole" in ran.stderr, os.path.exists(place.path("o"))), (3, True, False))
    return faults


def test_at_once(folder):
    """Runs at once share the cache: one flattens, and nothing else is left behind."""
    faults, place = [], Place(folder)
    settle()
    for how in ([], ["unshare", "--pid", "--fork"]):
        if how and subprocess.run([*how, "true"], capture_output=True, check=False).returncode:
            continue
        shutil.rmtree(place.cache, ignore_errors=True)
        before = place.count("flatten")
        runs = [subprocess.Popen([*how, TREE, "Kconfig", "--config", "none", "--out", f"o{number}"], cwd=place.tree,
                                 env=place.environment, stderr=subprocess.DEVNULL) for number in range(6)]
        expect(faults, "status", [run.wait() for run in runs], [0] * 6)
        expect(faults, "texts", len({place.text(f"o{number}") for number in range(6)}), 1)
        expect(faults, "flattenings", place.count("flatten") - before, 1)
        expect(faults, "cache", sorted(name.partition(".")[2] for name in os.listdir(place.cache)), ["flat", "lock", "make", "record"])
    # Two architectures at once in two name spaces of processes: each gets its own values.
    runs = [subprocess.Popen([*how, TREE, f"ARCH={name}", "Kconfig", "--config", "none", "--out", f"o-{name}"], cwd=place.tree,
                             env=place.environment, stderr=subprocess.DEVNULL) for name in ("arm", "mips")]
    expect(faults, "status", [run.wait() for run in runs], [0] * 2)
    expect(faults, "values", [compare.lines_of(place.text(f"o-{name}"))["CC"].split(" ")[1] for name in ("arm", "mips")], ["arm:", "mips:"])
    return faults


def test_killed(folder):
    """A run that is killed while it flattens leaves nothing that the next one takes."""
    faults, place = [], Place(folder, more="[ -e ../quick ] || sleep 9")
    settle()
    run = subprocess.Popen([TREE, "Kconfig", "--config", "none", "--out", "o"], cwd=place.tree, env=place.environment,
                           stderr=subprocess.DEVNULL, start_new_session=True)
    while not place.count("flatten"):
        time.sleep(0.01)
    os.killpg(run.pid, signal.SIGKILL)
    run.wait()
    expect(faults, "cache", sorted(name.partition(".")[2] for name in os.listdir(place.cache)), ["lock", "make"])
    compare.write_files(folder, {"quick": ""})
    expect(faults, "the next run", (place.flattens(), place.flattens()), (True, False))
    return faults


def test_planted(folder):
    """Links, cut files and files of others in the cache are not taken, and not written through."""
    faults, place = [], Place(folder)
    settle()
    wanted = place.values()
    victim = os.path.join(folder, "victim")
    for ending in (".flat", ".record", ".make"):
        [name] = [name for name in os.listdir(place.cache) if name.endswith(ending)]
        path = os.path.join(place.cache, name)
        for what in ("a link", "a hard link", "a cut file", "a changed file", "a pipe"):
            compare.write_files(folder, {"victim": "config EVIL\n\tdef_bool y\n"})
            text = open(path, "rb").read()
            os.unlink(path)
            if what == "a link":
                os.symlink(victim, path)
            elif what == "a hard link":
                os.link(victim, path)
            elif what == "a pipe":
                os.mkfifo(path)
            else:
                with open(path, "wb") as file:
                    file.write(text[:-40] if what == "a cut file" else text.replace(b"bool", b"BOOL").replace(b"small", b"large"))
            expect(faults, f"{what} for {ending}", place.values(), wanted)
            expect(faults, "its target", open(victim, encoding="utf-8").read(), "config EVIL\n\tdef_bool y\n")
            expect(faults, "the file after it", os.path.isfile(path) and not os.path.islink(path) and os.stat(path).st_nlink, 1)
    shutil.rmtree(place.cache)
    os.symlink(os.path.join(folder, "elsewhere"), place.cache)
    os.mkdir(os.path.join(folder, "elsewhere"))
    expect(faults, "a link for the folder", (place.values(), os.listdir(os.path.join(folder, "elsewhere"))), (wanted, []))
    os.unlink(place.cache)
    os.mkdir(place.cache)
    os.chmod(place.cache, 0o777)
    expect(faults, "an open folder", (place.values(), os.stat(place.cache).st_mode & 0o777), (wanted, 0o700))
    if IS_ROOT:
        for name in os.listdir(place.cache):
            os.chown(os.path.join(place.cache, name), pwd.getpwnam("nobody").pw_uid, -1)
        expect(faults, "files of another user", (place.flattens(), place.flattens()), (True, False))
        os.chown(place.cache, pwd.getpwnam("nobody").pw_uid, -1)
        ran = place.run("Kconfig")
        expect(faults, "a folder of another user", "it belongs to another user" in ran.stderr, True)
    return faults


def test_read_only(folder):
    """A tree that the user cannot write: commands that need files there are refused, O= works."""
    if not IS_ROOT:
        return []
    faults, place = [], Place(folder)
    nobody, build = pwd.getpwnam("nobody").pw_uid, os.path.join(folder, "build")
    os.mkdir(build)
    os.chown(build, nobody, -1)
    words = ["Kconfig", "--config", "none", "--out", os.path.join(build, "o")]
    ran = place.run(*words, user=nobody, XDG_CACHE_HOME="/nonexistent")
    expect(faults, "in the tree", (ran.returncode, "commands cannot make files in" in ran.stderr, os.listdir(build)), (1, True, []))
    for count, home in ((True, "/nonexistent"), (True, build), (False, build)):
        before = place.count("flatten")
        ran = place.run(f"O={build}", *words, user=nobody, XDG_CACHE_HOME=home)
        expect(faults, f"O= with {home}", (ran.returncode, place.count("flatten") > before), (0, count))
        settle()
    return faults


def test_full_disk(folder):
    """A full disk: no cache is kept, and commands that cannot make files are refused."""
    faults, place = [], Place(folder)
    full = os.path.join(folder, "full")
    os.mkdir(full)
    mounted = 'mount -t tmpfs -o size=16k tmpfs "$1" && dd if=/dev/zero of="$1/filler" bs=4k count=4 2>/dev/null; shift; exec "$@"'
    inside = ["unshare", "--mount", "sh", "-c", mounted, "sh", full]
    if subprocess.run([*inside, "true"], capture_output=True, check=False).returncode:
        return []
    for name, status in (("XDG_CACHE_HOME", 0), ("TMPDIR", 1)):
        ran = subprocess.run([*inside, TREE, "Kconfig", "--config", "none", "--out", "o"], cwd=place.tree, text=True,
                             env={**place.environment, name: full}, capture_output=True, check=False)
        expect(faults, name, (ran.returncode, "No space left" in ran.stderr), (status, True))
    ran = subprocess.run([*inside, TREE, "Kconfig", "--config", "none", "--out", f"{full}/o"], cwd=place.tree, text=True,
                         env=place.environment, capture_output=True, check=False)
    expect(faults, "an output", ran.returncode, 3)
    return faults


TESTS = (test_cache, test_programs, test_environment, test_make, test_locations, test_status, test_failures, test_depfile,
         test_strings, test_includes, test_dialect, test_kconf, test_closed, test_empty, test_at_once, test_killed, test_planted,
         test_read_only, test_full_disk)


def main():
    """Runs all tests, or those that are named; the status is 1 if one fails."""
    if not os.access(compare.KCONF, os.X_OK):
        sys.exit(f"there is no {compare.KCONF}: make build makes it")
    failed, tests = 0, [test for test in TESTS if not sys.argv[1:] or test.__name__ in sys.argv[1:]]
    for test in tests:
        with compare.scratch() as folder:
            faults = test(folder)
        for fault in faults:
            print(f"  {test.__name__}: {fault}")
        failed += bool(faults)
    print(f"kconf-tree: {len(tests)} tests: {failed} failed")
    sys.exit(1 if failed else 0)


if __name__ == "__main__":
    main()
