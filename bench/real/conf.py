"""A tree's own configurator, built from its source, and what it makes of a .config."""

import os
import pathlib
import shutil
import subprocess

from debian import say

# How many runs of kconf, or of a tree's own tool, there may be at once.
AT_ONCE = int(os.environ.get("RUNS_AT_ONCE", "3"))
# The older of them take their seed from the clock alone.
SEED = """\
#include <stdlib.h>
#define srandom(clock) srandom(atoi(getenv("KCONFIG_SEED")))
"""


def environment(more):
    """What the commands of a tree find in their environment."""
    kept = {name: os.environ[name] for name in ("PATH", "HOME", "TMPDIR", "LD_LIBRARY_PATH", "BISON_PKGDATADIR", "M4", "PYTHONPATH") if name in os.environ}
    return {**kept, "LC_ALL": "C", **more}


def build(source, folder, flags=()):
    """Builds `conf` from its source: with the scanner and the parser that stand beside it, else by flex and bison."""
    program = folder / "conf"
    if program.exists():
        return program
    shutil.rmtree(folder, ignore_errors=True)
    shutil.copytree(source, folder, symlinks=True)
    for made in folder.glob("*_shipped"):
        made.rename(made.with_name(made.name.removesuffix("_shipped")))
    for scanner in folder.glob("*.l"):
        made = f"{scanner.stem}.lex.c"
        if not (folder / made).exists() and not (folder / f"lex.{scanner.stem}.c").exists():
            say(["flex", "-L", "-o", made, scanner.name], cwd=folder)
    for parser in folder.glob("*.y"):
        if not (folder / f"{parser.stem}.tab.c").exists():
            say(["bison", "-t", "-l", "--defines", "-b", parser.stem, parser.name], cwd=folder)
    (folder / "seed.h").write_text(SEED)
    more = [] if "KCONFIG_SEED" in (folder / "conf.c").read_text() else ["-include", "seed.h"]
    [parser] = folder.glob("*.tab.c")
    parts = ["conf.c", parser.name]
    if '#include "symbol.c"' not in parser.read_text():
        parts += ["confdata.c", "expr.c", "lexer.lex.c", "menu.c", "preprocess.c", "symbol.c", "util.c"]
    say(["gcc", "-O2", "-w", "-DKBUILD_NO_NLS", "-D_GNU_SOURCE", *flags, *more, "-I.", "-o", "conf", *parts], cwd=folder)
    return program


# How programs that know no long words are told the same; the oldest ask each question that is new.
SHORT = {"--olddefconfig": "-d", "--allyesconfig": "-y", "--allnoconfig": "-n", "--randconfig": "-r"}
ASKING = {**SHORT, "--olddefconfig": "-o"}


class Conf:
    """A tree's own `conf`: what it makes of a .config, and the .configs that it makes by itself."""

    def __init__(self, program, tree, kconfig, settings, words=None, place="KCONFIG_CONFIG"):
        self.program, self.tree, self.kconfig = program, tree, kconfig
        self.settings, self.words, self.place = settings, words or {}, place
        # The programs that know no long words list no new symbols.
        self.lists_new = not self.words

    def run(self, mode, config, more=None):
        """Runs one mode over a .config, in place; what it prints. Each question of the oldest programs is answered with its default."""
        mode = self.words.get(mode, mode)
        # Where there is an auto.conf, the kernel's conf writes none into the tree.
        auto = self.program.with_name("auto.conf")
        auto.touch()
        told = environment({**self.settings, "KCONFIG_AUTOCONFIG": str(auto), **(more or {})})
        folder = self.tree
        if self.place:
            told[self.place] = str(config)
        else:
            told["srctree"] = str(self.tree)
            folder = config.with_name(config.name + ".folder")
            folder.mkdir(exist_ok=True)
            if config.exists():
                shutil.copyfile(config, folder / ".config")
        answers = "\n" * 20000 if mode == "-o" else ""
        ran = subprocess.run([str(self.program), mode, self.kconfig], cwd=folder, env=told, input=answers, capture_output=True, text=True, errors="replace", check=False)
        if not self.place:
            shutil.copyfile(folder / ".config", config)
            shutil.rmtree(folder)
        if ran.returncode:
            raise RuntimeError(f"conf {mode}: status {ran.returncode}: {ran.stderr[-600:]}")
        return ran.stdout

    def completed(self, start, config):
        """Writes the full .config of a start."""
        shutil.copyfile(start, config)
        self.run("--olddefconfig", config)

    def minimal(self, config, made):
        """Writes the minimal file of a full .config; answers whether this tool writes one."""
        if self.words:
            return False
        made.unlink(missing_ok=True)
        self.run(f"--savedefconfig={made}", config)
        return made.exists()

    def made(self, mode, seed, config):
        """Writes the .config of allyesconfig, allnoconfig or randconfig."""
        config.unlink(missing_ok=True)
        self.run(mode, config, {"KCONFIG_SEED": str(seed)})


class Library:
    """kconfiglib where it is a tree's own tool, in the manner of Conf."""

    def __init__(self, source, tree, kconfig, settings):
        self.source, self.tree, self.kconfig, self.settings = source, tree, kconfig, settings
        self.lists_new = False

    def run(self, mode, seed, config):
        """Runs one mode over a .config, in place."""
        script = pathlib.Path(__file__).with_name("library.py")
        command = ["/usr/bin/python3", str(script), str(self.source), mode, str(seed), self.kconfig, str(config)]
        say(command, cwd=self.tree, env=environment({**self.settings, "PYTHONDONTWRITEBYTECODE": "1"}))

    def completed(self, start, config):
        """Writes the full .config of a start."""
        shutil.copyfile(start, config)
        self.run("olddefconfig", 0, config)

    def minimal(self, config, made):
        """Writes the minimal file of a full .config; answers whether this tool writes one."""
        shutil.copyfile(config, made)
        self.run("savedefconfig", 0, made)
        return True

    def made(self, mode, seed, config):
        """Writes the .config of allyesconfig, allnoconfig or randconfig."""
        self.run(mode.removeprefix("--"), seed, config)
