#!/usr/bin/env python3
"""Holds two programs beside each other on random trees: fuzz.py OLD NEW [COUNT] [SEED].

Each case is a tree of some symbols with menus, `if` blocks, choices, comments, sourced files, several definitions, all types, every
attribute, names that are not defined, and at times a loop; with a .config, and at times a fragment. Two cases of five are broken
after that: lines are dropped, doubled, exchanged or cut, or bytes are changed. Both programs run on the same files and write all
three outputs, and then explain all symbols. The first case in which a status, an output, or a line of what they tell differs is kept in a folder that is named,
and ends the run with status 1.
"""

import os
import pathlib
import random
import shutil
import subprocess
import sys
import tempfile

KINDS = ["bool", "bool", "bool", "tristate", "tristate", "string", "int", "hex"]
OUTPUTS = ["out.config", "out.h", "out.min"]


class Tree:
    """One random tree."""

    def __init__(self, pick):
        self.pick = pick
        self.count = pick.choice([1, 3, 6, 6, 12, 12, 25, 60])
        self.names = [f"S{i}" for i in range(self.count)]
        self.kinds = {name: pick.choice(KINDS) for name in self.names}
        if pick.random() < 0.3:
            self.names.append("MODULES")
            self.kinds["MODULES"] = pick.choice(["bool", "bool", "tristate"])
        # where names are asked for: mostly earlier ones, so that there is no loop
        self.loops = pick.random() < 0.3
        self.position = 0
        self.modules = False
        # names from this number on are not asked for, where there is to be no loop
        self.limit = None
        self.members = set()
        self.strict = pick.random() < 0.85
        self.files = {}
        self.waiting = list(self.names)

    def name(self):
        """A name that may be asked for."""
        if self.pick.random() < 0.06:
            return f"U{self.pick.randrange(4)}"
        if self.loops and self.pick.random() < 0.25:
            return self.pick.choice(self.names)
        earlier = self.names[: self.position if self.limit is None else min(self.limit, self.position)]
        return self.pick.choice(earlier) if earlier else self.pick.choice("ynm")

    def later(self):
        """A name that may be selected."""
        if self.pick.random() < 0.1:
            return f"U{self.pick.randrange(4)}"
        if self.loops and self.pick.random() < 0.3:
            return self.pick.choice(self.names)
        after = [it for it in self.names[(self.position if self.limit is None else self.limit) + 1 :] if it not in self.members]
        return self.pick.choice(after) if after else "U0"

    def constant(self):
        return self.pick.choice(["y", "n", "m", '"y"', "'m'", '"text"', "3", "0x10", '"a b"', '""', "-2"])

    def expression(self, depth=0):
        """An expression."""
        form = self.pick.random()
        if depth > 2 or form < 0.5:
            return self.name() if self.pick.random() < 0.85 else self.constant()
        if form < 0.6:
            return "!" + (self.name() if self.pick.random() < 0.6 else f"({self.expression(depth + 1)})")
        if form < 0.72:
            op = self.pick.choice(["=", "!=", "<", "<=", ">", ">="])
            return f"{self.name()} {op} {self.name() if self.pick.random() < 0.4 else self.constant()}"
        op = self.pick.choice([" && ", " || "])
        parts = [self.expression(depth + 1) for _ in range(self.pick.choice([2, 2, 3]))]
        text = op.join(f"({it})" if " " in it else it for it in parts)
        return text

    def when(self, chance=0.4):
        return f" if {self.expression()}" if self.pick.random() < chance else ""

    def prompt(self):
        return self.pick.choice(['"a prompt"', '"p"', "'single'"])

    def value(self, kind):
        if kind in ("bool", "tristate"):
            return self.pick.choice(["y", "n", "m", self.name(), self.expression()])
        if kind == "string":
            return self.pick.choice(['"text"', '"a \\"b\\" c"', '""', self.name()] + ([self.expression()] if not self.strict and self.pick.random() < 0.2 else []))
        if kind == "int":
            return self.pick.choice(["5", "0", "-7", "100", self.name()] + ([self.expression()] if not self.strict and self.pick.random() < 0.2 else []))
        return self.pick.choice(["0x5", "0xff", "0", "20", self.name()])

    def attributes(self, name, member=False, again=False):
        """The attributes of a config."""
        if member and (self.strict or self.pick.random() < 0.9):
            self.kinds[name] = "bool"
        kind = self.kinds[name]
        pick, lines = self.pick, []
        form = pick.random()
        if again and (self.strict or form < 0.5):
            if form < 0.4:
                lines.append(f"{kind} {self.prompt()}{self.when(0.3)}")
        elif form < 0.1:
            lines.append(f"def_{kind if kind in ('bool', 'tristate') else 'bool'} {self.value('bool')}{self.when()}")
        elif form < 0.75:
            lines.append(f"{kind} {self.prompt()}{self.when(0.3)}")
        elif form < 0.97:
            lines.append(kind)
        if pick.random() < 0.2:
            lines.append(f"prompt {self.prompt()}{self.when()}")
        if not self.strict and pick.random() < 0.1:
            lines.append(pick.choice(KINDS))
        for _ in range(pick.choice([0, 0, 0, 1, 1, 2, 3])):
            lines.append(f"depends on {self.expression()}")
        for _ in range(pick.choice([0, 0, 1, 1, 2, 3])):
            lines.append(f"default {self.value(kind)}{self.when()}")
        if kind in ("int", "hex") or pick.random() < 0.03:
            for _ in range(pick.choice([0, 1, 1, 2])):
                low, high = (("0", "10") if kind == "int" else ("0x1", "0x20")) if pick.random() < 0.7 else (self.name(), "50")
                lines.append(f"range {low} {high}{self.when()}")
        for _ in range(pick.choice([0, 0, 0, 0, 1, 2])):
            lines.append(f"{pick.choice(['select', 'imply'])} {self.later()}{self.when()}")
        if kind == "bool" and not member and not again and not self.modules and pick.random() < 0.02:
            lines.append("modules")
            self.modules = True
        if pick.random() < 0.1:
            lines.append("help\n\t  Some words.\n")
        if pick.random() < 0.4:
            pick.shuffle(lines)
            lines.sort(key=lambda line: line.startswith("help"))
        return lines

    def config(self, member=False, depth=1):
        """A config entry: of the next symbol, or at times once more of an earlier one."""
        outside = [name for name in self.names[: self.position] if name not in self.members]
        again = outside != [] and self.pick.random() < (0 if self.strict and (member or (depth > 0 and not self.loops)) else 0.02 if member else 0.2)
        if member and not again and not self.waiting:
            return []
        if not again and not self.waiting and (depth > 0 or self.limit is not None) and self.strict:
            return []
        if again or not self.waiting:
            name = self.pick.choice(outside if outside and (self.strict or self.pick.random() < 0.9) else self.names[: max(1, self.position)])
            again = True
            if name in self.members:
                return []
        else:
            name = self.waiting.pop(0)
        if member:
            self.members.add(name)
        if again and not self.loops and self.limit is None:
            self.limit = self.names.index(name)
            lines = self.attributes(name, member, again)
            self.limit = None
        else:
            lines = self.attributes(name, member, again)
        if not again:
            self.position += 1
        word = self.pick.choice(["config", "config", "config", "menuconfig"])
        return [f"{word} {name}"] + [f"\t{line}" for line in lines] + [""]

    def choice(self):
        """A choice."""
        pick, lines = self.pick, ["choice"]
        if pick.random() < 0.9:
            lines.append(f"\tprompt {self.prompt()}{self.when(0.3)}")
        for _ in range(pick.choice([0, 0, 1, 2])):
            lines.append(f"\tdepends on {self.expression()}")
        members = []
        if not self.loops:
            self.limit = self.position
        for _ in range(pick.choice([0, 1, 2, 3, 3])):
            form = pick.random()
            if form < 0.1:
                members += [f"if {self.expression()}"] + self.config(True) + ["endif"]
            elif form < 0.15:
                members += ['comment "in a choice"'] + self.config(True)
            else:
                members += self.config(True)
        inside = [line.split()[1] for line in members if line.startswith(("config", "menuconfig"))]
        for _ in range(pick.choice([0, 0, 1, 2])):
            named = pick.choice(inside) if inside and pick.random() < 0.85 else self.name()
            if named in ("y", "n", "m") and self.strict:
                continue
            lines.append(f"\tdefault {named}{self.when()}")
        if not self.strict and pick.random() < 0.1:
            lines.append("\toptional")
        if pick.random() < 0.1:
            lines.append(f"\tprompt {self.prompt()}{self.when()}")
        self.limit = None
        return lines + [""] + members + ["endchoice", ""]

    def menu(self, depth):
        """A menu."""
        lines = [f'menu "menu {self.pick.randrange(9)}"']
        own = [f"\tdepends on {self.expression()}" for _ in range(self.pick.choice([0, 0, 1, 2]))]
        own += [f"\tvisible if {self.expression()}" for _ in range(self.pick.choice([0, 0, 0, 1, 2]))]
        self.pick.shuffle(own)
        return lines + own + [""] + self.block(depth + 1) + ["endmenu", ""]

    def comment(self):
        lines = [f'comment "words {self.pick.randrange(9)}"']
        lines += [f"\tdepends on {self.expression()}" for _ in range(self.pick.choice([0, 0, 1, 2]))]
        return lines + [""]

    def source(self, depth):
        if depth > 2 or len(self.files) > 2:
            return []
        name = f"part{len(self.files)}"
        self.files[name] = ""
        self.files[name] = "\n".join(self.block(depth + 1)) + "\n"
        again = [f'source "{name}"'] if self.pick.random() < 0.1 else []
        return [f'source "{name}"'] + again

    def block(self, depth):
        """Some entries."""
        lines = []
        for _ in range(self.pick.randrange(1, 5)):
            form = self.pick.random()
            if form < 0.45 or depth > 5:
                lines += self.config(depth=depth)
            elif form < 0.58:
                lines += self.menu(depth)
            elif form < 0.7:
                lines += [f"if {self.expression()}", ""] + self.block(depth + 1) + ["endif", ""]
            elif form < 0.85:
                lines += self.choice()
            elif form < 0.95:
                lines += self.comment()
            else:
                lines += self.source(depth)
        return lines

    def root(self):
        lines = []
        if self.pick.random() < 0.3:
            lines.append('mainmenu "A tree"')
        while self.waiting:
            lines += self.block(0)
        return "\n".join(lines) + "\n"

    def settings(self):
        """Lines of a .config."""
        lines = []
        for name in self.names:
            form = self.pick.random()
            if form < 0.35:
                continue
            value = {
                "bool": ["y", "n", "m"], "tristate": ["y", "m", "n"], "string": ['"given"', '"a \\\\ b"'], "int": ["7", "-3", "1000", "x"], "hex": ["0x7", "ff", "0xfff"],
            }[self.kinds[name]]
            lines.append(f"# CONFIG_{name} is not set" if form < 0.5 else f"CONFIG_{name}={self.pick.choice(value)}")
        if self.pick.random() < 0.2:
            lines.append("CONFIG_NOWHERE=y")
        self.pick.shuffle(lines)
        return "\n".join(lines) + "\n"


def broken(pick, text):
    """The text with some lines or bytes spoilt."""
    lines = text.split("\n")
    for _ in range(pick.choice([1, 1, 2, 4])):
        place = pick.randrange(len(lines))
        form = pick.random()
        if form < 0.3:
            del lines[place]
        elif form < 0.45:
            lines.insert(place, lines[pick.randrange(len(lines))])
        elif form < 0.6:
            other = pick.randrange(len(lines))
            lines[place], lines[other] = lines[other], lines[place]
        elif form < 0.75:
            lines[place] = lines[place][: pick.randrange(len(lines[place]) + 1)]
        elif form < 0.9:
            lines.insert(place, pick.choice(["endif", "endmenu", "endchoice", "choice", 'menu "x"', "if S0", "\tdepends on S0", "\tdefault S0", "\tselect S1", "\tbool", "\tprompt \"q\""]))
        elif lines[place]:
            at = pick.randrange(len(lines[place]))
            lines[place] = lines[place][:at] + pick.choice('"\\&|()=!#\t x') + lines[place][at + 1 :]
        if not lines:
            lines = [""]
    return "\n".join(lines)


def ran(program, folder, words):
    """What a run leaves: its status, what it told, and the three outputs."""
    for name in OUTPUTS:
        pathlib.Path(folder, name).unlink(missing_ok=True)
    done = subprocess.run([program, *words], cwd=folder, capture_output=True)
    files = [pathlib.Path(folder, name) for name in OUTPUTS]
    return [done.returncode, done.stdout, done.stderr, *[it.read_bytes() if it.exists() else None for it in files]]


def main():
    old, new = (os.path.abspath(it) for it in sys.argv[1:3])
    count = int(sys.argv[3]) if len(sys.argv) > 3 else 1000
    seed = int(sys.argv[4]) if len(sys.argv) > 4 else 0
    statuses = {}
    with tempfile.TemporaryDirectory() as folder:
        for case in range(count):
            pick = random.Random(f"{seed} {case}")
            tree = Tree(pick)
            root = tree.root()
            spoilt = pick.random() < 0.4
            for name in os.listdir(folder):
                os.unlink(f"{folder}/{name}")
            for name, text in [("Kconfig", root), *tree.files.items()]:
                pathlib.Path(folder, name).write_text(broken(pick, text) if spoilt and pick.random() < 0.7 else text)
            pathlib.Path(folder, "dot.config").write_text(tree.settings())
            pathlib.Path(folder, "more.config").write_text(tree.settings())
            words = ["--config", "dot.config", "--out", OUTPUTS[0], "--header", OUTPUTS[1], "--savedefconfig", OUTPUTS[2]]
            words += pick.choice([[], ["--warn-lost"]])
            words += ["Kconfig"] + pick.choice([[], ["more.config"]])
            asked = [word for name in tree.names for word in ("--explain", name)]
            for run in [words, ["--config", "dot.config", *asked, "Kconfig"]]:
                one, other = ran(old, folder, run), ran(new, folder, run)
                statuses[one[0]] = statuses.get(one[0], 0) + 1
                if one != other:
                    kept = f"{tempfile.gettempdir()}/fuzz-{seed}-{case}"
                    shutil.copytree(folder, kept, dirs_exist_ok=True)
                    parts = [name for name, a, b in zip(["status", "stdout", "stderr", *OUTPUTS], one, other) if a != b]
                    sys.exit(f"case {case} differs in {', '.join(parts)}: {kept}: {' '.join(run)}")
    print(f"{count} cases, none differs; statuses of two runs each {dict(sorted(statuses.items()))}")


if __name__ == "__main__":
    main()
