"""Random small trees for the tests of kconf-flatten, each from its number alone.

A condition names symbols that stand before it, so most trees have no loop; the others are left out.
What kconf and kconfiglib are known to see differently is not made: implied tristates, an optional
choice with members that can be hidden, a .config that is no state of a tristate choice.
"""

import os
import random

import compare
import kconfiglib

# kconfiglib finds some loops or not by the addresses of its objects, and some not at all.
LEFT_OUT = ("is a member of two choices", "Dependency loop", "can be m here")
TREES = 150
RUNS = 8


class Grower:
    """Grows the text of one tree."""

    def __init__(self, number):
        self.random = random.Random(number)
        self.lines = []
        self.known = []
        self.texts = []
        self.bools = []
        self.members = []
        self.count = 0
        self.lines_may_be_missing = False
        self.choice_names = 0

    def chance(self, percent):
        """Whether something of that likelihood happens."""
        return self.random.randrange(100) < percent

    def name(self, letter):
        """A new name."""
        self.count += 1
        return f"{letter}{self.count}"

    def condition(self, depth=0):
        """A condition over the symbols so far."""
        kind = self.random.randrange(10)
        if depth < 2 and kind < 3:
            sign = self.random.choice([" && ", " || "])
            return f"({self.condition(depth + 1)}{sign}{self.condition(depth + 1)})"
        if depth < 2 and kind == 3:
            return f"!{self.condition(depth + 1)}"
        if self.known and kind == 4:
            sign = self.random.choice(["=", "!=", "<", ">="])
            return f"{self.random.choice(self.known)} {sign} {self.random.choice('nmy')}"
        if self.texts and kind == 5:
            return f'{self.random.choice(self.texts)} = "t"'
        if kind == 6:
            return self.random.choice(["m", "y", "n", "NOWHERE", '"$(SET)" = "set"'])
        return self.random.choice(self.known) if self.known else "y"

    def cond(self, percent=40):
        """An if with a condition, or nothing."""
        return f" if {self.condition()}" if self.chance(percent) else ""

    def add(self, text):
        """Adds a line."""
        self.lines.append(text)

    def depends(self, percent):
        """Perhaps a depends on line."""
        if self.chance(percent):
            self.add(f"\tdepends on {self.condition()}")

    def targets(self):
        """Perhaps a select of a symbol that is defined further down, and an imply."""
        if self.chance(20):
            self.add(f"\tselect {self.random.choice('BTR')}{self.count + 3}{self.cond()}")
        if self.chance(10):
            self.add(f"\timply B{self.count + 4}{self.cond()}")

    def truth(self):
        """A bool or tristate symbol."""
        letter = self.random.choice("BBT")
        name = self.name(letter)
        word = "bool" if letter == "B" else "tristate"
        self.add(f"config {name}")
        self.add(f"\t{word} \"{name}\"{self.cond()}" if self.chance(75) else f"\t{word}")
        if self.chance(50):
            self.add(f"\tdefault {self.condition()}{self.cond()}")
        self.depends(35)
        self.targets()
        self.known.append(name)

    def text(self):
        """A string or int symbol."""
        word = self.random.choice(["string", "int", "def_int"])
        name = self.name("S" if word == "string" else "N")
        self.add(f"config {name}")
        if word == "string":
            self.add(f"\tstring \"{name}\"{self.cond()}")
            self.add(f"\tdefault \"{self.random.choice('tu')}\"{self.cond()}")
            self.texts.append(name)
        else:
            self.add("\tdef_int 5" if word == "def_int" else f"\tint \"{name}\"{self.cond()}")
            self.add(f"\trange 3 {self.random.randrange(4, 9)}{self.cond()}")
            self.add(f"\tdefault {self.random.randrange(10)}{self.cond()}")
        self.depends(30)

    def again(self):
        """Another definition of a symbol, or of a choice member."""
        pool = self.members if self.members and self.chance(50) else self.known
        if not pool:
            return
        name = self.random.choice(pool)
        if name[0] in "MUV":
            self.lines_may_be_missing = True
        self.add(f"config {name}")
        word = "tristate" if name[0] in "TUV" else "bool"
        self.add(f"\t{word} \"again\"{self.cond()}" if self.chance(60) else f"\t{word}")
        self.depends(40)
        self.targets()

    def choice_line(self):
        """The line of a choice: one in five has a name, half of these one that is known."""
        if not self.chance(20):
            self.add("choice")
            return
        if not self.choice_names or self.chance(50):
            self.choice_names += 1
        self.add(f"choice NAMED{self.choice_names}")

    def tristate_choice(self):
        """A tristate choice, whose members nothing hides."""
        self.lines_may_be_missing = True
        self.add(f"choice\n\tprompt \"c\"{self.cond()}")
        if self.chance(50):
            self.add("\toptional")
        self.depends(30)
        members = [self.name("V") for _ in range(self.random.randrange(1, 4))]
        if self.chance(50):
            self.add(f"\tdefault {self.random.choice(members)}")
        for member in members:
            self.add(f"config {member}\n\ttristate \"{member}\"")
            self.targets()
        self.add("endchoice")
        self.known += members

    def choice(self):
        """A bool choice."""
        if self.chance(15):
            self.tristate_choice()
            return
        optional = self.chance(20)
        self.choice_line()
        self.add(f"\tprompt \"c\"{self.cond()}")
        self.add("\tbool")
        if optional:
            self.add("\toptional")
            self.lines_may_be_missing = True
        self.depends(30)
        number = self.random.randrange(2, 5)
        members = [self.name(self.random.choice("MMMU")) for _ in range(number)]
        if self.chance(50):
            self.add(f"\tdefault {self.random.choice(members)}{self.cond()}")
        for member in members:
            self.member(member, 0 if optional else 40)
        self.add("endchoice")
        if not optional:
            self.members += members
        self.known += members

    def member(self, name, percent):
        """A member, perhaps in an if block, perhaps with an entry that depends on it."""
        inside = percent and self.chance(20)
        if inside:
            self.add(f"if {self.condition()}")
        self.add(f"config {name}")
        self.add(f"\t{'tristate' if name[0] == 'U' else 'bool'} \"{name}\"{self.cond(percent)}")
        self.depends(percent)
        self.targets()
        if self.chance(20):
            under = self.name(self.random.choice("BT"))
            self.add(f"config {under}")
            word = "tristate" if under[0] == "T" else "bool"
            self.add(f"\t{word} \"under\" if {name}{self.random.choice(['', ' && y', ' != n'])}")
            if self.chance(60):
                self.add(f"\tdefault {self.random.choice('my')}")
            if self.chance(50):
                self.add(f"\tdepends on {name}")
        if inside:
            self.add("endif")

    def block(self, depth):
        """An if block or a menu."""
        if self.chance(60):
            self.add(f"if {self.condition()}")
            self.grow(depth + 1)
            self.add("endif")
        else:
            self.add(f"menu \"m{depth}\"")
            self.depends(50)
            if self.chance(40):
                self.add(f"\tvisible if {self.condition()}")
            self.grow(depth + 1)
            self.add("endmenu")

    def grow(self, depth=0):
        """A few entries."""
        for _ in range(self.random.randrange(2, 5)):
            kind = self.random.randrange(12)
            if kind < 5:
                self.truth()
            elif kind < 6:
                self.text()
            elif kind < 7:
                self.again()
            elif kind < 9:
                self.choice()
            elif depth < 3:
                self.block(depth)

    def tree(self):
        """The whole tree."""
        if self.chance(80):
            self.add("config MODULES\n\tbool \"modules\"\n\tdefault y")
            self.known.append("MODULES")
        self.grow()
        self.grow()
        return "\n".join(self.lines) + "\n"


def random_config(grower, tree):
    """A .config with a text for some symbols."""
    lines, chosen = [], {}
    for symbol in tree.unique_defined_syms:
        if grower.chance(50):
            continue
        is_member = symbol.choice is not None
        if is_member and symbol.choice.orig_type is kconfiglib.TRISTATE:
            if symbol is not chosen.setdefault(symbol.choice, symbol):
                continue
        texts = {kconfiglib.BOOL: "ny", kconfiglib.TRISTATE: "ny" if is_member else "nmy",
                 kconfiglib.INT: ["4", "7", "12"], kconfiglib.STRING: ['"t"', '"v"']}
        if symbol.orig_type in texts:
            text = grower.random.choice(texts[symbol.orig_type])
            lines.append(compare.given_lines([symbol.name], [text]))
    grower.random.shuffle(lines)
    return "".join(lines)


def run_tree(number):
    """Answers how many runs were compared, and what was wrong, for one tree."""
    grower = Grower(number)
    text = grower.tree()
    with compare.scratch() as folder:
        source, flat = os.path.join(folder, "tree"), os.path.join(folder, "flat")
        compare.write_files(source, {"Kconfig": text})
        try:
            tree = compare.read_tree(source, {"SET": "set"})
        except kconfiglib.KconfigError:
            return 0, []
        made = compare.flatten(source, flat, environment={"SET": "set"})
        if made.returncode != 0:
            is_left_out = any(text in made.stderr for text in LEFT_OUT)
            return 0, [] if is_left_out else [f"tree {number}: {made.stderr.strip()}"]
        faults, count = [], 0
        for _ in range(RUNS):
            given = random_config(grower, tree)
            compare.write_files(folder, {"given.config": given})
            config = os.path.join(folder, "given.config")
            ours, notes = compare.kconf_lines(folder, flat, config)
            if ours is None:
                if "E15" in notes:
                    return count, faults
                return count, faults + [f"tree {number}: {notes.strip()}"]
            try:
                lines, values = compare.tree_lines(tree, config)
            except RecursionError:
                return count, faults
            found = compare.differences(tree, ours, lines, values, grower.lines_may_be_missing)
            faults += [f"tree {number}: {fault}, from {given.split(chr(10))}" for fault in found]
            count += 1
        return count, faults


def run(numbers=range(TREES)):
    """Answers how many trees and runs were compared, and what was wrong."""
    trees, runs, faults = 0, 0, []
    for number in numbers:
        count, found = run_tree(number)
        trees += count > 0
        runs += count
        faults += found
    if not trees:
        faults.append("no tree was compared")
    return trees, runs, faults
