#!/usr/bin/env python3
"""Every question of tiny trees, with every fragment tried: how_all.py KCONF [SEED] [TREES].

Makes tiny random trees (fuzz.py) until KCONF accepted so many. The evaluator of explain.py, which shares no code with kconf, computes the values
under each fragment: one line or none for each symbol with a prompt, and for each choice. Then KCONF is asked for each value of each symbol:

- an answer is checked as in how.py: it works, and each of its lines is needed;
- `impossible` (E25): no fragment gives the value, over the input or over none;
- `not found` (E26): counted, and how often some fragment gives the value without a new conflict.

Strings and numbers have the values that the tree names, and a few more. Prints what was asked. Keeps the files of the first wrong answer in a folder
that is named, and then ends with status 1. SHOW in the environment prints each question that is left open although there is an answer.
"""

import itertools
import math
import os
import pathlib
import re
import shutil
import tempfile

import fuzz
from explain import M, N, Input, Solution, Tree, Y
from how import Question
from random_trees import Differs, check_trees

MOST = 3000  # fragments of a tree
SYMBOLS = [3, 4, 5, 5, 6]
TRUTHS = {"bool": [N, Y], "tristate": [N, M, Y]}
NUMBERS = {"int": (r"(?<![\w.])-?[0-9]+(?!\w)", ["7"]), "hex": (r"0x[0-9a-f]+", ["0x10"]), "string": (r'"(?!p"|a prompt")([^"\\\n]*)"', ["", "a"])}
VALUES = 6  # of a string or number


class Tiny(fuzz.Tree):
    """A tree of a few symbols."""

    def __init__(self, pick):
        super().__init__(pick)
        own, rest = [name for name in self.names if name != "MODULES"], ["MODULES"] * ("MODULES" in self.names)
        self.names = own[: pick.choice(SYMBOLS)] + rest
        self.waiting = list(self.names)


class Reached:
    """What all fragments of a tree give."""

    def __init__(self, tree, given, values):
        self.tree, self.given, self.values = tree, given, values
        self.least, self.alone = {}, set()
        self.before = self.conflicts(Solution(tree, given))
        self.parts = [self.options(name) for name in tree.defined if self.has_prompt(name) and not tree.choice_of(name)]
        self.parts += [self.members(choice) for choice in tree.choices if tree.prompt(choice)]
        self.count = math.prod(map(len, self.parts))

    def has_prompt(self, name):
        return bool(self.tree.kinds[name]) and any(map(self.tree.prompt, self.tree.entries[name]))

    # An option: the symbol or choice, its value or its chosen member, whether it takes a line, and whether it is possible over the input.
    def options(self, name):
        own = self.given.given.get(name)
        return [(name, own, 0, True), *((name, value, 1, True) for value in self.values[name] if value != own)] + [(name, None, 0, False)] * (own is not None)

    def members(self, choice):
        own = self.given.chosen.get(choice)
        return [(choice, own, 0, True), *((choice, name, 1, True) for name in choice.members if name != own)] + [(choice, None, 0, False)] * (own is not None)

    def conflicts(self, solution):
        """The symbols that are selected above their dependencies."""
        names = [name for name in self.tree.defined if self.tree.kinds[name] in TRUTHS and not self.tree.choice_of(name)]
        return {name for name in names if solution.raised_to("select", name) > solution.direct(name)}

    def all(self):
        """Tries all fragments."""
        user = Input(self.tree, [], self.given.is_raw)
        names = [name for name in self.tree.defined if self.tree.kinds[name]]
        for picked in itertools.product(*self.parts):
            user.given = {item: value for item, value, _, _ in picked if isinstance(item, str) and value is not None}
            user.chosen = {item: value for item, value, _, _ in picked if not isinstance(item, str) and value is not None}
            solution = Solution(self.tree, user)
            found = [(name, solution.of(name)) for name in names]
            self.alone.update(found)
            if all(is_over for *_, is_over in picked) and self.conflicts(solution) <= self.before:
                lines = sum(takes for _, _, takes, _ in picked)
                for pair in found:
                    self.least[pair] = min(lines, self.least.get(pair, lines))


def values_of(tree, text):
    """The values to ask for of each symbol, and to try."""
    found = {}
    for name in filter(tree.kinds.get, tree.defined):
        kind = tree.kinds[name]
        if kind in TRUTHS:
            found[name] = TRUTHS[kind]
        else:
            form, more = NUMBERS[kind]
            found[name] = list(dict.fromkeys([*more, *re.findall(form, text)]))[:VALUES]
    return found


def ask(runner, question, words, reached, counts):
    """Asks one question and checks the answer."""
    status, text, told = runner.run(*words, "--how", question.asked(), "Kconfig")
    pair = question.name, question.value
    counts["questions"] += 1
    counts["reachable"] += pair in reached.least
    if status == 0:
        lines = question.check_found(text)
        counts["answers" if lines else "held already"] += 1
        counts["answers with more lines than the least"] += lines > reached.least[pair] if pair in reached.least else 0
        return
    error = next((line for line in told.splitlines() if line.startswith("error ")), "")
    if error.startswith("error E25: "):
        counts["impossible"] += 1
        if pair in reached.alone:
            raise Differs(f"{question.asked()}: {error}, but a fragment gives it")
    elif error.startswith("error E26: "):
        counts["open"] += 1
        counts["open, but reachable"] += pair in reached.least
        counts["open, and reachable with a new conflict or without the input alone"] += pair in reached.alone and pair not in reached.least
        if pair in reached.least and os.environ.get("SHOW"):
            kept = f"{tempfile.gettempdir()}/how-open-{counts['trees']}"
            shutil.copytree(runner.folder, kept, dirs_exist_ok=True)
            print(f"{question.asked()} is open, and reachable with {reached.least[pair]} lines: {kept}", flush=True)
    else:
        raise Differs(f"{question.asked()}: status {status}\n{told}")


def check_tree(runner, pick, counts):
    """Asks all questions of one random tree, if KCONF accepts it and it has few fragments."""
    made = Tiny(pick)
    files = {"Kconfig": made.root(), **made.files}
    for name, text in files.items():
        pathlib.Path(runner.folder, name).write_text(text)
    if runner.run("--config", "none", "--out", "out.config", "Kconfig")[0]:
        counts["refused trees"] += 1
        return
    tree, settings = Tree(files, "Kconfig"), made.settings()
    pathlib.Path(runner.folder, "dot.config").write_text(settings)
    reached = Reached(tree, Input(tree, [("dot.config", settings)], False), values_of(tree, "\n".join(files.values())))
    if reached.count > MOST:
        counts["larger trees"] += 1
        return
    counts["trees"] += 1
    counts["fragments"] += reached.count
    reached.all()
    for name, values in reached.values.items():
        for value in values:
            question = Question(tree, [("dot.config", settings)], False, name, value)
            ask(runner, question, ["--config", "dot.config"], reached, counts)


if __name__ == "__main__":
    check_trees(__doc__, "how-all", check_tree, (": a wrong answer", "none is wrong"))
