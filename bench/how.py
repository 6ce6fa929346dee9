#!/usr/bin/env python3
"""Answers of --how on random trees, checked by an evaluator of its own: how.py KCONF [SEED] [TREES].

Makes small random trees (fuzz.py) until KCONF accepted so many, and asks a few questions of each. What it computes itself comes from explain.py,
which shares no code with kconf:

- an answer: with its lines after the input the symbol has the value, each of its symbols has the value of its line, no symbol is newly selected above
  its dependencies, and with any one line left out that is not so; the comments tell exactly what changes;
- `impossible` (E25): no fragment gives the value, of all fragments of a tree with few symbols, or of many random ones;
- `not found` (E26): how often some fragment gives the value.

Prints what was asked. Keeps the files of the first wrong answer in a folder that is named, and then ends with status 1.
"""

import itertools
import pathlib
import re

import fuzz
from explain import M, N, TEXTS, Input, Solution, Tree, Y, compare, escaped
from random_trees import Differs, check_trees

QUESTIONS = 6
ALL = 3000
SOME = 300
MANY = 100


class Question:
    """A tree with its input, and a value that a symbol shall have."""

    def __init__(self, tree, streams, is_raw, name, value):
        self.tree, self.streams, self.is_raw, self.name, self.value = tree, streams, is_raw, name, value
        self.input = Input(tree, streams, is_raw)
        self.before = Solution(tree, self.input)

    def shown(self, name, value):
        """A value as a line of a .config has it behind its `=`."""
        kind = self.tree.kinds[name]
        if kind == "string":
            return f'"{value}"' if self.is_raw else f'"{escaped(value)}"'
        return value if kind in TEXTS else "nmy"[value]

    def asked(self):
        return f"{self.name}={self.shown(self.name, self.value)}"

    def line(self, name, value):
        is_off = self.tree.kinds[name] not in TEXTS and value == N
        return f"# CONFIG_{name} is not set" if is_off else f"CONFIG_{name}={self.shown(name, value)}"

    def with_lines(self, lines):
        return Solution(self.tree, Input(self.tree, [*self.streams, ("", "".join(f"{line}\n" for line in lines))], self.is_raw))

    def is_conflict(self, solution, name):
        if self.tree.kinds[name] in TEXTS or self.tree.choice_of(name):
            return False
        return solution.raised_to("select", name) > solution.direct(name)

    def has_value(self, solution):
        return solution.of(self.name) == self.value

    def reaches(self, solution):
        conflicts = (name for name in self.tree.defined if self.tree.kinds[name] and self.is_conflict(solution, name))
        return self.has_value(solution) and all(self.is_conflict(self.before, name) for name in conflicts)

    # ---- answers
    def check_found(self, text):
        lines = [line for line in text.splitlines() if not re.match(r"# (other values that change: |overrides |loses )|# CONFIG_\S+=.* already$", line)]
        after = self.with_lines(lines)
        if not self.reaches(after):
            raise Differs(f"{self.asked()}: the answer does not work")
        own = Input(self.tree, [("", "".join(f"{line}\n" for line in lines))], self.is_raw).given
        if len(own) != len(lines) or any(after.of(name) != value for name, value in own.items()):
            raise Differs(f"{self.asked()}: a line is not taken")
        for at in range(len(lines)):
            if self.reaches(self.with_lines(lines[:at] + lines[at + 1 :])):
                raise Differs(f"{self.asked()}: {lines[at]} is not needed")
        compare(self.asked(), text, "".join(f"{line}\n" for line in self.comments(lines, own, after)))
        return len(lines)

    def comments(self, lines, own, after):
        """The answer with what it changes."""
        if not lines:
            return [f"# CONFIG_{self.asked()} already"]
        costs, others = [], 0
        for name in self.tree.defined:
            if not self.tree.kinds[name]:
                continue
            given = self.input.given.get(name)
            said = f"CONFIG_{name}={self.shown(name, given)} ({self.input.lines[name]})" if given is not None else ""
            if name in own:
                if given is not None and given != own[name]:
                    costs.append(f"# overrides {said}")
            elif given is not None and self.before.of(name) == given != after.of(name):
                costs.append(f"# loses {said}, now {self.shown(name, after.of(name))}")
            elif self.before.of(name) != after.of(name):
                others += 1
        many = " (it may be meant for another board or architecture)" if others >= MANY else ""
        return [*lines, f"# other values that change: {others}{many}", *costs]

    def values(self, name):
        """The values that are tried for a symbol."""
        kind = self.tree.kinds[name]
        return {"bool": [N, Y], "tristate": [N, M, Y], "int": ["0", "5", "100"], "hex": ["0x0", "0x10"], "string": ["", "a"]}[kind] + [self.value] * (name == self.name)

    def reachable(self, pick):
        """Whether some fragment of those that are tried gives the value, and whether all were tried."""
        names = [name for name in self.tree.defined if self.tree.kinds[name]]
        choices = [[None, *self.values(name)] for name in names]
        count = 1
        for values in choices:
            count *= len(values)
        picked = itertools.product(*choices) if count <= ALL else ([pick.choice(values) for values in choices] for _ in range(SOME))
        for values in picked:
            lines = [self.line(name, value) for name, value in zip(names, values) if value is not None]
            pick.shuffle(lines)
            if self.has_value(self.with_lines(lines)):
                return lines
        return None


def questions(pick, tree):
    names = [name for name in tree.defined if tree.kinds[name]]
    for _ in range(min(QUESTIONS, len(names))):
        name = pick.choice(names)
        kind = tree.kinds[name]
        value = {"bool": [N, Y, Y], "tristate": [N, M, Y]}.get(kind)
        texts = {"int": ["0", "7", "100", "-3"], "hex": ["0x10", "0x1"], "string": ["", "a", 'q"x\\y']}
        yield name, pick.choice(value or texts[kind])


def ask(runner, pick, question, words, counts):
    status, text, told = runner.run(*words, "--how", question.asked(), "Kconfig", *[name for name, _ in question.streams[1:]])
    counts["questions"] += 1
    if status == 0:
        lines = question.check_found(text)
        counts["answers" if lines else "held already"] += 1
        counts["lines"] += lines
        return
    error = next((line for line in told.splitlines() if line.startswith("error ")), "")
    lines = question.reachable(pick)
    if error.startswith("error E25: "):
        counts["impossible"] += 1
        if lines is not None:
            raise Differs(f"{question.asked()}: {error}, but these give it: {lines}")
        for line in re.findall(r"(?m)^  (\S+): always n$", told):
            counts["reasons"] += 1
            if question.before.truth(line) != N:
                raise Differs(f"{question.asked()}: {line} is not always n")
    elif error.startswith("error E26: "):
        counts["not found"] += 1
        counts["not found, but there is one"] += lines is not None
    else:
        raise Differs(f"{question.asked()}: status {status}\n{told}")


def check_tree(runner, pick, counts):
    made = fuzz.Tree(pick)
    for name, text in {"Kconfig": made.root(), **made.files}.items():
        pathlib.Path(runner.folder, name).write_text(text)
    if runner.run("--config", "none", "--out", "out.config", "Kconfig")[0]:
        counts["refused trees"] += 1
        return
    counts["trees"] += 1
    tree = Tree({"Kconfig": pathlib.Path(runner.folder, "Kconfig").read_text(), **made.files}, "Kconfig")
    streams = [("dot.config", made.settings())] + ([("more.config", made.settings())] if pick.random() < 0.3 else [])
    for name, content in streams:
        pathlib.Path(runner.folder, name).write_text(content)
    flags = pick.choice([[], [], [], ["--raw-strings"]])
    for name, value in questions(pick, tree):
        ask(runner, pick, Question(tree, streams, bool(flags), name, value), ["--config", "dot.config", *flags], counts)


if __name__ == "__main__":
    check_trees(__doc__, "how", check_tree, (": a wrong answer", "none is wrong"))
