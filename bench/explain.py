#!/usr/bin/env python3
"""An independent reader of explanations: explain.py KCONF [SEED] [TREES].

Makes random trees (fuzz.py) until KCONF accepted so many, with twelve inputs each. Reads each tree and input itself, slowly and without any
code of kconf, and computes what docs/formats.md says of explanations. Then it runs KCONF and compares, to the byte:

- the values in the written .config;
- `--explain` of every name of the tree, of the symbols alone and with what holds them down in up to three steps;
- the lines of lost values, with their explanations and causes (`--warn-lost --explain-lost`);
- the list of new symbols with their definitions (`--list-new --with-help`), of which only the values come from KCONF.

Two explanations of one symbol of one tree with the same lines, apart from the locations in input files, have to give it the same value.
Prints what was compared. Keeps the files of the first difference in a folder that is named, and then ends with status 1.
"""

import collections
import difflib
import pathlib
import re

import fuzz
from random_trees import Differs, check_trees

N, M, Y = 0, 1, 2
LETTER = "nmy"
INPUTS = 12
TOKEN = re.compile(r"""[ \t]*(?:([\w./-]+)|"((?:\\.|[^"\\])*)"|'((?:\\.|[^'\\])*)'|(&&|\|\||!=|<=|>=|[!=<>()]))""", re.ASCII)
RELATIONS = {"=", "!=", "<", "<=", ">", ">="}
TYPES = {"bool", "tristate", "string", "int", "hex"}
TEXTS = {"string", "int", "hex"}


# ---- Texts, numbers and expressions
def escaped(text):
    return re.sub(r'(["\\])', r"\\\1", text)


def unescaped(text):
    return re.sub(r"\\(.)", r"\1", text, flags=re.S)


def number_of(kind, text):
    """The number that a text spells in a type; None if it spells none."""
    if kind == "hex":
        digits = text[2:] if re.match("0[xX]", text) else text
        return int(digits, 16) if re.fullmatch("[0-9a-fA-F]+", digits) and int(digits, 16) < 1 << 64 else None
    if kind == "int":
        return int(text) if re.fullmatch("-?[0-9]+", text) and -(1 << 63) <= int(text) < 1 << 63 else None
    return number_of("hex" if re.match("0[xX]", text) else "int", text)


class Parser:
    """The expressions of one line. A symbol is ("name", NAME), a constant ("text", TEXT)."""

    def __init__(self, text):
        self.tokens, at = [], 0
        while at < len(text.rstrip(" \t")):
            if text[at:].lstrip(" \t").startswith("#"):
                break
            found = TOKEN.match(text, at)
            assert found, text
            word, double, single, sign = found.groups()
            self.tokens.append(("word", word) if word is not None else ("sign", sign) if sign is not None
                               else ("text", unescaped(double if double is not None else single)))
            at = found.end()

    def next_is(self, *signs):
        return bool(self.tokens) and self.tokens[0][0] == "sign" and self.tokens[0][1] in signs

    def operand(self):
        kind, text = self.tokens.pop(0)
        return ("text", text) if kind == "text" or text in ("n", "m", "y") else ("name", text)

    def negation(self, asks):
        if self.next_is("!"):
            self.tokens.pop(0)
            return ("not", self.negation(asks))
        if self.next_is("("):
            self.tokens.pop(0)
            inner = self.chain("||", asks)
            assert self.tokens.pop(0) == ("sign", ")")
            return inner
        left = self.operand()
        if self.next_is(*RELATIONS):
            sign = self.tokens.pop(0)[1]
            return ("relation", sign, left, self.operand())
        return ("m",) if asks and left == ("text", "m") else left

    def chain(self, sign, asks):
        part = (lambda: self.chain("&&", asks)) if sign == "||" else (lambda: self.negation(asks))
        parts = [part()]
        while self.next_is(sign):
            self.tokens.pop(0)
            parts.append(part())
        return parts[0] if len(parts) == 1 else (sign, parts)

    def value(self):
        return self.chain("||", False)

    def condition(self):
        return self.chain("||", True)

    def when(self):
        """The condition after `if`, or none."""
        if not self.tokens:
            return None
        assert self.tokens.pop(0) == ("word", "if")
        return self.condition()


def operand_text(e):
    return e[1] if e[0] == "name" or e[1] in ("n", "m", "y") else f'"{escaped(e[1])}"'


def expression_text(e, place=None):
    if e[0] in ("name", "text"):
        return operand_text(e)
    if e[0] == "relation":
        return f"{operand_text(e[2])} {e[1]} {operand_text(e[3])}"
    if e[0] == "m":
        return "m"
    if e[0] == "not":
        return "!" + expression_text(e[1], "&&")
    text = f" {e[0]} ".join(expression_text(part, e[0]) for part in e[1])
    return f"({text})" if place == "&&" or (place and e[0] == "||") else text


def if_text(when):
    return "" if when is None else f" if {expression_text(when)}"


# ---- The tree
class Line:
    """A statement: its file, its first and last line, its word, what it says, and (`blocks`) the lines of the blocks around it."""

    def __init__(self, file, number, word, **said):
        self.file, self.number, self.end, self.word = file, number, number, word
        self.name = self.when = self.value = self.kind = None
        self.prompts = False
        self.lines, self.blocks = [], []
        self.__dict__.update(said)

    @property
    def place(self):
        return f"{self.file}:{self.number}: "

    def said(self, *words):
        return [line for line in self.lines if line.word in words]


class Tree:
    """The lines of a tree, and what they say of its symbols."""

    def __init__(self, files, root):
        self.files, self.all = files, []
        self.mentioned = {}
        self.read(root)
        self.entries, self.choices, self.defined, blocks, modules, entry = {}, [], [], [], None, None
        for line in self.all:
            if line.word.startswith("end"):
                blocks.pop()
                entry = None
            elif line.word in ("config", "choice", "menu", "if", "comment", "mainmenu"):
                line.blocks = list(blocks)
                entry = line
                if line.word in ("choice", "menu", "if"):
                    blocks.append(line)
                if line.word == "choice":
                    line.members = []
                    self.choices.append(line)
                if line.word == "config":
                    if line.name not in self.entries:
                        self.defined.append(line.name)
                    self.entries.setdefault(line.name, []).append(line)
                    inside = self.choice_around(line)
                    if inside:
                        inside.members.append(line.name)
            else:
                entry.lines.append(line)
                line.entry = entry
                if line.word == "modules" and modules is None:
                    modules = entry.name
        named = modules or ("MODULES" if "MODULES" in self.mentioned else None)
        self.modules = named if named in self.entries else None
        self.kinds = {name: self.kind_of(name) for name in self.mentioned}
        self.raising = collections.defaultdict(list)
        for line in self.all:
            if line.word in ("select", "imply") and line.entry.word == "config":
                self.raising[line.word, line.name].append(line)

    def read(self, name):
        """Adds the lines of a file and of those that it sources."""
        physical = self.files[name].split("\n")
        at = 0
        while at < len(physical):
            number, text = at + 1, physical[at]
            at += 1
            while text.endswith("\\") and at < len(physical):
                text = text[:-1] + physical[at]
                at += 1
            words = text.strip(" \t")
            if not words or words.startswith("#"):
                continue
            if words in ("help", "---help---"):
                at = self.after_help(physical, at)
                self.all.append(Line(name, number, "help", end=at))
                continue
            line = self.line(name, number, words)
            line.end = at
            if line.word == "source":
                self.read(line.value)
            else:
                self.all.append(line)

    @staticmethod
    def after_help(physical, at):
        column = lambda text: len(text.expandtabs(8)) - len(text.expandtabs(8).lstrip(" "))
        while at < len(physical) and not physical[at].strip(" \t"):
            at += 1
        least = column(physical[at]) if at < len(physical) else 0
        while least and at < len(physical) and (not physical[at].strip(" \t") or column(physical[at]) >= least):
            at += 1
        return at

    def line(self, file, number, text):
        parser = Parser(text)
        word = parser.tokens.pop(0)[1]
        line = Line(file, number, word)
        self.note(parser.tokens, word)
        if word in ("config", "menuconfig"):
            line.word, line.name = "config", parser.tokens[0][1]
        elif word in ("menu", "comment", "mainmenu", "source"):
            line.value = parser.tokens[0][1]
        elif word == "if":
            line.when = parser.condition()
        elif word in TYPES:
            line.word, line.kind = "type", word
            if parser.tokens:
                parser.tokens.pop(0)
                line.prompts, line.when = True, parser.when()
        elif word in ("def_bool", "def_tristate"):
            line.word, line.kind = "default", word[4:]
            line.value, line.when = parser.value(), parser.when()
        elif word == "prompt":
            parser.tokens.pop(0)
            line.prompts, line.when = True, parser.when()
        elif word == "default":
            line.value, line.when = parser.value(), parser.when()
        elif word in ("depends", "visible"):
            parser.tokens.pop(0)
            line.when = parser.condition()
        elif word in ("select", "imply"):
            line.name, line.when = parser.tokens.pop(0)[1], parser.when()
        elif word == "range":
            line.value, line.when = (parser.operand(), parser.operand()), parser.when()
        return line

    def note(self, tokens, word):
        """Notes the names that a line mentions. The text of a prompt is no name, and neither is the word of a keyword."""
        for kind, text in tokens:
            if kind == "word" and text not in ("n", "m", "y", "if") and not (word in ("depends", "visible") and text == "on"):
                self.mentioned[text] = True

    def choice_around(self, line):
        return next((block for block in reversed(line.blocks) if block.word == "choice"), None)

    def choice_of(self, name):
        return next((choice for choice in map(self.choice_around, self.entries.get(name, [])) if choice), None)

    def kind_of(self, name):
        stated = [line.kind for entry in self.entries.get(name, []) for line in entry.lines if line.kind]
        return stated[0] if stated else "bool" if self.choice_of(name) else None

    def can_be_raised(self, name):
        return self.choice_of(name) is None and self.kinds[name] not in TEXTS

    def prompt(self, entry):
        """The prompt that counts."""
        return next((line for line in reversed(entry.lines) if line.prompts), None)

    # The parts of conditions: pairs of a line and what it asks. The mode of a choice is asked by the line of the choice.
    def dependency_parts(self, entry):
        parts = []
        for block in entry.blocks:
            if block.word == "if":
                parts.append((block, block.when))
            if block.word == "menu":
                parts += [(line, line.when) for line in block.said("depends")]
        parts += [(line, line.when) for line in entry.said("depends")]
        choice = self.choice_around(entry)
        return parts + ([(choice, "mode")] if choice else [])

    def shown_parts(self, entry):
        parts = [(line, line.when) for block in entry.blocks if block.word == "menu" for line in block.said("visible")]
        own = self.prompt(entry)
        return parts + ([(own, own.when)] if own.when is not None else [])

    def line_parts(self, line):
        return self.dependency_parts(line.entry) + ([(line, line.when)] if line.when is not None else [])

    def menu_path(self, entry):
        titles = [block.value for block in entry.blocks if block.word == "menu"]
        return [f"in {' > '.join(titles)}"] if titles else []


# ---- The input files
class Input:
    """What input files give: values, the lines that gave them last, and the last lines that were not allowed."""

    def __init__(self, tree, streams, is_raw):
        self.tree, self.is_raw = tree, is_raw
        self.given, self.chosen, self.lines, self.refused = {}, {}, {}, {}
        for stream, text in streams:
            for number, line in enumerate(text.split("\n"), 1):
                self.take(f"{stream}:{number}", line.rstrip(" \t"))

    def take(self, place, line):
        unset, given = re.fullmatch(r"# CONFIG_(\S+) is not set", line), re.fullmatch(r"CONFIG_([^=]+)=(.*)", line)
        name = unset[1] if unset else given[1] if given else None
        kind = self.tree.kinds.get(name)
        if kind is None or (unset and kind in TEXTS):
            return
        value = N if unset else self.value(kind, given[2])
        if value is None:
            self.refused[name] = (place, given[2])
            return
        self.given[name], self.lines[name] = value, place
        choice = self.tree.choice_of(name)
        if choice and value == Y:
            self.chosen[choice] = name

    def value(self, kind, text):
        if kind in ("bool", "tristate"):
            found = ("nmy" if kind == "tristate" else "n y").find(text[:1] or "?")
            return None if found < 0 or text[:1] == " " else found
        if kind == "string" and self.is_raw:
            return text[1:-1] if len(text) > 1 and text[0] == text[-1] == '"' else None
        if kind == "string":
            found = re.match(r'"((?:\\.|[^"\\])*)"', text)
            return unescaped(found[1]) if found else None
        return text if number_of(kind, text) is not None else None


# ---- Values
class Solution:
    """The value of each symbol: 0 to 2 for a bool or tristate, otherwise its text."""

    def __init__(self, tree, given):
        self.tree, self.user, self.known, self.modes = tree, given, {}, {}

    def of(self, name):
        if name not in self.known:
            self.known[name] = self.equation(name)
        return self.known[name]

    def kind(self, name):
        return self.tree.kinds.get(name)

    def truth(self, name):
        return self.of(name) if self.kind(name) in ("bool", "tristate") else N

    def text(self, operand):
        if operand[0] == "text":
            return operand[1]
        value = self.of(operand[1])
        return LETTER[value] if isinstance(value, int) else value

    def number(self, operand):
        if operand[0] == "text":
            return LETTER.find(operand[1]) if operand[1] in ("n", "m", "y") else number_of(None, operand[1])
        kind = self.kind(operand[1])
        return self.of(operand[1]) if kind in ("bool", "tristate") else number_of(kind, self.of(operand[1]))

    def compared(self, a, b):
        left, right = self.number(a), self.number(b)
        if left is None or right is None or all(e[0] == "name" and self.kind(e[1]) == "string" for e in (a, b)):
            left, right = self.text(a).encode(), self.text(b).encode()
        return (left > right) - (left < right)

    def value(self, e):
        if e[0] == "name":
            return self.truth(e[1])
        if e[0] == "text":
            return LETTER.find(e[1]) if e[1] in ("n", "m", "y") else N
        if e[0] == "m":
            return min(M, self.modules())
        if e[0] == "not":
            return 2 - self.value(e[1])
        if e[0] == "relation":
            order = self.compared(e[2], e[3])
            holds = {"=": order == 0, "!=": order != 0, "<": order < 0, "<=": order <= 0, ">": order > 0, ">=": order >= 0}
            return Y if holds[e[1]] else N
        return (min if e[0] == "&&" else max)(map(self.value, e[1]))

    def modules(self):
        return self.truth(self.tree.modules) if self.tree.modules else N

    def part(self, part):
        return self.mode(part[0]) if part[1] == "mode" else self.value(part[1])

    def all_of(self, parts):
        return min([Y, *map(self.part, parts)])

    def mode(self, choice):
        if choice not in self.modes:
            prompt = self.tree.prompt(choice)
            self.modes[choice] = Y if prompt and self.all_of(self.tree.dependency_parts(choice) + self.tree.shown_parts(choice)) else N
        return self.modes[choice]

    def line(self, line):
        return self.all_of(self.tree.line_parts(line))

    def shown(self, entry):
        return self.all_of(self.tree.dependency_parts(entry) + self.tree.shown_parts(entry))

    def prompts(self, name):
        """The greatest of the symbol's prompts."""
        return max([N, *(self.shown(entry) for entry in self.tree.entries.get(name, []) if self.tree.prompt(entry))])

    def upgraded(self, name, value):
        return value if self.kind(name) == "tristate" and self.modules() != N else Y if value else N

    def visibility(self, name):
        return self.upgraded(name, self.prompts(name))

    def direct(self, name):
        return self.upgraded(name, max([N, *(self.all_of(self.tree.dependency_parts(entry)) for entry in self.tree.entries.get(name, []))]))

    def raising(self, word, name):
        return self.tree.raising[word, name] if self.tree.can_be_raised(name) else []

    def raised(self, line):
        return min(self.truth(line.entry.name), self.line(line))

    def raised_to(self, word, name):
        return self.upgraded(name, max([N, *map(self.raised, self.raising(word, name))]))

    def said(self, name, word):
        return [line for entry in self.tree.entries.get(name, []) for line in entry.said(word)]

    def first(self, name, word):
        return next((line for line in self.said(name, word) if self.line(line)), None)

    def default_truth(self, name):
        line = self.first(name, "default")
        return min(self.value(line.value), self.line(line)) if line else N

    def implied(self, name):
        to = self.raised_to("imply", name)
        return min(max(self.default_truth(name), to), self.direct(name)) if to else self.default_truth(name)

    def user_truth(self, name):
        """The user's value, if it counts."""
        return min(self.user.given[name], self.visibility(name)) if name in self.user.given and self.visibility(name) else None

    def default_text(self, name):
        line = self.first(name, "default")
        return self.text(line.value) if line and line.value[0] in ("name", "text") else ""

    def bounds(self, name):
        line = self.first(name, "range")
        return [number_of(self.kind(name), self.text(bound)) or 0 for bound in line.value] if line else None

    def is_within(self, name, text):
        bounds, number = self.bounds(name), number_of(self.kind(name), text) or 0
        return bounds is None or bounds[0] <= number <= bounds[1]

    def user_text(self, name):
        """The user's text, if it counts."""
        text = self.user.given.get(name) if self.visibility(name) else None
        return text if text is not None and (self.kind(name) == "string" or self.is_within(name, text)) else None

    def spelled(self, name, number):
        return f"0x{number:x}" if self.kind(name) == "hex" else str(number)

    def selected(self, choice):
        if self.mode(choice) == N:
            return None
        is_shown = lambda name: name in choice.members and self.prompts(name) != N
        if is_shown(self.user.chosen.get(choice)):
            return self.user.chosen[choice]
        for line in choice.said("default"):
            if line.value[0] == "name" and line.value[1] in choice.members and self.line(line) and is_shown(line.value[1]):
                return line.value[1]
        return next((name for name in choice.members if self.prompts(name)), None)

    def equation(self, name):
        kind, choice = self.kind(name), self.tree.choice_of(name)
        if choice:
            return Y if self.selected(choice) == name else N
        if kind is None:
            return name
        if kind in ("bool", "tristate"):
            own = self.user_truth(name)
            return self.upgraded(name, max(self.implied(name) if own is None else own, self.raised_to("select", name)))
        used = self.user_text(name)
        if used is not None or kind == "string":
            return self.default_text(name) if used is None else used
        text, bounds = self.default_text(name), self.bounds(name)
        number = number_of(kind, text) or 0
        return text if self.is_within(name, text) else self.spelled(name, bounds[0] if number < bounds[0] else bounds[1])

    def source(self, name):
        """Where the value comes from."""
        kind, choice = self.kind(name), self.tree.choice_of(name)
        if choice:
            chosen = self.user.chosen.get(choice)
            return "its choice is n" if self.mode(choice) == N else "choice of the user" if chosen and self.selected(choice) == chosen else "choice by default"
        if kind in ("bool", "tristate"):
            own = self.user_truth(name)
            if self.raised_to("select", name) > self.upgraded(name, self.implied(name) if own is None else own):
                return "selected"
            if own is not None:
                return "user value"
            if self.upgraded(name, self.implied(name)) > self.upgraded(name, self.default_truth(name)):
                return "implied"
            return "default" if self.first(name, "default") else "no default"
        if self.user_text(name) is not None:
            return "user value"
        if self.first(name, "default") is None:
            return "no default"
        return "default" if kind == "string" or self.is_within(name, self.default_text(name)) else "default, moved into its range"


# ---- Explanations


def question(names):
    """The last line of explanations: how to ask what must be set, for the first of the names."""
    return [f"to see what to set: --how {name}=VALUE" for name in list(names)[:1]]
class Explainer:
    """The lines of explanations. A fact is the location of an input line, its words, and the symbols that it names."""

    def __init__(self, solution):
        self.solution, self.tree, self.user = solution, solution.tree, solution.user

    def shown(self, kind, value):
        return LETTER[value] if isinstance(value, int) else f'"{value if self.user.is_raw else escaped(value)}"' if kind == "string" else value

    def worth(self, name):
        return f"{name}={self.shown(self.tree.kinds[name], self.solution.of(name))}"

    def named(self, e):
        if e[0] == "name":
            return [e[1]]
        if e[0] == "relation":
            return self.named(e[2]) + self.named(e[3])
        if e[0] == "m":
            return [self.tree.modules] if self.tree.modules else []
        return [] if e[0] == "text" else self.named(e[1]) if e[0] == "not" else [name for part in e[1] for name in self.named(part)]

    def below_y(self, e):
        return [] if e is None or self.solution.value(e) == Y else self.named(e)

    def mode_names(self, choice):
        """The symbols of what a choice depends on, of the parts below y."""
        parts = self.tree.dependency_parts(choice) + (self.tree.shown_parts(choice) if self.tree.prompt(choice) else [])
        return [name for line, asks in parts if asks != "mode" for name in self.below_y(asks)]

    def parts(self, parts):
        facts = []
        for line, asks in parts:
            value = self.solution.part((line, asks))
            words = "choice" if asks == "mode" else {"depends": "depends on ", "visible": "visible if "}.get(line.word, "if ") + expression_text(asks)
            names = [] if value == Y else self.mode_names(line) if asks == "mode" else self.named(asks)
            facts.append(("", f"  {line.place}{words}: {LETTER[value]}", names))
        return facts

    def dependencies(self, entry):
        parts = self.tree.dependency_parts(entry)
        return [("", f"{entry.place}dependencies: {LETTER[self.solution.all_of(parts)]}", []), *self.parts(parts)]

    def prompt(self, entry):
        line = self.tree.prompt(entry)
        if line is None:
            return []
        return [("", f"{line.place}prompt: {LETTER[self.solution.shown(entry)]}", []), *self.parts(self.tree.shown_parts(entry))]

    def user_facts(self, name):
        facts, kind = [], self.tree.kinds[name]
        if name in self.user.given:
            facts.append((f"{self.user.lines[name]}: ", f"user value {self.shown(kind, self.user.given[name])}", []))
        elif not self.tree.choice_of(name) and self.solution.visibility(name):
            facts.append(("", "no user value", []))
        if name in self.user.refused:
            place, text = self.user.refused[name]
            facts.append((f"{place}: ", f"user value {text}: not allowed for {'an' if kind == 'int' else 'a'} {kind}", []))
        return facts

    def defaults(self, name):
        facts, kind = [], self.tree.kinds[name]
        for line in self.solution.said(name, "default"):
            value, names = self.solution.line(line), self.below_y(line.when)
            words = f"{line.place}default {expression_text(line.value)}{if_text(line.when)}: {LETTER[value]}"
            if value:
                given = self.solution.value(line.value) if kind not in TEXTS else self.solution.text(line.value)
                return [*facts, ("", f"{words}, value {self.shown(kind, given)}", names + self.named(line.value))]
            facts.append(("", words, names))
        return facts

    def ranges(self, name):
        facts, kind = [], self.tree.kinds[name]
        for line in self.solution.said(name, "range"):
            value, names = self.solution.line(line), self.below_y(line.when)
            low, high = line.value
            words = f"{line.place}range {operand_text(low)} {operand_text(high)}{if_text(line.when)}: {LETTER[value]}"
            if value:
                texts = [text if number_of(kind, text) is not None else "0" for text in map(self.solution.text, line.value)]
                return [*facts, ("", f"{words}, {texts[0]} to {texts[1]}", names + self.named(low) + self.named(high))]
            facts.append(("", words, names))
        return facts

    def raised(self, word, name):
        facts, rest = [], 0
        called = {"select": "selected", "imply": "implied"}[word]
        for line in self.solution.raising(word, name):
            value = self.solution.raised(line)
            if value:
                facts.append(("", f"{line.place}{called} by {self.worth(line.entry.name)}{if_text(line.when)}: {LETTER[value]}", []))
            rest += value == N
        more = [("", f"not {called}: 1 line, n" if rest == 1 else f"not {called}: {rest} lines, all n", [])] if rest else []
        return facts + more

    def member(self, name):
        return ("", f"member {name}: {LETTER[self.solution.prompts(name)]}", [])

    def choice(self, choice):
        mode = self.solution.mode(choice)
        facts = [("", f"{choice.place}choice: {LETTER[mode]}", []), *self.parts(self.tree.dependency_parts(choice)), *self.prompt(choice)]
        if mode == N:
            return facts
        chosen = self.user.chosen.get(choice)
        if chosen is None:
            facts.append(("", "no chosen member", []))
        else:
            facts.append((f"{self.user.lines[chosen]}: " if self.user.given[chosen] == Y else "", f"chosen member {chosen}", []))
            facts.append(self.member(chosen))
            if self.solution.prompts(chosen):
                return facts
        for line in choice.said("default"):
            if line.value[0] != "name" or line.value[1] not in choice.members:
                continue
            value, shown = self.solution.line(line), self.solution.prompts(line.value[1])
            words = f"{line.place}default {line.value[1]}{if_text(line.when)}: {LETTER[value]}, its prompt: {LETTER[shown]}"
            facts.append(("", words, self.below_y(line.when)))
            if value and shown:
                return facts
        for name in choice.members:
            facts.append(self.member(name))
            if self.solution.prompts(name):
                break
        return facts

    def facts(self, name):
        kind, choice = self.tree.kinds.get(name), self.tree.choice_of(name)
        if kind is None:
            return []
        entries = self.tree.entries.get(name, [])
        facts = self.user_facts(name)
        for entry in entries:
            facts += self.dependencies(entry)
        for entry in entries:
            facts += self.prompt(entry)
        if choice:
            return facts + self.choice(choice)
        if kind in ("bool", "tristate"):
            if kind == "tristate" and self.tree.modules:
                facts.append(("", f"modules {self.tree.modules}={LETTER[self.solution.modules()]}", []))
            facts += self.raised("select", name)
            if self.solution.user_truth(name) is None and self.solution.raised_to("select", name) != Y:
                facts += self.defaults(name) + self.raised("imply", name)
            return facts
        if kind != "string":
            facts += self.ranges(name)
        return facts + (self.defaults(name) if self.solution.user_text(name) is None else [])

    def head(self, name):
        kind = self.tree.kinds.get(name)
        if kind is None:
            return f"{name}: a symbol without a type" if name in self.tree.entries else f"{name}: not a symbol, only mentioned"
        return f"{self.worth(name)} ({kind}): {self.solution.source(name)}"

    def lines(self, name):
        entries = self.tree.entries.get(name, [])
        path = [f"  {text}" for text in self.tree.menu_path(entries[0])] if entries else []
        return [self.head(name), *path, *(f"  {place}{words}" for place, words, _ in self.facts(name))]

    def held(self, name):
        """The symbols that hold this one down. A word that is a number is none."""
        return [held for _, _, names in self.facts(name) for held in names if self.tree.kinds.get(held) or number_of(None, held) is None]

    def explanation(self, steps, name):
        seen, front = [name], [name]
        for _ in range(steps):
            fresh = list(dict.fromkeys(held for each in front for held in self.held(each) if held not in seen))
            seen, front = seen + fresh, fresh
        return self.lines(name) + [f"  {line}" for each in seen[1:] for line in self.lines(each)]

    def lost(self):
        """The lines of lost values with their explanations, and the causes."""
        lines, names = [], []
        for name in self.tree.defined:
            if name not in self.user.given or self.user.given[name] == self.solution.of(name):
                continue
            kind, given = self.tree.kinds[name], self.user.given[name]
            shown = any(self.tree.prompt(entry) for entry in self.tree.entries[name])
            words = f"{name} was given" if shown else f"{name} has no prompt; it was given"
            lines.append(f"{self.user.lines[name]}: warning K14: {words} {self.shown(kind, given)} and is {self.shown(kind, self.solution.of(name))}")
            lines += [f"  {line}" for line in self.lines(name)]
            names.append(name)
        held = {name: self.held(name) for name in names}
        causes = list(dict.fromkeys(cause for name in names for cause in held[name]))
        for cause in sorted(causes, key=lambda cause: -sum(cause in held[name] for name in names)):
            of_it = [name for name in names if cause in held[name]]
            called = self.worth(cause) if self.tree.kinds.get(cause) else cause
            lines.append(f"  {called} holds down {len(of_it)} of them: {', '.join(of_it)}")
            lines += [f"    {line}" for line in self.lines(cause)] if cause not in names else []
        return [*lines, *(f"  {line}" for line in question(names))]

    def comments(self, name):
        """The definitions of a symbol as they are written."""
        lines, places = [], set()
        for entry in self.tree.entries[name]:
            if (entry.file, entry.number) in places:
                continue
            places.add((entry.file, entry.number))
            lines += [f"{entry.file}:{entry.number}", *self.tree.menu_path(entry), *self.excerpt(entry)]
        return "".join(f"# {line}\n" for line in lines)

    def excerpt(self, entry):
        text = self.tree.files[entry.file].split("\n")[entry.number - 1 : [entry, *entry.lines][-1].end]
        while text and not text[-1].strip(" \t\r"):
            text.pop()
        return text


# ---- Comparing
def compare(what, found, wanted):
    if found != wanted:
        lines = difflib.unified_diff(wanted.splitlines(), found.splitlines(), "computed", "kconf", lineterm="")
        raise Differs(f"{what}:\n" + "\n".join(lines))


class Case:
    """One tree and one of its inputs."""

    def __init__(self, runner, tree, streams, flags):
        self.runner, self.tree = runner, tree
        self.user = Input(tree, streams, "--raw-strings" in flags)
        self.explainer = Explainer(Solution(tree, self.user))
        self.words = ["--config", streams[0][0], *flags]
        self.last = ["Kconfig", *(name for name, _ in streams[1:])]

    def check(self, steps, counts):
        status, _, told = self.runner.run(*self.words, "--out", "out.config", "--list-new", "new", "--warn-lost", "--explain-lost", *self.last)
        if status:
            raise Differs(f"status {status}: {told}")
        self.check_values(counts)
        self.check_lost(told, counts)
        self.check_help(counts)
        asked = [f"--explain={name}" for name in self.tree.mentioned]
        _, alone, _ = self.runner.run(*self.words, *asked, "--explain-depth", "0", *self.last)
        bodies = {name: self.explainer.lines(name) for name in self.tree.mentioned}
        compare("--explain-depth 0", alone, "".join(f"{line}\n" for line in [*(line for body in bodies.values() for line in body), *question(self.tree.mentioned)]))
        _, text, _ = self.runner.run(*self.words, *asked, "--explain-depth", str(steps), *self.last)
        wanted = [line for name in self.tree.mentioned for line in self.explainer.explanation(steps, name)]
        compare(f"--explain-depth {steps}", text, "".join(f"{line}\n" for line in [*wanted, *question(self.tree.mentioned)]))
        counts["explanations"] += len(self.tree.mentioned)
        counts["lines"] += len(alone.splitlines()) + len(text.splitlines())
        return self.printed(alone, bodies)

    def printed(self, alone, bodies):
        """The printed words of each symbol, without the locations in input files, and its printed value."""
        lines, made = iter(alone.splitlines()), {}
        for name, body in bodies.items():
            found = [next(lines) for _ in body]
            if self.tree.kinds[name]:
                words = "\n".join(re.sub(r"^  (dot|more)\.config:\d+: ", "  ", line) for line in found[1:])
                made[name] = (words, found[0].rpartition(": ")[0])
        return made

    def check_values(self, counts):
        text = pathlib.Path(self.runner.folder, "out.config").read_bytes().decode("latin1")
        for name, value in Input(self.tree, [("out", text)], self.user.is_raw).given.items():
            counts["written values"] += 1
            if value != self.explainer.solution.of(name):
                raise Differs(f"{name} is written as {value!r}, and {self.explainer.solution.of(name)!r} was computed")

    def check_lost(self, told, counts):
        wanted = self.explainer.lost()
        lines = told.splitlines()
        cut = next((at for at, line in enumerate(lines) if " warning K14: " in line), len(lines))
        compare("--explain-lost", "\n".join(lines[cut:]), "\n".join(wanted))
        counts["lost values"] += sum(" warning K14: " in line for line in wanted)
        counts["causes"] += sum(" of them: " in line for line in wanted)

    def check_help(self, counts):
        self.runner.run(*self.words, "--out", "out.config", "--list-new", "help", "--with-help", *self.last)
        plain, found = (pathlib.Path(self.runner.folder, name).read_bytes().decode("latin1") for name in ("new", "help"))
        name_of = lambda line: re.match(r"(?:# )?CONFIG_(\w+)", line)[1]
        compare("--with-help", found, "".join(f"{self.explainer.comments(name_of(line))}{line}\n\n" for line in plain.splitlines()))
        counts["new symbols"] += len(plain.splitlines())


def inputs(pick, tree):
    """Settings of a tree: some that are independent, and some that differ from these in one line or a few."""
    made = [tree.settings() for _ in range(4)]
    while len(made) < INPUTS:
        lines = pick.choice(made).splitlines() or [""]
        for _ in range(pick.choice([1, 1, 2, 4])):
            other = tree.settings().splitlines() or [""]
            place = pick.randrange(len(lines))
            lines = lines[:place] + [pick.choice(other)] + lines[place + pick.choice([0, 1]) :]
        made.append("\n".join(lines) + "\n")
    return made


def laid_out(pick, text):
    """The same lines with other blanks, comments and empty lines between them, and some lines in two parts. Help texts stay."""
    made, after_help = [], False
    for line in text.split("\n"):
        words = line.strip(" \t")
        if line.startswith("\t  ") or pick.random() < 0.4:
            made.append(line)
        elif words or pick.random() < 0.5:
            words = words.replace(" && ", " \\\n && ", 1) if pick.random() < 0.3 else words
            made.append(pick.choice(["", " ", "\t", "\t"] + ["\t\t  "] * (not after_help)) + words)
        if pick.random() < 0.1 and words != "help":
            made.append(pick.choice(["# a comment", "\t# a comment", "", " "]))
        after_help = line.startswith("\t  ") or (after_help and not words) or words == "help"
    return "\n".join(made)


def check_tree(runner, pick, counts):
    """Checks one random tree with its inputs, if KCONF accepts it."""
    made = fuzz.Tree(pick)
    files = {"Kconfig": made.root(), **made.files}
    if pick.random() < 0.5:
        files = {name: laid_out(pick, text) for name, text in files.items()}
    for name, text in files.items():
        pathlib.Path(runner.folder, name).write_text(text)
    if runner.run("--config", "none", "--out", "out.config", "Kconfig")[0]:
        counts["refused trees"] += 1
        return
    counts["trees"] += 1
    tree = Tree(files, "Kconfig")
    seen = {}
    for text in inputs(pick, made):
        streams = [("dot.config", text)] + ([("more.config", made.settings())] if pick.random() < 0.3 else [])
        for name, content in streams:
            pathlib.Path(runner.folder, name).write_text(content)
        flags = pick.choice([[], [], [], ["--raw-strings"]])
        counts["inputs"] += 1
        for name, (words, head) in Case(runner, tree, streams, flags).check(pick.choice([1, 2, 3]), counts).items():
            value, key = head.rpartition(" (")[0], (name, words, bool(flags))
            counts["facts that came again"] += key in seen
            if seen.setdefault(key, value) != value:
                raise Differs(f"{seen[key]} and {value} have the same lines:\n{words}")


if __name__ == "__main__":
    check_trees(__doc__, "explain", check_tree, (" differs", "no difference"))
