"""`kconf --explain` on a real tree: each fact of the explanations of random symbols, by kconfiglib on the same flat file.

kconfiglib reads the flat file and the configuration. Then each line that kconf prints is asked of it: the value and the type of the
symbol, the menus around it, the user's value, the value of each dependency, prompt and part of a condition, of each default, range and
of each line that selects or implies, how many lines do not, and the mode, the chosen member and the members of a choice. Locations
count: a line has to say it.

Then bench/explain.py, which shares no code with kconf, reads the flat file too: it computes the explanation of every symbol, and the
lost values with their causes. kconf has to print the same bytes.
"""

import collections
import importlib.util
import os
import pathlib
import random
import re
import shlex
import subprocess
import sys
import tempfile
import threading
import time

COUNT = 200
HEAD = re.compile(r"(\w+)(?:=(.*))? \((\w+)\): (.*)|(\w+): (?:not a symbol, only mentioned|a symbol without a type)")
FACT = re.compile(r" +(\S+):(\d+): (.*)")
TARGET = re.compile(r"(selected|implied) by (\w+)=([nmy])(?: if (.*))?: ([my])")
REST = re.compile(r"  not (selected|implied): (\d+) lines?, (?:all )?n")


class Wrong(Exception):
    """A line that kconfiglib contradicts."""


def wants(holds, what):
    if not holds:
        raise Wrong(what)


class Facts:
    """What kconfiglib says of a flat file and a configuration."""

    def __init__(self, flat, config):
        sys.path += [folder for folder in os.environ.get("PYTHONPATH", "").split(":") if folder not in sys.path]
        import kconfiglib
        self.library = kconfiglib
        os.environ["CONFIG_"] = "CONFIG_"
        # kconfiglib knows the older form of a `modules` line.
        self.name = flat.name
        with tempfile.NamedTemporaryFile("w", suffix=".Kconfig") as copy:
            copy.write(re.sub(r"(?m)^(\s+)modules$", r"\1option modules", flat.read_text(errors="surrogateescape")))
            copy.flush()
            self.tree = kconfiglib.Kconfig(copy.name, warn=False)
        self.tree.load_config(str(config))
        self.nodes = {node.linenr: node for node in self.tree.node_iter() if isinstance(node.item, (kconfiglib.Symbol, kconfiglib.Choice))}
        self.starts = sorted(self.nodes)
        self.raising = collections.defaultdict(list)
        for node in self.nodes.values():
            for word, pairs in (("selected", node.selects), ("implied", node.implies)):
                for target, condition in pairs:
                    self.raising[word, target].append((node.item, condition))

    def value(self, expression):
        """The value of an expression, given as kconfiglib has it."""
        return self.library.TRI_TO_STR[self.library.expr_value(expression)]

    def text_value(self, text):
        """The value of an expression, given as it is written."""
        return self.library.TRI_TO_STR[self.tree.eval_string(text)]

    def node_before(self, line):
        """The entry that a line of the file belongs to."""
        import bisect
        return self.nodes[self.starts[bisect.bisect_right(self.starts, line) - 1]]


class Explanation:
    """The lines about one symbol."""

    def __init__(self, facts, lines, config_lines):
        self.facts, self.lines, self.config_lines = facts, lines, config_lines
        self.symbol = None

    def check(self):
        """Asks kconfiglib for each line; how many there are."""
        self._head(self.lines[0])
        for line in self.lines[1:]:
            try:
                self._fact(line)
            except Wrong as wrong:
                raise Wrong(f"{self.lines[0]}\n  {line.strip()}\n  {wrong}") from wrong
        return len(self.lines)

    def _head(self, line):
        found = HEAD.fullmatch(line)
        wants(found, f"not read: {line}")
        if found[5]:
            symbol = self.facts.tree.syms.get(found[5])
            wants(symbol is None or symbol.orig_type == self.facts.library.UNKNOWN, f"{line}: it has a type")
            return
        self.symbol = self.facts.tree.syms[found[1]]
        wants(found[3] == self.facts.library.TYPE_TO_STR[self.symbol.orig_type], f"{line}: the type")
        wants(self._is_value(self.symbol, found[2]), f"{line}: kconfiglib says {self.symbol.str_value}")
        if found[4] == "user value":
            wants(self.symbol.user_value is not None and self.symbol.visibility > 0, f"{line}: the user has no say")
        if found[4] in ("choice of the user", "choice by default", "its choice is n"):
            self._choice_source(found[4])

    def _choice_source(self, source):
        choice = self.symbol.choice
        wants(choice is not None, "it is in no choice")
        wants((source == "its choice is n") == (choice.tri_value == 0), "the mode of the choice")
        if source == "choice of the user":
            wants(choice.user_selection is not None and choice.selection is choice.user_selection, "the selection")

    def _is_value(self, symbol, text):
        if symbol.orig_type == self.facts.library.STRING:
            text = re.sub(r"\\(.)", r"\1", text[1:-1])
        return symbol.str_value == text

    def _is_worth(self, item, shown, said):
        """Whether the condition of an item is worth what is shown. For a bool member of a choice m counts as y: kconfiglib takes
        what is around it from the mode of the choice alone, which is y then."""
        if isinstance(item, self.facts.library.Symbol) and item.choice and item.orig_type == self.facts.library.BOOL:
            return (shown == "n") == (said == "n")
        return shown == said

    def _fact(self, line):
        if line.startswith("  in "):
            return self._menus(line)
        if line == "  no user value":
            return wants(self.symbol.user_value is None and self.symbol.visibility and not self.symbol.choice, f"kconfiglib says {self.symbol.user_value}")
        if line == "  no chosen member":
            return wants(self.symbol.choice.user_selection is None, f"kconfiglib says {self.symbol.choice.user_selection}")
        if found := re.fullmatch(r"  (?:(\S+):(\d+): )?chosen member (\w+)", line):
            return self._chosen(found)
        if found := REST.fullmatch(line):
            return self._rest(found[1], int(found[2]))
        if found := re.fullmatch(r"  member (\w+): ([nmy])", line):
            member = self.facts.tree.syms[found[1]]
            wants(member.choice is self.symbol.choice, "it is no member")
            return wants(self._is_worth(member, found[2], self.facts.library.TRI_TO_STR[member.visibility]), f"kconfiglib says {member.visibility}")
        if found := re.fullmatch(r"  modules (\w+)=([nmy])", line):
            return wants(self.facts.tree.modules.str_value == found[2] and found[1] == self.facts.tree.modules.name, "the modules symbol")
        found = FACT.fullmatch(line)
        wants(found, "not read")
        if found[1] != self.facts.name:
            return self._input(int(found[2]), found[3])
        return self._tree(int(found[2]), found[3], line.startswith("    "))

    def _menus(self, line):
        """The titles of the menus around the first definition."""
        node, titles = self.symbol.nodes[0].parent, []
        while node is not self.facts.tree.top_node:
            titles = [node.prompt[0]] * (node.item == self.facts.library.MENU) + titles
            node = node.parent
        wants(line == f"  in {' > '.join(titles)}", f"kconfiglib says {titles}")

    def _chosen(self, found):
        """The member that a line chose."""
        chosen = self.symbol.choice.user_selection
        wants(chosen is not None and chosen.name == found[3], f"kconfiglib says {chosen}")
        if found[2]:
            wants(self.config_lines[int(found[2]) - 1] == f"CONFIG_{found[3]}=y", f"the line is {self.config_lines[int(found[2]) - 1]}")

    def _rest(self, word, count):
        """How many lines select or imply the symbol to n, and that the others are shown."""
        values = [min(item.tri_value, self.facts.library.expr_value(condition)) for item, condition in self.facts.raising[word, self.symbol]]
        shown = sum(f": {word} by " in line for line in self.lines)
        wants((count, shown) == (values.count(0), len(values) - values.count(0)), f"kconfiglib says {values.count(0)} of {len(values)}")

    def _input(self, number, text):
        """A line of the configuration."""
        given = self.config_lines[number - 1]
        name = self.symbol.name
        wants(given in (f"# CONFIG_{name} is not set",) or given.startswith(f"CONFIG_{name}="), f"the line is {given}")
        value = "n" if given.startswith("#") else given.partition("=")[2]
        kind = self.facts.library.TYPE_TO_STR[self.symbol.orig_type]
        refused = f"user value {value}: not allowed for {'an' if kind == 'int' else 'a'} {kind}"
        wants(text in (f"user value {value}", refused), f"the line is {given}")

    def _tree(self, number, text, is_part):
        facts = self.facts
        words, _, value = text.rpartition(": ")
        if is_part:
            if words == "choice":
                choice = facts.nodes[number].item
                return wants(facts.library.TRI_TO_STR[choice.tri_value] == value, f"kconfiglib says {choice.tri_value}")
            found = re.fullmatch(r"(?:depends on|visible if|if) (.*)", words)
            return wants(found and facts.text_value(found[1]) == value, f"kconfiglib says {facts.text_value(found[1])}")
        if words == "dependencies":
            node = facts.nodes[number]
            wants(node.item is self.symbol, f"there is {node.item}")
            return wants(self._is_worth(node.item, value, facts.value(node.dep)), f"kconfiglib says {facts.value(node.dep)}")
        node = facts.node_before(number)
        if words == "prompt":
            wants(node.item in (self.symbol, self.symbol.choice) and node.prompt, "there is no prompt")
            return wants(self._is_worth(node.item, value, facts.value(node.prompt[1])), f"kconfiglib says {facts.value(node.prompt[1])}")
        if words == "choice":
            return wants(facts.library.TRI_TO_STR[node.item.tri_value] == value, f"kconfiglib says {node.item.tri_value}")
        if found := TARGET.fullmatch(text):
            return self._target(node, found)
        if text.startswith("default "):
            return self._default(node, text)
        if found := re.fullmatch(r"range (\S+) (\S+)(?: if (.*))?: ([nmy])(?:, (\S+) to (\S+))?", text):
            wants(node.item is self.symbol, f"there is {node.item}")
            wants(self._under(node, found[3]) == found[4], f"kconfiglib says {self._under(node, found[3])}")
            return self._bounds(found[4], list(found.group(5, 6)))
        raise Wrong("not read")

    def _bounds(self, value, shown):
        """The bounds of the range that counts. A text that is no number counts as 0."""
        if value == "n":
            return wants(shown == [None, None], "it does not count")
        base = 16 if self.symbol.orig_type == self.facts.library.HEX else 10
        first = next(found for found in self.symbol.ranges if self.facts.library.expr_value(found[2]))
        texts = [bound.str_value if self.facts.library._is_base_n(bound.str_value, base) else "0" for bound in first[:2]]
        return wants(texts == shown, f"kconfiglib says {texts}")

    def _under(self, node, condition):
        """The value of an entry's dependency and a line's own condition."""
        own = 2 if condition is None else self.facts.tree.eval_string(condition)
        return self.facts.library.TRI_TO_STR[min(self.facts.library.expr_value(node.dep), own)]

    def _target(self, node, found):
        target = self.facts.tree.syms[found[2]]
        wants(node.item is target, f"there is {node.item.name}")
        wants(self._is_value(target, found[3]), f"kconfiglib says {target.str_value}")
        pairs = target.selects if found[1] == "selected" else target.implies
        wants(any(pair[0] is self.symbol for pair in pairs), "there is no such line")
        under = self.facts.library.STR_TO_TRI[self._under(node, found[4])]
        value = self.facts.library.TRI_TO_STR[min(target.tri_value, under)]
        wants(self._is_worth(target, found[5], value), f"kconfiglib says {value}")

    def _default(self, node, text):
        wants(node.item in (self.symbol, self.symbol.choice), f"there is {node.item}")
        if found := re.fullmatch(r"default (\w+)(?: if (.*))?: ([nmy]), its prompt: ([nmy])", text):
            member = self.facts.tree.syms[found[1]]
            wants(node.item is self.symbol.choice and member.choice is node.item, "it is no member")
            wants(self._is_worth(member, found[4], self.facts.library.TRI_TO_STR[member.visibility]), f"kconfiglib says {member.visibility}")
            return wants(self._under(node, found[2]) == found[3], f"kconfiglib says {self._under(node, found[2])}")
        found = re.fullmatch(r"default (.*?)(?: if ([^\"]*))?: ([nmy])(?:, value (.*))?", text)
        wants(found, "not read")
        wants(self._under(node, found[2]) == found[3], f"kconfiglib says {self._under(node, found[2])}")
        wants((found[4] is None) == (found[3] == "n"), "a value stands exactly if the default counts")
        if found[4] is None:
            return None
        if self.symbol.orig_type in (self.facts.library.BOOL, self.facts.library.TRISTATE):
            return wants(self.facts.text_value(found[1]) == found[4], f"kconfiglib says {self.facts.text_value(found[1])}")
        first = next(default for default, condition in self.symbol.defaults if self.facts.library.expr_value(condition))
        shown = re.sub(r"\\(.)", r"\1", found[4][1:-1]) if self.symbol.orig_type == self.facts.library.STRING else found[4]
        return wants(first.str_value == shown, f"kconfiglib says {first.str_value}")


def explanations(text):
    """The lines about each symbol: those of a symbol that holds another one down lose two spaces. The last line is about none."""
    made, is_inside = [], False
    for line in text.splitlines()[:-1]:
        is_head = re.fullmatch(r"(?:  )?(?:\w+=.* \((?:bool|tristate|string|int|hex)\): .*|\w+: (?:not a symbol, only mentioned|a symbol without a type))", line)
        if is_head:
            is_inside = line.startswith("  ")
            made.append([])
        made[-1].append(line[2:] if is_inside else line)
    return made


def asked(facts, seed):
    """The options that ask for random symbols."""
    names = [symbol.name for symbol in facts.tree.unique_defined_syms]
    return [word for name in random.Random(seed).sample(names, COUNT) for word in ("--explain", name)]


def check(kconf, flat, config, facts, words):
    """Explains the symbols that the options ask for and checks each line; the numbers of symbols and lines, and what is wrong."""
    ran = subprocess.run([str(kconf), "--root", str(flat.parent), "--config", str(config), *words, flat.name], stdin=subprocess.DEVNULL,
                         capture_output=True, text=True, check=True)
    config_lines = config.read_text().splitlines()
    wrong, count, all_made = [], 0, explanations(ran.stdout)
    for lines in all_made:
        try:
            count += Explanation(facts, lines, config_lines).check()
        except (Wrong, KeyError, IndexError) as fault:
            wrong.append(f"{lines[0]}: {fault!r}" if not isinstance(fault, Wrong) else str(fault))
    return len(all_made), count, wrong


def seconds(command):
    """The least time of five runs."""
    times = []
    for _ in range(5):
        began = time.monotonic()
        subprocess.run(command, stdin=subprocess.DEVNULL, capture_output=True, check=True)
        times.append(time.monotonic() - began)
    return min(times)


def reader():
    """bench/explain.py, which has the name of this module."""
    folder = pathlib.Path(__file__).resolve().parents[1]
    sys.path.append(str(folder))
    found = importlib.util.spec_from_file_location("reader", folder / "explain.py")
    module = importlib.util.module_from_spec(found)
    found.loader.exec_module(module)
    return module


def whole(kconf, flat, config):
    """Compares the explanations of all names of the tree, and of all lost values, with those that bench/explain.py computes."""
    read = reader()
    tree = read.Tree({flat.name: flat.read_bytes().decode("latin1")}, flat.name)
    user = read.Input(tree, [(str(config), config.read_bytes().decode("latin1"))], False)
    explainer = read.Explainer(read.Solution(tree, user))
    command = [str(kconf), "--root", str(flat.parent), "--config", str(config), flat.name]
    wanted, names, differing, lines = explainer.lost(), list(tree.mentioned), 0, 0
    ran = subprocess.run([*command, "--out", "/dev/null", "--warn-lost", "--explain-lost"], stdin=subprocess.DEVNULL, capture_output=True, check=True)
    told = ran.stderr.decode("latin1").splitlines()
    differing += told[next((at for at, line in enumerate(told) if " warning K14: " in line), len(told)) :] != wanted
    for first in range(0, len(names), 4000):
        part = names[first : first + 4000]
        asks = [f"--explain={name}" for name in part]
        ran = subprocess.run([*command, "--explain-depth", "0", *asks], stdin=subprocess.DEVNULL, capture_output=True, check=True)
        made = [line for name in part for line in explainer.lines(name)] + read.question(part)
        differing += ran.stdout.decode("latin1").splitlines() != made
        lines += len(made)
    print(f"  explanations, {config.name}: all {len(names)} names, {lines} lines, {len(wanted)} lines of lost values, {differing} runs that differ")
    return not differing


def is_whole(kconf, flat, config):
    """The same, with a stack for the longest chain of a tree."""
    sys.setrecursionlimit(10_000_000)
    threading.stack_size(1 << 30)
    found = []
    thread = threading.Thread(target=lambda: found.append(whole(kconf, flat, config)))
    thread.start()
    thread.join()
    threading.stack_size(0)
    return found == [True]


def all_of(kconf, flat, config, seed):
    """Checks one tree with one configuration, prints what came, and tells whether nothing is wrong.

    kconf reads the flat file without --flat, so that each fact has its line in it. For that no $ may stand in quotes.
    """
    text = flat.read_text(errors="surrogateescape").replace("$", "")
    flat = flat.with_suffix(".plain")
    flat.write_text(text, errors="surrogateescape")
    facts = Facts(flat, config)
    symbols, lines, wrong = check(kconf, flat, config, facts, [*asked(facts, seed), "--explain-depth", "0"])
    more, more_lines, more_wrong = check(kconf, flat, config, facts, asked(facts, seed + 1))
    with tempfile.TemporaryDirectory() as folder:
        plain = [str(kconf), "--root", str(flat.parent), "--config", str(config), "--out", f"{folder}/.config", flat.name]
        times = [seconds(plain), seconds([*plain, *asked(facts, seed)[:2]]), seconds([*plain, *asked(facts, seed)])]
    print(f"  explanations, {config.name}: {symbols + more} symbols, {lines + more_lines} lines, {len(wrong + more_wrong)} wrong; a plain run "
          f"{times[0] * 1000:.0f} ms, one explanation {times[1] * 1000:.0f} ms, {COUNT} explanations {times[2] * 1000:.0f} ms")
    for text in (wrong + more_wrong)[:20]:
        print(f"    {text}")
    return is_whole(kconf, flat, config) and not wrong and not more_wrong


def stories(tree, kconf, companion, configurations, work):
    """Runs the commands of docs/why.md that ask about these configurations of the tree, and tells whether they print what the page says."""
    page = (pathlib.Path(__file__).resolve().parents[2] / "docs/why.md").read_text()
    settings = {**os.environ, "KCONF": str(kconf), "XDG_CACHE_HOME": str(work / "cache")}
    differing = count = 0
    for block in re.findall(r"(?s)```console\n\$ kconf-tree (.*?)```", page):
        command, _, told = block.partition("\n")
        words = shlex.split(command)
        if "|" in command or words[words.index("--config") + 1] not in configurations:
            continue
        ran = subprocess.run([companion, *words], cwd=tree.folder, stdin=subprocess.DEVNULL, capture_output=True, text=True, env=settings, check=False)
        count += 1
        if ran.stdout != told or ran.returncode:
            differing += 1
            print(f"  docs/why.md, {command}: differs, status {ran.returncode}\n{ran.stdout}")
    print(f"  docs/why.md: {count} commands, {differing} that print something else")
    return count > 0 and not differing


def story_of_linux(tree, kconf, companion, config, work):
    """The same with a configuration of another tree."""
    copy = tree.folder / "config.amd64_none_amd64"
    copy.write_bytes(config.read_bytes())
    is_right = stories(tree, kconf, companion, [copy.name], work)
    copy.unlink()
    return is_right


if __name__ == "__main__":
    if len(sys.argv) != 4:
        sys.exit("usage: explain.py KCONF FLAT CONFIG")
    sys.exit(not all_of(pathlib.Path(sys.argv[1]).resolve(), pathlib.Path(sys.argv[2]).resolve(), pathlib.Path(sys.argv[3]).resolve(), 1))
