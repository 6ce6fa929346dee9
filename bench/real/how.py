#!/usr/bin/python3
"""Answers of --how on a real tree, each checked: how.py KCONF FLAT CONFIG [COUNT] [SEED] [kconf options]

Asks COUNT questions of a flat tree and a configuration, at random: prompts that are off shall be y (a tristate also m), prompts that are on shall be
n, texts and numbers shall have another value, and symbols without a prompt shall be y. Then

- kconf runs with each answer as the last input: the symbol has the value, and no symbol is newly selected above its dependencies (K11);
- kconf runs once more for each line of each answer, with that line left out: the value is not there, or there is a new K11;
- kconfiglib says of each answer whether it gives the value, and where it does not, the tree's own conf, if CONF names it;
- kconfiglib tries 200 random fragments against each answer that says "impossible". They set symbols on which the value depends, half of them over
  the configuration and half over none. If one reaches the value, kconf tries it too.

Prints the shares, the lines of an answer, the processor time of a question as a multiple of that of a plain run (median, 90 %, most), and what is
wrong. ANSWERS names a file to which each answer is added, as a line of JSON; a later run takes from there what was asked already. JOBS is the number of
questions that are asked at once (2). The status is 1 if an answer is wrong.

`bench/real.sh how` asks questions of the trees and configurations of `setups`, COUNT of each (250).
"""

import collections
import concurrent.futures
import dataclasses
import json
import os
import pathlib
import random
import re
import subprocess
import sys
import tempfile

import conf
import trees

FRAGMENTS = 200
BATCH = 100
MOST = 300
COMMENT = re.compile(r"# (other values that change: |overrides |loses )|# CONFIG_\S+=.* already$")
SETTING = re.compile(r"CONFIG_(\w+)=(.*)|# CONFIG_(\w+) is not set")
CONFLICT = re.compile(r"(?m)^(\S+): warning K11: (\S+) is selected")
KINDS = {"error E25": "impossible", "error E26": "open"}


# ---- The tree, as kconfiglib reads it
class Facts:
    """What kconfiglib says of a flat file and a configuration."""

    def __init__(self, flat, config):
        sys.path += [folder for folder in os.environ.get("PYTHONPATH", "").split(":") if folder not in sys.path]
        import kconfiglib
        self.library = kconfiglib
        os.environ["CONFIG_"] = "CONFIG_"
        with tempfile.NamedTemporaryFile("w", suffix=".Kconfig", errors="surrogateescape") as copy:
            copy.write(re.sub(r"(?m)^(\s+)modules$", r"\1option modules", flat.read_text(errors="surrogateescape")))
            copy.flush()
            self.tree = kconfiglib.Kconfig(copy.name, warn=False)
        self.config = str(config)
        self.tree.load_config(self.config)

    def symbols(self):
        return [symbol for symbol in self.tree.unique_defined_syms if symbol.orig_type]

    def is_truth(self, symbol):
        return symbol.orig_type in (self.library.BOOL, self.library.TRISTATE)

    def has_prompt(self, symbol):
        return any(node.prompt for node in symbol.nodes)

    def load(self, is_over_config):
        """Takes the values of the configuration, or none."""
        if is_over_config:
            self.tree.load_config(self.config)
        else:
            self.tree.unset_values()

    def value_with(self, given, name):
        """The value of a symbol with these values beside those that were loaded."""
        symbols = [self.tree.syms[other] for other in given]
        choices = {symbol.choice for symbol in symbols if symbol.choice}
        kept = [(symbol, symbol.user_value) for symbol in symbols]
        chosen = [(choice, choice.user_selection, choice.user_value) for choice in choices]
        for symbol, value in zip(symbols, given.values()):
            symbol.set_value(value)
        found = self.tree.syms[name].str_value
        for symbol, value in kept:
            symbol.user_value = value
            symbol._rec_invalidate()
        for choice, selection, value in chosen:
            choice.user_selection, choice.user_value = selection, value
            choice._rec_invalidate()
        return found

    def needs(self, item):
        """What the value of a symbol, or the mode of a choice, depends on."""
        asked = [item.direct_dep]
        if isinstance(item, self.library.Symbol):
            asked += [item.rev_dep, item.weak_rev_dep]
        for node in item.nodes:
            asked += [node.prompt[1]] if node.prompt else []
            asked += [part for default in node.defaults for part in default]
            asked += [part for limits in node.ranges for part in limits]
        found = {needed for condition in asked for needed in self.library.expr_items(condition)}
        return found | set(item.syms if isinstance(item, self.library.Choice) else [item.choice] if item.choice else [])

    def all_needs(self, name):
        """The symbols with prompts on which the value depends, in the order of the steps that lead there, and the number of those in each step."""
        seen, front, layers = set(), [self.tree.syms[name]], []
        while front:
            seen |= set(front)
            layers.append([item for item in front if isinstance(item, self.library.Symbol) and item.orig_type and self.has_prompt(item)])
            front = sorted({needed for item in front for needed in self.needs(item)} - seen, key=lambda item: item.name or "")
        return layers


def questions(facts, pick, count):
    """Names with values that they do not have."""
    library, symbols = facts.library, facts.symbols()
    off = [s for s in symbols if facts.is_truth(s) and facts.has_prompt(s) and s.str_value == "n"]
    on = [s for s in symbols if facts.is_truth(s) and facts.has_prompt(s) and s.str_value == "y"]
    texts = [s for s in symbols if not facts.is_truth(s) and facts.has_prompt(s)]
    hidden = [s for s in symbols if facts.is_truth(s) and not facts.has_prompt(s) and s.str_value == "n"]
    made = []
    for share, group in ((0.45, off), (0.25, on), (0.1, texts), (0.2, hidden)):
        for symbol in pick.sample(group, min(int(count * share), len(group))):
            if facts.is_truth(symbol):
                values = ["n"] if symbol.str_value == "y" else ["y"] if symbol.orig_type == library.BOOL or not facts.has_prompt(symbol) else ["y", "m"]
                made += [(symbol.name, value) for value in values]
            else:
                made.append((symbol.name, {library.INT: "7", library.HEX: "0x1230", library.STRING: "abc"}[symbol.orig_type]))
    pick.shuffle(made)
    return made[:count]


# ---- Runs of kconf
def unquoted(text):
    return re.sub(r"\\(.)", r"\1", text[1:-1]) if text.startswith('"') else text


def settings(lines):
    """The values that lines of a .config give."""
    found = filter(None, map(SETTING.fullmatch, lines))
    return {line[1] or line[3]: unquoted(line[2]) if line[1] else "n" for line in found}


@dataclasses.dataclass
class Outcome:
    """What a run gives: the values that it writes, and the symbols that are selected above their dependencies."""

    values: dict
    conflicts: set

    def has(self, name, value):
        """Whether a symbol has a value. One without a line is n, or empty."""
        return self.values.get(name, "n" if value in ("n", "m", "y") else "") == value


class Runner:
    """kconf over a flat tree and a configuration."""

    def __init__(self, kconf, flat, config, options):
        self.words = [kconf, *options, "--quiet-tree"]
        self.flat, self.config = flat, config
        text = config.read_text(errors="surrogateescape")
        self.text = text if text.endswith("\n") or not text else f"{text}\n"

    def run(self, *words):
        """One run: its status, its two texts, and its processor time."""
        with tempfile.TemporaryFile("w+", errors="surrogateescape") as out, tempfile.TemporaryFile("w+", errors="surrogateescape") as err:
            child = subprocess.Popen([*self.words, *words, str(self.flat)], stdin=subprocess.DEVNULL, stdout=out, stderr=err)
            _, status, usage = os.wait4(child.pid, 0)
            child.returncode = os.waitstatus_to_exitcode(status)
            out.seek(0)
            err.seek(0)
            return child.returncode, out.read(), err.read(), usage.ru_utime + usage.ru_stime

    def plain_seconds(self):
        """The processor time of a run that writes the .config."""
        return part([self.run("--config", str(self.config), "--out", "/dev/null")[3] for _ in range(7)], 0.5)

    def outcomes(self, texts):
        """The outcome of each of these configurations, a few at a time."""
        for first in range(0, len(texts), BATCH):
            with tempfile.TemporaryDirectory() as folder:
                paths = [pathlib.Path(folder, str(number)) for number, _ in enumerate(texts[first : first + BATCH])]
                for path, text in zip(paths, texts[first:]):
                    path.write_text(text, errors="surrogateescape")
                pathlib.Path(folder, "list").write_text("".join(f"{path}\n" for path in paths))
                status, _, said, _ = self.run("--each-from", f"{folder}/list", "--out", "{}.out")
                if status:
                    sys.exit(f"kconf --each-from ended with status {status}: {said[-600:]}")
                conflicts = collections.defaultdict(set)
                for path, name in CONFLICT.findall(said):
                    conflicts[path].add(name)
                for path in paths:
                    lines = pathlib.Path(f"{path}.out").read_text(errors="surrogateescape").splitlines()
                    yield Outcome(settings(lines), conflicts[str(path)])

    def with_lines(self, lines):
        return self.text + "".join(f"{line}\n" for line in lines)


@dataclasses.dataclass
class Answer:
    """One question, and what kconf answers."""

    name: str
    value: str
    kind: str
    lines: list
    comments: list
    told: str
    seconds: float

    @property
    def question(self):
        return f"{self.name}={self.value}"


def asked(runner, name, value):
    """Asks kconf."""
    status, text, said, seconds = runner.run("--config", str(runner.config), "--how", f"{name}={value}")
    text = text.splitlines() if status == 0 else []
    lines = [line for line in text if not COMMENT.match(line)]
    said = said[said.find("error ") :] if status else ""
    kind = ("found" if lines else "held") if status == 0 else KINDS.get(said[:9], f"status {status}")
    return Answer(name, value, kind, lines, [line for line in text if COMMENT.match(line)], said, seconds)


def asked_all(runner, wanted):
    """Asks all questions; those that are in the file of answers, of this tree and configuration, are not asked again."""
    path, place = pathlib.Path(os.environ.get("ANSWERS", os.devnull)), f"{runner.flat} {runner.config}"
    kept = [json.loads(line) for line in path.read_text().splitlines()] if path.is_file() else []
    answers = [Answer(**line["answer"]) for line in kept if line["place"] == place]
    known = {(answer.name, answer.value): answer for answer in answers}
    with concurrent.futures.ThreadPoolExecutor(int(os.environ.get("JOBS", "2"))) as pool, path.open("a") as file:
        for pair, answer in zip(wanted, pool.map(lambda pair: known.get(pair) or asked(runner, *pair), wanted)):
            if pair not in known:
                file.write(json.dumps({"place": place, "answer": dataclasses.asdict(answer)}) + "\n")
                file.flush()
            yield answer


# ---- Checks
def faults_by_kconf(runner, answers):
    """What plain runs of kconf say against answers: it does not work, a line is not taken, or a line is not needed."""
    texts, [before] = [], runner.outcomes([runner.text])
    for answer in answers:
        texts += [runner.with_lines(answer.lines), *(runner.with_lines([it for it in answer.lines if it is not line]) for line in answer.lines)]
    outcomes = runner.outcomes(texts)
    for answer in answers:
        full = next(outcomes)
        if not full.has(answer.name, answer.value) or full.conflicts - before.conflicts:
            yield f"{answer.question}: {answer.lines} does not work"
        if any(not full.has(name, value) for name, value in settings(answer.lines).items()):
            yield f"{answer.question}: a line of {answer.lines} is not taken"
        for line in answer.lines:
            less = next(outcomes)
            if less.has(answer.name, answer.value) and not less.conflicts - before.conflicts:
                yield f"{answer.question}: {line} is not needed"


def own_value(program, flat, text, name, value):
    """The value by the tree's own conf, over the flat file."""
    with tempfile.TemporaryDirectory() as folder:
        config = pathlib.Path(folder, "config")
        config.write_text(text, errors="surrogateescape")
        words = None if b"olddefconfig" in program.read_bytes() else conf.ASKING
        conf.Conf(program, flat.parent, str(flat), {}, words, None if words else "KCONFIG_CONFIG").run("--olddefconfig", config)
        return Outcome(settings(config.read_text(errors="surrogateescape").splitlines()), set()).has(name, value)


def others_that_differ(runner, facts, answers, program):
    """The answers that do not work by kconfiglib, and not by the tree's own conf either, if one is named."""
    facts.load(True)
    for answer in answers:
        if facts.value_with(settings(answer.lines), answer.name) == answer.value:
            continue
        if not program or not own_value(program, runner.flat, runner.with_lines(answer.lines), answer.name, answer.value):
            yield f"{answer.question}: {answer.lines}"


def some_value(facts, pick, symbol, letters):
    """A value for a symbol: one of these letters, or a text that its definitions name."""
    if facts.is_truth(symbol):
        return pick.choice(letters)
    named = [item.str_value for default, _ in symbol.defaults for item in facts.library.expr_items(default)]
    return pick.choice(["0", "1", "7", "100", "0x10", "0xffff", "", "abc", *named])


def fragment(facts, pick, layers, answer):
    """Random values for what the symbol depends on in some steps, often all y or all m, and mostly its own value."""
    steps = pick.choice([2, 2, 3, 4, 6, len(layers)])
    letters, chance = pick.choice(["nmy", "ny", "y", "m", "my"]), pick.choice([0.1, 0.5, 0.9, 1.0])
    chosen = [symbol for layer in layers[1:steps] for symbol in layer if pick.random() < chance]
    chosen = pick.sample(chosen, min(len(chosen), MOST))
    given = {symbol.name: some_value(facts, pick, symbol, letters) for symbol in chosen}
    return {**given, answer.name: answer.value} if pick.random() < 0.9 else given


def with_values(facts, given):
    """The lines that give these values."""
    return [f'CONFIG_{name}="{value}"' if facts.tree.syms[name].orig_type == facts.library.STRING else f"CONFIG_{name}={value}" for name, value in given.items()]


def reached_all_the_same(facts, runner, seed, answers):
    """The answers that say that no input gives the value, where a random fragment gives it."""
    for is_over_config in (True, False):
        facts.load(is_over_config)
        for answer in answers:
            pick, layers = random.Random(f"{seed} {answer.question} {is_over_config}"), facts.all_needs(answer.name)
            for _ in range(FRAGMENTS // 2):
                given = fragment(facts, pick, layers, answer)
                if facts.value_with(given, answer.name) != answer.value:
                    continue
                lines = with_values(facts, given)
                [outcome] = runner.outcomes([runner.with_lines(lines) if is_over_config else "".join(f"{line}\n" for line in lines)])
                if outcome.has(answer.name, answer.value):
                    yield f"{answer.question} is said to be impossible, and {lines} gives it"
                    break


# ---- What is printed
def part(values, share):
    values = sorted(values) or [0]
    return values[min(len(values) - 1, int(len(values) * share))]


def three(values, form):
    return "/".join(format(part(values, share), form) for share in (0.5, 0.9, 1))


def changes(answer):
    """How many other values an answer changes."""
    return next((int(re.search(r"\d+", line)[0]) for line in answer.comments if line.startswith("# other")), 0)


def told(name, answers, wrong, differs, plain):
    """Prints the shares and what is wrong."""
    kinds, found = collections.Counter(answer.kind for answer in answers), [answer for answer in answers if answer.kind == "found"]
    losing = sum(any(line.startswith("# loses") for line in answer.comments) for answer in found)
    print(f"{name}: {len(answers)} questions, " + ", ".join(f"{count} {kind}" for kind, count in kinds.most_common())
          + f"; lines {three([len(answer.lines) for answer in found], 'd')}; {losing} lose a value of the user; other values that change {three(list(map(changes, found)), 'd')}; "
          f"plain runs {three([answer.seconds / plain for answer in answers], '.1f')}; {len(wrong)} wrong, {len(differs)} where the other tool differs", flush=True)
    for line in [*(f"wrong: {line}" for line in wrong), *(f"differs: {line}" for line in differs)][:20]:
        print(f"  {line}")
    for answer in answers:
        if answer.kind not in ("found", "held", "impossible"):
            print(f"  {answer.kind}: {answer.question}", flush=True)


def check(kconf, flat, config, count, seed, options, program=None):
    """Asks, checks and prints; the answers, and what is wrong."""
    facts, runner = Facts(flat, config), Runner(kconf, flat, config, options)
    answers, plain = list(asked_all(runner, questions(facts, random.Random(seed), count))), runner.plain_seconds()
    found = [answer for answer in answers if answer.kind == "found"]
    differs = list(others_that_differ(runner, facts, found, program))
    wrong = list(faults_by_kconf(runner, found))
    wrong += reached_all_the_same(facts, runner, seed, [answer for answer in answers if answer.kind == "impossible"])
    wrong += [f"{answer.question}: {answer.kind}" for answer in answers if answer.kind.startswith("status")]
    told(f"{flat.stem} {config.name}", answers, wrong, differs, plain)
    return answers, wrong


# ---- Trees and configurations
@dataclasses.dataclass
class Setup:
    """A tree, its own conf, and the configurations that questions are asked of."""

    tree: object
    program: pathlib.Path
    configurations: list


def linux_new(place, name, architecture, cross, settings):
    """The newest Linux for another architecture than x86-64."""
    tree = trees.linux_new(place)
    tree.name, tree.settings = name, {**trees.linux_settings(tree.folder, architecture, cross), **settings}
    return tree


def setups(place):
    """The trees and configurations, for other machines than those of the documents' examples."""
    made = place.folder / "how"
    made.mkdir(parents=True, exist_ok=True)
    (made / "static").write_text("CONFIG_STATIC=y\n")
    (made / "defconfig").touch()
    i386, arm64 = linux_new(place, "linux-7.2-i386", "i386", "", {"SRCARCH": "x86"}), linux_new(place, "linux-7.2-arm64", "arm64", "aarch64-linux-gnu-", {})
    x86, arm, boot, core, box = (make(place) for make in (trees.linux_x86, trees.linux_arm64, trees.u_boot, trees.coreboot, trees.busybox))
    boards = [boot.folder / "configs" / f"{name}_defconfig" for name in ("qemu_arm64", "sandbox", "am335x_evm", "qemu-riscv64")]
    mainboards = [core.folder / "configs" / f"config.{name}" for name in (
        "emulation_qemu_x86_q35_smm_tseg", "google_volteer.build_test_purposes", "lenovo_t400_vboot_and_debug", "emulation_qemu_riscv_rv64")]
    yield Setup(i386, i386.tool.program, [i386.folder / "arch/x86/configs/i386_defconfig"])
    yield Setup(arm64, i386.tool.program, [i386.folder / "arch/arm64/configs/defconfig"])
    yield Setup(x86, x86.tool.program, [x86.starts["config.amd64_none_cloud-amd64"]])
    yield Setup(arm, x86.tool.program, [arm.starts["config.arm64_none_arm64"]])
    yield Setup(boot, boot.tool.program, boards)
    yield Setup(core, core.tool.program, mainboards)
    yield Setup(box, box.tool.program, [made / "defconfig", made / "static", box.folder / "configs/TEST_noprintf_defconfig"])


def all_of(place, kconf, flat):
    """Asks all setups; whether no answer is wrong. `flat` makes a tree flat."""
    count, sums, is_right = int(os.environ.get("COUNT", "250")), collections.Counter(), True
    for setup in setups(place):
        root, kconfig = flat(setup.tree, place)
        for number, config in enumerate(setup.configurations):
            answers, wrong = check(str(kconf), root / kconfig, config, count, f"how {number}", setup.tree.options(), setup.program)
            sums.update(answer.kind for answer in answers)
            is_right &= not wrong
    print(f"--how: {sum(sums.values())} questions, " + ", ".join(f"{number} {kind}" for kind, number in sums.most_common()), flush=True)
    return is_right


def main():
    kconf, flat, config = os.path.abspath(sys.argv[1]), pathlib.Path(sys.argv[2]).absolute(), pathlib.Path(sys.argv[3]).absolute()
    count, seed = (int(word) for word in (sys.argv[4:6] + ["100", "1"][len(sys.argv[4:6]) :]))
    program = os.environ.get("CONF")
    _, wrong = check(kconf, flat, config, count, seed, sys.argv[6:], program and pathlib.Path(program))
    sys.exit(bool(wrong))


if __name__ == "__main__":
    main()
