"""The runs of many configurations (--each) that the checker makes, and what each has to leave.

Each run takes three configurations of one tree. The texts follow from the rules of docs/formats.md and docs/language.md, worked by
hand; none was taken from a run.
"""

import dataclasses
import os

import cases


@dataclasses.dataclass
class Turn:
    """What one configuration has to leave in its turn. A refused one has no texts, and its last note says why."""

    name: str
    settings: str = None  # its file; None: it is not there
    notes: str = ""
    texts: dict = dataclasses.field(default_factory=dict)  # by the option that asks for it, in the order of Many.patterns
    status: int = 0

    def reads_fragments(self):
        """Whether it comes to the fragments: not where an error ends it before."""
        return not any(f"error {code}: " in self.notes for code in ("E17", "E18", "E23"))


@dataclasses.dataclass
class Many(cases.Case):
    """One run of many configurations: its notes, outputs and status are those of all turns, behind the tree's warnings. Where the tree
    or the list is refused there are none of the turns, and it is judged as a run of one configuration."""

    patterns: dict = dataclasses.field(default_factory=dict)  # the names of the outputs, by the option that asks for them
    turns: list = dataclasses.field(default_factory=list)
    said: str = ""  # the tree's warnings, or why no configuration takes its turn
    listed: int = 0  # so many configurations, the last, stand in the list of --each-from
    listing: str = None  # the list; None: there is none

    def takes_turns(self):
        """Whether the configurations take their turns."""
        return self.notes != self.said or bool(self.outputs)

    def opens_files(self):
        """Not where there is no list, which a look tells."""
        return not self.listed or self.listing is not None

    def places(self):
        return list(self.unwritten)

    def words(self):
        names = [turn.name for turn in self.turns]
        said = ["--each"] if not self.listed else ["--each-from", "list"]
        said += ["--root", self.root, *self.flags]
        said += [word for option, pattern in self.patterns.items() for word in (option, pattern)]
        said += [word for name in self.fragments for word in ("--fragment", name)]
        return said + [next(iter(self.tree)), *names[: len(names) - self.listed]]

    def inputs(self):
        there = super().inputs() | {turn.name: turn.settings for turn in self.turns if turn.settings is not None}
        return there | ({} if self.listing is None else {"list": self.listing})

    def names_of(self, turn):
        """The outputs of a configuration by their options."""
        return {option: filled(pattern, turn.name) for option, pattern in self.patterns.items()}

    def alone(self, turn):
        """The turn of a configuration as a run of its own, behind the tree's warnings."""
        names = self.names_of(turn)
        read = self.fragments if turn.settings is None else {turn.name: turn.settings} | self.fragments
        return cases.Case(
            name=turn.name,
            tree=self.tree,
            notes=turn.notes,
            fragments=read,
            outputs={names[option]: text for option, text in turn.texts.items()},
            status=turn.status,
            root=self.root,
            flags=self.flags,
            before=self.before,
            unwritten=tuple(names.values()),
            lead=f"{turn.name}: ",
        )


def filled(pattern, name):
    """The name of an output of the configuration of this name."""
    return pattern.replace("{}", name).replace("{/}", os.path.basename(name))


def many(name, tree, patterns, turns, said="", status=0, before=None, **more):
    """A run of these configurations. An output that is the configuration's own file holds that before the run."""
    case = Many(name=name, tree=tree, notes=said + "".join(turn.notes for turn in turns), patterns=patterns, turns=turns, said=said, **more)
    case.status = max([status, *(turn.status for turn in turns)])
    alone = [case.alone(turn) for turn in turns]
    case.outputs = {output: text for each in alone for output, text in each.outputs.items()}
    case.unwritten = tuple(output for each in alone for output in each.unwritten)
    own = {turn.name: None if turn.settings is None else turn.settings.encode() for turn in turns if turn.name in case.unwritten}
    case.before = own | (before or {})
    return case


NUMBER = 'config N\n\tint "n"\n\trange 5 10\n\tdefault 7\n'

TREE = {"Kconfig": 'config A\n\tbool "a"\n\tdefault y\n\nsource "sub/Kconfig"\n', "sub/Kconfig": NUMBER}

WARNED = {"Kconfig": TREE["Kconfig"] + "\nconfig B\n", "sub/Kconfig": NUMBER}

UNTYPED = "Kconfig:7: warning K3: B has no type\n"

LONG = "x" * 65536

SHARED = {"common.cfg": "CONFIG_A=n\nCONFIG_MORE=y\n"}

THREE = {"--out": "{}.full", "--header": "include/{/}.h", "--savedefconfig": "build/{/}.min"}

OWN = {"--header": "include/{/}.h", "--savedefconfig": "{}"}


def texts(config, header, minimal):
    """The texts of a turn, behind their headings."""
    return {"--out": cases.config_of(config), "--header": cases.header_of(header), "--savedefconfig": minimal}


def asked(patterns, all_texts):
    """Those texts that are asked for."""
    return {option: all_texts[option] for option in patterns}


# With the fragment: two configurations with warnings, and between them one with a line that is too long.
SHARING = [
    Turn(
        "boards/one",
        "CONFIG_N=3\nCONFIG_OLD=y\n",
        "boards/one:2: warning K7: unknown symbol OLD\n"
        "boards/one: common.cfg:2: warning K7: unknown symbol MORE\n"
        "boards/one: warning K12: user value 3 of N is outside 5 to 10\n",
        texts("# CONFIG_A is not set\nCONFIG_N=7\n", "#define CONFIG_N 7\n", "# CONFIG_A is not set\n"),
    ),
    Turn(
        "boards/two",
        "CONFIG_OLD=y\n" + LONG,
        "boards/two:1: warning K7: unknown symbol OLD\nboards/two:2: error E17: line longer than 65535 bytes\n",
        status=1,
    ),
    Turn(
        "boards/three",
        "CONFIG_N=9\nCONFIG_A=y\n",
        "boards/three: common.cfg:1: warning K10: A is set again\nboards/three: common.cfg:2: warning K7: unknown symbol MORE\n",
        texts("# CONFIG_A is not set\nCONFIG_N=9\n", "#define CONFIG_N 9\n", "# CONFIG_A is not set\nCONFIG_N=9\n"),
    ),
]

# Without a fragment: the first is not minimal, the second has a line that nothing takes, the third is minimal.
FIRST = Turn("boards/one", "# the first\nCONFIG_A=y\nCONFIG_N=9\n", "", asked(OWN, texts("", "#define CONFIG_A 1\n#define CONFIG_N 9\n", "CONFIG_N=9\n")))
STRANGE = Turn(
    "boards/two",
    "CONFIG_OLD=y\n",
    "boards/two:1: warning K7: unknown symbol OLD\nboards/two: error E21: warnings are refused\n",
    status=1,
)
LOST = Turn("boards/two", None, "boards/two: error E18: cannot read boards/two\n", status=3)
SECOND = Turn("boards/two", "CONFIG_N=7\n", "", asked(OWN, texts("", "#define CONFIG_A 1\n#define CONFIG_N 7\n", "")))
THIRD = Turn("boards/three", "# CONFIG_A is not set\n", "", asked(OWN, texts("", "#define CONFIG_N 7\n", "# CONFIG_A is not set\n")))


def checked(case, name, fresh, flags):
    """The same run with --check, where these outputs hold their texts, and the others another one."""
    held = {output: text for output, text in cases.texts_of(case).items() if output in fresh}
    before = {output: text for output, text in case.before.items() if output not in fresh} | held
    turns = []
    for turn in case.turns:
        alone = case.alone(turn)
        stale = [output for output, text in cases.texts_of(alone).items() if before.get(output) != text]
        turns.append(dataclasses.replace(turn, notes=turn.notes + cases.stale_lines(alone, stale), status=max(turn.status, int(bool(stale)))))
    return many(
        name,
        case.tree,
        case.patterns,
        turns,
        said=case.said,
        before=before,
        root=case.root,
        fragments=case.fragments,
        flags=flags,
    )


def ruled():
    """A list of --each-from, of whose configurations one has a name that make cannot read, and a rule for make of each of the others."""
    patterns = {"--out": "{}.full", "--depfile": "{/}.d"}
    first = {
        "--out": cases.config_of("CONFIG_A=y\nCONFIG_N=8\n"),
        "--depfile": cases.rule_of("tree/Kconfig", "tree/sub/Kconfig", "boards/one", target="boards/one.full"),
    }
    third = {
        "--out": cases.config_of("# CONFIG_A is not set\nCONFIG_N=7\n"),
        "--depfile": cases.rule_of("tree/Kconfig", "tree/sub/Kconfig", "boards/three", target="boards/three.full"),
    }
    turns = [
        Turn("boards/one", "CONFIG_N=8\n", "", first),
        Turn("boards/a=b", "", "boards/a=b: error E23: make cannot read the name boards/a=b.full\n", status=1),
        Turn("boards/three", "CONFIG_A=n\nCONFIG_X=\n", "boards/three:2: warning K7: unknown symbol X\n", third),
    ]
    return many("--each-from, and a rule for make", TREE, patterns, turns, root="tree", listed=2, listing="boards/a=b\r\n\nboards/three")


def refused():
    """Runs in which no configuration takes its turn."""
    none = [Turn("boards/one", ""), Turn("boards/two", ""), Turn("boards/three", "")]
    loop = {"Kconfig": 'config A\n\tbool "a"\n\tdepends on B\n\tselect B\nconfig B\n\tbool "b"\n'}
    return [
        many("--each, and a loop", loop, OWN, none, said="error E15: dependency loop: A -> B -> A\n", status=1),
        many("--each-from, and no list", TREE, OWN, none, said="error E18: cannot read list\n", status=3, root="tree", listed=1),
    ]


def cases_of_each():
    """All runs of many configurations."""
    shared = {"said": UNTYPED, "root": "tree", "fragments": SHARED}
    plain = many("--each, and a line that is too long", WARNED, THREE, SHARING, **shared)
    own = many("--each, over the configurations themselves, one of which is not there", TREE, OWN, [FIRST, LOST, THIRD], root="tree")
    right = cases.texts_of(plain)
    some = {"boards/one.full": None, "include/one.h": right["include/one.h"], "build/three.min": right["build/three.min"], "include/three.h": None}
    every = [Turn(turn.name, "", f"{turn.name}: error E21: warnings are refused\n", status=1) for turn in SHARING]
    return [
        plain,
        many("--each and --replace, and a line that is too long", WARNED, THREE, SHARING, before=some, flags=("--replace",), **shared),
        checked(plain, "--each and --check, and a line that is too long", ["include/one.h", "boards/three.full", "build/three.min"], ("--check",)),
        own,
        many("--each and --replace, over the configurations themselves", TREE, OWN, [FIRST, SECOND, THIRD], root="tree", flags=("--replace",)),
        many("--each, --replace and --strict, over the configurations themselves", WARNED, OWN, [FIRST, STRANGE, THIRD], said=UNTYPED, root="tree", flags=("--replace", "--strict")),
        checked(own, "--each and --check of the configurations themselves", ["include/one.h", "boards/three"], ("--check",)),
        checked(own, "--each and --check, and only one is not there", cases.texts_of(own), ("--check",)),
        many("--each and --strict-tree", WARNED, THREE, every, said=UNTYPED, root="tree", flags=("--strict-tree",)),
        ruled(),
        *refused(),
    ]
