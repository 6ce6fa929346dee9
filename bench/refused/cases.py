"""The runs of one configuration that the checker makes, and what each has to leave. Those of many stand in each_cases.py.

The texts follow from the rules of docs/formats.md and docs/language.md, worked by hand or, in the wide tree, by a few lines
beside the tree itself; none was taken from a run. Those of the firmware are the stored texts of crates/kconf_firmware.
"""

import dataclasses
import pathlib

TOP = pathlib.Path(__file__).resolve().parent.parent.parent


def config_of(text, title="Main menu"):
    """A full .config: its heading, and what stands behind it."""
    return f"#\n# Automatically generated file; DO NOT EDIT.\n# {title}\n#\n{text}"


def header_of(text, title="Main menu"):
    """A header: its heading, and what stands behind it."""
    return f"/*\n * Automatically generated file; DO NOT EDIT.\n * {title}\n */\n{text}"


@dataclasses.dataclass
class Case:
    """One run: its files, its words, and what it has to leave. A refused tree has no outputs, and its last note says why."""

    name: str
    tree: dict  # the files of the tree by their names, the root file first
    notes: str
    settings: str = None  # the .config, start.config; None: there is none
    fragments: dict = dataclasses.field(default_factory=dict)
    outputs: dict = dataclasses.field(default_factory=dict)  # out.config, out.h, out.min and out.d, those that are asked for, in this order
    status: int = 0
    root: str = "."
    prefix: str = None
    flags: tuple = ()
    before: dict = dataclasses.field(default_factory=dict)  # what outputs hold before the run where it is no other text; None: they are not there
    links: dict = dataclasses.field(default_factory=dict)  # the outputs that are links, and what they lead to
    unwritten: tuple = ("out.config",)  # the outputs of a run that writes none
    lead: str = ""  # what an error line without a location begins with

    def places(self):
        """All outputs, also those of a run that writes none."""
        return list(self.outputs) or list(self.unwritten)

    def opens_files(self):
        """Whether it comes to open a file."""
        return True

    def replaces(self):
        """Whether files take their places at the end."""
        return "--replace" in self.flags

    def checks(self):
        """Whether files are only compared with their texts."""
        return "--check" in self.flags

    def words(self):
        """The words behind the program's name."""
        said = ["--root", self.root, "--config", "start.config", "--out", "out.config"]
        if "out.h" in self.outputs:
            said += ["--header", "out.h"]
        if "out.min" in self.outputs:
            said += ["--savedefconfig", "out.min"]
        if "out.d" in self.outputs:
            said += ["--depfile", "out.d"]
        if self.prefix is not None:
            said += ["--prefix", self.prefix]
        said += self.flags
        return said + [next(iter(self.tree)), *self.fragments]

    def inputs(self):
        """Each file that is there before the run, by its path."""
        there = {f"{self.root}/{name}": text for name, text in self.tree.items()}
        if self.settings is not None:
            there["start.config"] = self.settings
        return there | self.fragments


def rule_of(*files, target="out.config"):
    """The rule for make of the target, which was made of these files; their names need no escape."""
    return f"{target}:" + "".join(f" \\\n {name}" for name in files) + "\n" + "".join(f"\n{name}:\n" for name in files)


def outputs(config, header=None, minimal=None, title="Main menu"):
    """The outputs behind their headings, those that are asked for."""
    texts = {"out.config": config_of(config, title)}
    if header is not None:
        texts["out.h"] = header_of(header, title)
    if minimal is not None:
        texts["out.min"] = minimal
    return texts


TWO = 'config A\n\tbool "a"\n\tdefault y\n\nconfig B\n\tbool "b"\n\tdepends on A\n'

RANGED = 'config N\n\tint "n"\n\trange 5 10\n\tdefault 20\n'

SELECTED = 'config A\n\tbool "a"\n\tdefault y\n\tselect B\nconfig B\n\tbool "b"\n\tdepends on C\nconfig C\n\tbool "c"\n'

MODULES = 'config MODULES\n\tdef_bool y\nconfig T\n\ttristate\n\tdefault m\nconfig A\n\ttristate "a" if T\n\tdefault y\n'

ILL = """config A
	bool "a"
	string "s"
config B
config C
	def_bool y
	select D
	imply D
	select E
config D
	int "d"
choice
	prompt "ch"
	default C
config E
	bool "e"
endchoice
"""

ILL_NOTES = """Kconfig:3: warning K1: type of A redefined, the first is kept
Kconfig:3: warning K2: prompt of A redefined, the last is kept
Kconfig:4: warning K3: B has no type
Kconfig:7: warning K4: D is not bool or tristate, the select has no effect
Kconfig:8: warning K4: D is not bool or tristate, the imply has no effect
Kconfig:9: warning K6: E is a choice member, the select has no effect
Kconfig:14: warning K5: C is not a member of the choice
"""

SMALL = [
    Case(
        name="the warnings of a .config",
        tree={"Kconfig": TWO},
        settings="CONFIG_A=y\nCONFIG_Q=y\nCONFIG_B=m\njunk\n# CONFIG_A is not set\n",
        outputs=outputs("# CONFIG_A is not set\n", "", "# CONFIG_A is not set\n"),
        notes="start.config:2: warning K7: unknown symbol Q\n"
        "start.config:3: warning K8: value not allowed for B\n"
        "start.config:4: warning K9: malformed line\n"
        "start.config:5: warning K10: A is set again\n",
    ),
    Case(
        name="the warnings of values",
        tree={"Kconfig": RANGED},
        settings="CONFIG_N=3\n",
        outputs=outputs("CONFIG_N=10\n", "#define CONFIG_N 10\n", ""),
        notes="warning K12: user value 3 of N is outside 5 to 10\nwarning K13: default 20 of N is outside 5 to 10, 10 is used\n",
    ),
    Case(
        name="a select, and no .config",
        tree={"Kconfig": SELECTED},
        outputs=outputs("CONFIG_A=y\nCONFIG_B=y\n# CONFIG_C is not set\n", None, ""),
        notes="warning K11: B is selected to y while its dependency is n\n",
    ),
    Case(
        name="the warnings of a tree, in a folder",
        tree={"Kconfig": ILL},
        root="tree",
        outputs=outputs(
            "# CONFIG_A is not set\nCONFIG_C=y\nCONFIG_D=\nCONFIG_E=y\n",
            "#define CONFIG_C 1\n#define CONFIG_D \n#define CONFIG_E 1\n",
            "",
        ),
        notes=ILL_NOTES,
    ),
    Case(
        name="fragments",
        tree={"Kconfig": TWO},
        settings="CONFIG_A=n\n",
        fragments={"x.cfg": "CONFIG_B=y", "y.cfg": "CONFIG_A=y\n"},
        outputs=outputs("CONFIG_A=y\nCONFIG_B=y\n", "#define CONFIG_A 1\n#define CONFIG_B 1\n", "CONFIG_B=y\n"),
        notes="y.cfg:1: warning K10: A is set again\n",
    ),
    Case(
        name="modules",
        tree={"Kconfig": MODULES},
        settings=config_of("CONFIG_MODULES=y\nCONFIG_T=m\nCONFIG_A=y\n"),
        outputs=outputs(
            "CONFIG_MODULES=y\nCONFIG_T=m\nCONFIG_A=m\n",
            "#define CONFIG_MODULES 1\n#define CONFIG_T_MODULE 1\n#define CONFIG_A_MODULE 1\n",
            "CONFIG_A=m\n",
        ),
        notes="",
    ),
    Case(
        name="a rule for make",
        tree={"Kconfig": 'source "b/Kconfig"\nsource "c"\nsource "c"\nconfig A\n\tbool "a"\n', "b/Kconfig": 'source "d"\n', "d": "", "c": ""},
        root="tree",
        fragments={"x.cfg": "CONFIG_A=y\n", "y.cfg": ""},
        outputs=outputs("CONFIG_A=y\n", "#define CONFIG_A 1\n", "CONFIG_A=y\n")
        | {"out.d": rule_of("tree/Kconfig", "tree/b/Kconfig", "tree/d", "tree/c", "start.config", "x.cfg", "y.cfg")},
        notes="",
    ),
    Case(
        name="a rule for make of one file, and the .config alone",
        tree={"Kconfig": TWO},
        settings="CONFIG_Q=y\n",
        outputs=outputs("CONFIG_A=y\n# CONFIG_B is not set\n") | {"out.d": rule_of("./Kconfig", "start.config")},
        notes="start.config:1: warning K7: unknown symbol Q\n",
    ),
    Case(
        name="another prefix",
        tree={"Kconfig": TWO},
        settings="BR2_B=y\nCONFIG_A=n\n",
        prefix="BR2_",
        outputs=outputs("BR2_A=y\nBR2_B=y\n", "#define BR2_A 1\n#define BR2_B 1\n", "BR2_B=y\n"),
        notes="start.config:2: warning K9: malformed line\n",
    ),
    Case(
        name="the .config alone",
        tree={"Kconfig": 'source "a/Kconfig"\nconfig B\n\tbool "b"\n', "a/Kconfig": 'config A\n\tstring "a"\n'},
        settings='CONFIG_A="q\\"\\\\z" tail\n',
        outputs=outputs('CONFIG_A="q\\"\\\\z"\n# CONFIG_B is not set\n'),
        notes="",
    ),
    Case(name="a loop", tree={"Kconfig": 'config A\n\tbool "a"\n\tdepends on B\n\tselect B\nconfig B\n\tbool "b"\n'}, status=1, notes="error E15: dependency loop: A -> B -> A\n"),
    Case(
        name="no .config where it has to exist",
        tree={"Kconfig": TWO},
        flags=("--must-exist",),
        status=3,
        notes="error E18: cannot read start.config\n",
    ),
    Case(name="a missing file", tree={"Kconfig": 'source "a"\n'}, status=1, notes="Kconfig:1: error E1: no file a\n"),
    Case(
        name="a line that is too long",
        tree={"Kconfig": TWO},
        settings="CONFIG_Q=y\n" + "x" * 65536,
        status=1,
        notes="start.config:1: warning K7: unknown symbol Q\nstart.config:2: error E17: line longer than 65535 bytes\n",
    ),
]

LOST = """config A
	bool "a"
	default y
config B
	bool "b"
	depends on A
config S
	string "s"
	depends on A
config N
	int "n"
	depends on A
choice
	prompt "ch"
config X
	bool "x"
config Y
	bool "y"
endchoice
"""

OPTIONS = [
    Case(
        name="--strict, and a warning of a .config",
        tree={"Kconfig": TWO},
        settings="CONFIG_A=y\nCONFIG_Q=y\n# CONFIG_A is not set\n",
        flags=("--strict",),
        status=1,
        notes="start.config:2: warning K7: unknown symbol Q\nstart.config:3: warning K10: A is set again\nerror E21: warnings are refused\n",
    ),
    Case(
        name="--strict, and the warnings of a tree and of values",
        tree={"Kconfig": RANGED + "config B\n"},
        settings="CONFIG_N=3\n",
        flags=("--strict",),
        status=1,
        notes="Kconfig:5: warning K3: B has no type\n"
        "warning K12: user value 3 of N is outside 5 to 10\n"
        "warning K13: default 20 of N is outside 5 to 10, 10 is used\n"
        "error E21: warnings are refused\n",
    ),
    Case(
        name="--strict, without a warning",
        tree={"Kconfig": TWO},
        settings="CONFIG_B=y\n",
        flags=("--strict",),
        outputs=outputs("CONFIG_A=y\nCONFIG_B=y\n", "#define CONFIG_A 1\n#define CONFIG_B 1\n", "CONFIG_B=y\n"),
        notes="",
    ),
    Case(
        name="--warn-lost",
        tree={"Kconfig": LOST},
        settings='CONFIG_A=n\nCONFIG_B=y\nCONFIG_S="q\\""\nCONFIG_N=5\nCONFIG_X=y\n',
        fragments={"y.cfg": "CONFIG_Y=y\n"},
        flags=("--warn-lost",),
        outputs=outputs("# CONFIG_A is not set\n# CONFIG_X is not set\nCONFIG_Y=y\n", "#define CONFIG_Y 1\n", "# CONFIG_A is not set\nCONFIG_Y=y\n"),
        notes="start.config:2: warning K14: B was given y and is n\n"
        'start.config:3: warning K14: S was given "q\\"" and is ""\n'
        "start.config:4: warning K14: N was given 5 and is \n"
        "start.config:5: warning K14: X was given y and is n\n",
    ),
    Case(
        name="--warn-lost, behind other warnings",
        tree={"Kconfig": RANGED},
        settings="CONFIG_N=3\nCONFIG_N=20\n",
        flags=("--warn-lost",),
        outputs=outputs("CONFIG_N=10\n", "#define CONFIG_N 10\n", ""),
        notes="start.config:2: warning K10: N is set again\n"
        "start.config:2: warning K15: N was 3 (start.config:1) and is now 20\n"
        "warning K12: user value 20 of N is outside 5 to 10\n"
        "warning K13: default 20 of N is outside 5 to 10, 10 is used\n"
        "start.config:2: warning K14: N was given 20 and is 10\n",
    ),
    Case(
        name="--warn-lost and --strict",
        tree={"Kconfig": TWO},
        settings="CONFIG_A=n\nCONFIG_B=y\n",
        flags=("--warn-lost", "--strict"),
        status=1,
        notes="start.config:2: warning K14: B was given y and is n\nerror E21: warnings are refused\n",
    ),
]


def firmware():
    """The example, whose texts the gate compares too: this is the first of the stored runs of kconf_firmware."""
    crate = TOP / "crates" / "kconf_firmware"
    folder = crate / "data"
    names = ["Kconfig", "board/Kconfig", "drivers/Kconfig", "net/Kconfig", "debug/Kconfig"]
    stored = (crate / "stdout").read_text()
    sections = {}
    for section in stored.split("\nstatus ")[0].split("== ")[1:]:
        name, _, text = section.partition("\n")
        sections[name] = text if text.endswith("\n") else text + "\n"
    return Case(
        name="the firmware",
        tree={name: (folder / name).read_text() for name in names},
        settings=(folder / "start.config").read_text(),
        fragments={"site.config": (folder / "site.config").read_text()},
        outputs={"out.config": sections["full.config"], "out.h": sections["config.h"], "out.min": sections["defconfig"]},
        notes="start.config:7: warning K7: unknown symbol OLD_DRIVER\n"
        "site.config:3: warning K10: RELAYS is set again\n"
        "warning K12: user value 7200 of SENSOR_PERIOD is outside 1 to 3600\n",
    )


def replaced(case, name, flags=("--replace",), **changed):
    """The same run, with the files taking their places at the end."""
    return dataclasses.replace(case, name=name, flags=flags, **changed)


def replacing():
    """Runs with --replace: over other texts, over the same, over no file, through links, and runs that make none."""
    some = {case.name: case for case in SMALL}
    three = some["fragments"]
    two = dataclasses.replace(some["a select, and no .config"], notes="", tree={"Kconfig": TWO}, outputs=outputs("CONFIG_A=y\n# CONFIG_B is not set\n", None, ""))
    return [
        replaced(three, "--replace, over other texts"),
        replaced(three, "--replace, over the same texts", before=texts_of(three)),
        replaced(three, "--replace, over no files", before=dict.fromkeys(three.outputs)),
        replaced(three, "--replace, over each of these", before={"out.config": None, "out.h": texts_of(three)["out.h"]}),
        replaced(two, "--replace, through links", links={"out.config": "there/real", "out.min": "there/least"}, before={"out.min": b""}),
        replaced(some["a rule for make"], "--replace, and a rule for make", before={"out.min": None, "out.h": texts_of(some["a rule for make"])["out.h"]}),
        replaced(some["a rule for make"], "--replace, and a rule for make that is there", before={"out.d": texts_of(some["a rule for make"])["out.d"]}),
        replaced(wide(), "--replace, of a wide tree", before={"out.config": texts_of(wide())["out.config"]}),
        replaced(some["a loop"], "--replace, and a loop"),
        replaced(some["no .config where it has to exist"], "--replace, and no .config where it has to exist", flags=("--replace", "--must-exist")),
        replaced(OPTIONS[0], "--replace, and a refused warning", flags=("--replace", "--strict")),
    ]


def stale_lines(case, names):
    """The error lines of these outputs, which do not hold their texts."""
    return "".join(f"{case.lead}error E22: {name} is not up to date\n" for name in case.outputs if name in names)


def checked(case, name, before):
    """The same run with --check, over outputs of these texts; None where one is not there."""
    stale = [name for name, text in texts_of(case).items() if before[name] != text]
    notes = case.notes + stale_lines(case, stale)
    return dataclasses.replace(case, name=name, flags=("--check",), before=before, notes=notes, status=1 if stale else 0)


def checking():
    """Runs with --check: over the same texts, over other texts, over no file, over each of these, and one that compares none."""
    some = {case.name: case for case in SMALL}
    three = some["fragments"]
    same, none = texts_of(three), dict.fromkeys(three.outputs)
    return [
        checked(three, "--check, over the same texts", same),
        checked(three, "--check, over other texts", {name: text[:-1] for name, text in same.items()}),
        checked(three, "--check, over no files", none),
        checked(three, "--check, over each of these", none | {"out.config": same["out.config"], "out.min": b""}),
        checked(wide(), "--check, of a wide tree", texts_of(wide()) | {"out.h": b""}),
        replaced(some["a loop"], "--check, and a loop", flags=("--check",)),
    ]


def texts_of(case):
    """The text of each output."""
    return {name: text.encode() for name, text in case.outputs.items()}


def wide():
    """A tree whose outputs and notes have more than 64 KiB each: 24 symbols without a default that the .config sets."""
    tree, settings, config, header, notes = [], [], [], [], []
    for number in range(24):
        name = f"SYMBOL_{number:02d}"
        if number % 8 == 0:
            tree.append(f'config {name}\n\tbool "{number}"\n')
            value, defined = "y", "1"
        else:
            tree.append(f'config {name}\n\tstring "{number}"\n')
            value = defined = '"' + f'\\"{number}\\\\ ' * 600 + '"'
        unknown = f"UNKNOWN_{number:02d}_" + "X" * 3000
        settings.append(f"CONFIG_{name}={value}\nCONFIG_{unknown}=y\n")
        config.append(f"CONFIG_{name}={value}\n")
        header.append(f"#define CONFIG_{name} {defined}\n")
        notes.append(f"start.config:{2 * number + 2}: warning K7: unknown symbol {unknown}\n")
    case = Case(
        name="a wide tree",
        tree={"Kconfig": "".join(tree)},
        settings="".join(settings),
        outputs=outputs("".join(config), "".join(header), "".join(config)),
        notes="".join(notes),
    )
    assert all(len(text) > 65536 for text in [*case.outputs.values(), case.notes])
    return case


def cases():
    """All runs of one configuration."""
    return [*SMALL, *OPTIONS, firmware(), wide(), *replacing(), *checking()]
