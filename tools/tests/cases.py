"""The small trees of the tests of kconf-flatten, at least one for each rewrite."""

from dataclasses import dataclass, field

BOOL = (None, "n", "y")
TRISTATE = (None, "n", "m", "y")


@dataclass
class Case:
    """One tree, what it is run from, and what kconf-flatten tells of it."""

    name: str
    tree: str
    inputs: dict
    told: dict = field(default_factory=dict)
    files: dict = field(default_factory=dict)
    like: str = None
    options: tuple = ()
    environment: dict = field(default_factory=dict)
    helpers: tuple = ()
    only: object = None
    one_of: tuple = ()
    lines_differ: bool = False
    stands_for: dict = field(default_factory=dict)


@dataclass
class Bad:
    """A tree that is refused, and how the error begins."""

    name: str
    tree: str
    error: str
    files: dict = field(default_factory=dict)
    options: tuple = ()
    environment: dict = field(default_factory=dict)
    status: int = 1


def one_choice_state(names):
    """Whether inputs are what a tool writes for a tristate choice: one y, or none."""
    def only(given):
        texts = [given[name] for name in names]
        return texts.count("y") == 0 or (texts.count("y") == 1 and "m" not in texts)
    return only


def no_m_without_modules(names, then):
    """The same, and no m where MODULES is not y."""
    def only(given):
        has_m = any(given[name] == "m" for name in names)
        return then(given) and (given["MODULES"] == "y" or not has_m)
    return only


CASES = [
    Case(
        "macros and the environment",
        """
mainmenu "Tree of $(BOARD)"
yes := y
twice = $(1)-$(1)
list = a
list += b
in-shell = $(shell,echo $(1))
one = $(1)$(2)
config GAP
	def_string "x$(FLATTEN_UNSET)y$(one,z)$(FLATTEN_UNSET)"
config SIZE
	int "size"
	default $(in-shell,12)
config NAME
	string "name"
	default "$(twice,$(BOARD)) $(list)"
config ON
	bool "on $(BOARD)"
	default $(yes)
if "$(BOARD)" = "blue"
config BLUE
	bool "blue"
	default y if ON
endif
if "$(BOARD)" = "red"
config RED
	bool "red"
	default y
choice
	prompt "shade"
config DARK
	bool "dark"
config LIGHT
	bool "light"
endchoice
endif
config EITHER
	def_bool BLUE || RED || DARK
	help
	  No $(macro) here.
""",
        {"ON": BOOL, "BLUE": BOOL, "RED": BOOL, "DARK": BOOL, "SIZE": (None, "7")},
        told={"macro": 8, "unset variable": 1, "def_string": 1}, environment={"BOARD": "blue"}),
    Case(
        "files by pattern and by relative name",
        """
source "parts/*/Kconfig"
osource "nowhere/Kconfig"
rsource "more/Kconfig"
""",
        {"LEFT": BOOL, "RIGHT": BOOL, "DEEP": BOOL},
        files={
            "parts/a/Kconfig": 'config LEFT\n\tbool "left"\n',
            "parts/b/Kconfig": 'config RIGHT\n\tbool "right"\n\tdepends on LEFT\n',
            "more/Kconfig": 'orsource "none*"\nrsource "deep/Kconfig"\n',
            "more/deep/Kconfig": 'config DEEP\n\tbool "deep"\n\tdefault RIGHT\n'}),
    Case(
        "a file that may be missing",
        'source "site/Kconfig"\nconfig A\n\tbool "a"\n', {"A": BOOL},
        told={"missing file": 1}, options=("--missing-ok", "site/*"),
        like='config A\n\tbool "a"\n'),
    Case(
        "names relative to the file",
        'source "more/Kconfig"\n', {"A": BOOL, "B": BOOL},
        files={"more/Kconfig": 'config A\n\tbool "a"\nsource "deep/Kconfig"\n',
               "more/deep/Kconfig": 'config B\n\tbool "b"\n\tdefault A\n'},
        options=("--relative-source",), like='rsource "more/like"\n',
        stands_for={"more/like": 'config A\n\tbool "a"\nrsource "deep/Kconfig"\n'}),
    Case(
        "option env, defconfig_list and allnoconfig_y",
        """
config ARCH
	string
	option env="FLATTEN_ARCH"
config DEFCONFIG_LIST
	string
	option defconfig_list
	default "/boot/config"
config X86
	bool "x86"
	default ARCH = "x86"
	option allnoconfig_y
config OTHER
	bool "other"
	depends on ARCH
config TITLE
	string "title"
	default ARCH
config SAME
	def_bool TITLE = ARCH
""",
        {"X86": BOOL, "OTHER": BOOL, "TITLE": (None, '"q"', '"x86"')},
        told={"option env": 1, "option defconfig_list": 1}, environment={"FLATTEN_ARCH": "x86"}),
    Case(
        "def_int and the like",
        """
config I
	def_int 5 if A
config X
	def_hex 0x1f
	range 0x10 0x1a if A
config S
	def_string "a \\\\ \\"b\\" 'c'" if A
config A
	boolean "a"
config T
	def_tristate m if A
config D
	def_bool y
config N
	int "n"
	range 2 LIMIT
	default I
config LIMIT
	int "limit"
	default 40
""",
        {"A": BOOL, "N": (None, "1", "3", "50"), "LIMIT": (None, "4"), "I": (None, "9")},
        told={"def_int": 1, "def_hex": 1, "def_string": 1, "boolean": 1}),
    Case(
        "optional choice",
        """
config D
	bool "d"
	default y
choice
	prompt "c" if D
	optional
	default B
config A
	bool "a"
config B
	bool "b"
config C
	bool "c"
endchoice
config ANY
	def_bool A || B || C
""",
        {"D": BOOL, "A": BOOL, "B": BOOL, "C": BOOL},
        told={"optional choice": 1}, helpers=("KCONF_NO_A",), lines_differ=True),
    Case(
        "optional choice with an entry that is no member",
        """
choice
	prompt "c"
	optional
config A
	bool "a"
config UNDER
	bool "under" if A
	default y
config B
	bool "b"
endchoice
""",
        {"A": BOOL, "B": BOOL, "UNDER": BOOL},
        told={"optional choice": 1, "moved out of a choice": 1}, helpers=("KCONF_NO_A",),
        lines_differ=True),
    Case(
        "named choice",
        """
choice PICK
	prompt "c"
	default B
config A
	bool "a"
config B
	bool "b"
endchoice
""",
        {"A": BOOL, "B": BOOL}, told={"named choice": 1}),
    Case(
        "named choice at two places",
        """
config D
	bool "d"
config E
	bool "e"
menu "first"
	visible if E
choice PICK
	prompt "c"
	default B if D
config A
	bool "a"
config B
	bool "b"
	depends on E
endchoice
endmenu
if D
choice PICK
	prompt "c"
	default C2
config C
	bool "c"
	select Z
config C2
	bool "c2"
endchoice
endif
config Z
	bool "z"
""",
        {"D": BOOL, "E": BOOL, "A": BOOL, "B": BOOL, "C": BOOL, "C2": BOOL},
        told={"named choice": 2, "moved to the end": 1}),
    Case(
        "members that depend on their own choice",
        """
config D
	bool "d"
choice
	prompt "c"
	depends on D
config A
	bool "a"
config A_INNER
	bool "a inner"
	depends on A
config A_DEEPER
	int "a deeper"
	depends on A_INNER
	default 4
if A
config A_IN_IF
	bool "a in if"
	default y
endif
config B
	bool "b"
config B_PROMPT
	bool "b prompt" if B
	default y
comment "a comment"
endchoice
config AFTER
	def_bool A_INNER || B_PROMPT
""",
        {"D": BOOL, "A": BOOL, "B": BOOL, "A_INNER": BOOL, "A_IN_IF": BOOL, "B_PROMPT": BOOL,
         "A_DEEPER": (None, "7")},
        told={"moved out of a choice": 4}),
    Case(
        "a menu in a choice",
        """
config MODULES
	def_bool y
config D
	tristate "d"
choice
	prompt "c" if !D
config A
	bool "a"
menu "m"
config IN_MENU
	bool "in menu"
	default y
endmenu
config B
	bool "b"
endchoice
""",
        {"D": TRISTATE, "A": BOOL, "B": BOOL, "IN_MENU": BOOL},
        told={"moved out of a choice": 1}),
    Case(
        "members defined twice in their choice",
        """
config D
	bool "d"
config E
	bool "e"
choice
	prompt "c"
	default B
if D
config A
	bool "a"
	select Z if E
config B
	bool "b"
endif
if E
config B
	bool "b again"
	select Y
config C
	bool "c"
endif
endchoice
config Z
	bool "z"
config Y
	bool "y"
""",
        {"D": BOOL, "E": BOOL, "A": BOOL, "B": BOOL, "C": BOOL},
        told={"member defined twice": 1}),
    Case(
        "members defined again elsewhere",
        """
config D
	bool "d"
config E
	bool "e"
if D
config A
	bool "a outside"
endif
choice
	prompt "c"
	depends on E
config A
	bool
	select Z
config B
	bool "b"
endchoice
config B
	bool
	select Y if D
config Z
	bool "z"
config Y
	bool "y"
""",
        {"D": BOOL, "E": BOOL, "A": BOOL, "B": BOOL},
        told={"member defined twice": 2}, lines_differ=True),
    Case(
        "a default that is no member",
        """
config D
	bool "d"
config F
	bool "f" if D
choice
	prompt "c"
	default NOWHERE
	default F if D
config A
	bool "a"
config B
	bool "b"
endchoice
""",
        {"D": BOOL, "F": BOOL, "A": BOOL, "B": BOOL},
        told={"default of a choice": 2}, helpers=("KCONF_NO_A",)),
    Case(
        "optional tristate choice",
        """
config MODULES
	bool "modules"
config D
	tristate "d"
choice
	prompt "c"
	depends on D
	optional
config A
	tristate "a"
config B
	tristate "b"
config B_SUB
	bool "b sub"
	depends on B
config C
	bool "c"
endchoice
config ANY
	def_tristate A || B || C
""",
        {"MODULES": BOOL, "D": TRISTATE, "A": TRISTATE, "B": TRISTATE, "B_SUB": BOOL, "C": BOOL},
        told={"tristate choice": 1, "moved out of a choice": 1},
        only=no_m_without_modules("DAB", one_choice_state("ABC")), one_of=("A", "B", "C"),
        lines_differ=True),
    Case(
        "tristate choice with a default",
        """
config MODULES
	bool "modules"
config D
	tristate "d"
choice
	prompt "c" if D
	default B
config A
	tristate "a"
	select Z
config B
	tristate "b"
config C
	tristate "c"
	depends on D
endchoice
config Z
	tristate
""",
        {"MODULES": BOOL, "D": TRISTATE, "A": TRISTATE, "B": TRISTATE, "C": TRISTATE},
        told={"tristate choice": 1}, lines_differ=True, one_of=("A", "B", "C"),
        only=lambda given: given["D"] != "m" and no_m_without_modules(
            "ABC", one_choice_state("ABC"))(given)),
    Case(
        "tristate choice in a tree without modules",
        """
choice
	prompt "c"
	default B if D
config A
	tristate "a"
config B
	tristate "b"
config C
	tristate "c"
	depends on T
endchoice
config D
	bool "d"
config T
	tristate "t"
""",
        {"A": BOOL, "B": BOOL, "C": BOOL, "D": BOOL, "T": TRISTATE},
        told={"tristate choice": 1, "tristate member": 3}),
    Case(
        "tristate members of a bool choice",
        """
config MODULES
	def_bool y
config T
	tristate "t"
config V
	tristate "v"
menu "m"
	visible if V
choice
	prompt "c"
	bool
config A
	tristate "a" if T
config B
	bool "b"
	depends on T
config C
	tristate "c"
	depends on !T
endchoice
endmenu
""",
        {"T": TRISTATE, "V": TRISTATE, "A": BOOL, "B": BOOL, "C": BOOL},
        told={"tristate member": 2}),
    Case(
        "a bool choice in a block that can be m, with bools alone",
        """
config MODULES
	def_bool y
config T
	tristate "t"
if T
choice
	prompt "c"
config A
	bool "a"
	select Z
config A_SUB
	bool "a sub"
	depends on A
	select Y if T = m
config B
	bool "b"
endchoice
endif
config Z
	bool "z"
config Y
	bool "y"
	depends on T
""",
        {"T": TRISTATE, "A": BOOL, "B": BOOL, "A_SUB": BOOL, "Z": BOOL, "Y": BOOL},
        told={"moved out of a choice": 1}),
    Case(
        "a bool choice in a block that can be m, with tristates",
        """
config MODULES
	def_bool y
config T
	tristate "t"
if T
choice
	prompt "c"
config A
	bool "a"
	select Z
config A_SUB
	tristate "a sub"
	depends on A
config B
	bool "b"
endchoice
endif
config Z
	tristate "z"
""",
        {"T": TRISTATE, "A": BOOL, "B": BOOL, "A_SUB": TRISTATE, "Z": TRISTATE},
        told={"moved out of a choice": 1, "moved to the end": 1}),
    Case(
        "transitional",
        """
config OLD
	bool
	transitional
config NEW
	bool "new"
	default OLD
config OLD_SIZE
	int
	transitional
	help
	  Was the name.
config SIZE
	int "size"
	default OLD_SIZE
""",
        {"OLD": BOOL, "NEW": BOOL, "OLD_SIZE": (None, "4"), "SIZE": (None, "5")},
        told={"transitional": 2},
        like="""
config OLD
	bool "OLD"
config NEW
	bool "new"
	default OLD
config OLD_SIZE
	int "OLD_SIZE"
config SIZE
	int "size"
	default OLD_SIZE
"""),
    Case(
        "depends on .. if",
        """
config MODULES
	def_bool y
	modules
config A
	tristate "a"
config B
	tristate "b"
config C
	tristate "c"
	depends on A if B
config D
	tristate "d"
	depends on A || !B if B && A != m || C
comment "shown"
	depends on A if B
""",
        {"A": TRISTATE, "B": TRISTATE, "C": TRISTATE, "D": TRISTATE},
        told={"depends on .. if": 3},
        like="""
config MODULES
	def_bool y
config A
	tristate "a"
config B
	tristate "b"
config C
	tristate "c"
	depends on A || B = n
config D
	tristate "d"
	depends on A || !B || ((B = n || A = m) && C = n)
comment "shown"
	depends on A || B = n
"""),
    Case(
        "a literal $",
        """
mainmenu "costs 5$"
menu "menu $"
config S
	string "prompt $"
	default "a$b"
config SAME
	def_bool S = "a$b"
endmenu
comment "$"
""",
        {"S": (None, '"q"', '"a$b"')}),
    Case(
        "a condition that is always n",
        """
if "a" = "b"
config GONE
	bool "gone"
	default y
	select HERE
config GONE2
	bool "gone2" if GONE
menu "gone"
choice
	prompt "c"
	default MEMBER2
config MEMBER
	bool "member"
config MEMBER2
	bool "member2"
endchoice
endmenu
endif
config HERE
	bool "here"
	default GONE || MEMBER2
config GONE
	bool
config SELECTS
	bool "selects"
	select GONE2
	imply ALSO
config ALSO
	bool "also"
	depends on HERE
if "a" != "a"
config ALSO
	bool "never"
endif
""",
        {"HERE": BOOL, "SELECTS": BOOL, "MEMBER": BOOL, "GONE2": BOOL, "ALSO": BOOL}),
    Case(
        "plain m, visible if and menus",
        """
config MODULES
	bool "modules"
config T
	tristate "t"
config U
	tristate "u"
	depends on m
config V
	tristate "v" if m && T
	default m
menu "m"
	depends on T
	visible if U || !MODULES
config IN_MENU
	tristate "in menu"
	default y
menuconfig MORE
	bool "more"
	depends on !(T && IN_MENU) || T = IN_MENU
if MORE && m
config EVEN_MORE
	tristate "even more"
endif
endmenu
""",
        {"MODULES": BOOL, "T": TRISTATE, "U": TRISTATE, "V": (None, "m"), "IN_MENU": TRISTATE,
         "MORE": BOOL, "EVEN_MORE": (None, "m", "y")},
        only=lambda given: given["MODULES"] == "y" or "m" not in given.values()),
    Case(
        "modules by another name",
        "config LKM\n\tbool \"lkm\"\n\tmodules\nconfig T\n\ttristate \"t\"\n\tdepends on m\n",
        {"LKM": BOOL, "T": (None, "n", "m")},
        only=lambda given: given["LKM"] == "y" or given["T"] != "m",
        like="config MODULES\n\tbool \"lkm\"\nconfig T\n\ttristate \"t\"\n\tdepends on m\n",
        stands_for={"LKM": "MODULES"}),
    Case(
        "names that are not defined, and texts",
        """
config A
	bool "a"
	select NOWHERE if B
	default y if NOWHERE != "x" && NOWHERE = NOWHERE
config B
	bool "say \\"b\\" \\\\ 'c'"
	depends on !NOWHERE && A
config S
	string "s"
	default a-b/c.d if A
	default 'single "quoted"' if !A
	default NOWHERE
config N
	int "n"
	default -3
	range -5 0x5
config SEVERAL
	bool "once" if A
config SEVERAL
	bool "twice" if B
	default y
""",
        {"A": BOOL, "B": BOOL, "S": (None, '"t"'), "N": (None, "-4", "6"), "SEVERAL": BOOL}),
    Case(
        "members without a type",
        """
choice
	prompt "c"
config A
	prompt "a"
config B
	bool "b"
endchoice
config SET
	def_bool A
""",
        {"A": BOOL, "B": BOOL}),
]

BAD = [
    Bad("a file that is not there", 'config A\n\tbool\nsource "none"\n',
        "Kconfig:3: 'none' not found"),
    Bad("a line that is no Kconfig", "config A\n\tbool\n\tfoo bar baz\n",
        "Kconfig:3: error: couldn't parse 'foo bar baz'"),
    Bad("an open block", 'menu "m"\nconfig A\n\tbool\n', "error: expected 'endmenu' at end of"),
    Bad("a name with a sign", "config A\n\tbool\nconfig A-B\n\tbool\n",
        "Kconfig:3: error: the name A-B has"),
    Bad("a helper's name", 'config KCONF_A\n\tbool\n',
        "Kconfig:1: error: KCONF_A: names with KCONF_"),
    Bad("a member of two choices",
        'choice\n\tprompt "c"\nconfig A\n\tbool "a"\nendchoice\n'
        'choice\n\tprompt "d"\nconfig A\n\tbool "a"\nendchoice\n',
        "Kconfig:8: error: A is a member of two choices"),
    Bad("a second modules symbol",
        "config A\n\tbool\n\tmodules\nconfig B\n\tbool\n\toption modules\n",
        "Kconfig:4: error: B is a second modules symbol"),
    Bad("a tristate choice whose default changes",
        'config MODULES\n\tdef_bool y\nconfig D\n\tbool "d"\nchoice\n\tprompt "c"\n'
        '\tdefault B if D\nconfig A\n\ttristate "a"\nconfig B\n\ttristate "b"\nendchoice\n',
        "Kconfig:5: error: a tristate choice that is not optional"),
    Bad("a member that can be m elsewhere",
        'config MODULES\n\tdef_bool y\nconfig T\n\ttristate "t"\nchoice\n\tbool "c"\n'
        'config A\n\ttristate "a"\nendchoice\nconfig A\n\ttristate "b" if T\n',
        "Kconfig:10: error: A is a member of a bool choice and can be m here"),
    Bad("a choice of strings", 'choice\n\tprompt "c"\nconfig A\n\tstring "a"\nendchoice\n',
        "Kconfig:1: error: a choice that is neither bool nor tristate"),
    Bad("a loop", "config A\n\tdef_bool B\nconfig B\n\tdef_bool A\n", "Dependency loop"),
    Bad("error-if", "$(error-if,y,stop here)\n", "Kconfig:1: stop here"),
    Bad("a variable that is not set",
        'config A\n\tbool "$(UNUSED_VARIABLE)"\n$(error-if,$(shell,test -n "$(NO_COMPILER)" || echo y),no)\n',
        "kconf-flatten: error: NO_COMPILER is not set; needed at Kconfig:3"),
    Bad("a variable that is not set, on an earlier line",
        'cc := $(NO_COMPILER)\n\n$(error-if,$(shell,test -n "$(cc)" || echo y),no compiler)\n',
        "kconf-flatten: error: NO_COMPILER is not set; needed at Kconfig:1"),
    Bad("a program that is missing",
        '$(error-if,$(shell,{ command -v no-such-cc; } >/dev/null 2>&1 || echo y),no compiler)\n',
        "kconf-flatten: error: no-such-cc is not found; needed at Kconfig:1"),
    Bad("a program that is missing, by its name",
        'v := $(shell,no-such-program --version)\n$(error-if,y,no version)\n',
        "kconf-flatten: error: no-such-program is not found; needed at Kconfig:1"),
    Bad("transitional outside a symbol", 'menu "m"\n\ttransitional\nendmenu\n',
        "Kconfig:2: error: couldn't parse 'transitional'"),
    Bad("a line that would be too long",
        "config A\n\tbool \"a\" if " + " || ".join(f"SYMBOL_NUMBER_{n}" for n in range(500)) + "\n",
        "Kconfig:1: error: a line of more than 8191 bytes"),
    Bad("no such file", "", "kconf-flatten: error: ./Kconfig: No such file",
        files={"Kconfig": None}),
    Bad("a file that cannot be read", "", "kconf-flatten: error: ./Kconfig: Is a directory",
        files={"Kconfig": None, "Kconfig/other": ""}, status=3),
    Bad("a sourced file that cannot be read", 'source "more"\n', "kconf-flatten: error: ",
        files={"more/other": ""}, status=3),
    Bad("a text with a line feed", 'config S\n\tstring "$(TEXT)"\n',
        "Kconfig:1: error: a text with a line feed", environment={"TEXT": "a\nb"}),
    Bad("a command where no file can be made", 'config A\n\tbool "$(shell,echo a)"\n',
        "Kconfig:2: error: a macro runs a command, and commands cannot make files in /dev/null/none: Not a directory",
        environment={"TMPDIR": "/dev/null/none"}),
    Bad("a name that make cannot read", 'source "a=b"\n',
        "kconf-flatten: error: make cannot read the name ", files={"a=b": ""},
        options=("--depfile", "/dev/null")),
    Bad("a dependency file that cannot be written", "config A\n\tbool\n",
        "kconf-flatten: error: /dev/null/d: Not a directory", options=("--depfile", "/dev/null/d"),
        status=3),
    Bad("a record that cannot be written", "config A\n\tbool\n",
        "kconf-flatten: error: /dev/null/r: Not a directory", options=("--record", "/dev/null/r"),
        status=3),
]
