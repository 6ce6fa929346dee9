#!/usr/bin/env bash
# Small trees that could take much: each shape at three sizes, each twice the one before, with the processor time and the peak memory
# of one run of kconf: bench/shapes.sh [SHAPE ..], all shapes without one.
#
# kconf is crates/kconf/out/kconf (make build), or the program that KCONF names. It fails where a doubling of a shape makes time or
# memory more than 2.6 times as much, and where a run ends with another status than the shape's: 1 for one with a loop, and else 0.
# Time is the least of ten runs, and of thirty where it would be too much. What takes less than 0.05 seconds or 16 MiB counts as so
# much, and a run may have 6 GiB. The machine should have nothing else to do.
set -eu
here=$(cd "$(dirname "$0")" && pwd)
exec /usr/bin/python3 - "$(realpath -m "${KCONF:-$here/../crates/kconf/out/kconf}")" "$@" <<'EOF'
import os
import pathlib
import resource
import subprocess
import sys
import tempfile
import time

MOST = 2.6  # how much more a doubling may take
TIMES = 10  # runs of each size
AGAIN = 2  # so often they are done again where the time has grown too much
SHORT, SMALL = 0.05, 16.0  # what takes less seconds or MiB counts as so much
ROOM = 6 << 30  # the memory that one run may take


def config(name, *lines):
    """An entry with its lines."""
    return "\n\t".join([f"config {name}", *lines]) + "\n"


def loop_beside_a_chain(count):
    """Each symbol of a chain has the next as its default; beside it one symbol depends on itself."""
    chain = [config(f"S_{i}", "bool", f"default S_{i + 1}") for i in range(count)]
    return "".join(chain) + config(f"S_{count}", "def_bool y") + config("L", "def_bool L")


def loop_beside_wide_conditions(count):
    """The same chain, where each prompt also asks for 1,000 names. Its line has to have at most 8,191 bytes."""
    names = [f"N{i:03}" for i in range(1000)]
    asked = 'bool "p" if ' + "||".join(names)
    chain = [config(f"S_{i}", asked, f"default S_{i + 1}") for i in range(count)]
    return "".join(config(name, "bool") for name in names) + "".join(chain) + config(f"S_{count}", "def_bool y") + config("L", "def_bool L")


def hidden_choice_defaults(count):
    """A choice of so many members with as many defaults, which all name the last member; that one has no visible prompt."""
    defaults = "".join(f"\tdefault M_{count - 1}\n" for _ in range(count))
    members = [config(f"M_{i}", 'bool "m"' if i < count - 1 else 'bool "m" if NEVER') for i in range(count)]
    return config("NEVER", "bool") + 'choice\n\tprompt "c"\n' + defaults + "\n" + "".join(members) + "endchoice\n"


def hidden_members(count):
    """A choice of so many members, the first half of which have no visible prompt. The rest are new."""
    members = [config(f"M_{i}", 'bool "m" if NEVER' if i < count // 2 else 'bool "m"') for i in range(count)]
    return config("NEVER", "bool") + 'choice\n\tprompt "c"\n\n' + "".join(members) + "endchoice\n"


def visible_strangers(count):
    """A choice of so many members with as many defaults, which all name a symbol that is visible and no member."""
    defaults = "".join("\tdefault OTHER\n" for _ in range(count))
    members = [config(f"M_{i}", 'bool "m"') for i in range(count)]
    return config("OTHER", 'bool "o"') + 'choice\n\tprompt "c"\n' + defaults + "\n" + "".join(members) + "endchoice\n"


def dependencies(count):
    """So many names, and a line for each that depends on it."""
    return "".join(config(f"D_{i}", "bool") for i in range(count)), [f"depends on D_{i}" for i in range(count)]


def depends_and_defaults(count):
    """One entry with so many dependencies and defaults."""
    names, depends = dependencies(count)
    return names + config("A", "bool", *depends, *["default y" for _ in range(count)])


def depends_and_ranges(count):
    """One entry with so many dependencies and ranges."""
    names, depends = dependencies(count)
    return names + config("A", "int", *depends, *[f"range 0 {i + 1}" for i in range(count)])


def depends_and_selects(count):
    """One entry with so many dependencies and selects."""
    names, depends = dependencies(count)
    others = "".join(config(f"O_{i}", "bool") for i in range(count))
    return names + others + config("A", "bool", *depends, *[f"select O_{i}" for i in range(count)])


def menu_with(lines, inside):
    """A menu with these lines round this."""
    return 'menu "m"\n' + "".join(f"\t{line}\n" for line in lines) + "\n" + inside + "endmenu\n"


def visible(depends):
    """The same lines, which ask for what is to be seen."""
    return [line.replace("depends on", "visible if") for line in depends]


def symbols(count):
    """So many symbols with prompts."""
    return "".join(config(f"S_{i}", 'bool "s"') for i in range(count))


def choices(count):
    """So many choices of one member."""
    return "".join('choice\n\tprompt "c"\n\n' + config(f"C_{i}", 'bool "m"') + "endchoice\n" for i in range(count))


def comments(count):
    """So many comments."""
    return "".join(f'comment "c {i}"\n' for i in range(count))


def definitions(count):
    """So many definitions of one symbol."""
    return config("A", 'bool "s"') * count


def selects(count):
    """So many symbols that select one symbol."""
    return "".join(config(f"S_{i}", 'bool "s"', "select T") for i in range(count))


def menu_round_symbols(count):
    """A menu with so many dependencies round as many symbols."""
    names, depends = dependencies(count)
    return names + menu_with(depends, symbols(count))


def menu_round_choices(count):
    """The same round as many choices."""
    names, depends = dependencies(count)
    return names + menu_with(depends, choices(count))


def menu_round_comments(count):
    """The same round as many comments."""
    names, depends = dependencies(count)
    return names + menu_with(depends, comments(count))


def menu_round_one_symbol(count):
    """The same round as many definitions of one symbol."""
    names, depends = dependencies(count)
    return names + menu_with(depends, definitions(count))


def menu_round_selects(count):
    """The same round as many symbols that select one symbol."""
    names, depends = dependencies(count)
    return names + config("T", "bool") + menu_with(depends, selects(count))


def menu_at_the_limits(count):
    """So many symbols, at most the 65,535 that a tree may have, in a menu with a dependency for each two of them or so: 30,000 then.
    Each names what is no symbol, and holds."""
    count = min(count, 65535)
    return menu_with([f"depends on U_{i} != y" for i in range(count * 30000 // 65535)], symbols(count))


def hidden_menu_round_symbols(count):
    """A menu with so many conditions of visibility round as many symbols."""
    names, depends = dependencies(count)
    return names + menu_with(visible(depends), symbols(count))


def hidden_menu_round_choices(count):
    """The same round as many choices."""
    names, depends = dependencies(count)
    return names + menu_with(visible(depends), choices(count))


def hidden_menu_round_comments(count):
    """The same round as many comments, which it does not hide."""
    names, depends = dependencies(count)
    return names + menu_with(visible(depends), comments(count))


def hidden_menu_round_one_symbol(count):
    """The same round as many definitions of one symbol."""
    names, depends = dependencies(count)
    return names + menu_with(visible(depends), definitions(count))


def hidden_menu_round_selects(count):
    """The same round as many symbols that select one symbol."""
    names, depends = dependencies(count)
    return names + config("T", "bool") + menu_with(visible(depends), selects(count))


def implies(count):
    """So many symbols that imply one symbol."""
    return "".join(config(f"S_{i}", 'bool "s"', "imply T") for i in range(count))


def menu_round_implies(count):
    """A menu with so many dependencies round as many symbols that imply one symbol."""
    names, depends = dependencies(count)
    return names + config("T", "bool") + menu_with(depends, implies(count))


def blocks_one_in_another(count):
    """Of 62 `if` blocks one in the other, each with so many symbols, so that the innermost depends on 62 names."""
    names, _ = dependencies(62)
    opened = "".join(f"if D_{i}\n" + "".join(config(f"S_{i}_{k}", 'bool "s"') for k in range(count)) for i in range(62))
    return names + opened + "endif\n" * 62


def blocks_behind_one_another(count):
    """So many `if` blocks, each with one symbol, which ask for the same long condition."""
    names, _ = dependencies(500)
    asked = " && ".join(f"D_{i}" for i in range(500))
    return names + "".join(f"if {asked}\n" + config(f"S_{i}", 'bool "s"') + "endif\n" for i in range(count))


def conditions_of_one_choice(count):
    """A choice with so many dependencies round as many members, each with a default."""
    names, depends = dependencies(count)
    asked = "".join(f"\t{line}\n" for line in depends)
    return names + 'choice\n\tprompt "c"\n' + asked + "\n" + "".join(config(f"M_{i}", 'bool "m"') for i in range(count)) + "endchoice\n"


def own_dependencies(count):
    """So many symbols, each with 20 dependencies of its own and a default."""
    names, depends = dependencies(20)
    return names + "".join(config(f"S_{i}", 'bool "s"', *depends, "default y") for i in range(count))


def comments_with_conditions(count):
    """So many comments with as many dependencies of their own, one each, in a menu with as many more."""
    names, depends = dependencies(count)
    return names + menu_with(depends, "".join(f'comment "c {i}"\n\tdepends on D_{i}\n' for i in range(count)))


def a_chain_of_defaults(count):
    """So many symbols, each with the next one as its default, and the last y."""
    return "".join(config(f"S_{i}", 'bool "s"', f"default S_{i + 1}") for i in range(count)) + config(f"S_{count}", "def_bool y")


def a_chain_of_selects(count):
    """So many symbols, each of which selects the next one."""
    return "".join(config(f"S_{i}", 'bool "s"', f"select S_{i + 1}") for i in range(count)) + config(f"S_{count}", "bool")


def long_expressions(count):
    """So many symbols with conditions of 400 names in parentheses and negations."""
    names, _ = dependencies(400)
    asked = " || ".join(f"!(D_{i} && !D_{i + 1})" for i in range(0, 400, 2))
    return names + "".join(config(f"S_{i}", 'bool "s"', f"depends on {asked}") for i in range(count))


def help_texts(count):
    """So many symbols with help texts of 50 lines."""
    text = "".join(f"\t  line {i} of a text that nobody keeps\n" for i in range(50))
    return "".join(config(f"S_{i}", 'bool "s"', "help") + text for i in range(count))


def unknown_names(count):
    """A .config with so many lines, each of a symbol that the tree has not; so each is a warning."""
    return config("A", "bool"), "".join(f"CONFIG_U_{i}=y\n" for i in range(count))


def undefined_names(count):
    """So many symbols that depend on 40 names each, none of which is defined."""
    return "".join(config(f"S_{i}", "bool", "depends on " + " || ".join(f"U_{i}_{k}" for k in range(40))) for i in range(count))


def sourced(count, help):
    """A file with a help text that is sourced so many times."""
    return 'source "help"\n' * count, "", config("A", 'bool "a"', "help", help)


def sourced_help(count):
    """A file with so many bytes of help in one line, sourced as many times."""
    return sourced(count, "x" * count)


def sourced_tabs(count):
    """The same, where the line begins with so many tabs."""
    return sourced(count, "\t" * count + "x")


def lost_symbols(count):
    """So many symbols that depend on one that is n, each with a line in the .config; so each is lost."""
    tree = config("OFF", 'bool "o"') + "".join(config(f"S_{i}", 'bool "s"', "depends on OFF") for i in range(count))
    return tree, "".join(f"CONFIG_S_{i}=y\n" for i in range(count))


def lost_symbols_and_causes(count):
    """So many symbols that are lost, each of which depends on another one that is n."""
    tree = "".join(config(f"T_{i}", 'bool "t"') + config(f"S_{i}", 'bool "s"', f"depends on T_{i}") for i in range(count))
    return tree, "".join(f"CONFIG_S_{i}=y\n" for i in range(count))


def lost_members(count):
    """So many choices of one member that depend on one that is n, each with a line in the .config."""
    lines = '\tprompt "c"\n\tdepends on OFF\n\n'
    tree = config("OFF", 'bool "o"') + "".join("choice\n" + lines + config(f"M_{i}", 'bool "m"') + "endchoice\n" for i in range(count))
    return tree, "".join(f"CONFIG_M_{i}=y\n" for i in range(count))


def a_chain_of_dependencies(count):
    """So many symbols, each of which depends on the next one; the first is explained in as many steps."""
    return "".join(config(f"S_{i}", 'bool "s"', f"depends on S_{i + 1}") for i in range(count)) + config(f"S_{count}", 'bool "s"')


def defaults_that_do_not_apply(count):
    """One entry with so many dependencies, and as many defaults that do not apply; it is explained."""
    names, depends = dependencies(count)
    return config("OFF", "bool") + names + config("A", "bool", *depends, *["default y if OFF" for _ in range(count)])


def selects_that_do_not_count(count):
    """A menu with so many dependencies round as many symbols that are n and select one symbol, which is explained."""
    names, depends = dependencies(count)
    return names + config("A", "bool") + menu_with(depends, "".join(config(f"S_{i}", 'bool "s"', "select A") for i in range(count)))


def definitions_with_help(count):
    """So many definitions of one symbol, each with a help text, which is new."""
    return config("A", 'bool "a"', "help", "  text") * count


def defined_again_with_help(count):
    """So many new symbols, and behind them a second definition of each, with a help text."""
    first = "".join(config(f"S_{i}", 'bool "s"') for i in range(count))
    return first + "".join(config(f"S_{i}", "bool", "help", "  text") for i in range(count))


def how_along_a_chain(count):
    """The same chain; what must be set for the first symbol is asked. That is a line for each."""
    return a_chain_of_dependencies(count)


def how_with_dependencies(count):
    """One entry with so many dependencies, each with a prompt; what must be set for it is asked. That is a line for each."""
    names = "".join(config(f"D_{i}", 'bool "d"') for i in range(count))
    return names + config("A", 'bool "a"', *(f"depends on D_{i}" for i in range(count)))


def how_selected(count):
    """So many symbols that select one symbol without a prompt, which shall be y."""
    return selects(count) + config("T", "bool")


def how_no_longer_selected(count):
    """So many symbols that are y and select one symbol, which shall be n. That is a line for each."""
    return selects(count) + config("T", "bool"), "".join(f"CONFIG_S_{i}=y\n" for i in range(count))


def how_chosen(count):
    """A choice of so many members; what must be set for the last is asked."""
    return 'choice\n\tprompt "c"\n\n' + "".join(config(f"M_{i}", 'bool "m"') for i in range(count)) + config("LAST", 'bool "l"') + "endchoice\n"


def how_not_chosen(count):
    """A choice of so many members, the first of which shall be n."""
    return 'choice\n\tprompt "c"\n\n' + "".join(config(f"M_{i}", 'bool "m"') for i in range(count)) + "endchoice\n"


def how_impossible(count):
    """So many symbols without a prompt that depend on one that is not defined and select one symbol, which shall be y."""
    return "".join(config(f"S_{i}", "bool", "depends on NEVER", "default y", "select T") for i in range(count)) + config("T", "bool")


def impossible_with_many_definitions(count):
    """So many definitions of one symbol, each of which depends on a name that is not defined; it shall be y."""
    return "".join(config("T", 'bool "t"', f"depends on NEVER_{i}") for i in range(count))


def dead_in_a_menu(count):
    """A menu with so many dependencies, none of which is met, around as many symbols, whose prompts are listed as dead."""
    dependencies = "".join(f"\tdepends on NEVER_{i}\n" for i in range(count))
    return 'menu "m"\n' + dependencies + "\n" + "".join(config(f"S_{i}", 'bool "s"') for i in range(count)) + "endmenu\n"


def read_by_all(count):
    """A tree in which 300 symbols depend on one, which is y in every second of so many configurations."""
    needing = "".join(config(f"S_{i}", 'bool "s"', "default y", "depends on A") for i in range(300))
    return config("A", 'bool "a"') + needing, "", "", ["", "CONFIG_A=y\n"] * (count // 2)


def all_others(count):
    """A tree of 300 symbols. Of so many configurations every second one sets them all, and the others set none."""
    return "".join(config(f"S_{i}", 'bool "s"') for i in range(300)), "", "", ["", "".join(f"CONFIG_S_{i}=y\n" for i in range(300))] * (count // 2)


def all_the_same(count):
    """A tree of 300 symbols, and so many configurations that set them all."""
    return "".join(config(f"S_{i}", 'bool "s"') for i in range(300)), "", "", ["".join(f"CONFIG_S_{i}=y\n" for i in range(300))] * count


# Each shape with its least size. A tree has at most 65,535 symbols and 1,000,000 lines.
SHAPES = [
    (loop_beside_a_chain, 16000),
    (loop_beside_wide_conditions, 1000),
    (hidden_choice_defaults, 15000),
    (hidden_members, 15000),
    (visible_strangers, 15000),
    (depends_and_defaults, 16000),
    (depends_and_ranges, 16000),
    (depends_and_selects, 8000),
    (menu_round_symbols, 8000),
    (menu_round_choices, 8000),
    (menu_round_comments, 16000),
    (menu_round_one_symbol, 16000),
    (menu_round_selects, 8000),
    (menu_round_implies, 8000),
    (menu_at_the_limits, 16384),
    (hidden_menu_round_symbols, 8000),
    (hidden_menu_round_choices, 8000),
    (hidden_menu_round_comments, 16000),
    (hidden_menu_round_one_symbol, 16000),
    (hidden_menu_round_selects, 8000),
    (blocks_one_in_another, 250),
    (blocks_behind_one_another, 500),
    (conditions_of_one_choice, 8000),
    (own_dependencies, 8000),
    (comments_with_conditions, 8000),
    (a_chain_of_defaults, 16000),
    (a_chain_of_selects, 16000),
    (long_expressions, 1000),
    (help_texts, 4000),
    (unknown_names, 500000),
    (undefined_names, 5000),
    (sourced_help, 16000),
    (sourced_tabs, 16000),
    (lost_symbols, 8000),
    (lost_symbols_and_causes, 8000),
    (lost_members, 8000),
    (a_chain_of_dependencies, 8000),
    (defaults_that_do_not_apply, 8000),
    (selects_that_do_not_count, 8000),
    (definitions_with_help, 16000),
    (defined_again_with_help, 8000),
    (how_along_a_chain, 2000),
    (how_with_dependencies, 2000),
    (how_selected, 2000),
    (how_no_longer_selected, 2000),
    (how_chosen, 2000),
    (how_not_chosen, 2000),
    (how_impossible, 2000),
    (impossible_with_many_definitions, 8000),
    (dead_in_a_menu, 8000),
    (read_by_all, 500),
    (all_others, 500),
    (all_the_same, 500),
]
# Those that are refused, for their loop, or since more tries would be needed than are allowed, or as no input works; and those whose run has more options.
REFUSED = {
    loop_beside_a_chain, loop_beside_wide_conditions, how_along_a_chain, how_with_dependencies, how_no_longer_selected, how_impossible,
    impossible_with_many_definitions,
}
MORE_OPTIONS = {
    hidden_members: ["--list-new", "new"],
    lost_symbols: ["--warn-lost", "--explain-lost"],
    lost_symbols_and_causes: ["--warn-lost", "--explain-lost"],
    lost_members: ["--warn-lost", "--explain-lost"],
    a_chain_of_dependencies: ["--explain", "S_0", "--explain-depth", "65535"],
    defaults_that_do_not_apply: ["--explain", "A"],
    selects_that_do_not_count: ["--explain", "A"],
    definitions_with_help: ["--list-new", "new", "--with-help"],
    defined_again_with_help: ["--list-new", "new", "--with-help"],
    how_along_a_chain: ["--how", "S_0=y", "--how-steps", "20"],
    how_with_dependencies: ["--how", "A=y", "--how-steps", "20"],
    how_selected: ["--how", "T=y", "--how-steps", "20"],
    how_no_longer_selected: ["--how", "T=n", "--how-steps", "20"],
    how_chosen: ["--how", "LAST=y", "--how-steps", "20"],
    how_not_chosen: ["--how", "M_0=n", "--how-steps", "20"],
    how_impossible: ["--how", "T=y", "--how-steps", "20"],
    impossible_with_many_definitions: ["--how", "T=y"],
    dead_in_a_menu: ["--list-dead", "dead"],
}


def write(shape, count, folder):
    """Writes a shape, in a process of its own: what this one holds counts for the peak of the programs that it starts."""
    child = os.fork()
    if child == 0:
        made = shape(count)
        parts = made if isinstance(made, tuple) else (made,)
        tree, settings, help, each = (*parts, *["", "", "", []][len(parts):])
        pathlib.Path(folder, "Kconfig").write_text(tree)
        pathlib.Path(folder, "dot.config").write_text(settings)
        pathlib.Path(folder, "help").write_text(help)
        for number, text in enumerate(each):
            pathlib.Path(folder, f"c{number}").write_text(text)
        if each:
            pathlib.Path(folder, "names").write_text("".join(f"c{number}\n" for number in range(len(each))))
        os._exit(0)
    if os.waitpid(child, 0)[1]:
        sys.exit(f"{shape.__name__} was not written")


def spent(program, folder, options, wanted):
    """The least processor time of some runs in seconds, and the greatest peak memory in MiB. Each has to end with this status."""
    times, peaks = [], []
    inputs = ["--config", "dot.config", "--out", "out"]
    if os.path.exists(f"{folder}/names"):
        inputs = ["--each-from", "names", "--savedefconfig", "{}.min"]
    for _ in range(TIMES):
        process = subprocess.Popen(
            [program, *inputs, *options, "Kconfig"], cwd=folder, stdin=subprocess.DEVNULL,
            stdout=subprocess.DEVNULL, stderr=subprocess.DEVNULL,
            preexec_fn=lambda: resource.setrlimit(resource.RLIMIT_AS, (ROOM, ROOM)))
        _, status, usage = os.wait4(process.pid, 0)
        code = os.waitstatus_to_exitcode(status)
        if code != wanted:
            sys.exit(f"a run ended with status {code} and not {wanted}")
        times.append(usage.ru_utime + usage.ru_stime)
        peaks.append(usage.ru_maxrss / 1024)
        if times[-1] > 5:
            break
    return min(times), max(peaks)


def grown(rows):
    """What takes too much more from one size to the next: the size, and how much more."""
    found = []
    for (count, seconds, peak), (_, more_seconds, more_peak) in zip(rows, rows[1:]):
        if max(seconds, SHORT) * MOST < more_seconds:
            found.append((count, f"time {more_seconds / max(seconds, SHORT):.1f}"))
        if max(peak, SMALL) * MOST < more_peak:
            found.append((count, f"memory {more_peak / max(peak, SMALL):.1f}"))
    return found


def measured(program, shape, least, times):
    """A shape's three sizes, each with its time and its memory, by so many rounds of runs until nothing has grown too much."""
    options = MORE_OPTIONS.get(shape, [])
    rows = [(least, 9e9, 0), (2 * least, 9e9, 0), (4 * least, 9e9, 0)]
    with tempfile.TemporaryDirectory() as folder:
        for count, _, _ in rows:
            os.mkdir(f"{folder}/{count}")
            write(shape, count, f"{folder}/{count}")
        for _ in range(times):
            found = [spent(program, f"{folder}/{count}", options, 1 if shape in REFUSED else 0) for count, _, _ in rows]
            rows = [(count, min(old, new), max(peak, more)) for (count, old, peak), (new, more) in zip(rows, found)]
            if not grown(rows):
                break
    return rows


def main():
    program, wanted = sys.argv[1], sys.argv[2:]
    if not os.access(program, os.X_OK):
        sys.exit(f"there is no {program}: make build makes it")
    strange = set(wanted) - {shape.__name__ for shape, _ in SHAPES}
    if strange:
        sys.exit(f"no shape is named {', '.join(sorted(strange))}")
    failed = []
    for shape, least in SHAPES:
        name = shape.__name__
        if wanted and name not in wanted:
            continue
        rows = measured(program, shape, least, 1 + AGAIN)
        print(f"{name:<28}", *(f"{count:>7}: {seconds:7.3f} s {peak:7.1f} MiB" for count, seconds, peak in rows), flush=True)
        failed += [f"{name}: from {count} to {2 * count} it takes {much} times as much" for count, much in grown(rows)]
    for line in failed:
        print(line)
    return 1 if failed else 0


sys.exit(main())
EOF
