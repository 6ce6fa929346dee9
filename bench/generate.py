#!/usr/bin/env python3
"""Writes a Kconfig tree in the shape of a large firmware's: generate.py FOLDER [SYMBOLS] [FILES].

The tree has SYMBOLS symbols (20,000 if not given) in about ten lines each, spread over FILES sourced files (a file for each
50 symbols if not given), with menus, if blocks, choices, all five types, depends on, select, imply, range and help text.
Beside it stands dot.config, with a line for four of five symbols. The same arguments give the same bytes.
"""

import pathlib
import random
import sys


def truths(names):
    """The names of the bool and tristate symbols."""
    return [name for name, kind in names if kind in ("bool", "tristate")]


def symbol_lines(pick, number, names):
    """The lines of one symbol. It asks for earlier symbols and raises later ones, so there is no loop."""
    name, kind = names[number]
    bools = truths(names[max(0, number - 200):number])
    later = truths(names[number + 1:number + 200])
    lines = [f"config {name}", f'\t{kind} "Option {number} of the firmware"']
    if bools and pick.random() < 0.6:
        lines.append(f"\tdepends on {pick.choice(bools)} || !{pick.choice(bools)}")
    if bools and pick.random() < 0.3:
        lines.append(f"\tdepends on {pick.choice(bools)} != m")
    if kind in ("bool", "tristate"):
        if bools and pick.random() < 0.4:
            lines.append(f"\tdefault y if {pick.choice(bools)}")
        elif pick.random() < 0.5:
            lines.append("\tdefault y")
        if later and pick.random() < 0.15:
            lines.append(f"\timply {pick.choice(later)}")
        if later and pick.random() < 0.05:
            lines.append(f"\tselect {pick.choice(later)}")
    elif kind == "string":
        lines.append(f'\tdefault "value {number}"')
    elif kind == "int":
        lines += [f"\trange 0 {1000 + number}", f"\tdefault {number % 997}"]
    else:
        lines += ["\trange 0x0 0xffff", f"\tdefault {hex(number % 4096)}"]
    lines.append("\thelp")
    while len(lines) < 9:
        lines.append(f"\t  Line {len(lines)} of the text that explains option {number}.")
    lines.append("")
    return lines


def choice_lines(pick, number, file_number):
    """A choice of three members."""
    members = [f"PICK_{file_number:04d}_{number}_{letter}" for letter in "ABC"]
    lines = ["choice", f'\tprompt "Pick {number} of file {file_number}"', f"\tdefault {pick.choice(members)}", ""]
    for member in members:
        lines += [f"config {member}", f'\tbool "{member.lower()}"', ""]
    return members, lines + ["endchoice", ""]


def setting(pick, name, kind):
    """A line of the .config."""
    if kind == "bool":
        return pick.choice([f"CONFIG_{name}=y", f"# CONFIG_{name} is not set"])
    if kind == "tristate":
        return pick.choice([f"CONFIG_{name}=y", f"CONFIG_{name}=m", f"# CONFIG_{name} is not set"])
    if kind == "string":
        return f'CONFIG_{name}="given {pick.randrange(100)}"'
    if kind == "int":
        return f"CONFIG_{name}={pick.randrange(1500)}"
    return f"CONFIG_{name}={hex(pick.randrange(70000))}"


def main():
    folder = pathlib.Path(sys.argv[1])
    symbols = int(sys.argv[2]) if len(sys.argv) > 2 else 20000
    files = int(sys.argv[3]) if len(sys.argv) > 3 else max(1, symbols // 50)
    pick = random.Random(symbols * 1000 + files)
    folder.mkdir(parents=True, exist_ok=True)
    (folder / "parts").mkdir(exist_ok=True)
    kinds = pick.choices(["bool", "tristate", "string", "int", "hex"], [55, 25, 6, 9, 5], k=symbols)
    names = [("MODULES", "bool")] + [(f"{kind[:3].upper()}_{number:05d}", kind) for number, kind in enumerate(kinds) if number]
    root = ['mainmenu "Generated firmware"', "", "config MODULES", '\tbool "Enable modules"', "\tdefault y", "\toption modules", ""]
    settings = []
    number = 1
    for file_number in range(files):
        count = (symbols - 1) * (file_number + 1) // files - (symbols - 1) * file_number // files
        lines = [f'menu "Part {file_number}"', ""]
        if file_number % 10 == 0 and count > 6:
            members, more = choice_lines(pick, 0, file_number)
            lines += more
            count -= 3
            settings.append(f"CONFIG_{pick.choice(members)}=y")
        for place in range(count):
            name, kind = names[number]
            if place == count // 2:
                lines += ["if MODULES", ""]
            lines += symbol_lines(pick, number, names)
            number += 1
            if pick.random() < 0.8:
                settings.append(setting(pick, name, kind))
        if count:
            lines += ["endif", ""]
        lines += ["endmenu", ""]
        (folder / "parts" / f"Kconfig.{file_number:04d}").write_text("\n".join(lines))
        root.append(f'source "parts/Kconfig.{file_number:04d}"')
    (folder / "Kconfig").write_text("\n".join(root) + "\n")
    (folder / "dot.config").write_text("\n".join(settings) + "\n")


if __name__ == "__main__":
    main()
