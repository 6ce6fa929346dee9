"""kconfiglib as a tree's own tool: library.py FOLDER MODE SEED KCONFIG CONFIG

The kconfiglib.py of FOLDER reads the tree KCONFIG and the .config CONFIG, and writes CONFIG again: completed (olddefconfig), or
with every question answered with yes, with no, or at random (allyesconfig, allnoconfig, randconfig). With savedefconfig CONFIG
becomes the minimal file.
"""

import random
import sys

sys.path.insert(0, sys.argv[1])
import kconfiglib  # noqa: E402  (of that folder)


def answer(tree, mode, pick):
    """Answers the questions in order, each where it can be asked then."""
    for symbol in tree.unique_defined_syms:
        if symbol.choice or symbol.orig_type not in (kconfiglib.BOOL, kconfiglib.TRISTATE):
            continue
        allowed = symbol.assignable
        if mode == "randconfig" and allowed:
            symbol.set_value(pick.choice(allowed))
        elif allowed:
            symbol.set_value(allowed[-1] if mode == "allyesconfig" else allowed[0])
    for choice in tree.unique_choices:
        members = [member for member in choice.syms if member.visibility]
        if mode == "randconfig" and members:
            pick.choice(members).set_value(2)


def main():
    mode, seed, kconfig, config = sys.argv[2:]
    tree = kconfiglib.Kconfig(kconfig, warn=False)
    if mode in ("olddefconfig", "savedefconfig"):
        tree.load_config(config)
    else:
        answer(tree, mode, random.Random(int(seed)))
    if mode == "savedefconfig":
        tree.write_min_config(config)
    else:
        tree.write_config(config)


if __name__ == "__main__":
    main()
