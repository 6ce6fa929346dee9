#!/usr/bin/env bash
# Runs kconf and kconf-tree on real trees, beside the trees' own tools: bench/real.sh [TREE|road|boards|how ..]
#
# The trees come from Debian, by apt's own commands over the machine's own list of sources. Nothing is installed. KCONF_TREES names
# the folder for the trees and for all that is built from them (default: kconf-trees in the folder for temporary files). A later run
# uses what is there. flex, bison, m4, libelf and the compiler for arm64 come from their packages if the machine has none.
#
# Each tree is run from no .config, from its own configurations, and from those that its own conf, built from its source, makes for
# allyesconfig, allnoconfig and five randconfigs. Each time:
# - kconf writes .config, header and minimal file; the header has to agree with the .config, and the minimal file has to restore it;
# - the values are compared with those of the tree's own tool; a symbol without a line is n or empty;
# - the full and the minimal file are compared byte for byte with those of the tree's own tool.
# Then kconf --each runs all of these at once: bench/real/each.py says what it checks. Each line of these configurations has to be
# kept, or reported by --warn-lost: bench/real/ignored.py. And the list of kconf --list-new is compared with that of the tree's
# own conf --listnewconfig: bench/real/new.py says over which inputs. On Linux 6.1 and 7.2 each line of
# the explanations of random symbols is checked by kconfiglib, those of all names are compared with bench/explain.py, and the
# command of docs/why.md is run: bench/real/explain.py.
#
# Then come:
# - SeaBIOS and toybox, each built with its own conf and with kconf: the results have to be the same byte for byte;
# - a build of Linux from a .config that kconf wrote: `make olddefconfig` may change no value, `make prepare` has to end, and the
#   header of Linux's own conf has to agree with that of kconf;
# - kconf --strict --warn-lost on Linux: what it accepts and what it refuses;
# - kconf-tree on four trees: what makes it read a tree again and what does not, its locations, status and time;
# - road: kconf-tree on Linux 6.1 and 7.2 (x86 and arm64, gcc and clang, in the tree and with O=), U-Boot, coreboot and busybox: every
#   value beside the tree's own `make olddefconfig`, which may then change no value of what kconf wrote (bench/real/road.py);
# - how: questions to kconf --how about Linux 6.1 and 7.2, U-Boot, coreboot and busybox, and each answer checked (bench/real/how.py);
# - boards: all boards of U-Boot by one run of kconf-tree --each: each minimal file has to be that of `savedefconfig` byte for byte.
#
# kconf is crates/kconf/out/kconf (make build), or the program that KCONF names. The status is 1 if
# - a value differs that is not in bench/real/known.txt,
# - a line of a written file differs whose cause is not in bench/real/lines.txt, or a list of new symbols one that is not in new.txt,
# - kconf refuses a tree, or a check above fails.
# JOBS is the number of compilers that may run at once (2), RUNS_AT_ONCE that of runs of kconf or of a tree's own tool (3).
set -eu
exec /usr/bin/python3 -B "$(dirname "$0")/real/main.py" "$@"
