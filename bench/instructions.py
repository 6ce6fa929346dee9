#!/usr/bin/python3
"""Shows where the instructions of a run of kconf go: instructions.py FOLDER [KCONF ..]

FOLDER has a Kconfig and a dot.config, as generate.py writes them, or a flat tree and a configuration of it. Each KCONF
(crates/kconf/out/kconf, if none is named) is run over it by valgrind's callgrind and writes all three files; the table has a
column for each, in millions of instructions, by the crate of the function that ran them. What the compiler draws into a caller
counts there.
"""

import os
import pathlib
import re
import subprocess
import sys
import tempfile

TOP = pathlib.Path(__file__).resolve().parent.parent
# Each row with what the functions' names look like; the first that fits counts.
ROWS = [
    ("`kc_tree`", r"kc_tree::"),
    ("`kc_build`", r"kc_build::"),
    ("taking and giving back memory", r"malloc/|rattle_alloc|rattle_realloc|rattle_dealloc|rattle_free"),
    ("`kc_text` and `bstr`", r"kc_text::|bstr::"),
    ("the table of names", r"kc_expr::names?::|indexmap::|core::hash::"),
    ("`kc_expr` without the table of names", r"kc_expr::"),
    ("`kc_read`", r"kc_read::"),
    ("`kc_input` and `kc_config_file`", r"kc_(input|config_file)::"),
    ("`kc_io`, `kc_load`, `kc_conf`, `kc_words`, `kc_disk`", r"kc_(io|load|conf|words|disk)::"),
    ("`kc_values`, `kc_user`, `kc_order`, `kc_solve`", r"kc_(values|user|order|solve)::"),
    ("copying and filling memory", r"mem(move|cpy|set)"),
    ("the rest", r""),
]


def counts(kconf, folder):
    """How many instructions each function of a run took."""
    with tempfile.TemporaryDirectory() as work:
        found = os.path.join(work, "found")
        outputs = ["--out", f"{work}/config", "--header", f"{work}/header", "--savedefconfig", f"{work}/minimal"]
        words = ["valgrind", "--tool=callgrind", f"--callgrind-out-file={found}", kconf, "--config", "dot.config", *outputs, "Kconfig"]
        ran = subprocess.run(words, cwd=folder, capture_output=True, text=True)
        if ran.returncode:
            sys.exit(ran.stderr)
        told = subprocess.run(["callgrind_annotate", "--threshold=100", "--auto=no", found], capture_output=True, text=True, check=True).stdout
    rows = re.findall(r"^\s*([\d,]+) \([^)]*\)  (.*)$", told, re.M)
    return [(name, int(count.replace(",", ""))) for count, name in rows if name != "PROGRAM TOTALS"]


def sums(functions):
    """The sum of each row, in millions, and of all."""
    found = dict.fromkeys([row for row, _ in ROWS], 0)
    for name, count in functions:
        found[next(row for row, form in ROWS if re.search(form, name))] += count
    return {**found, "all": sum(found.values())}


def main():
    programs = [os.path.abspath(it) for it in sys.argv[2:]] or [str(TOP / "crates/kconf/out/kconf")]
    columns = [sums(counts(it, sys.argv[1])) for it in programs]
    for row in columns[0]:
        print(f"| {row} | " + " | ".join(f"{it[row] / 1e6:.1f}" for it in columns) + " |")


if __name__ == "__main__":
    main()
