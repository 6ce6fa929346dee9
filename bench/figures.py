#!/usr/bin/env python3
"""Prints docs/figures.md: what bench/trusted.py counts, and the lines, cases and mutants of the repository. `make docs` writes the page anew."""

import glob
import os
import re
import subprocess
import sys

TOP = os.path.dirname(os.path.dirname(os.path.abspath(__file__)))
# The crates that hold tests and programs alone.
TESTS = ("kc_call_tests", "kc_run_tests", "kc_disk_tests", "kc_call_turns", "kconf", "kconf_firmware", "kconf_cases")


def printed(*arguments):
    """The lines that bench/trusted.py prints with these arguments."""
    run = subprocess.run([sys.executable, os.path.join(TOP, "bench/trusted.py"), *arguments], capture_output=True, text=True, check=True)
    return run.stdout.splitlines()


def lines(pattern):
    """The number of lines of the files of a pattern."""
    return sum(open(path, "rb").read().count(b"\n") for path in glob.glob(os.path.join(TOP, pattern), recursive=True))


def crates():
    """The crates in the order of crates.txt."""
    with open(os.path.join(TOP, "crates.txt"), encoding="utf-8") as file:
        return re.findall(r"^(\w+)", file.read(), re.M)


def sums():
    """The table of what a user of the program has to trust."""
    told = "\n".join(printed("--run"))
    files = {title: (count, total) for total, count, title in re.findall(r"^ *(\d+) lines in +(\d+) files: (.*)$", told, re.M)}
    cited = re.findall(r"^ *(\d+) lines in +(\d+) definitions: ([^(\n]*?)(?: \(.*\))?$", told, re.M)
    yield "| Part | Files | Their lines | Cited definitions | Lines of these |"
    yield "|---|---|---|---|---|"
    everything = [sum(int(pair[at]) for pair in files.values()) for at in (0, 1)]
    for total, count, title in cited:
        of_files = files.get(title, everything)
        yield f"| {title} | {int(of_files[0]):,} | {int(of_files[1]):,} | {int(count):,} | {int(total):,} |"
    code = re.search(r"^In the code: (\d+) lines of contracts.*?, (\d+) of \d+ enums", told, re.M)
    yield ""
    yield f"The contracts themselves have {code.group(1)} lines. The enums and structs that the definitions name have {code.group(2)} lines."


def trusted_files():
    """The table of all trusted files."""
    *table, serving = printed("--table")
    yield from table
    yield ""
    yield f"{serving}."


def sizes():
    """The lines of each crate, and of the tests."""
    yield "| Crate | Code (`src/`) | Definitions (`specs/`) | Proofs (`proofs/`) |"
    yield "|---|---|---|---|"
    totals = [0, 0, 0]
    for crate in crates():
        if crate in TESTS:
            continue
        counts = [lines(f"crates/{crate}/src/**/*.rt"), lines(f"crates/{crate}/specs/**/*.antt"), lines(f"crates/{crate}/proofs/**/*.antt")]
        totals = [total + count for total, count in zip(totals, counts)]
        yield f"| `{crate}` | " + " | ".join(f"{count:,}" for count in counts) + " |"
    yield "| all | " + " | ".join(f"{total:,}" for total in totals) + " |"
    yield ""
    yield "| Tests and programs | Code (`src/`) |\n|---|---|"
    for crate in TESTS:
        yield f"| `{crate}` | {lines(f'crates/{crate}/src/**/*.rt'):,} |"


def tests():
    """The numbers of cases and mutants."""
    with open(os.path.join(TOP, "crates/kconf_cases/data/index"), encoding="utf-8") as file:
        cases = sum(1 for line in file if line.strip())
    gate = len(glob.glob(os.path.join(TOP, "crates/*/must-fail/*.edit")))
    others = len(glob.glob(os.path.join(TOP, "mutants/*/*.edit")))
    yield f"There are {cases:,} cases in `crates/kconf_cases/data`. The gate tries {gate} mutants, and `make mutants` tries {others} more."


def main():
    print("# Figures\n\nThe command `bench/figures.py` counts these figures, and `make docs` writes this page anew. No other document repeats")
    print("them.\n")
    print("## What you have to trust\n")
    print("If you use only the program, its promises rest on these definitions. `bench/trusted.py --run` lists the files. \"Their\nlines\" counts every line. The last two columns count the definitions that the contracts cite, without comments.\n")
    print("\n".join(sums()))
    print("\n## Trusted files\n")
    print("A file is trusted if the contract of something public cites a definition of it")
    print("([architecture.md](architecture.md#trusted-definitions)). The numbers of lines include imports and comments. In the last")
    print("column, `48 in 2` means 48 lines in two files.\n")
    print("\n".join(trusted_files()))
    print("\n## Lines\n")
    print("\n".join(sizes()))
    print("\n## Cases and mutants\n")
    print("\n".join(tests()))


main()
