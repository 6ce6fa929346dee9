#!/usr/bin/env python3
"""Checks that each mutant still fits the code: mutants/check.py

A mutant is a file NAME.edit in crates/CRATE/must-fail, which the gate tries, or in mutants/CRATE, which `make mutants`
tries as well. Each of its `old:` texts must stand exactly once in the file that it names, once the pairs before it are
made, and the whole must change that file. Prints each mutant that does not fit and ends with status 1, or prints how
many there are. It takes a second and proves nothing.
"""
import os
import re
import sys

TOP = os.path.dirname(os.path.dirname(os.path.abspath(__file__)))
PARTS = ("src/", "specs/", "proofs/")


def mutants():
    """Gives the crate, the path and the text of each mutant, and whether the gate tries it."""
    for crate in sorted(os.listdir(f"{TOP}/crates")):
        for folder, is_gate in ((f"crates/{crate}/must-fail", True), (f"mutants/{crate}", False)):
            if os.path.isdir(f"{TOP}/{folder}"):
                for name in sorted(os.listdir(f"{TOP}/{folder}")):
                    with open(f"{TOP}/{folder}/{name}", encoding="utf-8") as file:
                        yield crate, f"{folder}/{name}", file.read(), is_gate


def fault_of(crate, text):
    """Says why a mutant does not fit, or answers None."""
    path, old, texts, was = None, None, {}, {}
    for line in text.split("\n"):
        if line.startswith("file: "):
            path = line[len("file: "):].strip()
            if not path.startswith(PARTS):
                return f"{path} is no file of {', '.join(PARTS)}"
        elif line.startswith("old: "):
            old = line[len("old: "):]
        elif line.startswith("new:"):
            if path is None or old is None:
                return "a `new:` line without its `file:` and `old:`"
            if path not in texts:
                place = f"{TOP}/crates/{crate}/{path}"
                if not os.path.isfile(place):
                    return f"there is no {path}"
                with open(place, encoding="utf-8") as file:
                    texts[path] = was[path] = file.read()
            count = texts[path].count(old)
            if count != 1:
                return f"its `old:` text stands {count} times in {path}"
            texts[path] = texts[path].replace(old, re.sub(r"\A ", "", line[len("new:"):]))
            old = None
        elif line.strip():
            return f"a line that is not read: {line[:60]}"
    return "it changes nothing" if texts == was else None


def main():
    faults, names, gate, others = [], set(), 0, 0
    for crate, path, text, is_gate in mutants():
        fault = fault_of(crate, text)
        key = crate, os.path.basename(path)
        if key in names:
            fault = fault or "another mutant of the crate has its name"
        names.add(key)
        if not path.endswith(".edit"):
            fault = "its name does not end in .edit"
        if fault:
            faults.append(f"{path}: {fault}")
        gate, others = gate + is_gate, others + (not is_gate)
    if len(sys.argv) > 1:
        sys.exit(__doc__)
    print("\n".join(faults) if faults else f"{gate + others} mutants fit, {gate} of them in the gate")
    sys.exit(1 if faults else 0)


if __name__ == "__main__":
    main()
