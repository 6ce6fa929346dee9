"""Shows that the checker tells right from wrong: stand_ins.py BETWEEN

BETWEEN is the library that between.c gives. For some of the runs of cases.py stand_in.c is built as it is, which has to pass,
and once for each of its faults, which has to fail: at a run in which a call was refused, ANY_TEXT, TORN and TOUCHES already where none was,
BLIND, in a run that has no notes, where standard error is closed. So is stand_in_each.c for some of the runs of each_cases.py.

The status is 1 where the checker judges one of them otherwise.
"""

import concurrent.futures
import itertools
import os
import pathlib
import subprocess
import sys
import tempfile

import cases
import check
import each_cases

FAULTS = ["ANY_TEXT", "SILENT", "OTHER_NAME", "EARLY", "GOES_ON", "TORN"]
REPLACING = ["IN_PLACE", "ONE_BY_ONE", "LEAVES", "TOUCHES", "EXPOSES", "SILENT"]
RUNS = [
    ("fragments", FAULTS),
    ("the warnings of a tree, in a folder", FAULTS),
    ("a wide tree", FAULTS),
    ("modules", ["BLIND"]),
    ("--replace, over each of these", REPLACING),
]
EACH = ["STOPS", "RUNS_ON", "UNNAMED", "OTHER_TURN", "LAST_STATUS", "EARLY", "AHEAD", "LOSES"]
RUNS_OF_EACH = [
    ("--each, and a line that is too long", EACH),
    ("--each, over the configurations themselves, one of which is not there", ["STOPS", "RUNS_ON", "UNNAMED", "LAST_STATUS"]),
]


def quoted(text):
    """A C string of these bytes."""
    return '"' + "".join(f"\\{byte:03o}" for byte in text.encode()) + '"'


def rows(name, texts):
    """An array of texts: the name of each file, its bytes, and how many there are."""
    lines = [f"    {{{quoted(file)}, {quoted(text)}, {count}}}," for file, text, count in texts]
    return "\n".join([f"static const struct text {name}[] = {{", *lines, "};"])


def header_of(case):
    """The names and texts of a run. Of a file that is read there stands the name that an error line gives it."""
    inputs = [(os.path.normpath(f"{case.root}/{name}"), name, 1) for name in case.tree]
    inputs += [(name, name, 1) for name in (["start.config"] if case.settings is not None else []) + list(case.fragments)]
    outputs = [(name, text, len(text.encode())) for name, text in case.outputs.items()]
    counts = {"INPUTS": len(inputs), "OUTPUTS": len(outputs), "NOTES": len(case.notes.encode())}
    if case.replaces():
        counts["REPLACES"] = 1
    defined = [f"#define {word} {count}" for word, count in counts.items()]
    return "\n".join([*defined, rows("inputs", inputs), rows("outputs", outputs), f"static const char notes[] = {quoted(case.notes)};", ""])


def header_of_each(case):
    """The names and texts of a run of many configurations: those of all turns, one behind another."""
    tree = [(os.path.normpath(f"{case.root}/{name}"), name, 1) for name in case.tree]
    inputs, outputs, turns = [], [], []
    for turn in case.turns:
        read = [turn.name] + [name for name in case.fragments if turn.reads_fragments()]
        inputs += [(name, name, int(turn.settings is not None or name != turn.name)) for name in read]
        made = case.alone(turn).outputs
        outputs += [(name, text, len(text.encode())) for name, text in made.items()]
        turns.append(f"    {{{quoted(turn.name)}, {quoted(turn.notes)}, {len(read)}, {len(made)}, {turn.status}}},")
    defined = [f"#define TREE {len(tree)}", f"#define TURNS {len(turns)}", f"static const char said[] = {quoted(case.said)};"]
    lines = ["static const struct turn turns[] = {", *turns, "};"]
    return "\n".join([*defined, rows("tree", tree), rows("inputs", inputs), rows("outputs", outputs), *lines, ""])


def is_judged(between, case, fault):
    """Whether the checker judges the stand-in with this fault, or with none, as it has to; and a line that says how."""
    is_many = isinstance(case, each_cases.Many)
    with tempfile.TemporaryDirectory() as folder:
        (pathlib.Path(folder) / "run.h").write_text(header_of_each(case) if is_many else header_of(case))
        program = f"{folder}/stand_in"
        source = pathlib.Path(check.__file__).with_name("stand_in_each.c" if is_many else "stand_in.c")
        words = ["cc", "-O1", "-w", f"-I{folder}", "-o", program, source]
        subprocess.run(words + ([f"-D{fault}"] if fault else []), check=True)
        _, _, wrong = check.check_case(between, program, case)
    said = f"{len(wrong)} runs are wrong, the first: {wrong[0].split(': status')[0]}" if wrong else "no run is wrong"
    return bool(wrong) == bool(fault), f"stand-in, {case.name}, {fault or 'without a fault'}: {said}"


def main():
    between = sys.argv[1]
    every = {case.name: case for case in cases.cases() + each_cases.cases_of_each()}
    judged = [(every[name], fault) for name, faults in RUNS + RUNS_OF_EACH for fault in [None, *faults]]
    with concurrent.futures.ProcessPoolExecutor(check.JOBS) as pool:
        found = list(pool.map(is_judged, itertools.repeat(between), *zip(*judged)))
    for _, line in found:
        print(line)
    if not all(is_right for is_right, _ in found):
        sys.exit("the checker does not tell right from wrong")


if __name__ == "__main__":
    main()
