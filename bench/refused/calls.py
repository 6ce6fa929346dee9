"""Refuses each growth of memory in turn in single calls, and judges what each call leaves: calls.py BETWEEN PROGRAM

BETWEEN is the library that between.c gives, PROGRAM is kc_call_turns, which makes one call after another and writes a line for
each: `done` where the call did its work, `refused` where it answered want of memory and left what its contract says, `wrong`
where it did neither. Where no growth is refused each line has to say `done`. Where one is, at most one line may say something
else, and none `wrong`; where all from one on are, none may say `wrong`. Each call has to be met: of each some line has to say
`refused`.

First a stand-in is judged (stand_in_calls.c), as it is and with each of its faults. The status is 1 where the checker judges it
otherwise than it has to, or a run of PROGRAM wrote anything else.
"""

import os
import pathlib
import subprocess
import sys
import tempfile

import cases

STORED = cases.TOP / "crates" / "kc_call_turns" / "stdout"
ENDS = ["done", "refused", "no memory before it"]


def run(between, program, number, is_lasting):
    """What each call said, in order, and how many growths there were; nothing where the run did not end with status 0."""
    with tempfile.TemporaryDirectory() as folder:
        report = pathlib.Path(folder) / "report"
        told = {"LD_PRELOAD": between, "KIND": "growth", "REFUSED": str(number), "REPORT": str(report)}
        if is_lasting:
            told["LASTING"] = "1"
        ran = subprocess.run([program], env=told, stdin=subprocess.DEVNULL, capture_output=True, text=True, timeout=60)
        if ran.returncode or ran.stderr or not report.exists():
            return [], 0
        return [tuple(line.rsplit(": ", 1)) for line in ran.stdout.splitlines()], int(report.read_text().split()[0])


def is_right(said, names, is_lasting):
    """Whether the lines are those of all calls, none wrong, and where one growth was refused at most one not done."""
    ends = [end for _, end in said]
    others = [end for end in ends if end != "done"]
    return [name for name, _ in said] == names and all(end in ENDS for end in ends) and (is_lasting or len(others) <= 1)


def check(between, program):
    """Makes all runs. The answer is what was wrong, and how often a growth was refused in each call."""
    whole = [tuple(line.rsplit(": ", 1)) for line in STORED.read_text().splitlines()]
    names = [name for name, _ in whole]
    said, growths = run(between, program, 0, False)
    if said != whole:
        return [f"without a refused growth the calls said {said}"], {}
    wrong, met = [], dict.fromkeys(names, 0)
    for is_lasting in [False, True]:
        for number in range(1, growths + 1):
            said, _ = run(between, program, number, is_lasting)
            if not is_right(said, names, is_lasting):
                wrong.append(f"growth {number}{', and all later ones' if is_lasting else ''}: the calls said {said}")
            for name, end in said:
                met[name] = met.get(name, 0) + (end == "refused" and not is_lasting)
    return wrong + [f"no growth was refused in {name}" for name in names if not met[name]], met


def stands_in(between, fault):
    """Whether the stand-in with this fault, or with none, is judged as it has to be."""
    here = pathlib.Path(__file__).parent
    names = [line.rsplit(": ", 1)[0] for line in STORED.read_text().splitlines()]
    with tempfile.TemporaryDirectory() as folder:
        rows = "".join(f'    "{name}",\n' for name in names)
        (pathlib.Path(folder) / "calls.h").write_text(f"#define CALLS {len(names)}\nstatic const char *calls[] = {{\n{rows}}};\n")
        program = f"{folder}/stand_in"
        words = ["cc", "-O1", "-Wall", f"-I{folder}", "-o", program, here / "stand_in_calls.c"]
        subprocess.run(words + ([f"-D{fault}"] if fault else []), check=True)
        wrong, _ = check(between, program)
    print(f"stand-in for the calls, {fault or 'without a fault'}: {len(wrong)} lines of what is wrong" + (f", the first: {wrong[0].split(': ')[0]}" if wrong else ""))
    return bool(wrong) == bool(fault)


def main():
    between, program = sys.argv[1], os.path.abspath(sys.argv[2])
    if not all([stands_in(between, fault) for fault in [None, "WRONG", "BLIND"]]):
        sys.exit("the checker does not tell right from wrong")
    wrong, met = check(between, program)
    for line in wrong[:40]:
        print(line)
    print(f"single calls: refused in {', '.join(f'{name} {count}' for name, count in met.items())}; {len(wrong)} lines of what is wrong")
    sys.exit(1 if wrong else 0)


if __name__ == "__main__":
    main()
