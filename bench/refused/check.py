"""Refuses each call of the system in turn in runs of a program, and judges what each run leaves: check.py BETWEEN PROGRAM

BETWEEN is the library that between.c gives, PROGRAM is kconf or what stands in for it. The runs are those of cases.py and
each_cases.py. judge.py and judge_each.py say whether what a run left is right, by these rules. Each output holds another text
before a run, so that one that was begun is told from one that was not; with --replace it may also hold its text, or not be there.

A run without a refused call has to end with its status, its notes and its outputs, to the byte. A run in which a call was refused
ends with status 3. In each, a write to standard error holds one or more whole lines. So there are no more writes than lines;
where a write moved one byte, one more. Only where the growth was refused that makes room to join lines, and that is one growth of
a run, they may come in pieces. Its notes are then a beginning of the right ones, in whole lines, and the one error line: E20 for
memory, also where the system has none for an open, a read or a write, E18 with the name of the file that could not be read, E19
with the name of the output that could not be written; where the notes themselves were refused, a beginning and nothing else. Of
the outputs, each that was begun holds a beginning of its text, and nothing is begun before the notes and the outputs before it
are whole: so it is too where a growth was refused while an output was opened or written. Behind a file that could not be read
nothing is begun, and before an output that could not be written all is whole. What a program may get along without, it may also
get along without, to the same end as if nothing had been refused: a growth, the closing of a file. A read of a file of the tree
that was interrupted has to be tried again. Another call that was interrupted may be, and where it is not it counts as refused. A
call that moves one byte is no fault.

With --replace a run that does not end with status 0 leaves every output as it was, the same file of the same time, and nothing
beside it (no file *.kconf-*); only where a move is refused the outputs before that one are the new ones. A file that stands
beside stays where its removal is refused as well. A fault of what is made beside X is E19 with the name X; want of memory is E20
there too. Where an output held its text the file stays, but where the look at it was refused, or a growth: then the run may
replace it, and ends with status 0. No file gives more access than the one that it replaces, at any time: what is left beside
shows that. Where the system refuses to follow a link once, the run may go on; where it always does, that is E19.

With --check every output stays as it was. An output that could not be compared, since a read of it or a growth was refused,
counts as one that does not hold its text: the run then ends with status 1 and E22 for it. Where a growth was refused it may also
end with E20.

With --each every configuration takes its turn behind the warnings of the tree, and each line of its turn begins with its name.
What is refused in one turn shows in that turn alone, as in a run of that configuration: its error line begins with
`CONFIGURATION: `. Where all later reads of a fragment are refused too, so it is in each later turn. The turns before it and
behind it are as without a refused call, and the status is the greatest of all. But want of memory and notes that are refused end
the whole run: then no line and no byte comes of a later turn. E20 has the name of the configuration in whose turn it comes, and
none where it comes before a turn. A file of the tree or the list that cannot be read is E18 of no configuration, and no turn is
begun.

Where standard error is closed the notes can't be written, so a run that has any ends with status 3 and begins nothing, and no
word of the notes or of an error line stands in an output, whatever is refused besides.

The status is 1 where a run left anything else.
"""

import concurrent.futures
import itertools
import os
import pathlib
import shutil
import sys
import tempfile

import cases
import each_cases
import judge
import judge_each
from runs import CLOSED, KINDS, REPLACING, Kind, Run, before, changed, right


# How many cases are run at once.
JOBS = int(os.environ.get("JOBS", os.cpu_count()))


def judge_of(case):
    """What judges the runs of a case."""
    return judge_each if isinstance(case, each_cases.Many) and case.takes_turns() else judge


def needed(case):
    """The kinds of which a run has to make a call: without one nothing is looked at."""
    names = ["growth"] + ["open", "read", "close"] * case.opens_files() + ["write"] * bool(case.notes or case.outputs and not case.checks())
    if not (case.replaces() and case.outputs):
        return names
    new = changed(case)
    made_over = [name for name in new if before(case)[name] is not None]
    return names + ["look"] + ["write", "sync", "move"] * bool(new) + ["mode"] * bool(made_over) + ["link", "followed link"] * bool(case.links)


def check_closed(work, between, program, case, kind):
    """Refuses each call of a kind with standard error closed. The answer: how many runs there were, and what was wrong."""
    count = Run(work, between, program, case, kind, 0, has_stderr=False).calls
    wrong = []
    for number in range(count + 1):
        run = Run(work, between, program, case, kind, number, has_stderr=False)
        why = judge_of(case).judge_closed(case, run, kind, number > 0)
        if why:
            wrong.append(f"{kind} {number}, standard error closed: {why}: status {run.status}, outputs {run.outputs}"[:400])
    return count + 1, wrong


def check_kind(work, between, program, case, kind):
    """Refuses each call of a kind. The answer: how many runs there were, how many went on, and what was wrong."""
    start = Run(work, between, program, case, kind._replace(besides=""), 0)
    if start.left() != right(case):
        return 0, 0, [f"without a refused call: status {start.status}, notes {start.notes[-200:]!r}, or another text of an output"]
    exposed = f"{start.exposed} give other access than the files before" if start.exposed else None
    wrong = exposed or judge.judge_whole(case, start, kind) or judge.judge_writes(start, Kind("none"))
    if wrong:
        return 0, 0, [f"without a refused call: {wrong}"]
    if start.calls == 0 and kind.name in needed(case):
        return 0, 0, [f"no call of {kind.name}"]
    went_on, wrong, stayed, torn = 0, [], 0, []
    for number in range(1, start.calls + 1):
        run = Run(work, between, program, case, kind, number)
        why = judge.judge_call(run, kind) or judge_of(case).judge_left(case, run, kind)
        went_on += run.left() == right(case)
        stayed += len(run.beside)
        torn += [number] * bool(run.torn_writes)
        if why:
            wrong.append(f"{kind} {number} {run.struck}: {why}: status {run.status}, notes {run.notes[-200:]!r}")
    if len(torn) > 1 and not kind.is_lasting:
        wrong.append(f"{kind} {torn}: writes of notes were to end within a line, where each of these was refused")
    if kind.besides and {"move", kind.name} <= set(needed(case)) and not (stayed or wrong):
        wrong.append(f"{kind}: no file stayed beside, so nothing was to be removed")
    return start.calls, went_on, wrong


def check_case(between, program, case):
    """Makes all runs of a case. The answer: for each kind how many runs there were and how many went on, how many there were with
    standard error closed, and what was wrong."""
    wrong, counts, closed = [], {}, 0
    with tempfile.TemporaryDirectory() as folder:
        work = pathlib.Path(folder) / "work"
        for name, text in case.inputs().items():
            (work / name).parent.mkdir(parents=True, exist_ok=True)
            (work / name).write_text(text)
        for kind in KINDS + REPLACING * case.replaces():
            runs, went_on, why = check_kind(work, between, program, case, kind)
            counts[kind] = runs, went_on
            wrong += [f"{case.name}: {line}" for line in why]
        for name in CLOSED:
            runs, why = check_closed(work, between, program, case, Kind(name))
            closed += runs
            wrong += [f"{case.name}: {line}" for line in why]
    return counts, closed, wrong


def check(between, program, some):
    """Makes all runs of some cases, several cases at once, and says how many there were of each kind. The answer is how many there were
    at all, and what was wrong."""
    with concurrent.futures.ProcessPoolExecutor(JOBS) as pool:
        done = list(pool.map(check_case, itertools.repeat(between), itertools.repeat(program), some))
    for kind in KINDS + REPLACING:
        found = [counts[kind] for counts, _, _ in done if kind in counts]
        print(f"{kind}: {sum(runs for runs, _ in found)} runs, {sum(on for _, on in found)} of them went on to the right end")
    closed = sum(runs for _, runs, _ in done)
    print(f"standard error closed: {closed} runs")
    runs = closed + sum(runs for counts, _, _ in done for runs, _ in counts.values())
    return runs, [line for _, _, wrong in done for line in wrong]


def main():
    between, program = sys.argv[1:]
    some = cases.cases() + each_cases.cases_of_each()
    runs, wrong = check(between, shutil.which(program) or program, some)
    for line in wrong[:40]:
        print(line)
    print(f"{len(some)} cases, {runs} runs: {len(wrong)} were wrong")
    sys.exit(1 if wrong else 0)


if __name__ == "__main__":
    main()
