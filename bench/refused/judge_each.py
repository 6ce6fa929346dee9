"""Judges what a run of many configurations left, in which a call was refused. check.py says what must hold.

The notes are cut into those of each turn by the names that their lines begin with. Then each turn is judged as a run of one
configuration: that in which the call was refused by judge.py, those before and after it as runs without a refused call, and those
behind the end of the whole run as runs that were never begun.
"""

import dataclasses
import re

import judge
from runs import Kind, before, right

NO_MEMORY = b"error E20: out of memory\n"


@dataclasses.dataclass
class Left:
    """What is seen of one turn, as Run has it of a whole run."""

    status: int
    said: bytes
    notes: bytes
    outputs: dict
    touched: list
    beside: list
    struck: str
    opens: int

    def left(self):
        return self.status, self.said, self.notes, self.outputs


def parts_of(case, notes):
    """The notes before the first turn, a list of those of each turn, and the last line if it is E20 of no configuration. None where
    the notes are not in the order of the turns."""
    lines = notes.splitlines(keepends=True)
    last = lines.pop() if lines[-1:] == [NO_MEMORY] else b""
    parts, at = [b""] * (1 + len(case.turns)), 0
    for line in lines:
        leads = [number for number, turn in enumerate(case.turns, 1) if line.startswith(f"{turn.name}:".encode())]
        now = leads[0] if leads else 0
        if now < at:
            return None
        at = now
        parts[at] += line
    return parts[0], parts[1:], last


def struck_turns(case, run, kind, notes):
    """The turns in which a call was refused, or for a growth in which it may have been."""
    numbers = range(len(case.turns))
    if kind.name == "growth":
        return set(numbers)
    if run.struck == ">&2":
        return set([at for at in numbers if notes[at] != case.turns[at].notes.encode()][:1])
    path = run.struck.lstrip("<>")
    if path in case.fragments:
        readers = [at for at in numbers if case.turns[at].reads_fragments()]
        first = run.opens - run.struck.startswith("<")
        return set(readers[first:] if kind.is_lasting else readers[first : first + 1])
    return {at for at in numbers if path == case.turns[at].name or path in case.alone(case.turns[at]).places()}


def is_before_turns(case, run):
    """Whether the call was for a file of the tree or the list, which are read before the first turn."""
    return run.struck not in ("", ">&2") and not struck_turns(case, run, Kind("none"), [])


def left_by(case, run, at, notes, is_struck):
    """What is seen of one turn. Its status follows from its notes, unless these were refused."""
    names = case.alone(case.turns[at]).places()
    found = re.search(rb"error E(\d+): [^\n]*\n$", notes[at])
    status = 3 if is_struck and run.struck == ">&2" or found and found[1] in (b"18", b"19", b"20") else 1 if found else 0
    return Left(
        status=status,
        said=b"",
        notes=notes[at],
        outputs={name: run.outputs[name] for name in names},
        touched=[name for name in names if name in run.touched],
        beside=run.beside if is_struck else [],
        struck=run.struck if is_struck else "",
        opens=run.opens,
    )


def ends_all(left):
    """Whether no turn may come behind this one: memory ran out, or the notes were refused."""
    return left.notes.endswith(b": " + NO_MEMORY) or left.struck == ">&2"


def judge_untouched(alone, left):
    """What is wrong with a turn that must not begin; None where nothing is."""
    if left.notes:
        return "it has notes behind the end of the run"
    return "an output is not as it was, behind the end of the run" if left.touched or left.outputs != before(alone) else None


def judge_undisturbed(alone, left):
    """What is wrong with a turn in which no call was refused; None where nothing is."""
    if left.left() != right(alone):
        return "it is not as without a refused call"
    return judge.judge_whole(alone, left, Kind("none"))


def judge_later(alone, left, kind):
    """What is wrong with a turn behind that in which a call was refused, and all later ones for the same file. A file beside its place
    may have the same name in it."""
    why = judge_undisturbed(alone, left)
    found = re.search(rb"E19: cannot write ([^\n]*)\n$", left.notes)
    if not (why and found and kind.is_lasting and alone.replaces()):
        return why
    return judge.judge_left(alone, dataclasses.replace(left, struck=">" + found[1].decode()), kind)


def judge_turns(case, run, kind, notes, end):
    """What is wrong with the turns, where memory ran out before that of the number `end`; None where nothing is."""
    struck = struck_turns(case, run, kind, notes)
    statuses, is_over, off = [3] * (end < len(case.turns)), False, int(end < len(case.turns))
    for at, turn in enumerate(case.turns):
        alone, left = case.alone(turn), left_by(case, run, at, notes, at in struck)
        is_over = is_over or at >= end
        if is_over:
            why = judge_untouched(alone, left)
        elif at in struck:
            why = judge.judge_left(alone, left, kind)
        else:
            why = judge_later(alone, left, kind)
        if why:
            return f"{turn.name}: {why}"
        off += not is_over and left.left() != right(alone)
        is_over = is_over or ends_all(left)
        statuses.append(left.status)
    if off > 1 and not kind.is_lasting:
        return "one refused call shows in more than one turn"
    if run.beside and not struck:
        return f"{run.beside} stands there"
    return None if run.status == max(statuses) else "its status is not the greatest of all turns"


def judge_unbegun(case, run, kind, said, notes, last):
    """What is wrong with a run that ended before its first turn; None where nothing is."""
    is_told = last if kind.name == "growth" else run.struck == ">&2"
    if not is_told or any(notes) or run.status != 3 or run.said:
        return "it did not end with status 3 and the right notes before the first turn"
    if not case.said.encode().startswith(said) or said and not said.endswith(b"\n"):
        return "its notes are no beginning of the tree's warnings"
    return judge.judge_places(case, run, Kind("none"))


def judge_left(case, run, kind):
    """What is wrong with what a run left in which a call was refused; None where nothing is."""
    if is_before_turns(case, run):
        return judge.judge_left(case, run, kind)
    parts = parts_of(case, run.notes)
    if parts is None:
        return "its notes are not in the order of the turns, each with the name of its configuration"
    said, notes, last = parts
    if last and kind.name != "growth" or run.said:
        return "it tells of want of memory, or says something on standard output"
    if said != case.said.encode():
        return judge_unbegun(case, run, kind, said, notes, last)
    ends = range(len(case.turns)) if last else [len(case.turns)]
    found = [judge_turns(case, run, kind, notes, end) for end in ends]
    return None if None in found else found[-1]


def judge_closed(case, run, kind, is_refused):
    """What is wrong with a run whose standard error was closed; None where nothing is. The turns before the first that has notes, or in
    which a call was refused, are whole, and those behind it are not begun."""
    if not case.notes and run.left() == right(case):
        return None
    if run.said or run.notes or run.status != 3:
        return "it said something, or did not end with status 3"
    is_over = bool(case.said)
    for turn in case.turns:
        alone = case.alone(turn)
        outputs = {name: run.outputs[name] for name in alone.places()}
        touched = [name for name in alone.places() if name in run.touched]
        if not (is_over or turn.notes) and outputs == right(alone)[-1]:
            continue
        if is_over or turn.notes or judge.keeps_places(alone):
            if outputs != before(alone) or touched:
                return f"{turn.name}: an output is not as it was"
        elif not is_refused:
            return f"{turn.name}: it is not whole"
        elif why := judge.begun_in_order(alone, outputs, True):
            return f"{turn.name}: {why}"
        is_over = True
    return f"{run.beside} stands there" if run.beside else None
