"""Judges what a run of one configuration left, in which a call was refused. check.py says what must hold."""

import os

import cases
from runs import before, changed, right


def output_of(case, struck):
    """The output that a call was for, also where it was for what stands beside it; None where it was for none."""
    path = os.path.normpath(struck.lstrip("<>"))
    path = {target: name for name, target in case.links.items()}.get(path, path)
    return path if path in case.outputs else None


def keeps_places(case):
    """Whether a run that does not end with status 0 leaves every output as it was."""
    return case.replaces() or case.checks()


def warnings_of(case):
    """The notes of a run without its error lines."""
    lines = case.notes.splitlines(keepends=True)
    return "".join(line for line in (lines if case.outputs else lines[:-1]) if not line.startswith(f"{case.lead}error E22: ")).encode()


def is_compared(case, run):
    """Whether the call was one that compares an output. One that is an input file too is read as such where it is first opened."""
    is_input = run.opens == 1 and run.struck.lstrip("<") in case.inputs()
    return keeps_places(case) and run.struck.startswith("<") and output_of(case, run.struck) is not None and not is_input


def not_compared(case, run, kind):
    """The outputs that the refused call may have kept from being compared."""
    if kind.name == "growth":
        return set(case.outputs)
    return {output_of(case, run.struck)} - {None} if kind.name == "look" or is_compared(case, run) else set()


def is_stale_by_fault(case, run, kind):
    """Whether the run reports each output that does not hold its text, and besides only such as could not be compared."""
    stale = set(changed(case))
    found = {name for name in case.outputs if cases.stale_lines(case, [name]).encode() in run.notes}
    unsure = not_compared(case, run, kind)
    said = (1, warnings_of(case) + cases.stale_lines(case, found).encode())
    return case.checks() and bool(unsure) and (run.status, run.notes) == said and stale <= found <= stale | unsure


def is_repeated(case, kind, struck):
    """Whether the call was an interrupted read of a file of the tree, which has to be made again."""
    tree = [os.path.normpath(f"{case.root}/{name}") for name in case.tree]
    return kind.name == "interrupted read" and os.path.normpath(struck.lstrip("<")) in tree


def is_look_at_input(case, kind, struck, opens):
    """Whether the call was a look at an input by its path, which comes before it is opened."""
    return kind.name == "look" and opens == 0 and os.path.normpath(struck) in map(os.path.normpath, case.inputs())


def error_line(case, kind, struck, opens):
    """The error line that has to come, and whether it tells of an output."""
    output = output_of(case, struck)
    is_output = output is not None and not struck.startswith("<") and not is_look_at_input(case, kind, struck, opens)
    if kind.is_memory():
        return f"{case.lead}error E20: out of memory\n", is_output
    if is_output:
        return f"{case.lead}error E19: cannot write {output}\n", True
    path = os.path.normpath(struck.lstrip("<>"))
    names = {os.path.normpath(f"{case.root}/{name}"): name for name in case.tree}
    return f"{case.lead}error E18: cannot read {names.get(path, path)}\n", False


def begun_in_order(case, outputs, are_notes_whole):
    """What is wrong with the outputs as a whole; None where nothing is."""
    is_whole = are_notes_whole
    for name, text in outputs.items():
        if text == before(case)[name]:
            is_whole = False
            continue
        if not case.outputs.get(name, "").encode().startswith(text):
            return f"{name} holds no beginning of its text"
        if not is_whole:
            return f"{name} was begun before all before it was whole"
        is_whole = text == case.outputs[name].encode()
    return None


def judge_places(case, run, kind):
    """What is wrong with the places of a run that has to leave them as they were; None where nothing is."""
    moved = list(case.outputs).index(output_of(case, run.struck)) if kind.name.endswith("move") else 0
    for at, (name, text) in enumerate(run.outputs.items()):
        if at < moved and text != cases.texts_of(case)[name]:
            return f"{name} was not moved"
        if at >= moved and (text != before(case)[name] or name in run.touched):
            return f"{name} is not as it was"
    if run.beside and kind.besides != "removal":
        return f"{run.beside} stands there"
    return None


def judge_whole(case, run, kind):
    """What is wrong with the files of a run that ended as if no call had been refused; None where nothing is."""
    if run.beside:
        return f"{run.beside} stands there"
    excused = run.outputs if kind.name == "growth" else [output_of(case, run.struck)]
    if case.checks():
        return judge_places(case, run, kind)
    for name in run.touched if case.replaces() else []:
        if run.outputs[name] == before(case)[name] and name not in excused:
            return f"{name} was touched"
    return None


def judge_notes_refused(case, run, kind):
    """What is wrong with a run in which a write of the notes was refused."""
    if not case.notes.encode().startswith(run.notes):
        return "the notes are no beginning of the right ones"
    return judge_places(case, run, kind) if keeps_places(case) else begun_in_order(case, run.outputs, False)


def judge_output(case, run, path):
    """What is wrong with the outputs of a run in which this one failed."""
    names = list(case.outputs)
    for name in names[: names.index(path)]:
        if run.outputs[name] != case.outputs[name].encode():
            return f"{name} is not whole"
    for name in names[names.index(path) + 1 :]:
        if run.outputs[name] != before(case)[name]:
            return f"{name} was begun"
    return None


def judge_outputs(case, run, kind, are_notes_whole, is_output):
    """What is wrong with the outputs of a run that told a fault; None where nothing is."""
    if keeps_places(case):
        return judge_places(case, run, kind)
    wrong = begun_in_order(case, run.outputs, are_notes_whole)
    if wrong or kind.name == "growth":
        return wrong
    if is_output:
        return judge_output(case, run, output_of(case, run.struck))
    if any(text != before(case)[name] for name, text in run.outputs.items()):
        return "an output was begun behind a file that could not be read"
    return None


def judge_writes(run, kind):
    """What is wrong with the writes of the notes; None where nothing is."""
    if run.torn_writes and kind.name == "growth":
        return None
    if run.torn_writes:
        return f"{run.torn_writes} writes of notes were to end within a line"
    lines = len(run.notes.splitlines())
    most = lines + (kind.name == "short write" and run.struck == ">&2")
    return None if min(lines, 1) <= run.note_writes <= most else f"{run.note_writes} writes of {lines} lines of notes"


def judge_call(run, kind):
    """What is wrong with the access to files and the writes of notes, of any run in which a call was refused; None where nothing is."""
    return f"{run.exposed} give other access than the files before" if run.exposed else judge_writes(run, kind)


def judge_left(case, run, kind):
    """What is wrong with what a run left in which a call was refused; None where nothing is."""
    compared = is_compared(case, run)
    if (kind.may_go_on or compared) and run.left() == right(case):
        return judge_whole(case, run, kind)
    if is_stale_by_fault(case, run, kind):
        return judge_places(case, run, kind)
    if kind.has_to or compared or is_repeated(case, kind, run.struck):
        return "it did not go on"
    if run.status != 3 or run.said:
        return "it did not end with status 3, and nothing on standard output"
    if run.struck == ">&2":
        return judge_notes_refused(case, run, kind)
    line, is_output = error_line(case, kind, run.struck, run.opens)
    if not run.notes.endswith(line.encode()):
        return f"its last note is not: {line.strip()}"
    told = run.notes[: len(run.notes) - len(line.encode())]
    warnings = warnings_of(case)
    if not warnings.startswith(told) or (told and not told.endswith(b"\n")):
        return "its notes before the error line are no beginning of the right ones"
    if is_output and told != warnings:
        return "its notes are not whole before an output"
    return judge_outputs(case, run, kind, told == warnings, is_output)


def judge_closed(case, run, kind, is_refused):
    """What is wrong with a run whose standard error was closed; None where nothing is."""
    if run.said or run.notes:
        return "it said something"
    if run.status != 3 and (case.notes or run.left() != right(case)):
        return "it did not end with status 3"
    if run.status == 3 and not (case.notes or is_refused):
        return "it did not go on"
    if keeps_places(case):
        return judge_places(case, run, kind) if run.status else judge_whole(case, run, kind)
    return begun_in_order(case, run.outputs, not case.notes)
