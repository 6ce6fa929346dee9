"""One run in which a call of the system is refused, and what it left."""

import os
import subprocess
import typing

import cases


class Kind(typing.NamedTuple):
    """A kind of call of which each is refused in turn; with `is_lasting` each later one for the same file too, and with
    `besides` each call of that kind. Whether the run may go on, and whether it has to."""

    name: str
    is_lasting: bool = False
    may_go_on: bool = False
    has_to: bool = False
    besides: str = ""

    def is_memory(self):
        """Whether the call fails for want of memory."""
        return self.name == "growth" or self.name.endswith("without memory")

    def __str__(self):
        return self.name + (", and all later ones" if self.is_lasting else "") + (f", and each {self.besides}" if self.besides else "")


KINDS = [
    Kind("growth", may_go_on=True),
    Kind("growth", is_lasting=True, may_go_on=True),
    Kind("open"),
    Kind("look", may_go_on=True),
    Kind("read"),
    Kind("read", is_lasting=True),
    Kind("write"),
    Kind("write", is_lasting=True),
    Kind("interrupted read", may_go_on=True),
    Kind("interrupted write", may_go_on=True),
    Kind("interrupted open", may_go_on=True),
    Kind("open without memory"),
    Kind("read without memory"),
    Kind("write without memory"),
    Kind("close", may_go_on=True),
    Kind("short read", may_go_on=True, has_to=True),
    Kind("short write", may_go_on=True, has_to=True),
]
# Those of runs with --replace besides.
REPLACING = [
    Kind("link", may_go_on=True),
    Kind("followed link", may_go_on=True),
    Kind("followed link", is_lasting=True),
    Kind("mode"),
    Kind("sync"),
    Kind("move"),
    Kind("busy move", may_go_on=True),
    Kind("mode", besides="removal"),
    Kind("write", besides="removal"),
    Kind("sync", besides="removal"),
    Kind("move", besides="removal"),
]
# The kinds of calls that are refused once more with standard error closed.
CLOSED = ["growth", "open", "read", "write"]
# What each output holds before a run, where the case says nothing else.
BEFORE = b"from the run before\n"
# The mode of each file that is there before a run, and that of a file that replaces it: its group may do what others may.
MODE = 0o661
REPLACED = 0o601


def before(case):
    """What each output holds before a run; None where it is not there."""
    return {name: case.before.get(name, BEFORE) for name in case.places()}


def changed(case):
    """The outputs that hold another text before the run, in order."""
    return [name for name, text in cases.texts_of(case).items() if before(case)[name] != text]


def right(case):
    """What a run leaves in which no call was refused."""
    texts = {} if case.checks() else cases.texts_of(case)
    return case.status, b"", case.notes.encode(), before(case) | texts


class Run:
    """One run, and what it left. `struck` is what the refused call was for, as between.c tells it, with the name of the output in
    place of that of a file made beside it, and `opens` how often that file had been opened by then; `touched` are the outputs that
    are other files than before or of another time, `beside` the files that stand beside one. Without `has_stderr` standard error is
    closed."""

    def __init__(self, work, between, program, case, kind, number, has_stderr=True):
        self.work, self.case = work, case
        self.lay()
        marks = self.marks()
        report = work.parent / "report"
        report.unlink(missing_ok=True)
        told = {"LD_PRELOAD": between, "KIND": kind.name, "REFUSED": str(number), "REPORT": str(report), "BESIDES": kind.besides}
        if kind.is_lasting:
            told["LASTING"] = "1"
        words = [program, *case.words()]
        close = None if has_stderr else lambda: os.close(2)
        ran = subprocess.run(words, cwd=work, env=told, stdin=subprocess.DEVNULL, capture_output=True, timeout=60, preexec_fn=close)
        self.status = ran.returncode
        self.said = ran.stdout
        self.notes = ran.stderr
        self.outputs = {name: (work / name).read_bytes() if (work / name).exists() else None for name in before(case)}
        self.touched = [name for name, mark in self.marks().items() if mark != marks[name]]
        self.beside = self.standing()
        self.read_report(report.read_text() if report.exists() else "0 0 0 0 \n")
        self.exposed = [name for name in [*self.beside, *self.outputs] if self.is_exposed(name)]

    def read_report(self, report):
        """Takes what between.c tells. What is made beside the outputs is made for those of other texts, in order, up to the refused call."""
        first, *made = report.splitlines()
        count, told, torn, opens, struck = first.split(" ", 4)
        self.calls, self.note_writes, self.torn_writes, self.opens = int(count), int(told), int(torn), int(opens)
        self.temporary_files = dict(zip(map(os.path.normpath, made), changed(self.case)))
        path = struck.lstrip("<>")
        output = self.temporary_files.get(os.path.normpath(path))
        self.struck = struck if output is None else struck[: len(struck) - len(path)] + output

    def lay(self):
        """Lays out what is there before the run."""
        for name in self.standing():
            (self.work / name).unlink()
        for name, text in before(self.case).items():
            place = self.work / self.case.links.get(name, name)
            place.parent.mkdir(parents=True, exist_ok=True)
            place.unlink(missing_ok=True)
            if place != self.work / name and not (self.work / name).is_symlink():
                (self.work / name).symlink_to(self.case.links[name])
            if text is not None:
                place.write_bytes(text)
                place.chmod(MODE)

    def standing(self):
        """The files that stand beside a place."""
        return [str(path.relative_to(self.work)) for path in self.work.rglob("*.kconf-*")]

    def is_exposed(self, name):
        """Whether a file that replaces another, or is to replace it, gives other access. What stands beside may give less."""
        output = self.temporary_files.get(name, name)
        if before(self.case).get(output) is None or not (self.work / name).exists():
            return False
        mode = (self.work / name).stat().st_mode & 0o7777
        return mode not in (MODE, REPLACED) if name == output else bool(mode & ~REPLACED)

    def marks(self):
        """What tells one file of an output from another, and when it was written last."""
        found = {name: (self.work / name).stat() if (self.work / name).exists() else None for name in before(self.case)}
        return {name: it and (it.st_ino, it.st_mtime_ns) for name, it in found.items()}

    def left(self):
        """All that is seen of the run from outside."""
        return self.status, self.said, self.notes, self.outputs
