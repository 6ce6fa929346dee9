#!/usr/bin/python3
"""Tries the built program as somebody new to it would: trials.py [KCONF]

Runs at once into one log, full disks, a closed standard error, folders and files that may not be written or read, names that are
folders, readers that go away, limits of a file's size, of memory and of the stack, paths through a file, devices and pipes, links that
change, terminals, names that collide, many files, 2,000,000 warnings, and runs for three configurations (--each) of which one fails.
Each run has to end with the status and the line of docs/formats.md, and to leave what is said there. If root starts this, some trials
run as root, and then all run as nobody: root may write everywhere.

Each trial has a folder of its own. The script ends with status 1 where one does not end so, and names it.
"""

import collections
import errno
import os
import pathlib
import pty
import pwd
import resource
import shutil
import signal
import socket
import struct
import subprocess
import sys
import tempfile
import traceback

from refusing import GETRANDOM, refusing

TOP = pathlib.Path(__file__).resolve().parent.parent
TREE = 'config A\n\tbool "a"\n\nconfig S\n\tstring "s"\n\tdefault "x"\n'
RECIPE = (TOP / "SECURITY.md").read_text()
CONFIG = '#\n# Automatically generated file; DO NOT EDIT.\n# Main menu\n#\n# CONFIG_A is not set\nCONFIG_S="x"\n'
HEADER = '/*\n * Automatically generated file; DO NOT EDIT.\n * Main menu\n */\n#define CONFIG_S "x"\n'
FILES = {"--out": "config", "--header": "header", "--savedefconfig": "minimal", "--depfile": "rule"}
OLD = "from the run before\n"
RUNS = 8  # at once
LINES = 300  # of warnings of each of them
PIPED = 40  # of warnings of each of them into a pipe, which takes writes of at most 4,096 bytes whole
HELD = 1_500  # of warnings that --strict holds, which are more than 64 KiB
MOST = 2_000_000  # warnings of one run
SECONDS = 2.0  # of processor time for them
PIPE_BYTES = 67_108_864  # that a pipe of the tree may give
THREE = ("c/one", "c/two", "c/three")  # configurations
FRAGMENTS = 1_100  # more than there are descriptors
TURNS = 1_000  # of each race
STACK = 65_536  # bytes of it that suffice
COLLIDING = 8_000  # names that collide if they are hashed without a key
NEEDS_OUT = "error: the argument '--config <FILE>' needs '--out <FILE>' where FILE is no regular file\n\nFor more information, try '--help'.\n"


class Wrong(Exception):
    """What was found, where it is not what is wanted."""


def want(what, found, wanted):
    if found != wanted:
        raise Wrong(f"{what}: {found!r}, not {wanted!r}")


class Place:
    """A folder with a tree, and the program."""

    def __init__(self, path, kconf):
        self.path, self.kconf = pathlib.Path(path), kconf
        self.put("Kconfig", TREE)

    def put(self, name, text):
        (self.path / name).write_text(text)

    def get(self, name):
        """A file's text; None where it is not there."""
        path = self.path / name
        return path.read_text() if path.exists() else None

    def run(self, *words, **more):
        """A run with these words: its status, and what it said on standard error."""
        ran = subprocess.run([self.kconf, *words], cwd=self.path, stdin=subprocess.DEVNULL, capture_output=True, text=True, **more)
        return ran.returncode, ran.stderr

    def left(self):
        """What stands beside a place."""
        return sorted(str(it) for it in self.path.rglob("*.kconf-*"))


def want_lines(what, found, lines):
    """Each line of each run has to be there, whole."""
    torn = [line for line in found if line not in lines]
    want(f"{what}: torn lines ({len(torn)})", torn[:3], [])
    counts = collections.Counter(found)
    want(f"{what}: how often each came", {counts[line] for line in lines}, {RUNS})


def runs_at_once(place, words, status, lines):
    """Runs at once into one log, as 2>>log and 2>log of a shell make it."""
    start = [place.kconf, *words, "--config", "dot.config", "--out"]
    for mode in ("a", "w"):
        with open(place.path / "log", mode) as log:
            for run in [subprocess.Popen([*start, f"o{n}", "Kconfig"], cwd=place.path, stderr=log) for n in range(RUNS)]:
                want("status", run.wait(), status)
        want_lines("the log", place.get("log").splitlines(keepends=True), lines)
        os.unlink(place.path / "log")


def runs_at_once_into_a_pipe(place, words, status, lines):
    want("at most 4,096 bytes", sum(map(len, lines)) <= 4_096, True)
    start = [place.kconf, *words, "--config", "dot.config", "--out"]
    reader, writer = os.pipe()
    runs = [subprocess.Popen([*start, f"o{n}", "Kconfig"], cwd=place.path, stderr=writer) for n in range(RUNS)]
    os.close(writer)
    with open(reader) as pipe:
        want_lines("the pipe", list(pipe), lines)
    want("statuses", [run.wait() for run in runs], [status] * RUNS)


def warned(place, count):
    """Lays out a .config with so many unknown symbols: the warnings of it, in order."""
    names = [f"UNKNOWN_{n}_{'X' * (n % 80)}" for n in range(count)]
    place.put("dot.config", "".join(f"CONFIG_{name}=y\n" for name in names))
    return dict.fromkeys(f"dot.config:{n}: warning K7: unknown symbol {name}\n" for n, name in enumerate(names, 1))


REFUSED = {"error E21: warnings are refused\n": None}


def runs_at_once_tear_no_line(place):
    runs_at_once(place, [], 0, warned(place, LINES))
    runs_at_once_into_a_pipe(place, [], 0, warned(place, PIPED))


def runs_at_once_tear_no_line_that_was_held(place):
    lines = warned(place, HELD)
    want("more than 64 KiB", sum(map(len, lines)) > 65_536, True)
    runs_at_once(place, ["--strict"], 1, lines | REFUSED)
    runs_at_once_into_a_pipe(place, ["--strict"], 1, warned(place, PIPED) | REFUSED)


def writes(place, *words):
    """A run whose standard error keeps its writes apart: its status, and the bytes of each write."""
    reader, writer = socket.socketpair(socket.AF_UNIX, socket.SOCK_SEQPACKET)
    run = subprocess.Popen([place.kconf, *words], cwd=place.path, stderr=writer)
    writer.close()
    got = []
    while True:
        text = reader.recv(1_000_000)
        if not text:
            break
        got.append(text)
    reader.close()
    return run.wait(), got


def each_write_holds_whole_lines(place):
    for count in (1, LINES, HELD):
        lines = warned(place, count)
        place.put("two.config", "")
        for words, more, last in (
            (["--config", "dot.config", "--out", "o", "Kconfig"], {}, 0),
            (["--strict", "--config", "dot.config", "--out", "o", "Kconfig"], REFUSED, 1),
            (["--each", "--out", "{}.o", "Kconfig", "dot.config", "two.config"], {}, 0),
        ):
            status, got = writes(place, *words)
            want(f"{words}: the status", status, last)
            want(f"{words}: writes that end within a line", [text[-40:] for text in got if not text.endswith(b"\n")], [])
            want(f"{words}: the lines", b"".join(got).decode() == "".join(lines | more), True)
    place.put("Kconfig", "".join(f"config U_{n}\n" for n in range(LINES)))
    lines = "".join(f"Kconfig:{n}: warning K3: U_{n - 1} has no type\n" for n in range(1, LINES + 1))
    for words in (["--config", "none", "--out", "o", "Kconfig"], ["--each", "--out", "{}.o", "Kconfig", "two.config"]):
        want("the warnings about the tree, in one write", writes(place, *words), (0, [lines.encode()]))


def a_full_disk_is_told(place):
    for flags in ([], ["--replace"]):
        for at, full in enumerate(FILES):
            for name in FILES.values():
                place.put(name, OLD)
            words = [word for option, name in FILES.items() for word in (option, "/dev/full" if option == full else name)]
            said = place.run(*flags, *words, "Kconfig")
            # The minimal file of this tree is empty, so nothing of it is refused.
            if full == "--savedefconfig":
                want(f"{full} full", said, (0, ""))
                continue
            want(f"{full} full", said, (3, "error E19: cannot write /dev/full\n"))
            before = [CONFIG, HEADER, ""][:at] if not flags else [OLD] * at
            want(f"before {full}", [place.get(name) for name in FILES.values()][:at], before)
            want(f"behind {full}", [place.get(name) for name in FILES.values()][at + 1 :], [OLD] * (3 - at))
    place.put("dot.config", "CONFIG_A=y\n")
    words = ["--config", "dot.config", "--out", "config", "--savedefconfig", "/dev/full", "Kconfig"]
    want("a minimal file with a line", place.run(*words), (3, "error E19: cannot write /dev/full\n"))


def a_closed_standard_error_gets_into_no_file(place):
    place.put("config", OLD)
    place.put("dot.config", "CONFIG_Q=y\n")
    for flags in ([], ["--replace"], ["--strict"]):
        status, _ = place.run(*flags, "--config", "dot.config", "--out", "config", "Kconfig", preexec_fn=lambda: os.close(2))
        want("with a warning", (status, place.get("config")), (3, OLD))
        status, _ = place.run(*flags, "--config", "none", "--out", f"other{len(flags)}", "Kconfig", preexec_fn=lambda: os.close(2))
        want("without one", (status, place.get(f"other{len(flags)}")), (0, CONFIG))
    status, _ = place.run("--config", "none", "--out", "/dev/full", "Kconfig", preexec_fn=lambda: os.close(2))
    want("with a full disk", status, 3)


def what_may_not_be_written_or_read_is_named(place):
    (place.path / "shut").mkdir()
    place.put("shut/there", OLD)
    place.put("mine", OLD)
    os.chmod(place.path / "shut", 0o555)
    os.chmod(place.path / "mine", 0o444)
    for flags in ([], ["--replace"]):
        want("a new file", place.run(*flags, "--out", "shut/new", "Kconfig"), (3, "error E19: cannot write shut/new\n"))
        want("it", place.get("shut/new"), None)
    want("a file that may not be written", place.run("--out", "mine", "Kconfig"), (3, "error E19: cannot write mine\n"))
    want("its text", place.get("mine"), OLD)
    want("a file of a shut folder, replaced", place.run("--replace", "--out", "shut/there", "Kconfig"), (3, "error E19: cannot write shut/there\n"))
    want("its text", place.get("shut/there"), OLD)
    want("the same, written", place.run("--out", "shut/there", "Kconfig"), (0, ""))
    want("its new text", place.get("shut/there"), CONFIG)
    for name in ("Kconfig", "dot.config", "part"):
        place.put(name, {"Kconfig": TREE}.get(name, ""))
        os.chmod(place.path / name, 0)
        want(f"unreadable {name}", place.run("--config", "dot.config", "--out", "o", "Kconfig", "part"), (3, f"error E18: cannot read {name}\n"))
        os.chmod(place.path / name, 0o644)
    os.chmod(place.path / "shut", 0o755)


def a_name_that_is_a_folder_is_named(place):
    (place.path / "folder").mkdir()
    for flags in ([], ["--replace"]):
        want("--out", place.run(*flags, "--out", "folder", "Kconfig"), (3, "error E19: cannot write folder\n"))
        want("--header", place.run(*flags, "--out", "o", "--header", "folder", "Kconfig"), (3, "error E19: cannot write folder\n"))
        want("the file before it", place.get("o"), None if flags else CONFIG)
        (place.path / "o").unlink(missing_ok=True)
    want("--config", place.run("--config", "folder", "--out", "o", "Kconfig"), (3, "error E18: cannot read folder\n"))
    want("a fragment", place.run("Kconfig", "folder"), (3, "error E18: cannot read folder\n"))
    want("the root file", place.run("folder"), (3, "error E18: cannot read folder\n"))
    place.put("Kconfig", 'source "folder"\n')
    want("a sourced file", place.run("Kconfig"), (3, "error E18: cannot read folder\n"))
    want("an output", place.get(".config"), None)


def a_missing_name_is_told(place):
    want("no words", place.run()[0], 2)
    want("another option", place.run("--frobnicate", "Kconfig")[0], 2)
    want("the root file", place.run("none"), (1, "none:0: error E1: no file none\n"))
    want("a fragment", place.run("Kconfig", "none"), (3, "error E18: cannot read none\n"))
    want("a .config that has to exist", place.run("--must-exist", "Kconfig"), (3, "error E18: cannot read .config\n"))
    want("a folder of an output", place.run("--out", "none/o", "Kconfig"), (3, "error E19: cannot write none/o\n"))
    want("an output", place.get(".config"), None)
    want("a file that is named -", place.run("--out", "-", "Kconfig"), (0, ""))
    want("its text", place.get("-"), CONFIG)


def a_reader_that_goes_away_is_told(place):
    for flags in ([], ["--replace"]):
        reader, writer = os.pipe()
        os.close(reader)
        run = subprocess.run([place.kconf, *flags, "--out", "/dev/stdout", "Kconfig"], cwd=place.path, stdout=writer, stderr=subprocess.PIPE, text=True)
        os.close(writer)
        want("it", (run.returncode, run.stderr), (3, "error E19: cannot write /dev/stdout\n"))


def a_limit_of_file_sizes_ends_the_run(place):
    place.put("Kconfig", TREE + "".join(f'config B_{n}\n\tbool "b"\n' for n in range(1000)))
    for flags in ([], ["--replace"]):
        place.put("config", OLD)
        limit = lambda: resource.setrlimit(resource.RLIMIT_FSIZE, (4096, 4096))
        said = place.run(*flags, "--config", "none", "--out", "config", "Kconfig", preexec_fn=limit)
        want("it", said, (-signal.SIGXFSZ, ""))
        text = place.get("config")
        want("the file", text == OLD if flags else text.startswith(CONFIG.split("\n# CONFIG_A")[0]) and len(text) <= 4096, True)
        for name in place.left():  # it was ended, so nobody takes this away
            os.unlink(name)


def want_of_memory_is_told(place):
    value = "x" * 3_000
    place.put("Kconfig", "".join(f'config S_{n}\n\tstring "s"\n\tdefault "{value}"\n' for n in range(1000)))
    place.put("dot.config", "CONFIG_Q=y\n")
    warning = "dot.config:1: warning K7: unknown symbol Q\n"
    words = ["--config", "dot.config", "--out", "config", "--header", "header", "Kconfig"]
    want("with enough memory", place.run(*words), (0, warning))
    wholes = [place.get("config"), place.get("header")]
    for flags in ([], ["--replace"]):
        found = set()
        for mib in range(4, 44, 2):
            place.put("config", OLD)
            place.put("header", OLD)
            limit = lambda: resource.setrlimit(resource.RLIMIT_AS, (mib << 20, mib << 20))
            status, said = place.run(*flags, *words, preexec_fn=limit)
            if status == 127:  # the program itself does not fit
                continue
            found.add(status)
            said = (status, said.removeprefix(warning), [place.get("config"), place.get("header")])
            want(f"{flags} {mib} MiB", said, (0, "", wholes) if status == 0 else (3, "error E20: out of memory\n", [OLD, OLD]))
        want("runs with and without enough memory", found, {0, 3})


def three(place):
    """Lays out three configurations, and returns what a run of its own writes for each."""
    (place.path / "c").mkdir()
    texts = {}
    for name in THREE:
        place.put(name, f'CONFIG_S="{name}"\n')
        want(name, place.run("--config", name, "--out", "alone", "--header", "alone.h", "Kconfig"), (0, ""))
        texts[name] = [place.get("alone"), place.get("alone.h")]
    return texts


def want_three(what, place, texts):
    """The files of each configuration have to hold these texts, None where it has none; they are taken away."""
    found = {name: [place.get(f"{name}.out"), place.get(f"{name}.h")] for name in THREE}
    want(what, found, texts)
    for name in THREE:
        for end in ("out", "h"):
            path = place.path / f"{name}.{end}"
            if not path.is_symlink():
                path.unlink(missing_ok=True)


NOTHING = [None, None]
EACH = ("--each", "--out", "{}.out", "--header", "{}.h", "Kconfig", *THREE)


def one_of_three_configurations_is_missing_or_refused(place):
    texts = three(place)
    long = f"{'#' * 65_536}\n"
    for flags in ([], ["--replace"]):
        want("all", place.run(*flags, *EACH), (0, ""))
        want_three("the files of all", place, texts)
        for at in THREE:
            kept = place.get(at)
            rest = texts | {at: NOTHING}
            os.unlink(place.path / at)
            want(f"{at} is missing", place.run(*flags, *EACH), (3, f"{at}: error E18: cannot read {at}\n"))
            want_three("the files of the others", place, rest)
            os.mkdir(place.path / at)
            want(f"{at} is a folder", place.run(*flags, *EACH), (3, f"{at}: error E18: cannot read {at}\n"))
            want_three("the files of the others", place, rest)
            os.rmdir(place.path / at)
            place.put(at, long)
            want(f"{at} has a long line", place.run(*flags, *EACH), (1, f"{at}:1: error E17: line longer than 65535 bytes\n"))
            want_three("the files of the others", place, rest)
            place.put(at, "CONFIG_Q=y\n")
            told = f"{at}:1: warning K7: unknown symbol Q\n{at}: error E21: warnings are refused\n"
            want(f"{at} is refused", place.run(*flags, "--strict", *EACH), (1, told))
            want_three("the files of the others", place, rest)
            place.put(at, kept)
        place.put("c/one", long)
        os.unlink(place.path / "c/two")
        told = "c/one:1: error E17: line longer than 65535 bytes\nc/two: error E18: cannot read c/two\n"
        want("one is refused, one is missing", place.run(*flags, *EACH), (3, told))
        want_three("the files of the third", place, texts | {"c/one": NOTHING, "c/two": NOTHING})
        place.put("c/one", 'CONFIG_S="c/one"\n')
        place.put("c/two", 'CONFIG_S="c/two"\n')


def a_folder_of_one_of_three_configurations_is_shut(place):
    texts = three(place)
    words = ("--each", "--out", "{}.d/config", "--header", "{}.d/header", "Kconfig", *THREE)
    for flags in ([], ["--replace"]):
        for at in THREE:
            for name in THREE:
                (place.path / f"{name}.d").mkdir()
            os.chmod(place.path / f"{at}.d", 0o555)
            want(f"{at}", place.run(*flags, *words), (3, f"{at}: error E19: cannot write {at}.d/config\n"))
            found = {name: [place.get(f"{name}.d/config"), place.get(f"{name}.d/header")] for name in THREE}
            want(f"the files where {at} is shut", found, texts | {at: NOTHING})
            os.chmod(place.path / f"{at}.d", 0o755)
            for name in THREE:
                shutil.rmtree(place.path / f"{name}.d")


def a_full_disk_for_one_of_three_configurations(place):
    texts = three(place)
    for flags in ([], ["--replace"]):
        for at in THREE:
            # The link to the full disk is taken away before the files are looked at.
            for end, left in (("out", NOTHING), ("h", NOTHING if flags else [texts[at][0], None])):
                full = place.path / f"{at}.{end}"
                os.symlink("/dev/full", full)
                want(f"{full.name}", place.run(*flags, *EACH), (3, f"{at}: error E19: cannot write {at}.{end}\n"))
                os.unlink(full)
                want_three(f"the files where {full.name} is full", place, texts | {at: left})


def a_standard_error_that_fails_ends_the_run_for_all(place):
    texts = three(place)
    shut = {"preexec_fn": lambda: os.close(2)}
    with open("/dev/full", "w") as disk:
        full = {"preexec_fn": lambda: os.dup2(disk.fileno(), 2), "pass_fds": [disk.fileno()]}
        for flags in ([], ["--replace"], ["--strict"]):
            for how in (shut, full):
                want("nothing is to be said", place.run(*flags, *EACH, **how)[0], 0)
                want_three("the files of all", place, texts)
                for at, name in enumerate(THREE):
                    kept = place.get(name)
                    rest = {other: texts[other] if THREE.index(other) < at else NOTHING for other in THREE}
                    place.put(name, "CONFIG_Q=y\n")
                    want(f"a warning of {name}", place.run(*flags, *EACH, **how)[0], 3)
                    want_three("the files of those before it", place, rest)
                    os.unlink(place.path / name)
                    want(f"{name} is missing", place.run(*flags, *EACH, **how)[0], 3)
                    want_three("the files of those before it", place, rest)
                    place.put(name, kept)
        place.put("Kconfig", TREE + "config U\n")
        for how in (shut, full):
            want("a warning about the tree", place.run(*EACH, **how)[0], 3)
            want_three("no files", place, dict.fromkeys(THREE, NOTHING))
        place.put("Kconfig", TREE)
        for how in (shut, full):
            want("what is not up to date", place.run("--check", *EACH, **how)[0], 3)


def a_list_that_cannot_be_read_is_told(place):
    texts = three(place)
    words = ("--out", "{}.out", "--header", "{}.h", "Kconfig")
    place.put("list", "\n".join(THREE))
    want("a list", place.run("--each-from", "list", *words), (0, ""))
    want_three("the files of all", place, texts)
    os.chmod(place.path / "list", 0)
    (place.path / "bytes").write_bytes(b"c/one\nc/\xff\n")
    for name in ("list", "none", "c", "Kconfig/x", "bytes", "/dev/null", "/dev/zero"):
        for flags in ([], ["--replace"], ["--check"]):
            want(f"{name}", place.run(*flags, "--each-from", name, *words, "c/one", timeout=20), (3, f"error E18: cannot read {name}\n"))
            want_three("no files", place, dict.fromkeys(THREE, NOTHING))


def many_warnings_cost_little(place):
    with open(place.path / "dot.config", "w") as file:
        file.writelines(f"CONFIG_U_{n}=y\n" for n in range(MOST))
    spent = []
    for _ in range(3):
        with open(place.path / "log", "w") as log:
            run = subprocess.Popen([place.kconf, "--config", "dot.config", "--out", "o", "Kconfig"], cwd=place.path, stderr=log)
            _, status, usage = os.wait4(run.pid, 0)
        want("status", status, 0)
        spent.append(usage.ru_utime + usage.ru_stime)
    with open(place.path / "log") as log:
        right = [line == f"dot.config:{n}: warning K7: unknown symbol U_{n - 1}\n" for n, line in enumerate(log, 1)]
    want("lines, and right ones", (len(right), sum(right)), (MOST, MOST))
    print(f"  {MOST:,} warnings took {min(spent):.2f} s of processor time, least of three")
    want(f"under {SECONDS} s", min(spent) < SECONDS, True)


def a_path_through_a_file_is_no_missing_file(place):
    place.put("dot.config", "")
    for words, name in (
        (["Kconfig/x"], "Kconfig/x"),
        (["Kconfig", "Kconfig/x"], "Kconfig/x"),
        (["--config", "Kconfig/x", "Kconfig"], "Kconfig/x"),
        (["--config", "Kconfig/", "Kconfig"], "Kconfig/"),
        (["--root", "Kconfig", "x"], "x"),
    ):
        for flags in ([], ["--replace"]):
            want(f"{words}", place.run(*flags, "--out", "o", *words), (3, f"error E18: cannot read {name}\n"))
    place.put("tree", 'source "Kconfig/x"\n')
    want("source", place.run("--out", "o", "tree"), (3, "error E18: cannot read Kconfig/x\n"))
    place.put("loop", 'source "round"\n')
    os.symlink("round", place.path / "round")
    want("a link without an end", place.run("--out", "o", "loop"), (3, "error E18: cannot read round\n"))
    long = "n" * 256
    place.put("long", f'source "{long}"\n')
    want("a name that is too long", place.run("--out", "o", "long"), (3, f"error E18: cannot read {long}\n"))
    want("an output", place.get("o"), None)
    want("a folder below a file", place.run("--out", "Kconfig/o", "Kconfig"), (3, "error E19: cannot write Kconfig/o\n"))


def a_device_is_no_file_of_the_tree(place):
    os.symlink("/dev/null", place.path / "link")
    for name in ("/dev/null", "/dev/../dev/null", "link", "/dev/zero", "/dev/urandom"):
        place.put("tree", f'source "{name}"\n')
        want(f"source {name}", place.run("--out", "o", "tree", timeout=20), (3, f"error E18: cannot read {name}\n"))
    want("the root file", place.run("--out", "o", "/dev/null"), (3, "error E18: cannot read /dev/null\n"))
    want("an output", place.get("o"), None)
    want("a .config", place.run("--config", "/dev/null", "--out", "o", "Kconfig"), (0, ""))
    want("a fragment", place.run("--config", "none", "--out", "o", "Kconfig", "/dev/null"), (0, ""))


def another_device_is_no_input(place):
    os.symlink("/dev/zero", place.path / "link")
    for name in ("/dev/zero", "/dev/full", "/dev/urandom", "link"):
        said = place.run("--config", name, "--out", "o", "Kconfig", timeout=20)
        want(f"a .config {name}", said, (3, f"error E18: cannot read {name}\n"))
        said = place.run("--config", "none", "--out", "o", "Kconfig", name, timeout=20)
        want(f"a fragment {name}", said, (3, f"error E18: cannot read {name}\n"))
    want("an output", place.get("o"), None)


def while_link_changes(place, name, targets, turn):
    """Makes turns while a link leads to each of these targets again and again."""
    (place.path / name).unlink(missing_ok=True)
    (place.path / "next").unlink(missing_ok=True)
    child = os.fork()
    if child == 0:
        try:
            while os.getppid() != 1:
                for target in targets:
                    os.symlink(target, place.path / "next")
                    os.rename(place.path / "next", place.path / name)
        finally:
            os._exit(1)
    try:
        while not (place.path / name).is_symlink():
            pass
        for _ in range(TURNS):
            turn()
    finally:
        os.kill(child, signal.SIGKILL)
        os.waitpid(child, 0)


def a_device_that_takes_the_place_of_a_file_is_not_read(place):
    place.put("tree", 'source "part"\n')
    place.put("real", TREE)
    place.put("real.config", "CONFIG_A=y\n")
    # What a device gives does not fit, so a run that read it would end with E20.
    limit = lambda: resource.setrlimit(resource.RLIMIT_AS, (PIPE_BYTES // 2, PIPE_BYTES // 2))

    def turn_of(name, words):
        def turn():
            said = place.run(*words, preexec_fn=limit)
            if said != (0, ""):
                want("a run that did not read it", said, (3, f"error E18: cannot read {name}\n"))

        return turn

    while_link_changes(place, "part", ("real", "/dev/zero"), turn_of("part", ["--config", "none", "--out", "o", "tree"]))
    while_link_changes(place, "dot", ("real.config", "/dev/zero"), turn_of("dot", ["--config", "dot", "--out", "o", "Kconfig"]))
    while_link_changes(place, "dot", ("real.config", "/dev/zero"), turn_of("dot", ["--config", "none", "--out", "o", "Kconfig", "dot"]))


def what_was_read_from_a_pipe_is_not_written_there(place):
    for text in ("CONFIG_A=y\n", "CONFIG_A=y\n" + "# a comment\n" * 100_000):
        for flags in ([], ["--replace"]):
            words = [place.kconf, *flags, "--config", "/dev/stdin", "--header", "h", "Kconfig"]
            ran = subprocess.run(words, cwd=place.path, input=text, capture_output=True, text=True, timeout=20)
            want("without --out", (ran.returncode, ran.stderr), (2, NEEDS_OUT))
            want("the header", place.get("h"), None)
            ran = subprocess.run([*words, "--out", "o"], cwd=place.path, input=text, capture_output=True, text=True, timeout=20)
            want("with --out", (ran.returncode, ran.stderr), (0, ""))
            want("its text", place.get("o"), CONFIG.replace("# CONFIG_A is not set", "CONFIG_A=y"))
            os.unlink(place.path / "h")
    place.put("real", "CONFIG_A=y\n")
    with open(place.path / "real") as real:
        ran = subprocess.run([place.kconf, "--config", "/dev/stdin", "Kconfig"], cwd=place.path, stdin=real, capture_output=True, text=True)
    want("a regular file as standard input", (ran.returncode, ran.stderr), (0, ""))
    want("its text", place.get("real"), CONFIG.replace("# CONFIG_A is not set", "CONFIG_A=y"))


def a_small_stack_suffices(place):
    limit = lambda: resource.setrlimit(resource.RLIMIT_STACK, (STACK, STACK))
    place.put("dot.config", "CONFIG_A=y\n")
    os.symlink("o", place.path / "link")
    for words, end in (
        (["--help"], (0, "")),
        (["--out", "o", "--header", "h", "--savedefconfig", "m", "--depfile", "d", "Kconfig", "dot.config"], (0, "")),
        (["--replace", "--out", "o", "--header", "h", "--savedefconfig", "m", "--depfile", "d", "Kconfig"], (0, "")),
        (["--replace", "--out", "link", "Kconfig", "dot.config"], (0, "")),
        (["--check", "--out", "link", "Kconfig"], (1, "error E22: link is not up to date\n")),
        (["--each", "--out", "{}.o", "Kconfig", "dot.config"], (0, "")),
        (["--each", "--replace", "--out", "{}.o", "Kconfig", "dot.config"], (0, "")),
        (["--explain", "A", "Kconfig"], (0, "")),
        (["--out", "o", "--list-new", "n", "--with-help", "Kconfig"], (0, "")),
        (["none"], (1, "none:0: error E1: no file none\n")),
    ):
        want(f"{words}", place.run(*words, env={}, preexec_fn=limit), end)


CONTROLS = "\x1b]0;t\x07\x1b[31m\r\x08\x7f\x00\x1f"
SHOWN = r"\x1b]0;t\x07\x1b[31m\x0d\x08\x7f\x00\x1f"


def control_bytes_do_not_reach_a_terminal(place):
    (place.path / "dot.config").write_bytes(f"CONFIG_{CONTROLS}A\tb=y\n".encode())
    place.put("tree", 'config S\n\tstring "s"\n\tdefault "\x1b[31m\tx\x07"\n')
    line = "dot.config:1: warning K7: unknown symbol {}A\tb\n"

    def at_terminal(stream, *words):
        ours, terminal = pty.openpty()
        os.set_blocking(ours, False)
        streams = {"stdout": subprocess.PIPE, "stderr": subprocess.PIPE, stream: terminal}
        ran = subprocess.run([place.kconf, *words], cwd=place.path, **streams)
        got = os.read(ours, 65_536).decode().replace("\r\n", "\n") if ran.returncode == 0 else ""
        os.close(terminal)
        os.close(ours)
        return ran, got

    words = ("--config", "dot.config", "--out", "o", "Kconfig")
    said = subprocess.run([place.kconf, *words], cwd=place.path, capture_output=True)
    want("a pipe", (said.returncode, said.stderr.decode()), (0, line.format(CONTROLS)))
    want("a terminal", at_terminal("stderr", *words)[1], line.format(SHOWN))
    for flags in ([], ["--replace"]):
        words = (*flags, "--config", "none", "--out", "/dev/stdout", "tree")
        plain = subprocess.run([place.kconf, *words], cwd=place.path, capture_output=True, text=True).stdout
        want("a text in a pipe", 'CONFIG_S="\x1b[31m\tx\x07"\n' in plain, True)
        shown = plain.replace("\x1b", r"\x1b").replace("\x07", r"\x07")
        want("a text at a terminal", at_terminal("stdout", *words)[1], shown)
    explained = ("--explain", "S", "--config", "none", "tree")
    plain = subprocess.run([place.kconf, *explained], cwd=place.path, capture_output=True, text=True).stdout
    shown = plain.replace("\x1b", r"\x1b").replace("\x07", r"\x07")
    want("an explanation in a pipe", "\x1b[31m" in plain, True)
    want("an explanation at a terminal", at_terminal("stdout", *explained)[1], shown)


def folded(a, b):
    return (a * b & (1 << 64) - 1) ^ (a * b >> 64)


def colliding_names(count):
    """Names of 48 bytes. The library's hash function, without a key, gives all of them one hash: behind these 16 bytes its state is
    8 name bytes, and if these follow, it multiplies by 0 whatever comes next."""
    start, times = 0x243F6A8885A308D3 + 48, 0x9E3779B97F4A7C15
    first = b"30UTxSdiisVtKGA9"
    low, high = struct.unpack("<QQ", first)
    state = struct.pack("<Q", folded(low ^ start, high ^ times))
    return [(first + state).decode() + f"{n:08}" + "_ARE_ONE_IN_HASH" for n in range(count)]


def names_that_collide_cost_no_more(place):
    spent = []
    for names in ([f"{'OTHER_'.ljust(24, 'X')}{n:08}_ARE_ONE_IN_HASH" for n in range(COLLIDING)], colliding_names(COLLIDING)):
        place.put("Kconfig", "".join(f'config {name}\n\tbool "b"\n' for name in names))
        took = []
        for _ in range(3):
            run = subprocess.Popen([place.kconf, "--config", "none", "--out", "o", "Kconfig"], cwd=place.path)
            _, status, usage = os.wait4(run.pid, 0)
            want("status", status, 0)
            took.append(usage.ru_utime + usage.ru_stime)
        spent.append(min(took))
    print(f"  {COLLIDING:,} names took {spent[0]:.3f} s of processor time, and as many that collide without a key {spent[1]:.3f} s")
    want("under three times", spent[1] < 3 * spent[0], True)


def without_random_bytes_the_answer_is_the_same(place):
    words = [place.kconf, "--config", "none", "--out", "o", "Kconfig"]
    ran = subprocess.run(words, cwd=place.path, capture_output=True, text=True, preexec_fn=refusing(GETRANDOM, errno.ENOSYS))
    want("it", (ran.returncode, ran.stderr), (0, ""))
    want("its text", place.get("o"), CONFIG)


def the_recipe_for_untrusted_input_writes_into_its_new_folder(place):
    place.put(".profile", OLD)
    (place.path / "tree").mkdir()
    place.put("tree/Kconfig", TREE)
    os.symlink("../.profile", place.path / "tree/.config")
    recipe = RECIPE.split("## Untrusted input")[1].split("```sh\n")[1].split("```")[0]
    script = recipe.replace("kconf --replace", f"{place.kconf} --replace") + 'cat "$out/.config"; rm -r "$out"; exit $status\n'
    for _ in range(2):
        ran = subprocess.run(["sh", "-c", script], cwd=place.path, capture_output=True, text=True)
        want("it", (ran.returncode, ran.stdout.endswith(CONFIG)), (0, True))
        want("the file of the user", place.get(".profile"), OLD)
        want("the tree", sorted(os.listdir(place.path / "tree")), [".config", "Kconfig"])


def through_pipe(place, text, *words):
    """A run whose arguments name a pipe (PIPE) that gives a text: its status, and its diagnostics."""
    reader, writer = os.pipe()
    child = os.fork()
    if child == 0:
        os.close(reader)
        try:
            with open(writer, "wb") as pipe:
                pipe.write(text)
        finally:
            os._exit(0)
    os.close(writer)
    place.put("tree", f'source "/dev/fd/{reader}"\n')
    said = place.run(*[f"/dev/fd/{reader}" if word == "PIPE" else word for word in words], pass_fds=[reader])
    os.close(reader)
    os.waitpid(child, 0)
    return said[0], said[1].replace(f"/dev/fd/{reader}", "PIPE")


def a_pipe_of_the_tree_has_a_bound(place):
    want("the root file", through_pipe(place, TREE.encode(), "--out", "o", "PIPE"), (0, ""))
    want("its text", place.get("o"), CONFIG)
    os.unlink(place.path / "o")
    want("a sourced file", through_pipe(place, TREE.encode(), "--config", "none", "--out", "o", "tree"), (0, ""))
    want("its text", place.get("o"), CONFIG)
    os.unlink(place.path / "o")
    line = b"#" + b"x" * 8_190 + b"\n"
    whole = TREE.encode()
    rest = PIPE_BYTES - len(whole)
    whole += line * (rest // len(line)) + b"#" * (rest % len(line) - 1) + b"\n"
    want("the bytes", len(whole), PIPE_BYTES)
    want("a pipe of as many bytes as it may have", through_pipe(place, whole, "--config", "none", "--out", "o", "PIPE"), (0, ""))
    want("its text", place.get("o"), CONFIG)
    os.unlink(place.path / "o")
    want("a pipe of one byte more", through_pipe(place, whole + b"#", "--config", "none", "--out", "o", "PIPE"), (3, "error E18: cannot read PIPE\n"))
    want("an output", place.get("o"), None)
    place.put("Kconfig", whole.decode() + "#\n")
    want("a regular file of more", place.run("--config", "none", "--out", "o", "Kconfig"), (0, ""))


def help_that_is_not_written_is_told_by_the_status(place):
    for word in ("--help", "--version"):
        with open(place.path / "got", "w") as got:
            want(word, subprocess.run([place.kconf, word], stdout=got, stderr=subprocess.PIPE, text=True).returncode, 0)
        want("a text", len(place.get("got")) > 5, True)
        with open("/dev/full", "w") as full:
            want(f"{word} on a full disk", subprocess.run([place.kconf, word], stdout=full).returncode, 3)
        ran = subprocess.run([place.kconf, word], preexec_fn=lambda: os.close(1))
        want(f"{word} with a closed output", ran.returncode, 3)
        reader, writer = os.pipe()
        os.close(reader)
        want(f"{word} without a reader", subprocess.run([place.kconf, word], stdout=writer).returncode, 3)
        os.close(writer)
        want(f"{word} with a closed standard error", place.run(word, preexec_fn=lambda: os.close(2))[0], 0)


def a_full_pipe_that_does_not_wait_is_told(place):
    reader, writer = os.pipe()
    os.set_blocking(writer, False)
    try:
        while True:
            os.write(writer, b"x" * 4096)
    except BlockingIOError:
        pass
    place.put("dot.config", "CONFIG_Q=y\n")
    for flags in ([], ["--replace"]):
        run = subprocess.run([place.kconf, *flags, "--config", "dot.config", "--out", "o", "Kconfig"], cwd=place.path, stderr=writer)
        want("a warning", (run.returncode, place.get("o")), (3, None))
    for word in ("--help", "--version"):
        want(word, subprocess.run([place.kconf, word], stdout=writer).returncode, 3)
    os.close(reader)
    os.close(writer)


def a_closed_standard_error_keeps_the_status(place):
    shut = lambda: os.close(2)
    want("no arguments", place.run(preexec_fn=shut)[0], 2)
    want("another option", place.run("--frobnicate", "Kconfig", preexec_fn=shut)[0], 2)
    for flags in ([], ["--replace"]):
        want("no root file", place.run(*flags, "--out", "o", "none", preexec_fn=shut)[0], 3)
        want("no fragment", place.run(*flags, "--out", "o", "Kconfig", "none", preexec_fn=shut)[0], 3)
        want("an output", place.get("o"), None)
        for closed in ((0,), (1,), (0, 1), (0, 2), (1, 2), (0, 1, 2)):
            said = place.run(*flags, "--config", "none", "--out", "o", "--header", "h", "Kconfig", preexec_fn=lambda: [os.close(file) for file in closed])
            want(f"with {closed} closed", (said, place.get("o"), place.get("h")), ((0, ""), CONFIG, HEADER))
            os.unlink(place.path / "o")


def an_argument_that_is_not_utf_8_is_told(place):
    told = "error: invalid UTF-8 was detected in one or more arguments\n\nFor more information, try '--help'.\n"
    for words in ([b"K\xff"], [b"--out", b"\xff", b"Kconfig"], [b"Kconfig", b"\xc3"], [b"--help", b"\xff"]):
        want(f"{words}", place.run(*words), (2, told))
    (place.path / "tree").write_bytes(b'source "K\xff"\n')
    (place.path / os.fsdecode(b"K\xff")).write_text(TREE)
    ran = subprocess.run([place.kconf, "--out", "o", "tree"], cwd=place.path, capture_output=True)
    want("source", (ran.returncode, ran.stderr), (1, b"tree:1: error E1: no file K\xff\n"))
    want("an output", place.get("o"), None)


def many_files_are_read(place):
    place.put("Kconfig", "".join(f'source "part{n}"\n' for n in range(150)) + TREE)
    for n in range(150):
        place.put(f"part{n}", f'config P_{n}\n\tbool "p"\n')
    for n in range(40):
        place.put(f"frag{n}", f"CONFIG_P_{n}=y\n")
    tree = [f"./{name}" for name in ["Kconfig", *(f"part{n}" for n in range(150))]]
    names = [*tree, "none", *(f"frag{n}" for n in range(40))]
    rule = "o: \\\n" + " \\\n".join(f" {name}" for name in names) + "\n" + "".join(f"\n{name}:\n" for name in names)
    for flags in ([], ["--replace"]):
        said = place.run(*flags, "--config", "none", "--out", "o", "--depfile", "d", "Kconfig", *(f"frag{n}" for n in range(40)))
        want("it", said, (0, ""))
        want("the values", place.get("o").count("=y\n"), 40)
        want("the dependency file", place.get("d"), rule)
        os.unlink(place.path / "o")
        os.unlink(place.path / "d")


def more_files_than_descriptors_are_read(place):
    names = [f"frag{n}" for n in range(FRAGMENTS)]
    for n, name in enumerate(names):
        place.put(name, f"CONFIG_P_{n}=y\n")
    place.put("Kconfig", "".join(f'source "part{n}"\n' for n in range(FRAGMENTS)))
    for n in range(FRAGMENTS):
        place.put(f"part{n}", f'config P_{n}\n\tbool "p"\n')
    limit = lambda: resource.setrlimit(resource.RLIMIT_NOFILE, (1024, 1024))
    for flags in ([], ["--replace"]):
        want("it", place.run(*flags, "--config", "none", "--out", f"o{len(flags)}", "Kconfig", *names, preexec_fn=limit), (0, ""))
        want("the values", place.get(f"o{len(flags)}").count("=y\n"), FRAGMENTS)


def become_nobody(folder):
    """Goes on as nobody, who then owns the folder."""
    nobody = pwd.getpwnam("nobody")
    os.chown(folder, nobody.pw_uid, nobody.pw_gid)
    os.setgroups([])
    os.setgid(nobody.pw_gid)
    os.setuid(nobody.pw_uid)


# Those that root makes too.
AS_ROOT = (
    a_path_through_a_file_is_no_missing_file,
    a_device_is_no_file_of_the_tree,
    another_device_is_no_input,
    a_device_that_takes_the_place_of_a_file_is_not_read,
    what_was_read_from_a_pipe_is_not_written_there,
    a_small_stack_suffices,
    control_bytes_do_not_reach_a_terminal,
    names_that_collide_cost_no_more,
    without_random_bytes_the_answer_is_the_same,
    the_recipe_for_untrusted_input_writes_into_its_new_folder,
    a_pipe_of_the_tree_has_a_bound,
    help_that_is_not_written_is_told_by_the_status,
    a_full_pipe_that_does_not_wait_is_told,
    a_closed_standard_error_keeps_the_status,
    an_argument_that_is_not_utf_8_is_told,
    many_files_are_read,
    more_files_than_descriptors_are_read,
)
TRIALS = (
    runs_at_once_tear_no_line,
    runs_at_once_tear_no_line_that_was_held,
    each_write_holds_whole_lines,
    a_full_disk_is_told,
    a_closed_standard_error_gets_into_no_file,
    what_may_not_be_written_or_read_is_named,
    a_name_that_is_a_folder_is_named,
    a_missing_name_is_told,
    a_reader_that_goes_away_is_told,
    a_limit_of_file_sizes_ends_the_run,
    want_of_memory_is_told,
    one_of_three_configurations_is_missing_or_refused,
    a_folder_of_one_of_three_configurations_is_shut,
    a_full_disk_for_one_of_three_configurations,
    a_standard_error_that_fails_ends_the_run_for_all,
    a_list_that_cannot_be_read_is_told,
    *AS_ROOT,
    many_warnings_cost_little,
)


def count_wrong(trials, folder, kconf):
    """Makes these trials, each in a folder of its own, and returns how many failed."""
    wrong = 0
    for trial in trials:
        with tempfile.TemporaryDirectory(dir=folder) as path:
            place = Place(path, kconf)
            try:
                trial(place)
                want("temporary files that were left", place.left(), [])
                print(f"ok {trial.__name__}", flush=True)
            except Wrong as it:
                wrong += 1
                print(f"WRONG {trial.__name__}: {it}", flush=True)
            except (OSError, subprocess.SubprocessError):
                wrong += 1
                print(f"WRONG {trial.__name__}:\n{traceback.format_exc()}", flush=True)
    return wrong


def main():
    kconf = pathlib.Path(sys.argv[1] if len(sys.argv) > 1 else TOP / "crates/kconf/out/kconf").resolve()
    folder = tempfile.mkdtemp()
    shutil.copy(kconf, folder)
    program = f"{folder}/{kconf.name}"
    os.chmod(program, 0o755)
    wrong = 0
    if os.geteuid() == 0:
        wrong = count_wrong(AS_ROOT, folder, program)
        become_nobody(folder)
        print("as nobody", flush=True)
    wrong += count_wrong(TRIALS, folder, program)
    shutil.rmtree(folder)
    sys.exit(wrong > 0)


if __name__ == "__main__":
    main()
