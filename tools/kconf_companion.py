"""What kconf-tree and kconf-flatten share: the record of what a flat file was made of.

A record is a list of lines. Each line states a file, a program or a pattern, and what identifies it.
kconf-flatten writes the record of a tree. kconf-tree compares it with what is there now.
"""

import glob
import os
import re
import stat
import sys

REFUSED, FAILED = 1, 3
# Line 1 of a flat file. The words after it name the dialect of the tree's own conf.
FIRST = "# kconf-flatten"
# A file that is newer than this before a start may change again with the same time.
CLOCK_STEP = 20_000_000

WORD = re.compile(r"[A-Za-z0-9_./+-]+")
# A name of a program that a tree may wait for.
NAME = re.compile(r"[a-z][A-Za-z0-9_.+-]+")
SHELL_WORDS = frozenset(
    "if then elif else fi for do done while until case esac in ! { } [ : . break cd command continue echo eval exec exit export "
    "false local printf pwd read return set shift test times trap true type ulimit umask unset wait".split())
# The first word of each command of a shell line, or the name that `command -v` asks for.
PROGRAM = re.compile(
    r"(?:^|[;|&({`\n])\s*(?:(?:if|then|elif|else|do|while|until|!|exec)\s+)*(?:\w+=[^\s;|&]*\s+)*(?:command -v\s+(?:--\s+)?)?"
    r"([A-Za-z0-9_./+-]+)(?![\w=./+-])")


class Fault(Exception):
    """A failure of a companion: its text and the exit status."""

    def __init__(self, text, status=FAILED):
        super().__init__(text)
        self.status = status


def escaped(text):
    """Returns a text as one word of a record, without blanks and line ends."""
    text = text.replace("%", "%25").replace(" ", "%20").replace("\n", "%0A")
    return text.replace("\r", "%0D") or "%"


def plain(word):
    """Returns the text that a word of a record stands for."""
    if word == "%":
        return ""
    for code, character in (("%0D", "\r"), ("%0A", "\n"), ("%20", " "), ("%25", "%")):
        word = word.replace(code, character)
    return word


def state_of(status):
    """Returns what identifies the content of a file, as words of a record."""
    if not stat.S_ISREG(status.st_mode):
        return "special"
    return f"{status.st_size} {status.st_mtime_ns} {status.st_ctime_ns} {status.st_ino}"


def state(name, folder=""):
    """Returns what identifies the content of a file now; `-` if there is none."""
    try:
        return state_of(os.stat(os.path.join(folder, name)))
    except (OSError, ValueError):
        return "-"


def is_program(name):
    """Returns whether a file is a program."""
    return os.path.isfile(name) and os.access(name, os.X_OK)


def found_program(name, path, folder=""):
    """Returns the file that the name of a program means, or None."""
    candidates = [name] if "/" in name else [os.path.join(each, name) for each in path.split(":")]
    return next((found for found in (os.path.join(folder, each) for each in candidates) if is_program(found)), None)


def program(name, variable):
    """Returns the path of a program: that of a variable, one beside this program, or one of PATH."""
    beside = os.path.join(os.path.dirname(os.path.realpath(sys.argv[0])), name)
    named = os.environ.get(variable) or (beside if is_program(beside) else name)
    found = found_program(named, os.environ.get("PATH", os.defpath))
    if found is None:
        raise Fault(f"there is no program {named}")
    return os.path.abspath(found)


def file_line(name, folder=""):
    """Returns the line of a record for a file."""
    return f"file {escaped(name)} {state(name, folder)}"


def program_line(name, path, folder=""):
    """Returns the line of a record for a program: the file that its name means, or that there is none."""
    found = found_program(name, path, folder)
    return f"program {escaped(name)} {'-' if found is None else state(found)}"


def pattern_line(pattern, base, folder=None):
    """Returns the line of a record for a pattern of a source line, and the files that it matches."""
    found = sorted(glob.glob(os.path.join(base, pattern), root_dir=folder))
    return " ".join(["pattern", escaped(pattern), escaped(base), *map(escaped, found)])


def is_same(line, path, folder):
    """Returns whether a line of a record states what is so now. Relative names are those of a folder."""
    kind, _, rest = line.partition(" ")
    words = rest.split(" ")
    if kind == "file":
        return line == file_line(plain(words[0]), folder)
    if kind == "program":
        return line == program_line(plain(words[0]), path, folder)
    return kind != "pattern" or line == pattern_line(plain(words[0]), plain(words[1]), folder)


def is_racy(lines, began):
    """Returns whether a file of a record may change again without a new time."""
    times = (int(word) for line in lines if line.startswith(("file ", "program ")) for word in line.split(" ")[3:5])
    return any(time > began - CLOCK_STEP for time in times)


def watched(commands, environment, folder=""):
    """Returns lines for the programs and files that shell commands name, and for the scripts beside a script.

    A script may run each program that its arguments or the environment name. So these count too, also if there is no such program.
    """
    path = environment.get("PATH", os.defpath)
    words = [WORD.findall(command) for command in commands]
    values = [WORD.findall(value) for value in environment.values() if len(value) < 4096]
    named, known = {word for each in words for word in each}, {word for each in values for word in each}
    scripts = {word for word in named if "/" in word and is_script(os.path.join(folder, word))}
    awaited = {name for command in commands for name in PROGRAM.findall(command)} - SHELL_WORDS
    awaited |= {word for each in words if scripts & set(each) for word in each} | {each[0] for each in values if len(each) == 1}
    programs = {word for word in awaited if NAME.fullmatch(word)}
    programs |= {word for word in named | known if "/" not in word and found_program(word, path, folder)}
    files = {word for word in named if "/" in word}
    files |= {word for word in known if "/" in word and os.path.isfile(os.path.join(folder, word))}
    for script in scripts:
        beside, ending = os.path.dirname(script), os.path.splitext(script)[1]
        names = os.listdir(os.path.join(folder, beside)) if ending else ()
        files.update(os.path.join(beside, name) for name in names if os.path.splitext(name)[1] == ending)
    return [program_line(name, path, folder) for name in sorted(programs)] + [file_line(name, folder) for name in sorted(files)]


def is_script(name):
    """Returns whether a file is a program in text form."""
    try:
        with open(name, "rb") as file:
            return file.read(2) == b"#!"
    except OSError:
        return False
