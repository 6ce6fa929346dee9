#!/usr/bin/python3
"""Checks what the documents say of the built program: docs.py KCONF

- Each example of a diagnostic in docs/formats.md is run. The program must print the line of the page.
- The session in README.md is run in a copy of the example (crates/kconf_firmware/data), and must print the same.
- The dependency file and the two lists of docs/formats.md must be those that the program writes.
- The makefiles of docs/make.md are run over the example, the first one with each of its two rules.
- The commands of docs/defconfigs.md for several processes must write what one run writes.
- The version must be the same in the program, the man pages and the changelog.
- Each option of the help must stand in README.md, the man page and both completions.
- Each link from a document to a file of the repository must lead to a file.
- Each case that a document names must be there, and each case and cause of crates/kconf_cases/conf.txt: the case in the
  data, the cause in docs/differences.md.
- A line of a document has at most 120 columns, except in tables.
- docs/bench.svg must be the chart of the first table of times in docs/performance.md.
- docs/figures.md must be what bench/figures.py counts.
"""

import glob
import os
import pathlib
import re
import shutil
import subprocess
import sys
import tempfile
import time

TOP = os.path.dirname(os.path.dirname(os.path.abspath(__file__)))
# A line may be broken at any blank.
EXAMPLE = re.compile(
    r"^\*\*([EK]\d+)\*\* `([^`]+)`(?: (?:after `([^`]+)` )?with `(--[a-z-]+)`)?"
    r"(?: with the `\.config` lines? ((?:(?!\n\n).)*))?\n\n```\n(.*?)```$".replace(" ", r"\s"),
    re.MULTILINE | re.DOTALL,
)
CODES = [f"E{n}" for n in range(1, 24)] + [f"K{n}" for n in range(1, 16)]


def read(name):
    with open(os.path.join(TOP, name), encoding="utf-8") as file:
        return file.read()


def diagnostics(kconf, tree, config, option):
    """What a run over the tree, with this option if it is one, says on standard error."""
    with tempfile.TemporaryDirectory() as folder:
        with open(os.path.join(folder, "Kconfig"), "w", encoding="utf-8") as file:
            file.write(tree)
        if config:
            with open(os.path.join(folder, ".config"), "w", encoding="utf-8") as file:
                file.write("".join(line + "\n" for line in config))
        run = subprocess.run([kconf] + [option] * bool(option) + ["Kconfig"], cwd=folder, capture_output=True, text=True)
        return run.stderr


def examples(kconf):
    """Complaints about the examples, and how many there are."""
    page = read("docs/formats.md")
    found = EXAMPLE.findall(page)
    complaints = []
    for code, said, before, option, lines, tree in found:
        config = re.findall(r"`([^`]*)`", lines)
        came = diagnostics(kconf, tree, config, option)
        if came != "".join(line + "\n" for line in (before, said) if line) or f" {code}: " not in said:
            complaints.append(f"{code}: the page says {said!r}, the program {came!r}")
    told = {code for code, *_ in found}
    told |= {code for code, _ in re.findall(r"^\| (E\d+) \| .*error (\1): ", page, re.M)}
    complaints += [f"{code} has no example" for code in CODES if code not in told]
    return complaints, len(found)


class Built:
    """A copy of the example, with a makefile and a program that the configuration goes into."""

    PROGRAM = '#include <stdio.h>\nint main(void) { return printf("%d\\n", CONFIG_RELAYS) < 0; }\n'

    def __init__(self, folder, kconf, text):
        self.folder, self.kconf = folder, kconf
        shutil.copytree(os.path.join(TOP, "crates/kconf_firmware/data"), folder, dirs_exist_ok=True)
        shutil.copy(os.path.join(folder, "start.config"), os.path.join(folder, ".config"))
        self.put("Makefile", text)
        self.put("main.c", self.PROGRAM)

    def put(self, name, text):
        """Gives a file a text, and a time after those of all others."""
        with open(os.path.join(self.folder, name), "w", encoding="utf-8") as file:
            file.write(text)
        self.touch(name)

    def touch(self, name):
        """Gives a file a time after those of all others."""
        times = [os.stat(os.path.join(at, it)).st_mtime_ns for at, _, them in os.walk(self.folder) for it in them]
        os.utime(os.path.join(self.folder, name), ns=(max(times) + 10**6,) * 2)

    def get(self, name):
        """A file's text."""
        with open(os.path.join(self.folder, name), encoding="utf-8") as file:
            return file.read()

    def beside(self):
        """The files that stand beside the outputs and are none of them."""
        return sorted(it for it in os.listdir(self.folder) if re.fullmatch(r"(\.config|autoconf\.h|configured\.d)\..+", it))

    def age(self, name):
        """A file's time."""
        return os.stat(os.path.join(self.folder, name)).st_mtime_ns

    def make(self):
        """Runs make once the clock is past the times of all files. The answer: its status, and whether it ran kconf and the compiler."""
        time.sleep(0.02)
        told = dict(os.environ, KCONF=self.kconf, CC="cc", LC_ALL="C")
        run = subprocess.run(["make"], cwd=self.folder, env=told, capture_output=True, text=True)
        return run.returncode, "--header" in run.stdout, "-include" in run.stdout, run.stderr


def shown_file(kconf, section, *words):
    """Complaints about the file that this section of docs/formats.md shows. The last of the words is its name."""
    shown = re.search(r"writes\n\n((?: {4}.*\n|\n)*)", read("docs/formats.md").partition(section)[2]).group(1)
    with tempfile.TemporaryDirectory() as folder:
        shutil.copytree(os.path.join(TOP, "crates/kconf_firmware/data"), folder, dirs_exist_ok=True)
        subprocess.run([kconf, *words, "Kconfig", "site.config"], cwd=folder, capture_output=True, check=True)
        with open(os.path.join(folder, words[-1]), encoding="utf-8") as file:
            came = file.read()
    return [] if came == re.sub("^ {4}", "", shown.rstrip("\n") + "\n", flags=re.M) else [f"docs/formats.md: the file is {came!r}"]


def rule(kconf):
    """Complaints about the dependency file that docs/formats.md shows, and about its lists of new symbols and of gone lines."""
    old = "--config", "start.config", "--out", ".config"
    return (
        shown_file(kconf, "## The dependency file", "--depfile", ".config.d")
        + shown_file(kconf, "### The list of new symbols", *old, "--list-new", "new.config")
        + shown_file(kconf, "### The list of gone lines", *old, "--list-gone", "gone.config")
    )


def makefiles():
    """The makefiles of docs/make.md, each with what is its own."""
    page = read("docs/make.md")
    plain, listed = re.findall(r"^```make\n(.*?)^```$", page, re.M | re.S)
    replacing = re.search(r"^```\n(configured:.*?)^```$", page, re.M | re.S).group(1)
    return {"plain": plain, "--replace": plain[: plain.index("configured: ")] + replacing, "--depfile": listed}


def makefile(kconf, name, text):
    """Complaints about a makefile of docs/make.md."""
    complaints = []

    def expect(what, found, wanted):
        if found != wanted:
            complaints.append(f"docs/make.md {name}: {what}: {found}, not {wanted}")

    with tempfile.TemporaryDirectory() as folder:
        it = Built(folder, kconf, text)
        expect("the first make", it.make()[:3], (0, True, True))
        expect("the next make", it.make()[:3], (0, False, False))
        it.touch("Kconfig")
        stood = it.age(".config"), it.age("autoconf.h")
        expect("a Kconfig file is newer", it.make()[:3], (0, True, False))
        expect("the .config is touched, the header not", (it.age(".config") != stood[0], it.age("autoconf.h") != stood[1]), (name == "--depfile", False))
        expect("nothing stands beside", it.beside(), [])
        it.touch(".config")
        expect("the .config is newer", it.make()[:3], (0, True, False))
        it.put("site.config", it.get("site.config").replace("RELAYS=7", "RELAYS=6"))
        expect("a value changes", it.make()[:3], (0, True, True))
        expect("the header's value", "#define CONFIG_RELAYS 6\n" in it.get("autoconf.h"), True)
        before = it.get(".config"), it.get("autoconf.h")
        tree = it.get("Kconfig")
        it.put("Kconfig", tree + "nonsense\n")
        status, *_, said = it.make()
        expect("a tree is refused", (status, "Error 1" in said), (2, True))
        expect("the files behind it", (it.get(".config"), it.get("autoconf.h")) == before, True)
        it.put("Kconfig", tree)
        expect("the tree is mended", it.make()[:3], (0, True, False))
        it.put("board/Kconfig.other", "nonsense\n")
        expect("a file that is not sourced", it.make()[:3], (0, name != "--depfile", False))
        it.put("Kconfig", tree.replace('source "debug/Kconfig"\n', ""))
        os.unlink(os.path.join(folder, "debug/Kconfig"))
        expect("a file went away", it.make()[:2], (0, True))
        expect("the next make", it.make()[:3], (0, False, False))
        before = it.get(".config"), it.get("autoconf.h")
        it.put("Makefile", re.sub(r"--header \S+", "--header no/folder", text))
        it.touch("Kconfig")
        status, *_, said = it.make()
        expect("a file cannot be made", (status, "Error 3" in said), (2, True))
        expect("the files behind that", (it.get(".config"), it.get("autoconf.h")) == before, True)
        expect("what it leaves", set(it.beside()) <= ({".config.new", "autoconf.h.new"} if name == "plain" else set()), True)
    return complaints


def session(kconf):
    """Complaints about the session that README.md shows."""
    shown = re.search(r"^```console\n(.*?)^```$", read("README.md"), re.M | re.S).group(1)
    came = ""
    with tempfile.TemporaryDirectory() as folder:
        shutil.copytree(os.path.join(TOP, "crates/kconf_firmware/data"), folder, dirs_exist_ok=True)
        for command in re.findall(r"^\$ (.*)$", shown, re.M):
            words = [kconf if word == "kconf" else word for word in command.split()]
            run = subprocess.run(words, cwd=folder, stdout=subprocess.PIPE, stderr=subprocess.STDOUT, text=True)
            came += f"$ {command}\n{run.stdout}"
    return [] if came == shown else [f"README.md: the session is {came!r}"]


def processes(kconf):
    """Complaints about the commands of docs/defconfigs.md that share a list between processes, over six configurations."""
    commands = re.search(r"^## Many processes\n.*?^```sh\n(.*?)^```$", read("docs/defconfigs.md"), re.M | re.S).group(1)
    whole = "kconf --each --replace --savedefconfig '{}' Kconfig configs/*_defconfig\n"

    def files_after(script):
        with tempfile.TemporaryDirectory() as folder:
            shutil.copytree(os.path.join(TOP, "crates/kconf_firmware/data"), folder, dirs_exist_ok=True)
            os.mkdir(os.path.join(folder, "configs"))
            os.mkdir(os.path.join(folder, "bin"))
            os.symlink(kconf, os.path.join(folder, "bin/kconf"))
            with open(os.path.join(folder, "start.config"), encoding="utf-8") as file:
                lines = file.readlines()
            for at in range(6):
                with open(os.path.join(folder, f"configs/board{at}_defconfig"), "w", encoding="utf-8") as file:
                    file.writelines(lines[at:])
            path = os.path.join(folder, "bin") + ":" + os.environ["PATH"]
            run = subprocess.run(["sh", "-e", "-c", script], cwd=folder, env={**os.environ, "PATH": path}, capture_output=True, text=True)
            names = sorted(glob.glob("configs/*", root_dir=folder))
            return run.returncode, [(name, pathlib.Path(folder, name).read_text(encoding="utf-8")) for name in names]

    return [] if files_after(commands) == files_after(whole) else ["docs/defconfigs.md: several processes write other files than one"]


def versions(kconf):
    """Complaints about the version in the program, the man pages and the changelog."""
    version = re.search(r'^pub\(crate\) const VERSION: &str = "kconf (.*)\\n";$', read("crates/kc_words/src/command.rt"), re.M).group(1)
    said = subprocess.run([kconf, "--version"], capture_output=True, text=True).stdout.strip()
    heads = {"CHANGELOG.md": r"^## (\S+)"}
    heads.update((f"man/{name}", r'^\.TH \S+ 1 \S+ "\S+ (\S+)"') for name in sorted(os.listdir(os.path.join(TOP, "man"))))
    found = {place: re.search(head, read(place), re.M) for place, head in heads.items()}
    places = {"kconf --version": said.removeprefix("kconf "), **{place: it and it.group(1) for place, it in found.items()}}
    return [f"{place}: version {found}, not {version}" for place, found in places.items() if found != version]


def options(kconf):
    """Complaints about options of the help that a document or completion has not, or has and the help has not."""
    said = subprocess.run([kconf, "--help"], capture_output=True, text=True).stdout
    wanted = set(re.findall(r"^ +(?:-\w, )?(--[a-z-]+)", said, re.M))
    pages = {
        "README.md": "\n".join(line for line in read("README.md").split("\n") if line.startswith("| `--")),
        "man/kconf.1": "\n".join(re.findall(r"^\.TP\n(.*)$", read("man/kconf.1").replace("\\-", "-"), re.M)),
        "completions/kconf.bash": read("completions/kconf.bash"),
        "completions/_kconf": read("completions/_kconf"),
    }
    complaints = []
    for page, text in pages.items():
        for name in sorted(wanted ^ set(re.findall(r"(?<![a-z-])--[a-z-]+", text))):
            complaints.append(f"{page}: the help has {'' if name in wanted else 'no '}{name}")
    return complaints


def pages():
    """The names of all documents."""
    return sorted(page for pattern in ("*.md", "docs/*.md", "crates/*/README.md") for page in glob.glob(pattern, root_dir=TOP))


def links():
    """Complaints about links that lead nowhere, and how many links there are."""
    complaints, count = [], 0
    for page in pages():
        for target in re.findall(r"\]\(([^)#]+)[^)]*\)", read(page)):
            count += 1
            if "://" not in target and not os.path.exists(os.path.join(TOP, os.path.dirname(page), target)):
                complaints.append(f"{page}: no file {target}")
    return complaints, count


def cases():
    """Complaints about the cases that the documents name and that are not there."""
    complaints, data = [], os.path.join(TOP, "crates", "kconf_cases", "data")
    for name in ("language", "formats", "differences"):
        for line in re.findall(r"^Cases: [^.]*\.$", read(f"docs/{name}.md"), re.M):
            missing = [case for case in re.findall(r"`([^`]+)`", line) if not os.path.isdir(os.path.join(data, case))]
            complaints += [f"docs/{name}.md names the case {case}, which is not there" for case in missing]
    return complaints


def causes():
    """Complaints about the list of the differences from conf: cases that are not there, causes that the page does not have."""
    complaints, page = [], " ".join(read("docs/differences.md").split())
    for line in read("crates/kconf_cases/conf.txt").splitlines():
        case, named = line.split()[0], line.partition(": ")[2].split("; ")
        if not os.path.isdir(os.path.join(TOP, "crates", "kconf_cases", "data", case)):
            complaints.append(f"conf.txt: the case {case} is not there")
        complaints += [f"conf.txt: {case}: docs/differences.md does not have {cause!r}" for cause in named if cause not in page]
    return complaints


def widths():
    """Complaints about lines of more than 120 columns outside tables."""
    lines = ((page, at, line) for page in pages() for at, line in enumerate(read(page).split("\n"), 1))
    return [f"{page}:{at}: {len(line)} columns" for page, at, line in lines if len(line) > 120 and not line.startswith("|")]


def chart():
    """Complaints about the chart of the table in docs/performance.md."""
    drawn = subprocess.run([os.path.join(TOP, "bench/chart.py"), os.path.join(TOP, "docs/performance.md")], capture_output=True, text=True)
    return [] if drawn.stdout == read("docs/bench.svg") else ["docs/bench.svg: run bench/chart.py docs/performance.md >docs/bench.svg"]


def figures():
    """Complaints about docs/figures.md: it must be what bench/figures.py prints."""
    counted = subprocess.run([os.path.join(TOP, "bench/figures.py")], capture_output=True, text=True).stdout
    return [] if counted == read("docs/figures.md") else ["docs/figures.md: run bench/figures.py >docs/figures.md"]


def main():
    kconf = os.path.abspath(sys.argv[1])
    wrong, runs = examples(kconf)
    unmade = session(kconf) + rule(kconf) + processes(kconf) + versions(kconf) + options(kconf)
    for name, text in makefiles().items():
        unmade += makefile(kconf, name, text)
    broken, count = links()
    complaints = wrong + unmade + broken + cases() + causes() + widths() + chart() + figures()
    for complaint in complaints:
        print(complaint)
    print(f"{runs} examples, {count} links, {len(complaints)} complaints")
    return 1 if complaints or not runs else 0


if __name__ == "__main__":
    sys.exit(main())
