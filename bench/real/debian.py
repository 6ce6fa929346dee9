"""Packages of Debian, by apt's own commands, into a folder of their own.

Nothing is installed, and apt's own state stays as it is: the commands run over copies of the machine's own list of sources, with
the source packages asked for beside the binary ones. apt checks each archive by its signed sum. What was fetched once is not
fetched again.
"""

import os
import pathlib
import re
import shutil
import subprocess
import sys

CONFIGURATION = """\
Dir::Etc::SourceList "/dev/null";
Dir::Etc::SourceParts "{folder}/sources";
Dir::State::Lists "{folder}/lists";
Dir::Cache "{folder}/cache";
APT::Architectures {{ "{own}"; "arm64"; }};
APT::Sandbox::User "";
Acquire::Languages "none";
"""


def say(command, **named):
    """Runs a command quietly and gives its standard output; ends the run with the command's words where it fails."""
    ran = subprocess.run(command, stdin=subprocess.DEVNULL, capture_output=True, text=True, check=False, **named)
    if ran.returncode:
        sys.exit(f"{' '.join(map(str, command))}: status {ran.returncode}\n{ran.stderr or ran.stdout}")
    return ran.stdout


def own_release():
    """The name of the machine's release of Debian."""
    return re.search(r"(?m)^VERSION_CODENAME=(\w+)$", pathlib.Path("/etc/os-release").read_text())[1]


def with_sources(text, name):
    """A file of apt's sources, in either of its layouts, with the source packages beside the binary ones."""
    if name.endswith(".sources"):
        return re.sub(r"(?m)^Types:.*$", "Types: deb deb-src", text)
    lines = [line for line in text.splitlines() if line.startswith("deb ")]
    return "".join(f"{line}\ndeb-src {line[4:]}\n" for line in lines)


class Debian:
    """A release of Debian, the machine's own where none is named, in a folder."""

    def __init__(self, folder, release=None):
        self.folder = pathlib.Path(folder)
        self.release = release
        self.environment = {**os.environ, "APT_CONFIG": str(self.folder / "apt.conf"), "LC_ALL": "C"}

    def apt(self, *words, **named):
        """Runs one of apt's commands over the copied lists."""
        self.update()
        return say(list(words), env=self.environment, **named)

    def update(self):
        """Copies the machine's list of sources and reads the lists of packages, once."""
        done = self.folder / "updated"
        if done.exists():
            return
        for part in ["sources", "lists/partial", "cache/archives/partial"]:
            (self.folder / part).mkdir(parents=True, exist_ok=True)
        own = say(["dpkg", "--print-architecture"]).strip()
        (self.folder / "apt.conf").write_text(CONFIGURATION.format(folder=self.folder, own=own))
        etc = pathlib.Path("/etc/apt")
        for path in [etc / "sources.list", *etc.glob("sources.list.d/*.list"), *etc.glob("sources.list.d/*.sources")]:
            if path.exists():
                text = with_sources(path.read_text(), path.name)
                if self.release:
                    text = text.replace(own_release(), self.release)
                (self.folder / "sources" / path.name).write_text(text)
        say(["apt-get", "update"], env=self.environment)
        done.touch()

    def place(self, package):
        """An empty folder to fetch a package into."""
        place = self.folder / "packages" / package.replace(":", "-")
        shutil.rmtree(place, ignore_errors=True)
        place.mkdir(parents=True)
        return place

    def unpack(self, packages, folder):
        """Fetches binary packages and unpacks them into one folder, which is theirs alone."""
        folder = pathlib.Path(folder)
        if folder.exists():
            return folder
        place = self.place(packages[0])
        self.apt("apt-get", "download", *packages, cwd=place)
        for archive in place.glob("*.deb"):
            say(["dpkg", "-x", archive.name, "unpacked"], cwd=place)
        folder.parent.mkdir(parents=True, exist_ok=True)
        (place / "unpacked").rename(folder)
        shutil.rmtree(place)
        return folder

    def source(self, package, folder):
        """Fetches what a source package has from upstream, without Debian's changes, and unpacks it as a folder of that name."""
        folder = pathlib.Path(folder)
        if folder.exists():
            return folder
        place = self.place(package)
        self.apt("apt-get", "--only-source", "--tar-only", "--download-only", "source", package, cwd=place)
        [archive] = place.glob("*.orig.tar.*")
        return unpack_archive(archive, folder)


def unpack_archive(archive, folder):
    """Unpacks an archive that holds one folder as a folder of the given name."""
    place = folder.with_name(folder.name + ".unpacking")
    shutil.rmtree(place, ignore_errors=True)
    place.mkdir(parents=True)
    say(["tar", "-xf", str(archive), "-C", str(place)])
    [inside] = place.iterdir()
    inside.rename(folder)
    place.rmdir()
    archive.unlink()
    return folder
