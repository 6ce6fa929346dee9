#!/usr/bin/python3
"""Checks what kconf --replace does to files: replace.py [KCONF [KILLS]]

Each check has a folder of its own. Some are of runs for three configurations (--each). The last ones
start runs on one place at once, and KILLS runs that are killed (SIGKILL) at random moments, and half
as many for three configurations: each place has to hold the old text or the new one, whole. Where a
run was killed a file may be left beside a place: how many were is reported. If root starts
the script, each check runs as root and then again as nobody. A check that this machine does not
allow is skipped, and the reason is printed. The script ends with status 1 if a check fails, and
names it.
"""

import errno
import os
import pwd
import random
import resource
import shutil
import signal
import stat
import subprocess
import sys
import tempfile
import threading
import time
import traceback

from refusing import FTRUNCATE, refusing

TOP = os.path.dirname(os.path.dirname(os.path.abspath(__file__)))
KCONF = os.path.abspath(sys.argv[1]) if len(sys.argv) > 1 else TOP + "/crates/kconf/out/kconf"
TREE = "config A\n\tbool \"a\"\n\nconfig N\n\tint \"n\"\n\tdefault 3\n\nconfig S\n\tstring \"s\"\n\tdefault \"x\"\n"
KILLS = int(sys.argv[2]) if len(sys.argv) > 2 else 400
FILES = ("--header", "h", "--savedefconfig", "min", "--depfile", "d")
THREE = ("c/one", "c/two", "c/three")  # configurations
RULE = ".config: \\\n ./Kconfig\n\n./Kconfig:\n"


class Wrong(Exception):
    """What was found, where it is not what is wanted."""


class Skipped(Exception):
    """Why a check cannot be made here."""


def want(what, found, wanted):
    if found != wanted:
        raise Wrong(f"{what}: {found!r}, not {wanted!r}")


class Folder:
    """A folder with a tree."""

    def __init__(self, path, tree=TREE):
        self.path = path
        self.put("Kconfig", tree)

    def at(self, name):
        return os.path.join(self.path, name)

    def put(self, name, text):
        with open(self.at(name), "w", encoding="utf-8") as file:
            file.write(text)

    def get(self, name):
        """A file's text; None if it is not there."""
        try:
            with open(self.at(name), encoding="utf-8") as file:
                return file.read()
        except FileNotFoundError:
            return None

    def run(self, *words, status=0, **more):
        ran = subprocess.run([KCONF, *words], **({"cwd": self.path, "capture_output": True, "text": True} | more))
        want(f"status of {' '.join(words)} ({ran.stderr.strip()})", ran.returncode, status)
        return ran

    def marks(self, *names):
        return [(os.stat(self.at(n)).st_ino, os.stat(self.at(n)).st_mtime_ns) for n in names]

    def left(self):
        """The temporary files that are there, by their paths."""
        return sorted(os.path.join(at, n) for at, _, names in os.walk(self.path) for n in names if ".kconf-" in n)


def plain_texts(folder):
    folder.run("--out", "plain", "--header", "plain.h", "--savedefconfig", "plain.min", "Kconfig")
    folder.run("--replace", *FILES, "Kconfig")
    for name, plain in ((".config", "plain"), ("h", "plain.h"), ("min", "plain.min")):
        want(f"the text of {name}", folder.get(name), folder.get(plain))
    want("the text of d", folder.get("d"), RULE)


def equal_text_keeps_time_and_inode(folder):
    folder.run("--replace", *FILES, "Kconfig")
    before = folder.marks(".config", "h", "min", "d")
    time.sleep(0.02)
    folder.run("--replace", *FILES, "Kconfig")
    want("times and inodes", folder.marks(".config", "h", "min", "d"), before)


def a_text_that_is_cut_or_longer_is_replaced(folder):
    folder.put("Kconfig", TREE + "".join(f'config FLAG_{i}\n\tbool "f"\n' for i in range(1_000)))
    folder.run("--out", "plain", "--header", "plain.h", "Kconfig")
    for name, plain in ((".config", "plain"), ("h", "plain.h")):
        whole = folder.get(plain)
        # The comparison reads 4,096 bytes at once.
        cuts = [0, 1, len(whole) // 2, 4_096, len(whole) - 1]
        for text in [*(whole[:cut] for cut in cuts if cut < len(whole)), whole + "\n", whole + whole, "x" + whole[1:], whole[:-1] + "x"]:
            folder.put(name, text)
            before = folder.marks(name)
            folder.run("--config", "none", "--out", ".config", "--replace", "--header", "h", "Kconfig")
            want(f"{name} over {len(text)} bytes", folder.get(name), whole)
            want(f"another file in {name}, over {len(text)} bytes", folder.marks(name) != before, True)


def another_text_changes_its_file_alone(folder):
    folder.run("--config", "none", "--out", ".config", "--replace", *FILES, "Kconfig")
    before = folder.marks(".config", "h", "min", "d")
    folder.put("Kconfig", TREE.replace('"x"', '"y"'))
    folder.run("--config", "none", "--out", ".config", "--replace", *FILES, "Kconfig")
    after = folder.marks(".config", "h", "min", "d")
    want("changed", [a != b for a, b in zip(after, before)], [True, True, False, False])
    want("the value", 'CONFIG_S="y"\n' in folder.get(".config"), True)


def a_new_fragment_changes_the_rule_alone(folder):
    folder.run("--replace", *FILES, "Kconfig")
    before = folder.marks(".config", "h", "min", "d")
    folder.put("frag", "")
    folder.run("--replace", *FILES, "Kconfig", "frag")
    after = folder.marks(".config", "h", "min", "d")
    want("changed", [a != b for a, b in zip(after, before)], [False, False, False, True])
    want("the rule", folder.get("d"), RULE.replace("./Kconfig\n\n", "./Kconfig \\\n frag\n\n") + "\nfrag:\n")


def a_rule_that_cannot_be_made_leaves_all(folder):
    folder.put(".config", "CONFIG_N=5\n")
    before = folder.marks(".config")
    ran = folder.run("--replace", "--header", "h", "--depfile", "none/d", "Kconfig", status=3)
    want("the line", ran.stderr, "error E19: cannot write none/d\n")
    want("times and inodes", folder.marks(".config"), before)
    want("the header", folder.get("h"), None)


def a_links_target_is_replaced_with_its_mode(folder):
    os.makedirs(folder.at("deep/er"))
    folder.put("deep/er/real", "CONFIG_N=5\n")
    os.chmod(folder.at("deep/er/real"), 0o604)
    os.symlink("er/real", folder.at("deep/second"))
    os.symlink("deep/second", folder.at(".config"))
    before = folder.marks("deep/er/real")
    folder.run("--replace", "Kconfig")
    want("the links", (os.readlink(folder.at(".config")), os.readlink(folder.at("deep/second"))), ("deep/second", "er/real"))
    want("the mode", stat.S_IMODE(os.stat(folder.at("deep/er/real")).st_mode), 0o604)
    want("another file", folder.marks("deep/er/real") != before, True)
    want("the value", "CONFIG_N=5\n" in folder.get("deep/er/real"), True)


def a_link_to_nothing_makes_its_target(folder):
    os.mkdir(folder.at("deep"))
    os.symlink("deep/real", folder.at(".config"))
    folder.run("--replace", "Kconfig")
    want("the link", os.readlink(folder.at(".config")), "deep/real")
    want("the value", "CONFIG_N=3\n" in folder.get("deep/real"), True)


def a_new_file_has_the_mode_of_a_new_file(folder):
    for mask in (0o022, 0o077, 0o002, 0o027):
        folder.run("--replace", "--out", f"new{mask}", "Kconfig", umask=mask)
        want("the mode", stat.S_IMODE(os.stat(folder.at(f"new{mask}")).st_mode), 0o666 & ~mask)


def mode_after(folder, name, mode, owner=None):
    """The mode of a file that replaces one of this mode and owner."""
    if os.path.exists(folder.at(name)):
        os.remove(folder.at(name))
    folder.put(name, "old\n")
    if owner:
        os.chown(folder.at(name), *owner)
    os.chmod(folder.at(name), mode)
    before = folder.marks(name)
    folder.run("--config", "none", "--replace", "--out", name, "Kconfig")
    want(f"another file, of mode {mode:o}", folder.marks(name) != before, True)
    return oct(stat.S_IMODE(os.stat(folder.at(name)).st_mode))


def a_mode_is_kept_but_for_the_group(folder):
    for mode in (0o600, 0o400, 0o444, 0o644, 0o666, 0o604, 0o755, 0o2644, 0o4755, 0o1644):
        want("the mode", mode_after(folder, "x", mode), oct(mode))
    for mode, kept in ((0o640, 0o600), (0o660, 0o600), (0o664, 0o644), (0o775, 0o755), (0o2750, 0o2700)):
        want(f"the mode over {mode:o}", mode_after(folder, "x", mode), oct(kept))


def a_mode_lets_in_nobody_else(folder):
    if os.geteuid():
        raise Skipped("only root can give a file away")
    nobody = pwd.getpwnam("nobody")
    os.mkdir(folder.at("his"))
    os.chown(folder.at("his"), nobody.pw_uid, nobody.pw_gid)
    cases = (
        # Another group: what group and others both had, and no set-id bits.
        ("x", (0, nobody.pw_gid), ((0o660, 0o600), (0o664, 0o644), (0o604, 0o600), (0o666, 0o666), (0o6755, 0o755))),
        # Another owner, who owns the folder, too: what all three classes had.
        ("his/x", (nobody.pw_uid, nobody.pw_gid), ((0o664, 0o644), (0o666, 0o666), (0o6755, 0o755), (0o466, 0o444))),
        ("his/x", (nobody.pw_uid, 0), ((0o660, 0o600), (0o640, 0o600))),
        # Another owner, who owns nothing here.
        ("x", (nobody.pw_uid, 0), ((0o666, 0o600), (0o644, 0o600), (0o6755, 0o700))),
        ("x", (nobody.pw_uid, nobody.pw_gid), ((0o666, 0o600), (0o777, 0o700))),
    )
    for name, owner, modes in cases:
        for mode, kept in modes:
            want(f"the mode over {mode:o} of {owner}, {name}", mode_after(folder, name, mode, owner), oct(kept))


def an_access_list_becomes_no_right_of_the_group(folder):
    if not shutil.which("setfacl"):
        raise Skipped("there is no setfacl (package acl)")
    folder.put("x", "old\n")
    os.chmod(folder.at("x"), 0o600)
    if subprocess.run(["setfacl", "-m", "u:daemon:r", "x"], cwd=folder.path, capture_output=True).returncode:
        raise Skipped("the file system has no access lists")
    want("the mode with the list", oct(stat.S_IMODE(os.stat(folder.at("x")).st_mode)), oct(0o640))
    folder.run("--config", "none", "--replace", "--out", "x", "Kconfig")
    want("the mode", oct(stat.S_IMODE(os.stat(folder.at("x")).st_mode)), oct(0o600))
    # The list that the folder gives to new files comes into force no more than the mode that is kept.
    os.mkdir(folder.at("listed"))
    subprocess.run(["setfacl", "-d", "-m", "u:daemon:rw", "listed"], cwd=folder.path, check=True)
    want("the mode below a folder with a list", mode_after(folder, "listed/x", 0o640), oct(0o600))


def another_users_file_in_a_sticky_folder_lets_him_not_in(folder):
    if os.geteuid():
        raise Skipped("only root can give a file away")
    os.chmod(folder.path, 0o755)
    os.mkdir(folder.at("shared"))
    os.chmod(folder.at("shared"), 0o1777)
    nobody = pwd.getpwnam("nobody")
    want("the mode", mode_after(folder, "shared/x", 0o666, (nobody.pw_uid, nobody.pw_gid)), oct(0o600))
    want("the owner", os.stat(folder.at("shared/x")).st_uid, 0)
    child = os.fork()
    if child == 0:
        os.setgroups([])
        os.setgid(nobody.pw_gid)
        os.setuid(nobody.pw_uid)
        os._exit(os.access(folder.at("shared/x"), os.R_OK) or os.access(folder.at("shared/x"), os.W_OK))
    want("he may read or write it", os.waitstatus_to_exitcode(os.waitpid(child, 0)[1]), 0)


def another_users_pipe_in_a_sticky_folder_is_not_written(folder):
    if os.geteuid():
        raise Skipped("only root can give a file away")
    with open("/proc/sys/fs/protected_fifos", encoding="utf-8") as file:
        if file.read().strip() == "0":
            raise Skipped("this kernel opens such pipes: fs.protected_fifos is 0")
    os.chmod(folder.path, 0o755)
    os.mkdir(folder.at("shared"))
    os.chmod(folder.at("shared"), 0o1777)
    nobody = pwd.getpwnam("nobody")
    os.mkfifo(folder.at("shared/pipe"))
    os.chown(folder.at("shared/pipe"), nobody.pw_uid, nobody.pw_gid)
    reader = os.open(folder.at("shared/pipe"), os.O_RDONLY | os.O_NONBLOCK)
    for flags in ([], ["--replace"]):
        ran = folder.run(*flags, "--config", "none", "--out", "shared/pipe", "Kconfig", status=3)
        want("the line", ran.stderr, "error E19: cannot write shared/pipe\n")
    want("what came out of the pipe", os.read(reader, 10), b"")
    os.close(reader)


TURNS = 1_000  # of each race


class Attacker:
    """A process that does something again and again."""

    def __init__(self, step):
        self.child = os.fork()
        if self.child == 0:
            while os.getppid() != 1:
                try:
                    step()
                except OSError:
                    pass
            os._exit(0)

    def __enter__(self):
        return self

    def __exit__(self, *_):
        os.kill(self.child, signal.SIGKILL)
        os.waitpid(self.child, 0)


def takes_the_temporary_file(path, secret):
    """What somebody does who has a link to a secret take the place of a temporary file."""

    def step():
        os.rename(path + "/.kconf-0", path + "/taken")
        os.symlink(secret, path + "/.kconf-0")

    return step


def frags(folder):
    for n in (0, 1):
        folder.put(f"frag{n}", f"CONFIG_N={n + 5}\n")


# Runs that each change the text of a name, and what they left is no secret, or the turn at which it was one.
RACE = """i=0; while [ $i -lt %d ]; do
    "$0" --config none --replace --out %s Kconfig frag$((i %% 2)) 2>/dev/null
    if grep -q SECRET %s; then echo "turn $i" >&2; exit 9; fi
    rm -f %s/.kconf-*; i=$((i + 1))
done"""


def no_secret_is_copied_over_a_mounted_file(folder):
    folder.put("real", "old\n")
    folder.put("secret", "SECRET\n")
    os.chmod(folder.at("secret"), 0o600)
    os.mkdir(folder.at("place"))
    folder.put("place/out", "")
    frags(folder)
    with Attacker(takes_the_temporary_file(folder.at("place"), folder.at("secret"))):
        said = mounted(folder, "mount --bind real place/out || exit 77; " + RACE % (TURNS, "place/out", "real", "place"))
    want("it", said, (0, ""))
    shutil.rmtree(folder.at("place"))


def no_secret_is_copied_between_file_systems(folder):
    if not os.path.isdir("/dev/shm") or os.stat("/dev/shm").st_dev == os.stat(folder.path).st_dev:
        raise Skipped("there is one file system only")
    folder.put("secret", "SECRET\n")
    os.chmod(folder.at("secret"), 0o600)
    os.mkdir(folder.at("here"))
    folder.put("here/out", "old\n")
    frags(folder)
    with tempfile.TemporaryDirectory(dir="/dev/shm") as there:
        os.symlink(folder.at("here"), folder.at("link"))

        def flip():
            if not os.path.lexists(there + "/.kconf-0"):
                os.symlink(folder.at("secret"), there + "/.kconf-0")
            for target in (there, folder.at("here")):
                os.symlink(target, folder.at("next"))
                os.rename(folder.at("next"), folder.at("link"))

        with Attacker(flip):
            script = RACE % (4 * TURNS, "link/out", "here/out", "here")
            ran = subprocess.run(["sh", "-c", script, KCONF], cwd=folder.path, capture_output=True, text=True)
    want("it", (ran.returncode, ran.stderr), (0, ""))
    shutil.rmtree(folder.at("here"))


def another_users_link_in_a_sticky_folder_is_not_followed(folder):
    if os.geteuid():
        raise Skipped("only root can make links as another user")
    with open("/proc/sys/fs/protected_symlinks", encoding="utf-8") as file:
        if file.read().strip() == "0":
            raise Skipped("this kernel follows such links: fs.protected_symlinks is 0")
    os.chmod(folder.path, 0o755)
    os.mkdir(folder.at("shared"))
    os.chmod(folder.at("shared"), 0o1777)
    nobody = pwd.getpwnam("nobody")
    for name, target in (("there", folder.at("secret")), ("none", folder.at("new"))):
        os.symlink(target, folder.at(f"shared/{name}"))
        os.chown(folder.at(f"shared/{name}"), nobody.pw_uid, nobody.pw_gid, follow_symlinks=False)
    folder.put("secret", "old\n")
    for flags in ([], ["--replace"]):
        for name in ("there", "none"):
            ran = folder.run(*flags, "--config", "none", "--out", f"shared/{name}", "Kconfig", status=3)
            want("the line", ran.stderr, f"error E19: cannot write shared/{name}\n")
    want("the files", (folder.get("secret"), folder.get("new")), ("old\n", None))


def mounted(folder, script, before=None):
    """Runs a script of the shell, whose $0 is the program, where it may mount."""
    ran = subprocess.run(["unshare", "-rm", "sh", "-c", script, KCONF], cwd=folder.path, capture_output=True, text=True, preexec_fn=before)
    if ran.returncode in (1, 77) and ("unshare" in ran.stderr or "mount" in ran.stderr):
        raise Skipped("nothing can be mounted here")
    return ran.returncode, ran.stderr


def a_read_only_file_system_is_an_error(folder):
    os.mkdir(folder.at("shut"))
    folder.put("shut/there", "old\n")
    mount = "mount --bind shut shut && mount -o remount,bind,ro shut || exit 77; "
    for flags in ("", "--replace "):
        for name in ("shut/there", "shut/new"):
            said = mounted(folder, f'{mount}"$0" {flags}--config none --out {name} Kconfig')
            want("it", said, (3, f"error E19: cannot write {name}\n"))
    want("the file", folder.get("shut/there"), "old\n")


def a_file_that_is_mounted_is_written_where_it_lies(folder):
    folder.run("--out", "plain", "Kconfig")
    folder.put("real", "old\n")
    folder.put("place", "")
    before = folder.marks("real")[0][0]
    script = 'mount --bind real place || exit 77; "$0" --config none --replace --out place Kconfig || exit; "$0" --config none --replace --out place Kconfig'
    want("it", mounted(folder, script), (0, ""))
    want("the text", folder.get("real"), folder.get("plain"))
    want("the inode", folder.marks("real")[0][0], before)


def a_mounted_file_that_cannot_be_cut_stays(folder):
    folder.put("real", "old\n")
    folder.put("place", "")
    script = 'mount --bind real place || exit 77; "$0" --config none --replace --out place Kconfig'
    want("it", mounted(folder, script, refusing(FTRUNCATE, errno.EIO)), (3, "error E19: cannot write place\n"))
    want("the text", folder.get("real"), "old\n")


def a_refused_run_leaves_all(folder):
    folder.put(".config", "CONFIG_N=5\n")
    folder.put("h", "old\n")
    before = folder.marks(".config", "h")
    folder.put("Kconfig", TREE + "config A-B\n")
    folder.run("--replace", "--header", "h", "Kconfig", status=1)
    want("times and inodes", folder.marks(".config", "h"), before)


def a_fault_leaves_all(folder):
    folder.put(".config", "CONFIG_N=5\n")
    before = folder.marks(".config")
    ran = folder.run("--replace", "--header", "none/h", "Kconfig", status=3)
    want("the line", ran.stderr, "error E19: cannot write none/h\n")
    want("times and inodes", folder.marks(".config"), before)
    os.mkdir(folder.at("folder"))
    ran = folder.run("--replace", "--savedefconfig", "folder", "--header", "h", "Kconfig", status=3)
    want("the line", ran.stderr, "error E19: cannot write folder\n")
    want("times and inodes", folder.marks(".config"), before)
    want("the header", os.path.exists(folder.at("h")), False)


def a_file_without_room_leaves_all(folder):
    folder.put(".config", "CONFIG_N=5\n")
    before = folder.marks(".config")
    ran = folder.run("--replace", "--header", "/dev/full", "Kconfig", status=3)
    want("the line", ran.stderr, "error E19: cannot write /dev/full\n")
    want("times and inodes", folder.marks(".config"), before)


# Names of standard output: the last ones through a link, and from another folder.
STANDARD_OUTPUT = ("/dev/stdout", "/dev/fd/1", "//dev/fd/1", "/dev/../dev/fd/1", "/proc/self/fd/1", "/proc/self/../self/fd/1", "fds/1", "link")


def standard_output_is_written_by_each_of_its_names(folder):
    folder.run("--out", "plain", "Kconfig")
    plain = folder.get("plain")
    os.symlink("/dev/fd", folder.at("fds"))
    os.symlink("fds/1", folder.at("link"))
    tree = ("--root", folder.path, "--config", folder.at("none"), "--replace")
    for name in STANDARD_OUTPUT:
        want(f"{name}, a pipe", folder.run(*tree, "--out", name, "Kconfig").stdout, plain)
    want("fd/1 from /dev, a pipe", folder.run(*tree, "--out", "fd/1", "Kconfig", cwd="/dev").stdout, plain)
    for name in STANDARD_OUTPUT:
        folder.put("got", "old\n" * 1000)
        before = folder.marks("got")[0][0]
        with open(folder.at("got"), "r+", encoding="utf-8") as got:
            folder.run(*tree, "--out", name, "Kconfig", capture_output=False, stdout=got, stderr=subprocess.PIPE)
        want(f"{name}, a regular file", (folder.get("got"), folder.marks("got")[0][0]), (plain, before))


def a_process_substitution_is_written(folder):
    folder.run("--out", "plain", "--header", "plain.h", "Kconfig")
    script = '"$0" --replace --config none --out >(cat > got) --header >(cat > got.h) Kconfig; code=$?; wait; sleep 0.2; exit $code'
    for _ in range(3):
        ran = subprocess.run(["bash", "-c", script, KCONF], cwd=folder.path, capture_output=True, text=True)
        want("the status", (ran.returncode, ran.stderr), (0, ""))
        want("the texts", (folder.get("got"), folder.get("got.h")), (folder.get("plain"), folder.get("plain.h")))


def a_large_text_and_a_long_warning_are_whole(folder):
    value = "x" * 3_000
    folder.put("Kconfig", "".join(f'config S_{n}\n\tstring "s"\n\tdefault "{value}"\n' for n in range(50)))
    folder.put("dot", "".join(f"CONFIG_{'U' * size}=y\n" for size in (200, 255, 256, 257, 3_000)))
    plain = folder.run("--config", "dot", "--out", "plain", "--header", "plain.h", "Kconfig")
    want("the lengths", (len(folder.get("plain")) > 65_536, max(map(len, plain.stderr.splitlines())) > 256), (True, True))
    for _ in range(2):
        ran = folder.run("--replace", "--config", "dot", "--out", "x", "--header", "h", "Kconfig")
        want("the warnings", ran.stderr, plain.stderr)
        want("the texts", (folder.get("x"), folder.get("h")), (folder.get("plain"), folder.get("plain.h")))


def standard_output_and_a_pipe_are_written(folder):
    folder.run("--out", "plain", "Kconfig")
    ran = folder.run("--replace", "--out", "/dev/stdout", "Kconfig")
    want("standard output", ran.stdout, folder.get("plain"))
    os.mkfifo(folder.at("pipe"))
    got = []
    reader = threading.Thread(target=lambda: got.append(folder.get("pipe")))
    reader.start()
    folder.run("--replace", "--out", "pipe", "Kconfig")
    reader.join()
    want("the pipe", got, [folder.get("plain")])
    want("the pipe's kind", stat.S_ISFIFO(os.stat(folder.at("pipe")).st_mode), True)
    os.symlink("/dev/stdout", folder.at("link"))
    want("a link to it", folder.run("--replace", "--out", "link", "Kconfig").stdout, folder.get("plain"))


def a_regular_file_below_dev_is_replaced(folder):
    if not os.path.isdir("/dev/shm"):
        return
    with tempfile.TemporaryDirectory(dir="/dev/shm") as place:
        out = os.path.join(place, "out")
        folder.run("--replace", "--out", out, "Kconfig")
        os.link(out, os.path.join(place, "first"))
        folder.put("changed", "CONFIG_A=y\n")
        folder.run("--replace", "--out", out, "Kconfig", "changed")
        want("another file took its place", os.path.samefile(out, os.path.join(place, "first")), False)
        want("what lies there", sorted(os.listdir(place)), ["first", "out"])


def taken_names_beside_stay(folder):
    names = [f".kconf-{n}" for n in range(3)]
    for name in names[:2]:
        folder.put(name, "mine\n")
    os.symlink("other", folder.at(names[2]))
    folder.put("other", "mine\n")
    folder.run("--replace", *FILES, "Kconfig")
    want("the taken names", [folder.get(name) for name in [*names, "other"]], ["mine\n"] * 4)
    want("the temporary files", folder.left(), [folder.at(name) for name in names])
    for name in names:
        os.remove(folder.at(name))


def no_free_name_is_an_error(folder):
    folder.put(".config", "CONFIG_N=5\n")
    before = folder.marks(".config")
    for n in range(1_000):
        folder.put(f".kconf-{n}", "mine\n")
    want("the line", folder.run("--replace", "Kconfig", status=3).stderr, "error E19: cannot write .config\n")
    want("times and inodes", folder.marks(".config"), before)
    want("the taken names", {folder.get(f".kconf-{n}") for n in range(1_000)}, {"mine\n"})
    for n in range(1_000):
        os.remove(folder.at(f".kconf-{n}"))


def long_names_are_replaced(folder):
    folder.run("--out", "plain", "Kconfig")
    for length in (1, 2, 200, 247, 248, 251, 255):
        name = "n" * length
        for _ in range(2):
            folder.put(name, "old\n")
            folder.run("--config", "none", "--replace", "--out", name, "Kconfig")
            want(f"the text of a name of {length} bytes", folder.get(name), folder.get("plain"))
    want("a longer name", folder.run("--replace", "--out", "n" * 256, "Kconfig", status=3).stderr, f"error E19: cannot write {'n' * 256}\n")


def names_that_are_none_of_a_file_are_errors(folder):
    os.mkdir(folder.at("folder"))
    os.symlink("none/", folder.at("slash"))
    os.symlink("round", folder.at("round"))
    os.symlink("Kconfig/x", folder.at("through"))
    os.symlink(b"\xff", folder.at("bytes"))
    for name in ("", "none/", "none/.", "folder", "folder/", "folder/.", "..", "Kconfig/", "Kconfig/x", "slash", "round", "through", "bytes", "none/x"):
        ran = folder.run("--config", "none", "--replace", "--header", "h", "--out", name, "Kconfig", status=3)
        want(f"the line of {name!r}", ran.stderr, f"error E19: cannot write {name}\n")
        want("the header", folder.get("h"), None)
    want("the files", sorted(os.listdir(folder.path)), ["Kconfig", "bytes", "folder", "round", "slash", "through"])


def two_outputs_of_one_name_leave_the_later(folder):
    folder.run("--header", "plain", "Kconfig")
    for _ in range(2):
        folder.run("--replace", "--out", "x", "--header", "x", "Kconfig")
        want("the text", folder.get("x"), folder.get("plain"))


def want_of_memory_leaves_all(folder):
    value = "x" * 3_000
    folder.put("Kconfig", "".join(f'config S_{n}\n\tstring "s"\n\tdefault "{value}"\n' for n in range(1_000)))
    folder.run("--config", "none", "--out", "plain", "Kconfig")
    words = ("--replace", "--config", "none", "--out", "x", "--header", "h", "Kconfig")
    found = set()
    for mib in range(4, 44, 2):
        folder.put("x", "old\n")
        folder.put("h", "old\n")
        before = folder.marks("x", "h")
        limit = lambda: resource.setrlimit(resource.RLIMIT_AS, (mib << 20, mib << 20))
        ran = subprocess.run([KCONF, *words], cwd=folder.path, capture_output=True, text=True, preexec_fn=limit)
        if ran.returncode == 127:  # the program itself does not fit
            continue
        found.add(ran.returncode)
        want(f"{mib} MiB", (ran.returncode, ran.stderr) in ((0, ""), (3, "error E20: out of memory\n")), True)
        if ran.returncode:
            want(f"times and inodes, {mib} MiB", folder.marks("x", "h"), before)
        else:
            want(f"the text, {mib} MiB", folder.get("x") == folder.get("plain"), True)
        want(f"temporary files, {mib} MiB", folder.left(), [])
    want("runs with and without enough memory", found, {0, 3})


def three(folder):
    """Lays out three configurations, each with a line of its own, of which the second is stale."""
    os.mkdir(folder.at("c"))
    for name in THREE:
        folder.put(name, f'CONFIG_S="{name}"\n')
    folder.put("c/two", '# old\nCONFIG_N=3\nCONFIG_S="c/two"\n')


MINIMAL = ("--each", "--savedefconfig", "{}", "Kconfig", *THREE)


def of_three_configurations_the_stale_one_is_replaced(folder):
    three(folder)
    before = folder.marks(*THREE)
    ran = folder.run("--check", *MINIMAL, status=1)
    want("the line", ran.stderr, "c/two: error E22: c/two is not up to date\n")
    want("times and inodes", folder.marks(*THREE), before)
    time.sleep(0.02)
    want("what is said", folder.run("--replace", *MINIMAL).stderr, "")
    want("changed", [a != b for a, b in zip(folder.marks(*THREE), before)], [False, True, False])
    want("the texts", [folder.get(name) for name in THREE], [f'CONFIG_S="{name}"\n' for name in THREE])
    after = folder.marks(*THREE)
    want("what is said", folder.run("--check", *MINIMAL).stderr, "")
    want("what is said", folder.run("--replace", *MINIMAL).stderr, "")
    want("times and inodes", folder.marks(*THREE), after)
    want("the files", sorted(os.listdir(folder.at("c"))), ["one", "three", "two"])


def of_three_configurations_the_refused_one_is_left(folder):
    three(folder)
    for at in THREE:
        for name in THREE:
            folder.put(name, f'CONFIG_N=3\nCONFIG_S="{name}"\n' + ("CONFIG_Q=y\n" if name == at else ""))
        text = folder.get(at)
        before = folder.marks(*THREE)
        ran = folder.run("--strict", "--replace", *MINIMAL, status=1)
        want("the lines", ran.stderr, f"{at}:3: warning K7: unknown symbol Q\n{at}: error E21: warnings are refused\n")
        want("changed", [a != b for a, b in zip(folder.marks(*THREE), before)], [name != at for name in THREE])
        want("the texts", [folder.get(name) for name in THREE], [text if name == at else f'CONFIG_S="{name}"\n' for name in THREE])


def of_three_configurations_one_with_a_fault_is_left(folder):
    three(folder)
    for at in THREE:
        for name in THREE:
            folder.put(name, f'CONFIG_N=3\nCONFIG_S="{name}"\n')
            os.makedirs(folder.at(f"{name}.d"), exist_ok=True)
        os.rmdir(folder.at(f"{at}.d"))
        before = folder.marks(*THREE)
        # The dependency file is the last of a turn.
        words = ("--each", "--replace", "--out", "{}.out", "--savedefconfig", "{}", "--depfile", "{}.d/rule", "Kconfig", *THREE)
        want("the line", folder.run(*words, status=3).stderr, f"{at}: error E19: cannot write {at}.d/rule\n")
        want("changed", [a != b for a, b in zip(folder.marks(*THREE), before)], [name != at for name in THREE])
        want("the files", [os.path.exists(folder.at(f"{name}.out")) for name in THREE], [name != at for name in THREE])
        for name in THREE:
            shutil.rmtree(folder.at(f"{name}.d"), ignore_errors=True)
            if name != at:
                os.remove(folder.at(f"{name}.out"))


def more_configurations_than_temporary_names_are_replaced(folder):
    os.mkdir(folder.at("c"))
    names = [f"c/{n}" for n in range(1_100)]
    for name in names:
        folder.put(name, "CONFIG_N=3\nCONFIG_A=y\n")
    folder.run("--each", "--replace", "--savedefconfig", "{}", "Kconfig", *names)
    want("the texts", {folder.get(name) for name in names}, {"CONFIG_A=y\n"})


def three_configurations_with_links_and_modes(folder):
    three(folder)
    folder.put("real", "CONFIG_N=3\n")
    os.chmod(folder.at("real"), 0o604)
    os.remove(folder.at("c/one"))
    os.symlink("../real", folder.at("c/one"))
    os.chmod(folder.at("c/two"), 0o600)
    want("what is said", folder.run("--replace", *MINIMAL).stderr, "")
    want("the link", (os.readlink(folder.at("c/one")), folder.get("real")), ("../real", ""))
    want("the modes", [oct(stat.S_IMODE(os.stat(folder.at(name)).st_mode)) for name in ("real", "c/two")], [oct(0o604), oct(0o600)])


def runs_at_once_leave_one_of_the_texts(folder):
    texts = {}
    for n in ("5", "7"):
        folder.put(f"frag{n}", f"CONFIG_N={n}\n")
        folder.run("--config", "none", "--out", f"plain{n}", "Kconfig", f"frag{n}")
        texts[n] = folder.get(f"plain{n}")
    for _ in range(40):
        runs = [
            subprocess.Popen([KCONF, "--replace", "--config", "none", "--out", "x", "Kconfig", f"frag{n}"], cwd=folder.path)
            for n in ("5", "7")
        ]
        want("statuses", [run.wait() for run in runs], [0, 0])
        want("one of the texts", folder.get("x") in texts.values(), True)


def killed_runs_leave_the_old_or_the_new(folder):
    folder.put("Kconfig", "".join(f'config SYMBOL_{i}\n\tint "s"\n\tdefault 1\n' for i in range(2_000)))
    wholes = {}
    for n in ("5", "7"):
        folder.put(f"frag{n}", "".join(f"CONFIG_SYMBOL_{i}={n}\n" for i in range(0, 2_000, 2)))
        words = ["--replace", "--config", "none", "--out", "x", "--header", "h", "Kconfig", f"frag{n}"]
        begun = time.time()
        folder.run(*words)
        took = time.time() - begun
        wholes[n] = (words, folder.get("x"), folder.get("h"))
    ended = left = changes = 0
    last = folder.get("x")
    for turn in range(KILLS):
        words, _, _ = wholes["57"[turn % 2]]
        run = subprocess.Popen([KCONF, *words], cwd=folder.path)
        time.sleep(random.uniform(0, 1.3 * took))
        run.send_signal(signal.SIGKILL)
        ended += run.wait() == 0
        want(f"x after turn {turn}", folder.get("x") in [w[1] for w in wholes.values()], True)
        want(f"h after turn {turn}", folder.get("h") in [w[2] for w in wholes.values()], True)
        changes += folder.get("x") != last
        last = folder.get("x")
        for name in folder.left():
            left += 1
            os.remove(folder.at(name))
    want("runs changed .config", changes > 0, True)
    want("a run was killed before it was done", ended < KILLS, True)
    print(f"  of {KILLS} killed runs {ended} were done before, {changes} changed .config, {left} files were left beside")


def killed_runs_for_three_leave_whole_files(folder):
    three(folder)
    folder.put("Kconfig", TREE + "".join(f'config SYMBOL_{i}\n\tint "s"\n\tdefault 1\n' for i in range(2_000)))
    names = [name + end for name in THREE for end in (".out", ".h", "")]  # in the order in which they are replaced
    wholes = []
    for n in ("5", "7"):
        folder.put(f"frag{n}", "".join(f"CONFIG_SYMBOL_{i}={n}\n" for i in range(0, 2_000, 2)))
        words = ["--each", "--replace", "--out", "{}.out", "--header", "{}.h", "--savedefconfig", "{}", "--fragment", f"frag{n}", "Kconfig", *THREE]
        begun = time.time()
        folder.run(*words)
        took = time.time() - begun
        wholes.append((words, [folder.get(name) for name in names]))
    ended = left = between = 0
    for turn in range(KILLS // 2):
        words, new = wholes[turn % 2]
        before = [folder.get(name) for name in names]
        run = subprocess.Popen([KCONF, *words], cwd=folder.path, stderr=subprocess.DEVNULL)
        time.sleep(random.uniform(0, 1.3 * took))
        run.send_signal(signal.SIGKILL)
        ended += run.wait() == 0
        found = [folder.get(name) for name in names]
        want(f"new files first, then old ones, after turn {turn}", found in [new[:at] + before[at:] for at in range(len(names) + 1)], True)
        between += found not in (before, new)
        for name in folder.left():
            left += 1
            os.remove(folder.at(name))
    want("a run was killed before it was done", ended < KILLS // 2, True)
    print(f"  of {KILLS // 2} killed runs {ended} were done before, {between} had replaced some files, {left} files were left beside")


CHECKS = (
    plain_texts,
    equal_text_keeps_time_and_inode,
    a_text_that_is_cut_or_longer_is_replaced,
    another_text_changes_its_file_alone,
    a_new_fragment_changes_the_rule_alone,
    a_rule_that_cannot_be_made_leaves_all,
    a_links_target_is_replaced_with_its_mode,
    a_link_to_nothing_makes_its_target,
    a_new_file_has_the_mode_of_a_new_file,
    a_mode_is_kept_but_for_the_group,
    a_mode_lets_in_nobody_else,
    an_access_list_becomes_no_right_of_the_group,
    another_users_file_in_a_sticky_folder_lets_him_not_in,
    another_users_pipe_in_a_sticky_folder_is_not_written,
    another_users_link_in_a_sticky_folder_is_not_followed,
    a_refused_run_leaves_all,
    a_fault_leaves_all,
    a_file_without_room_leaves_all,
    standard_output_is_written_by_each_of_its_names,
    standard_output_and_a_pipe_are_written,
    a_process_substitution_is_written,
    a_regular_file_below_dev_is_replaced,
    a_file_that_is_mounted_is_written_where_it_lies,
    a_mounted_file_that_cannot_be_cut_stays,
    no_secret_is_copied_over_a_mounted_file,
    no_secret_is_copied_between_file_systems,
    a_read_only_file_system_is_an_error,
    a_large_text_and_a_long_warning_are_whole,
    long_names_are_replaced,
    names_that_are_none_of_a_file_are_errors,
    taken_names_beside_stay,
    no_free_name_is_an_error,
    two_outputs_of_one_name_leave_the_later,
    want_of_memory_leaves_all,
    of_three_configurations_the_stale_one_is_replaced,
    of_three_configurations_the_refused_one_is_left,
    of_three_configurations_one_with_a_fault_is_left,
    three_configurations_with_links_and_modes,
    more_configurations_than_temporary_names_are_replaced,
    runs_at_once_leave_one_of_the_texts,
    killed_runs_leave_the_old_or_the_new,
    killed_runs_for_three_leave_whole_files,
)


def check_all():
    """Makes each check, and returns how many failed."""
    wrong = 0
    for check in CHECKS:
        with tempfile.TemporaryDirectory() as path:
            folder = Folder(path)
            try:
                check(folder)
                want("temporary files that were left", folder.left(), [])
                print(f"ok {check.__name__}", flush=True)
            except Skipped as it:
                print(f"skipped {check.__name__}: {it}", flush=True)
            except Wrong as it:
                wrong += 1
                print(f"WRONG {check.__name__}: {it}", flush=True)
            except (OSError, TypeError, subprocess.SubprocessError):
                wrong += 1
                print(f"WRONG {check.__name__}:\n{traceback.format_exc()}", flush=True)
    return wrong


def check_as_nobody():
    """Makes each check in a process of the user nobody, on a copy of the program."""
    global KCONF
    with tempfile.TemporaryDirectory() as path:
        os.chmod(path, 0o755)
        KCONF = shutil.copy(KCONF, path)
        os.chmod(KCONF, 0o755)
        child = os.fork()
        if child == 0:
            nobody = pwd.getpwnam("nobody")
            os.setgroups([])
            os.setgid(nobody.pw_gid)
            os.setuid(nobody.pw_uid)
            os.environ["HOME"] = "/"
            os._exit(check_all() > 0)
        return os.waitstatus_to_exitcode(os.waitpid(child, 0)[1])


def main():
    wrong = check_all()
    if os.geteuid() == 0:
        print("as nobody", flush=True)
        wrong += check_as_nobody()
    sys.exit(wrong > 0)


if __name__ == "__main__":
    main()
