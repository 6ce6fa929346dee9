"""Real builds with kconf in the place of the trees' own tools, beside the builds with their own; and a build of Linux begun so."""

import os
import re
import shutil
import subprocess
import sys

import dotconfig
from conf import environment

# The same for both builds of a pair: what they make may depend on neither the clock nor the machine's name.
EPOCH = {"SOURCE_DATE_EPOCH": "1700000000", "TZ": "UTC"}


def run(command, folder, **settings):
    """Runs one step of a build; ends the run with its last words where it fails."""
    ran = subprocess.run(command, cwd=folder, env=environment({**EPOCH, **settings}), stdin=subprocess.DEVNULL, capture_output=True, text=True, errors="replace", check=False)
    if ran.returncode:
        sys.exit(f"{' '.join(command)}: status {ran.returncode}\n{(ran.stdout + ran.stderr)[-3000:]}")


def fresh(tree, folder):
    """A copy of a tree in the folder where both of its builds stand, one after the other."""
    shutil.rmtree(folder, ignore_errors=True)
    folder.parent.mkdir(exist_ok=True)
    shutil.copytree(tree, folder, symlinks=True)
    return folder


def defined(folder, patterns):
    """The names of all symbols that the Kconfig files of a tree define."""
    texts = [path.read_text() for pattern in patterns for path in sorted(folder.glob(pattern))]
    return sorted({name for text in texts for name in re.findall(r"(?m)^\s*(?:menu)?config\s+(\w+)", text)})


def add(path, lines):
    """Adds lines to a file."""
    with open(path, "a", encoding="utf-8") as file:
        file.writelines(line + "\n" for line in lines)


def jobs():
    """How many compilers may run at once."""
    return os.environ.get("JOBS", "2")


def toybox_of(tree, folder, kconf):
    """toybox's binary, configured by its own conf where kconf is None, else by kconf.

    toybox makes its C header from the .config and wants a line for each symbol, also for one that can't be seen: the step besides
    kconf adds `# CONFIG_NAME is not set` for each symbol that has no line.
    """
    fresh(tree, folder)
    run(["bash", "scripts/genconfig.sh"], folder)
    if kconf is None:
        run(["make", "defconfig"], folder)
    else:
        run([str(kconf), "--config", "none", "--out", ".config", "Config.in"], folder)
        found = dotconfig.lines(folder / ".config")
        names = defined(folder, ["Config.in", "generated/Config.*"])
        add(folder / ".config", [f"# CONFIG_{name} is not set" for name in names if name not in found])
    run(["make", "toybox"], folder, CPUS=jobs())
    if kconf is not None and (folder / "kconfig/conf").exists():
        sys.exit("toybox's build made its own conf")
    return (folder / "toybox").read_bytes()


def seabios_of(tree, folder, kconf):
    """SeaBIOS's image, configured by its own conf where kconf is None, else by kconf.

    SeaBIOS's header gives 0 to each bool that is n, also to one that can't be seen: the step besides kconf adds
    `#define CONFIG_NAME 0` for each symbol that the header does not define.
    """
    fresh(tree, folder)
    build = ["make", "-j", jobs(), "PYTHON=/usr/bin/python3", "EXTRAVERSION=-same"]
    if kconf is None:
        run([*build, "olddefconfig"], folder)
    else:
        makefile = (folder / "Makefile").read_text()
        for part in re.search(r"(?m)^DIRS=(.*)$", makefile)[1].split():
            (folder / "out" / part).mkdir(parents=True, exist_ok=True)
        run([str(kconf), "--config", "none", "--out", ".config", "--header", "out/autoconf.h", "src/Kconfig"], folder)
        found = dotconfig.header(folder / "out/autoconf.h")
        names = defined(folder, ["src/Kconfig", "vgasrc/Kconfig"])
        add(folder / "out/autoconf.h", [f"#define CONFIG_{name} 0" for name in names if name not in found])
    run(build, folder)
    if kconf is not None and list(folder.glob("out/scripts/kconfig/*")):
        sys.exit("SeaBIOS's build made its own conf")
    return (folder / "out/bios.bin").read_bytes()


def pair(name, build, tree, folder, kconf):
    """Builds a tree both ways, at the same place, and compares the bytes; whether they are the same."""
    own = build(tree, folder / name, None)
    ours = build(tree, folder / name, kconf)
    same = own == ours
    print(f"{name}: built with its own conf and with kconf, {len(own)} and {len(ours)} bytes: {'the same' if same else 'NOT the same'}", flush=True)
    return same


def linux(tree, flat, start, folder, known, kconf, library):
    """Prepares a build of Linux from a .config that kconf wrote: `make olddefconfig` may change no value, `make prepare` has to
    end, and the header that its own conf makes then has to say what that of kconf says.

    The folder of the build stands apart from the tree. `library` holds the unpacked packages of libelf, which the kernel's own tools want.
    """
    shutil.rmtree(folder, ignore_errors=True)
    folder.mkdir(parents=True)
    run([str(kconf), "--flat", "--config", str(start), "--out", ".config", "--header", "kconf.h", "--root", str(flat.parent), flat.name], folder)
    before = dotconfig.lines(folder / ".config")
    make = ["make", "-j", jobs(), f"O={folder}", f"ARCH={tree.settings['ARCH']}", f"CC={tree.settings['CC']}", "HOSTCC=gcc"]
    run([*make, "olddefconfig"], tree.folder)
    after = dotconfig.lines(folder / ".config")
    names, count = dotconfig.differing(before, after)
    new = [name for name in names if not known.reason(tree.name, name, before.get(name, "no line"), after.get(name, "no line"))]
    print(f"linux: make olddefconfig changes {len(names)} of {count} values that kconf wrote for {start.name}{': ' if names else ''}{' '.join(names)}", flush=True)
    [archive] = library.glob("usr/lib/*/libelf.a")
    at = str(archive.parent)
    run([*make, "prepare"], tree.folder, CPATH=f"{library}/usr/include", LIBRARY_PATH=at, LD_LIBRARY_PATH=at)
    ended = (folder / "include/generated/asm-offsets.h").exists()
    own, ours = (dotconfig.header(folder / name) for name in ("include/generated/autoconf.h", "kconf.h"))
    same = own == {name: value for name, value in ours.items() if not name.startswith("KCONF_")}
    print(f"linux: make prepare from there {'ended, with asm-offsets.h' if ended else 'made no asm-offsets.h'}", flush=True)
    print(f"linux: the {len(own)} values of its autoconf.h are {'those' if same else 'NOT those'} of the header of kconf", flush=True)
    return ended and same and not new
