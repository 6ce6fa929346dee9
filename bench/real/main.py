"""kconf on the trees of others, beside their own tools: see bench/real.sh."""

import os
import pathlib
import shutil
import subprocess
import sys
import tempfile
import time

import boards
import builds
import companion
import each
import explain
import how
import ignored
import new
import road
import trees
from conf import environment
from debian import say
from known import Known
from runs import Runs, told
from texts import Causes

HERE = pathlib.Path(__file__).resolve().parent
# What the trees' own tools are built with, and the compiler for arm64: each program with its packages and what they go by.
PROGRAMS = {
    "flex": ["flex"],
    "bison": ["bison"],
    "m4": ["m4"],
    "aarch64-linux-gnu-gcc-12": ["gcc-12-aarch64-linux-gnu", "cpp-12-aarch64-linux-gnu", "binutils-aarch64-linux-gnu", "libgcc-12-dev-arm64-cross"],
}
# The trees on which explanations are checked.
EXPLAINED = ("linux-x86", "linux-7.2")

# The configurations that docs/why.md asks about.
STORIES = {"u-boot": ["configs/rpi_4_defconfig"], "coreboot": ["configs/config.emulation_qemu_x86_i440fx"]}
BUILDS = {"seabios": builds.seabios_of, "toybox": builds.toybox_of}


def programs(place):
    """Puts the programs that are wanted on the path: the machine's own where it is there, else from its packages, unpacked."""
    for name, packages in PROGRAMS.items():
        if shutil.which(name):
            continue
        folder = place.package(*packages) / "usr"
        os.environ["PATH"] = f"{os.environ['PATH']}:{folder / 'bin'}"
        if name == "m4":
            os.environ["M4"] = str(folder / "bin/m4")
        elif name == "bison":
            os.environ["BISON_PKGDATADIR"] = str(folder / "share/bison")
        elif packages[1:]:
            libraries = next(folder.glob("lib/*/libbfd-*.so")).parent
            os.environ["LD_LIBRARY_PATH"] = f"{libraries}:{os.environ.get('LD_LIBRARY_PATH', '')}".rstrip(":")


def library(place):
    """The companion's library: the machine's own where it is there, else from its package, unpacked."""
    if subprocess.run(["/usr/bin/python3", "-c", "import kconfiglib"], capture_output=True, check=False).returncode:
        os.environ["PYTHONPATH"] = str(place.package("python3-kconfiglib") / "usr/lib/python3/dist-packages")


def flat(tree, place):
    """The tree as kconf takes it: as it is, or as the companion writes it."""
    if tree.flattened is None:
        return tree.folder, tree.kconfig
    made = place.folder / "flat" / f"{tree.name}.Kconfig"
    made.parent.mkdir(exist_ok=True)
    made.with_suffix(".settings").write_text("".join(f"{name}={value}\n" for name, value in tree.settings.items()))
    companion = os.environ.get("KCONF_FLATTEN") or str(HERE.parent.parent / "tools" / "kconf-flatten")
    say([companion, *tree.flattened, "--out", str(made), tree.kconfig], cwd=tree.folder, env=environment(tree.settings))
    return made.parent, made.name


def kconf_tree():
    """The companion that runs kconf on trees."""
    return os.environ.get("KCONF_TREE") or str(HERE.parent.parent / "tools" / "kconf-tree")


def one_tree(name, place, kconf, known, causes, reasons):
    """All runs of a tree."""
    began = time.monotonic()
    tree = trees.TREES[name](place)
    print(f"{name}: {tree.kconfig}", flush=True)
    root, kconfig = flat(tree, place)
    causes.read(root / kconfig)
    runs = Runs(tree, kconf, (root, kconfig), place.folder / "runs" / name, known)
    summary = told(tree, runs.all(place.none), known, causes)
    configurations, own = runs.given()
    summary.faults += not each.Each(tree, kconf, (root, kconfig), place.folder / "each" / name).all(configurations, own, causes)
    summary.faults += not ignored.Ignored(tree, kconf, (root, kconfig), place.folder / "ignored" / name).all(configurations)
    lists = new.New(tree, kconf, (root, kconfig), place.folder / "new" / name)
    summary.faults += not lists.all(configurations, own, new.older(name, place), reasons)
    if name in EXPLAINED:
        summary.faults += not explained(tree, place, kconf, root / kconfig)
    if name in STORIES:
        summary.faults += not explain.stories(tree, kconf, kconf_tree(), STORIES[name], place.folder / "explain")
    print(f"  {time.monotonic() - began:.0f} s", flush=True)
    return summary


def explained(tree, place, kconf, flat_file):
    """Checks explanations on a Linux tree with Debian's configuration of Linux 6.1, and on 7.2 the page of documents that shows one."""
    config = trees.linux_x86(place).starts["config.amd64_none_amd64"]
    is_right = explain.all_of(kconf, flat_file, config, 1)
    if tree.name == "linux-7.2":
        is_right &= explain.story_of_linux(tree, kconf, kconf_tree(), config, place.folder / "explain")
    return is_right


def table(summaries):
    """The summary of all trees."""
    heads = (15, "configurations"), (17, "values compared"), (11, "differing"), (7, "known"), (12, "full same"), (14, "minimal same"), (15, "unknown lines"), (8, "faults")
    print(f"\n{'tree':<14}" + "".join(f"{head:>{width}}" for width, head in heads))
    for summary in summaries:
        minimal = f"{summary.minimal}/{summary.with_minimal}" if summary.with_minimal else "-"
        full = f"{summary.full}/{summary.configurations}"
        row = summary.configurations, summary.compared, summary.differing, summary.known, full, minimal, summary.unknown_lines, summary.faults
        print(f"{summary.tree:<14}" + "".join(f"{value:>{width}}" for value, (width, _) in zip(row, heads)))


def build_linux(place, kconf, known):
    """Prepares a build of Linux from Debian's configuration, by the flat file that the runs of the tree made."""
    tree = trees.linux_x86(place)
    start = tree.starts["config.amd64_none_amd64"]
    flat_file = place.folder / "flat" / f"{tree.name}.Kconfig"
    return builds.linux(tree, flat_file, start, place.folder / "build/linux", known, kconf, place.package("libelf-dev", "libelf1"))


def main():
    kconf = pathlib.Path(os.environ.get("KCONF") or HERE.parent.parent / "crates/kconf/out/kconf").resolve()
    if not os.access(kconf, os.X_OK):
        sys.exit(f"there is no {kconf}: make build makes it")
    folder = os.environ.get("KCONF_TREES") or tempfile.gettempdir() + "/kconf-trees"
    place = trees.Place(folder)
    programs(place)
    library(place)
    known, causes, reasons = Known(), Causes(), new.Reasons()
    names = sys.argv[1:] or [*trees.TREES, "road", "boards", "how"]
    summaries = [one_tree(name, place, kconf, known, causes, reasons) for name in names if name in trees.TREES]
    table(summaries)
    for entry in known.unmet(names) + causes.unmet(names) + reasons.unmet(names):
        print(f"known, and not met: {' '.join(entry)}")
    print()
    done = [builds.pair(name, BUILDS[name], place.tree(name), place.folder / "build", kconf) for name in names if name in BUILDS]
    if "linux-x86" in names:
        done.append(build_linux(place, kconf, known))
        done.append(companion.strict(kconf, place.folder / "flat" / "linux-x86.Kconfig", place.folder / "strict"))
    for name in names:
        if name in companion.TREES:
            done.append(companion.trials(trees.TREES[name](place), kconf_tree(), kconf, place.folder / "companion" / name))
    if "boards" in names:
        tree = trees.u_boot(place)
        done.append(boards.Boards(tree, kconf_tree(), kconf, place.folder / "boards").all())
    if "how" in names:
        done.append(how.all_of(place, kconf, flat))
    if "road" in names:
        done.append(road.all_of(place, kconf_tree(), kconf, known))
    sys.exit(not all(done) or any(it.faults or it.unknown_lines or it.differing > it.known for it in summaries))


if __name__ == "__main__":
    main()
