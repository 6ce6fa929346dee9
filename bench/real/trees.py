"""The trees: where each comes from, what it finds in its environment, how it is made flat, and its own configurations."""

import dataclasses
import lzma
import pathlib
import re

import conf
from debian import Debian, say, unpack_archive


@dataclasses.dataclass
class Tree:
    """A tree as its builders have it: the root file, the environment, its own tool, and its configurations by name."""

    name: str
    folder: pathlib.Path
    kconfig: str
    tool: object
    settings: dict = dataclasses.field(default_factory=dict)
    prefix: str = "CONFIG_"
    flattened: list | None = None
    starts: dict = dataclasses.field(default_factory=dict)

    def options(self):
        """The options of kconf for this tree, or for its flat file."""
        raw = ["--raw-strings"] if self.name == "u-boot" else []
        return ["--prefix", self.prefix, *(["--flat", *raw] if self.flattened is not None else [])]


class Place:
    """The working folder: what was fetched, built and made."""

    def __init__(self, folder):
        self.folder = pathlib.Path(folder)
        self.debian = Debian(self.folder / "debian")
        self.none = self.folder / "none"
        self.none.parent.mkdir(parents=True, exist_ok=True)
        self.none.touch()

    def tree(self, name):
        """Where the source of a tree stands."""
        return self.folder / "trees" / name

    def package(self, name, *more, release=None):
        """A binary package, unpacked, with those that it needs; of another release of Debian where one is named."""
        debian = Debian(self.folder / f"debian-{release}", release) if release else self.debian
        return debian.unpack([name, *more], self.folder / "packages" / name.replace(":", "-"))

    def source(self, package, release=None, name=None):
        """A source package, unpacked; of another release of Debian where one is named."""
        debian = Debian(self.folder / f"debian-{release}", release) if release else self.debian
        return debian.source(package, self.tree(name or package))

    def conf(self, tree, source, flags=()):
        """The tree's own conf, built."""
        return conf.build(tree / source, self.folder / "conf" / tree.name, flags)


def configurations(folder, pattern):
    """The configurations of a folder, by name."""
    return {path.name: path for path in sorted(folder.glob(pattern)) if path.is_file()}


def once(tree, what):
    """Runs a tree's own step that makes files of it, once."""
    done = tree / ".prepared"
    if not done.exists():
        say(what, cwd=tree)
        done.touch()


def seabios(place):
    folder = place.source("seabios")
    tool = conf.Conf(place.conf(folder, "scripts/kconfig"), folder, "src/Kconfig", {})
    return Tree("seabios", folder, "src/Kconfig", tool)


def toybox(place):
    folder = place.source("toybox")
    once(folder, ["bash", "scripts/genconfig.sh"])
    tool = conf.Conf(place.conf(folder, "kconfig", ['-DPROJECT_NAME="ToyBox"']), folder, "Config.in", {}, conf.ASKING)
    return Tree("toybox", folder, "Config.in", tool, starts=configurations(folder, "kconfig/*_miniconfig"))


def busybox(place):
    folder = place.source("busybox")
    once(folder, ["sh", "scripts/gen_build_files.sh", ".", "."])
    tool = conf.Conf(place.conf(folder, "scripts/kconfig"), folder, "Config.in", {}, conf.ASKING, place=None)
    return Tree("busybox", folder, "Config.in", tool, flattened=[], starts=configurations(folder, "configs/*_defconfig"))


def uclibc(place):
    folder = place.source("uclibc")
    # The text $(TARGET_ARCH) in two defaults is for make; the tree's own conf expands no macros.
    settings = {"ARCH": "x86_64", "VERSION": "1.0.35", "TARGET_ARCH": "$(TARGET_ARCH)"}
    root = "extra/Configs/Config.in"
    tool = conf.Conf(place.conf(folder, "extra/config", ['-DCONFIG_=""']), folder, root, settings, conf.SHORT)
    starts = {f"{path.parent.name}/{path.name}": path for path in sorted(folder.glob("extra/Configs/defconfigs/*/*")) if path.is_file()}
    return Tree("uclibc", folder, root, tool, settings, prefix="", flattened=[], starts=starts)


def u_boot(place):
    """Every thirteenth configuration of its boards by name, of those without #include lines; boards.py has them all."""
    folder = place.source("u-boot", "trixie", "u-boot-2025.01")
    settings = {"srctree": ".", "UBOOTVERSION": "2025.01", "CC": "gcc", "LD": "ld", "HOSTCC": "gcc", "CC_VERSION_TEXT": first_line("gcc")}
    tool = conf.Conf(place.conf(folder, "scripts/kconfig"), folder, "Kconfig", settings)
    starts = configurations(folder, "configs/*_defconfig")
    starts = [item for item in starts.items() if not re.search(r"(?m)^#include", item[1].read_text(errors="replace"))]
    return Tree("u-boot", folder, "Kconfig", tool, settings, flattened=[], starts=dict(starts[::13]))


def coreboot(place):
    folder = place.source("coreboot")
    settings = {"srctree": ".", "top": ".", "obj": "build", "objutil": "build/util", "HOSTCC": "gcc", "KERNELVERSION": "4.15"}
    tool = conf.Conf(place.conf(folder, "util/kconfig"), folder, "src/Kconfig", settings)
    flattened = ["--missing-ok", "site-local/*"]
    return Tree("coreboot", folder, "src/Kconfig", tool, settings, flattened=flattened, starts=configurations(folder, "configs/config.*"))


def opensbi(place):
    """Its own tool is the kconfiglib that stands in the tree; of its platforms the generic one."""
    folder = place.source("opensbi", "trixie")
    platform = folder / "platform/generic"
    settings = {"OPENSBI_SRC_DIR": str(folder), "OPENSBI_PLATFORM": "generic", "OPENSBI_PLATFORM_SRC_DIR": str(platform)}
    settings |= {"CC": "gcc", "LD": "ld"}
    tool = conf.Library(folder / "scripts/Kconfiglib", folder, "Kconfig", settings)
    starts = {path.parent.parent.name: path for path in sorted(folder.glob("platform/**/configs/defconfig"))}
    return Tree("opensbi", folder, "Kconfig", tool, settings, flattened=[], starts=starts)


def first_line(compiler):
    """What a compiler says of itself."""
    return say([compiler, "--version"]).splitlines()[0]


def linux_tree(place):
    """The kernel's source as Debian has it."""
    folder = place.tree("linux")
    if not folder.exists():
        unpack_archive(place.package("linux-source-6.1") / "usr/src/linux-source-6.1.tar.xz", folder)
    return folder


def linux_settings(folder, architecture, cross):
    """What the kernel's Makefile gives its conf."""
    compiler = cross + "gcc-12"
    settings = {"srctree": ".", "ARCH": architecture, "SRCARCH": architecture, "KERNELVERSION": say(["make", "-s", "kernelversion"], cwd=folder).strip()}
    settings |= {"CC": compiler, "LD": cross + "ld", "NM": cross + "nm", "OBJCOPY": cross + "objcopy", "HOSTCC": "gcc", "HOSTCXX": "g++"}
    return settings | {"CC_VERSION_TEXT": first_line(compiler), "RUSTC": "rustc", "BINDGEN": "bindgen", "PAHOLE": "pahole"}


def linux(place, name, architecture, cross, package):
    """The kernel for an architecture, with the kernel configurations of Debian's package."""
    folder = linux_tree(place)
    settings = linux_settings(folder, architecture, cross)
    tool = conf.Conf(place.conf(folder, "scripts/kconfig"), folder, "Kconfig", settings)
    starts = configurations(folder, f"arch/{architecture}/configs/*")
    for packed in sorted((place.package(package) / "usr/src/linux-config-6.1").glob("config.*.xz")):
        config = place.folder / "debian-configurations" / packed.stem
        config.parent.mkdir(exist_ok=True)
        config.write_bytes(lzma.decompress(packed.read_bytes()))
        starts[packed.stem] = config
    return Tree(name, folder, "Kconfig", tool, settings, flattened=[], starts=starts)


def linux_new_tree(place):
    """The source of a kernel whose own conf is newer than 6.12, from Debian's testing release."""
    folder = place.tree("linux-7.2")
    if not folder.exists():
        unpack_archive(place.package("linux-source-7.2", release="forky") / "usr/src/linux-source-7.2.tar.xz", folder)
    return folder


def linux_new(place):
    """The newest kernel of the tests."""
    folder = linux_new_tree(place)
    settings = linux_settings(folder, "x86", "")
    program = conf.build(folder / "scripts/kconfig", place.folder / "conf/linux-7.2", ["-I", str(folder / "scripts/include")])
    tool = conf.Conf(program, folder, "Kconfig", settings)
    return Tree("linux-7.2", folder, "Kconfig", tool, settings, flattened=[], starts=configurations(folder, "arch/x86/configs/*"))


def linux_x86(place):
    return linux(place, "linux-x86", "x86", "", "linux-config-6.1")


def linux_arm64(place):
    return linux(place, "linux-arm64", "arm64", "aarch64-linux-gnu-", "linux-config-6.1:arm64")


TREES = {
    "seabios": seabios,
    "toybox": toybox,
    "busybox": busybox,
    "uclibc": uclibc,
    "opensbi": opensbi,
    "coreboot": coreboot,
    "u-boot": u_boot,
    "linux-x86": linux_x86,
    "linux-arm64": linux_arm64,
    "linux-7.2": linux_new,
}
