"""All boards of U-Boot by one run of kconf-tree --each, beside U-Boot's own tool: each minimal file byte for byte."""

import concurrent.futures
import subprocess
import time

from conf import AT_ONCE, environment


class Boards:
    """The boards of a U-Boot tree, and the folder to work in."""

    def __init__(self, tree, companion, kconf, work):
        self.tree, self.companion, self.kconf, self.work = tree, companion, kconf, work
        work.mkdir(parents=True, exist_ok=True)

    def made(self, defconfig, end):
        """Where a file of a board stands."""
        return self.work / f"{defconfig.name}{end}"

    def own(self, defconfig):
        """Writes the minimal file of U-Boot's own tool, as its Makefile runs it; a later run uses what is there."""
        generated, full, writing, minimal = (self.made(defconfig, end) for end in (".generated", ".theirs", ".writing", ".theirs.min"))
        if minimal.exists():
            return
        cpp = ["cpp", "-nostdinc", "-P", "-I", ".", "-undef", "-x", "assembler-with-cpp", str(defconfig), "-o", str(generated)]
        self.run(cpp, {})
        auto = self.tree.tool.program.with_name("auto.conf")
        auto.touch()
        settings = {**self.tree.settings, "KCONFIG_CONFIG": str(full), "KCONFIG_AUTOCONFIG": str(auto)}
        self.run([str(self.tree.tool.program), f"--defconfig={generated}", self.tree.kconfig], settings)
        self.run([str(self.tree.tool.program), f"--savedefconfig={writing}", self.tree.kconfig], settings)
        full.unlink()
        writing.rename(minimal)

    def here(self, defconfigs):
        """Writes the minimal files of all boards by one run of kconf-tree; answers how long it took."""
        began = time.monotonic()
        self.each(defconfigs)
        return time.monotonic() - began

    def each(self, defconfigs):
        """Runs kconf-tree --each over boards."""
        (self.work / "names").write_text("".join(f"{path}\n" for path in defconfigs))
        command = [self.companion, "-C", str(self.tree.folder), self.tree.kconfig, "--each", "--savedefconfig", f"{self.work}/{{/}}.ours.min"]
        self.run([*command, "--each-from", str(self.work / "names")], {"KCONF": str(self.kconf), "XDG_CACHE_HOME": str(self.work / "cache")})

    def run(self, command, settings):
        """Runs a command in the tree; a failure ends the board."""
        ran = subprocess.run(command, cwd=self.tree.folder, env=environment(settings), stdin=subprocess.DEVNULL, capture_output=True, check=False)
        if ran.returncode:
            raise RuntimeError(f"{command[0]}: status {ran.returncode}: {ran.stderr.decode(errors='replace')[-300:]}")

    def all(self, count=None):
        """Compares all boards, or about that many, and prints the counts; answers whether each minimal file is the same."""
        defconfigs = sorted(self.tree.folder.glob("configs/*_defconfig"))
        times = self.here(defconfigs), self.here(defconfigs)
        chosen = defconfigs[:: len(defconfigs) // count] if count else defconfigs
        with concurrent.futures.ThreadPoolExecutor(AT_ONCE) as pool:
            list(pool.map(self.own, chosen))
        other = [path for path in chosen if self.made(path, ".ours.min").read_bytes() != self.made(path, ".theirs.min").read_bytes()]
        for path in other:
            print(f"  {path.name}: the minimal file is another")
        print(f"u-boot: one run of kconf-tree --each over {len(defconfigs)} boards took {times[0]:.1f} s and {times[1]:.1f} s; on "
              f"{len(chosen) - len(other)} of {len(chosen)} boards the minimal file is byte for byte that of savedefconfig", flush=True)
        return not other
