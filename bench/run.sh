#!/usr/bin/env bash
# Times kconf, the kernel's conf and kconfiglib, and draws the processor times: bench/run.sh [SYMBOLS]
#
# There are four tables: Linux 6.1 with Debian's configuration for amd64, if `make real` has fetched it; a generated tree of
# 20,000 symbols, or as many as SYMBOLS says; generated trees of four sizes; and all boards of U-Boot in one run of kconf --each
# (bench/boards.py), if `make real` has fetched it. The first two are printed again as the Markdown table of docs/performance.md, and
# drawn as docs/bench.svg, or the file that CHART names.
#
# kconf is crates/kconf/out/kconf (make build), or the program that KCONF names. One run of it writes the full .config, the header
# and the minimal file. kconfig-conf and kconfiglib are timed if they are installed (Debian's packages kconfig-frontends-nox and
# python3-kconfiglib). conf writes one file a run, so it is run for the .config and for the minimal file.
#
# Linux 6.1 is read from the folder that KCONF_TREES names, as in `make real`: kconf and the tree's own conf read the flat file.
# conf also reads the tree itself. It then expands the macros, and starts a compiler several hundred times; for the flat file
# kconf-flatten has done this before.
#
# The commands of a table run in turn, ten times each or as often as RUNS says, so other load on the machine affects all of them.
# The table shows the least processor time (user and system together), the least wall time, the highest peak memory and the
# least number of minor page faults (ru_minflt), as getrusage reports them. The machine should be idle.
set -eu
here=$(cd "$(dirname "$0")" && pwd)
kconf=$(realpath -m "${KCONF:-$here/../crates/kconf/out/kconf}")
symbols=${1:-20000}
runs=${RUNS:-10}
python=/usr/bin/python3
work=$(mktemp -d)
trap 'rm -rf "$work"' EXIT
mkdir "$work/table"
if [ ! -x "$kconf" ]; then
    echo "there is no program $kconf: run make build" >&2
    exit 1
fi

# Puts a command into the table, to be run in this folder: NAME [VARIABLE=VALUE ..] -- COMMAND ..
measure() {
    printf '%s\0' "$PWD" "$@" >"$work/table/$(printf '%03d' "$(find "$work/table" -type f | wc -l)")"
}

# Runs the commands of the table, prints it under this title, and begins another. The rows are kept in $work/rows.
table() {
    "$python" - "$runs" "$work/table" "$1" "$work/rows" <<'EOF'
import json
import os
import pathlib
import shutil
import subprocess
import sys
import time


class Row:
    """A command, and what was measured of it."""

    def __init__(self, path):
        self.folder, self.name, *words = path.read_text().split("\0")[:-1]
        at = words.index("--")
        self.told = dict(word.split("=", 1) for word in words[:at])
        self.command = words[at + 1 :]
        self.spent, self.walls, self.peaks, self.faults = [], [], [], []
        path.unlink()

    def run(self):
        """Runs the command once more."""
        shutil.copyfile(f"{self.folder}/dot.config", f"{self.folder}/.config")
        start = time.monotonic()
        process = subprocess.Popen(
            self.command, cwd=self.told.get("RUNS_IN", self.folder), env={**os.environ, **self.told},
            stdin=subprocess.DEVNULL, stdout=subprocess.DEVNULL, stderr=subprocess.DEVNULL)
        _, status, usage = os.wait4(process.pid, 0)
        self.walls.append(time.monotonic() - start)
        if status:
            sys.exit(f"{self.name}: ended with status {os.waitstatus_to_exitcode(status)}")
        self.spent.append(usage.ru_utime + usage.ru_stime)
        self.peaks.append(usage.ru_maxrss)
        self.faults.append(usage.ru_minflt)

    def __str__(self):
        peak = max(self.peaks) / 1024
        return f"{self.name:<46} {min(self.spent):8.3f} s {min(self.walls):8.3f} s {peak:8.1f} MiB {min(self.faults):11}"

    def cell(self):
        """The cell of the Markdown table."""
        return f"{min(self.spent):.3f} s, {max(self.peaks) / 1024:.0f} MiB, {min(self.faults):,}"


rows = [Row(path) for path in sorted(pathlib.Path(sys.argv[2]).iterdir())]
for _ in range(int(sys.argv[1])):
    for row in rows:
        row.run()
print(f"{sys.argv[3]:<46} {'processor':>10} {'wall':>10} {'peak memory':>12} {'page faults':>11}")
print(*rows, sep="\n", flush=True)
with open(sys.argv[4], "a", encoding="utf-8") as kept:
    kept.writelines(json.dumps([sys.argv[3], row.name, row.cell()]) + "\n" for row in rows)
EOF
}

# Prints the rows that were kept as one Markdown table with a column for each table, without the run on the tree that is not flat.
markdown() {
    "$python" - "$work/rows" <<'EOF'
import json
import sys

with open(sys.argv[1], encoding="utf-8") as kept:
    rows = [json.loads(line) for line in kept]
cells = {(table, name): cell for table, name, cell in rows}
tables = list(dict.fromkeys(table for table, *_ in rows))
print("| |", " | ".join(tables), "|")
print("|---|" + "---|" * len(tables))
for name in dict.fromkeys(name for _, name, _ in rows):
    if not name.endswith("not flat"):
        print("|", name, "|", " | ".join(cells.get((it, name), "") for it in tables), "|")
EOF
}

# Makes the tree of so many symbols in a folder and goes there.
make_tree() {
    "$python" "$here/generate.py" "$work/$1" "$1"
    cd "$work/$1"
}

our_run() {
    measure "$1" -- "$kconf" --config dot.config --out .config --header kconf.h --savedefconfig kconf.min Kconfig
}

library_run() {
    measure 'kconfiglib, all three files' -- "$python" -c 'import kconfiglib
tree = kconfiglib.Kconfig("Kconfig", warn=False)
tree.load_config("dot.config")
tree.write_config("kconfiglib.config", save_old=False)
tree.write_min_config("kconfiglib.min")
tree.write_autoconf("kconfiglib.h")'
}

trees=${KCONF_TREES:-${TMPDIR:-/tmp}/kconf-trees}
if [ -f "$trees/flat/linux-x86.Kconfig" ]; then
    mkdir "$work/linux" "$work/library"
    cd "$work/linux"
    cp "$trees/flat/linux-x86.Kconfig" Kconfig
    cp "$trees/debian-configurations/config.amd64_none_amd64" dot.config
    touch auto.conf
    echo "Linux 6.1 for x86, $(wc -l <Kconfig) lines in one flat file, $(wc -l <dot.config) lines of .config; $runs runs each"
    our_run 'kconf, all three files'
    auto=KCONFIG_AUTOCONFIG=$work/linux/auto.conf
    measure 'conf --olddefconfig, the .config alone' "$auto" -- "$trees/conf/linux/conf" --olddefconfig Kconfig
    measure 'conf --savedefconfig, the minimal file alone' "$auto" -- "$trees/conf/linux/conf" --savedefconfig=conf.min Kconfig
    mapfile -t settings <"$trees/flat/linux-x86.settings"
    measure 'conf --olddefconfig on the tree, not flat' "$auto" "KCONFIG_CONFIG=$work/linux/.config" "RUNS_IN=$trees/trees/linux" "${settings[@]}" \
        -- "$trees/conf/linux/conf" --olddefconfig Kconfig
    # kconfiglib knows the modules symbol by its older spelling alone.
    cd "$work/library"
    cp "$work/linux/dot.config" .
    sed 's/^\tmodules$/\toption modules/' "$work/linux/Kconfig" >Kconfig
    if "$python" -c 'import kconfiglib' 2>/dev/null; then library_run; fi
    table 'Linux 6.1'
    echo
fi

make_tree "$symbols"
echo "$symbols symbols, $(cat Kconfig parts/* | wc -l) lines in $(cat Kconfig parts/* | grep -c '^source') sourced files, $(wc -l <dot.config) lines of .config; $runs runs each"
our_run 'kconf, all three files'
if command -v kconfig-conf >/dev/null; then
    measure 'conf --olddefconfig, the .config alone' -- kconfig-conf --olddefconfig Kconfig
    measure 'conf --savedefconfig, the minimal file alone' -- kconfig-conf --savedefconfig=conf.min Kconfig
fi
if "$python" -c 'import kconfiglib' 2>/dev/null; then library_run; fi
table Generated

echo
markdown | tee "$work/table.md"
"$here/chart.py" "$work/table.md" >"${CHART:-$here/../docs/bench.svg}"

echo
for size in 5000 10000 20000 40000; do
    make_tree "$size"
    our_run "kconf, $size symbols"
    if command -v kconfig-conf >/dev/null; then
        measure "kconfig-conf, $size symbols" -- kconfig-conf --olddefconfig Kconfig
    fi
done
table growth

if [ -f "$trees/flat/u-boot.Kconfig" ]; then
    echo
    "$here/boards.py" "$kconf" "$trees"
fi
