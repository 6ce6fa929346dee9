#!/usr/bin/env bash
# Refuses each call of the system in turn, in runs of kconf over small trees, the firmware and a wide tree, and in runs of three
# configurations of one tree: bench/refused.sh
#
# Each run writes .config, header and minimal file, or those of them that are asked for. It is done once as it is, and its growths
# of memory, opens, reads, writes (of standard error too) and closings are counted, and with --replace the looks at files and
# links, changes of a mode, syncs, moves and removals. Then it is done again once for each of them, with that call refused: growth
# by want of memory, the others by a fault of the device; opens, reads and writes by want of memory too. What each such run has to
# leave says refused/check.py; the runs and their texts, which follow from the rules, stand in refused/cases.py, and those of
# three configurations in refused/each_cases.py. First a stand-in for kconf is judged, as it is and with each of its faults: the
# checker has to fail on those (refused/stand_ins.py). At last each growth is refused in turn in single calls (refused/calls.py).
# It takes some minutes, and wants cc and python3, for the few lines that stand between the program and the C library.
#
# kconf is crates/kconf/out/kconf, and the program of the single calls crates/kc_call_turns/out/kc_call_turns (make refused makes
# both), or the programs that KCONF and CALLS name. JOBS cases are run at once (as many as there are processors). The script ends
# with status 1 where a run does not end so, and names the call.
set -eu
began=$SECONDS
here=$(cd "$(dirname "$0")" && pwd)
kconf=$(realpath -m "${KCONF:-$here/../crates/kconf/out/kconf}")
calls=$(realpath -m "${CALLS:-$here/../crates/kc_call_turns/out/kc_call_turns}")
for program in "$kconf" "$calls"; do
    if [ ! -x "$program" ]; then
        echo "there is no $program: make refused makes it" >&2
        exit 1
    fi
done
work=$(mktemp -d)
trap 'rm -rf "$work"' EXIT
cc -O1 -Wall -shared -fPIC -o "$work/between.so" "$here/refused/between.c" -ldl
python3 -B "$here/refused/stand_ins.py" "$work/between.so"
python3 -B "$here/refused/check.py" "$work/between.so" "$kconf"
python3 -B "$here/refused/calls.py" "$work/between.so" "$calls"
echo "$((SECONDS - began)) s"
