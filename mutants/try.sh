#!/usr/bin/env bash
# Tries the mutants: mutants/try.sh [CRATE ..], those of all crates without an argument. The prover must refuse each.
# The crates below each crate are proved first, in a copy of the repository, so this takes hours.
set -eu
cd "$(dirname "$0")/.."
here=$PWD
mutants/check.py
room=$(mktemp -d)
trap 'rm -rf "$room"' EXIT
cp -r crates crates.txt HANDLES "$room"
if [ $# -eq 0 ]; then
    set -- $(cd mutants && ls -d */ | tr -d /)
fi
cd "$room"
git init -q
for crate in "$@"; do
    mkdir -p "crates/$crate/must-fail"
    if [ -d "$here/mutants/$crate" ]; then
        cp "$here/mutants/$crate"/*.edit "crates/$crate/must-fail"
    fi
    rt must-fail "$crate"
done
