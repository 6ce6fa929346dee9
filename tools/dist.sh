#!/usr/bin/env bash
# Packs dist/kconf-VERSION-linux-x86_64.tar.gz: the program crates/kconf/out/kconf and all else that `make install` installs,
# the licences, the documents, and the line of `rt version`. The SHA-256 checksum is written beside it.
#
# The same commit and program give the same bytes: files are sorted, and have the time of the commit and no owner.
set -eu
cd "$(dirname "$0")/.."
version=$(crates/kconf/out/kconf --version | cut -d ' ' -f 2)
name=kconf-$version-linux-x86_64
work=$(mktemp -d)
trap 'rm -rf "$work"' EXIT
umask 022

make --silent --old-file=build install DESTDIR="$work" PREFIX="/$name"
documents=$work/$name/share/doc/kconf
mkdir -p "$documents/docs" dist
cp README.md CHANGELOG.md SECURITY.md LICENSE LICENSE-APACHE LICENSE-MIT "$documents"
cp docs/*.md docs/*.svg "$documents/docs"
rt version >"$documents/KIT"
chmod -R u=rwX,go=rX "$work/$name"

tar --sort=name --owner=0 --group=0 --numeric-owner --mtime="@$(git log -1 --format=%ct)" --format=ustar \
    -C "$work" -cf - "$name" | gzip -9n >"dist/$name.tar.gz"
cd dist
sha256sum "$name.tar.gz" >"$name.tar.gz.sha256"
cat "$name.tar.gz.sha256"
