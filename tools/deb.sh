#!/usr/bin/env bash
# Packs dist/kconf_VERSION-1_amd64.deb: the program crates/kconf/out/kconf and all else that `make install` installs, the
# documents and the licences. `lintian` finds no error in it.
#
# The same commit and program give the same bytes: dpkg-deb takes the time of all files from the commit.
set -eu
cd "$(dirname "$0")/.."
version=$(crates/kconf/out/kconf --version | cut -d ' ' -f 2)
work=$(mktemp -d)
trap 'rm -rf "$work"' EXIT
umask 022
SOURCE_DATE_EPOCH=$(git log -1 --format=%ct)
export SOURCE_DATE_EPOCH
when=$(date -u -R -d "@$SOURCE_DATE_EPOCH")
maintainer='The kconf authors <kconf@kconf.invalid>'

make --silent --old-file=build install DESTDIR="$work" PREFIX=/usr
documents=$work/usr/share/doc/kconf
mkdir -p "$documents/docs" "$work/DEBIAN" dist
cp README.md SECURITY.md "$documents"
cp docs/*.md docs/*.svg "$documents/docs"
gzip -9nc CHANGELOG.md >"$documents/changelog.gz"
printf 'kconf (%s-1) unstable; urgency=medium\n\n  * See changelog.gz.\n\n -- %s  %s\n' "$version" "$maintainer" "$when" |
    gzip -9nc >"$documents/changelog.Debian.gz"
{
    printf 'Copyright: the kconf authors\nLicense: MIT or Apache-2.0\n\n'
    printf 'On Debian systems, the Apache License 2.0 is in /usr/share/common-licenses/Apache-2.0.\nThe MIT License follows.\n\n'
    cat LICENSE-MIT
} >"$documents/copyright"
strip --strip-unneeded --remove-section=.comment --remove-section=.note "$work/usr/bin/kconf"
find "$work/usr/share/man" -type f -exec gzip -9n {} +
chmod -R u=rwX,go=rX "$work"

cat >"$work/DEBIAN/control" <<END
Package: kconf
Version: $version-1
Architecture: amd64
Maintainer: $maintainer
Installed-Size: $(du -sk "$work/usr" | cut -f 1)
Depends: libc6 (>= 2.34)
Recommends: make, python3, python3-kconfiglib
Section: devel
Priority: optional
Description: configurator for Kconfig trees, proved against written definitions
 kconf reads a tree of Kconfig files and a .config, and computes the value of
 every symbol without questions. It writes the full .config, a C header and a
 minimal .config, and explains why a symbol has its value.
 .
 The companions kconf-tree and kconf-flatten run it on trees that use macros,
 such as Linux, U-Boot, coreboot and busybox.
END
(cd "$work" && find usr -type f -print0 | LC_ALL=C sort -z | xargs -0 md5sum) >"$work/DEBIAN/md5sums"
dpkg-deb --root-owner-group -Zxz --build "$work" "dist/kconf_$version-1_amd64.deb"
