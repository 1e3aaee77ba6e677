#!/bin/sh
# Makes a Debian package of what `make` has built: tools/make_deb.sh VERSION FOLDER
# The package has the program, its man page, completions, documents and licences. It is the same, bit for bit, whenever
# it is made of the same files: times are those of the last commit, or without git of CHANGELOG.md, and files lie in a
# fixed order.
set -eu
cd "$(dirname "$0")/.."
version=${1:?usage: tools/make_deb.sh VERSION FOLDER}
folder=$(mkdir -p "${2:?usage: tools/make_deb.sh VERSION FOLDER}" && cd "$2" && pwd)
program=crates/pargrep/out/pargrep
maintainer=${DEB_MAINTAINER:-Pargrep developers <developers@pargrep.example>}
changed=$(git log -1 --format=%ct 2>/dev/null || stat -c %Y CHANGELOG.md)
SOURCE_DATE_EPOCH=$changed
export SOURCE_DATE_EPOCH

test -x "$program" || { echo "pargrep: there is no $program yet: run make first" >&2; exit 1; }
command -v dpkg-deb >/dev/null 2>&1 || { echo "pargrep: dpkg-deb is missing: it comes with dpkg" >&2; exit 1; }
umask 022
root=$(mktemp -d)
chmod 755 "$root"
trap 'rm -rf "$root"' EXIT
documents=$root/usr/share/doc/pargrep

make -s install DESTDIR="$root" prefix=/usr zshdir=/usr/share/zsh/vendor-completions >/dev/null
strip --strip-all --remove-section=.comment --remove-section=.note "$root/usr/bin/pargrep"
mkdir -p "$documents" "$root/DEBIAN"
gzip -9n "$root/usr/share/man/man1/pargrep.1"
cp README.md "$documents/"
for document in ARCHITECTURE DECISIONS EDITORS GLOSSARY MANY-MACHINES PERFORMANCE PROOFS WRONG-BODIES; do
  gzip -9nc "docs/$document.md" >"$documents/$document.md.gz"
done
cat LICENSE-MIT - <<TEXT >"$documents/copyright"

Pargrep may be used under the license above or, at your option, under the Apache License, Version 2.0, whose text stands
in /usr/share/common-licenses/Apache-2.0.
TEXT
{
  echo "pargrep ($version) unstable; urgency=low"
  echo
  echo "  * See CHANGELOG.md in the source for what is new."
  echo
  echo " -- $maintainer  $(LC_ALL=C date -u -R -d "@$changed")"
} | gzip -9nc >"$documents/changelog.gz"
size=$(du -sk --apparent-size "$root/usr" | cut -f 1)
cat >"$root/DEBIAN/control" <<TEXT
Package: pargrep
Version: $version
Architecture: amd64
Maintainer: $maintainer
Installed-Size: $size
Depends: libc6 (>= 2.34)
Section: utils
Priority: optional
Description: grep whose output is proved, by several threads
 Prints the lines of files that match a POSIX basic or extended expression or
 a fixed string, with the options of GNU grep that scripts use. Its output, its
 status and its messages about files and patterns are proved to be those that
 the definitions of grep give, for any number of threads, and selecting lines
 takes linear time.
TEXT
(cd "$root" && find usr -type f | LC_ALL=C sort | xargs md5sum) >"$root/DEBIAN/md5sums"
find "$root" -depth -exec touch -h -d "@$changed" {} +
dpkg-deb --root-owner-group -Zxz --build "$root" "$folder/pargrep_${version}_amd64.deb"
