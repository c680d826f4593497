#!/bin/sh
# Makes a release: a tarball of what install.sh puts below a folder, with the checksum of each file in it, the line of
# `rt version` and the commit, and the tarball's own checksum beside it. The same files give the same bytes.
#
# usage: sh release.sh [FOLDER]      the folder for the two files; this one where none is named
#
# To install a release: sha256sum -c NAME.tar.gz.sha256 && tar -xzf NAME.tar.gz -C PREFIX --strip-components=1
set -eu
top=$(cd "$(dirname "$0")" && pwd)
[ $# -le 1 ] || { echo 'usage: sh release.sh [FOLDER]' >&2; exit 2; }
to=${1-.}
[ -d "$to" ] || { echo "release.sh: there is no folder $to" >&2; exit 1; }
command -v rt > /dev/null || { echo 'release.sh: no rt on the path, whose version belongs into a release' >&2; exit 1; }
version=$(sed -n 's/^## \([^ ]*\).*/\1/p' "$top/CHANGELOG.md" | head -n 1)
name=warning_desk-$version-$(uname -s | tr '[:upper:]' '[:lower:]')-$(uname -m)
work=$(mktemp -d)
trap 'rm -rf "$work"' EXIT
sh "$top/install.sh" "$work/$name" > "$work/told" || exit
echo share/warning_desk/SHA256SUMS >> "$work/$name/share/warning_desk/FILES"
(cd "$work/$name" && find . -type f ! -name SHA256SUMS | LC_ALL=C sort | xargs -d '\n' sha256sum) > "$work/sums"
mv "$work/sums" "$work/$name/share/warning_desk/SHA256SUMS"
tar -C "$work" --sort=name --mtime=@0 --owner=0 --group=0 --numeric-owner -cf - "$name" | gzip -9n > "$work/$name.tar.gz"
(cd "$work" && sha256sum "$name.tar.gz") > "$work/$name.tar.gz.sha256"
mv "$work/$name.tar.gz" "$work/$name.tar.gz.sha256" "$to/"
cat "$work/$name/share/warning_desk/VERSION" "$to/$name.tar.gz.sha256"
