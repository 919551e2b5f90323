#!/usr/bin/env bash
# Builds the Debian package of the Python library, and prints its file. deb.sh calls it. Use: python_deb.sh VERSION DEBIAN DIRECTORY, with
# the directory that has the files `control` and `copyright`, the one where the package is put, and the changelog on standard input
set -euo pipefail
cd "$(dirname "$0")/.."
version=$1 debian=$2 into=$3
root=$(mktemp -d)
trap 'rm -rf "$root"' EXIT
library=$root/usr/lib/python3/dist-packages/ocfexec
doc=$root/usr/share/doc/python3-ocfexec

install -d "$library" "$doc" "$root/DEBIAN"
install -m 644 python/ocfexec/*.py python/ocfexec/py.typed "$library"
install -m 644 "$debian/copyright" "$doc/copyright"
gzip -9n > "$doc/changelog.gz"
cat > "$root/DEBIAN/postinst" << 'SCRIPT'
#!/bin/sh
# Compiles the library.
set -e
if [ "$1" = configure ] && [ -z "$DPKG_ROOT" ] && command -v py3compile > /dev/null; then
    py3compile -p python3-ocfexec
fi
SCRIPT
cat > "$root/DEBIAN/prerm" << 'SCRIPT'
#!/bin/sh
# Removes what was compiled, by the installation or by a program that imported the library.
set -e
rm -rf "$DPKG_ROOT/usr/lib/python3/dist-packages/ocfexec/__pycache__"
SCRIPT
chmod 755 "$root/DEBIAN/postinst" "$root/DEBIAN/prerm"
(cd "$root" && find . -path ./DEBIAN -prune -o -type f -printf '%P\0' | sort -z | xargs -0 md5sum) > "$root/DEBIAN/md5sums"
{
    awk '!length { exit } /^(Maintainer|Priority):/' "$debian/control"
    awk -v version="$version" -v size="$(du -sk "$root" | cut -f 1)" '
        /^Package:/ { is_package = $2 == "python3-ocfexec" }
        is_package && /^Package:/ { print; print "Source: ocfexec"; next }
        is_package && /^Description:/ { print "Version: " version "\nInstalled-Size: " size }
        is_package && NF' "$debian/control"
} > "$root/DEBIAN/control"
find "$root" -type d -exec chmod 755 {} +
file=$into/python3-ocfexec_${version}_all.deb
dpkg-deb --root-owner-group --build "$root" "$file" > /dev/null
echo "$file"
