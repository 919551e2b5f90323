#!/usr/bin/env bash
# Builds a Debian source package of a commit: its tree, with package/debian as debian/, and a version that counts commits, like that of
# package/deb.sh. `dpkg-buildpackage` builds the package from it on a machine with `rt`. It needs git and dpkg-dev.
# Use: source.sh [DIRECTORY [COMMIT]], with the directory where the package is put
set -euo pipefail
cd "$(dirname "$0")/.."
into=$(realpath "${1:-.}")
commit=$(git rev-parse "${2:-HEAD}^{commit}")
. package/version.sh
version=$(version_of "$commit")
work=$(mktemp -d)
trap 'rm -rf "$work"' EXIT

tree=$work/ocfexec-$version
mkdir "$tree"
git archive "$commit" | tar -xf - -C "$tree"
mv "$tree/package/debian" "$tree/debian"
echo "$commit" > "$tree/debian/commit"
changelog_of "$commit" > "$tree/debian/changelog"
(cd "$work" && dpkg-source --build "ocfexec-$version" > "$work/said" 2>&1) || { cat "$work/said" >&2; exit 1; }
mv "$work"/ocfexec_* "$into"
echo "$into/ocfexec_$version.dsc"
