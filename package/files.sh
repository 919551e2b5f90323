#!/usr/bin/env bash
# Writes the files of a release into a directory: the Debian packages of the programs that the gate proved, the Debian source package, the
# tree as an archive, the notes, and the sums of all. Use: files.sh [DIRECTORY], by default out/VERSION
set -euo pipefail
cd "$(dirname "$0")/.."
. package/version.sh
version=$(program_version HEAD)
into=$(realpath -m "${1:-out/$version}")
[ ! -e "$into" ] || { echo "files.sh: $into is there already" >&2; exit 1; }
mkdir -p "$into"
package/deb.sh "$into" > /dev/null
package/source.sh "$into" > /dev/null
git archive --format=tar --prefix="ocfexec-$version/" HEAD | gzip -9n > "$into/ocfexec-$version.tar.gz"
package/notes.sh "$version" > "$into/NOTES.md"
[ -s "$into/NOTES.md" ] || package/notes.sh Unreleased > "$into/NOTES.md"
(cd "$into" && sha256sum -- * > SHA256SUMS)
echo "$into"
