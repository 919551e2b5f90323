#!/usr/bin/env bash
# Makes a release: writes its version into the program, the Python package, the program's check, the manual pages and the changelog, where it
# takes the place of Unreleased, and commits that with the tag vVERSION. A version is three numbers, and higher than each earlier release. So `--version` counts releases, and the version of a
# package also counts commits: a commit cannot contain its own hash, and a constant that changed with each commit would have the program
# proved anew each time.
# Use: release.sh VERSION
set -euo pipefail
cd "$(dirname "$0")/.."
. package/version.sh
version=${1:?Use: release.sh VERSION}
refuse() {
    echo "release.sh: $1" >&2
    exit 1
}
[[ $version =~ ^(0|[1-9][0-9]*)(\.(0|[1-9][0-9]*)){2}$ ]] || refuse "$version is not three numbers"
[ -z "$(git status --porcelain --untracked-files=no)" ] || refuse "something is not committed"
for earlier in "$(program_version HEAD)" $(releases HEAD); do
    is_above "$version" "$earlier" || refuse "$version is not above $earlier"
done
package/notes.sh Unreleased | grep -q '^- ' || refuse "the changelog has nothing under Unreleased"
sed -i "s/^\(pub const VERSION: &str = \"\).*\(\";\)\$/\1$version\2/" crates/exec_options/src/texts.rt
sed -i "s/^\(VERSION = \"\).*\"\$/\1$version\"/" tests/cli/words.py
sed -i "s/^\(\.TH OCF[A-Z-]* 8 [0-9-]* \"ocfexec \)[^\"]*/\1$version/" docs/ocfexec.8 docs/ocfctl.8 docs/ocfexec-client.8
sed -i "s/^## \[Unreleased\]\$/&\n\n## [$version] - $(date -u +%F)/" CHANGELOG.md
sed -i "s/^\(__version__ = \"\).*\"\$/\1$version\"/" python/ocfexec/__init__.py
git commit --quiet --message "Release $version" -- \
    CHANGELOG.md crates/exec_options/src/texts.rt python/ocfexec/__init__.py tests/cli/words.py docs/ocfexec.8 docs/ocfctl.8 docs/ocfexec-client.8
git tag --annotate --message "Release $version" "v$version"
