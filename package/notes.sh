#!/bin/sh
# Prints what CHANGELOG.md has of a version: the notes of its release. Use: notes.sh VERSION
set -eu
cd "$(dirname "$0")/.."
awk -v head="## [$1]" 'index($0, "## [") == 1 { is_on = index($0, head) == 1; next } is_on' CHANGELOG.md
