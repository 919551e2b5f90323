#!/usr/bin/env bash
# Compiles a program's crate once more, from what its check keeps, runs it with these arguments and this standard input, and keeps what the
# kit's compiler passes to its clang: the whole program as DIRECTORY/module.bc, and the flags, one per line, as DIRECTORY/flags.
# Use: module.sh CRATE DIRECTORY [WORD..]
set -eu
crate=$1
work=$(realpath "$2")
shift 2
top=$(cd "$(dirname "$0")/../.." && pwd)
# shellcheck source-path=SCRIPTDIR
. "$top/tests/lib/kit.sh"

copy_kit "$work/kit"
keep_module "$work/kit" "$work"
rm -f "$work/module.bc" "$top/crates/$crate/out/$crate.stamp"
cd "$top/crates/$crate"
"$work/kit/bin/rt" run -- "$@" > /dev/null
