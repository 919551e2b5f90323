#!/usr/bin/env bash
# Builds the trials of tests/trials once more, with the counters of AFL++: DIRECTORY/trials. The module that the kit's compiler made of the
# whole program, with its checks, is compiled again with the same flags, but optimised, and with the counters instead of AddressSanitizer.
# Its main is called again and again in one process (persist.c).
# Use: build.sh DIRECTORY; it needs the package afl++
set -eu
work=$(realpath "$1")
here=$(cd "$(dirname "$0")" && pwd)
made=$(dirname "$("$here/../trials/build.sh")")
kit=$(dirname "$(rt doc)")
counters=/usr/lib/afl/afl-compiler-rt.o

cp "$made/module.bc" "$work"
mapfile -t flags < <(sed -e 's/^module\.o$/trials.o/' -e 's/^-O0$/-O2/' -e '/^-fsanitize=address$/d' \
    -e "s#^--sysroot=.*#--sysroot=$kit/toolchain#" "$made/flags")
(cd "$work" && "$kit/toolchain/bin/clang" "${flags[@]}" -fsanitize-coverage=trace-pc-guard)
objcopy --redefine-sym main=trial_main "$work/trials.o"
cc -O1 -o "$work/trials" "$here/persist.c" "$work/trials.o" "$kit/c/libos_c.a" "$kit/c/liblibc_c.a" "$counters"
