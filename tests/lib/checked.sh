# Builds a program of a crate that is outside the gate, since nothing depends on it: compiled as by `rt try`, unproved and with checks, but
# optimised. So it stops at an index out of bounds, a sum that wraps, or a missing value; and at an access to unallocated memory. The same
# program without AddressSanitizer, which takes a quarter of the time, is beside it; with `plain` set only that one is built. Read by `.
# tests/lib/checked.sh`, at the top of the repository.
# shellcheck shell=bash
. tests/lib/apart.sh
. tests/lib/kit.sh

# The sum of all texts from which the program of a line is compiled. Use: sum_of_texts LINE
sum_of_texts() {
    local folder=tests/${1%%:*}
    {
        rt version
        cat "$folder/build.sh" tests/lib/checked.sh tests/lib/apart.sh tests/lib/kit.sh
        lines_with "$1"
        { echo "$folder" && folders_below "$1"; } | while IFS= read -r folder; do
            find "$folder/src" -type f -print0 | LC_ALL=C sort -z | xargs -0 sha256sum
        done
    } | sha256sum
}

# Compiles the program of a line in a copy, and runs it there with these arguments and no input, which has to be short. The program is the
# output of the kit's linker. Use: compile_checked LINE OUT [WORD..]
compile_checked() {
    local line=$1 out=$2 name=${1%%:*} copy
    shift 2
    copy=$(mktemp -d)
    # shellcheck disable=SC2064 # it is that directory
    trap "rm -rf '$copy'" EXIT
    mkdir "$copy/top"
    copy_crate "$line" "tests/$name" "$copy/top"
    copy_kit "$copy/kit"
    check_nothing "$copy/kit"
    if [ -n "${plain:-}" ]; then
        keep_plain_program "$copy/kit" "$copy/$name"
    else
        keep_both_programs "$copy/kit" "$copy" "$name"
    fi
    (cd "$copy/top/crates/$name" && "$copy/kit/bin/rt" try --steps 1 -- "$@" < /dev/null > "$copy/said" 2>&1) || true
    if [ ! -x "$copy/$name" ] || { [ -z "${plain:-}" ] && [ ! -x "$copy/plain" ]; }; then
        cat "$copy/said" >&2
        exit 1
    fi
    mv "$copy/$name" "$out"
    [ -n "${plain:-}" ] || mv "$copy/plain" "$copy/module.bc" "$copy/flags" "$out"
}

# Builds the program of a line, whose crate is in tests/NAME, as tests/NAME/out/NAME, and prints its path. Unless `plain` is set, beside it
# are the one without AddressSanitizer, as `plain`; module.bc, the whole program as the compiler passes it to its clang; and the flags.
# Nothing is compiled again from the same texts, and of two calls the second waits. Its run with these arguments has to be short.
# Use: build_checked LINE [WORD..]
build_checked() {
    local line=${1//$'\n   '/} out=$PWD/tests/${1%%:*}/out texts
    shift
    mkdir -p "$out"
    exec 9> "$out/lock"
    flock 9
    texts=$(sum_of_texts "$line")
    if [ "$(cat "$out/texts" 2> /dev/null)" != "$texts" ]; then
        rm -f "$out/texts"
        compile_checked "$line" "$out" "$@"
        # (a text may have changed meanwhile)
        [ "$(sum_of_texts "$line")" != "$texts" ] || echo "$texts" > "$out/texts"
    fi
    echo "$out/${line%%:*}"
}
