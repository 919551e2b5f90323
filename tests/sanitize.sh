#!/usr/bin/env bash
# Builds the program once more, from what its check keeps, with AddressSanitizer, and refuses each growth of memory
# (tests/crash/growths.py): there is no access to unallocated or freed memory, no double free, and no leak at the end.
# Use: sanitize.sh, with WORK in the environment for a directory that is kept; it needs a C compiler with AddressSanitizer's library
set -eu
top=$(cd "$(dirname "$0")/.." && pwd)
kit=$(dirname "$(rt doc)")
work=${WORK:-$(mktemp -d)}
[ -n "${WORK:-}" ] || trap 'rm -rf "$work"' EXIT
mkdir -p "$work"

"$top/tests/lib/module.sh" ocfexec "$work" --help < /dev/null
mapfile -t flags < <(sed -e 's/^module\.o$/ocfexec.o/' "$work/flags")
(cd "$work" && "$kit/toolchain/bin/clang" "${flags[@]}" -fsanitize=address -mllvm -force-attribute=sanitize_address)
cc -c -O1 -DLINKED -o "$work/growths.o" "$top/tests/shims/growths.c"
cc -fsanitize=address -static-libasan -Wl,--wrap=malloc,--wrap=calloc,--wrap=realloc -o "$work/ocfexec" "$work/ocfexec.o" \
    "$work/growths.o" "$kit/c/libos_c.a" "$kit/c/liblibc_c.a"
if ! nm "$work/ocfexec.o" | grep -c -e __asan_report_load -e __asan_load > "$work/looked_at"; then
    echo "sanitize.sh: no access of $work/ocfexec.o is looked at: no __asan_load among its names" >&2
    exit 1
fi
LINKED=1 TIME_LIMIT=0 "$top/tests/lib/one_by_one.py" --program "$work/ocfexec" "$top/tests/crash/growths.py"
