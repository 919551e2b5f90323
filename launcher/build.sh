#!/usr/bin/env bash
# Builds the launcher of agents, which the program looks for beside its own file. It is a static program of musl, if musl-gcc is installed
# (package musl-tools): each start waits for it, and that one takes less than half of the time. Else it is a static one of the compiler's C
# library, or a dynamic one where that has no static form. Without a C compiler it says so in one line and builds nothing: the program then
# uses setsid of util-linux. Use: build.sh FILE, with CC for the compiler
set -euo pipefail
source=$(dirname "$(realpath "$0")")/run_agent.c
into=${1:?Use: build.sh FILE}
mkdir -p "$(dirname "$into")"
trap 'rm -f "$into.new"' EXIT
found=
for compiler in ${CC:-musl-gcc cc}; do
    command -v "$compiler" > /dev/null || continue
    found=$compiler
    if "$compiler" -Os -static -o "$into.new" "$source" 2> /dev/null || "$compiler" -Os -o "$into.new" "$source"; then
        # (a launcher that is running is replaced, and not written to)
        mv "$into.new" "$into"
        exit 0
    fi
done
[ -z "$found" ] || exit 1
echo "launcher/build.sh: no C compiler: without ocfexec-run-agent the program runs agents by setsid" >&2
