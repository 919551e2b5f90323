#!/bin/bash
# One-time monitors of an agent that only exits, one after another through Pacemaker's client library: by pacemaker-execd, and by the bridge
# over `PROGRAM serve` with a journal below TMPDIR and with one in memory, by turns, each in namespaces of its own and without a log. Prints
# a table in Markdown: each number is the median of the rounds. It has the needs of run.sh except the suite. TMPDIR must not be below /run
# or /dev/shm, which the namespaces have of their own.
# Use: rate.sh PROGRAM [ROUNDS [COUNT]]
set -eu
folder=$(cd "$(dirname "$0")" && pwd)
if [ "$1" = --inside ]; then
    mount --bind "$2/ocf" /usr/lib/ocf
    PCMK_logfile=none pacemaker-execd > /dev/null 2>&1 &
    for _ in {1..50}; do
        if "$2/rate" 1 bench Shell > /dev/null 2>&1; then break; fi
        sleep 0.1
    done
    "$2/rate" "$3" bench Shell
    kill %1
    wait || true
    exit
fi
program=$(realpath "$1")
rounds=${2:-7}
count=${3:-500}
here=$(mktemp -d)
trap 'rm -rf "$here"' EXIT
for word in /usr/lib/pacemaker/pacemaker-execd cc pkg-config ip; do
    if ! command -v "$word" > /dev/null; then
        echo "rate.sh: skipped: there is no $word"
        exit 77
    fi
done
make -s -C "$folder" OUT="$here"
mkdir -p "$here"/ocf/resource.d/bench "$here"/{real,memory,journal/parts}
printf '#!/bin/sh\nexit 0\n' > "$here/ocf/resource.d/bench/Shell"
chmod -R a+rX "$here"
chmod 755 "$here/ocf/resource.d/bench/Shell"
# How many milliseconds a write of 512 bytes takes with its sync, in the directory of the journal.
synced() {
    dd if=/dev/zero of="$here/journal/synced" bs=512 count=100 oflag=dsync conv=notrunc 2>&1 |
        sed -n 's/.*copied, \([0-9.e-]*\) s.*/\1/p' | awk '{ printf "%.2f\n", $1 * 10 }'
}
one_round() {
    "$folder/alone.sh" "$here/$1" "$2" "$folder/rate.sh" --inside "$here" "$count" >> "$here/$1.times"
}
for _ in $(seq "$rounds"); do
    one_round real real
    OCFEXEC="$program serve --journal $here/journal/parts" one_round journal "$here/bridge"
    OCFEXEC="$program serve --memory" one_round memory "$here/bridge"
    synced >> "$here/synced.times"
done
column() {
    cut -d ' ' -f "$2" "$here/$1.times" | sort -n | awk '{ all[NR] = $1 } END { print all[int((NR + 1) / 2)] }'
}
echo "| Executor | median | 99th of 100 | a second |"
echo "|---|---|---|---|"
row() {
    echo "| $2 | $(column "$1" 1) ms | $(column "$1" 2) ms | $(column "$1" 3) |"
}
row real pacemaker-execd
row journal "the bridge, journal"
row memory "the bridge, memory"
echo
echo "$(date +%F), $(nproc) cores, $rounds rounds of $count; a synced write took $(column synced 1) ms," \
    "and the load at the end was $(cut -d ' ' -f 1 /proc/loadavg)."
