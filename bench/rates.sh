#!/usr/bin/env bash
# The rates of the benchmarks of bench/rates, and what each call of an index of due moments takes, of bench/index. Nothing stands on
# them, so they are no crates of the gate, and are proved when they are used: each as a crate of a copy that has the crates below it, by a
# gate there, which takes from this machine what it has proved of those. The programs are then bench/out/rates and bench/out/index;
# `bench/out/rates NAME ROUNDS` and `bench/out/index RESOURCES` run them again.
# Use: bench/rates.sh              proves and builds them, and prints each rate
#      bench/rates.sh --compile    only compiles them, unproved
set -euo pipefail
cd "$(dirname "$0")/.."
. tests/lib/apart.sh
lines='rates: ocf_types ocf_model disk_model gated_slots event_wire exec_state exec_journal ocf_env child_model executor test_support anyhow
index: ocf_types ocf_model recurring anyhow'
rounds='appends 20 events 20 state-reads 20 state-writes 20 triples 20 openings 1 tidies 4 waiting-turns 20 busy-turns 5
    resting-turns 20 lone-turns 20 due-turns 20 scans 20'
copies=$(mktemp -d)
trap 'rm -rf "$copies"' EXIT

# Only compiles the program of this name, in its copy; its run is cut off at once: 6 says so.
compile() {
    (cd "$copies/$1/crates/$1" && rt try --steps 1 --seconds 1) || [ $? -eq 6 ]
}

# Proves and builds it.
prove() {
    if ! (cd "$copies/$1" && rt ci > said 2>&1); then
        cat "$copies/$1/said"
        return 1
    fi
    mkdir -p bench/out
    cp "$copies/$1/crates/$1/out/$1" bench/out
}

while read -r line; do
    name=${line%%:*}
    mkdir "$copies/$name"
    copy_crate "$line" "bench/$name" "$copies/$name"
    if [ "${1:-}" = --compile ]; then compile "$name"; else prove "$name"; fi < /dev/null
done <<< "$lines"
[ "${1:-}" != --compile ] || exit 0

# shellcheck disable=SC2086 # pairs of words
printf '%s %s\n' $rounds | while read -r name count; do
    bench/out/rates "$name" "$count"
done
for resources in 100 10000 1000000; do
    echo "an index of $resources resources:"
    bench/out/index "$resources"
done
