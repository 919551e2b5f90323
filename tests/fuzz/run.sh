#!/usr/bin/env bash
# Fuzzes each reader of tests/trials, guided by its coverage, two at a time, and prints the findings. Inputs that crash, hang or fail are
# kept in the work directory; with KEEP=1 a smallest set of inputs with the same coverage goes to tests/fuzz/corpus.
# Use: run.sh SECONDS [READER..]; it needs the package afl++
set -eu
here=$(cd "$(dirname "$0")" && pwd)
seconds=${1:?how many seconds for each reader}
shift
readers=("$@")
[ ${#readers[@]} -gt 0 ] || readers=(command event state pair words lines)
work=${WORK:-$(mktemp -d)}
export AFL_NO_UI=1 AFL_NO_AFFINITY=1 AFL_SKIP_CPUFREQ=1 AFL_I_DONT_CARE_ABOUT_MISSING_CRASHES=1 AFL_TESTCACHE_SIZE=10
# a trial that fails ends with 1
export AFL_CRASH_EXITCODE=1

command -v afl-fuzz > /dev/null || { echo "the package afl++ is wanted" >&2; exit 77; }
[ -x "$work/trials" ] || "$here/build.sh" "$work"
mkdir -p "$work/out"
python3 -B "$here/seeds.py" "$work/seeds"

# The initial inputs: the seeds and those that earlier runs kept.
begin() {
    mkdir -p "$work/in/$1"
    cp "$work/seeds/$1/"* "$work/in/$1/"
    if [ -d "$here/corpus/$1" ]; then cp "$here/corpus/$1/"* "$work/in/$1/"; fi
}

fuzz() {
    begin "$1"
    words=()
    if [ -f "$here/$1.dict" ]; then words=(-x "$here/$1.dict"); fi
    nice -n 19 afl-fuzz -i "$work/in/$1" -o "$work/out/$1" -V "$seconds" -t 2000 -G 8192 "${words[@]}" -- "$work/trials" "$1" \
        > "$work/$1.log" 2>&1 || true
}

# The smallest set of inputs with the coverage of all of them.
keep() {
    rm -rf "$here/corpus/$1" "$work/least/$1"
    mkdir -p "$here/corpus" "$work/least"
    nice -n 19 afl-cmin -i "$work/out/$1/default/queue" -o "$work/least/$1" -t 2000 -- "$work/trials" "$1" > "$work/$1.cmin.log" 2>&1
    mkdir "$here/corpus/$1"
    for file in "$work/least/$1"/*; do
        cp "$file" "$here/corpus/$1/$(sha256sum "$file" | cut -c 1-12)"
    done
}

printf '%s\n' "${readers[@]}" > "$work/readers"
running=0
for reader in "${readers[@]}"; do
    if [ "$running" -ge 2 ]; then wait -n; running=1; fi
    fuzz "$reader" &
    running=$((running + 1))
done
wait
bad=0
for reader in "${readers[@]}"; do
    of() { sed -n "s/^$1 *: //p" "$work/out/$reader/default/fuzzer_stats"; }
    echo "$reader: $(of execs_done) runs in $(of run_time) s, $(of corpus_count) inputs, $(of edges_found) of $(of total_edges) places," \
        "$(of saved_crashes) failures, $(of saved_hangs) hangs"
    [ "$(of saved_crashes)" = 0 ] && [ "$(of saved_hangs)" = 0 ] || bad=1
    if [ -n "${KEEP:-}" ]; then keep "$reader"; fi
done
[ "$bad" -eq 0 ] || { echo "what failed is in $work/out" >&2; exit 1; }
