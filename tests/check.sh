#!/usr/bin/env bash
# The tests of the built programs: builds the missing programs and the launcher of agents, and runs the tests by pytest, several at once; if
# that is not installed, one by one. FAST=1 leaves out the slow ones, and JOBS=n runs n at once, instead of two for each processor.
# Use: check.sh [NAME..]; a NAME is that of a module, as serve, or of a directory, as cli
set -u
cd "$(dirname "$0")/.."
export PROGRAM=$PWD/crates/ocfexec/out/ocfexec
export AGENTS=$PWD/crates/ocf_agents/out/ocf_agents
export PYTHONDONTWRITEBYTECODE=1
if [ ! -x "$PROGRAM" ]; then
    (cd crates/ocfexec && rt run -- --help > /dev/null) || exit 1
fi
if [ ! -x "$AGENTS" ]; then
    (cd crates/ocf_agents && OCF_RESOURCE_TYPE=Dummy rt run -- meta-data > /dev/null) || exit 1
fi
# (it is built in no time, and a gate leaves none)
launcher/build.sh "$(dirname "$PROGRAM")/ocfexec-run-agent" || exit 1

all=(tests/{cli,journal,agents,crash,load,system,repository}) paths=()
for name; do
    name=${name%/}
    mapfile -t found < <(printf '%s\n' "${all[@]}" tests/*/*.py | grep -E "(^|/)${name#tests/}(\.py)?$")
    [ "${#found[@]}" -gt 0 ] || { echo "check.sh: there is no test or directory of the name $name" >&2; exit 1; }
    paths+=("${found[@]}")
done
[ $# -gt 0 ] || paths=("${all[@]}")

for python in python3 /usr/bin/python3 ""; do
    "$python" -c "import pytest, xdist" 2> /dev/null && break
done
if [ -z "$python" ]; then
    echo "check.sh: there is no pytest with xdist, so the tests run one by one;" \
        "to have it: apt-get install python3-pytest python3-pytest-xdist python3-jsonschema" >&2
    exec python3 tests/lib/one_by_one.py "${paths[@]}"
fi
counts=$(mktemp)
trap 'rm -f "$counts"' EXIT
status=0

# Runs the tests of these marks. Use: run_marked MARKS [WORD..]
run_marked() {
    "$python" -m pytest -v --durations=10 --counts="$counts" -m "$1${FAST:+ and not slow}" "${@:2}" "${paths[@]}"
    # (5: there are no such tests)
    case $? in 0 | 5) ;; *) status=1 ;; esac
}

run_marked "not alone" -n "${JOBS:-$((2 * $(nproc)))}"
run_marked alone
read -r passed failed < <(awk '{ passed += $1; failed += $2 } END { print passed + 0, failed + 0 }' "$counts")
# (something else than a test failed, or there is no test)
[ "$status" -eq 0 ] && [ "$passed" -gt 0 ] || [ "$failed" -gt 0 ] || failed=1
echo "$passed passed, $failed failed"
[ "$failed" -eq 0 ]
