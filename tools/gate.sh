#!/usr/bin/env bash
# The gate: `rt ci`, then the wrong bodies whose stamps are missing or old, and then the checks of the programs that it has just built.
# Of `rt ci` a line for each crate is printed, and all lines about what was not proved; build/gate.log has all of them. The last line counts
# all three.
set -u
cd "$(dirname "$0")/.."
mkdir -p build
printed=$(mktemp)
trap 'rm -f "$printed"' EXIT

# The counts in the last line of what was printed. Use: read -r PASSED FAILED < <(counts)
counts() {
    tail -n 1 "$printed" | sed -n 's/^\([0-9]*\) passed, \([0-9]*\) failed$/\1 \2/p' | grep . || echo 0 1
}

# Of what `rt ci` prints, the last line about each crate, and all lines about one that is not proved. What comes after the proofs stays.
brief() {
    awk '
        /^== / { block = ""; inside = 1 }
        inside { block = block $0 "\n" }
        inside && /^rt: .* NOT PROVED$/ { printf "%s", block; inside = 0; fflush(); next }
        inside && /^rt: .* proved$/ { print; inside = 0; fflush(); next }
        !inside { print; fflush() }'
}

rt ci 2>&1 | tee build/gate.log | tee "$printed" | brief
[ "${PIPESTATUS[0]}" -eq 0 ] || exit 1
read -r proved _ < <(counts)

rm -f crates/ocfexec/out/gate
tools/wrong_bodies.py check 2>&1 | tee "$printed"
status=${PIPESTATUS[0]}
read -r refused missed < <(counts)
# what a package is built from: the commit, if nothing but the stamps differs from it, and the programs' sums
if [ "$status" -eq 0 ] && [ -z "$(git status --porcelain -- ':!mutants/tried' 2> /dev/null || echo none)" ]; then
    { git rev-parse HEAD && sha256sum crates/ocfexec/out/ocfexec crates/ocf_agents/out/ocf_agents; } > "$printed" &&
        cp "$printed" crates/ocfexec/out/gate
fi

tests/check.sh 2>&1 | tee "$printed"
[ "${PIPESTATUS[0]}" -eq 0 ] || status=1
read -r passed failed < <(counts)
echo "$((proved + refused + passed)) passed, $((missed + failed)) failed"
exit "$status"
