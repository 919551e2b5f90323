#!/usr/bin/env bash
# Compiles the program, optimised, without proving it, into a directory, with the launcher of agents beside it: something to try within
# minutes. Its --version says that it is not proved. The compiler is a copy of the kit that keeps what it links.
# Use: program.sh DIRECTORY [CRATE]; with a crate its program alone, as of ocf_agents
set -euo pipefail
cd "$(dirname "$0")/.."
into=$(realpath -m "${1:?Use: program.sh DIRECTORY [CRATE]}") crate=${2:-ocfexec}
. tests/lib/kit.sh
work=$(mktemp -d)
trap 'rm -rf "$work"' EXIT

git ls-files -z --cached --others --exclude-standard crates crates.txt | xargs -0 cp --parents -t "$work"
sed -i 's/^\(pub const VERSION: &str = ".*\)";$/\1 (not proved)";/' "$work/crates/exec_options/src/texts.rt"
# (rt needs a repository)
git -C "$work" init --quiet
copy_kit "$work/kit"
keep_plain_program "$work/kit" "$work/program"
# the run of this build is of no interest: it ends at its first step
(cd "$work/crates/$crate" && "$work/kit/bin/rt" try --steps 1 -- --help > "$work/said" 2>&1) || true
[ -x "$work/program" ] || { cat "$work/said" >&2; exit 1; }
install -D "$work/program" "$into/$crate"
[ "$crate" = ocfexec ] || exit 0
launcher/build.sh "$into/ocfexec-run-agent"
"$into/ocfexec" --version
