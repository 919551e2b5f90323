#!/bin/sh
# Shows why a start failed: with --log the agent's own output is next to its exit code. The example's agent is told to keep its state in a
# directory that is missing.
# Use: failed.sh [PROGRAM]
set -eu
program=$(realpath "$(command -v "${1:-ocfexec}")")
cd "$(dirname "$0")"
printf '%s\n' '{"op":"register","id":"web","provider":"example","type":"Dummy","params":{"state":"/nowhere/web"}}' \
    '{"op":"exec","id":"web","action":"start"}' '{"op":"drain"}' |
    "$program" run --memory --root "$PWD" --meta-variables --log - 2>&1
