#!/bin/bash
# One node, n1, in a network namespace of its own, and SCRIPT on it. Use: one.sh DIR EXECD SCRIPT
set -eu
here=$(cd "$(dirname "$0")" && pwd)
cp "$here/one.conf" "$1/corosync.conf"
exec unshare -n sh -c 'ip link set lo up; exec "$@"' sh "$here/node.sh" "$1" n1 "$2" "$3"
