#!/bin/sh
# Shows a cluster of three nodes on this machine while parts of it are killed: see README.md. It needs etcd (Debian: etcd-server), and ends
# by itself after about two minutes, with everything that it started.
# Use: examples/cluster/demo.sh [PROGRAM], after `make test` or `make install`
set -eu
here=$(dirname "$(realpath "$0")")
program=${1:-$here/../../crates/ocfexec/out/ocfexec}
[ -x "$program" ] || program=$(command -v ocfexec)
program=$(realpath "$program")
command -v etcd > /dev/null || { echo "demo.sh: no etcd here: apt-get install etcd-server" >&2; exit 77; }
folder=$(mktemp -d)
trap 'rm -rf "$folder"' EXIT
trap 'exit 1' TERM INT HUP
. "$here/world.sh"
in_world python3 "$here/demo.py" "$program" "$folder"
