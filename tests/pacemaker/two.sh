#!/bin/bash
# Two nodes, n1 and n2, in network namespaces that a pair of veth connects; SCRIPT runs on n1. Use: two.sh DIR EXECD SCRIPT
set -eu
if [ "$1" != --inside ]; then
    exec unshare -m -n -p -f --mount-proc --kill-child "$0" --inside "$@"
fi
dir=$2 execd=$3 script=$4
here=$(cd "$(dirname "$0")" && pwd)
mount --make-rprivate /
mount -t tmpfs none /run
mkdir -p /run/lock
ip netns add a
ip netns add b
ip link add va netns a type veth peer name vb netns b
for one in a b; do
    ip -n $one link set lo up
    ip -n $one link set v$one up
done
ip -n a addr add 10.9.0.1/24 dev va
ip -n b addr add 10.9.0.2/24 dev vb
cp "$here/two.conf" "$dir/corosync.conf"
echo "until [ -e $dir/over ]; do sleep 0.2; done" > "$dir/wait.script"
ip netns exec b "$here/node.sh" "$dir" n2 "$execd" "$dir/wait.script" > "$dir/n2.out" 2>&1 &
ip netns exec a "$here/node.sh" "$dir" n1 "$execd" "$script"
touch "$dir/over"
wait
