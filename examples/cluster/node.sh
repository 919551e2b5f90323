#!/bin/sh
# The first process of a node. It sets up the node's network, if it has one of its own, and starts the manager again whenever that ends. It
# adopts the orphaned processes. Use: node.sh ADDRESS|- COMMAND..
address=$1
shift
if [ "$address" != - ]; then
    ip link set lo up
    until ip link set eth0 up 2> /dev/null; do sleep 0.05; done
    ip address add "$address/24" dev eth0
fi
while :; do
    "$@"
    sleep 0.3
done
