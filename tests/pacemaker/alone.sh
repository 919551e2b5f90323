#!/bin/bash
# Runs a command in mount, process and network namespaces of its own, with EXECD in place of pacemaker-execd, or `real`, and with the helper
# of Pacemaker's suite beside it if HELPER, a file, is given. Use: [HELPER=FILE] alone.sh DIR EXECD COMMAND..
set -eu
if [ "$1" != --inside ]; then
    exec unshare -m -n -p -f --mount-proc --kill-child "$0" --inside "$@"
fi
dir=$2 execd=$3
shift 3
mount --make-rprivate /
mount -t tmpfs none /run
mount -t tmpfs none /dev/shm
ip link set lo up
mkdir -p /run/lock /run/crm /run/resource-agents "$dir/daemons"
chown hacluster:haclient /run/crm
chmod 750 /run/crm
cp -a /usr/lib/pacemaker/. "$dir/daemons/"
[ "$execd" = real ] || cp "$execd" "$dir/daemons/pacemaker-execd"
if [ -n "${HELPER:-}" ]; then
    cp "$HELPER" "$dir/daemons/"
    ln -sf /bin/true "$dir/daemons/cts-support"
fi
mount --bind "$dir/daemons" /usr/lib/pacemaker
export PATH=/usr/lib/pacemaker:/usr/sbin:/usr/bin:/sbin:/bin LC_ALL=C
"$@"
