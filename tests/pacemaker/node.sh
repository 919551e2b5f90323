#!/bin/bash
# A cluster node in mount, process and host name namespaces of its own, and in the network namespace in which it is started: corosync,
# Pacemaker with EXECD in place of pacemaker-execd, or `real`, and SCRIPT while they run. All its files are below DIR/NAME.
# Use: node.sh DIR NAME EXECD SCRIPT
set -eu
if [ "$1" != --inside ]; then
    exec unshare -m -p -u -f --mount-proc --kill-child "$0" --inside "$@"
fi
top=$2 name=$3 execd=$4 script=$5
dir=$top/$name
mount --make-rprivate /
hostname "$name"
mount -t tmpfs none /run
mount -t tmpfs none /dev/shm
mkdir -p /run/lock /run/crm /run/resource-agents "$dir"/{daemons,pacemaker,corosync,etc,log,ocf,journal}
chown hacluster:haclient /run/crm "$dir/log"
chmod 750 /run/crm
cp -a /usr/lib/pacemaker/. "$dir/daemons/"
[ "$execd" = real ] || cp "$execd" "$dir/daemons/pacemaker-execd"
cp -a /var/lib/pacemaker/. "$dir/pacemaker/"
chown --reference=/var/lib/pacemaker "$dir/pacemaker"
cp -a /etc/corosync/. "$dir/etc/"
cp "$top/corosync.conf" "$dir/etc/"
cp -a /usr/lib/ocf/. "$dir/ocf/"
mkdir -p "$dir/ocf/resource.d/test"
cp "$(dirname "$0")/Slow" "$dir/ocf/resource.d/test/"
mount --bind "$dir/daemons" /usr/lib/pacemaker
mount --bind "$dir/pacemaker" /var/lib/pacemaker
mount --bind "$dir/corosync" /var/lib/corosync
mount --bind "$dir/log" /var/log/pacemaker
mount --bind "$dir/etc" /etc/corosync
mount --bind "$dir/ocf" /usr/lib/ocf
export PATH=/usr/sbin:/usr/bin:/sbin:/bin LC_ALL=C PCMK_logfile=/var/log/pacemaker/pacemaker.log PCMK_logpriority=info
export OCFEXEC="$PROGRAM serve --journal $dir/journal --meta-variables --log $dir/agents.log"
corosync -f > "$dir/corosync.out" 2>&1 &
for _ in {1..100}; do
    if corosync-quorumtool -s > /dev/null 2>&1; then break; fi
    sleep 0.1
done
pacemakerd -f > "$dir/pacemakerd.out" 2>&1 &
pacemaker=$!

# Waits until a command succeeds, for at most this many seconds. Use: within SECONDS COMMAND..
within() {
    local ends=$((SECONDS + $1))
    shift
    until "$@"; do
        [ "$SECONDS" -lt "$ends" ] || return 1
        sleep 0.2
    done
}
# Whether the cluster shows this. Use: says PATTERN
says() {
    crm_mon -1 -r 2> /dev/null | grep -q -e "$1"
}
# The process of pacemaker-execd, or of the bridge; and its child, the executor.
execd_process() {
    pgrep -P "$pacemaker" -f pacemaker-execd
}
source "$script"
kill "$pacemaker"
wait "$pacemaker" || true
