#!/bin/sh
# Shows what a crash of the executor loses, which is nothing: two services are started, the executor is killed while the second one starts,
# and opened again. For comparison a shell loop does the same. It takes three seconds, and leaves nothing.
# Use: examples/crash.sh [PROGRAM], after `make test` or `make install`
set -eu
program=${1:-$(dirname "$0")/../crates/ocfexec/out/ocfexec}
[ -x "$program" ] || program=$(command -v ocfexec)
here=$(mktemp -d)
trap 'rm -rf "$here"' EXIT
mkdir -p "$here/root/resource.d/demo" "$here/journal"

# An agent that takes a second to start a database, and no time for anything else.
cat > "$here/root/resource.d/demo/Service" <<'AGENT'
case $OCF_RESOURCE_INSTANCE in db*) sleep 1 ;; esac
echo "$OCF_RESOURCE_INSTANCE $1" >> "$OCF_RESKEY_log"
AGENT

say() {
    printf '\n== %s\n' "$1"
}

# Waits until this text is in the file, and then kills the process that writes it. Use: kill_after TEXT FILE PID
kill_after() {
    until grep -q -s -e "$1" "$2" || ! kill -0 "$3"; do
        sleep 0.05
    done
    kill -9 "$3"
    wait "$3" 2> "$here/killed" || true
}

# the program on the journal
set -- "$program" run --journal "$here/journal" --root "$here/root" --via sh

say "An executor starts web and db, and has db's promotion queued. It is killed as soon as web is up."
mkfifo "$here/in"
# a shell starts background commands with SIGINT and SIGQUIT ignored, and agents would inherit that
env --default-signal=INT,QUIT "$@" < "$here/in" > "$here/out" &
pid=$!
exec 3> "$here/in"
for id in web db; do
    echo "{\"op\":\"register\",\"id\":\"$id\",\"provider\":\"demo\",\"type\":\"Service\",\"params\":{\"log\":\"$here/log\"}}"
    echo "{\"op\":\"exec\",\"id\":\"$id\",\"action\":\"start\"}"
done >&3
echo '{"op":"exec","id":"db","action":"promote"}' >&3
echo '{"op":"drain"}' >&3
kill_after '"outcome"' "$here/out" "$pid"
exec 3>&-
cat "$here/out"

say "Opened again, it reports: db's start was interrupted, so db may run or not; the promotion never began."
"$@" < /dev/null 2> "$here/waits"
cat "$here/waits"

say "A second opening has nothing to report. What it knows of each:"
printf '%s\n' '{"op":"history","id":"web"}' '{"op":"history","id":"db"}' | "$@" 2> "$here/waits"

say "So a cluster manager stops db before it starts it anywhere else. Meanwhile the agent that was under way has ended:"
sleep 1.2
cat "$here/log"

say "The same by a loop of the shell, killed likewise:"
cat > "$here/loop" <<'LOOP'
for id in web db; do
    OCF_RESOURCE_INSTANCE=$id OCF_RESKEY_log=$1/log sh "$1/root/resource.d/demo/Service" start && echo "$id started" >> "$1/status"
done
LOOP
sh "$here/loop" "$here" 2> "$here/unheard" &
kill_after "web started" "$here/status" $!
cat "$here/status"
echo "(nothing of db: whoever reads this starts db a second time, here or on another node, while the first one starts)"
