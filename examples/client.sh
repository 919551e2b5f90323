#!/bin/sh
# Runs one resource through ocfexec for three seconds: registers and starts it, monitors it each second, withdraws its queued actions, and
# stops it. The commands go through one FIFO and the lines come back through another. Each line that comes is printed; the first one says
# that the executor is ready.
# Debian's agents need --meta-variables, or they take each monitor for a probe; --log - shows their output.
# Use: client.sh PROVIDER TYPE PARAMETER=VALUE ocfexec serve --memory --meta-variables --log -
set -eu
provider=$1 type=$2 parameter=${3%%=*} value=${3#*=}
shift 3
here=$(mktemp -d)
trap 'rm -rf "$here"' EXIT
trap '' PIPE
mkfifo "$here/commands" "$here/replies"
# a shell starts background commands with SIGINT and SIGQUIT ignored, and agents would inherit that
env --default-signal=INT,QUIT "$@" < "$here/commands" > "$here/replies" &
executor=$!
exec 3> "$here/commands" 4< "$here/replies"

# Prints lines up to one that begins with this text. A refusal ends the client.
await() {
    while IFS= read -r line <&4; do
        printf '%s\n' "$line"
        case $line in
            '{"error":'*) return 1 ;;
            "$1"*) return 0 ;;
        esac
    done
    echo "client.sh: the executor ended" >&2
    return 1
}
# Sends a command and waits for its reply. A notice begins with its action, and no reply to these commands does.
ask() {
    printf '%s\n' "$1" >&3
    await "$2"
}

await '{"dropped":'
ask "{\"op\":\"register\",\"id\":\"r1\",\"provider\":\"$provider\",\"type\":\"$type\",\"params\":{\"$parameter\":\"$value\"}}" '{"kind":"reply",'
ask '{"op":"exec","id":"r1","action":"start"}' '{"call":'
await '{"action":"start"'
ask '{"op":"recur","id":"r1","interval":1000}' '{"call":'
for _ in 1 2 3; do
    await '{"action":"monitor"'
done
ask '{"op":"cancel","id":"r1","interval":1000}' '{"kind":"reply",'
ask '{"op":"info","id":"r1"}' '{"failed":'
queued=${line##*'"queued":['}
for call in $(printf '%s' "${queued%%]*}" | tr , ' '); do
    # a withdrawal of an action that has begun meanwhile is refused, and the action ends by itself
    ask "{\"op\":\"withdraw\",\"id\":\"r1\",\"call\":$call}" '{"kind":"reply",' ||
        case $line in '{"error":"not-queued",'*) ;; *) exit 1 ;; esac
done
ask '{"op":"exec","id":"r1","action":"stop"}' '{"call":'
await '{"action":"stop"'
exec 3>&-
wait "$executor"
