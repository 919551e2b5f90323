#!/usr/bin/env bash
# Compares ocfexec with pacemaker-execd on this machine, and both with the least that an executor has to do: a C program that
# starts agents and waits for them, and for the recorded form makes the writes and syncs of the same rows. All are
# asked in turn, round by round, and each number is the median of the rounds. It prints tables in Markdown.
#
# It installs nothing. It needs bash and a C compiler (apt-get install gcc libc6-dev); jq for the reading of commands;
# and for pacemaker-execd: apt-get install pacemaker pacemaker-dev pkg-config, and root, since the daemon wants it and gets
# a mount of its own in place of /usr/lib/ocf. Without these it says so and compares with the floor alone. Journals lie in
# a folder under TMPDIR, whose device is so measured. Where FIGURES names a file, each single figure is added to it, for plots.py.
# Use: against_execd.sh [PROGRAM [ROUNDS [PART..]]], where a part is rates, waits, answers, monitors or reading, and without
# any all of them run
set -eu
sources=$(cd "$(dirname "$0")" && pwd)
program=$(realpath "${1:-$sources/../crates/ocfexec/out/ocfexec}")
rounds=${2:-7}
parts=${*:3}
here=$(mktemp -d)
execd=''
trap 'stop_execd; rm -rf "$here"' EXIT

# How many starts of each resource there are in a round, by how many resources run at once.
declare -A depths=([1]=16 [16]=4 [64]=1 [256]=1)

# ---- What runs

compile() {
    if ! command -v cc > /dev/null; then
        echo "against_execd.sh: skipped: install a C compiler (apt-get install gcc libc6-dev)"
        exit 77
    fi
    mkdir -p "$here/root/resource.d/bench"
    cc -O2 -o "$here/root/resource.d/bench/Compiled" "$sources/agent.c"
    printf '#!/bin/sh\nexit 0\n' > "$here/root/resource.d/bench/Shell"
    chmod 755 "$here/root/resource.d/bench/Shell" "$here" "$here/root"
    cc -O2 -o "$here/ours" "$sources/load.c" "$sources/ours.c"
    cc -O2 -o "$here/floor" "$sources/load.c" "$sources/floor.c"
}

# Says why pacemaker-execd is not compared.
without_execd() {
    echo "pacemaker-execd is not compared: $1"
    echo
}

# Starts pacemaker-execd without a cluster, with no log, so that it has nothing to do but actions. Its agents are those of
# this script. Sets $execd to its process.
start_execd() {
    local daemon=/usr/lib/pacemaker/pacemaker-execd
    if [ ! -x "$daemon" ] || ! pkg-config --exists pacemaker-lrmd 2> /dev/null; then
        without_execd "apt-get install pacemaker pacemaker-dev pkg-config"
        return
    elif [ "$(id -u)" -ne 0 ] || ! unshare -m true 2> /dev/null; then
        without_execd "it needs root and a mount namespace"
        return
    elif pgrep -x pacemaker-execd > /dev/null; then
        without_execd "one runs on this machine already"
        return
    fi
    # shellcheck disable=SC2046 # words of the compiler
    cc -O2 -o "$here/execd" "$sources/load.c" "$sources/execd.c" $(pkg-config --cflags --libs pacemaker-lrmd)
    PCMK_logfile=none PCMK_logfacility=none unshare -m sh -c "mount --bind '$here/root' /usr/lib/ocf && exec $daemon" \
        > "$here/execd-log" 2>&1 &
    execd=$!
    for _ in $(seq 50); do
        ! grep -q '@lrmd' /proc/net/unix || return 0
        sleep 0.1
    done
    without_execd "it did not start: $(head -c 300 "$here/execd-log")"
    stop_execd
}

stop_execd() {
    [ -z "$execd" ] || kill "$execd" 2> /dev/null || true
    execd=''
}

# The words that start a load on a system. Use: load_of SYSTEM MODE AGENT WIDTH DEPTH WAIT STEP TO; sets $words
load_of() {
    local system=$1 file=$here/root/resource.d/bench/$3
    shift
    words=("$here/${system%%-*}" "$@")
    case $system in
        execd) words+=("$execd") ;;
        floor-memory) words+=("$file" -) ;;
        floor-journal) words+=("$file" "$here/floor-rows") ;;
        ours-memory) words+=("$program" serve --memory --root "$here/root") ;;
        ours-journal)
            rm -rf "$here/journal"
            mkdir "$here/journal"
            words+=("$program" serve --journal "$here/journal" --root "$here/root")
            ;;
        ours-drain)
            rm -rf "$here/drained"
            mkdir "$here/drained"
            words+=("$program" run --journal "$here/drained" --root "$here/root")
            ;;
    esac
}

# Starts a load that waits for its rounds. Use: open_load SYSTEM WORD..; adds to $inputs, $outputs and $loads
open_load() {
    local input output
    load_of "$@"
    mkfifo "$here/in" "$here/out"
    "${words[@]}" < "$here/in" > "$here/out" &
    loads+=($!)
    exec {input}> "$here/in" {output}< "$here/out"
    rm "$here/in" "$here/out"
    inputs[$1]=$input outputs[$1]=$output
}

# Ends the loads that are open.
close_loads() {
    local input
    for input in "${inputs[@]}"; do
        exec {input}>&-
    done
    for input in "${outputs[@]}"; do
        exec {input}<&-
    done
    wait "${loads[@]}"
    inputs=() outputs=() loads=()
}

# ---- Numbers

# The middle one of numbers, a line each.
median() {
    sort -g | awk '{ all[NR] = $1 } END { if (NR) print all[int((NR + 1) / 2)]; else print "-" }'
}

# A number with so many digits after the point, or what stands in its place. Use: rounded DIGITS
rounded() {
    awk -v digits="$1" '/^-$/ { print; next } { printf "%.*f\n", digits, $1 }'
}

# The number at a share of numbers, a line each. Use: at_share SHARE
at_share() {
    sort -g | awk -v share="$1" '{ all[NR] = $1 } END { n = int(NR * share); if (n < NR * share) n++; print all[n] }'
}

# Adds numbers, a line each, to the file of figures, if there is one: KIND SYSTEM AGENT WIDTH NUMBER. Use: figures KIND SYSTEM AGENT WIDTH
figures() {
    [ -z "${FIGURES-}" ] || awk -v of="$*" '{ print of, $1 }' >> "$FIGURES"
}

# The processor's time of this machine in all, what was stolen from it, and what it was idle, in ticks.
processor() {
    awk '/^cpu / { print $2 + $3 + $4 + $5 + $6 + $7 + $8 + $9, $9, $5 + $6 }' /proc/stat
}

# A column of the rounds of a system: actions a second, of the whole or of the drain alone; or milliseconds for each action, to
# record its command, or of the processor. Use: column rate|drained|recorded|spent AGENT WIDTH SYSTEM
column() {
    local file=$here/rounds-$2-$3-$4
    [ -e "$file" ] || return 0
    awk -v what="$1" -v actions=$(($3 * ${depths[$3]})) '
        what == "rate" { print actions / $1 }
        what == "recorded" { print ($1 - $2) * 1000 / actions }
        what == "drained" { print actions / $2 }
        what == "spent" { print $3 * 1000 / actions }' "$file"
}

# The median of the ratios of two columns, round by round. Use: ratio COLUMN AGENT WIDTH SYSTEM SYSTEM
ratio() {
    paste <(column "$1" "$2" "$3" "$4") <(column "$1" "$2" "$3" "$5") | awk 'NF == 2 { printf "%.2f\n", $1 / $2 }' | median
}

# ---- Rates

# All rounds of one agent with so many resources. Use: measure AGENT WIDTH
measure() {
    local -A inputs=() outputs=()
    local loads=() system line
    for system in "${systems[@]}"; do
        open_load "$system" rate "$1" "$2" "${depths[$2]}" 0 0 -
    done
    for _ in $(seq "$rounds"); do
        for system in "${systems[@]}"; do
            echo >&"${inputs[$system]}"
            read -r line <&"${outputs[$system]}"
            echo "$line" >> "$here/rounds-$1-$2-$system"
        done
    done
    close_loads
    for system in "${systems[@]}"; do
        column rate "$1" "$2" "$system" | figures rate "$system" "$1" "$2"
    done
}

# A table of medians, a row for each agent and width. Use: table_of COLUMN DIGITS
table_of() {
    local agent width system
    echo "| Agent | At once | pacemaker-execd | ocfexec, journal | ocfexec, memory | C floor |"
    echo "|---|---|---|---|---|---|"
    for agent in Shell Compiled; do
        for width in 1 16 64 256; do
            printf '| %s | %d' "$agent" "$width"
            for system in execd ours-journal ours-memory floor-memory; do
                printf ' | %s' "$(column "$1" "$agent" "$width" "$system" | median | rounded "$2")"
            done
            echo ' |'
        done
    done
    echo
}

ratios() {
    local agent width
    echo "| Agent | At once | journal : execd | memory : execd | memory : floor |"
    echo "|---|---|---|---|---|"
    for agent in Shell Compiled; do
        for width in 1 16 64 256; do
            echo "| $agent | $width | $(ratio rate $agent $width ours-journal execd) | $(ratio rate $agent $width ours-memory execd)" \
                "| $(ratio rate $agent $width ours-memory floor-memory) |"
        done
    done
    echo
}

# What the journal costs, in a run that drains: of the commands, which are recorded one by one, and of the drain, whose rows
# the floor writes too.
journals() {
    local agent width
    echo "| Agent | At once | a command recorded, ms | drain, actions a second | floor with rows | drain : floor with rows |"
    echo "|---|---|---|---|---|---|"
    for agent in Shell Compiled; do
        for width in 1 16 64 256; do
            printf '| %s | %d | %.1f | %.0f | %.0f | %s |\n' "$agent" "$width" \
                "$(column recorded "$agent" "$width" ours-drain | median)" \
                "$(column drained "$agent" "$width" ours-drain | median)" \
                "$(column drained "$agent" "$width" floor-journal | median)" \
                "$(ratio drained "$agent" "$width" ours-drain floor-journal)"
        done
    done
    echo
}

# ---- Waiting

# The share of a core that a system takes while so many agents sleep. Use: waiting SYSTEM WIDTH
waiting() {
    local words
    load_of "$1" idle Compiled "$2" 1 4500 0 -
    echo | "${words[@]}" | awk '{ printf "%.2f %%", $1 * 100 }'
}

# How long after its agent's last word an end is reported, in milliseconds, a line each: of one resource whose agents wait
# for 10 milliseconds, or of many whose agents end 4 milliseconds after one another. Use: late SYSTEM WIDTH
late() {
    local words
    rm -f "$here/to"
    if [ "$2" -eq 1 ]; then
        load_of "$1" ends Compiled 1 32 10 0 "$here/to"
        yes '' | head -n 5 | "${words[@]}" > "$here/reported"
    else
        load_of "$1" ends Compiled "$2" 1 1500 4 "$here/to"
        echo | "${words[@]}" > "$here/reported"
    fi
    awk 'NR == FNR { at[$1, ends[$1]++] = $2; next } { print ($2 - at[$1, reported[$1]++]) / 1e6 }' "$here/to" "$here/reported"
}

waits() {
    local system width
    echo "Waiting"
    echo
    echo "| Executor | Children | Waiting, of a core | An end reported after: median | 99th of 100 |"
    echo "|---|---|---|---|---|"
    for system in execd ours-memory; do
        [ "$system" != execd ] || [ -n "$execd" ] || continue
        for width in 1 256; do
            late "$system" "$width" > "$here/late"
            figures end "$system" Compiled "$width" < "$here/late"
            printf '| %s | %d | %s | %.2f ms | %.2f ms |\n' "$system" "$width" "$(waiting "$system" "$width")" \
                "$(median < "$here/late")" "$(at_share 0.99 < "$here/late")"
        done
    done
    echo
}

# ---- Answers

# How long a question waits for its answer while so many agents sleep.
answers() {
    local system words
    echo "Answers while 256 agents run"
    echo
    echo "| Executor | median | 99th of 100 |"
    echo "|---|---|---|"
    for system in execd ours-memory ours-journal; do
        [ "$system" != execd ] || [ -n "$execd" ] || continue
        load_of "$system" asks Compiled 256 1 6000 0 -
        echo | "${words[@]}" | awk '{ print $1 * 1000 }' > "$here/answered"
        figures answer "$system" Compiled 256 < "$here/answered"
        printf '| %s | %.3f ms | %.3f ms |\n' "$system" "$(median < "$here/answered")" "$(at_share 0.99 < "$here/answered")"
    done
    echo
}

# ---- Monitors

# Registrations of so many resources with so many monitors each, of this interval in milliseconds and the ones after it.
# Use: monitored WIDTH MONITORS INTERVAL
monitored() {
    local n monitor
    for ((n = 0; n < $1; n++)); do
        echo "{\"op\":\"register\",\"id\":\"r$n\",\"provider\":\"bench\",\"type\":\"Compiled\"}"
        for ((monitor = 0; monitor < $2; monitor++)); do
            echo "{\"op\":\"recur\",\"id\":\"r$n\",\"interval\":$(($3 + monitor))}"
        done
    done
}

# The share of a core of a run that serves and has nothing to do for ten seconds, with so many resources and monitors of an
# hour each, which have all run once. Use: resting WIDTH MONITORS
resting() {
    local fed began ended pid
    : > "$here/reported"
    mkfifo "$here/lines"
    "$program" serve --memory --root "$here/root" < "$here/lines" > "$here/reported" &
    pid=$!
    exec {fed}> "$here/lines"
    rm "$here/lines"
    monitored "$1" "$2" 3600000 >&"$fed"
    until [ "$(grep -c '"outcome"' "$here/reported")" -eq $(($1 * $2)) ]; do
        sleep 0.1
    done
    sleep 1
    began=$(cut -d ' ' -f 1 "/proc/$pid/schedstat")
    sleep 10
    ended=$(cut -d ' ' -f 1 "/proc/$pid/schedstat")
    exec {fed}>&-
    wait "$pid"
    awk -v spent=$((ended - began)) 'BEGIN { printf "%.3f %%", spent / 1e8 }'
}

# How many milliseconds after its due moment a monitor began, a line each: one resource with a monitor of 100 milliseconds,
# for ten seconds, with nothing else to do.
begun_late() {
    { monitored 1 1 100; sleep 10; } | "$program" serve --memory --root "$here/root" |
        awk -F '[:,}]' '/"outcome"/ {
            for (n = 1; n < NF; n++) { if ($n ~ /"since"/) since = $(n + 1); if ($n ~ /"at"/) at = $(n + 1) }
            if (last) print since - last - 100
            last = at }'
}

monitors() {
    echo "Monitors"
    echo
    begun_late > "$here/late"
    printf 'A monitor begins after its due moment: median %d ms, 99th of 100 %d ms, of %d.\n\n' "$(median < "$here/late")" \
        "$(at_share 0.99 < "$here/late")" "$(wc -l < "$here/late")"
    echo "| Resources | Monitors of each | Resting, of a core |"
    echo "|---|---|---|"
    echo "| 0 | 0 | $(resting 0 0) |"
    echo "| 256 | 8 | $(resting 256 8) |"
    echo
}

# ---- Reading

# Lines of commands. Use: lines_of KIND
lines_of() {
    case $1 in
        list) yes '{"op":"list"}' | head -n 100000 ;;
        exec)
            for n in $(seq 256); do echo "{\"op\":\"register\",\"id\":\"r$n\",\"provider\":\"bench\",\"type\":\"None\"}"; done
            for n in $(seq 256); do yes "{\"op\":\"exec\",\"id\":\"r$n\",\"action\":\"start\",\"timeout\":20000}" | head -n 32; done
            ;;
        register)
            yes '{"op":"register","id":"r1","provider":"bench","type":"None"}
{"op":"unregister","id":"r1"}' | head -n 40000
            ;;
    esac
}

# The processor seconds of a command on the lines. Use: spent_on COMMAND..
spent_on() {
    local TIMEFORMAT='%U %S'
    { time "$@" < "$here/lines" > "$here/replies" 2> /dev/null; } 2>&1 | awk '{ print $1 + $2 }'
}

reading() {
    local kind lines
    if ! command -v jq > /dev/null; then
        echo "The reading of commands is not compared: apt-get install jq"
        return
    fi
    echo "Reading commands"
    echo
    echo "| Commands | Lines | ocfexec, lines for each processor second | jq -c ., the same | ocfexec : jq |"
    echo "|---|---|---|---|---|"
    for kind in list exec register; do
        lines_of "$kind" > "$here/lines"
        lines=$(wc -l < "$here/lines")
        rm -f "$here/reads" "$here/jq-reads"
        for _ in $(seq "$rounds"); do
            spent_on "$program" run --memory >> "$here/reads"
            [ "$(grep -c '"ok":true' "$here/replies")" -eq "$lines" ] || { echo "a command of $kind was refused" >&2; exit 1; }
            spent_on jq -c . >> "$here/jq-reads"
        done
        paste "$here/reads" "$here/jq-reads" | awk '{ print $2 / $1 }' > "$here/ratios"
        awk -v kind="$kind" -v lines="$lines" -v ours="$(median < "$here/reads")" -v jq="$(median < "$here/jq-reads")" \
            -v ratio="$(median < "$here/ratios")" \
            'BEGIN { printf "| %s | %d | %.0f | %.0f | %.2f |\n", kind, lines, lines / ours, lines / jq, ratio }'
    done
    echo
}

# ---- All of it

rates() {
    local agent width
    for agent in Shell Compiled; do
        for width in 1 16 64 256; do
            measure "$agent" "$width"
        done
    done
    echo "Actions a second"
    echo
    table_of rate 0
    echo "Ratios of actions a second"
    echo
    ratios
    echo "With a journal, apart"
    echo
    journals
    echo "Processor milliseconds of the executor for each action"
    echo
    table_of spent 3
}

compile
began=$(date +%s)
read -r load_before _ < /proc/loadavg
read -r all stolen idle < <(processor)
start_execd
systems=(ours-journal ours-memory ours-drain floor-memory floor-journal)
[ -z "$execd" ] || systems=(execd "${systems[@]}")
for part in ${parts:-rates waits answers monitors reading}; do
    "$part"
done
read -r all_now stolen_now idle_now < <(processor)
share() {
    awk -v part="$1" -v all=$((all_now - all)) 'BEGIN { printf "%.1f %%", 100 * part / all }'
}
echo "$(date +%F), $(nproc) cores, $rounds rounds, $(($(date +%s) - began)) seconds. Of the processor's time" \
    "$(share $((stolen_now - stolen))) was stolen by the host and $(share $((idle_now - idle))) was idle;" \
    "the load before was $load_before, and at the end $(cut -d ' ' -f 1 /proc/loadavg)."
[ -z "${FIGURES-}" ] || echo "run $(date +%F) $(nproc) $rounds $load_before" >> "$FIGURES"
