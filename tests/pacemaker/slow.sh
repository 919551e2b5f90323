# Shared code of the scripts that run the agent Slow on a cluster of one node; to be sourced.
# shellcheck shell=bash

# Makes the cluster start db, an instance of Slow with these parameters and operations, and waits until its start has begun.
# Use: start_db XML
start_db() {
    within 60 says 'Online: \[ n1 \]'
    crm_attribute -n stonith-enabled -v false
    crm_attribute -n start-failure-is-fatal -v true
    cat > /run/resources.xml << XML
<resources><primitive id="db" class="ocf" provider="test" type="Slow">$1</primitive></resources>
XML
    cibadmin -R -o resources --xml-file /run/resources.xml
    within 60 pgrep -f 'test/Slow start' > /dev/null
}

# The running processes of the start, whether the service really is up, and what the cluster shows, on one line.
state_of_db() {
    local truth=down
    [ ! -e /run/slow ] || truth=up
    echo "processes of the start: $(pgrep -f 'test/Slow start|: > /run/slow' | wc -l), in truth: $truth," \
        "$(crm_mon -1 -r 2> /dev/null | grep 'ocf:test:Slow' | tr -s ' \t' ' ')"
}

# The results that the controller got, each as `Result of OPERATION operation for db on n1: TEXT`.
results_of_db() {
    grep -o -E 'Result of [a-z]+ operation for db on n1: [^|]*' /var/log/pacemaker/pacemaker.log | sed 's/ *$//'
}
