#!/usr/bin/env bash
# Builds the trials, tests/trials/src, with checks, and prints the path of the program, as tests/lib/checked.sh describes. That takes about
# four minutes of processor time if a text has changed, on two processors at once at its end.
# Use: build.sh
set -eu
cd "$(dirname "$0")/../.."
. tests/lib/checked.sh
build_checked 'trials: ocf_types ocf_model store_model disk_model file_disk gated_slots event_wire op_history recurring exec_state
    exec_journal ocf_env proc_files agents_file child_model agent_system agent_metadata child_keeper executor exec_commands exec_lines
    exec_options exec_replies exec_client session_machine exec_session exec_faults status_table status_report exec_host exec_program
    test_support linked_list_allocator anyhow clap' words
