#!/usr/bin/env bash
# Builds the player of scenarios, tests/scenarios/src, with checks, and prints the path of the program, as tests/lib/checked.sh describes.
# That takes a minute and a half of processor time if a text has changed.
# Use: build.sh
set -eu
cd "$(dirname "$0")/../.."
. tests/lib/checked.sh
# shellcheck disable=SC2034 # the thousands of scenarios would take four times as long with AddressSanitizer, which the trials have
plain=yes
build_checked 'scenarios: ocf_types ocf_model store_model disk_model event_wire exec_state exec_journal ocf_codes ocf_env child_model
    test_support executor exec_commands exec_replies exec_faults status_report test_stores hex anyhow'
