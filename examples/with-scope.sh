#!/bin/sh
# Runs the start of a resource in a scope of systemd, so that the service has a control group of its own, and no part in the unit of the
# client: for `--via`. `systemctl status 'ocf-web-*'` shows it, and `systemctl set-property` limits it. Other actions run as they are.
[ "$2" = start ] || exec "$@"
exec systemd-run --quiet --scope --collect --unit="ocf-$OCF_RESOURCE_INSTANCE-$$" -- "$@"
