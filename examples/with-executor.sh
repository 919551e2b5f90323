#!/bin/sh
# Runs an agent so that it ends with its executor: for `--via`. The system kills the agent with signal 9 when the executor ends, however
# that ends, so the next opening has no agent to wait for. The price: a running action is cut short, even if the executor was only
# restarted. Processes that the agent started live on; with the next executor the resource waits until those of its group have ended.
exec setpriv --pdeathsig KILL "$@"
