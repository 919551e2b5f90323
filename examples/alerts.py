"""The alert agents of the resources of client.py: programs that are called at a failure, a recovery and when a resource is given up. They
get the variables CRM_alert_* that Pacemaker gives its alert agents, and OCFEXEC_alert, which is failure, recovery or given-up."""
from __future__ import annotations

import contextlib
import os
import signal
import socket
import subprocess
import time
from dataclasses import dataclass
from typing import Dict, List

from ocfexec import Result, __version__
from output import say

PATIENCE = 30.0  # seconds that an alert agent may take
MOST = 32  # agents that run at once
# Pacemaker's numbers of how an operation ended
STATUSES = {"done": 0, "cancelled": 1, "timed-out": 2, "not-started": 7}
ERROR = 4


def variables(result: Result, word: str, sequence: int) -> Dict[str, str]:
    """What an alert agent is told."""
    now = time.time()
    stamp, micros = time.strftime("%H:%M:%S", time.localtime(now)), int(now % 1 * 1e6)
    found = {"kind": "resource", "version": __version__, "node": socket.gethostname(), "node_sequence": sequence,
             "timestamp": f"{stamp}.{micros:06}", "timestamp_epoch": int(now), "timestamp_usec": micros, "rsc": result.id,
             "task": result.action, "interval": result.interval, "rc": result.code, "target_rc": result.expect or 0,
             "status": STATUSES.get(result.outcome, ERROR), "desc": result.name if result.outcome == "done" else result.outcome,
             "exec_time": max(0, result.at - result.since)}
    return {**{f"CRM_alert_{name}": str(value) for name, value in found.items()}, "OCFEXEC_alert": word}


@dataclass
class Call:
    """An alert agent that runs."""

    path: str
    run: subprocess.Popen[bytes]
    until: float


class Alerts:
    """The alert agents that run. None is waited for: one that takes too long is killed."""

    def __init__(self) -> None:
        self._sequence = 0
        self._running: List[Call] = []

    def send(self, path: str, word: str, result: Result) -> None:
        """Calls an alert agent."""
        self.poll()
        if len(self._running) >= MOST:
            return say(f"{path} is not called about {result.id}: {MOST} alert agents run already")
        self._sequence += 1
        try:
            run = subprocess.Popen([path], stdin=subprocess.DEVNULL, stdout=subprocess.DEVNULL, start_new_session=True,
                                   env={**os.environ, **variables(result, word, self._sequence)})
        except OSError as error:
            return say(f"{path} cannot be called about {result.id}: {error.strerror}")
        self._running.append(Call(path, run, time.monotonic() + PATIENCE))
        return None

    def poll(self) -> None:
        """Takes leave of the agents that have ended, and kills those that take too long."""
        for call in self._running:
            if call.run.poll() is None and call.until <= time.monotonic():
                say(f"{call.path} took longer than {PATIENCE:g} s, and is killed")
                with contextlib.suppress(OSError):
                    os.killpg(call.run.pid, signal.SIGKILL)
                call.run.kill()
        self._running = [call for call in self._running if call.run.poll() is None]
