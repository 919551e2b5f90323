"""A child process with pipes to its standard input and from its standard output."""
from __future__ import annotations

import fcntl
import os
import signal
from typing import Optional, Sequence

SET_PIPE_SIZE, PIPE_SIZE = getattr(fcntl, "F_SETPIPE_SZ", 1031), 1 << 20
# Signals with their default action in the program, because agents inherit them: those that a shell ignores for background commands, and
# those that Python ignores.
DEFAULTS = (signal.SIGINT, signal.SIGQUIT, signal.SIGCHLD, signal.SIGPIPE, signal.SIGXFSZ)


class Process:
    """A running program. `stdin` and `stdout` are raw files; what is written must fit, since the first does not block."""

    def __init__(self, command_line: Sequence[str], own_session: bool) -> None:
        ends = [*os.pipe()]
        try:
            ends += os.pipe()
            moves = [(os.POSIX_SPAWN_DUP2, ends[0], 0), (os.POSIX_SPAWN_DUP2, ends[3], 1)]
            # (no function of Python runs between fork and exec, so other threads are no danger)
            self.pid = os.posix_spawnp(command_line[0], list(command_line), os.environ, file_actions=moves, setsid=own_session,
                                       setsigmask=[], setsigdef=DEFAULTS)
        except BaseException:
            for end in ends:
                os.close(end)
            raise
        os.close(ends[0])
        os.close(ends[3])
        self.status: Optional[int] = None
        self.stdin, self.stdout = open(ends[1], "wb", buffering=0), open(ends[2], "rb", buffering=0)
        os.set_blocking(ends[1], False)
        os.set_blocking(ends[2], False)
        try:
            fcntl.fcntl(ends[2], SET_PIPE_SIZE, PIPE_SIZE)
        except OSError:
            pass  # the user has reached the system's limit for pipes: this one keeps its size

    def poll(self) -> Optional[int]:
        """The exit status, or minus the number of the signal that ended it; None while it runs."""
        if self.status is None:
            try:
                pid, status = os.waitpid(self.pid, os.WNOHANG)
                self.status = os.waitstatus_to_exitcode(status) if pid else None
            except ChildProcessError:
                self.status = 0  # this process ignores SIGCHLD, so the system has no status
        return self.status

    def kill(self) -> None:
        if self.poll() is None:
            os.kill(self.pid, signal.SIGKILL)

    def close(self) -> None:
        """Closes both pipes."""
        self.stdin.close()
        self.stdout.close()
