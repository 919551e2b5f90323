"""The output of client.py: lines that never make it wait, and messages to systemd."""
from __future__ import annotations

import collections
import errno
import os
import socket
import threading
from typing import Deque, Optional

MOST = 1 << 20  # bytes that wait for a reader
INFO, ERROR = 6, 3  # priorities of messages in the system's journal: sd-daemon(3)


class Stream:
    """A file to which a thread writes lines. While its reader does not read, at most MOST bytes wait, and further lines are left out and
    counted; when the reader has gone, all are left out."""

    def __init__(self, descriptor: int) -> None:
        self.descriptor, self.left_out, self.is_gone = descriptor, 0, False
        self._lines: Deque[bytes] = collections.deque()
        self._bytes = 0
        self._changed = threading.Condition()
        self._writer: Optional[threading.Thread] = None

    def line(self, text: str) -> bool:
        """Takes a line. Returns whether it will be written."""
        data = text.encode(errors="replace") + b"\n"
        with self._changed:
            if self.is_gone or self._bytes + len(data) > MOST:
                self.left_out += 1
                return False
            self._lines.append(data)
            self._bytes += len(data)
            self._changed.notify_all()
        self._start()
        return True

    def _start(self) -> None:
        if self._writer is None:
            writer = threading.Thread(target=self._write_all, daemon=True)
            try:
                writer.start()
                self._writer = writer
            except RuntimeError:
                pass  # there is no free process at this moment: the next line tries again

    def _write_all(self) -> None:
        while True:
            with self._changed:
                self._changed.wait_for(lambda: self._lines)
                data = self._lines[0]
            is_gone = not self._write(data)
            with self._changed:
                self.is_gone |= is_gone
                self._lines.popleft()
                self._bytes -= len(data)
                self._changed.notify_all()

    def _write(self, data: bytes) -> bool:
        """Whether there still is a reader. A line that a full disk refuses is lost."""
        try:
            while data:
                data = data[os.write(self.descriptor, data):]
        except OSError as error:
            return error.errno not in (errno.EPIPE, errno.EBADF, errno.ECONNRESET)
        return True

    def end(self, seconds: float) -> None:
        """Waits at most this long until everything is written."""
        with self._changed:
            self._changed.wait_for(lambda: not self._lines, seconds)


class Output:
    """Results, as lines of JSON on standard output, and messages for people on standard error."""

    def __init__(self) -> None:
        for descriptor in range(3):
            try:
                os.fstat(descriptor)
            except OSError:  # it was closed by whoever started this program, and must not become another file
                os.open(os.devnull, os.O_RDWR)
        self.results, self.messages = Stream(1), Stream(2)
        self.is_said = False  # whether it was said that results are left out
        found = os.fstat(2)
        self.is_journal = os.environ.get("JOURNAL_STREAM") == f"{found.st_dev}:{found.st_ino}"

    def say(self, what: str, priority: int = INFO) -> None:
        """Prints a message, after the number of those before it that were left out; in the system's journal with its priority."""
        mark = f"<{priority}>" if self.is_journal else ""
        if self.messages.left_out and self.messages.line(f"{mark}client: {self.messages.left_out} lines were left out"):
            self.messages.left_out = 0
        self.messages.line(f"{mark}client: {what}")

    def result(self, text: str) -> None:
        """Prints a result. What its reader does not read is left out, which is said once, and counted when it reads again."""
        if self.results.line(text):
            if self.is_said and not self.results.is_gone:
                self.say(f"{self.results.left_out} results were not printed while nobody read them")
                self.is_said, self.results.left_out = False, 0
        elif not self.is_said:
            self.is_said = True
            self.say("results are not printed: " + ("their reader has gone" if self.results.is_gone else "their reader does not read"))

    def end(self) -> None:
        self.results.end(2)
        self.messages.end(2)


standard = Output()
say = standard.say


class Systemd:
    """Messages to systemd, if it started the client: sd_notify(3), and the watchdog of sd_watchdog_enabled(3)."""

    def __init__(self, output: Output) -> None:
        self.output, self.fault = output, ""
        self.path = os.environ.pop("NOTIFY_SOCKET", "")
        seconds = os.environ.pop("WATCHDOG_USEC", "")
        is_ours = os.environ.pop("WATCHDOG_PID", str(os.getpid())) == str(os.getpid())
        self.watchdog = int(seconds) / 1e6 if self.path and seconds.isdigit() and is_ours else None  # seconds, if it is enabled

    def notify(self, *lines: str) -> None:
        """Sends a message without waiting. A fault is said once, until a message succeeds."""
        if not self.path:
            return
        try:
            with socket.socket(socket.AF_UNIX, socket.SOCK_DGRAM | socket.SOCK_NONBLOCK) as to:
                to.sendto("\n".join(lines).encode(), "\0" + self.path[1:] if self.path.startswith("@") else self.path)
            self.fault = ""
        except OSError as error:
            if self.fault != str(error):
                self.fault = str(error)
                self.output.say(f"cannot notify systemd: {error.strerror}")

    def feed(self) -> None:
        """Feeds the watchdog."""
        if self.watchdog:
            self.notify("WATCHDOG=1")
