"""The control socket of client.py: the programs that are connected, their lines, and what is written to them. Nothing here waits."""
from __future__ import annotations

import collections
import contextlib
import errno
import grp
import json
import os
import select
import socket
import struct
from typing import Any, Callable, Deque, Dict, Iterator, List, Optional, Tuple

from output import say

MOST_LINE = 131072  # bytes of a line, as for the executor
MOST_UNREAD = 16 << 20  # bytes that wait for a program before it is cut off
MOST_PROGRAMS = 64  # at once; half of them may be such as only ask
# lines of one program that are taken at a time, and commands of it that the executor has not answered yet
TAKEN, WINDOW = 16, 64
PIECE = 65536
Line = Dict[str, Any]


class Program:
    """A program that is connected. It may change something if it runs as root or as the client's own user; others only ask."""

    def __init__(self, connection: socket.socket) -> None:
        connection.setblocking(False)
        self.socket = connection
        self.number = connection.fileno()
        self.pid, self.uid, _ = struct.unpack("3i", connection.getsockopt(socket.SOL_SOCKET, socket.SO_PEERCRED, struct.calcsize("3i")))
        self.may_change = self.uid in (0, os.geteuid())
        self.wants_events = self.is_gone = self.is_cut_off = self.has_ended = self.is_deaf = False
        self.unanswered = 0  # lines to which something is still to be written
        self.incoming = bytearray()
        self.lines: Deque[bytes] = collections.deque()
        self._outgoing: Deque[bytes] = collections.deque()
        self._unread = 0

    def send(self, value: Line) -> None:
        """Adds a line to what is written; one for which too much waits already cuts the program off."""
        if self.is_gone or self.is_cut_off or self.is_deaf:
            return
        data = json.dumps(value, separators=(",", ":"), sort_keys=True).encode() + b"\n"
        self._outgoing.append(data)
        self._unread += len(data)
        if self._unread > MOST_UNREAD:
            self._cut_off()

    def _cut_off(self) -> None:
        """Leaves out all that was not written, and says so in the last line."""
        self.is_cut_off = True
        begun = self._outgoing.popleft()
        text = f"{MOST_UNREAD >> 20} MiB were not read: {len(self._outgoing)} lines are left out, and this one is the last"
        self._outgoing = collections.deque([begun, json.dumps({"error": "slow", "kind": "trouble", "message": text}).encode() + b"\n"])
        self._unread = sum(map(len, self._outgoing))
        self.lines.clear()
        say(f"process {self.pid} does not read from the control socket, and is cut off")

    def events(self) -> int:
        """What to wait for."""
        reads = len(self.lines) < TAKEN and self.unanswered < WINDOW and not self.has_ended and not self.is_cut_off
        return (select.EPOLLIN if reads else 0) | (select.EPOLLOUT if self._outgoing else 0)

    def hang_up(self) -> None:
        """Reads what is left of a program that has gone; nothing more is written to it."""
        while not self.has_ended and not self.is_gone:
            self.read()
        self._outgoing.clear()
        self.is_deaf = True

    def write(self) -> None:
        """Writes what fits. One that was cut off is left once it has read its last line, and one that has ended its lines once all is
        answered."""
        try:
            while self._outgoing:
                data = self._outgoing[0]
                count = self.socket.send(data)
                self._unread -= count
                if count == len(data):
                    self._outgoing.popleft()
                else:
                    self._outgoing[0] = data[count:]
        except BlockingIOError:
            return
        except OSError:
            self.is_gone = True
        if self.is_cut_off or self.has_ended and not self.unanswered and not self.lines:
            self.is_gone = True

    def read(self) -> None:
        """Reads one piece, and finds its lines."""
        try:
            piece = self.socket.recv(PIECE)
        except BlockingIOError:
            return
        except OSError:
            self.is_gone = True
            return
        if not piece:
            self.has_ended = True
            return
        self.incoming += piece
        *lines, self.incoming = self.incoming.split(b"\n")
        self.lines.extend(bytes(line) for line in lines if line.strip())
        if len(self.incoming) > MOST_LINE:
            self.refuse("syntax", f"a line has at most {MOST_LINE} bytes", number=1)
            self.has_ended, self.incoming = True, bytearray()

    def close(self) -> None:
        """Closes the connection. What was not read is taken out first, or the program would find an error in place of the end."""
        self.is_gone = True
        with contextlib.suppress(OSError):
            for _ in range(MOST_UNREAD // PIECE):
                if not self.socket.recv(PIECE):
                    break
        self.socket.close()

    def refuse(self, word: str, message: str, **more: Any) -> None:
        self.send({"error": word, "kind": "reply", "message": message, **more})


class Control:
    """The socket and its programs. `waits` is a descriptor that is readable while there is something to do for it, or for `wake`."""

    def __init__(self, path: Optional[str], group: str, wake: int) -> None:
        self.path, self.group = path, group
        self._poll = select.epoll()
        self.waits = self._poll.fileno()
        self._poll.register(wake, select.EPOLLIN)
        self._listener: Optional[socket.socket] = None
        self._fault = ""
        self._spare = os.open(os.devnull, os.O_RDONLY)  # a file to close when no other is free
        self._programs: Dict[int, Program] = {}
        self._events: Dict[int, int] = {}

    def open(self) -> None:
        """Listens, unless it does already. What prevents that is said: the client keeps its resources without it."""
        if self.path is None or self._listener is not None:
            return
        try:
            self._listener = self._listening(self.path)
            self._poll.register(self._listener, select.EPOLLIN)
            self._fault = ""
        except OSError as error:
            if self._fault != str(error):
                self._fault = str(error)
                say(f"nobody can operate the client by {self.path}: {error.strerror or error}")

    def _listening(self, path: str) -> socket.socket:
        """The socket, in place of one that nobody listens to. Root and the group may connect."""
        with socket.socket(socket.AF_UNIX, socket.SOCK_STREAM | socket.SOCK_NONBLOCK) as other:
            if other.connect_ex(path) not in (errno.ENOENT, errno.ECONNREFUSED):
                raise OSError(errno.EADDRINUSE, os.strerror(errno.EADDRINUSE))
        with contextlib.suppress(FileNotFoundError):
            os.unlink(path)
        found = socket.socket(socket.AF_UNIX, socket.SOCK_STREAM | socket.SOCK_NONBLOCK)
        before = os.umask(0o177)
        try:
            found.bind(path)
        except BaseException:
            found.close()
            raise
        finally:
            os.umask(before)
        with contextlib.suppress(KeyError, PermissionError):
            os.chown(path, -1, grp.getgrnam(self.group).gr_gid)
            os.chmod(path, 0o660)
        found.listen(64)
        return found

    def close(self) -> None:
        """Writes what fits, and ends."""
        self.flush()
        for program in self._programs.values():
            program.close()
        if self._listener is not None and self.path is not None:
            self._listener.close()
            with contextlib.suppress(OSError):
                os.unlink(self.path)

    # Input and output

    def receive(self) -> None:
        """Accepts and reads what has come."""
        for number, events in self._poll.poll(0):
            if self._listener is not None and number == self._listener.fileno():
                self._accept()
            elif number in self._programs:
                self._hear(self._programs[number], events)

    def flush(self) -> None:
        """Writes what fits, and leaves the programs with which all is done."""
        for program in self._programs.values():
            program.write()
        for program in [one for one in self._programs.values() if one.is_gone]:
            self._drop(program)
        self._watch()

    def _hear(self, program: Program, events: int) -> None:
        if events & (select.EPOLLHUP | select.EPOLLERR):
            program.hang_up()
            self._poll.unregister(program.number)
            del self._events[program.number]
        elif program.events() & select.EPOLLIN:
            program.read()

    def _watch(self) -> None:
        """Waits for each program as it is now."""
        for number, program in self._programs.items():
            events = program.events()
            if self._events.get(number, events) != events:
                self._poll.modify(number, events)
                self._events[number] = events

    def _accept(self) -> None:
        try:
            connection = self._listener.accept()[0] if self._listener else None
        except OSError as error:
            return self._turn_away() if error.errno in (errno.EMFILE, errno.ENFILE) else None
        if connection is None:
            return None
        try:
            program = Program(connection)
        except OSError:
            return connection.close()
        most = MOST_PROGRAMS if program.may_change else MOST_PROGRAMS // 2
        if sum(1 for one in self._programs.values() if one.may_change or not program.may_change) >= most:
            program.refuse("busy", f"{most} programs are connected")
            program.write()
            return program.close()
        self._programs[program.number] = program
        self._events[program.number] = program.events()
        self._poll.register(program.number, program.events())
        return None

    def _turn_away(self) -> None:
        """Ends a connection for which there is no free file, so that it is not accepted again and again."""
        os.close(self._spare)
        with contextlib.suppress(OSError):
            if self._listener:
                self._listener.accept()[0].close()
        self._spare = os.open(os.devnull, os.O_RDONLY)

    def _drop(self, program: Program) -> None:
        if self._events.pop(program.number, None) is not None:
            self._poll.unregister(program.number)
        program.close()
        del self._programs[program.number]

    # Lines

    def lines(self, takes: Callable[[bytes], bool] = bool) -> List[Tuple[Program, bytes]]:
        """Some lines of each program, those of each in their order, up to one that is not to be taken now."""
        found = []
        for program in self._programs.values():
            left = min(TAKEN, WINDOW - program.unanswered)
            while left > 0 and program.lines and takes(program.lines[0]):
                found.append((program, program.lines.popleft()))
                left -= 1
        return found

    def has_lines(self) -> bool:
        """Whether `lines` finds one."""
        return any(program.lines and program.unanswered < WINDOW for program in self._programs.values())

    def listeners(self) -> Iterator[Program]:
        """The programs that asked for all events."""
        return (program for program in self._programs.values() if program.wants_events)
