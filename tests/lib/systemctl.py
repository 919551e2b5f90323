#!/usr/bin/env python3
"""Plays systemctl(1) and journalctl(1) for one unit where no systemd runs, as the unit's file says: the commands and signals that start,
stop, restart and reload it, and which ends of it are followed by another start. It receives the messages of the unit to NOTIFY_SOCKET.
Use: systemctl.py UNIT DIRECTORY COMMAND WORD.., with the unit's output and the state in the directory, or as a module"""
import os
import re
import signal
import socket
import subprocess
import sys
import time

sys.dont_write_bytecode = True
import units  # noqa: E402

WAIT = 60  # the longest wait for a start or an end, in seconds


class Manager:
    def __init__(self, unit, folder, **variables):
        self.unit, self.folder, self.variables = unit, folder, variables

    def place(self, name):
        return os.path.join(self.folder, name)

    def read(self, name):
        try:
            with open(self.place(name), encoding="utf-8") as file:
                return file.read().strip()
        except FileNotFoundError:
            return ""

    def write(self, name, text):
        new = self.place(f"new-{os.getpid()}")
        with open(new, "w", encoding="utf-8") as file:
            file.write(text)
        os.rename(new, self.place(name))

    def waits(self, what, holds):
        until = time.monotonic() + WAIT
        while not holds():
            if time.monotonic() > until:
                raise TimeoutError(what)
            time.sleep(0.02)

    # The commands

    def start(self):
        """Starts the unit, by a process that follows it, and waits until it reports that it is ready, or has ended."""
        if self.read("active"):
            return
        self.write("active", "activating")
        if os.fork() == 0:
            try:
                self.follow()
            finally:
                self.write("active", "")
                os._exit(0)
        self.waits("its start", lambda: self.read("active") != "activating")

    def stop(self, signal_name="Service.KillSignal"):
        if self.read("active"):
            self.write("asked", "stop")
            self.signal(getattr(signal, self.unit.get(signal_name, "SIGTERM")))
            self.waits("its end", lambda: not self.read("active"))

    def restart(self):
        self.stop("Service.RestartKillSignal")
        self.start()

    def reload(self):
        for words in self.unit.commands("Service.ExecReload", MAINPID=self.read("MainPID")):
            subprocess.run(words, stdout=subprocess.DEVNULL, check=True)

    def signal(self, number):
        os.kill(int(self.read("MainPID")), number)

    # The process that follows the unit

    def follow(self):
        with socket.socket(socket.AF_UNIX, socket.SOCK_DGRAM) as messages:
            if os.path.exists(self.place("notify")):
                os.unlink(self.place("notify"))
            messages.bind(self.place("notify"))
            messages.settimeout(0.05)
            self.write("asked", "")
            while self.run(messages) and not self.read("asked"):
                time.sleep(1)

    def run(self, messages):
        """One run of the main process. Returns whether another one follows."""
        out = self.unit.get("Service.StandardOutput", "journal")
        err = self.unit.get("Service.StandardError", out)
        with open(self.place("log"), "ab") as log:
            found = os.fstat(log.fileno())
            variables = {"NOTIFY_SOCKET": self.place("notify"), "JOURNAL_STREAM": f"{found.st_dev}:{found.st_ino}"}
            main = subprocess.Popen(self.unit.words("Service.ExecStart", **self.variables), stdin=subprocess.DEVNULL,
                                    env={**os.environ, **variables},
                                    **{name: log if where == "journal" else subprocess.DEVNULL
                                       for name, where in (("stdout", out), ("stderr", err))})
        self.write("MainPID", str(main.pid))
        while main.poll() is None:
            try:
                self.receive(messages.recv(65536).decode())
            except TimeoutError:
                pass
        self.write("ExecMainStatus", str(main.returncode))
        return main.returncode != 0 and str(main.returncode) not in self.unit.get("Service.RestartPreventExitStatus").split()

    def receive(self, text):
        """Notes what a message says: that the unit is ready comes last, so that whoever sees that it is active finds its status."""
        for line in sorted(text.split("\n"), key=lambda line: line == "READY=1"):
            if line == "READY=1":
                self.write("active", "active")
            if line.startswith("STATUS="):
                self.write("StatusText", line.removeprefix("STATUS="))


def main():
    unit, folder, command, *words = sys.argv[1:]
    manager, now = Manager(units.Unit(unit), folder), "--now" in words
    if command == "journalctl":
        lines = [re.fullmatch(r"(?:<(\d)>)?(.*)", line).groups() for line in manager.read("log").splitlines()]
        most = 3 if "err" in words else 7
        print("\n".join(line for priority, line in lines if int(priority or 6) <= most))
    elif command == "show":
        print(manager.read(words[words.index("-P") + 1]))
    elif command == "daemon-reload" or not {"ocfexec", "ocfexec.service"}.intersection(words):
        return 0
    elif command == "is-active":
        return 0 if manager.read("active") else 3
    elif command == "kill":
        manager.signal(next(getattr(signal, word.removeprefix("--signal=")) for word in words if word.startswith("--signal=")))
    elif command not in ("enable", "disable"):
        getattr(manager, command)()
    elif now:
        manager.start() if command == "enable" else manager.stop()
    return 0


if __name__ == "__main__":
    sys.exit(main())
