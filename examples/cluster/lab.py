"""A cluster on one machine to break: members of etcd, nodes with a manager each, a power switch, and a watch for services that are up.

With namespaces, a node is a namespace of processes and a network namespace, on a bridge; it ends with its first process, as the system
then ends the others. Without namespaces, a node is a process group, and all nodes share the loopback interface."""
import contextlib
import json
import os
import signal
import socket
import subprocess
import sys
import threading
import time
from pathlib import Path

from etcd import Etcd, Unreachable, put

HERE = Path(__file__).resolve().parent
HUB = "10.77.0.254"


def quiet(*words):
    return subprocess.run(words, stdout=subprocess.DEVNULL, stderr=subprocess.DEVNULL).returncode == 0


def waits(what, holds, seconds):
    end = time.monotonic() + seconds
    while not holds():
        if time.monotonic() > end:
            raise TimeoutError(what)
        time.sleep(0.05)


def command_lines():
    """The command line of each process."""
    for entry in os.scandir("/proc"):
        if entry.name.isdigit():
            try:
                yield int(entry.name), Path(entry.path, "cmdline").read_bytes().decode(errors="replace").split("\0")[:-1]
            except OSError:
                pass


def parent(pid):
    try:
        return int(Path(f"/proc/{pid}/stat").read_text().rpartition(")")[2].split()[1])
    except OSError:
        return None


class Member:
    """A member of etcd."""

    def __init__(self, name, folder, host, ports, cluster):
        client, peer = (f"http://{host}:{port}" for port in ports)
        self.name, self.url, self.process = name, client, None
        self.words = ["etcd", "--name", name, "--data-dir", str(folder / name), "--log-level", "error",
                      "--listen-client-urls", client, "--advertise-client-urls", client, "--listen-peer-urls", peer,
                      "--initial-advertise-peer-urls", peer, "--initial-cluster", cluster]
        self.log = open(folder / f"{name}.log", "ab")

    def start(self):
        self.process = subprocess.Popen(self.words, stdout=self.log, stderr=self.log)

    def kill(self):
        if self.process:
            self.process.kill()
            self.process.wait()
            self.process = None


class Node:
    """A machine: `process` is its first process, or the process that waits for that one."""

    def __init__(self, name, number):
        self.name, self.address, self.process, self.boots, self.link = name, f"10.77.0.{number}", None, 0, None


class Lab:
    def __init__(self, folder, program, namespaces, lease=8, fences=True, slow=0.3):
        self.folder, self.program, self.namespaces, self.lease = Path(folder), program, namespaces, lease
        self.slow, self.fences, self.fenced, self.twice, self.lock = slow, fences, [], [], threading.RLock()
        self.up, self.since, self.ended = {}, {}, False
        (self.folder / "up").mkdir()
        host = HUB if namespaces else "127.0.0.1"
        if namespaces:
            # an address of its own: otherwise it has that of a port, and another one when that port is gone
            hub = "link add hub address 02:00:00:00:00:01 type bridge"
            for words in ("link set lo up", hub, f"address add {HUB}/24 dev hub", "link set hub up"):
                subprocess.run(["ip", *words.split()], check=True)
        ports = self.free_ports(6)
        cluster = ",".join(f"etcd{n + 1}=http://{host}:{ports[2 * n + 1]}" for n in range(3))
        self.members = [Member(f"etcd{n + 1}", self.folder, host, ports[2 * n:2 * n + 2], cluster) for n in range(3)]
        self.nodes = {f"n{n}": Node(f"n{n}", n) for n in (1, 2, 3)}
        self.etcd = Etcd([member.url for member in self.members], seconds=6)

    @staticmethod
    def free_ports(count):
        sockets = [socket.create_server(("127.0.0.1", 0)) for _ in range(count)]
        ports = [each.getsockname()[1] for each in sockets]
        for each in sockets:
            each.close()
        return ports

    def start(self, services):
        """Starts all members and nodes, with this table of placement: the nodes of each service."""
        for member in self.members:
            member.start()
        waits("etcd", self.answers, 30)
        for name, nodes in services.items():
            self.place(name, nodes)
        self.switch = socket.socket(socket.AF_UNIX)
        self.switch.bind(str(self.folder / "switch"))
        self.switch.listen()
        threading.Thread(target=self.serve_switch, daemon=True).start()
        threading.Thread(target=self.watch, daemon=True).start()
        for name in self.nodes:
            self.boot(name)

    def answers(self):
        try:
            return self.etcd.view() is not None
        except Unreachable:
            return False

    def place(self, name, nodes):
        params = {"up": str(self.folder / "up"), "slow": str(self.slow)}
        row = {"nodes": nodes, "provider": "example", "type": "Counted", "params": params}
        self.etcd.change([], [put(f"/services/{name}", json.dumps(row))])

    def boot(self, name):
        """Turns a node on."""
        with self.lock:
            node, place = self.nodes[name], self.folder / name
            if node.process or self.ended:
                return
            (place / "journal").mkdir(parents=True, exist_ok=True)
            node.boots += 1
            words = ["sh", str(HERE / "node.sh"), node.address if self.namespaces else "-", sys.executable, str(HERE / "manager.py")]
            words += ["--node", name, "--lease", str(self.lease), "--record", str(place / "record")]
            for member in self.members:
                words += ["--etcd", member.url]
            words += ["--fence", f"{sys.executable} {HERE}/fence.py {self.folder}/switch"] if self.fences else []
            words += [self.program, "serve", "--journal", str(place / "journal"), "--root", str(HERE / "agents"),
                      "--via", str(HERE.parent / "with-executor.sh"), "--orphans", "10000", "--log", str(place / "agents.log")]
            if self.namespaces:
                words = ["unshare", "--net", "--pid", "--fork", "--kill-child", "--mount-proc", *words]
            with open(place / "manager.log", "ab") as log:
                node.process = subprocess.Popen(words, stdout=log, stderr=log, start_new_session=True)
            if self.namespaces:
                node.link = f"{name}-{node.boots}"
                waits("a node's first process", lambda: self.first(node), 10)
                subprocess.run(["ip", "link", "add", node.link, "type", "veth", "peer", "name", "eth0", "netns", str(self.first(node))], check=True)
                subprocess.run(["ip", "link", "set", node.link, "master", "hub", "up"], check=True)

    def first(self, node):
        """The first process of a node's namespace, once it runs."""
        try:
            child = Path(f"/proc/{node.process.pid}/task/{node.process.pid}/children").read_text().split()
            return int(child[0]) if child and b"node.sh" in Path(f"/proc/{child[0]}/cmdline").read_bytes() else None
        except OSError:
            return None

    def off(self, name):
        """Ends a node, and returns when nothing of it is left."""
        with self.lock:
            node = self.nodes[name]
            if not node.process:
                return
            if self.namespaces:
                os.kill(self.first(node), signal.SIGKILL)
                node.process.wait()  # the first process is gone when all the others are
                quiet("ip", "link", "delete", node.link)
            else:
                os.killpg(node.process.pid, signal.SIGKILL)
                node.process.wait()
                waits("a node's end", lambda: not self.group(node.process.pid), 20)
                waits("the end of a node's services", lambda: self.are_ended(name), 20)
            node.process = None

    def are_ended(self, name):
        """Whether no service of a node is left; those that are found are ended. They are in process groups of their own."""
        left = [pid for pid, words in command_lines() if len(words) >= 4 and words[-4].endswith("/counted")
                and words[-2:] == [name, str(self.folder / "up")]]
        for pid in left:
            with contextlib.suppress(ProcessLookupError):
                os.kill(pid, signal.SIGKILL)
        return not left

    @staticmethod
    def group(number):
        """The processes of a group that are not zombies."""
        for pid, _ in command_lines():
            try:
                fields = Path(f"/proc/{pid}/stat").read_text().rpartition(")")[2].split()
            except OSError:
                continue
            if int(fields[2]) == number and fields[0] not in "ZX":
                return True
        return False

    def link(self, name, state):
        """Cuts a node off the network, or back on."""
        with self.lock:
            if self.nodes[name].process:
                quiet("ip", "link", "set", self.nodes[name].link, state)

    def serve_switch(self):
        """The power switch: it ends the node that a line names, and then answers."""
        while True:
            asker, _ = self.switch.accept()
            with asker:
                name = asker.recv(64).decode().strip()
                if name in self.nodes:
                    self.off(name)
                    self.fenced.append(name)
                    asker.sendall(b"off")

    def watch(self):
        """Looks five times a second which services are up on which nodes."""
        while not self.ended:
            found = {}
            for pid, words in command_lines():
                if len(words) == 5 and words[1].endswith("/counted") and words[4] == str(self.folder / "up"):
                    found.setdefault(words[2], {})[pid] = words[3]
            # a child that its shell forks has the same command line for a moment
            found = {name: [(node, pid) for pid, node in pids.items() if parent(pid) not in pids] for name, pids in found.items()}
            for name, places in found.items():
                if len(places) > 1:
                    self.twice.append((name, places))
            self.up = found
            time.sleep(0.2)

    def processes(self, kind, node):
        """The process of a node's manager or executor."""
        if kind == "manager":
            return [pid for pid, words in command_lines() if words[1:4] == [str(HERE / "manager.py"), "--node", node]
                    and str(self.folder / node / "record") in words]
        return [pid for pid, words in command_lines() if words[:2] == [self.program, "serve"] and words[3] == str(self.folder / node / "journal")]

    def counts(self):
        """The counts of the services themselves: how many processes of each were up."""
        log = self.folder / "up" / "log"
        return [int(line.split()[3]) for line in log.read_text().splitlines()] if log.exists() else []

    def close(self):
        """Ends everything that was started here, by process id."""
        with self.lock:
            self.ended = True
            for name in self.nodes:
                self.off(name)
            for member in self.members:
                member.kill()
