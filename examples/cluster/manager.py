#!/usr/bin/env python3
"""Manages the services of a cluster on one node. etcd holds what is wanted and which node may run what; ocfexec runs it.

    manager.py --node n1 --etcd http://10.0.0.1:2379 --fence 'fence.py SOCKET' --record FILE \\
        ocfexec serve --journal /var/lib/ocfexec --via with-executor.sh --orphans 20000

Keys of etcd:
    /services/NAME  the table of placement, which an administrator writes: {"nodes": ["n1", "n2"], "provider": .., "type": ..,
                    "params": {..}}; a service belongs on the first of its nodes that is up
    /nodes/NODE     the node is up; the key goes with the lease of its manager
    /active/NAME    the only node that may run the service, until it gives the service up or was fenced
    /failed/NAME/NODE  the service did not start there; the key goes by itself after a while
    /fencing/NODE   the node is being fenced, or asks for it, and may not join

Only the executor's journal knows what runs here. It is read again whenever the manager or the executor starts.
"""
import argparse
import contextlib
import json
import os
import shlex
import subprocess
import sys
import time

from etcd import Etcd, Unreachable, absent, delete, now, put, unchanged
from record import Record

# the library, if it is not installed: in a repository
sys.path.append(os.path.join(os.path.dirname(os.path.realpath(__file__)), "../../python"))
from ocfexec import Ended, Executor, Late  # noqa: E402

NOT_RUNNING = 7  # the exit code of a monitor that finds its service cleanly stopped
INTERVAL, TIMEOUT, FENCE_SECONDS, FAILED_SECONDS = 500, 10000, 20, 15
PATIENCE, ASK_EVERY = 30, 5  # how long an answer of the executor is waited for, and how often one is asked for, in seconds


class Lease:
    """The lease that keeps the node in the cluster. Its time counts from the moment when the last answered keep-alive was SENT. etcd
    counts from its arrival, which is later, so the lease is over here first."""

    def __init__(self, etcd, seconds, reserve):
        self.etcd, self.seconds, self.reserve = etcd, seconds, reserve
        self.id, self.sent, self.tried = None, 0, 0

    def held(self):
        """Whether services may run: as long as they can still be stopped before the lease ends."""
        return self.id is not None and now() < self.etcd.until

    def has(self, lease, sent):
        self.id, self.sent = lease, sent
        self.etcd.until = sent + self.seconds - self.reserve

    def take(self, node):
        """Joins the cluster, unless the node is being fenced. An old key of the node moves to the new lease."""
        sent = now()
        lease = self.etcd.grant(self.seconds)
        if self.etcd.change([absent(f"/fencing/{node}")], [put(f"/nodes/{node}", "here", lease)]):
            self.has(lease, sent)
        else:
            self.etcd.revoke(lease)

    def keep(self):
        """Sends a keep-alive if one is due."""
        sent = now()
        if self.id is None or sent < self.tried + self.seconds / 8:
            return
        self.tried = sent
        try:
            if self.etcd.keep_alive(self.id):
                self.has(self.id, sent)
            else:
                self.id = None
        except Unreachable:
            pass


class Service:
    def __init__(self, name):
        self.name = name
        self.state = "unknown"  # or "up", "down", "doubtful": perhaps half started, and therefore stopped and probed before anything else
        self.task = None  # its task: a generator that yields actions and is sent their results
        self.call = None  # the action that it waits for


class Manager:
    def __init__(self, options):
        self.node, self.fence = options.node, options.fence
        self.etcd = Etcd(options.etcd)
        self.lease = Lease(self.etcd, options.lease, options.reserve)
        self.record = Record(options.record)
        # in this session, so that ending the node by its process group ends the executor, too
        self.executor = Executor(options.command_line, idle=self.lease.keep, own_session=False, patience=PATIENCE)
        self.ask_at = 0
        self.services, self.view, self.seen = {}, {}, 0
        self.fresh, self.joined = True, False  # whether it has not tried to join yet, and whether it has a lease to lose
        self.fencing = None  # the node that is being fenced, its key, the process, and when it began

    def say(self, what):
        print(f"{time.time():.2f} {self.node}: {what}", file=sys.stderr, flush=True)

    # The view of etcd

    def value(self, key):
        return self.view[key].value if key in self.view else None

    def table(self, name):
        return json.loads(self.value(f"/services/{name}") or '{"nodes": []}')

    def place(self, name):
        """Where the table wants the service: on the first of its nodes that is up and where it did not fail."""
        there = (node for node in self.table(name)["nodes"] if f"/nodes/{node}" in self.view)
        return next((node for node in there if f"/failed/{name}/{node}" not in self.view), None)

    def is_mine(self, name):
        return self.value(f"/active/{name}") == self.node

    # An opening of the journal

    def open(self):
        """Starts an executor, and takes over from its journal the results that this manager, or an earlier one, has not seen."""
        self.executor.start()
        self.record_results()
        for name, results in self.executor.histories.items():
            for monitor in self.executor.info(name).recurring:
                self.executor.cancel(name, monitor.interval)
            for result in results:
                self.record.add(name, result.raw)
            self.services[name] = self.recovered(name)
        self.record.new.clear()

    def record_results(self):
        """Writes all results that have come into the record, before anything is done about them."""
        for result in self.executor.results():
            self.record.add(result.id, {key: value for key, value in result.raw.items() if key != "id"})

    def recovered(self, name):
        """The state after the last action. The report of the opening is sent once, so it is read from the record: the manager may have
        been killed between the report and its reaction."""
        service, last = Service(name), self.record.last(name) or {"action": "monitor", "outcome": "done", "code": 0}
        action, outcome = last["action"], last["outcome"]
        if action == "start" and outcome == "dropped":
            service.state = "down"  # it never began, on a service that was down: it is requested again if it is still wanted
        elif action != "monitor" and (outcome != "done" or last["code"] != 0):
            service.state = "doubtful"  # a dropped stop is requested again by this, too
        if outcome != "done":
            self.say(f"{name}: {action} was {outcome}, so it is {service.state}")
        return service

    def register(self, name):
        """Registers a service of the table, with its present parameters and the node's name."""
        table = self.table(name)
        params = {**table.get("params", {}), "node": self.node}
        register = {"op": "register", "id": name, "provider": table["provider"], "type": table["type"], "params": params}
        self.executor.ask(register, allow=("exists",))
        self.executor.params(name, params)

    # The tasks of a service: each yields the actions that it requests, and is sent their results

    def find_out(self, service):
        code = (yield "monitor")["code"]
        service.state = {0: "up", NOT_RUNNING: "down"}.get(code, "doubtful")
        if service.state == "up":
            self.executor.ask({"op": "recur", "id": service.name, "interval": INTERVAL, "timeout": TIMEOUT}, allow=("exists",))

    def bring_up(self, service):
        self.register(service.name)
        service.state = "doubtful"
        code = (yield "start")["code"]
        if code == 0:
            yield from self.find_out(service)
        if service.state == "up":
            return self.say(f"{service.name} is up")
        self.say(f"{service.name} did not start, with code {code}")
        yield from self.bring_down(service)
        lease = self.etcd.grant(FAILED_SECONDS)
        self.etcd.change([], [put(f"/failed/{service.name}/{self.node}", str(code), lease)])

    def bring_down(self, service):
        """Stops it, and takes it as down when a probe says so; otherwise the node asks to be fenced, and leaves."""
        service.state = "doubtful"
        self.executor.ask({"op": "cancel", "id": service.name, "interval": INTERVAL}, allow=("no-such-recurring",))
        for _ in range(3):
            yield "stop"
            if (yield "monitor")["code"] == NOT_RUNNING:
                service.state = "down"
                return self.say(f"{service.name} is down")
        self.say(f"{service.name} does not stop: this node is to be fenced")
        self.etcd.change([], [put(f"/fencing/{self.node}", "wanted"), delete(f"/nodes/{self.node}")])
        sys.exit(1)

    def choose(self, service):
        """The next task of a service, if any. Without a lease everything is stopped."""
        name, held = service.name, self.lease.held()
        mine, here = self.is_mine(name), self.place(name) == self.node
        if service.state == "doubtful" or (service.state == "up" and not (held and mine)):
            return self.bring_down(service)
        if service.state == "unknown":
            return self.find_out(service)
        if held and mine and not here:
            return self.give_up(service)
        if held and mine and service.state == "down":
            return self.bring_up(service)
        if held and here and f"/active/{name}" not in self.view:
            self.claim(name)
        return None

    def give_up(self, service):
        """Another node has to run it, and may do so as soon as the key is gone."""
        if service.state != "down":
            yield from self.bring_down(service)
        key = f"/active/{service.name}"
        self.etcd.change([unchanged(key, self.view[key])], [delete(key)])
        self.seen = 0

    def claim(self, name):
        """Only one node gets the key, and only while it is a member."""
        mine = f"/nodes/{self.node}"
        self.etcd.change([absent(f"/active/{name}"), unchanged(mine, self.view[mine])], [put(f"/active/{name}", self.node)])
        self.seen = 0

    # Lost nodes

    def fence_one(self):
        """Marks a lost node that may still run something, and then runs the command that ends it. Its services are free only when that
        command has reported success. Without a command nothing is taken over."""
        gone = {item.value for key, item in self.view.items() if key.startswith("/active/")}
        gone = sorted(node for node in gone if f"/nodes/{node}" not in self.view)
        for node in gone if self.fence else []:
            key = f"/fencing/{node}"
            mark = self.view.get(key)
            if mark and mark.value != "wanted":
                continue
            free = [unchanged(key, mark) if mark else absent(key), absent(f"/nodes/{node}")]
            if self.etcd.change(free, [put(key, f"by {self.node}", self.lease.id)]):
                self.say(f"fences {node}")
                process = subprocess.Popen([*shlex.split(self.fence), node], start_new_session=True)
                self.fencing = node, key, process, now()
                return

    def finish_fencing(self):
        node, key, process, since = self.fencing
        if process.poll() is None and now() < since + FENCE_SECONDS:
            return
        if process.poll() is None:
            process.kill()
        status, self.fencing, self.seen = process.wait(), None, 0
        self.view = self.etcd.view()
        if self.value(key) != f"by {self.node}":
            return self.say(f"{node}: the mark of the fencing is gone, so its outcome is not used")
        free = [delete(name) for name, item in self.view.items() if name.startswith("/active/") and item.value == node]
        self.say(f"{node} is fenced" if status == 0 else f"{node} could not be fenced, so nothing of it is taken over")
        self.etcd.change([unchanged(key, self.view[key])], [delete(key), *(free if status == 0 else [])])

    # The loop

    def look(self):
        """Keeps the lease and reads the keys. A lost lease is renewed only when all services are stopped, and until then etcd is not
        waited for. A manager that has just started joins with its running services, since its node was not fenced."""
        self.lease.keep()
        if not self.lease.held():
            if not self.fresh and any(service.state != "down" for service in self.services.values()):
                return
            self.fresh, self.lease.id, self.etcd.until = False, None, float("inf")
            self.lease.take(self.node)
            self.joined = self.lease.held()
        if now() > self.seen + 0.2:
            self.view, self.seen = self.etcd.view(), now()
            if self.lease.id and f"/nodes/{self.node}" not in self.view:
                self.lease.id = None
            for name in [key.removeprefix("/services/") for key in self.view if key.startswith("/services/")]:
                if name not in self.services:
                    self.services[name] = Service(name)
                    self.register(name)
        if self.lease.held():
            self.finish_fencing() if self.fencing else self.fence_one()

    def begin(self, service):
        try:
            service.task, service.call = self.choose(service), None
        except Unreachable:
            return
        if service.task:
            self.go_on(service)

    def go_on(self, service, result=None):
        """Runs a service's task up to the next action that it requests, or to its end."""
        try:
            action = service.task.send(result)
            limit = TIMEOUT if self.lease.held() else int(self.lease.reserve * 1000)
            service.call = self.executor.exec(service.name, action, timeout=limit)
        except (StopIteration, Unreachable):  # what could not be written to etcd is tried again
            service.task = None

    def take_results(self):
        """Passes the results that have come to their services."""
        self.executor.wait(0.05)
        self.record_results()
        while self.record.new:
            name, result = self.record.new.pop(0)
            service = self.services[name]
            if service.task and result["call"] == service.call:
                self.go_on(service, result)
            elif result["interval"] and not service.task and service.state == "up" and result["failed"]:
                self.say(f"{name}: a monitor said {result['code']}")
                service.state = "doubtful"

    def manage(self):
        """One executor, until it ends. When the lease is lost the executor is ended, since a stop would wait for running actions: the
        next one reports them as interrupted, and stops all."""
        self.open()
        while True:
            try:
                self.look()
            except Unreachable:
                pass
            if self.joined and not self.lease.held():
                self.joined = False
                self.say("no lease any more: all is stopped")
                return self.executor.close()
            for service in self.services.values():
                if not service.task:
                    self.begin(service)
            self.take_results()
            if now() > self.ask_at:
                self.executor.version()
                self.ask_at = now() + ASK_EVERY

    def run(self):
        while True:
            self.services = {}
            try:
                self.manage()
            except Ended as ended:
                self.say(str(ended))
                if ended.needs_administrator:
                    return ended.status
                time.sleep(0.1)
            except Late as late:
                self.say(f"the executor does not answer, and is killed: {late}")
                with contextlib.suppress(Late):  # it may wait for a dead device
                    self.executor.kill()


def main():
    parser = argparse.ArgumentParser(description=__doc__, formatter_class=argparse.RawDescriptionHelpFormatter)
    parser.add_argument("--node", required=True)
    parser.add_argument("--etcd", action="append", required=True, metavar="URL", help="a member; once for each")
    parser.add_argument("--lease", type=int, default=8, help="its time, in seconds")
    parser.add_argument("--reserve", type=float, default=2.5, help="seconds of it that are kept to stop services in")
    parser.add_argument("--fence", help="a command that ends the node that is added to it, and then ends with 0")
    parser.add_argument("--record", required=True, help="the file of the results that were seen")
    parser.add_argument("command_line", nargs=argparse.REMAINDER, metavar="command", help="the executor's command line")
    return Manager(parser.parse_args()).run()


if __name__ == "__main__":
    sys.exit(main())
