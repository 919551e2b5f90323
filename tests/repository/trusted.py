"""The trusted places, docs/TRUSTED.txt: it is what tools/trusted.py generates from this tree, and a place more or less, or a longer file,
makes it old. It names each file of the program's edge that has no contract. One file makes the calls about agents' processes, with a
sentence on each."""
import glob
import os
import re
import shutil
import subprocess
import sys

import helper

SCRIPT, HOST = "tools/trusted.py", "crates/ocfexec/src/host.rt"
# The crates at the system's edge.
EDGE = ["ocfexec", "exec_lines"]
OLD = (1, "docs/TRUSTED.txt is old: tools/trusted.py writes it\n")
# The file with the calls about agents' processes, and the calls of the library that spawn, poll and signal processes; the shell that sends
# signals is a process of its own.
AGENTS, SHELL = "crates/host_system/src/system_agents.rt", ["crates/host_system/src/killer.rt", "crates/pauses/src/pauses.rt"]
PROCESS_CALL = re.compile(r"\.(?:spawn\(rt\)|try_wait\(\)|kill\(\)|output\(rt\))")


def check(top):
    """The status of a check of the list in a tree, and its output."""
    done = subprocess.run([sys.executable, os.path.join(top, SCRIPT), "--check"], capture_output=True, text=True)
    return done.returncode, done.stderr


class Trusted(helper.Check):
    def test_fresh(self):
        """docs/TRUSTED.txt is what tools/trusted.py writes"""
        self.assertEqual(check(helper.TOP), (0, ""))

    def test_changed(self):
        """a removed place, a changed text, and another line make it old"""
        for folder in ("docs", "tools", "crates", "launcher"):
            left_out = shutil.ignore_patterns("out", "proofs", "must-fail")
            shutil.copytree(os.path.join(helper.TOP, folder), self.place(folder), ignore=left_out)
        self.assertEqual(check(self.here), (0, ""))
        with open(self.place(HOST), encoding="utf-8") as file:
            text = file.read()
        place = "// TRUSTED: the writer is standard output."
        for new in (text.replace(place, "// the writer is standard output."),
                    text.replace(place, "// TRUSTED: the writer is standard error."), text + "\n"):
            self.assertNotEqual(new, text)
            with open(self.place(HOST), "w", encoding="utf-8") as file:
                file.write(new)
            self.assertEqual(check(self.here), OLD)

    def test_edge(self):
        """each file of the program's edge is in it, or has a contract"""
        with open(os.path.join(helper.TOP, "docs/TRUSTED.txt"), encoding="utf-8") as file:
            named = {line.split(":")[0] for line in file}
        silent = []
        for path in [path for crate in EDGE for path in glob.glob(f"crates/{crate}/src/*.rt", root_dir=helper.TOP)]:
            with open(os.path.join(helper.TOP, path), encoding="utf-8") as file:
                text = file.read()
            if path not in named and re.search(r"\bfn \w", text) and not re.search(r"\b(?:ensures|from_gives)\b", text):
                silent.append(path)
        self.assertEqual(silent, [])

    def test_each_method(self):
        """each method of the system's host with a promise in its trait says what is trusted of it"""
        with open(os.path.join(helper.TOP, "crates/exec_host/src/host.rt"), encoding="utf-8") as file:
            promised = {part.split("(")[0] for part in file.read().split("    fn ")[1:] if "ensures" in part.split(";")[0]}
        with open(os.path.join(helper.TOP, HOST), encoding="utf-8") as file:
            parts = file.read().split("impl<'a> Host for")[1].split("    fn ")
        marked = {after.split("(")[0] for before, after in zip(parts, parts[1:]) if "// TRUSTED: " in before.rpartition("\n\n")[2]}
        self.assertEqual(sorted(promised - marked), [])

    def test_each_call(self):
        """each call about agents' processes says what is trusted of it"""
        with open(os.path.join(helper.TOP, "crates/agent_system/src/agent_system.rt"), encoding="utf-8") as file:
            parts = file.read().split("pub trait AgentSystem")[1].split("    fn ")[1:]
        asking = {re.match(r"\w+", part)[0] for part in parts if "≡ after_" in part}
        self.assertGreater(len(asking), 10)
        with open(os.path.join(helper.TOP, AGENTS), encoding="utf-8") as file:
            parts = file.read().split("impl AgentSystem for")[1].split("    fn ")[1:]
        self.assertEqual(sorted(asking - {re.match(r"\w+", part)[0] for part in parts if "// TRUSTED: " in part}), [])

    def test_one_file(self):
        """no other file makes calls about processes, but for the shell that sends signals"""
        calling = set()
        for path in glob.glob("crates/*/src/**/*.rt", root_dir=helper.TOP, recursive=True):
            with open(os.path.join(helper.TOP, path), encoding="utf-8") as file:
                if PROCESS_CALL.search(file.read()):
                    calling.add(path)
        self.assertEqual(sorted(calling), sorted([AGENTS, *SHELL]))
