#!/usr/bin/env python3
"""What is believed of the program and not proved: docs/TRUSTED.txt has each place, grouped by what is believed, as
FILE:LINE: FUNCTION: SENTENCE. A place is a comment `// TRUSTED:`, a file that says that bodies of it are proved by hand, or a function of
UNMARKED. What is believed beyond the places, as of the device and of the kit, is in docs/PROVED.md.
Use: trusted.py            writes docs/TRUSTED.txt
     trusted.py --check    fails if that file is not what would be written"""
import os
import re
import sys

TOP = os.path.dirname(os.path.dirname(os.path.abspath(__file__)))
INTO = "docs/TRUSTED.txt"
HEAD = "What is believed of the program and not proved, by what is believed. Written by tools/trusted.py.\n"
PLACE = re.compile(r"^\s*// TRUSTED: (.*)$")
BY_HAND = "proved by hand"
# It repeats the sentence of the place before it.
SAME = "the same."
FUNCTION = re.compile(r"\bfn (\w+)|^(?:static )?int (\w+)\(")
MEMORY, NOTES = "memory", "notes"
# A sentence of a place where a library allocates by itself; the call of `growth` is near the others.
OF_MEMORY = re.compile(r"\bmemory\b|\bgrowth\b|\ballocates\b")
GROWTH = re.compile(r"\bgranted\(|\bRefused::known\(")
# What is believed of each group, and its files.
GROUPS = [
    ("device", "The calls about the journal's files are those that are noted, on these files and no others, and their answers",
     r"crates/file_disk/"),
    ("processes", "The calls about processes are those that are noted, and their answers mean what is said", 
     r"crates/(host_system|agent_system|proc_files)/|launcher/"),
    ("agents", "The record of the agents that run is in this file", r"crates/agents_file/|crates/ocfexec/src/moment"),
    ("session", "The calls about a session's input, output and clock are those that are noted, and their answers", r"crates/exec_lines/"),
    ("program", "What the program requests of the system is done, and nothing else", r"crates/ocfexec/"),
    (MEMORY, "A call of a library that allocates by itself says that memory is lacking only where an allocator refuses it", None),
    (NOTES, "A note sets what contracts alone read", None),
]
HAND = "a running program keeps nothing of it, and the body does nothing else; it is proved by hand."
# Functions whose files have no comment about them.
UNMARKED = {
    "crates/agent_system/src/waited.rt": {"is_ready": "poll(2) says whether a read of this stream would not block."},
    "crates/agents_file/src/file.rt": {
        "open": "the file `agents` of this directory is opened, or made whole by a rename, and no other.",
        "write_line": "the line is written in one call, at its slot.",
        "boot_id": "this is the boot that /proc names.",
        "monotonic_now": "this is the reading of the system's clock."},
    "crates/exec_lines/src/moment.rt": {"moment_now": "it is what the clock shows, and 0 where it cannot be read."},
    "crates/exec_lines/src/poll.rt": {"found": "these are the events that poll(2) gave for this descriptor."},
    "crates/exec_lines/src/session_clock.rt": {
        "new": "the clock begins with the wall clock's time, or with the journal's last moment if that is greater.",
        "since_1970": "it is that time and the monotonic time since, or, where that cannot be read, the wall clock's.",
        "sleep": "it is slept once, for this time; a short one yields the processor until that has passed."},
    "crates/file_disk/src/directory.rt": {"open_directory": "it is locked as long as the disk lives, so no other executor has the journal."},
    "crates/file_disk/src/disk.rt": {
        "open": "both files are those of this directory; they were synced, and then read whole.",
        "len": "the length of this part's file was asked, and this is the answer.",
        "read_at": "these bytes were read from this part's file, at this offset.",
        "write_at": "these bytes were written into this part's file, at this offset, or, where it failed, any of them.",
        "sync": "this part's file was synced."},
    "crates/file_disk/src/identity.rt": {"put_file": "the calls about the file `identity` touch no part."},
    "crates/file_disk/src/known_path.rt": {"check": "the device and the number of a file say whether the path leads to it."},
    "crates/file_disk/src/look.rt": {"look": "these are the bytes of both files at one moment, unless a tidy ran meanwhile."},
    "crates/file_disk/src/part_file.rt": {"open": "the file is the one under this part's name, and a call of this type is one about it."},
    "crates/ocfexec/src/errors.rt": {"write": "the line goes to standard error, or is counted as left out."},
    "crates/ocfexec/src/guarded.rt": {"has_reader": "nobody reads where a path of the journal leads elsewhere; else it is the output's answer."},
    "crates/ocfexec/src/log.rt": {
        "logs_in": "agents write into the files of this directory.",
        "opened": "agents write to the end of this file, or to standard error."},
    "crates/ocfexec/src/main.rt": {
        "main": "the process ends with this status, and the system is the one that it was given.",
        "start": "the program is called once, with these arguments, on that system."},
    "crates/ocfexec/src/metadata.rt": {
        "metadata": "the agent of this provider and type is asked, at this site, and this is its answer.",
        "poll_metadata": "it is asked once, one agent at a time, and this is its answer, if there is one yet."},
    "crates/ocfexec/src/moment.rt": {"record_moment": "the record of this directory says what the clock shows, if that is ahead of the system's."},
    "crates/ocfexec/src/once.rt": {"once": "the action that the options name is run, by the agent that they or the journal name."},
    "crates/ocfexec/src/reasons.rt": {"found": "it is the reason that the log has of this run."},
    "crates/proc_files/src/read.rt": {
        "read_head": "the files of a process are as proc(5) describes them.",
        "pids": "these are the processes that can be seen."},
    "crates/host_system/src/programs.rt": {"may_run": "access(2) says whether this process may run the file."},
    "crates/host_system/src/ready.rt": {"met": "these are the events that poll(2) gave for this descriptor."},
    "crates/host_system/src/system.rt": {
        "ask": "the shell gets this line, once more where it was gone or stuck.",
        "monotonic": "the clocks are the system's."},
    "launcher/run_agent.c": {"main": "the agent runs in a session of its own, and only once the byte came."},
}


def sources():
    """The files of the crates, by name, except those that rt generates; and the other files of UNMARKED."""
    for folder, folders, names in sorted(os.walk(os.path.join(TOP, "crates"))):
        folders[:] = [name for name in folders if name != "out"]
        for name in sorted(names):
            if name.endswith(".rt"):
                yield os.path.relpath(os.path.join(folder, name), TOP)
    yield from (name for name in UNMARKED if not name.startswith("crates/"))


def function_at(lines, at):
    """The function that a comment is about: the one that begins after it, if only comments and attributes are between, else that it is in."""
    after = next((line for line in lines[at + 1:] if not re.match(r"\s*(//|#\[|$)", line)), "")
    for line in [after, *reversed(lines[:at])]:
        if found := FUNCTION.search(line):
            return found[1] or found[2]
    return "all"


def places_in(name, lines):
    """The places of a file: the line's number, the function, the sentence, and of which group it is if not that of its file."""
    sentence = ""
    for at, line in enumerate(lines):
        if found := PLACE.match(line):
            sentence = sentence if found[1] == SAME else found[1]
            grows = OF_MEMORY.search(sentence) or any(map(GROWTH.search, lines[at + 1:at + 3]))
            yield at + 1, function_at(lines, at), sentence, MEMORY if grows else None
        elif BY_HAND in line and line.strip().startswith("///"):
            yield at + 1, "type", HAND, NOTES
    for function, sentence in UNMARKED.get(name, {}).items():
        begins = [at for at, line in enumerate(lines) if (found := FUNCTION.search(line)) and function in found.groups()]
        if not begins:
            raise SystemExit(f"{name} has no function {function}, which tools/trusted.py names")
        yield begins[0] + 1, function, sentence, None


def group_of(name):
    """The group of a file's places."""
    return next((group for group, _, files in GROUPS if files and re.match(files, name)), MEMORY)


def text():
    """The list: the groups, each with its number of places and these; and the totals."""
    listed, length, files = {group: [] for group, _, _ in GROUPS}, 0, 0
    for name in sources():
        with open(os.path.join(TOP, name), encoding="utf-8") as file:
            lines = file.read().splitlines()
        found = sorted(places_in(name, lines))
        for number, function, sentence, group in found:
            listed[group or group_of(name)].append(f"{name}:{number}: {function}: {sentence}\n")
        length, files = length + (len(lines) if found else 0), files + bool(found)
    parts = [f"\n{believed} ({len(listed[group])}):\n{''.join(listed[group])}" for group, believed, _ in GROUPS]
    return "".join([HEAD, *parts, f"\nall: {sum(map(len, listed.values()))} places in {files} files of {length} lines\n"])


def main():
    path = os.path.join(TOP, INTO)
    if sys.argv[1:] == ["--check"]:
        with open(path, encoding="utf-8") as file:
            is_old = file.read() != text()
        if is_old:
            print(f"{INTO} is old: tools/trusted.py writes it", file=sys.stderr)
        return int(is_old)
    with open(path, "w", encoding="utf-8") as file:
        file.write(text())
    return 0


if __name__ == "__main__":
    sys.exit(main())
