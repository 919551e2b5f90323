#!/usr/bin/env python3
"""Tries wrong bodies: edits of the sources that the proof of their crate, or a check of the built program, has to refuse; see "Stamps" in
mutants/README.md.

`check` tries the edits whose stamp in mutants/tried is missing or old, `all` every one, and `show` lists those that `check` would try. NAME
is `gate` for mutants/gate (where there is none), `every`, a crate, `tests`, or CRATE/EDIT.

Use: wrong_bodies.py check|all|show [-j CRATES] [NAME..]"""
import argparse
import collections
import concurrent.futures
import contextlib
import datetime
import functools
import hashlib
import os
import re
import shutil
import signal
import subprocess
import sys
import tempfile
import time
from collections.abc import Callable, Iterable, Iterator
from dataclasses import dataclass
from pathlib import Path

TOP = Path(__file__).resolve().parents[1]
MUTANTS = TOP / "mutants"
TRIED = MUTANTS / "tried"
# the directory of the edits that a test refuses, and the crate and the build of the program that they are tried with
TESTS, PROGRAM, BUILD = "tests", "ocfexec", ("package/program.sh", "build")
FUNCTION = re.compile(r"^[ \t]*(?:pub(?:\([a-z ]+\))?[ \t]+)?(?:(?:const|unsafe)[ \t]+)*fn[ \t]+(\w+)", re.MULTILINE)
# A place in what the kit prints. A function's own proofs are in a file proofs/MODULE/FUNCTION/NAME.antt; the crate's lemmas are in files
# and directories whose names begin with a capital.
PLACE, PROOF = re.compile(r"(?:^|[\s:])(?:\./)?((?:src|proofs)/[^\s:]+):(\d+):\d+:"), re.compile(r"proofs/(?:.*/)?([a-z]\w*)/\w+\.antt")
# a refused goal, and one that is refused since a name in a proof file is gone, so that no contract was tried
GOAL = re.compile(r"^(?:note: \S+:\d+:\d+: |\S+:\d+:\d+: error: ).*", re.MULTILINE)
GONE = re.compile(r"(?:\./)?proofs/.*(?:has no field|is not in scope|has no `|was not admitted)")
# the end of a check of what compiles, and of what is proved; a function that waited for one that it calls; and a name of several functions
COMPILED, PROVED = re.compile(r"^(?:only|logic)=", re.MULTILINE), re.compile(r"^(?:only=(\d+) proved=\1|logic=proved.*)$", re.MULTILINE)
WAITS = re.compile(r"^fn (?:\S*::)?(\w+): no proof: it calls ", re.MULTILINE)
SEVERAL = re.compile(r"several functions are named `(\w+)`: help: write one of (.*)")
NAMED, CHECK = re.compile(r"^# refused by: (.+)$", re.MULTILINE), re.compile(r"^refused by: ([^,\n]+), (.+)$", re.MULTILINE)


def begin(text: str, place: int) -> int:
    """The start of a function whose line is at a place: of the comments and attributes right above it."""
    for line in reversed(text[:place].splitlines(keepends=True)):
        if not line.strip() or not line.lstrip().startswith("//") and line.rstrip().endswith(("{", "}", ";")):
            break
        place -= len(line)
    return place


def functions(text: str) -> list[tuple[str, int, int]]:
    """The functions of a file: each name, its start, and the start of the next one."""
    found = list(FUNCTION.finditer(text))
    begins = [begin(text, each.start()) for each in found]
    return [(each[1], start, end) for each, start, end in zip(found, begins, [*begins[1:], len(text)])]


def function_at(text: str, place: int) -> str | None:
    """The function that a place of a file is in, if any."""
    return next((name for name, start, end in functions(text) if start <= place < end), None)


def goal(crate: str, fate: str) -> str | None:
    """The function that the first refused goal belongs to, by what the kit printed; none for the place of no function."""
    place = PLACE.search(fate)
    if not place:
        return None
    if place[1].startswith("proofs/"):
        proof = PROOF.fullmatch(place[1])
        return proof and proof[1]
    text = (TOP / "crates" / crate / place[1]).read_text(encoding="utf-8")
    return function_at(text, sum(map(len, text.splitlines(keepends=True)[:int(place[2])])) - 1)


def named(text: str) -> list[tuple[str, str | None]]:
    """What an edit names: functions that must refuse it, each with a clause, if one is meant."""
    line = NAMED.search(text)
    pairs = [each.partition(", ") for each in line[1].split("; ")] if line else []
    return [(function, clause or None) for function, _, clause in pairs]


@dataclass(frozen=True)
class Edit:
    """A wrong body, by its path."""
    path: Path

    @property
    def crate(self) -> str:
        return self.path.parent.name

    @property
    def name(self) -> str:
        return f"{self.crate}/{self.path.stem}"

    @property
    def text(self) -> str:
        return self.path.read_text(encoding="utf-8")

    @property
    def change(self) -> str:
        """Its text without comments."""
        return "".join(line for line in self.text.splitlines(keepends=True) if not line.startswith("#"))

    @property
    def pairs(self) -> Iterator[tuple[str, str, str]]:
        """What it replaces: a file, a text that stands in it once, and the text in its place."""
        file = old = ""
        for line in self.change.splitlines():
            key, _, text = line.partition(":")
            if key == "file":
                file = text.strip()
            elif key == "old":
                old = text.removeprefix(" ")
            elif key == "new":
                yield file, old, text.removeprefix(" ")

    @property
    def wanted(self) -> set[str]:
        """The functions of which one must refuse it: those that it names, or else those that it changes."""
        return {function for function, _ in named(self.text)} or {name for name in self.touched if name}

    @property
    def touched(self) -> set[str | None]:
        """The functions that it changes; none stands for a text outside of functions."""
        texts = [((TOP / "crates" / self.crate / file).read_text(encoding="utf-8"), old) for file, old, _ in self.pairs]
        return {function_at(text, text.find(old)) for text, old in texts}

    def applied(self, top: Path) -> str | None:
        """Applies it to the files below this directory. Returns why it cannot be applied, if it cannot."""
        for file, old, new in self.pairs:
            text = (top / file).read_text(encoding="utf-8")
            if text.count(old) != 1:
                return f"BAD EDIT: {file} has its text {text.count(old)} times, and not once: {old}"
            (top / file).write_text(text.replace(old, new), encoding="utf-8")
        return None

    def fault(self, fate: str) -> str | None:
        """Why it does not count with this fate, if it does not. A goal that belongs to no function counts."""
        if not fate.startswith("refused"):
            return fate
        found = goal(self.crate, fate) if self.crate != TESTS else None
        elsewhere = found is not None and found not in self.wanted
        return f"REFUSED ELSEWHERE, in {found}, not {' or '.join(sorted(self.wanted))}: {fate}" if elsewhere else None


def all_edits() -> dict[str, Edit]:
    """The edits of mutants, by their names."""
    return {edit.name: edit for folder in ("gate/*", "*") for edit in map(Edit, MUTANTS.glob(f"{folder}/*.edit"))}


class Texts:
    """The texts of the repository as they are now; each is read once."""

    def __init__(self) -> None:
        pairs = [line.split("#")[0].partition(":") for line in (TOP / "crates.txt").read_text(encoding="utf-8").splitlines()]
        self.words = {name.split()[0]: (name.split()[1:], below.split()) for name, _, below in pairs if name.strip()}

    @functools.cache
    def at_or_below(self, crate: str) -> frozenset[str]:
        """The names of a crate and of all crates below it."""
        return frozenset([crate]).union(*(self.at_or_below(name) for name in self.words[crate][1] if name in self.words))

    @functools.cache
    def sum_of_crate(self, crate: str) -> str:
        """The sum of a crate's own files, by name and content."""
        paths = [path for part in ("src", "specs", "proofs") for path in (TOP / "crates" / crate / part).glob("**/*") if path.is_file()]
        total = hashlib.sha256()
        for path in sorted(paths):
            total.update(repr((str(path.relative_to(TOP)), path.read_bytes())).encode())
        return total.hexdigest()

    def sum_of(self, edit: Edit, top: str | None = None) -> str:
        """The sum that an edit's stamp has, if it was seen refused with these texts by its crate, or by this one above it."""
        top = top or (PROGRAM if edit.crate == TESTS else edit.crate)
        crates = [(name, self.words[name], self.sum_of_crate(name)) for name in sorted(self.at_or_below(top))]
        return hashlib.sha256(repr((edit.name, edit.change, crates)).encode()).hexdigest()


class Stamps:
    """The lines of mutants/tried: of each edit its sum, the date, and the kit."""

    def __init__(self) -> None:
        self.kit = called(TOP, "rt", "version")[1].split()[0]
        self.lines = self.read()

    @staticmethod
    def read() -> dict[str, list[str]]:
        text = TRIED.read_text(encoding="utf-8") if TRIED.exists() else ""
        return {edit: rest for edit, *rest in map(str.split, text.splitlines()) if rest}

    def settle(self, fates: dict[Edit, str | None], sums: dict[Edit, str]) -> None:
        """Notes the edits that were refused, removes the lines of others, and of edits that are gone, and writes the file."""
        today = datetime.date.today().isoformat()
        # (another call may have written meanwhile)
        self.lines = self.read() | {edit.name: [sums[edit], today, self.kit] for edit, fault in fates.items() if fault is None}
        others = {edit.name for edit, fault in fates.items() if fault and not fault.startswith("NOT TRIED")}
        self.lines = {name: rest for name, rest in self.lines.items() if name not in others and name in all_edits()}
        new = TRIED.with_suffix(".new")
        new.write_text("".join(f"{' '.join([name, *rest])}\n" for name, rest in sorted(self.lines.items())), encoding="utf-8")
        new.replace(TRIED)


def called(where: Path, *words: str, **how) -> tuple[int, str]:
    """The status of a command and all that it printed. It is ended with what it started if this program is."""
    started = subprocess.Popen(words, cwd=where, stdin=subprocess.DEVNULL, stdout=subprocess.PIPE, stderr=subprocess.STDOUT,
                               errors="replace", start_new_session=True, **how)
    running.add(started)
    try:
        text = started.communicate()[0]
        return started.returncode, text
    finally:
        running.discard(started)


running: set[subprocess.Popen] = set()


@contextlib.contextmanager
def copied() -> Iterator[Path]:
    """A copy of the repository, with the libraries as they were built here."""
    def passed_over(at: str, names: list[str]) -> set[str]:
        return {".git", "incremental", "must-fail"} | ({"out"} if Path(at).parent != TOP / "crates" else set())

    def linked(one: str, other: str) -> None:
        # (what was built is replaced and never changed)
        with contextlib.suppress(OSError):
            return os.link(one, other) if "/out/" in one else shutil.copy2(one, other)
        shutil.copy2(one, other)

    with tempfile.TemporaryDirectory() as room:
        copy = Path(room, "top")
        shutil.copytree(TOP, copy, symlinks=True, copy_function=linked, ignore=passed_over)
        called(copy, "git", "init", "-q")
        yield copy


def only(folder: Path, edit: Edit) -> set[str]:
    """What a check is told for the functions that an edit touches or names. A name means the module that has it, if there is one; then the
    modules of the edit's files are told."""
    names = {name for name in edit.wanted | edit.touched if name}
    modules = {name for name in names if any(folder.glob(f"src/**/{name}.rt"))}
    own = {Path(file).stem for file, _, _ in edit.pairs if file.startswith("src/")} - {"lib", "main"}
    return names - modules | own if modules and own else names


def checked(folder: Path, edits: list[Edit]) -> str:
    """What a check says of the functions that these edits touch or name, and of those that they call."""
    names = {name for edit in edits for name in only(folder, edit)}
    words = ("rt", "check", "--jobs", "1")
    while several := SEVERAL.search(printed := called(folder, *words, *(word for name in sorted(names) for word in ("--only", name)))[1]):
        names = names - {several[1]} | set(re.findall(r"`(\S+)`", several[2]))
    return printed


def tried(folder: Path, edits: list[Edit]) -> dict[str, str]:
    """The fates of edits of one crate by one check in a copy of its directory. Those that waited for others are tried once more without
    them; each is tried alone if they do not compile together, or if a goal is refused that belongs to none of them."""
    crate, fates = edits[0].crate, {edit.name: why for edit in edits if (why := edit.applied(folder))}
    printed = checked(folder, edits)
    for file in {file for edit in edits for file, _, _ in edit.pairs}:
        shutil.copy2(TOP / "crates" / crate / file, folder / file)
    compiled = COMPILED.search(printed)
    found = [(line, goal(crate, line)) for line in GOAL.findall(printed)] if compiled else []
    fates = {edit.name: fate for edit in edits if (fate := refusal([line for line, function in found if function in edit.wanted]))} | fates
    others = [line for line, function in found if not any(function in edit.wanted for edit in edits)]
    left = [edit for edit in edits if edit.name not in fates]
    waiting = [edit for edit in left if edit.wanted & set(WAITS.findall(printed))]
    fate = f"BAD EDIT: {printed[-300:]}" if not compiled else refusal(others) or "NOT REFUSED: its functions are still proved"
    if len(edits) > 1 and (others or not compiled):
        fates |= {name: fate for edit in left for name, fate in tried(folder, [edit]).items()}
    elif len(waiting) < len(edits) and waiting:
        fates |= tried(folder, waiting)
    return {edit.name: fate for edit in left} | fates


def refusal(found: list[str]) -> str | None:
    """The fate that these refused goals mean, if there are any."""
    line = next((line for line in found if not GONE.match(line)), None)
    return f"refused: {line[:200]}" if line else f"ONLY BY A NAME in a proof file that is gone: {found[0][:200]}" if found else None


def apart(edits: Iterable, taken: Callable[..., set]) -> list[list]:
    """Groups of edits that take different things."""
    groups: list[list] = []
    for edit in edits:
        group = next((group for group in groups if not any(taken(edit) & taken(one) for one in group)), None)
        if group is None:
            groups.append(group := [])
        group.append(edit)
    return groups


def judged(crate: str, edits: list[Edit]) -> tuple[dict[str, str], str]:
    """The fates of edits of one crate by their names, and what was printed if their functions are not proved without them."""
    printed = checked(TOP / "crates" / crate, edits)
    if not PROVED.search(printed):
        return {}, printed
    with copied() as copy:
        kept = Path("crates", crate, "out/incremental")
        shutil.copytree(TOP / kept, copy / kept)
        groups = apart(edits, lambda edit: edit.touched | edit.wanted)
        return {name: fate for group in groups for name, fate in tried(copy / "crates" / crate, group).items()}, ""


def passes(edit: Edit, copy: Path) -> bool:
    """Whether the check that an edit of mutants/tests names passes with the program of a copy."""
    script, sentence = CHECK.search(edit.text).groups()
    words = [sys.executable, "tests/lib/one_by_one.py", "--program", "build/ocfexec", "--only", sentence, script]
    printed = called(copy, *words, env={**os.environ, "LIMIT": "6000", "TIME_LIMIT": "0"})[1]
    return re.search(rf"^ok +[0-9.]+ s  {re.escape(f'{script}: {sentence}')}$", printed, re.MULTILINE) is not None


def judged_by_tests(edits: list[Edit]) -> tuple[dict[str, str], str]:
    fates = {}
    with copied() as unedited:
        if called(unedited, *BUILD)[0]:
            return {}, "the program was not compiled"
        for edit in edits:
            with copied() as copy:
                fates[edit.name] = (edit.applied(copy) or
                                    "NOT TRIED: it was not compiled" * bool(called(copy, *BUILD)[0]) or
                                    "NOT TRIED: its check does not pass without it" * (not passes(edit, unedited)) or
                                    "NOT REFUSED" * passes(edit, copy) or "refused")
    return fates, ""


def try_crate(crate: str, sums: dict[Edit, str]) -> tuple[dict[Edit, str | None], str]:
    """What became of edits of one crate: each with why it does not count, or none; and the lines to print."""
    began = time.monotonic()
    fates, printed = judged_by_tests(list(sums)) if crate == TESTS else judged(crate, list(sums))
    found, after = {}, Texts()
    for edit, total in sums.items():
        fate = fates.get(edit.name, "NOT TRIED: the crate was not proved, or nothing was printed of this edit")
        found[edit] = edit.fault(fate) if after.sum_of(edit) == total else "NOT TRIED: a file that it rests on changed meanwhile"
    lines = [f"  {'FAILED ' if fault else 'refused'}  {edit.name}: {fault or fates[edit.name]}" for edit, fault in found.items()]
    lines += [] if fates else printed.splitlines()[-20:]
    return found, "\n".join([f"{crate}: {len(sums)} tried in {time.monotonic() - began:.0f} s", *lines])


def in_lanes(by_crate: dict[str, dict], lanes: int, call: Callable) -> Iterator:
    """The results of a call for each crate with its edits, several at a time, as they come; the crates with the most edits begin first."""
    with concurrent.futures.ThreadPoolExecutor(max(lanes, 1)) as pool:
        calls = [pool.submit(call, crate, edits) for crate, edits in sorted(by_crate.items(), key=lambda pair: -len(pair[1]))]
        try:
            yield from (call.result() for call in concurrent.futures.as_completed(calls))
        finally:
            pool.shutdown(wait=False, cancel_futures=True)
            for started in list(running):
                with contextlib.suppress(ProcessLookupError):
                    os.killpg(started.pid, signal.SIGTERM)


def chosen(names: list[str], known: dict[str, Edit]) -> list[Edit]:
    """The edits that these names stand for."""
    found = {}
    for name in names or ["gate"]:
        of_name = {edit.name: edit for edit in known.values()
                   if name in ("every", edit.crate, edit.name, edit.path.parts[-3])}
        if not of_name and name != "gate":
            sys.exit(f"wrong_bodies.py: mutants has no edit of this name: {name}")
        found |= of_name
    return [found[name] for name in sorted(found)]


def main() -> int:
    asked = argparse.ArgumentParser(description=__doc__.split("\n", maxsplit=1)[0])
    asked.add_argument("what", choices=["check", "all", "show"])
    asked.add_argument("names", nargs="*", metavar="NAME", help="gate, every, a crate, tests, or CRATE/EDIT")
    asked.add_argument("-j", type=int, default=2, metavar="CRATES", help="how many crates are tried at a time; 2 if left out")
    words, texts, stamps = asked.parse_intermixed_args(), Texts(), Stamps()
    signal.signal(signal.SIGTERM, lambda *_: sys.exit(143))
    edits = chosen(words.names, all_edits())
    sums = {edit: texts.sum_of(edit) for edit in edits}
    left = {edit: total for edit, total in sums.items() if words.what == "all" or stamps.lines.get(edit.name, [""])[0] != total}
    if words.what == "show":
        for edit in left:
            line = stamps.lines.get(edit.name)
            print(f"{edit.name}: {' '.join(['last seen refused', *line[1:]]) if line else 'never seen refused'}")
        print(f"{f'{len(edits) - len(left)} of' if left else 'all'} {len(edits)} wrong bodies as mutants/tried has them")
        return 0
    by_crate: dict[str, dict[Edit, str]] = collections.defaultdict(dict)
    for edit, total in left.items():
        by_crate[edit.crate][edit] = total
    print(f"wrong bodies: {len(edits) - len(left)} as mutants/tried has them, {len(left)} to be tried", flush=True)
    failed = 0
    for fates, lines in in_lanes(by_crate, words.j, try_crate):
        stamps.settle(fates, sums)
        failed += sum(fault is not None for fault in fates.values())
        print(lines, flush=True)
    print(f"{len(edits) - failed} passed, {failed} failed")
    return 1 if failed else 0


if __name__ == "__main__":
    sys.exit(main())
