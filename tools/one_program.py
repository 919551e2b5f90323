#!/usr/bin/env python3
"""One program that has many edits in it, each to be had by its number, so that all of them are compiled together and each is tried by the
checks of the built program; a part of random_edits.py.

A function with edits has a body for each of them, and the first one. Which one runs is said by a number in the program's data that the
compiler cannot foresee: sources have a function that gives MARK, and the kit's clang is replaced by a script that has it read those eight
bytes instead. A copy of the program with other bytes there is the program with one edit. So are the trials and the player of scenarios."""
import collections
import concurrent.futures
import contextlib
import os
import queue
import re
import shutil
import signal
import subprocess
import sys
import tempfile
import time
from collections.abc import Callable, Iterable, Iterator
from dataclasses import dataclass
from pathlib import Path
from typing import Protocol

from wrong_bodies import TOP, copied

sys.path.append(str(TOP / "tests/lib"))
import one_by_one  # noqa: E402
from helper import slowness  # noqa: E402

# the bytes that stand for a number, as they are in the sources; the number of no edit is 0
MARK = 0x5EED_5EED_7777_0000
CLANG = f"""
if [ -f module.bc ]; then
    # (two programs may be made of one module, at once)
    exec 9> module.lock
    flock 9
    if [ ! -f module.ll ]; then
        "$tool" --no-default-config -S -emit-llvm -Xclang -disable-llvm-passes -O0 -x ir module.bc -o module.ll
        sed -i 's/store i64 {MARK}, ptr/%wrong_body = load volatile i64, ptr @the_wrong_body\\n  store i64 %wrong_body, ptr/' module.ll
        if grep -q the_wrong_body module.ll; then
            echo '@the_wrong_body = global i64 {MARK}, align 8' >> module.ll
            "$tool" --no-default-config -c -emit-llvm -Xclang -disable-llvm-passes -O0 -x ir module.ll -o module.bc
        fi
    fi
    exec 9>&-
fi
exec "$tool" "$@"
"""
# the directories of tests that see the program itself: those of the repository would see the text of an edit; how many seconds a module of
# them may take; and a test that failed
CHECKS, LIMIT = ["cli", "journal", "agents", "crash", "load"], 600
FAILED, ENDED = re.compile(r"^failed +[0-9.]+ s  (.*)$", re.MULTILINE), "it ended with status"
# what is built, by which script, and the files that a copy has of it
BUILDS = {"": "package/program.sh build", "trials": "tests/trials/build.sh", "scenarios": "tests/scenarios/build.sh"}
FILES = {"": ["ocfexec", "ocfexec-run-agent"], "trials": ["trials", "plain"], "scenarios": ["scenarios"]}


class Edit(Protocol):
    """An edit of a source."""
    crate: str
    path: str


# what an edit makes of the bodies of functions in the text of its source, by where each begins and ends
Bodies = Callable[[str, Edit], dict[tuple[int, int], str]]


def with_bodies(text: str, bodies: dict[tuple[int, int], dict[int, str]]) -> str:
    """A source where the bodies at these places, each from its brace to the closing one, are chosen by a number."""
    for (begin, last), by_number in sorted(bodies.items(), reverse=True):
        chosen = "".join(f"if crate::wrong_body() == {number}u64 {{{body}}} else " for number, body in by_number.items())
        text = f"{text[:begin]}\n{chosen}{{{text[begin:last]}}}\n{text[last:]}"
    return text


def put_in(top: Path, edits: Iterable[Edit], bodies_with: Bodies) -> dict[int, Edit]:
    """Puts edits into the sources of a copy, and returns them by their numbers; those that change no body of a function are left out."""
    by_file: dict[Path, list[Edit]] = {}
    for edit in edits:
        by_file.setdefault(top / "crates" / edit.crate / edit.path, []).append(edit)
    numbers: dict[int, Edit] = {}
    for path, of_file in by_file.items():
        text, bodies = path.read_text(encoding="utf-8"), collections.defaultdict(dict)
        for edit in of_file:
            if changed := bodies_with(text, edit):
                numbers[len(numbers) + 1] = edit
                for span, body in changed.items():
                    bodies[span][len(numbers)] = body
        path.write_text(with_bodies(text, bodies), encoding="utf-8")
    for crate in {edit.crate for edit in numbers.values()}:
        root = next(path for name in ("lib", "main") if (path := top / "crates" / crate / f"src/{name}.rt").exists())
        with open(root, "a", encoding="utf-8") as file:
            file.write(f"\npub(crate) fn wrong_body() -> u64 {{\n    {MARK}\n}}\n")
    return numbers


def build(top: Path) -> bool:
    """Compiles the programs of a copy, with a kit that makes MARK a number in memory. Returns whether it could."""
    kit = top / "build/marked-kit"
    words = ["bash", "-euc", f". tests/lib/kit.sh; mkdir -p build; copy_kit {kit}; check_nothing {kit}; replace_tool {kit} clang"]
    subprocess.run(words, cwd=top, input=CLANG, text=True, check=True)
    environment = {**os.environ, "PATH": f"{kit}/bin:{os.environ['PATH']}"}
    with open(top / "build/log", "w", encoding="utf-8") as log:
        calls = [subprocess.Popen(words.split(), cwd=top, env=environment, stdin=subprocess.DEVNULL, stdout=log, stderr=log)
                 for words in BUILDS.values()]
        return not any([call.wait() for call in calls])


def numbered(top: Path, number: int, to: Path) -> None:
    """Writes the programs of a copy with this number into a directory."""
    for kind, files in FILES.items():
        (to / kind).mkdir(parents=True, exist_ok=True)
        for name in files:
            content = (top / (f"tests/{kind}/out" if kind else "build") / name).read_bytes()
            # (a program that is there already may be running)
            (to / kind / name).unlink(missing_ok=True)
            (to / kind / name).write_bytes(content.replace(MARK.to_bytes(8, "little"), number.to_bytes(8, "little")))
            (to / kind / name).chmod(0o755)


@dataclass
class Lane:
    """A copy of the repository in which checks run, and a directory for programs."""
    top: Path
    programs: Path

    def failed(self, module: str, *words: str) -> set[str]:
        """The tests of a module that fail with the programs, each after its file."""
        environment = {**os.environ, "FAST": "1", "PROGRAM": str(self.programs / "ocfexec"),
                       **{f"BUILT_{kind.upper()}": str(self.programs / kind / kind) for kind in BUILDS if kind}}
        with open(self.programs / "said", "w+", encoding="utf-8", errors="replace") as said:
            running = subprocess.Popen([sys.executable, self.top / "tests/lib/one_by_one.py", *words, self.top / module], cwd=self.top,
                                       env=environment, stdin=subprocess.DEVNULL, stdout=said, stderr=said)
            late = set()
            try:
                running.wait(LIMIT * slowness())
            except subprocess.TimeoutExpired:
                late = {f"{module}: {ENDED} {signal.SIGTERM}, late"}
            # (it ends what it started)
            running.terminate()
            running.wait()
            said.seek(0)
            return set(FAILED.findall(said.read())) or late


class Trial:
    """The programs of a copy, and the fast checks of them: each with what fails of it without an edit, the quickest first."""

    def __init__(self, top: Path, room: Path, lanes: int):
        self.top, self.lanes, self.shown = top, queue.SimpleQueue(), collections.Counter()
        for number in range(lanes):
            self.lanes.put(Lane(room / f"top{number}", room / f"programs{number}"))
            shutil.copytree(TOP, room / f"top{number}", symlinks=True, ignore=shutil.ignore_patterns(".git", "out", "build"))
        self.pool = concurrent.futures.ThreadPoolExecutor(lanes)
        found = one_by_one.modules([str(TOP / "tests" / folder) for folder in CHECKS])
        self.always = [(module, always) for module, (always, _) in sorted(zip(found, self.pool.map(self.without, found)),
                                                                          key=lambda pair: pair[1][1])]

    @contextlib.contextmanager
    def lane(self, number: int) -> Iterator[Lane]:
        lane = self.lanes.get()
        try:
            numbered(self.top, number, lane.programs)
            yield lane
        finally:
            self.lanes.put(lane)

    def without(self, module: str) -> tuple[set[str], float]:
        """What fails without an edit, and the seconds that it took."""
        began = time.monotonic()
        with self.lane(0) as lane:
            return lane.failed(module), time.monotonic() - began

    def fate(self, number: int, crate: str = "") -> str:
        """What the tests say of an edit. One counts if it fails twice, and not beside the same load without the edit. The modules come
        first that showed most edits so far, of this crate and then of others."""
        with self.lane(number) as lane:
            for module, always in sorted(self.always, key=lambda pair: [-self.shown[crate, pair[0]], -self.shown[pair[0]]]):
                # (where none fails without an edit, the first that fails is enough)
                found = lane.failed(module, *([] if always else ["-f"])) - always
                sentence = min(found, default="").partition(": ")[2]
                # (a module that ended in another way is run whole)
                again = ["--only", sentence] if not sentence.startswith(ENDED) else []
                if not found or min(found) not in lane.failed(module, *again):
                    continue
                numbered(self.top, 0, lane.programs)
                if min(found) not in lane.failed(module, *again):
                    self.shown.update([module, (crate, module)])
                    return f"refused by {min(found)}"
                numbered(self.top, number, lane.programs)
        return "NOT REFUSED"


def fates(edits: Iterable[Edit], bodies_with: Bodies, lanes: int) -> Iterator[tuple[Edit, str]]:
    """What the fast checks of the built program say of edits that compile, as they come. Those that are in no body are left out."""
    with copied() as top, tempfile.TemporaryDirectory() as room:
        numbers = put_in(top, edits, bodies_with)
        if not numbers:
            return
        if not build(top):
            sys.exit((top / "build/log").read_text(encoding="utf-8")[-2000:])
        trial = Trial(top, Path(room), lanes)
        calls = {trial.pool.submit(trial.fate, number, edit.crate): edit for number, edit in numbers.items()}
        yield from ((calls[call], call.result()) for call in concurrent.futures.as_completed(calls))
