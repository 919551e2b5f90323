"""Shared code of the tests: the program, a directory for each test, its agents, the lines of commands, and runs with input and output; the
marks of tests, and their limit of time. They are run by pytest, with tests/conftest.py, or by one_by_one.py. A failing test prints how to
repeat it, with the numbers that it asked for; a random test, which asked for SEED, leaves its directory, with its input, in
tests/failed."""
import contextlib
import faulthandler
import functools
import inspect
import json
import os
import re
import shlex
import shutil
import signal
import subprocess
import sys
import tempfile
import threading
import time
import unittest
import unittest.mock

import schema

TOP = os.path.dirname(os.path.dirname(os.path.dirname(os.path.abspath(__file__))))
PROGRAM = os.path.realpath(os.environ.get("PROGRAM") or os.path.join(TOP, "crates/ocfexec/out/ocfexec"))
PARTS = ("part-a", "part-b")
MEMORY = "/dev/shm"
FAILED = os.path.join(TOP, "tests/failed")
# how many of the last lines are shown if another one did not come, and for how many seconds one is waited for; scaled up on a busy machine,
# at most this many times
LAST, PATIENCE, SLOWER = 10, 60, 4
# where the system reports for how long processes waited; for how many seconds in a test a quiet machine holds processes back at most; how
# many times slower a busy one is at least; and for how many seconds that may hold a process back
PRESSURE, QUIET, BUSY, BURST = "/proc/pressure", 0.25, 1.2, 10
# how many seconds a test may take, or 0 for as many as it likes, and how many more once what it started was ended; and how many a whole
# run may
LIMIT = int(os.environ.get("TIME_LIMIT", 300))
GRACE, WHOLE = LIMIT / 10, 280
# the lines about a process that has not ended a tenth of a second after it was killed, and about its end: on a busy machine that is no
# fault of the program
STILL_ALIVE = re.compile(r"ocfexec: (?:\S+ waits for )?pid \d+ \([^\n]*\)[^\n]* is still alive after SIGKILL\n"
                         r"|ocfexec: \S+ waits no longer: pid \d+ of [^\n]* has ended\n")
# the lines about what an interrupted action left: an opening has them if that lives, or has just ended
HOLDS = re.compile(r"ocfexec: \S+ waits (?:for pid \d+ of [a-z-]+, at most \d+ s more|no longer: pid \d+ of [a-z-]+ has ended)\n")
# what runs the tests, the numbers that the current test asked for, and for how long processes had waited when it began
RUNNER = "-m pytest" if "pytest" in sys.modules else "tests/lib/one_by_one.py"
numbers, waited_before = {}, [0.0]

# The program names the signals that are ignored when it starts, such as those ignored by nohup or a script's `&`. Signals that Python
# itself ignores have their default action in the processes that it starts.
for ignored in signal.valid_signals() - {signal.SIGPIPE, signal.SIGXFSZ}:
    # (xdist may run tests in another thread, where no action can be set)
    if signal.getsignal(ignored) == signal.SIG_IGN and threading.current_thread() is threading.main_thread():
        signal.signal(ignored, signal.SIG_DFL)
# (a service's standard error is the system's journal, and not that of the programs which are tested)
os.environ.pop("JOURNAL_STREAM", None)
# (if python3 is a script that looks for one, as that of pyenv, each start of it takes as long again)
os.environ["PATH"] = os.pathsep.join([os.path.dirname(sys.executable), os.environ["PATH"]])


def number(name, default):
    """A number that the environment may set, as ROUNDS or SEED."""
    numbers[name] = int(os.environ.get(name, default))
    return numbers[name]


def slow(test):
    """Marks a test, or a class of tests, that FAST leaves out."""
    test.is_slow = True
    return unittest.skipIf(os.environ.get("FAST"), "slow")(test)


def alone(test):
    """Marks a test, or a class of tests, beside which nothing runs, as it measures time or load."""
    test.is_alone = True
    return test


def needs(name):
    """Marks a class of tests that need the program of this directory, tests/trials or tests/scenarios."""
    def marked(case):
        case.needed = (*case.needed, name)
        return case
    return marked


def in_memory(case):
    """Marks a class of tests whose runs sync thousands of times: their files are in memory, if programs can be run there. The data of a
    killed program is there all the same."""
    case.temporary = MEMORY if os.access(MEMORY, os.W_OK) and not os.statvfs(MEMORY).f_flag & os.ST_NOEXEC else None
    return case


def register(name, kind, provider="test", **params):
    return {"op": "register", "id": name, "provider": provider, "type": kind, "params": params}


def action(name, what, **more):
    return {"op": "exec", "id": name, "action": what, **more}


def lines(*commands):
    """The lines of these commands, in bytes."""
    return "".join(json.dumps(command) + "\n" for command in commands).encode()


def value_of(line):
    """The value of a line of the program, which conforms to the schema of its lines; without its kind, which the schema fixes by the other
    keys."""
    value = json.loads(line)
    schema.hold(value)
    if isinstance(value, dict):
        value.pop("kind", None)
    return value


def replies(out):
    """The values of whole lines, except the ready line of `serve`; text after the last newline is ignored."""
    return [value for value in map(value_of, out.split(b"\n")[:-1]) if not is_ready(value)]


def is_ready(value):
    """Whether a value is the ready line of `serve`."""
    return isinstance(value, dict) and "ready" in value


def opened(out):
    """The whole output of `serve` up to its ready line: the report of its opening, and this line."""
    *report, ready = opening(iter(out.splitlines(keepends=True)))
    return report, ready


def opening(lines):
    """The same for lines as they come; no later one is read. It fails if another line comes before the ready line, or if the ready line
    counts another report."""
    values = []
    for line in lines:
        assert line.endswith(b"\n"), f"the output ends amid its opening: {line}"
        values.append(value_of(line))
        if not is_notice(values[-1]):
            break
    assert values and is_ready(values[-1]), f"it does not say after its report that it is ready: {values[-3:]}"
    found = [value["outcome"] for value in values[:-1]]
    wanted = [values[-1][word] for word in ("interrupted", "dropped")]
    assert wanted == [found.count(word) for word in ("interrupted", "dropped")] and sum(wanted) == len(found), (found, values[-1])
    assert not any("tag" in value for value in values), "an opening has no tags"
    return values


def bare(value):
    """A refusal in the form of `run`, without the key and the sentence of `serve`; any other value unchanged."""
    return {key: value[key] for key in ("error", "number")} if "error" in value else value


def is_notice(value, **wanted):
    """Whether a value is a notice, with these values of its keys."""
    return "outcome" in value and all(value[key] == part for key, part in wanted.items())


def result_of(notice):
    """A notice of `serve` as a result in its resource's history, which has none of these keys."""
    others = ("id", "kind", "key", "expect", "failed", "lives", "reason", "signal", "tag")
    return {key: part for key, part in notice.items() if key not in others}


def run(*words, sent=b"", **how):
    """A whole run, which gets all its input at once; one of serve that ends well has sent its ready line."""
    done = subprocess.run([PROGRAM, *words], input=sent, capture_output=True, **{"timeout": WHOLE, **how})
    if words[:1] == ("serve",) and done.returncode == 0 and "--help" not in words:
        opened(done.stdout)
    return done


def journal_stream(err):
    """The variable that names a program's standard error, which is this open file, as the stream to the system's journal."""
    found = os.fstat(err)
    return {"JOURNAL_STREAM": f"{found.st_dev}:{found.st_ino}"}


def explained(*words, sent=b"", **how):
    """A whole run whose standard error is named as the stream to the system's journal: so a fault is explained there."""
    with tempfile.TemporaryFile() as err:
        done = subprocess.run([PROGRAM, *words], input=sent, stdout=subprocess.PIPE, stderr=err,
                              env={**os.environ, **journal_stream(err.fileno())}, **{"timeout": WHOLE, **how})
        err.seek(0)
        done.stderr = err.read()
    return done


def parts(folder):
    """The bytes of a journal's two parts."""
    found = []
    for name in PARTS:
        with open(os.path.join(folder, name), "rb") as part:
            found.append(part.read())
    return found


def shown(folder):
    """The output of `show` for a journal."""
    done = run("show", "--journal", folder)
    assert done.returncode == 0, done.stderr
    return done.stdout


def results(folder):
    """The results of each resource of a journal, by its id."""
    found = replies(shown(folder))
    return {name: found[2 + 2 * place]["results"] for place, name in enumerate(found[0]["resources"])}


def terminal_text(master):
    """All that is written to a pseudo-terminal until its other side is closed; its master side, which is closed here."""
    text = b""
    with os.fdopen(master, "rb", buffering=0) as terminal:
        # the end of a terminal is an error of input
        with contextlib.suppress(OSError):
            while part := terminal.read(1 << 16):
                text += part
    return text.decode().replace("\r\n", "\n")


def stat_of(pid):
    """The fields of /proc/PID/stat after the name: the state, the parent, and others."""
    with open(f"/proc/{pid}/stat", encoding="ascii", errors="replace") as stat:
        return stat.read().rsplit(")", 1)[1].split()


def processor_time(pid):
    """The processor time of a process, in seconds."""
    fields = stat_of(pid)
    return (int(fields[11]) + int(fields[12])) / os.sysconf("SC_CLK_TCK")


def kib(pid, name):
    """The resident memory of a process in KiB: now, as VmRSS, or the greatest that it ever was, as VmHWM."""
    with open(f"/proc/{pid}/status", encoding="ascii") as status:
        return next(int(line.split()[1]) for line in status if line.startswith(name + ":"))


@functools.cache
def build(name):
    """Builds the program of a directory, tests/trials or tests/scenarios, if it is missing or was built from other texts; several
    processes may do so at once."""
    return subprocess.run([os.path.join(TOP, "tests", name, "build.sh")], capture_output=True, text=True)


def built(name):
    """The program of such a directory."""
    if there := os.environ.get(f"BUILT_{name.upper()}"):
        return there
    done = build(name)
    assert done.returncode == 0, f"tests/{name}/build.sh: {done.stderr}"
    return done.stdout.strip()


def trials(plain=False):
    """The trials with AddressSanitizer, or without, which takes a quarter of the time."""
    return os.path.join(os.path.dirname(built("trials")), "plain") if plain else built("trials")


def shim(source, folder):
    """A library from this source in C, of tests/shims, to be loaded before the C library."""
    built = os.path.join(folder, os.path.basename(source).removesuffix(".c") + ".so")
    subprocess.run(["cc", "-O1", "-shared", "-fPIC", "-o", built, os.path.join(TOP, "tests/shims", source), "-ldl"], check=True)
    return built


def is_alive(pid):
    """Whether a process runs, and is not a zombie."""
    try:
        return stat_of(pid)[0] != "Z"
    except OSError:
        return False


def descendants(pid):
    """The processes below this one."""
    parents, found = {}, {pid}
    for name in filter(str.isdigit, os.listdir("/proc")):
        with contextlib.suppress(OSError):
            parents[int(name)] = int(stat_of(name)[1])
    while more := {child for child, parent in parents.items() if parent in found} - found:
        found |= more
    return found - {pid}


def slowness():
    """How many times longer than on a quiet machine things may take now: by the share of the last minute, or of the last ten seconds, in
    which a process waited for a processor; or, if the system does not report it, by the number of running processes per processor."""
    try:
        with open(f"{PRESSURE}/cpu", encoding="ascii") as pressure:
            shares = [float(word.partition("=")[2]) / 100 for word in pressure.readline().split()[1:3]]
        return 1 / max(0.01, 1 - max(shares))
    except OSError:
        return max(1.0, os.getloadavg()[0] / len(os.sched_getaffinity(0)))


def waited():
    """For how many seconds since its start the machine had a process that waited for a processor, or one that waited for a disk; None if
    the system does not report it."""
    total = 0
    try:
        for name in ("cpu", "io"):
            with open(f"{PRESSURE}/{name}", encoding="ascii") as pressure:
                total += int(pressure.readline().rpartition("total=")[2])
    except OSError:
        return None
    return total / 1e6


def held_back():
    """For how many seconds at most the machine may have held a process back since the current test began. Each moment in which one waits is
    reported: so no burst of other work, whenever it came, explains more. On a quiet machine it is next to nothing."""
    now = waited()
    if now is None:
        return BURST if slowness() > BUSY else 0
    return now - waited_before[0]


def more_patience(seconds):
    """How many seconds more than this something is waited for now."""
    return seconds * (min(SLOWER, slowness()) - 1) + min(BURST, held_back())


def keep(folder, into):
    """Copies a directory in place of an earlier copy, except anything but plain files."""
    shutil.rmtree(into, ignore_errors=True)
    try:
        shutil.copytree(folder, into, symlinks=True)
    except OSError:
        # a named pipe, or a file that an agent just removed
        pass


class Running:
    """A running program, whose lines are kept with the moments at which they came, except its ready line: `opening_lines` are the report
    and that line. Its standard error goes to a file, by default one that no check reads."""

    # what reads a line; a client's lines are not all of the program
    value_of = staticmethod(value_of)

    def __init__(self, *words, err=None, program=None, **how):
        with open(err, "wb") if err else tempfile.TemporaryFile() as file:
            # (an open file of its own, since reading moves the position at which the program writes)
            self.err = None if err else open(f"/proc/self/fd/{file.fileno()}", "rb")
            self.run = subprocess.Popen([program or PROGRAM, *words], stdin=subprocess.PIPE, stdout=subprocess.PIPE, stderr=file, **how)
        self.lines, self.came, self.is_over = [], threading.Condition(), False
        self.opening_lines, self.serves = None, words[:1] == ("serve",)
        self.reader = threading.Thread(target=self.read, daemon=True)
        self.reader.start()

    def read(self):
        for line in self.run.stdout:
            with self.came:
                # (no other line begins so)
                if self.serves and self.opening_lines is None and line.startswith(b'{"dropped":'):
                    self.opening_lines = [text.encode() for _, text in self.lines] + [line]
                else:
                    self.lines.append((time.monotonic(), line.decode()))
                self.came.notify_all()
        with self.came:
            self.is_over = True
            self.came.notify_all()

    def send(self, *commands):
        self.write(lines(*commands))

    def write(self, text):
        try:
            self.run.stdin.write(text)
            self.run.stdin.flush()
        except BrokenPipeError:
            self.reader.join(PATIENCE)
            raise AssertionError(f"it takes no more lines\n{self.state()}") from None

    def state(self):
        """Whether it runs, its last lines, and its standard error."""
        status = self.run.poll()
        with self.came:
            last = "".join(line for _, line in self.lines[-LAST:])
            found = f"it {'runs' if status is None else f'ended with {status}'}; of {len(self.lines)} lines the last ones:\n{last}"
        if self.err:
            self.err.seek(0)
            said = b"".join(self.err.readlines()[-LAST:]).decode(errors="replace")
            found += f"its standard error ends with:\n{said}" if said else "its standard error is empty\n"
        return found

    def values(self):
        """The values of all whole lines that have come."""
        with self.came:
            return [self.value_of(line) for _, line in self.lines if line.endswith("\n")]

    def notices(self):
        """The notices that have come."""
        return [value for value in self.values() if is_notice(value)]

    def awaits(self, holds, seconds=PATIENCE, after=0):
        """The moment and the value of the first line for which this holds, after this many; it fails if none comes in time."""
        found = self.finds(holds, seconds, after)
        if found[0] is None:
            found = self.finds(holds, more_patience(seconds), after)
        if found[0] is None:
            end = "before the end of its output" if self.is_over else f"within {seconds} s"
            raise AssertionError(f"no such line came {end}; {self.state()}")
        return found

    def finds(self, holds, seconds=10, after=0):
        """The same, or two None if none comes in time, or the output has ended."""
        until, at = time.monotonic() + seconds, after
        with self.came:
            while True:
                while at < len(self.lines):
                    value = self.value_of(self.lines[at][1])
                    if holds(value):
                        return self.lines[at][0], value
                    at += 1
                if self.is_over or not self.came.wait(max(0, until - time.monotonic())):
                    return None, None

    def ready(self, seconds=PATIENCE):
        """Its ready line."""
        until = time.monotonic() + seconds + more_patience(seconds)
        with self.came:
            while self.opening_lines is None and not self.is_over and time.monotonic() < until:
                self.came.wait(until - time.monotonic())
        if self.opening_lines is None:
            raise AssertionError(f"it does not say that it is ready; {self.state()}")
        return opening(self.opening_lines)[-1]

    def ends(self, seconds=PATIENCE):
        """The exit status, after the end of its input; one of serve that ends well has sent its ready line."""
        self.run.stdin.close()
        with contextlib.suppress(subprocess.TimeoutExpired):
            self.run.wait(seconds)
        try:
            status = self.run.wait(more_patience(seconds))
        except subprocess.TimeoutExpired:
            raise AssertionError(f"it did not end within {seconds} s after the end of its input; {self.state()}") from None
        self.reader.join()
        if self.serves and status == 0:
            self.ready()
        return status

    def killed(self):
        self.run.kill()
        self.run.wait()
        self.reader.join()
        with contextlib.suppress(BrokenPipeError):
            self.run.stdin.close()
        self.run.stdout.close()
        if self.err:
            self.err.close()


class Noted:
    """A result of unittest or of pytest for one test, which notes whether that fails. A part of the test that fails is named."""

    def __init__(self, result):
        self.result, self.has_failed, self.failfast = result, False, getattr(result, "failfast", False)

    def __getattr__(self, name):
        return getattr(self.result, name)

    def addFailure(self, test, error):
        self.has_failed = True
        self.result.addFailure(test, error)

    def addError(self, test, error):
        self.has_failed = True
        self.result.addError(test, error)

    def addSubTest(self, test, part, error):
        if error:
            print(f"failed: {part}", flush=True)
        # (pytest takes one failure of a test)
        if error and (isinstance(self.result, unittest.TestResult) or not self.has_failed):
            (self.addFailure if issubclass(error[0], test.failureException) else self.addError)(test, error)


class Check(unittest.TestCase):
    """A check has a directory of its own, `here`, which is also the root of its agents. It ends after `time_limit` seconds."""

    longMessage = True
    time_limit, needed, temporary, here = LIMIT, (), None, None

    def setUp(self):
        for name in self.needed:
            if f"BUILT_{name.upper()}" not in os.environ:
                build(name)
        # (a build counts for no test)
        self.is_over, self.is_late = threading.Event(), False
        if self.time_limit:
            threading.Thread(target=self.times_out, args=[time.monotonic()], daemon=True).start()
        self.addCleanup(self.in_time)
        self.here = tempfile.mkdtemp()

    def times_out(self, began):
        """Ends what the test started once it has taken too long, which is longer on a busy machine; and then its process, if it goes on."""
        left = self.time_limit
        while not self.is_over.wait(left):
            left = began + self.time_limit * min(SLOWER, slowness()) - time.monotonic()
            if left <= 0 and self.is_late:
                faulthandler.dump_traceback()
                os._exit(1)
            if left <= 0:
                self.is_late, left = True, GRACE
                for pid in descendants(os.getpid()):
                    with contextlib.suppress(ProcessLookupError):
                        os.kill(pid, signal.SIGKILL)

    def in_time(self):
        self.is_over.set()
        if self.is_late:
            self.fail(f"it took longer than {self.time_limit} s")

    def run(self, result=None):
        numbers.clear()
        waited_before[0] = waited() or 0
        noted = Noted(self.defaultTestResult() if result is None else result)
        with unittest.mock.patch.object(tempfile, "tempdir", self.temporary or tempfile.tempdir):
            try:
                super().run(noted)
            except KeyboardInterrupt:
                self.doCleanups()
                raise
            finally:
                if noted.has_failed:
                    self.say_again()
                self.clear()
        return result

    def say_again(self):
        """Prints how to repeat a failing test; the input and the files of a random one are kept."""
        path = os.path.relpath(inspect.getfile(type(self)), TOP)
        words = [sys.executable, *RUNNER.split(), f"--program={PROGRAM}", path, "--only", self.shortDescription() or self.id()]
        again = shlex.join([*(f"{name}={value}" for name, value in numbers.items()), *words])
        print(f"once more: {again}", flush=True)
        if "SEED" in numbers and self.here:
            folder = os.path.join(FAILED, os.path.basename(path).removesuffix(".py"), self._testMethodName)
            self.note("again", again.encode() + b"\n")
            keep(self.here, folder)
            print(f"kept: {folder}", flush=True)

    def clear(self):
        # an agent that ends just then may still write there
        for _ in range(5):
            if not self.here or not os.path.exists(self.here):
                return
            shutil.rmtree(self.here, ignore_errors=True)
            if os.path.exists(self.here):
                time.sleep(1)

    def place(self, name):
        return os.path.join(self.here, name)

    def note(self, name, text):
        """Leaves the input of a random test in its directory, which is kept if the test fails."""
        with open(self.place(name), "ab") as file:
            file.write(text)

    def agent(self, kind, text):
        """An agent of the provider test, as a script of the shell."""
        folder = self.place("resource.d/test")
        os.makedirs(folder, exist_ok=True)
        path = os.path.join(folder, kind)
        with open(path, "w", encoding="utf-8") as file:
            file.write("#!/bin/sh\n" + text)
        os.chmod(path, 0o755)

    def started(self, *words, **how):
        """A program that runs, and is ended at the end of the check."""
        run = Running(*words, **how)
        self.addCleanup(run.killed)
        return run

    def journal_of(self, name, *found):
        """The directory of a journal whose parts are these bytes."""
        folder = self.journal(name)
        for file, text in zip(PARTS, found):
            with open(os.path.join(folder, file), "wb") as part:
                part.write(text)
        return folder

    def journal(self, name="journal"):
        os.mkdir(self.place(name))
        return self.place(name)

    def holds(self, what, name):
        self.assertTrue(what, name)

    def eventually(self, what, holds, seconds=PATIENCE):
        """Waits until this returns a true value, and returns it; it fails if that takes longer than this many seconds."""
        until = time.monotonic() + seconds
        while not (found := holds()):
            if time.monotonic() > until and time.monotonic() > until + more_patience(seconds):
                self.fail(f"{what}: not within {seconds} s")
            time.sleep(0.005)
        return found

    def numbers_in(self, path):
        """The numbers in a file that an agent writes, as soon as its last line is complete."""
        def written():
            if not os.path.exists(path):
                return []
            with open(path, encoding="ascii") as file:
                text = file.read()
            return [int(word) for word in text.split()] if text.endswith("\n") else []
        return self.eventually(f"numbers in {os.path.basename(path)}", written)

    def came_often(self, least, count, what):
        """Checks that something came this many times within a time; on a machine that held processes back, any number will do."""
        if count < least and held_back() < QUIET:
            self.fail(f"{what}: {count}, not {least}, on a machine that held processes back for {held_back():.2f} s")

    def took_less(self, most, took, what):
        """Checks that something took less than this many seconds; scaled up on a busy machine, which may also have held it back."""
        if took >= most:
            slower, held = slowness(), held_back()
            self.assertLess(took, most * slower + held, f"seconds of {what}, on a machine that is {slower:.1f} times slower than a quiet "
                                                        f"one, and held processes back for {held:.2f} s")
