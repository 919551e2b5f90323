"""Drives `ocfexec serve`: sends it commands, and delivers each result once, even if the program was killed and started again.

    from ocfexec import Ended, Executor

    with Executor(["ocfexec", "serve", "--journal", "/var/lib/ocfexec"], patience=30) as executor:
        for result in executor.reported:  # what was interrupted or dropped when the previous program ended
            print(result.id, result.action, result.outcome)
        executor.register("web", "heartbeat:nginx", configfile="/etc/nginx/nginx.conf")
        call = executor.exec("web", "start", timeout=60000)
        try:
            print(executor.result(call).outcome)
        except Ended:
            executor.start()  # opens the journal again, which has the outcome of the call
            print(executor.result(call).outcome)

`AsyncExecutor` has the same names for asyncio. Each command of docs/FORMAT.md has a method, and `ask` sends any command as a dictionary.
Results and other replies are dataclasses, whose `raw` is the dictionary of the program's line. Milliseconds are those of the program
(`interval`, `timeout=` of an action); waits of this library (`patience`, the `timeout=` of `result` and `events`) are in seconds.

Calls and runs are numbers of one journal. Where an opening finds another one, or an older copy, the caller is told by `on_new_journal`, and
each result of that journal is new; those in its histories are delivered only as `histories`.

Threads: an object belongs to one thread at a time, and an `AsyncExecutor` to its event loop. The library starts no threads. Another
thread may read `pid`, send that process a signal, and write to the descriptor `wake`, which ends a wait of `events`.

It uses only Python's standard library, and needs Linux.
"""
from ._async import AsyncExecutor
from ._errors import AlreadyRunning, Ended, Error, Garbled, Late, NoMetadata, NotStarted, Refused, TooOld
from ._executor import Executor
from ._inbox import REPORTED
from ._values import Failure, Info, Monitor, Ready, Result, Running, Status

__version__ = "0.2.0"
__all__ = ["REPORTED", "AlreadyRunning", "AsyncExecutor", "Ended", "Error", "Executor", "Failure", "Garbled", "Info", "Late", "Monitor",
           "NoMetadata", "NotStarted", "Ready", "Refused", "Result", "Running", "Status", "TooOld", "__version__"]
