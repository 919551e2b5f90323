"""What a command shows of a journal, in a pipe and on a terminal."""
import os
import pty
import signal
import subprocess
import time

import helper


class Shown(helper.Check):
    """A check of one command; `folder` is the directory of the journal."""
    WORD = "status"
    folder: str

    def command(self, *words: str) -> list[str]:
        return [helper.PROGRAM, self.WORD, "--journal", self.folder, *words]

    def piped(self, *words: str, **variables: str) -> str:
        done = subprocess.run(self.command(*words), capture_output=True, env={**os.environ, **variables}, timeout=helper.WHOLE)
        self.assertEqual((done.returncode, done.stderr), (0, b""), done.stdout)
        return done.stdout.decode()

    def on_terminal(self, *words: str, columns: int | None = None, seconds: float | None = None, **variables: str) -> str:
        """What a terminal gets; with `seconds` the program is interrupted after that time."""
        env = {key: value for key, value in os.environ.items() if key not in ("NO_COLOR", "COLUMNS")} | {"TERM": "xterm", **variables}
        if columns:
            env["COLUMNS"] = str(columns)
        mine, theirs = pty.openpty()
        run = subprocess.Popen(self.command(*words), stdin=theirs, stdout=theirs, stderr=theirs, env=env)
        os.close(theirs)
        if seconds:
            time.sleep(seconds)
            run.send_signal(signal.SIGINT)
        text = helper.terminal_text(mine)
        self.assertEqual(run.wait(helper.PATIENCE), -signal.SIGINT if seconds else 0, text)
        return text
