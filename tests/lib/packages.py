"""Shared code of the checks of Debian packages: whether they can be built here, their build, and dpkg(1) on a directory in place of this
machine."""
import os
import shutil
import subprocess
import tempfile

import helper

GATE = os.path.join(helper.TOP, "crates/ocfexec/out/gate")
# (where dpkg looks for programs of an administrator)
VARIABLES = {**os.environ, "PATH": f"{os.environ['PATH']}:/usr/sbin:/sbin"}


def why_none() -> str:
    """Why no package can be built here; empty if one can."""
    if not (shutil.which("dpkg-deb") and shutil.which("dpkg")):
        return "no dpkg"
    return "" if os.path.exists(GATE) else "no gate has passed on these programs"


def output(*words: str, **how: object) -> str:
    """What a command prints, which ends well, without the last newline."""
    done = subprocess.run(words, stdin=subprocess.DEVNULL, stdout=subprocess.PIPE, stderr=subprocess.PIPE, text=True,
                          check=False, **{"env": VARIABLES, **how})
    assert done.returncode == 0, f"{' '.join(words)}: it ended with {done.returncode}:\n{done.stdout}{done.stderr}"
    return done.stdout.rstrip("\n")


def build(folder: str) -> str:
    """The file of the package of the programs, which is built in a directory, with that of the library."""
    return output(os.path.join(helper.TOP, "package/deb.sh"), folder)


def new_root(root: str) -> None:
    """Makes a directory into which packages can be installed."""
    for name in ("info", "updates"):
        os.makedirs(os.path.join(root, "var/lib/dpkg", name))
    with open(os.path.join(root, "var/lib/dpkg/status"), "wb"):
        pass


def dpkg(root: str, *words: str) -> str:
    """What dpkg(1) prints, which ends well, in a directory, or on this machine if that is `/`."""
    if root == "/":
        return output("dpkg", *words)
    with tempfile.NamedTemporaryFile() as log:
        return output("dpkg", f"--root={root}", "--force-not-root", "--force-depends", "--force-script-chrootless", f"--log={log.name}",
                      *words)
