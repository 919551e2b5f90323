"""Shared code of the checks under Pacemaker: what they need, and the build of the bridge, tests/pacemaker."""
import os
import shutil
import subprocess

import helper

FOLDER = os.path.join(helper.TOP, "tests/pacemaker")
EXECD = "/usr/lib/pacemaker/pacemaker-execd"
LIBRARIES = ("libqb", "glib-2.0", "libxml-2.0", "pacemaker-lrmd")
NAMESPACES = ("unshare", "--mount", "--net", "--pid", "--fork", "--mount-proc", "true")


def succeeds(*words: str) -> bool:
    return subprocess.run(words, stdin=subprocess.DEVNULL, capture_output=True, check=False).returncode == 0


def why_not(*commands: str) -> str:
    """Why nothing can be tested under Pacemaker here, by these commands and those of a build; empty if it can."""
    if os.geteuid() != 0 or not succeeds(*NAMESPACES):
        return "it needs root and namespaces"
    missing = [name for name in (EXECD, "cc", "make", "pkg-config", *commands) if not shutil.which(name)]
    if missing:
        return f"there is no {missing[0]}"
    return "" if succeeds("pkg-config", "--exists", *LIBRARIES) else "there are no headers of Pacemaker and libqb"


def build(folder: str, *names: str) -> None:
    """Builds programs of tests/pacemaker in a directory."""
    subprocess.run(["make", "--silent", f"--directory={FOLDER}", f"OUT={folder}", *(f"{folder}/{name}" for name in names)], check=True)
