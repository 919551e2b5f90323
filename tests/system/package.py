"""The Debian packages of these programs and of the Python library: lintian, if it is installed, finds nothing wrong with them; what they
install, here into a directory of their own, works and is complete; and their removal leaves what is an administrator's. Without a gate that
passed on these programs, or without dpkg, it is skipped."""
import glob
import json
import os
import re
import shutil
import subprocess
import sys
import tempfile
import unittest
from pathlib import Path

import helper
import packages
from helper import PROGRAM
from packages import dpkg, output

NONE = packages.why_none()
DOCUMENTS = ("README.md", "CHANGELOG.md", "docs/GUIDE.md", "docs/CLIENTS.md", "docs/CONTROL.md", "docs/FORMAT.md", "docs/CLUSTER.md",
             "examples/client.py")
PAGES = [f"man/man8/{name}.8.gz" for name in ("ocfexec", "ocfctl", "ocfexec-client")]
COMPLETIONS = ("bash-completion/completions/ocfexec", "bash-completion/completions/ocfctl", "zsh/vendor-completions/_ocfexec",
               "fish/vendor_completions.d/ocfexec.fish")
NAMED = re.compile(r"`([^` \n]*)`")
IS_FILE = re.compile(r"/|\.(?:md|py|sh|service|json)$")
# what a removal leaves, which a purge removes, and what of the journal's directory is left then
SETTINGS, LEFT = {"etc/default/ocfexec", "etc/logrotate.d/ocfexec"}, {"var/lib/ocfexec/part-a"}


def named_in(text: str) -> list[str]:
    """The files that a text names in backticks: words with a slash, or with the ending of a file."""
    return [name for name in NAMED.findall(text) if IS_FILE.search(name)]


def files_in(root: Path) -> set[str]:
    """The files below a directory, but those of dpkg itself."""
    found = {str(path.relative_to(root)) for path in root.rglob("*") if path.is_file() and not path.is_symlink()}
    return {name for name in found if not name.startswith("var/lib/dpkg/")}


def programs_in(folder: Path) -> list[Path]:
    return [path for path in folder.rglob("*") if path.is_file() and not path.is_symlink() and path.stat().st_mode & 0o111]


@unittest.skipIf(NONE, NONE)
class Package(helper.Check):
    deb: str
    library: str
    version: str
    commit: str
    root: Path

    @classmethod
    def setUpClass(cls) -> None:
        """Builds the packages, and installs that of the programs."""
        folder = tempfile.mkdtemp()
        cls.addClassCleanup(shutil.rmtree, folder, ignore_errors=True)
        cls.deb = packages.build(folder)
        [cls.library] = glob.glob(f"{folder}/python3-ocfexec_*_all.deb")
        cls.version = output("dpkg-deb", "--field", cls.deb, "Version")
        cls.commit = Path(packages.GATE).read_text(encoding="ascii").splitlines()[0]
        cls.root = cls.installed(os.path.join(folder, "root"), cls.deb)

    @staticmethod
    def installed(root: str, *debs: str) -> Path:
        """A directory into which these packages are installed."""
        packages.new_root(root)
        dpkg(root, "--install", *debs)
        return Path(root)

    def text(self, name: str) -> str:
        return (self.root / name).read_text(encoding="utf-8")

    @unittest.skipUnless(shutil.which("lintian"), "install the package lintian")
    def test_lintian(self) -> None:
        """lintian finds nothing wrong with the packages"""
        self.assertEqual(output("lintian", "--allow-root", "--fail-on", "error,warning", self.deb, self.library), "")

    def test_version(self) -> None:
        """the version is that of the program, and above that of a package of the commit before"""
        ours = output(PROGRAM, "--version")
        self.assertEqual(output(str(self.root / "usr/bin/ocfexec"), "--version"), ours)
        git, before = ("git", "-C", helper.TOP), f"{self.commit}^"
        before = f"{ours.split()[1]}+{output(*git, 'rev-list', '--count', before)}.{output(*git, 'rev-parse', '--short=12', before)}"
        self.assertEqual(output("dpkg", "--compare-versions", self.version, "gt", before), "")

    def test_documents(self) -> None:
        """the documents are there, and all that README.md names"""
        doc = self.root / "usr/share/doc/ocfexec"
        self.assertEqual([name for name in DOCUMENTS if not (doc / name).is_file() or not (doc / name).stat().st_size], [])
        names = named_in((doc / "README.md").read_text(encoding="utf-8"))
        self.assertIn("/usr/bin/ocfexec", names)
        absent = [name for name in names if not (self.root / name[1:] if name.startswith("/") else doc / name).exists()]
        self.assertEqual(absent, [])

    def test_share(self) -> None:
        """the manual pages and the completions of each shell are there"""
        share = self.root / "usr/share"
        self.assertEqual([name for name in (*PAGES, *COMPLETIONS) if not (share / name).is_file() or not (share / name).stat().st_size], [])

    def test_gate(self) -> None:
        """README.gate names the commit at which the gate passed"""
        self.assertIn(f"commit {self.commit}", self.text("usr/share/doc/ocfexec/README.gate"))

    def test_unit(self) -> None:
        """the unit has the options of /etc/default, and the journal's directory is its owner's alone"""
        self.assertRegex(self.text("lib/systemd/system/ocfexec.service"), r"(?m)/usr/bin/ocfexec serve .* \$OCFEXEC_OPTIONS$")
        self.assertEqual((self.root / "var/lib/ocfexec").stat().st_mode & 0o777, 0o700)

    @unittest.skipUnless(shutil.which("readelf"), "install the package binutils")
    def test_stripped(self) -> None:
        """no program has symbols"""
        programs = programs_in(self.root / "usr")
        self.assertTrue(programs, "programs are installed")
        sections = {path: subprocess.run(["readelf", "-S", path], capture_output=True, text=True, check=False) for path in programs}
        self.assertEqual([path for path, done in sections.items() if ".symtab" in done.stdout + done.stderr], [])

    def test_clients(self) -> None:
        """ocfctl has its help, and the client checks a file, without the package of the library"""
        self.assertNotEqual(output(str(self.root / "usr/bin/ocfctl"), "--help"), "")
        path = self.place("resources.json")
        with open(path, "w", encoding="ascii") as file:
            json.dump({"resources": {}}, file)
        self.assertEqual(output(str(self.root / "usr/libexec/ocfexec/client.py"), "--file", path, "--check"), f"{path}: 0 resources")

    def test_library(self) -> None:
        """the library is imported from where it is installed, with its types and the version of the program"""
        path = self.installed(self.place("root"), self.library) / "usr/lib/python3/dist-packages"
        found = output(sys.executable, "-c", "import ocfexec; print(ocfexec.__version__, ocfexec.__file__)", cwd="/",
                       env={**os.environ, "PYTHONPATH": str(path)})
        self.assertEqual(found, f"{self.version.partition('+')[0]} {path}/ocfexec/__init__.py")
        self.assertEqual((path / "ocfexec/py.typed").read_bytes(), b"")

    def test_agents(self) -> None:
        """an installed agent prints its metadata, and is started by the installed program"""
        root = str(self.root / "usr/lib/ocf")
        output(f"{root}/resource.d/ocfexec/Stateful", "meta-data", env={**os.environ, "OCF_RESOURCE_TYPE": "Stateful"})
        sent = helper.lines(helper.register("r1", "Dummy", "ocfexec", state=self.place("state")),
                            helper.action("r1", "start", timeout=5000), {"op": "drain"})
        done = helper.run("run", "--memory", "--root", root, sent=sent, executable=self.root / "usr/bin/ocfexec")
        self.assertEqual([value["outcome"] for value in helper.replies(done.stdout) if helper.is_notice(value)], ["done"], done.stderr)

    @unittest.skipUnless(shutil.which("cc"), "there is no C compiler")
    def test_launcher(self) -> None:
        """the launcher of agents runs its command as soon as its gate is open, and runs nothing without an executor"""
        for gate, wanted in ((b"x", b"ran\n"), (b"", b"")):
            done = subprocess.run([self.root / "usr/bin/ocfexec-run-agent", "echo", "ran"], input=gate, stdout=subprocess.PIPE,
                                  timeout=helper.PATIENCE, check=False)
            self.assertEqual(done.stdout, wanted)

    def test_removed(self) -> None:
        """a removal leaves the settings alone, and a purge nothing but the journal"""
        root = self.installed(self.place("root"), self.deb, self.library)
        dpkg(str(root), "--remove", "ocfexec", "python3-ocfexec")
        self.assertEqual(files_in(root), SETTINGS)
        (root / "var/lib/ocfexec-client").mkdir(exist_ok=True)
        for name in ("var/lib/ocfexec-client/by-hand.json", *LEFT):
            (root / name).touch()
        dpkg(str(root), "--purge", "ocfexec", "python3-ocfexec")
        self.assertEqual(files_in(root), LEFT)
