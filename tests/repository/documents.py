"""The names in the documents. Each path, file, edit, item of a crate, target of make, subcommand and option that README.md,
CONTRIBUTING.md, docs/, mutants/README.md and the crates' READMEs name in backticks exists, and each other word in backticks occurs
somewhere in the repository outside the documents; in a README, a section or a row of one crate it occurs in that crate. Each label of a
clause that a table or a list names after a function is that of a clause or of a field of a definition. Each file with a body that is proved
by hand is named as trusted. ARCHITECTURE's rows are the headings of crates.txt, and no crate depends on one above its row. The manual pages
have the options of `--help`, and no others, and fit 80 columns."""
import collections
import fnmatch
import glob
import os
import re
import shutil
import subprocess
import unittest

import helper

DOCUMENTS = ["README.md", "CONTRIBUTING.md", "mutants/README.md",
             *sorted(glob.glob("docs/*.md", root_dir=helper.TOP) + glob.glob("crates/*/README.md", root_dir=helper.TOP))]
MANUAL, PAGE, CLIENT_PAGE = "docs/ocfexec.8", "docs/ocfctl.8", "docs/ocfexec-client.8"
# Generated from the definitions.
STATEMENT = "docs/STATEMENT.antt.txt"
# Files whose words count for nothing, since they are about names.
HIDDEN = [*DOCUMENTS, MANUAL, PAGE, CLIENT_PAGE, STATEMENT, "tests/repository/documents.py"]
SUBCOMMANDS = ["run", "serve", "show", "status", "log", "metrics", "once"]
# Names of other programs, of files that only a gate or a check leaves, and of things that a document says do not exist.
OUTSIDE = {"--default-signal", "--keep-size", "--length", "--pdeathsig", "/srv/hour", "ArgGroup", "build/gate.log", "clap_complete",
           "clone3", "crates/ocfexec/out/gate", "crates/ocfexec/out/ocfexec", "fallocate", "flock", "get_ocf_metadata", "hidepid",
           "list_ocf_providers", "migrate_from", "migrate_to", "nohup", "ocfexec run --version", "perf", "rattle-kit-13b", "rattle-kit-13f",
           "rt check --fix-imports", "strace -c -w", "systemctl reload", "tests/failed", "wait4"}
# A placeholder for any name of its kind.
ANY = re.compile(r"\b(NAME|FILE|CRATE)\b")
FILE = re.compile(r"[\w.*-]+\.(rt|antt|py|sh|c|h|md|edit|service|jsonl|8)")
ITEM = re.compile(r"\w+(::\w+)*")
PAIR = re.compile(r"[a-z]\w* [A-Z]\w*")
PATH = re.compile(r"[\w.*-]+(/[\w.*-]*)+")
OPTION = re.compile(r"(?<![\w-])--?[A-Za-z][a-z-]*")
# The sections of a crate's README, in their order; the description comes before them.
SECTION = re.compile(r"^(## Proved|\*\*[^*]+\.\*\*)", re.MULTILINE)
SECTIONS = ["## Proved", "**Tested.**", "**Trusted.**", "**Not proved.**", "**Not done.**"]
CALL = re.compile(r"[ $]*((?:ocfexec|make) [^|<>&#]*?)(?:   .*)?$")


def read(path):
    with open(os.path.join(helper.TOP, path), encoding="utf-8", errors="replace") as file:
        return file.read()


def tree():
    """The files of the repository, except built ones."""
    found = []
    for top, folders, files in os.walk(helper.TOP):
        folders[:] = [folder for folder in folders if folder not in (".git", "out", "failed", "__pycache__")]
        found += [os.path.relpath(os.path.join(top, file), helper.TOP) for file in files]
    return found


def options(text):
    return set(OPTION.findall(text)) - OUTSIDE


def is_any(pattern):
    return bool(glob.glob(pattern, root_dir=helper.TOP))


def headings(text):
    """The headings of crates.txt in their order, each with its crates and what these depend on."""
    found = {}
    for line in text.splitlines():
        name, colon, below = line.partition(":")
        if line.startswith("# ") and not colon:
            crates = found[line[2:]] = {}
        elif colon and not line.startswith("#"):
            crates[name] = below.split()
    return found


def rows(text):
    """The rows of ARCHITECTURE's first picture, the lowest first, each with its crates."""
    picture = text.partition("```\n")[2].partition("```")[0]
    found = [(line.split()[0], re.sub(r"\(.*?\)", "", line).split()[1:]) for line in picture.splitlines()]
    return dict(reversed(found))


def upward(found):
    """Each crate that depends on one of a later heading, with that one."""
    order = {name: number for number, crates in enumerate(found.values()) for name in crates}
    return [(name, one) for crates in found.values() for name, below in crates.items() for one in below
            if order.get(one, -1) > order[name]]


def help_of(client, *words):
    """The help of a program of examples/."""
    path = os.path.join(helper.TOP, f"examples/{client}.py")
    return subprocess.run([path, *words, "--help"], capture_output=True, check=True, text=True, timeout=helper.WHOLE).stdout


class Names:
    """The names that exist. A place is a line of a document, after its heading."""

    def __init__(self):
        self.crates = set(os.listdir(os.path.join(helper.TOP, "crates")))
        self.files, self.of_crate, self.words, self.of_file = set(), collections.defaultdict(set), set(OUTSIDE), {}
        for path in tree():
            hidden = path in HIDDEN or path.startswith("docs/pictures/")
            words = set(re.findall(r"\w+", path if hidden else path + " " + read(path)))
            self.files.add(path)
            self.words |= words
            self.of_file[path] = words
            if path.startswith("crates/"):
                self.of_crate[path.split("/")[1]] |= words
        self.helps = {name: helper.run(*[name][:len(name)], "--help").stdout.decode() for name in ["", *SUBCOMMANDS]}
        # of the clients
        verbs = re.findall(r"^    (\w+)", help_of("ocfctl"), re.MULTILINE)
        self.ctl, self.client = " ".join(help_of("ocfctl", verb) for verb in verbs), help_of("client")
        self.targets = set(re.findall(r"^(\w+):", read("Makefile"), re.MULTILINE))

    def near(self, place):
        """The crates that a place names in backticks, and the one whose README it is in; all crates if there are none."""
        readme = re.match(r"crates/(\w+)/README.md\n", place)
        names = re.findall(r"`(\w+)", place) + ([*readme.groups()] if readme else [])
        return self.crates.intersection(names) or self.crates

    def owner(self, place):
        """The crate whose README, section or row it is."""
        found = (re.match(r"crates/(\w+)/README.md\n", place) or re.match(r"#+ `(\w+)`\n\|", place)
                 or re.search(r"^\| `(\w+)` \|", place, re.MULTILINE))
        return found[1] if found and found[1] in self.crates else None

    def is_path(self, name, place):
        """A path from the top, in docs/, in crates/ or in a crate that the place names; or an edit."""
        crate, _, edit = name.partition("/")
        tried = [name, f"docs/{name}", f"crates/{name}", f"mutants/{name}.edit", f"mutants/gate/{name}.edit",
                 f"crates/{crate}/must-fail/{edit}.edit"]
        return any(map(is_any, tried + [f"crates/{crate}/{name}" for crate in self.near(place)]))

    def is_file(self, name, place):
        """A file of this name; one of a crate in a crate that the place names."""
        found = [path.split("/") for path in self.files if fnmatch.fnmatch(os.path.basename(path), name)]
        return any(path[0] != "crates" or path[1] in self.near(place) for path in found)

    def is_item(self, name, place):
        """Each word in the crate that it begins with, or whose section it is; otherwise the first and the last one in one file."""
        words = name.split("::")
        crate = words[0] if words[0] in self.crates else self.owner(place)
        if crate:
            return self.of_crate[crate].issuperset(words)
        return any({words[0], words[-1]} <= found for found in self.of_file.values())

    def is_pair(self, name):
        """A crate, and a file of its specs/ or another word in it."""
        crate, word = name.split(" ")
        if is_any(f"crates/*/specs/{word}.antt"):
            return is_any(f"crates/{crate}/specs/{word}.antt")
        return word in self.of_crate[crate]

    def is_called(self, name):
        """A call of the program, by its subcommand and its options."""
        _, *words = re.split(r"[\s=]+", name)
        if not words or words[0].startswith("-"):
            return options(name) <= options(self.helps[""])
        return words[0] == "help" or words[0] in SUBCOMMANDS and options(name) <= options(self.helps[words[0]])

    def is_there(self, name, place=""):
        """Whether the thing that is named at a place exists."""
        found = ANY.sub("*", name)
        if name in OUTSIDE:
            return True
        if not self.words.issuperset(re.findall(r"[A-Za-z_]\w+", found)) and not name.startswith("_"):
            return False
        if name.startswith("make "):
            return name.split()[1] in self.targets
        if name.startswith("ocfexec "):
            return self.is_called(name)
        if PAIR.fullmatch(name) and name.split(" ")[0] in self.crates:
            return self.is_pair(name)
        if OPTION.match(name):
            return any(options(name) <= options(text) for text in (*self.helps.values(), self.ctl, self.client))
        if ITEM.fullmatch(name):
            return self.is_item(name, place) if not name.startswith("_") else any(word.endswith(name) for word in self.words)
        if FILE.fullmatch(found):
            return self.is_file(found, place)
        first = found.split(" ")[0].rstrip("/")
        return not PATH.fullmatch(first) or self.is_path(first, place)


def named(path, text):
    """The names in a text, each with its place, after the path of a crate's README: in backticks, in a link, as `crate` `File`, or in a
    line that calls the program or make."""
    fenced, heading = False, ""
    for line in text.splitlines():
        heading = line if line.startswith("#") and not fenced else heading
        fenced ^= line.startswith("```")
        if fenced or line.startswith("    "):
            found = [call[1].strip() for call in [CALL.match(line)] if call]
        else:
            found = re.findall(r"`([^`]+)`", line) + re.findall(r"\]\(([^):]+)\)", line)
            found += [pair.replace("`", "") for pair in re.findall(r"`[a-z]\w*` `[A-Z]\w*`", line)]
        yield from ((name, f"{path if path.startswith('crates/') else heading}\n{line}") for name in found)


def misspelled(name):
    """A name with one of its words misspelled, for each word."""
    for word in re.finditer(r"[A-Za-z_]\w+", name):
        yield name[:word.start() + 1] + "q" + name[word.start() + 1:]


class Documents(helper.Check):
    @classmethod
    def setUpClass(cls):
        cls.names = Names()
        cls.found = [(path, *name) for path in DOCUMENTS for name in named(path, read(path))]

    def test_names(self):
        """every name in the documents exists"""
        self.assertEqual([f"{path}: {name}" for path, name, place in self.found if not self.names.is_there(name, place)], [])

    def test_misspelled(self):
        """a name in the documents that is misspelled in any word does not exist"""
        self.assertEqual([one for _, name, place in self.found for one in misspelled(name) if self.names.is_there(one, place)], [])

    def test_readmes(self):
        """each crate except those of scenarios has a README of at most 40 lines"""
        crates = [crate for crate in self.names.crates if not crate.startswith("scenario")]
        lines = {crate: os.path.join(helper.TOP, "crates", crate, "README.md") for crate in crates}
        self.assertEqual([crate for crate, path in lines.items() if not os.path.exists(path) or read(path).count("\n") > 40], [])

    def test_form(self):
        """the README of a crate has sections of one form, in one order"""
        found = {path: SECTION.findall(read(path)) for path in DOCUMENTS if path.startswith("crates/")}
        self.assertGreater(len(found), 30)
        other = {path: sections for path, sections in found.items() if sections != [one for one in SECTIONS if one in sections]}
        self.assertEqual(other, {})

    def test_rows(self):
        """ARCHITECTURE's rows are the headings of crates.txt, with the same crates, and no crate depends on one above its row"""
        listed, drawn = headings(read("crates.txt")), rows(read("docs/ARCHITECTURE.md"))
        self.assertEqual([(name, sorted(crates)) for name, crates in listed.items()],
                         [(name, sorted(crates)) for name, crates in drawn.items()])
        self.assertEqual(upward(listed), [])
        self.assertEqual(upward(headings("# one\na: c\n# two\nc: a")), [("a", "c")])

    def test_by_hand(self):
        """each file with a body that is proved by hand is named as trusted in docs/PROVED.md"""
        trusted = read("docs/PROVED.md").partition("## Trusted")[2]
        files = [path for path in self.names.files if re.fullmatch(r"crates/\w+/src/.*\.rt", path) and "proved by hand" in read(path)]
        self.assertTrue(files, "a body is proved by hand")
        self.assertEqual([path for path in files if f"`{path}`" not in trusted], [])

    def test_moved(self):
        """an item or a file of one crate is not found in another one"""
        for name, place in (("exec_session::run_lines", ""), ("src/session.rt", "`exec_session`"), ("exec_session Standing", "")):
            self.assertTrue(self.names.is_there(name, place), name)
            moved = [text.replace("exec_session", "two_parts") for text in (name, place)]
            self.assertFalse(self.names.is_there(*moved), name)

    def test_manual(self):
        """the manual page has the options of --help, and no others"""
        wanted = set().union(*[options(text) for text in self.names.helps.values()])
        manual = options(re.sub(r"\\f[BIP]", "", read(MANUAL)).replace("\\-", "-"))
        self.assertEqual(*[{name for name in found if name.startswith("--")} for found in (manual, wanted)])

    def test_page(self):
        """the manual page of ocfctl has the options of its verbs' help, and no others but one of another program"""
        page = options(re.sub(r"\\f[BIPR]", "", read(PAGE)).replace("\\-", "-")) - {"--events"}
        self.assertEqual(*[{name for name in found if name.startswith("--")} for found in (page, options(self.names.ctl))])

    def test_client_page(self):
        """the manual page of the client has the options of its help, and no others but those of the executor that it names"""
        page = options(re.sub(r"\\f[BIPR]", "", read(CLIENT_PAGE)).replace("\\-", "-")) - {"--root", "--via", "--path", "--meta-variables"}
        own = self.names.client.partition("options:")[2]
        self.assertEqual(*[{name for name in found if name.startswith("--")} for found in (page, options(own))])

    @unittest.skipUnless(shutil.which("man") and shutil.which("groff"), "install man-db and groff-base")
    def test_width(self):
        """the manual pages fit 80 columns"""
        for page, least in ((MANUAL, 300), (PAGE, 100), (CLIENT_PAGE, 100)):
            shown = subprocess.run(["man", "--warnings", "-l", os.path.join(helper.TOP, page)], capture_output=True, check=True,
                                   env={**os.environ, "MANWIDTH": "80", "LC_ALL": "C.UTF-8", "MAN_KEEP_FORMATTING": ""})
            # a terminal has no pages
            self.assertEqual([line for line in shown.stderr.decode().splitlines() if "on one page" not in line], [])
            self.assertGreater(shown.stdout.count(b"\n"), least)
            self.assertEqual([line for line in shown.stdout.decode().split("\n") if len(line) > 80], [])
