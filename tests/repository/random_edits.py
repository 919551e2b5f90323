"""The random wrong bodies, tools/random_edits.py: what is drawn of a small source, and what is kept of a call; nothing is proved here."""
import contextlib
import os
import shutil
import sys
from pathlib import Path
from types import SimpleNamespace
from unittest import mock

import helper

sys.path.append(os.path.join(helper.TOP, "tools"))
import one_program  # noqa: E402
import random_edits as edits  # noqa: E402
import wrong_bodies as bodies  # noqa: E402

# Lines of a body, and what each kind of edit makes of one.
MADE = [
    ("a statement deleted", "self.count += 1;", {""}),
    ("a statement deleted", "return Err(Full); // why", {"// why"}),
    ("a condition negated", "if self.len() < size {", {"if !(self.len() < size) {"}),
    ("a condition negated", "} else if is_open {", {"} else if !(is_open) {"}),
    ("another operator", "at + 1 <= size || at == end", {"at - 1 <= size || at == end", "at + 1 < size || at == end",
                                                         "at + 1 <= size && at == end", "at + 1 <= size || at != end"}),
    ("a constant off by one", "let gate = bytes[at.0 + 7];", {"let gate = bytes[at.0 + 8];", "let gate = bytes[at.0 + 6];"}),
    ("a constant off by one", "const MOST: u32 = 1_000;", {"const MOST: u32 = 1001;", "const MOST: u32 = 999;"}),
    ("a constant off by one", "let none = 0u8..0;", {"let none = 0u8..1;", "let none = 1u8..0;"}),
    ("arguments exchanged", 'put(first(a, a), "b, c", 2)', {'put("b, c", first(a, a), 2)', 'put(first(a, a), 2, "b, c")'}),
    ("a fault ignored", "disk.sync(part)?;", {"let _ = disk.sync(part);"}),
    ("a plain result", "if !self.is_full(0) {", {"if !true {", "if !false {"}),
    ("a loop stops one early", "for index in 0..self.len() {", {"for index in 0..(self.len()).saturating_sub(1) {"}),
    ("a loop stops one early", "for one in ones {", {"for one in &ones[..ones.len().saturating_sub(1)] {"}),
    ("a loop stops one early", "while at < len {", {"while at + 1 < len {"}),
]
# Each line has something to edit, and `edited` is in those that are edited.
SOURCE = """//! if 1 < 2 {
ghost use Rattle.std.specs.Prelude.{◌<◌, length};
#[derive(Drop(1, 2))]
pub const LIMIT: usize = 64 /* edited */;

/// More than 1 < 2.
impl Model for Slots {
    ghost view = { λ s. record {
      length = 1 + length s;
    } };
}

// put(1, 2);
pub fn is_open(bytes: [u8; 4], at: usize) -> Option<Gate<{ 2 }>>
    requires few { length bytes < 1 + 2 }
    ensures { at < 2 → result ≡ Some (record { at = 1 }) }
{
    // put(1, 2);
    say("if 1 < {}", '1', edited); // 1 < 2
    say("1 < 2");
    say("1 < 2");
    find(edited)
}
"""
# A module with a test that the program fails by its number.
MODULE = '''import os

import helper


class Some(helper.Check):
    def test_some(self):
        """it is {name}"""
        with open(helper.PROGRAM, "rb") as program:
            number = int.from_bytes(program.read(), "little")
        {body}
'''


class RandomEdits(helper.Check):
    maxDiff = None

    def test_seed(self):
        """a seed always draws the same edits, another one the same in another order, and each once"""
        lines = edits.edits_of("low", "src/lib.rt", SOURCE)
        one, again, other = ([*edits.drawn(lines, seed)] for seed in (1, 1, 2))
        self.assertEqual(one, again)
        self.assertNotEqual(one, other)
        self.assertEqual(sorted(edit.text for edit in other), sorted(edit.text for line in lines for edit in line))

    def test_kinds(self):
        """each kind of edit is made of the lines that it is for"""
        for kind, line, wanted in MADE:
            source = f"fn f() {{\n    {'if a {' if line[0] == '}' else 'begin();'}\n    {line}\n    end\n}}\n"
            made = [edit for edits_of_line in edits.edits_of("low", "src/lib.rt", source) for edit in edits_of_line if edit.number == 3]
            self.assertEqual({edit.new.strip() for edit in made if edit.kind == kind}, wanted, line)
        self.assertEqual({kind for kind, _, _ in MADE}, set(edits.KINDS))

    def test_no_code(self):
        """comments, contracts, ghost items, attributes, quoted texts, signatures and lines that are there twice are never edited"""
        found = [edit for line in edits.edits_of("low", "src/lib.rt", SOURCE) for edit in line]
        self.assertEqual([edit.old for edit in found if "edited" not in edit.old], [])
        new = {edit.new.strip() for edit in found}
        self.assertEqual(new, {"pub const LIMIT: usize = 65 /* edited */;", "pub const LIMIT: usize = 63 /* edited */;", "// 1 < 2", "None",
                               "say('1', \"if 1 < {}\", edited); // 1 < 2", "say(\"if 1 < {}\", edited, '1'); // 1 < 2"})

    def test_above(self):
        """an edit that gives a library another interface is tried by the crates that name it, and counts only if one was not proved"""
        edit, texts = edits.Edit("low", "src/lib.rt", 4, "", "1", "2"), SimpleNamespace(words={"low": ([], []), "high": ([], ["low"])})
        refused = (1, "rt: high\nsrc/lib.rt:3:1: error: no\nlogic=not-proved")
        cases = [(1, 1, refused, "NOT TRIED: no library: "), (0, 0, refused, "NOT REFUSED: the library has the same interface"),
                 (0, 1, refused, "refused by high: src/lib.rt:3:1: error: no"), (0, 1, (0, "proved"), "NOT REFUSED"),
                 (0, 1, (2, "no memory"), "NOT TRIED: high: no memory")]
        for library, differs, high, wanted in cases:
            answers = {"rt lib": (library, ""), "rt check": high, "diff -r": (differs, "")}
            places = {"edited": lambda _: contextlib.nullcontext(Path("copy")),
                      "called": lambda _, *words, of=answers: of[" ".join(words[:2])]}
            with mock.patch.multiple(edits, **places):
                self.assertEqual(edits.fate_above(edit, texts), wanted)

    def source(self, text):
        """A crate with this source, and a copy of it."""
        for top in (self.here, self.place("copy")):
            os.makedirs(os.path.join(top, "crates/low/src"))
            os.makedirs(os.path.join(top, "crates/low/out"))
            Path(top, "crates/low/src/lib.rt").write_text(text, encoding="utf-8")
        os.mkdir(self.place("crates/low/out/incremental"))
        places = {"TOP": Path(self.here), "FOLDER": Path(self.place("edits"))}
        return mock.patch.multiple(edits, **places), mock.patch.object(bodies, "TOP", Path(self.here)), Path(self.place("copy/crates/low"))

    def test_not_compiled(self):
        """of edits that do not compile together those are found at whose line or in whose function there is an error; others by halves"""
        text = "".join(f"fn f{number}() {{\n    f({number}, {number + 9});\n}}\n" for number in range(6))
        random, sources, copy = self.source(text)
        drawn = [next(edit for edit in line if edit.kind == "arguments exchanged") for line in edits.edits_of("low", "src/lib.rt", text)]

        def called(_, *words):
            """Says of the first, by its line, and of the second, by a line of its function, that they are wrong; of the sixth nothing."""
            now = (copy / "src/lib.rt").read_text(encoding="utf-8")
            said = [f"src/lib.rt:{line}:1: error: no" for line, wrong in ((2, "(9, 0)"), (4, "(10, 1)")) if wrong in now]
            return 1, "\n".join(said[:1]) or ("no" if "(14, 5)" in now else "only=0 proved=0")

        with random, sources, mock.patch.object(edits, "called", called):
            found = edits.not_compiled(copy, [edits.written(edit) for edit in drawn])
            self.assertEqual([drawn.index(edit) for edit in found], [0, 1, 5])
            self.assertEqual((copy / "src/lib.rt").read_text(encoding="utf-8"), text)

    def test_by_search(self):
        """answers that have a name which is gone are removed, and the edit counts as refused only if a goal is false then"""
        random, sources, copy = self.source(SOURCE)
        answers = copy / "proofs/is_open/Answers.antt"
        drawn = edits.edits_of("low", "src/lib.rt", SOURCE)[0][0]
        old = "use A.{a}\n\npub first : goal.first\nfirst c =\n    a\n\npub last : goal.last\nlast c = a\n"
        gone = "./proofs/is_open/Answers.antt:3:1: error: `first`: record `In` has no field `x`"
        for after, wanted in (("", "NOT REFUSED"), ("note: src/lib.rt:20:5: it is not proved", "ONLY BY A NAME"),
                              (f"note: src/lib.rt:20:5: the facts {edits.FALSE}", "refused: note")):
            answers.parent.mkdir(parents=True, exist_ok=True)
            answers.write_text(old, encoding="utf-8")
            checked = mock.Mock(side_effect=[gone, after])
            top = contextlib.nullcontext(Path(self.place("copy")))
            with random, sources, mock.patch.multiple(bodies, checked=checked, copied=lambda top=top: top):
                self.assertIn(wanted, edits.fates_by_search([edits.written(drawn)])[drawn])
            self.assertEqual(answers.read_text(encoding="utf-8"), "use A.{a}\n\npub last : goal.last\nlast c = a\n")
            Path(copy, "src/lib.rt").write_text(SOURCE, encoding="utf-8")
            os.rmdir(copy / "out/incremental")

    def test_searched_together(self):
        """edits of different functions are searched together; one that waits for another once more, and each alone if a goal is of none"""
        text = "//! low\n\n" + "".join(f"fn f{number}() {{\n    f({number}, {number + 9});\n}}\n" for number in range(3))
        random, sources, _ = self.source(text)
        drawn = [next(edit for edit in line if edit.kind == "arguments exchanged") for line in edits.edits_of("low", "src/lib.rt", text)]
        none, first, second, third = (f"note: src/lib.rt:{line}:5: the facts {edits.FALSE}" for line in (1, 4, 7, 10))
        for together, alone, wanted in ((f"{first}\nfn low::f1: no proof: it calls f0", [second], ["refused", "refused", "NOT REFUSED"]),
                                        (none, ["", "", third], ["NOT REFUSED", "NOT REFUSED", "refused"])):
            checked = mock.Mock(side_effect=[together, *alone])
            copied = mock.Mock(return_value=contextlib.nullcontext(Path(self.place("copy"))))
            with random, sources, mock.patch.multiple(bodies, checked=checked, copied=copied), mock.patch.object(edits.shutil, "copytree"):
                found = edits.fates_by_search([edits.written(edit) for edit in drawn])
            self.assertEqual([found[edit].partition(":")[0] for edit in drawn], wanted)
            self.assertEqual(checked.call_count, 1 + len(alone))

    def test_one_program(self):
        """edits of one program are bodies that a number chooses, and its copy with another number has other bytes at one place"""
        random, sources, copy = self.source(SOURCE)
        drawn = [edit for line in edits.edits_of("low", "src/lib.rt", SOURCE) for edit in line]
        with random, sources:
            numbers = one_program.put_in(Path(self.place("copy")), drawn, edits.bodies_with)
        self.assertEqual([*numbers.values()], [edit for edit in drawn if "LIMIT" not in edit.old])
        text = (copy / "src/lib.rt").read_text(encoding="utf-8")
        for number, edit in numbers.items():
            self.assertIn(f"if crate::wrong_body() == {number}u64 {{", text)
            self.assertIn(edit.new, text)
        self.assertEqual(text.count(f"    {one_program.MARK}\n"), 1)
        body = "\n    // put(1, 2);\n    say"
        self.assertEqual(text[:SOURCE.index(body)], SOURCE[:SOURCE.index(body)])
        self.assertIn(f"else {{{body}", text)

    def test_constant(self):
        """a private number that only bodies of its own source use is changed in each of these; no other crate sees it"""
        source = "const MOST: u32 = 9; // edited\n\nfn f() -> u32 {\n    MOST\n}\n\nfn g() {\n    f();\n}\n\nfn h() {\n    put(MOST);\n}\n"
        random, sources, copy = self.source(source)
        path = Path(self.place("crates/low/src/lib.rt"))
        for more, wanted in (("", {"\n    10u32\n", "\n    put(10u32);\n"}), ("const TWICE: u32 = 2 * MOST;\n", set())):
            path.write_text(source + more, encoding="utf-8")
            drawn = edits.edits_of("low", "src/lib.rt", source + more)[0][0]
            with random, sources:
                self.assertEqual(set(edits.bodies_with(source + more, drawn).values()), wanted)
                self.assertEqual(edits.may_be_seen(drawn), bool(more))
        with random, sources:
            path.write_text(source, encoding="utf-8")
            self.assertEqual([*one_program.put_in(Path(self.place("copy")), [drawn], edits.bodies_with)], [1])
        self.assertEqual((copy / "src/lib.rt").read_text(encoding="utf-8").count("if crate::wrong_body() == 1u64 {"), 2)

    def test_trial(self):
        """a test shows an edit if it fails twice with it, and not without it"""
        bodies_of = {"always": "self.fail()", "right": "self.assertNotEqual(number, 2)", "ended": "number == 3 and os._exit(7)",
                     "once": "number == 4 and not os.path.exists('there') and (os.mkdir('there'), self.fail())"}
        for name, body in bodies_of.items():
            path = Path(self.place(f"top/tests/cli/{name}.py"))
            path.parent.mkdir(parents=True, exist_ok=True)
            path.write_text(MODULE.format(name=name, body=body), encoding="utf-8")
        os.makedirs(self.place("top/tests/lib"))
        for name in ("helper.py", "schema.py", "one_by_one.py"):
            shutil.copy(os.path.join(helper.TOP, "tests/lib", name), self.place("top/tests/lib"))
        os.makedirs(self.place("marked/build"))
        Path(self.place("marked/build/ocfexec")).write_bytes(one_program.MARK.to_bytes(8, "little"))
        places = {"TOP": Path(self.place("top")), "FILES": {"": ["ocfexec"]}, "CHECKS": ["cli"]}
        with mock.patch.multiple(one_program, **places), mock.patch.object(one_program.one_by_one, "TOP", Path(self.place("top"))):
            trial = one_program.Trial(Path(self.place("marked")), Path(self.place("room")), 1)
            self.assertEqual([trial.fate(number) for number in (1, 2, 3, 4)], [
                "NOT REFUSED", "refused by tests/cli/right.py: it is right", "refused by tests/cli/ended.py: it ended with status 7",
                "NOT REFUSED"])

    def judged(self, count, fates):
        """A call over the same edits, where those that are tried have these fates, by their numbers: what it found, which were compiled,
        and which were tried by a proof."""
        drawn, compiled, tried = [*edits.drawn(edits.edits_of("low", "src/lib.rt", SOURCE), 1)], [], []

        def not_compiled(_, group):
            compiled.extend(map(drawn.index, group))
            return {edit: fate for edit in group if (fate := fates.get(drawn.index(edit), "")).startswith("BAD EDIT")}

        def judged(_, files):
            numbers = [next(at for at, edit in enumerate(drawn) if edit.name == file.name) for file in files]
            tried.extend(numbers)
            return {drawn[at].name: fates[at] for at in numbers if at in fates}, "nothing"

        texts = SimpleNamespace(sum_of=lambda file, top=None: f"{file.name} {top}", at_or_below=lambda _: [])
        judge = edits.Judge(texts, edits.Kept(Path(self.place("kept"))), False, 1)
        copied = mock.Mock(return_value=contextlib.nullcontext(Path(self.here)))
        with mock.patch.multiple(bodies, judged=judged, Texts=lambda: texts, copied=copied), \
                mock.patch.multiple(edits, not_compiled=not_compiled), mock.patch.object(edits, "print", create=True):
            found = edits.judged(iter(drawn), count, judge)
        return {drawn.index(edit): stage for edit, stage in found.items()}, sorted(compiled), sorted(tried)

    def test_goes_on(self):
        """an edit that does not compile is replaced, what became of each is kept, and only what could not be tried is tried again"""
        os.makedirs(self.place("crates/low/src"))
        Path(self.place("crates/low/src/lib.rt")).write_text(SOURCE, encoding="utf-8")
        fates = {0: "refused, as it must be: src/lib.rt:20:5: error: not proved", 1: "BAD EDIT: it did not reach the prover",
                 2: "NOT REFUSED: it is still proved"}
        places = {"TOP": Path(self.here), "FOLDER": Path(self.place("edits")), "may_be_seen": lambda edit: False}
        with mock.patch.multiple(edits, **places), mock.patch.object(bodies, "TOP", Path(self.here)):
            self.assertEqual(self.judged(3, fates), ({0: "proof", 2: "alive", 3: "?"}, [*range(5)], [0, 2, 3]))
            with open(self.place("kept"), "a", encoding="utf-8") as kept:
                kept.write('\n{"sum": "half of a li')
            self.assertEqual(self.judged(3, {3: fates[0]}), ({0: "proof", 2: "alive", 3: "proof"}, [], [3]))
            self.assertEqual(self.judged(2, {}), ({0: "proof", 2: "alive"}, [], []))

    def test_only(self):
        """where a module has the name of an edit's function, the check is told the module of the edit, which has that function, too"""
        os.mkdir(self.place("src"))
        for name in ("put", "patient"):
            Path(self.place("src"), f"{name}.rt").touch()
        edit = SimpleNamespace(wanted={"put"}, touched={"read"}, pairs=[("src/patient.rt", "a", "b")])
        self.assertEqual(bodies.only(Path(self.here), edit), {"read", "patient"})
        edit.wanted = {"get"}
        self.assertEqual(bodies.only(Path(self.here), edit), {"read", "get"})

    def test_failed(self):
        """of what check.sh prints, the tests that failed are those of its lists, and no skipped one; if none ran, none is known"""
        one = "tests/cli/one.py: it is so"
        said = (f"ok   0.1 s  tests/cli/one.py: it is\nfailed   0.25 s  {one}\nskipped 1:\n    tests/cli/two.py: it is there: install it\n"
                f"failed 1:\n    {one}\nonce more: tests/check.sh tests/cli/one.py\n1 passed, 1 failed\n")
        for printed, wanted in ((said, {one}), (f"ok   0.25 s  {one}\n1 passed, 0 failed\n", set()), ("error: nothing was built\n", None)):
            with mock.patch.object(edits, "called", lambda *_, printed=printed: (0, printed)):
                self.assertEqual(edits.failed(Path(self.here), ["cli"]), wanted)

    def test_together(self):
        """constants are tried together, and by halves if a check fails; the table counts them by kind, and in the crates up to a limit"""
        drawn = [edits.Edit(crate, "src/lib.rt", number, "another operator", "<", "<=")
                 for number, crate in enumerate(["low"] * 4 + ["high"])]

        def failing(*tried):
            return frozenset({"always"} | {f"check {edit.number}" for edit in tried if edit.number in (1, 4)})

        with mock.patch.object(edits, "failing", failing), mock.patch.object(edits.Edit, "function", "f"):
            fates = edits.fates_of_tests(drawn)
            found = {edit: "test" if fate.startswith("refused") else "alive" for edit, fate in fates.items()}
            lines = edits.table(found, ["low"]).splitlines()
        self.assertEqual([fates[edit] for edit in drawn],
                         ["NOT REFUSED", "refused by check 1", "NOT REFUSED", "NOT REFUSED", "refused by check 4"])
        self.assertIn("| another operator | 5 | 0 | 0 | 2 | 0 | 3 | 0 |", lines)
        self.assertIn("| in the 1 crates up to `executor` | 4 | 0 | 0 | 1 | 0 | 3 | 0 |", lines)
        self.assertEqual(lines[-1], "alive: low/src/lib.rt:3 f: another operator: < => <=")
