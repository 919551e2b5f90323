"""Contracts about refused growths depend on one lemma, `Refused.refuses` of crates/growth. Other crates cite it only for functions that
call a library which allocates by itself, each refusal in them marked as trusted; and the flag that it is about is named only by the machine
of a session. No condition on a caller, invariant or ghost field claims that an allocator refuses, except those of a refusal and of the two
calls that make one, and that the edge of a session keeps the answer of a failed send."""
import glob
import os
import re
import sys
from pathlib import Path

import helper

sys.path.append(os.path.join(helper.TOP, "tools"))
import wrong_bodies as bodies  # noqa: E402

LEMMA = re.compile(r"\bgrowth\.specs\.Refused\b(?!\.\{refuses_here\})|\bspecs::Refused::refuses\b")
FLAG = re.compile(r"\brefuses_here\b")
CLAIM = re.compile(r"IsTrue\s*\(?[\w.⟦⟧<> ]*\brefuses(?:_here)?\b")
CLAUSE = re.compile(r"^\s*(requires|ensures|(?:pub )?ghost \w+ =|(?:pub )?ghost \w+:|pub fn|fn|impl|\{)")
# The crate of the lemma; and the machine of a session, in which a line is noted as refused for lack of memory only where the flag is true.
GROWTH = {"crates/growth/specs/Refused.antt", "crates/growth/src/growth.rt"}
MACHINE = {"crates/session_machine/specs/Replies.antt", "crates/session_machine/proofs/NotedLines.antt"}
# The conditions that claim a refusal: of a `Refused`, of `known` and `granted`, and of a send that failed; a new edge keeps none.
KEPT = [("crates/growth/src/growth.rt", "pub ghost refused: { IsTrue A.refuses },"),
        ("crates/growth/src/growth.rt", "requires refuses { IsTrue A.refuses }"),
        ("crates/growth/src/growth.rt", "requires refused { IsErr answer → IsTrue A.refuses }"),
        ("crates/session_machine/src/system_edge.rt", "× (e.fault ≡ Memory → IsTrue ⟦<Global as Grows>⟧.refuses) };")]
# A line that shows a refusal, and what is above it in a function that cites the lemma.
SHOWN = re.compile(r"\bgranted\(|\bRefused::known\(|::(?:OutOf)?Memory\b")
TRUSTED = "// TRUSTED:"


def sources(*endings):
    """Each file of the crates with one of these endings: its path and its text."""
    for ending in endings:
        for path in sorted(glob.glob(f"crates/*/**/*.{ending}", root_dir=helper.TOP, recursive=True)):
            if "/out/" not in path:
                yield path, Path(helper.TOP, path).read_text(encoding="utf-8")


def conditions(text):
    """Each line of a `requires`, of an invariant and of a ghost field."""
    inside = False
    for line in text.splitlines():
        if CLAUSE.match(line):
            inside = re.match(r"\s*(requires|(pub )?ghost)\b", line) is not None
        if inside:
            yield line.strip()


def is_marked(lines):
    """Whether a function shows a refusal, and each one below a sentence of what is trusted."""
    above = [before for before, line in zip(["", *lines], lines) if SHOWN.search(line)]
    return bool(above) and all(TRUSTED in before for before in above)


def unmarked(text):
    """The functions that cite the lemma by an attribute and are not marked; and `else`, if it is cited elsewhere."""
    cited = [(name, text[start:end].splitlines()) for name, start, end in bodies.functions(text)
             if LEMMA.search(text, start, bodies.FUNCTION.search(text, start).start())]
    faults = [name for name, lines in cited if not is_marked(lines)]
    return faults + ["else"] * (len(LEMMA.findall(text)) > len(cited))


class Growth(helper.Check):
    def test_cited(self):
        """only functions with a sentence on each refusal cite that an allocator refuses, and one crate besides names the flag"""
        self.assertEqual({path for path, text in sources("rt", "antt") if FLAG.search(text)}, GROWTH | MACHINE)
        found = {path: unmarked(text) for path, text in sources("rt", "antt") if LEMMA.search(text) and path not in GROWTH}
        self.assertGreater(len(found), 5)
        self.assertEqual([(path, *faults) for path, faults in found.items() if faults], [])

    def test_claimed(self):
        """no condition claims that an allocator refuses, but those of a refusal and of a failed send"""
        self.assertEqual([(path, line) for path, text in sources("rt") for line in conditions(text) if CLAIM.search(line)], KEPT)

    def test_unmarked(self):
        """a refusal without a sentence, a function that shows none, and a citation that is no function's attribute are found"""
        cites, call, why = "#[tactic(auto, using(growth::specs::Refused::refuses))]\n", "    granted(g())\n", f"    {TRUSTED} it fails.\n"
        for text, faults in [(f"{cites}fn f()\n{{\n{why}{call}}}\n", []), (f"{cites}fn f()\n{{\n{why}{call}{call}}}\n", ["f"]),
                             (f"{cites}fn f()\n{{\n    g()\n}}\n", ["f"]), (f"#!{cites[1:]}\nfn f()\n{{\n{why}{call}}}\n", ["else"]),
                             ("use Rattle.growth.specs.Refused.{refuses}\n", ["else"]),
                             ("use Rattle.growth.specs.Refused.{refuses_here}\n", [])]:
            self.assertEqual(unmarked(text), faults, text)
