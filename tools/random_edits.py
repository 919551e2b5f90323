#!/usr/bin/env python3
"""Random wrong bodies: edits of one line of the product's sources, drawn with a seed; each line that has an edit is as likely as any other.
An edit that does not compile is replaced by the next one of the seed, so a seed and a count always mean the same edits of the same texts.

What becomes of each: the proof of its crate refuses it; or, with --tests, a check of `make check FAST=1` of the program compiled with it;
or, where it changes what other crates see, the proof of a crate that names its crate; or it is alive. Edits of one crate are tried
together. mutants/out/random has the edits, and in its file `tried` what became of each, with the sum of the crates' texts that this rests
on, so an interrupted run goes on. The table is over the edits of this call.

Use: random_edits.py [--seed N] [--count M] [--tests] [-j CRATES] [CRATE..]"""
import argparse
import collections
import contextlib
import functools
import hashlib
import itertools
import json
import random
import re
import shutil
import signal
import sys
import time
from collections.abc import Iterable, Iterator
from dataclasses import dataclass
from pathlib import Path

import one_program
import wrong_bodies as bodies
from wrong_bodies import MUTANTS, TOP, called

FOLDER = MUTANTS / "out/random"
NO_CODE = re.compile(r'//[^\n]*|/\*.*?\*/|\bb?r(#*)".*?"\1|"(?:\\.|[^"\\])*"|\'(?:\\(?:x\w\w|u\{\w+\}|.)|[^\\\'\n])\'', re.DOTALL)
NO_BODY = re.compile(r"\bghost use [^;]*;|#!?(?=\[)|\b(?:requires|ensures)(?: \*)?(?:\s+\w+)?\s*(?=\{)|\bghost\s+\w+\s*[:=]\s*(?=\{)")
CONSTANT = re.compile(r"^ *(?:pub(?:\([a-z]+\))? )?const \w+: [^=;\n]*=([^;\n]*);", re.MULTILINE)
# a private constant of a number: its name, type and value
PRIVATE = re.compile(r"const (\w+): (\w+) = ([\d_]+);")
PAIRS = {"(": ")", "[": "]", "{": "}"}
# the crate of our own agents, whose program the checks run, too
AGENTS = "ocf_agents"
SWAPS = {one: other for pair in ("< <=", "> >=", "== !=", "&& ||", "+ -", "+= -=") for one, other in zip(pair.split(), pair.split()[::-1])}
PLAIN = {"bool": ["true", "false"], "Option": ["None"], "Result<()": ["Ok(())"], **{f"{sign}{size}": ["0"] for sign in "iu"
         for size in (8, 16, 32, 64, "size")}}
# the place of an error in a source that does not compile
ERROR = re.compile(r"^(?:\./)?(src/[^\s:]+):(\d+):\d+: error", re.MULTILINE)
# the answer of a proof file in which the kit found an error
ANSWER = re.compile(r"([^:]+):\d+:\d+: error: `([\w-]+)`:")
# what the kit says of a goal for which it found values that make it false
FALSE = "allow values at which this goal is false"


class Written(bodies.Edit):
    """A random edit as a file. One of a constant has to be refused by a function that has it."""

    @property
    def wanted(self) -> set[str]:
        return super().wanted or {name for path in (TOP / "crates" / self.crate / "src").glob("**/*.rt")
                                  for name in self.users(path.read_text(encoding="utf-8"))}

    def users(self, text: str) -> Iterator[str]:
        """The functions of a source that have the constants which it changes."""
        constants = [found[1] for _, old, _ in self.pairs if (found := re.search(r"\bconst (\w+):", old))]
        for name, start, end in bodies.functions(text):
            if any(re.search(rf"\b{constant}\b", text[start:end]) for constant in constants):
                yield name


@dataclass(frozen=True)
class Edit:
    """One line of a file of a crate, and the line in its place."""
    crate: str
    path: str
    number: int
    kind: str
    old: str
    new: str

    @property
    def text(self) -> str:
        return f"file: {self.path}\nold: {self.old}\nnew: {self.new}\n"

    @property
    def name(self) -> str:
        return f"{self.crate}/{hashlib.sha256(self.text.encode()).hexdigest()[:12]}"

    @property
    def function(self) -> str | None:
        """The function that it changes; none for a constant."""
        text = self.source.read_text(encoding="utf-8")
        return None if CONSTANT.match(code_of(self.old)) else bodies.function_at(text, text.find(self.old))

    @property
    def folder(self) -> Path:
        return TOP / "crates" / self.crate

    @property
    def source(self) -> Path:
        return self.folder / self.path

    @property
    def file(self) -> Written:
        """The edit as a file, once it is written."""
        return Written(FOLDER / f"{self.name}.edit")

    def __str__(self) -> str:
        place = f"{self.crate}/{self.path}:{self.number} {self.function or '-'}"
        return f"{place}: {self.kind}: {self.old.strip()} => {self.new.strip() or '(nothing)'}"


def end_of(text: str, place: int) -> int:
    """The end of a group that begins with a bracket at this place."""
    depth = 0
    for found in re.compile(r"[()\[\]{}]").finditer(text, place):
        depth += 1 if found[0] in PAIRS else -1
        if not depth:
            return found.end()
    return len(text)


def blank(text: str) -> str:
    return re.sub(r"[^\n]", " ", text)


def code_of(text: str) -> str:
    """A source with blanks for its comments, what is quoted, attributes, clauses and ghost items."""
    code = NO_CODE.sub(lambda found: f'"{blank(found[0][1:-1])}"' if found[0][0] in "\"'" else blank(found[0]), text)
    place = 0
    while found := NO_BODY.search(code, place):
        place = found.end() if found[0].endswith(";") else end_of(code, found.end())
        code = code[:found.start()] + blank(code[found.start():place]) + code[place:]
    return code


def body_at(code: str, place: int) -> tuple[int, int] | None:
    """Where the body of a function begins and ends whose parameters follow this place; its brace ends a line, or is that of `{}`."""
    while found := re.compile(r"[(\[{;]").search(code, place):
        if found[0] == ";":
            return None
        place = end_of(code, found.start())
        if found[0] == "{" and re.match(r"\{ *(\n|\})", code[found.start():]):
            return found.end(), place - 1
    return None


def regions(code: str) -> Iterator[tuple[int, int, str]]:
    """The bodies of functions, each with the type that it gives, and the values of constants."""
    for found in bodies.FUNCTION.finditer(code):
        if body := body_at(code, found.end()):
            given = re.search(r"\) -> ([^{]*)", code[found.end():body[0]])
            yield *body, " ".join(given[1].split()) if given else ""
    yield from ((*found.span(1), "") for found in CONSTANT.finditer(code))


@dataclass(frozen=True)
class Line:
    """A line of a body: its text, its code, the code of the line before it, and, for the last line, the type that the function gives."""
    text: str
    code: str
    before: str
    given: str

    def found(self, form: str) -> Iterator[re.Match[str]]:
        return re.finditer(form, self.code)

    def put(self, span: tuple[int, int], new: str) -> str:
        """The line with a text in place of a part of it, which $ stands for: no code has that."""
        return (self.text[:span[0]] + new.replace("$", self.text[slice(*span)]) + self.text[span[1]:]).rstrip()

    @property
    def begins(self) -> bool:
        """Whether a statement begins with it."""
        return self.before.endswith(("{", "}", ";"))


def deleted(line: Line) -> Iterator[str]:
    if line.begins and all(line.code.count(one) == line.code.count(other) for one, other in PAIRS.items()):
        yield from (line.put(found.span(1), "") for found in line.found(r"^ *((?!(?:let|use|const)\b)[\w*(].*;) *$"))


def negated(line: Line) -> Iterator[str]:
    yield from (line.put(found.span(1), "!($)") for found in line.found(r"\b(?:if|while) ((?!let\b).+) \{ *$") if " let " not in found[1])


def operator(line: Line) -> Iterator[str]:
    yield from (line.put(found.span(), SWAPS[found[0]]) for found in line.found(r"(?<= )(?:[<>]=?|[=!]=|&&|\|\||[+-]=?)(?= )"))


def off_by_one(line: Line) -> Iterator[str]:
    for found in line.found(r"(?:(?<=\.\.)|(?<![\w.]))(\d[\d_]*)(?=(?:[iu](?:\d\d?|size))?(?:\.\.|[^\w.]|$))"):
        yield from (line.put(found.span(1), str(int(found[1]) + more)) for more in (1, -1) if int(found[1]) + more >= 0)


def exchanged(line: Line) -> Iterator[str]:
    for call in line.found(r"(?<=[\w>])\("):
        end, commas, place = end_of(line.code, call.start()) - 1, [call.start()], call.end()
        while found := re.compile(r"[(\[{,]").search(line.code, place, end):
            commas += [found.start()] if found[0] == "," else []
            place = found.end() if found[0] == "," else end_of(line.code, found.start())
        for first, comma, last in zip(commas, commas[1:], [*commas[2:], end]):
            one, other = line.text[first + 1:comma].strip(), line.text[comma + 1:last].strip()
            if end < len(line.code) and one != other:
                yield line.put((first + 1, last), f"{' ' * (first != call.start())}{other}, {one}")


def unasked(line: Line) -> Iterator[str]:
    if line.begins:
        yield from (line.put(found.span(1), "let _ = $").replace("?;", ";")
                    for found in line.found(r"^ *((?!(?:let|return)\b)\w[^=]*)\?; *$"))


def plain(line: Line) -> Iterator[str]:
    """Another value of a condition, or another end of a function."""
    conditions = line.found(r"\b(?:if|while) !?([\w.]+\(.*\)) \{ *$")
    yield from (line.put(found.span(1), value) for found in conditions for value in PLAIN["bool"])
    if line.begins and line.given:
        values = [value for kind, values in PLAIN.items() if line.given.startswith(kind) for value in values]
        yield from (line.put(found.span(1), value) for found in line.found(r"^ *(\S.*\)\??) *$") for value in values)


def shortened(line: Line) -> Iterator[str]:
    yield from (line.put(found.span(1), "($).saturating_sub(1)") for found in line.found(r"\bfor .+ in [^.]+\.\.=?(.+) \{ *$"))
    yield from (line.put(found.span(1), "&$[..$.len().saturating_sub(1)]") for found in line.found(r"\bfor .+ in ([\w.]+) \{ *$")
                if ".." not in found[1])
    yield from (line.put(found.span(1), "$ + 1") for found in line.found(r"\bwhile ([\w.]+) < "))


KINDS = {"a statement deleted": deleted, "a condition negated": negated, "another operator": operator, "a constant off by one": off_by_one,
         "arguments exchanged": exchanged, "a fault ignored": unasked, "a plain result": plain, "a loop stops one early": shortened}


def edits_of(crate: str, path: str, text: str) -> list[list[Edit]]:
    """The edits of a source by its lines. A line that the file has twice has none, since an edit names a line by its text, and neither has
    a call of a lemma, which does nothing."""
    code, place, before, found = code_of(text), 0, "", []
    spans = [*regions(code)]
    for number, line in enumerate(text.split("\n"), 1):
        end = place + len(line)
        span = next((span for span in spans if span[0] < end and place + len(line) - len(line.lstrip()) < span[1]), None)
        if span and text.count(line) == 1 and "lemma_" not in line:
            begin = max(place, span[0])
            given = span[2] if not code[end:span[1]].strip() else ""
            here = Line(line, " " * (begin - place) + code[begin:min(end, span[1])], before, given)
            found.append([Edit(crate, path, number, kind, line, new) for kind, made in KINDS.items() for new in made(here) if new != line])
        before = code[place:end].strip() or before
        place = end + 1
    return [line for line in found if line]


def product(texts: bodies.Texts) -> list[str]:
    """The crates of the product: no tests, and no laws, which are functions that do nothing."""
    return [crate for crate in texts.words if not crate.startswith("test_") and not crate.endswith("_laws")]


def all_edits(crates: list[str]) -> list[list[Edit]]:
    return [edits for crate in sorted(crates) for path in sorted((TOP / "crates" / crate).glob("src/**/*.rt"))
            for edits in edits_of(crate, str(path.relative_to(TOP / "crates" / crate)), path.read_text(encoding="utf-8"))]


def drawn(lines: list[list[Edit]], seed: int) -> Iterator[Edit]:
    """All edits, in the order of a seed: of a line by chance, a kind by chance, and then one of that kind."""
    chance, left = random.Random(seed), [list(edits) for edits in lines]
    while left:
        edits = chance.choice(left)
        kind = chance.choice(sorted({edit.kind for edit in edits}))
        edit = chance.choice([edit for edit in edits if edit.kind == kind])
        edits.remove(edit)
        left = left if edits else [each for each in left if each]
        yield edit


class Kept:
    """What became of edits, by the beginning of the sum of the texts that it rests on, as earlier calls and this one keep it in a file."""

    def __init__(self, path: Path):
        self.path, self.fates = path, {}
        for line in path.read_text(encoding="utf-8").splitlines() if path.exists() else []:
            with contextlib.suppress(ValueError, KeyError):
                one = json.loads(line)
                self.fates[one["sum"]] = one["fate"]

    def of(self, stage: str, total: str) -> str | None:
        return self.fates.get(f"{stage} {total[:16]}")

    def keep(self, stage: str, total: str, edit: Edit, fate: str) -> None:
        one = {"sum": f"{stage} {total[:16]}", "fate": fate[:160], "edit": str(edit)}
        self.fates[one["sum"]] = fate
        with open(self.path, "a", encoding="utf-8") as file:
            # (what is before it may be half of a line)
            file.write("\n" + json.dumps(one))


@contextlib.contextmanager
def edited(*edits: Edit) -> Iterator[Path]:
    """A copy of the repository with edits of different lines."""
    with bodies.copied() as copy:
        for edit in edits:
            path = copy / edit.source.relative_to(TOP)
            path.write_text(path.read_text(encoding="utf-8").replace(edit.old, edit.new), encoding="utf-8")
        yield copy


def at_fault(edits: list[Edit], printed: str) -> list[Edit]:
    """The edits at whose lines the compiler found errors, or else those in whose functions it did."""
    places = {(path, int(number)) for path, number in ERROR.findall(printed)}
    functions = {(path, bodies.goal(edits[0].crate, f"{path}:{number}:1:")) for path, number in places}
    return ([edit for edit in edits if (edit.path, edit.number) in places] or
            [edit for edit in edits if (edit.path, edit.function) in functions])


def not_compiled(folder: Path, edits: list[Edit]) -> dict[Edit, str]:
    """Those of edits of different lines that do not compile in a copy of their crate, each with what the compiler says."""
    for edit in edits:
        edit.file.applied(folder)
    printed = called(folder, "rt", "check", "--jobs", "1", "--only", "")[1]
    for path in {edit.path for edit in edits}:
        shutil.copy2(TOP / "crates" / edits[0].crate / path, folder / path)
    if bodies.COMPILED.search(printed):
        return {}
    wrong = at_fault(edits, printed) or edits
    if wrong == edits and len(edits) > 1:
        half = len(edits) // 2
        return not_compiled(folder, edits[:half]) | not_compiled(folder, edits[half:])
    left = [edit for edit in edits if edit not in wrong]
    return {edit: f"BAD EDIT: {printed[-200:]}" for edit in wrong} | (not_compiled(folder, left) if left else {})


def line_of(edit: Edit) -> set[tuple[str, str, int]]:
    return {(edit.crate, edit.path, edit.number)}


def without_answers(path: Path, names: set[str]) -> None:
    """Removes answers of a proof file: the lines that begin with their names, and those that go on with them."""
    kept, is_of_them = [], False
    for text in path.read_text(encoding="utf-8").split("\n"):
        if re.match(r"[\w-]", text):
            is_of_them = text.removeprefix("pub ").split(" ")[0] in names
        kept += [] if is_of_them else [text]
    path.write_text("\n".join(kept), encoding="utf-8")


def fates_by_search(edits: list[Edit]) -> dict[Edit, str]:
    """What becomes of edits of different functions of a crate that change names which answers have, where those goals are searched
    instead: one is refused if a goal of it is false. That the search did not find a proof which a person wrote before shows nothing. Those
    that waited for others are tried once more without them, and each alone if a goal belongs to none of them."""
    with bodies.copied() as copy:
        kept = Path("crates", edits[0].crate, "out/incremental")
        shutil.copytree(TOP / kept, copy / kept)
        printed = said_by_search(copy / "crates" / edits[0].crate, edits)
    found = [(line, bodies.goal(edits[0].crate, line)) for line in bodies.GOAL.findall(printed)]
    is_alone, waits = len(edits) == 1, set(bodies.WAITS.findall(printed))
    if not is_alone and any(not any(function in edit.file.wanted for edit in edits) for _, function in found):
        return {edit: fate for one in edits for edit, fate in fates_by_search([one]).items()}
    goals = {edit: [line for line, function in found if is_alone or function in edit.file.wanted] for edit in edits}
    waiting = [edit for edit, lines in goals.items() if not lines and edit.file.wanted & waits]
    again = fates_by_search(waiting) if waiting and len(waiting) < len(edits) else {}
    return {edit: search_fate(lines) for edit, lines in goals.items()} | again


def said_by_search(folder: Path, edits: list[Edit]) -> str:
    """What a check says of edits in a copy of their crate, once it has no answers any more with names that are gone."""
    for edit in edits:
        edit.file.applied(folder)
    for _ in range(5):
        printed = bodies.checked(folder, [edit.file for edit in edits])
        gone = [line for line in bodies.GOAL.findall(printed) if bodies.GONE.match(line)]
        for path, name in (answer.groups() for line in gone if (answer := ANSWER.match(line))):
            without_answers(folder / path, {name})
        if not gone:
            break
    return printed


def search_fate(goals: list[str]) -> str:
    """The fate that these goals mean, which no search proved."""
    by = next((line for line in goals if FALSE in line), None)
    return f"refused: {by[:200]}" if by else f"ONLY BY A NAME: {goals[0][:200]}" if goals else "NOT REFUSED: its functions are still proved"


def fate_above(edit: Edit, texts: bodies.Texts) -> str:
    """What the crates that name the edit's crate say of it, if its library has another interface: the first one that refuses it."""
    own, library = Path("crates", edit.crate), Path("crates", edit.crate, "out", "rlib", f"{edit.crate}.rlib", "interface", "lang")
    with edited(edit) as copy:
        status, said = called(copy / own, "rt", "lib")
        if status:
            return f"NOT TRIED: no library: {said[-200:]}"
        if not called(TOP, "diff", "-r", str(library), str(copy / library))[0]:
            return "NOT REFUSED: the library has the same interface"
        for crate in sorted(crate for crate, (_, below) in texts.words.items() if edit.crate in below):
            status, said = called(copy / "crates" / crate, "rt", "check")
            line = next((line for line in said.splitlines() if re.search(r":\d+:\d+: error|^note: ", line)), said[-200:])
            if status:
                return f"refused by {crate}: {line}" if "logic=not-proved" in said else f"NOT TRIED: {crate}: {line}"
    return "NOT REFUSED"


def bodies_of(text: str) -> list[tuple[int, int]]:
    """Where the bodies of the functions of a source begin and end."""
    code = code_of(text)
    return [body for found in bodies.FUNCTION.finditer(code) if (body := body_at(code, found.end()))]


def bodies_with(text: str, edit: Edit) -> dict[tuple[int, int], str]:
    """The bodies of functions that an edit of a source changes, by where each begins and ends, as they are with it; none for a function
    that is computed in types, and for a constant that has a use outside of the bodies of this source, or is no plain number."""
    if not edit.function:
        constant = None if may_be_seen(edit) else PRIVATE.match(edit.new)
        name, size, value = constant.groups() if constant else ("", "", "")
        found = {span: text[slice(*span)] for span in bodies_of(text)} if constant else {}
        return {span: re.sub(rf"\b{name}\b", value + size, body) for span, body in found.items() if re.search(rf"\b{name}\b", body)}
    at, end = text.find(edit.old), text.find(edit.old) + len(edit.old)
    # (the line of a short body has its braces, too)
    whole = text[:at] + edit.new + text[end:]
    return {} if may_be_seen(edit) else {
        (begin, last): whole[begin:last + len(edit.new) - len(edit.old)] for begin, last in bodies_of(text)
        if begin < end and at + len(edit.old) - len(edit.old.lstrip()) < last}


@functools.cache
def failing(*edits: Edit) -> frozenset[str] | None:
    """The checks of `make check FAST=1` that fail twice with programs that were compiled with these edits; none where they were not."""
    with edited(*edits) as copy:
        if any(called(copy, "package/program.sh", str(copy / "crates" / crate / "out"), crate)[0] for crate in (bodies.PROGRAM, AGENTS)):
            return None
        found = failed(copy, one_program.CHECKS)
        again = failed(copy, sorted({name.partition(":")[0] for name in found})) if found else found
        return None if found is None or again is None else found & again


def failed(top: Path, names: list[str]) -> frozenset[str] | None:
    """The checks of these scripts and directories that fail, each after its script; none where they could not run."""
    printed = called(top, "env", "FAST=1", "tests/check.sh", *names)[1]
    if not re.search(r"^\d+ passed, \d+ failed$", printed, re.MULTILINE):
        return None
    listed = re.findall(r"^failed \d+:\n((?:    .*\n)*)", printed, re.MULTILINE)
    return frozenset(line.strip() for lines in listed for line in lines.splitlines())


def fates_of_tests(edits: list[Edit]) -> dict[Edit, str]:
    """What the checks say of edits of different lines, all in one program; by halves if one of them fails."""
    found, always = failing(*edits), failing()
    if found is None or always is None:
        return dict.fromkeys(edits, "NOT TRIED: the program was not compiled")
    if not found - always:
        return dict.fromkeys(edits, "NOT REFUSED")
    if len(edits) == 1:
        return {edits[0]: f"refused by {min(found - always)}"}
    half = len(edits) // 2
    return fates_of_tests(edits[:half]) | fates_of_tests(edits[half:])


def may_be_seen(edit: Edit) -> bool:
    """Whether an edit changes more than bodies, which no other crate sees: a function that is computed in types, or a constant that is used
    outside of the bodies of its own source."""
    text = edit.source.read_text(encoding="utf-8")
    if edit.function:
        return f"const fn {edit.function}" in text
    name = re.search(r"\bconst (\w+):", edit.old)[1]
    for begin, last in reversed(bodies_of(text)):
        text = text[:begin] + text[last:]
    texts = [path.read_text(encoding="utf-8") for part in ("src", "specs") for path in edit.folder.glob(f"{part}/**/*") if path.is_file()
             and path != edit.source]
    return edit.old.startswith("pub ") or sum(len(re.findall(rf"\b{name}\b", each)) for each in [text, *texts]) > 1


@dataclass
class Judge:
    """Says of each edit what became of it, and has those tried of which nothing is kept."""
    texts: bodies.Texts
    kept: Kept
    with_tests: bool
    lanes: int

    def stage(self, edit: Edit) -> tuple[str, str]:
        """The stage that decided about an edit, or the one to be tried, with the sum of what its answer will rest on."""
        weak = False
        for stage, total in self.stages(edit):
            fate = self.kept.of(stage, total)
            if fate is None:
                return stage, total
            weak = weak or fate.startswith("ONLY BY A NAME")
            if not fate.startswith(("NOT REFUSED", "ONLY BY A NAME")):
                return "bad" if fate.startswith("BAD EDIT") else stage, ""
        return "weak" if weak else "alive", ""

    def stages(self, edit: Edit) -> Iterator[tuple[str, str]]:
        """The stages of an edit, each with the sum of what its answer rests on."""
        own, whole = self.texts.sum_of(edit.file), self.texts.sum_of(edit.file, bodies.PROGRAM)
        yield from (("compiler", own), ("proof", own))
        # (the checks take less time than the proofs of all crates above)
        if self.with_tests:
            yield "test", whole
        if may_be_seen(edit):
            yield "above", whole

    def note(self, edit: Edit, fate: str) -> None:
        if not fate.startswith("NOT TRIED"):
            self.kept.keep(*self.stage(edit), edit, fate)
        print(f"  {edit}\n    {fate[:200]}", flush=True)

    def compile(self, crate: str, edits: list[Edit]) -> None:
        """Has the compiler try edits of one crate."""
        with bodies.copied() as copy:
            wrong = {edit for group in bodies.apart(edits, line_of) for edit in not_compiled(copy / "crates" / crate, group)}
        for edit in edits:
            self.kept.keep(*self.stage(edit), edit, "BAD EDIT" if edit in wrong else "NOT REFUSED")

    def prove(self, crate: str, edits: list[Edit]) -> None:
        """Tries edits of one crate by its proof."""
        began = time.monotonic()
        fates, printed = bodies.judged(crate, [edit.file for edit in edits])
        after = bodies.Texts()
        print(f"{crate}: {len(edits)} tried in {time.monotonic() - began:.0f} s", *([] if fates else printed.splitlines()[-20:]), sep="\n")
        weak = [edit for edit in edits if fates.get(edit.name, "").startswith("ONLY BY A NAME")]
        for group in bodies.apart(weak, lambda edit: edit.file.touched | edit.file.wanted):
            fates |= {edit.name: fate for edit, fate in fates_by_search(group).items()}
        for edit in edits:
            fate = fates.get(edit.name, "NOT TRIED: nothing was printed of it").replace("BAD EDIT", "NOT TRIED")
            if after.sum_of(edit.file) != self.texts.sum_of(edit.file):
                fate = "NOT TRIED: a file that it rests on changed meanwhile"
            by = bodies.goal(crate, fate) if fate.startswith("refused") else None
            self.note(edit, f"{fate} [goal of {by}]" if by else fate)

    def test(self, edits: list[Edit]) -> Iterator[tuple[Edit, str]]:
        """What the checks of the built program say of edits."""
        of_program = self.texts.at_or_below(bodies.PROGRAM)
        together = [edit for edit in edits if edit.crate in of_program and bodies_with(edit.source.read_text(encoding="utf-8"), edit)]
        for group in bodies.apart((edit for edit in edits if edit not in together), line_of):
            yield from fates_of_tests(group).items()
        if together:
            yield from one_program.fates(together, bodies_with, self.lanes)

    def try_all(self, edits: Iterable[Edit]) -> None:
        """Moves each of these on by one stage."""
        by_stage = collections.defaultdict(lambda: collections.defaultdict(list))
        for edit in edits:
            by_stage[self.stage(edit)[0]][edit.crate].append(edit)
        for stage, call in (("compiler", self.compile), ("proof", self.prove)):
            collections.deque(bodies.in_lanes(by_stage[stage], self.lanes, call), maxlen=0)
        for edit, fate in self.test([*itertools.chain(*by_stage["test"].values())]):
            self.note(edit, fate)
        for edit in itertools.chain(*by_stage["above"].values()):
            self.note(edit, fate_above(edit, self.texts))


def written(edit: Edit) -> Edit:
    """Writes an edit as a file."""
    edit.file.path.parent.mkdir(parents=True, exist_ok=True)
    edit.file.path.write_text(edit.text, encoding="utf-8")
    return edit


def compiling(edits: Iterator[Edit], count: int, judge: Judge) -> list[Edit]:
    """The first edits that compile. Two of five do not, so more are tried together than are wanted."""
    found: list[Edit] = []
    while len(found) < count and (more := [written(edit) for edit in itertools.islice(edits, (count - len(found)) * 5 // 3)]):
        judge.try_all(edit for edit in more if judge.stage(edit)[0] == "compiler")
        found += [edit for edit in more if judge.stage(edit)[0] != "bad"]
    return found[:count]


def judged(edits: Iterator[Edit], count: int, judge: Judge) -> dict[Edit, str]:
    """The first edits that compile, each with the stage that decided about it; ? stands for what could not be tried."""
    chosen, stuck = compiling(edits, count, judge), set()
    while left := {edit: judge.stage(edit) for edit in chosen if edit not in stuck and judge.stage(edit)[1]}:
        judge.try_all(left)
        stuck |= {edit for edit, stage in left.items() if judge.stage(edit) == stage}
    return {edit: "?" if edit in stuck else judge.stage(edit)[0] for edit in chosen}


def table(found: dict[Edit, str], below: list[str]) -> str:
    """The numbers by kind, and of some crates, in Markdown; and the edits that are alive."""
    columns = {"edits": None, "refused by their proof": "proof", "by one above": "above", "by a check": "test", "only by a name": "weak",
               "alive": "alive", "not tried": "?"}
    rows = {kind: [stage for edit, stage in found.items() if edit.kind == kind] for kind in KINDS}
    rows |= {f"in the {len(below)} crates up to `executor`": [stage for edit, stage in found.items() if edit.crate in below],
             "**all**": [*found.values()]}
    lines = [["", *columns], ["---", *("---:" for _ in columns)]]
    lines += [[name, *(str(stages.count(stage) if stage else len(stages)) for stage in columns.values())] for name, stages in rows.items()]
    return "\n".join([*(f"| {' | '.join(line)} |" for line in lines),
                      *(f"{stage}: {edit}" for edit, stage in found.items() if stage in ("alive", "weak", "?"))])


def main() -> int:
    asked = argparse.ArgumentParser(description=__doc__.split("\n", maxsplit=1)[0])
    asked.add_argument("--seed", type=int, default=1)
    asked.add_argument("--count", type=int, default=20)
    asked.add_argument("--tests", action="store_true", help="whether `make check FAST=1` sees what no proof refuses")
    asked.add_argument("-j", type=int, default=2, metavar="CRATES", help="how many crates are tried at a time; 2 if left out")
    asked.add_argument("crates", nargs="*", metavar="CRATE", help="all of the product, if left out")
    words, texts = asked.parse_args(), bodies.Texts()
    signal.signal(signal.SIGTERM, lambda *_: sys.exit(143))
    FOLDER.mkdir(parents=True, exist_ok=True)
    lines = all_edits(words.crates or product(texts))
    if not lines:
        sys.exit("random_edits.py: these crates have no line to edit")
    found = judged(drawn(lines, words.seed), words.count, Judge(texts, Kept(FOLDER / "tried"), words.tests, words.j))
    print(table(found, [crate for crate in product(texts) if crate in texts.at_or_below("executor")]))
    return 1 if "?" in found.values() else 0


if __name__ == "__main__":
    sys.exit(main())
