"""The crates outside the gate, whose files end in .rt.txt: the gate does not compile them, and some are compiled by hand alone. What they
import is there."""
import re
from pathlib import Path

import helper

# the words of crates in the script that builds a crate, with its name before a colon, by the directory of the crate's files
SCRIPTS = {"bench/rates": "bench/rates.sh", "bench/index": "bench/rates.sh", "tests/scenarios": "tests/scenarios/build.sh",
           "tests/trials": "tests/trials/build.sh"}
USE = re.compile(r"^\s*(pub )?use (\w+)::(\{[^;]*\}|\w+)(?:::[^;]+)?;", re.MULTILINE)


def used(text: str, public: bool = False) -> list[tuple[str, list[str]]]:
    """Each module that is named in a `use`, with the names that are taken from it."""
    return [(found[2], [word.split(" as ")[-1 if public else 0].strip() for word in found[3].strip("{} \n").split(",") if word.strip()])
            for found in USE.finditer(text) if not public or found[1]]


def offered(crate: str) -> set[str]:
    """The names that a crate of the gate offers."""
    text = Path(helper.TOP, "crates", crate, "src/lib.rt").read_text(encoding="utf-8")
    names = {name for _, taken in used(text, public=True) for name in taken}
    return names | set(re.findall(r"^pub (?:mod|(?:const )?fn|const|struct|enum|trait|type) (\w+)", text, re.MULTILINE))


def below(crates: set[str]) -> set[str]:
    """These crates, and the crates of the gate below them."""
    lines = dict(re.findall(r"^(\w+):(.*)$", Path(helper.TOP, "crates.txt").read_text(encoding="utf-8"), re.MULTILINE))
    found: set[str] = set()
    while crates:
        found |= crates
        crates = {name for crate in crates for name in lines.get(crate, "").split()} - found
    return found


class Apart(helper.Check):
    def test_imports(self) -> None:
        """what a crate outside the gate imports is offered by a crate of the gate that its line names, or one below that"""
        ours = {path.parents[1].name for path in Path(helper.TOP).glob("crates/*/src/lib.rt")}
        count = 0
        for place, script in SCRIPTS.items():
            line = re.search(rf"{Path(place).name}: ([^':]*)(?:'|\n\w+:)", Path(helper.TOP, script).read_text(encoding="utf-8"))
            self.assertTrue(line, f"{script} has no line of {place}")
            named = below(set(line[1].split()))
            for path in sorted(Path(helper.TOP, place, "src").rglob("*.rt.txt")):
                for crate, names in used(path.read_text(encoding="utf-8")):
                    if crate in ours:
                        count += 1
                        where = f"{path.relative_to(helper.TOP)}: {crate}"
                        self.assertIn(crate, named, f"{where} is not named in {script}")
                        self.assertLessEqual(set(names), offered(crate), f"{where} does not offer it")
        self.assertGreater(count, 100)


if __name__ == "__main__":
    helper.main()
