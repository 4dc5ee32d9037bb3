"""Plants each wrong body of tests/planted/ in a copy, and runs the tests there; tests/planted.sh says how."""

import os
import pathlib
import re
import shutil
import subprocess
import sys
import tempfile

ROOT = pathlib.Path(sys.argv[1])
CRATES = ROOT / "crates"
# the name of the crate that has all tests, and of those that are tried as they stand
ALL = "planted"
AS_IT_STANDS = "as_it_stands"
# so many turns a call of a test is held at most, where one that is not let on shall not be waited for long
TURNS = (re.compile(r"(const TURNS: u32 =) \d+(?:_\d+)*;"), r"\1 2_000_000;")


class Edit:
    """A wrong body: the crate that it is of, the crate whose tests have to tell it, and what it changes."""

    def __init__(self, path):
        self.name = path.stem
        self.changes = []
        for line in path.read_text().splitlines():
            word, _, rest = line.partition(" ")
            if word == "crate:":
                self.crate = rest
            elif word == "tests:":
                self.tests = rest
            elif word == "file:":
                file = rest
            elif word == "old:":
                old = rest
            elif word == "new:":
                self.changes.append((file, old, rest))
        self.planted = f"{self.crate}_{self.name}"

    def lay(self, crates):
        """Makes the crate with this edit, beside the one that it is of."""
        shutil.copytree(CRATES / self.crate / "src", crates / self.planted / "src")
        for file, old, new in self.changes:
            path = crates / self.planted / file
            text = path.read_text()
            if text.count(old) != 1:
                sys.exit(f"{self.name}: stands {text.count(old)} times in {file}: {old}")
            path.write_text(text.replace(old, new))


def listed():
    """What each crate of crates.txt stands on."""
    lines = [line.partition("#")[0] for line in (ROOT / "crates.txt").read_text().splitlines()]
    pairs = [line.partition(":") for line in lines if line.strip()]
    return {name.split()[0]: below.split() for name, _, below in pairs}


def reaching(tests, crate):
    """The modules of a crate of tests that come to another crate, and those that they use."""
    texts = {it.stem: it.read_text() for it in (CRATES / tests / "src/tests").glob("*.rt")}
    uses = {name: set(re.findall(r"crate::tests::(\w+)", text)) for name, text in texts.items()}
    kept = {name for name, text in texts.items() if re.search(rf"\b{crate}::", text)}
    for find in (lambda name: uses[name] & kept, lambda name: any(name in uses[it] for it in kept)):
        size = -1
        while size != len(kept):
            size = len(kept)
            kept |= {name for name in texts if find(name)}
    return kept


def lay_tests(tests, crate, planted, module, source):
    """Copies the tests of a crate to a module, as tests of the crate with the edit."""
    kept = reaching(tests, crate)
    for path in (CRATES / tests / "src").rglob("*.rt"):
        file = path.relative_to(CRATES / tests / "src")
        if file.parts[0] == "tests" and file.stem not in kept:
            continue
        text = path.read_text().replace("#![tactic(auto)]\n", "").replace("crate::", f"crate::{module}::")
        text = re.sub(rf"\b{crate}::", f"{planted}::", text)
        text = TURNS[0].sub(TURNS[1], text)
        if file.name == "tests.rt":
            text = re.sub(r"^mod (\w+);\n", lambda it: it[0] if it[1] in kept else "", text, flags=re.M)
        to = source / (f"{module}.rt" if file.name == "lib.rt" else f"{module}/{file}")
        to.parent.mkdir(parents=True, exist_ok=True)
        to.write_text(text)


def lay(edits, work):
    """Makes a repository that has the crates as they stand, each edit as a crate of its own, and all tests in one crate."""
    crates, lines = work / "crates", (ROOT / "crates.txt").read_text().splitlines()
    below = listed()
    for name in below:
        shutil.copytree(CRATES / name / "src", crates / name / "src")
    shutil.copy(ROOT / "HANDLES", work)
    # each crate of tests is tried once as it stands
    runs = {(f"{AS_IT_STANDS}_{it.crate}", it.crate, it.crate, it.tests) for it in edits}
    runs |= {(it.name, it.crate, it.planted, it.tests) for it in edits}
    for it in edits:
        it.lay(crates)
        lines.append(f"{it.planted}: {' '.join(below[it.crate])}")
    for module, crate, planted, tests in runs:
        lay_tests(tests, crate, planted, module, crates / ALL / "src")
    needs = {name for it in edits for name in [*below[it.tests], it.planted]}
    lines.append(f"{ALL} tests_may=Threads+Wait: {' '.join(sorted(needs))}")
    modules = sorted(module for module, *_ in runs)
    (crates / ALL / "src/lib.rt").write_text("".join(f"#[cfg(test)]\nmod {it};\n" for it in modules))
    (work / "crates.txt").write_text("\n".join(lines) + "\n")
    return modules


def main():
    edits = [Edit(it) for it in sorted((ROOT / "tests/planted").glob("*.edit"))]
    with tempfile.TemporaryDirectory() as folder:
        work = pathlib.Path(folder)
        modules = lay(edits, work)
        ran = subprocess.run(["rt", "try", "--test"], cwd=work / "crates" / ALL, stdin=subprocess.DEVNULL,
            stdout=subprocess.PIPE, stderr=subprocess.STDOUT, text=True, errors="replace",
            env={**os.environ, "RT_SECONDS": "600"})
    told = re.findall(r"^test (?:\w+::)??(\w+)::\S+ \.\.\. (ok|FAILED)", ran.stdout, re.M)
    passed = failed = 0
    for module in modules:
        ends = [how for name, how in told if name == module]
        if ends and ("FAILED" in ends) != module.startswith(AS_IT_STANDS):
            passed += 1
        else:
            failed += 1
            print(f"failed: {module}: {ends.count('FAILED')} of {len(ends)} tests fail")
    if not told:
        print(ran.stdout[-2000:])
    print(f"{passed} passed, {failed} failed")
    return failed != 0


sys.exit(main())
