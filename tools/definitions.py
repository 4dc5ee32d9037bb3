"""The definitions that contracts speak in: what each file has, and all that the headline leads to.

    python3 tools/definitions.py             each file under crates/NAME/specs, with the first sentence of its comment
    python3 tools/definitions.py CRATE..     those of these crates
    python3 tools/definitions.py headline    the definitions that AreOpaque leads to, counted by crate

The tables of docs/DEFINITIONS.md are rows of these, and tests/documents.py compares them.

From the headline: each name that a definition uses, each name that those use, and so on, but for the standard library and
the kit's crates. Of code these are types, as contracts see them: fields and cases, a model's value and view where there is
one, the ghost members of a trait. Lines are counted without comments and blanks.
"""

import pathlib
import re
import sys

ROOT = pathlib.Path(__file__).resolve().parent.parent
CRATES = ROOT / "crates"
HEADLINE = (CRATES / "world_rules/specs/Headline.antt", "AreOpaque")

NAME = re.compile(r"(?<![.\w])[A-Za-z_]\w*")
STARTS = re.compile(r"( *)(?:abbrev (?:pub )?|(?:pub )?record |(?:pub )?data )([A-Za-z_]\w*)")
MODULE = re.compile(r"( *)module _")
TYPE = re.compile(r"pub (?:struct|enum|type|const|trait) ([A-Za-z_]\w*)")
IMPORT = re.compile(r"use Rattle\.(\w+)\.specs\.([\w.]+?)(?:\.\{(.*)\}|(?: as \w+)?);?$")
FIELD = re.compile(r"^ *pub \w+ :|\b\w+ = ")


def first_sentence(path):
    """The first sentence of the comment at the top of a file of definitions."""
    line = path.read_text().partition("\n")[0]
    return line.removeprefix("-- ").partition(". ")[0].rstrip(".") + "." if line.startswith("-- ") else ""


def file_row(path):
    """A file of definitions as a row of a table."""
    return f"`{path.relative_to(CRATES).as_posix()}` | {first_sentence(path)}"


def spec_files(crates):
    """The files of definitions of these crates, in the order of crates.txt."""
    return [it for crate in crates for it in sorted((CRATES / crate / "specs").rglob("*.antt")) if it.name != "Lib.antt"]


def all_crates():
    lines = [it.partition("#")[0].split(":")[0].split() for it in (ROOT / "crates.txt").read_text().splitlines()]
    return [it[0] for it in lines if it]


class Definition:
    """The lines of a definition that count, and those whose names it uses."""

    def __init__(self, path, name, context=()):
        self.path, self.name, self.lines, self.context = path, name, [], list(context)

    def names(self):
        for line in [*self.context, *self.lines]:
            yield from NAME.findall(FIELD.sub(" ", line))


def uncommented(line, mark):
    return line.partition(mark)[0].rstrip()


def of_specs(path):
    """The definitions of a file, by name."""
    found, modules, here = {}, [], None
    for raw in path.read_text().splitlines():
        line = uncommented(raw, "--")
        if not line.strip() or line.startswith("use ") or line.startswith("pub mod"):
            continue
        depth = len(line) - len(line.lstrip())
        if MODULE.match(line):
            modules = [it for it in modules if it[0] < depth] + [(depth, line)]
            here = None
        elif start := STARTS.match(line):
            modules = [it for it in modules if it[0] < depth]
            here = found.setdefault(start[2], Definition(path, start[2], [it[1] for it in modules]))
        if here:
            here.lines.append(line)
    return found


def block(lines, at):
    """The lines of an item that begins here, to the one that closes it."""
    taken, open_ones = [], 0
    for line in lines[at:]:
        taken.append(line)
        open_ones += line.count("{") - line.count("}")
        if open_ones == 0 and (line.endswith(";") or line.endswith("}")):
            return taken
    return taken


def of_code(path):
    """The types of a source file, by name, as contracts see them."""
    lines = [it for it in (uncommented(raw, "//") for raw in path.read_text().splitlines()) if it.strip()]
    lines = [it for it in lines if not it.lstrip().startswith("#[")]
    found = {}
    for at, line in enumerate(lines):
        if start := TYPE.match(line):
            item = found[start[1]] = Definition(path, start[1])
            item.lines = block(lines, at)
            if line.startswith("pub trait"):
                item.lines = [it for it in item.lines if re.match(r" *ghost (?!use |laws\b)\w+:", it)]
    for at, line in enumerate(lines):
        if (model := re.match(r"impl\b.* Model for (\w+)", line)) and model[1] in found:
            seen = [it for it in block(lines, at) if re.match(r" *ghost (Value|view)\b", it)]
            found[model[1]].lines = seen
    return found


class Definitions:
    def __init__(self):
        self.files, self.homes = {}, {}

    def of(self, path):
        if path not in self.files:
            self.files[path] = of_specs(path) if path.suffix == ".antt" else of_code(path)
        return self.files[path]

    def declared(self, crate, name):
        """The source file of a crate that declares a type, if one does."""
        if crate not in self.homes:
            sources = sorted((CRATES / crate / "src").rglob("*.rt"))
            self.homes[crate] = {it: path for path in reversed(sources) for it in self.of(path)}
        return self.homes[crate].get(name)

    def imports(self, path):
        """Where the names that a file brings in are declared: pairs of a file and the name there."""
        text = re.sub(r"\bghost use\b", "use", path.read_text())
        crate = path.relative_to(CRATES).parts[0]
        found = {}
        for line in (it.strip() for it in text.splitlines()):
            if not (use := IMPORT.match(line)) or not (CRATES / use[1]).is_dir():
                continue
            places = use[2].split(".")
            if places[0] == "declared":
                owner = next((it for it in reversed(places) if not it.startswith("The")), "")
                named = [it.split(" as ") for it in (use[3] or "").split(", ")]
                for it in named:
                    kept = it[0] if places[-1] == "TheConstants" else owner
                    if home := self.declared(use[1], kept):
                        found[it[-1]] = (home, kept)
                continue
            home = CRATES / use[1] / "specs" / ("/".join(places) + ".antt")
            for it in (use[3] or "").split(", "):
                there, _, here = it.partition(" as ")
                found[here or there] = (home, there)
        for owner, names in re.findall(r"^\s*use (\w+)(?:::\w+)*::(\{[^}]*\}|\w+);", text, re.M):
            owner = crate if owner == "crate" else owner
            if (CRATES / owner).is_dir():
                for it in NAME.findall(names):
                    if home := self.declared(owner, it):
                        found[it] = (home, it)
        return found

    def reached(self, path, name):
        """All definitions that this one leads to, itself too."""
        wanted, found = [(path, name)], {}
        while wanted:
            path, name = wanted.pop()
            here = self.of(path).get(name)
            if here is None or (path, name) in found:
                continue
            found[path, name] = here
            imports = self.imports(path)
            for it in here.names():
                if it in self.of(path):
                    wanted.append((path, it))
                elif it in imports:
                    wanted.append(imports[it])
        return found


def headline():
    """The definitions that the headline leads to, by crate from the top: how many, on how many lines, and in which files."""
    found = Definitions().reached(*HEADLINE)
    by_crate = {}
    for (path, _), it in found.items():
        by_crate.setdefault(path.relative_to(CRATES).parts[0], []).append(it)
    rows = []
    for crate in reversed([it for it in all_crates() if it in by_crate]):
        items = by_crate[crate]
        lines = {}
        for it in items:
            lines[it.path] = lines.get(it.path, 0) + len(it.lines)
        files = sorted(lines, key=lambda it: (it.suffix, -lines[it], it.name))
        rows.append((crate, len(items), sum(lines.values()), [it.name for it in files]))
    return rows


def headline_rows():
    """The same as rows of a table, and their sum."""
    rows = headline()
    table = [f"`{crate}` | {count} | {lines} | {', '.join(f'`{it}`' for it in files)}" for crate, count, lines, files in rows]
    return table, f"{sum(it[1] for it in rows)} definitions on {sum(it[2] for it in rows)} lines"


def main(words):
    if words == ["headline"]:
        rows, total = headline_rows()
        print("\n".join([*rows, total]))
    else:
        print("\n".join(file_row(it) for it in spec_files(words or all_crates())))
    return 0


if __name__ == "__main__":
    sys.exit(main(sys.argv[1:]))
